//! The sessions that `session_vectors` plays: honest ones, forged ones, calls refused and calls out
//! of order.

use super::calls::{Script, SessionCall};
use super::faults::faulty;
use super::instance::Shape;
use super::piece::Piece;
use super::ProgramFile;
use crate::commitment::RHO;
use crate::map::evaluate;
use crate::random::Generator;
use crate::scheme::{Scheme, SCHEMES};
use crate::system::System;

/// A key with a scheme and N, and the script that its session is played in.
struct Play<'a> {
    script: &'a mut Script,
    random: Generator,
    scheme: Scheme,
    shape: Shape,
    rounds: u8,
    system: Piece,
    s: Vec<u8>,
    v: Vec<u8>,
    strewn: Strewn,
}

/// Which refused calls stand before each right one.
#[derive(Clone, Copy, PartialEq, Eq)]
enum Strewn {
    None,
    /// One in turn.
    One(usize),
    /// All faulty ones.
    Faulty,
    /// All calls of both ends that are not due.
    NotDue,
}

/// What a carrier asks for in a round, and what the card is lent.
#[derive(Clone)]
struct Round {
    lent: Vec<u8>,
    alpha: u8,
    challenge: u8,
}

/// The messages that the card sent in a round.
#[derive(Clone, Default)]
struct Sent {
    commitments: Vec<u8>,
    middle: Vec<u8>,
    reply: Vec<u8>,
}

impl Play<'_> {
    /// A random key, before the openings.
    fn new(script: &mut Script, seed: u64, scheme: Scheme, shape: Shape, rounds: u8) -> Play<'_> {
        let mut random = Generator::from_seed(seed);
        let system = shape.random_system(&mut random);
        let s = shape.random_elements(&mut random, shape.n());
        let read = System::read(&system.expanded()).expect("a well-formed system");
        Play {
            v: evaluate(&read, &s),
            script,
            random,
            scheme,
            shape,
            rounds,
            system,
            s,
            strewn: Strewn::None,
        }
    }

    fn open_card(&self) -> SessionCall {
        SessionCall::OpenCard {
            system: self.system.clone(),
            scheme: self.scheme.byte(),
            rounds: self.rounds,
            v: self.v.clone(),
            s: self.s.clone(),
        }
    }

    fn open_carrier(&self) -> SessionCall {
        SessionCall::OpenCarrier {
            system: self.system.clone(),
            scheme: self.scheme.byte(),
            rounds: self.rounds,
            v: self.v.clone(),
        }
    }

    fn open(&mut self) {
        self.script.call(self.open_card());
        self.script.call(self.open_carrier());
    }

    /// A round with random elements, α and challenge.
    fn round(&mut self) -> Round {
        let (shape, scheme) = (self.shape, self.scheme);
        let count = 2 * shape.n() + shape.m();
        let vectors = shape.random_elements(&mut self.random, count);
        let rho = usize::from(scheme.commitments()) * RHO;
        let rho = self.random.bytes_below(256, rho);
        Round {
            lent: [vectors, rho].concat(),
            alpha: self.random.byte_below(shape.q.into()),
            challenge: self.random.byte_below(scheme.commitments().into()),
        }
    }

    fn commit(&self, round: &Round) -> SessionCall {
        SessionCall::Commit {
            system: self.system.clone(),
            lent: round.lent.clone(),
            out: self.scheme.commitments_length(),
        }
    }

    fn answer(&self, round: &Round) -> SessionCall {
        SessionCall::Answer {
            system: self.system.clone(),
            alpha: round.alpha,
            out: self.shape.n() + self.shape.m(),
        }
    }

    fn reply(&self, round: &Round) -> SessionCall {
        SessionCall::Reply {
            challenge: round.challenge,
            out: self.scheme.reply_length(self.shape.dimensions()),
        }
    }

    fn take_reply(&self, reply: &[u8]) -> SessionCall {
        SessionCall::TakeReply {
            system: self.system.clone(),
            reply: reply.to_vec(),
        }
    }

    /// Every call but the openings, with right arguments; messages of no round.
    fn every_call(&self, round: &Round) -> Vec<SessionCall> {
        let size = self.shape.dimensions();
        vec![
            self.commit(round),
            self.answer(round),
            self.reply(round),
            SessionCall::TakeCommitments(vec![1; self.scheme.commitments_length()]),
            SessionCall::SetAlpha(round.alpha),
            SessionCall::TakeMiddle(vec![1; size.n + size.m]),
            SessionCall::SetChallenge(round.challenge),
            self.take_reply(&vec![1; self.scheme.reply_length(size)]),
        ]
    }

    /// A right call, after the refused ones that are strewn in.
    fn call(&mut self, round: &Round, call: SessionCall) -> Vec<u8> {
        let faulty = || faulty(self.scheme, &call, self.shape);
        let refused = match self.strewn {
            Strewn::None => Vec::new(),
            Strewn::Faulty => faulty(),
            Strewn::NotDue => self.not_due(round),
            Strewn::One(turn) => {
                self.strewn = Strewn::One(turn + 1);
                let mut calls = faulty();
                calls.extend(self.not_due(round));
                vec![calls[5 * turn % calls.len()].clone()]
            }
        };
        for call in refused {
            self.script.call(call);
        }
        self.script.call(call)
    }

    /// The calls of both ends that are refused by the state.
    fn not_due(&self, round: &Round) -> Vec<SessionCall> {
        let calls = self.every_call(round).into_iter();
        let not_due = calls.filter(|call| self.script.ends.clone().call(call).number >= 10);
        not_due.collect()
    }

    /// The card commits.
    fn committed(&mut self, round: &Round) -> Sent {
        let call = self.commit(round);
        Sent {
            commitments: self.call(round, call),
            ..Sent::default()
        }
    }

    /// From the commitments taken to the challenge set and the card's reply.
    fn asked(&mut self, round: &Round, sent: &mut Sent) {
        self.call(
            round,
            SessionCall::TakeCommitments(sent.commitments.clone()),
        );
        if self.scheme == Scheme::FivePass {
            self.call(round, SessionCall::SetAlpha(round.alpha));
            sent.middle = self.call(round, self.answer(round));
            self.call(round, SessionCall::TakeMiddle(sent.middle.clone()));
        }
        self.call(round, SessionCall::SetChallenge(round.challenge));
        sent.reply = self.call(round, self.reply(round));
    }

    /// A whole honest round.
    fn play(&mut self, round: &Round) {
        let mut sent = self.committed(round);
        self.asked(round, &mut sent);
        self.call(round, self.take_reply(&sent.reply));
    }

    /// All rounds from here on, in which the card is a round ahead: it commits before its last
    /// reply is taken.
    fn play_ahead(&mut self, rounds: u8) {
        let mut round = self.round();
        let mut sent = self.committed(&round);
        for left in (0..rounds).rev() {
            self.asked(&round, &mut sent);
            let reply = self.take_reply(&sent.reply);
            let next = self.round();
            if left > 0 {
                sent = self.committed(&next);
            }
            self.call(&round, reply);
            round = next;
        }
    }

    /// Honest rounds, one after another.
    fn play_rounds(&mut self, rounds: u8) {
        for _ in 0..rounds {
            let round = self.round();
            self.play(&round);
        }
    }

    /// A round of the card alone.
    fn card_round(&mut self, challenge: u8) -> Told {
        let round = Round {
            challenge,
            ..self.round()
        };
        let mut sent = self.committed(&round);
        if self.scheme == Scheme::FivePass {
            sent.middle = self.call(&round, self.answer(&round));
        }
        sent.reply = self.call(&round, self.reply(&round));
        Told {
            sent,
            alpha: round.alpha,
            challenge,
        }
    }

    /// A round of the carrier alone.
    fn carrier_round(&mut self, told: Told) {
        let sent = told.sent;
        let script = &mut self.script;
        script.call(SessionCall::TakeCommitments(sent.commitments));
        if self.scheme == Scheme::FivePass {
            script.call(SessionCall::SetAlpha(told.alpha));
            script.call(SessionCall::TakeMiddle(sent.middle));
        }
        script.call(SessionCall::SetChallenge(told.challenge));
        let judge = self.take_reply(&sent.reply);
        self.script.call(judge);
    }

    /// Every call once, whether due or not.
    fn try_every_call(&mut self) {
        let round = self.round();
        for call in self.every_call(&round) {
            self.script.call(call);
        }
    }
}

/// The program's file.
pub fn file() -> ProgramFile {
    let mut script = Script::new();
    for scheme in SCHEMES {
        honest(&mut script, scheme);
        strewn(&mut script, scheme);
        out_of_order(&mut script, scheme);
        forged(&mut script, scheme);
        altered(&mut script, scheme);
        refused_openings(&mut script, scheme);
        longest(&mut script, scheme);
    }
    let (stdin, stdout) = script.ended();
    ProgramFile {
        program: "session_vectors",
        stdin,
        stdout,
    }
}

fn named(scheme: Scheme, topic: &str) -> String {
    format!("scheme {}, {topic}", scheme.byte())
}

/// Honest sessions of several sizes, by turns with the card a round ahead.
fn honest(script: &mut Script, scheme: Scheme) {
    let sizes = [
        (2, 1, 1, 1),
        (7, 2, 2, 3),
        (31, 7, 2, 2),
        (251, 1, 7, 5),
        (2, 48, 47, 2),
        (31, 48, 48, 2),
        (7, 96, 1, 1),
        (251, 96, 96, 1),
    ];
    for (seed, (q, n, m, rounds)) in (0x5e55_0000..).zip(sizes) {
        let shape = Shape::new(q, n, m);
        for ahead in [false, true] {
            let mut play = Play::new(script, seed, scheme, shape, rounds);
            play.open();
            if ahead {
                play.play_ahead(rounds);
            } else {
                play.play_rounds(rounds);
                play.try_every_call();
            }
        }
    }
    script.end_group(&named(scheme, "honest sessions"));
}

/// Honest sessions with refused calls strewn in: in the first, all faulty ones in each place.
fn strewn(script: &mut Script, scheme: Scheme) {
    for (seed, (q, n, m)) in (0x5e55_0100..).zip([(7, 2, 2), (251, 1, 1)]) {
        let mut play = Play::new(script, seed, scheme, Shape::new(q, n, m), 2);
        play.open();
        play.strewn = Strewn::Faulty;
        play.play_rounds(1);
        play.strewn = Strewn::One(usize::from(q));
        play.play_rounds(1);
    }
    for (seed, (q, n, m)) in (0x5e55_0200..).zip([(31, 7, 1), (7, 1, 7), (2, 3, 48), (251, 48, 2)])
    {
        let mut play = Play::new(script, seed, scheme, Shape::new(q, n, m), 5);
        play.open();
        play.strewn = Strewn::One(usize::from(n));
        play.play_ahead(5);
    }
    script.end_group(&named(scheme, "refused calls strewn in"));
}

/// Every call that is not due, in each phase.
fn out_of_order(script: &mut Script, scheme: Scheme) {
    let mut play = Play::new(script, 0x5e55_0300, scheme, Shape::new(31, 2, 3), 3);
    play.open();
    play.strewn = Strewn::NotDue;
    play.play_rounds(1);
    play.play_ahead(2);
    script.end_group(&named(scheme, "calls out of order"));
}

/// A change of a reply, given q and how many elements it begins with, that is no longer accepted.
type Forgery = fn(&mut Vec<u8>, u8, usize);

/// The first element another one; a bit of the first ρ; a bit of the last ρ.
const FORGERIES: [Forgery; 3] = [
    |reply, q, _| reply[0] = (reply[0] + 1) % q,
    |reply, _, elements| reply[elements] ^= 128,
    |reply, _, _| *reply.last_mut().expect("a reply") ^= 1,
];

/// Replies to each challenge that are not the card's: in the first, second or last round. The
/// carrier's session closes as rejected; the card's goes on.
fn forged(script: &mut Script, scheme: Scheme) {
    let shapes = [(7, 2, 2), (2, 3, 3), (251, 7, 2)];
    let mut seed = 0x5e55_0400;
    for challenge in scheme.challenges() {
        for (accepted, forgery) in (0..).zip(FORGERIES) {
            let (q, n, m) = shapes[usize::from(accepted)];
            seed += 1;
            let mut play = Play::new(script, seed, scheme, Shape::new(q, n, m), 3);
            play.open();
            play.play_rounds(accepted);
            let mut round = play.round();
            round.challenge = challenge;
            let mut sent = play.committed(&round);
            play.asked(&round, &mut sent);
            forgery(
                &mut sent.reply,
                q,
                scheme.reply_elements(play.shape.dimensions()),
            );
            play.call(&round, play.take_reply(&sent.reply));
            if accepted == 1 {
                play.try_every_call();
            }
        }
    }
    script.end_group(&named(scheme, "forged replies"));
}

/// A round's messages as the carrier gets them, and what it says itself.
struct Told {
    sent: Sent,
    alpha: u8,
    challenge: u8,
}

/// A change of what the carrier is told, given q and the number of challenges.
type Alteration = fn(&mut Told, u8, u8);

/// Nothing; the first, the second and the last commitment; the challenge.
const ALTERATIONS: [Alteration; 5] = [
    |_, _, _| (),
    |told, _, _| told.sent.commitments[0] ^= 1,
    |told, _, _| told.sent.commitments[63] ^= 128,
    |told, _, _| *told.sent.commitments.last_mut().expect("commitments") ^= 16,
    |told, _, count| told.challenge = (told.challenge + 1) % count,
];

/// α; an element of t1; one of e1.
const FIVE_PASS_ALTERATIONS: [Alteration; 3] = [
    |told, q, _| told.alpha = (told.alpha + 1) % q,
    |told, q, _| told.sent.middle[0] = (told.sent.middle[0] + 1) % q,
    |told, q, _| {
        let last = told.sent.middle.last_mut().expect("e1");
        *last = (*last + 1) % q;
    },
];

/// Rounds that the card ends before the carrier begins, with one message altered on the way. They
/// are accepted where the check does not read what is altered.
fn altered(script: &mut Script, scheme: Scheme) {
    let alterations = match scheme {
        Scheme::ThreePass => ALTERATIONS.to_vec(),
        Scheme::FivePass => [&ALTERATIONS[..], &FIVE_PASS_ALTERATIONS].concat(),
    };
    let mut seed = 0x5e55_0700;
    for challenge in scheme.challenges() {
        for alteration in &alterations {
            seed += 1;
            let mut play = Play::new(script, seed, scheme, Shape::new(31, 2, 3), 2);
            play.open();
            let mut told = play.card_round(challenge);
            alteration(&mut told, 31, scheme.commitments());
            play.carrier_round(told);
        }
    }
    script.end_group(&named(scheme, "altered messages"));
}

/// Openings refused with each number, also those of several faults, and calls after them.
fn refused_openings(script: &mut Script, scheme: Scheme) {
    let mut play = Play::new(script, 0x5e55_0500, scheme, Shape::new(7, 2, 3), 2);
    play.open();
    for fault in 0..OPENING_FAULTS {
        let (card, carrier) = (play.open_card(), play.open_carrier());
        for several in [false, true] {
            let last = if several { OPENING_FAULTS } else { fault + 1 };
            let faults = || (fault..last).rev();
            let card = faults().fold(card.clone(), with_fault);
            let carrier = faults().fold(carrier.clone(), with_fault);
            play.script.call(card);
            play.script.call(carrier);
        }
        if fault % 4 == 0 {
            play.try_every_call();
        }
        play.open();
        let round = play.round();
        let sent = play.committed(&round);
        play.call(&round, SessionCall::TakeCommitments(sent.commitments));
    }
    play.script.call(play.open_card());
    play.script.call(play.open_carrier());
    play.play_rounds(2);
    script.end_group(&named(scheme, "refused openings"));
}

/// The last is a secret that the key does not belong to, which only a card can tell.
const OPENING_FAULTS: usize = 13;

/// An opening with a fault, counted in document 01's order.
fn with_fault(mut opening: SessionCall, fault: usize) -> SessionCall {
    let mut no_secret = Vec::new();
    let (system, scheme, rounds, v, s) = match &mut opening {
        SessionCall::OpenCard {
            system,
            scheme,
            rounds,
            v,
            s,
        } => (system, scheme, rounds, v, s),
        SessionCall::OpenCarrier {
            system,
            scheme,
            rounds,
            v,
        } => (system, scheme, rounds, v, &mut no_secret),
        _ => panic!("an opening"),
    };
    let length = system.length();
    match fault {
        0 => *system = Piece::literal(&[]),
        1 => *system = system.clone().patched(0, 4),
        2 => *system = system.part(0, length - 1),
        3 => *system = system.clone().patched(length - 1, 7),
        4 => *scheme = 4,
        5 => *rounds = 0,
        6 => v.push(0),
        7 => v.clear(),
        8 => s.push(0),
        9 => s.clear(),
        10 => v[0] = 7,
        11 => s.iter_mut().for_each(|element| *element = 255),
        _ => s
            .iter_mut()
            .for_each(|element| *element = (*element + 1) % 7),
    }
    opening
}

/// 255 rounds; in the latter half of them the card is a round ahead.
fn longest(script: &mut Script, scheme: Scheme) {
    let mut play = Play::new(script, 0x5e55_0600, scheme, Shape::new(31, 1, 2), 255);
    play.open();
    play.play_rounds(127);
    play.play_ahead(128);
    play.try_every_call();
    script.end_group(&named(scheme, "255 rounds"));
}
