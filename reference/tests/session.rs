//! Document 01, "Sessions": honest sessions are accepted, forged ones close as rejected, refused
//! calls come in order and change nothing.

use reference::map::evaluate;
use reference::random::Generator;
use reference::scheme::{Scheme, SCHEMES};
use reference::session::card::{self, Card};
use reference::session::carrier::{self, Carrier};
use reference::session::Verdict;
use reference::system::System;
use reference::vectors::instance::Shape;
use reference::vectors::maps::SMALL;

/// A key, and numbers to play its sessions with.
struct Key {
    scheme: Scheme,
    bytes: Vec<u8>,
    system: System,
    s: Vec<u8>,
    v: Vec<u8>,
    random: Generator,
}

/// What is lent for a round, and what the carrier asks in it.
struct Round {
    lent: Vec<u8>,
    alpha: u8,
    challenge: u8,
}

impl Key {
    fn new(scheme: Scheme, [q, n, m]: [u8; 3], seed: u64) -> Key {
        let mut random = Generator::from_seed(seed);
        let bytes = Shape::new(q, n, m).random_bytes(&mut random);
        let system = System::read(&bytes).expect("well-formed");
        let s = random.bytes_below(q.into(), n.into());
        let v = evaluate(&system, &s);
        Key {
            scheme,
            bytes,
            system,
            s,
            v,
            random,
        }
    }

    fn q(&self) -> u8 {
        self.system.field.order()
    }

    fn open(&self, rounds: u8) -> (Card, Carrier) {
        let scheme = self.scheme.byte();
        let (card, number) = Card::open(&self.bytes, scheme, rounds, &self.v, &self.s);
        assert_eq!(number, 0);
        let (carrier, number) = Carrier::open(&self.bytes, scheme, rounds, &self.v);
        assert_eq!(number, 0);
        (card, carrier)
    }

    fn round(&mut self) -> Round {
        let (n, m) = (self.system.n, self.system.m());
        let (q, count) = (self.q(), usize::from(self.scheme.commitments()));
        let vectors = self.random.bytes_below(q.into(), 2 * n + m);
        let rho = self.random.bytes_below(256, 32 * count);
        Round {
            lent: [vectors, rho].concat(),
            alpha: self.random.byte_below(q.into()),
            challenge: self.random.byte_below(self.scheme.commitments().into()),
        }
    }

    fn reply_length(&self) -> usize {
        self.scheme.reply_length(self.system.dimensions())
    }

    /// Everything of a round up to the reply, which is handed back.
    fn asked(&self, ends: (Card, Carrier), round: &Round) -> (Card, Carrier, Vec<u8>) {
        let (card, carrier) = ends;
        let mut commitments = vec![0; self.scheme.commitments_length()];
        let (mut card, number) = card.commit(&self.bytes, &round.lent, &mut commitments);
        assert_eq!(number, 0);
        let mut carrier = taken(carrier.take_commitments(&commitments));
        if self.scheme == Scheme::FivePass {
            carrier = taken(carrier.set_alpha(round.alpha));
            let mut middle = vec![0; self.system.n + self.system.m()];
            let (answered, number) = card.answer(&self.bytes, round.alpha, &mut middle);
            assert_eq!(number, 0);
            card = answered;
            carrier = taken(carrier.take_middle(&middle));
        }
        let carrier = taken(carrier.set_challenge(round.challenge));
        let mut reply = vec![0; self.reply_length()];
        let (card, number) = card.reply(round.challenge, &mut reply);
        assert_eq!(number, 0);
        (card, carrier, reply)
    }
}

/// The session after a call that is not refused.
fn taken((carrier, number): carrier::Answer) -> Carrier {
    assert_eq!(number, 0);
    carrier
}

fn keys() -> Vec<Key> {
    let sizes = [
        [2, 1, 1],
        [7, 2, 2],
        [31, 7, 3],
        [251, 3, 7],
        [2, 20, 21],
        [251, 1, 1],
    ];
    let schemes = SCHEMES.into_iter();
    let keys = schemes.flat_map(|scheme| sizes.map(|size| Key::new(scheme, size, size[1].into())));
    keys.collect()
}

fn closed_card() -> Card {
    Card::open(&[], 3, 1, &[], &[]).0
}

#[test]
fn honest_sessions_are_accepted() {
    for mut key in keys() {
        for rounds in [1, 2, 3, 255] {
            let mut ends = key.open(rounds);
            for over in 0..rounds {
                assert_eq!((ends.0.round, ends.1.accepted), (over, over));
                assert_eq!(ends.0.held, None);
                let round = key.round();
                let (card, carrier, reply) = key.asked(ends, &round);
                let ((carrier, number), accepted) = carrier.take_reply(&key.bytes, &reply);
                assert_eq!((number, accepted), (0, true));
                ends = (card, carrier);
            }
            let (card, carrier) = ends;
            assert_eq!(card, closed_card());
            let accepted = carrier::Phase::Closed(Verdict::Accepted);
            assert_eq!((carrier.phase, carrier.accepted), (accepted, rounds));
            assert_eq!((carrier.terms, carrier.v), (None, vec![]));
        }
    }
}

#[test]
fn forged_replies_close_as_rejected() {
    for mut key in keys() {
        for challenge in key.scheme.challenges() {
            for accepted in 0..3 {
                let mut ends = key.open(3);
                for _ in 0..accepted {
                    let round = key.round();
                    let (card, carrier, reply) = key.asked(ends, &round);
                    ends = (card, carrier.take_reply(&key.bytes, &reply).0 .0);
                }
                let round = Round {
                    challenge,
                    ..key.round()
                };
                let (card, carrier, mut reply) = key.asked(ends, &round);
                *reply.last_mut().expect("a reply") ^= 4;
                let ((carrier, number), accept) = carrier.take_reply(&key.bytes, &reply);
                assert_eq!((number, accept), (0, false));
                let rejected = carrier::Phase::Closed(Verdict::Rejected);
                assert_eq!((carrier.phase, carrier.accepted), (rejected, accepted));
                assert_eq!((carrier.terms, carrier.v.clone()), (None, vec![]));
                assert_eq!(card.terms.is_none(), accepted == 2);
                let (after, number) = carrier.clone().take_commitments(&[]);
                assert_eq!((after, number), (carrier, 11));
            }
        }
    }
}

/// A call of the card that writes to an output.
type Writes<'a> = &'a dyn Fn(&mut [u8]) -> card::Answer;

/// The number of each call of the card, with these arguments; a refused one changes nothing.
fn card_numbers(card: &Card, system: &[u8], lent: &[u8], byte: u8, out: usize) -> [u8; 3] {
    let calls: [Writes; 3] = [
        &|out| card.clone().commit(system, lent, out),
        &|out| card.clone().answer(system, byte, out),
        &|out| card.clone().reply(byte, out),
    ];
    calls.map(|call| {
        let mut bytes = vec![255; out];
        let (after, number) = call(&mut bytes);
        assert!(number == 0 || (after == *card && bytes == vec![255; out]));
        number
    })
}

/// The number of each call of the carrier, with these arguments; a refused one changes nothing.
fn carrier_numbers(carrier: &Carrier, system: &[u8], slice: &[u8], byte: u8) -> [u8; 5] {
    let answers = [
        carrier.clone().take_commitments(slice),
        carrier.clone().set_alpha(byte),
        carrier.clone().take_middle(slice),
        carrier.clone().set_challenge(byte),
        carrier.clone().take_reply(system, slice).0,
    ];
    answers.map(|(after, number)| {
        assert!(number == 0 || after == *carrier);
        number
    })
}

#[test]
fn state_comes_first() {
    for mut key in keys() {
        let (card, carrier) = key.open(1);
        assert_eq!(card_numbers(&card, &[], &[], 255, 0), [2, 10, 10]);
        assert_eq!(
            carrier_numbers(&carrier, &[], &[], 255),
            [2, 10, 10, 10, 10]
        );
        let round = key.round();
        let (card, carrier, _) = key.asked((card, carrier), &round);
        assert_eq!(card_numbers(&card, &[], &[], 255, 0), [11; 3]);
        assert_eq!(
            carrier_numbers(&carrier, &[], &[], 255),
            [10, 10, 10, 10, 2]
        );
        let closed = Carrier::open(&[], 3, 1, &[]).0;
        assert_eq!(carrier_numbers(&closed, &[], &[], 255), [11; 5]);
    }
}

// Refusals in order, by the small key: q = 7, n = m = 2, s = (3,5), F(s) = (5,6).

#[test]
fn openings_in_order() {
    let both = |system: &[u8], scheme, rounds, v: &[u8], s: &[u8]| {
        let (card, of_card) = Card::open(system, scheme, rounds, v, s);
        let (carrier, of_carrier) = Carrier::open(system, scheme, rounds, v);
        assert!(of_card == 0 || card == closed_card());
        let none = carrier::Phase::Closed(Verdict::None);
        assert!(of_carrier == 0 || (carrier.phase == none && carrier.terms.is_none()));
        [of_card, of_carrier]
    };
    for scheme in [3, 5] {
        assert_eq!(both(&SMALL[..2], 4, 0, &[], &[]), [2, 2]);
        assert_eq!(both(&[4, 2, 2], 4, 0, &[], &[]), [1, 1]);
        assert_eq!(both(&SMALL[..12], 4, 0, &[], &[]), [2, 2]);
        assert_eq!(both(&[7, 1, 1, 7, 0], 4, 0, &[], &[]), [3, 3]);
        assert_eq!(both(&SMALL, 4, 1, &[7], &[7]), [1, 1]);
        assert_eq!(both(&SMALL, scheme, 0, &[7], &[7]), [1, 1]);
        assert_eq!(both(&SMALL, scheme, 1, &[7], &[7, 7]), [2, 2]);
        assert_eq!(both(&SMALL, scheme, 1, &[7, 0], &[7]), [2, 3]);
        assert_eq!(both(&SMALL, scheme, 1, &[7, 0], &[0, 0]), [3, 3]);
        assert_eq!(both(&SMALL, scheme, 1, &[5, 6], &[3, 7]), [3, 0]);
        assert_eq!(both(&SMALL, scheme, 1, &[5, 6], &[3, 4]), [5, 0]);
        assert_eq!(both(&SMALL, scheme, 255, &[5, 6], &[3, 5]), [0, 0]);
    }
}

#[test]
fn commit_in_order() {
    let commit = |scheme, system: &[u8], lent: &[u8], out| {
        let card = Card::open(&SMALL, scheme, 1, &[5, 6], &[3, 5]).0;
        card_numbers(&card, system, lent, 0, out)[0]
    };
    let other = [7, 2, 1, 1, 1, 1, 1, 1];
    for (scheme, lent, out) in [(3, 102, 96), (5, 70, 64)] {
        let bad = vec![7; lent];
        assert_eq!(commit(scheme, &SMALL[..2], &bad, 0), 2);
        assert_eq!(commit(scheme, &[5, 2, 2], &bad, 0), 1);
        assert_eq!(commit(scheme, &[7, 1, 1, 7, 0], &bad, 0), 3);
        assert_eq!(commit(scheme, &other, &bad, 0), 7);
        assert_eq!(commit(scheme, &[31, 1, 1, 30, 0], &bad, 0), 7);
        assert_eq!(commit(scheme, &SMALL, &bad[1..], out), 2);
        assert_eq!(commit(scheme, &SMALL, &bad, out - 1), 2);
        assert_eq!(commit(scheme, &SMALL, &bad, out + 1), 2);
        assert_eq!(commit(scheme, &SMALL, &bad, out), 3);
        let mut lent = vec![200; lent];
        lent[..6].copy_from_slice(&[0, 1, 2, 3, 4, 6]);
        assert_eq!(commit(scheme, &SMALL, &lent, out), 0);
        lent[5] = 7;
        assert_eq!(commit(scheme, &SMALL, &lent, out), 3);
    }
}

#[test]
fn later_calls_in_order() {
    let (card, carrier) = (
        Card::open(&SMALL, 5, 1, &[5, 6], &[3, 5]).0,
        Carrier::open(&SMALL, 5, 1, &[5, 6]).0,
    );
    let (mut commitments, mut middle) = ([0; 64], [0; 4]);
    let card = card.commit(&SMALL, &[1; 70], &mut commitments).0;
    assert_eq!(
        card_numbers(&card, &[7, 1, 1, 0, 0], &[], 7, 3),
        [10, 7, 10]
    );
    assert_eq!(card_numbers(&card, &SMALL, &[], 7, 3), [10, 2, 10]);
    assert_eq!(card_numbers(&card, &SMALL, &[], 7, 4), [10, 3, 10]);
    let card = card.answer(&SMALL, 6, &mut middle).0;
    assert_eq!(card_numbers(&card, &SMALL, &[], 2, 33), [10, 10, 2]);
    assert_eq!(card_numbers(&card, &SMALL, &[], 2, 34), [10, 10, 4]);
    assert_eq!(card_numbers(&card, &SMALL, &[], 1, 34), [10, 10, 0]);
    assert_eq!(carrier_numbers(&carrier, &[], &[0; 96], 0)[0], 2);
    let carrier = taken(carrier.take_commitments(&commitments));
    assert_eq!(carrier_numbers(&carrier, &[], &[], 7), [10, 3, 10, 10, 10]);
    let carrier = taken(carrier.set_alpha(6));
    assert_eq!(carrier_numbers(&carrier, &[], &[7; 5], 0)[2], 2);
    assert_eq!(carrier_numbers(&carrier, &[], &[0, 0, 0, 7], 0)[2], 3);
    let carrier = taken(carrier.take_middle(&middle));
    assert_eq!(carrier_numbers(&carrier, &[], &[], 2), [10, 10, 10, 4, 10]);
    let carrier = taken(carrier.set_challenge(1));
    let reply = |system: &[u8], reply: &[u8]| carrier_numbers(&carrier, system, reply, 0)[4];
    assert_eq!(reply(&SMALL[..12], &[]), 2);
    assert_eq!(reply(&[7, 2, 1, 1, 1, 1, 1, 1], &[]), 7);
    assert_eq!(reply(&SMALL, &[7; 33]), 2);
    assert_eq!(reply(&SMALL, &[7; 34]), 3);
    assert_eq!(reply(&SMALL, &[6; 34]), 0);
}

#[test]
fn a_refused_challenge_uses_up_nothing() {
    for mut key in keys() {
        let (card, _) = key.open(2);
        let round = key.round();
        let mut commitments = vec![0; key.scheme.commitments_length()];
        let mut card = card.commit(&key.bytes, &round.lent, &mut commitments).0;
        if key.scheme == Scheme::FivePass {
            let mut middle = vec![0; key.system.n + key.system.m()];
            card = card.answer(&key.bytes, round.alpha, &mut middle).0;
        }
        let mut reply = vec![0; key.reply_length()];
        let (after, number) = card.clone().reply(key.scheme.commitments(), &mut reply);
        assert_eq!((&after, number), (&card, 4));
        let (after, number) = after.reply(0, &mut reply);
        assert_eq!((after.round, after.held, number), (1, None, 0));
    }
}
