//! The calls of both ends' sessions, played one after another on one card and one carrier.

use super::case::{encode_head, Answer, FILL};
use super::piece::Piece;
use crate::session::card::{self, Card};
use crate::session::carrier::{self, Carrier};
use crate::session::Verdict;
use crate::sha256::sha256;

/// How many bytes of an output's digest a line shows.
const SHOWN: usize = 8;

/// One call: its arguments, and the length of its output.
#[derive(Clone, Debug)]
pub enum SessionCall {
    OpenCard {
        system: Piece,
        scheme: u8,
        rounds: u8,
        v: Vec<u8>,
        s: Vec<u8>,
    },
    Commit {
        system: Piece,
        lent: Vec<u8>,
        out: usize,
    },
    Answer {
        system: Piece,
        alpha: u8,
        out: usize,
    },
    Reply {
        challenge: u8,
        out: usize,
    },
    OpenCarrier {
        system: Piece,
        scheme: u8,
        rounds: u8,
        v: Vec<u8>,
    },
    TakeCommitments(Vec<u8>),
    SetAlpha(u8),
    TakeMiddle(Vec<u8>),
    SetChallenge(u8),
    TakeReply {
        system: Piece,
        reply: Vec<u8>,
    },
}

impl SessionCall {
    /// The byte that names the call in a file.
    fn kind(&self) -> u8 {
        match self {
            SessionCall::OpenCard { .. } => 12,
            SessionCall::Commit { .. } => 13,
            SessionCall::Answer { .. } => 14,
            SessionCall::Reply { .. } => 15,
            SessionCall::OpenCarrier { .. } => 16,
            SessionCall::TakeCommitments(_) => 17,
            SessionCall::SetAlpha(_) => 18,
            SessionCall::TakeMiddle(_) => 19,
            SessionCall::SetChallenge(_) => 20,
            SessionCall::TakeReply { .. } => 21,
        }
    }

    /// The word that names it in a line. A phase has the word of the call that is due.
    fn word(&self) -> &'static str {
        let words = [
            "card", COMMIT, ANSWER, REPLY, "carrier", TAKE, ALPHA, MIDDLE, ASK, JUDGE,
        ];
        words[usize::from(self.kind() - 12)]
    }

    /// The arguments that are read, in order.
    fn inputs(&self) -> Vec<Piece> {
        let literal = |bytes: &Vec<u8>| Piece::literal(bytes);
        match self {
            SessionCall::OpenCard {
                system,
                scheme,
                rounds,
                v,
                s,
            } => {
                let numbers = [*scheme, *rounds].map(Piece::byte);
                [&[system.clone()][..], &numbers, &[literal(v), literal(s)]].concat()
            }
            SessionCall::OpenCarrier {
                system,
                scheme,
                rounds,
                v,
            } => {
                let numbers = [*scheme, *rounds].map(Piece::byte);
                [&[system.clone()][..], &numbers, &[literal(v)]].concat()
            }
            SessionCall::Commit { system, lent, .. } => vec![system.clone(), literal(lent)],
            SessionCall::Answer { system, alpha, .. } => {
                vec![system.clone(), Piece::byte(*alpha)]
            }
            SessionCall::TakeReply { system, reply } => vec![system.clone(), literal(reply)],
            SessionCall::TakeCommitments(bytes) | SessionCall::TakeMiddle(bytes) => {
                vec![literal(bytes)]
            }
            SessionCall::Reply {
                challenge: byte, ..
            }
            | SessionCall::SetAlpha(byte)
            | SessionCall::SetChallenge(byte) => vec![Piece::byte(*byte)],
        }
    }

    /// Appends the case to a file.
    fn encode(&self, answer: &Answer, file: &mut Vec<u8>) {
        file.extend([self.kind(), answer.number, FILL]);
        for piece in self.inputs() {
            piece.encode(file);
        }
        for out in &answer.outs {
            expected(answer.number, out).encode(file);
        }
    }
}

/// The output expected, or in a refused call the fill, in short form.
fn expected(number: u8, out: &[u8]) -> Piece {
    if number == 0 {
        Piece::literal(out)
    } else {
        Piece::repeated(&[FILL], out.len())
    }
}

/// The card's session and the carrier's.
#[derive(Clone, Debug, PartialEq, Eq)]
pub struct Ends {
    pub card: Card,
    pub carrier: Carrier,
}

impl Ends {
    /// Two sessions whose openings were refused.
    pub fn closed() -> Ends {
        Ends {
            card: Card::open(&[], 0, 0, &[], &[]).0,
            carrier: Carrier::open(&[], 0, 0, &[]).0,
        }
    }

    /// Makes a call on the end that it belongs to.
    pub fn call(&mut self, call: &SessionCall) -> Answer {
        match call {
            SessionCall::OpenCard {
                system,
                scheme,
                rounds,
                v,
                s,
            } => {
                let system = system.expanded();
                let (card, number) = Card::open(&system, *scheme, *rounds, v, s);
                self.card = card;
                let outs = Vec::new();
                Answer { number, outs }
            }
            SessionCall::Commit { system, lent, out } => {
                let system = system.expanded();
                self.of_card(*out, |card, out| card.commit(&system, lent, out))
            }
            SessionCall::Answer { system, alpha, out } => {
                let system = system.expanded();
                self.of_card(*out, |card, out| card.answer(&system, *alpha, out))
            }
            SessionCall::Reply { challenge, out } => {
                self.of_card(*out, |card, out| card.reply(*challenge, out))
            }
            SessionCall::OpenCarrier {
                system,
                scheme,
                rounds,
                v,
            } => {
                let system = system.expanded();
                self.of_carrier(|_| Carrier::open(&system, *scheme, *rounds, v))
            }
            SessionCall::TakeCommitments(bytes) => self.of_carrier(|c| c.take_commitments(bytes)),
            SessionCall::SetAlpha(alpha) => self.of_carrier(|c| c.set_alpha(*alpha)),
            SessionCall::TakeMiddle(bytes) => self.of_carrier(|c| c.take_middle(bytes)),
            SessionCall::SetChallenge(challenge) => {
                self.of_carrier(|c| c.set_challenge(*challenge))
            }
            SessionCall::TakeReply { system, reply } => self.judge(&system.expanded(), reply),
        }
    }

    /// A call of an open card, whose output has this length.
    fn of_card(
        &mut self,
        out: usize,
        call: impl FnOnce(Card, &mut [u8]) -> card::Answer,
    ) -> Answer {
        let mut bytes = vec![FILL; out];
        let (card, number) = call(self.card.clone(), &mut bytes);
        self.card = card;
        let outs = vec![bytes];
        Answer { number, outs }
    }

    fn of_carrier(&mut self, call: impl FnOnce(Carrier) -> carrier::Answer) -> Answer {
        let (carrier, number) = call(self.carrier.clone());
        self.carrier = carrier;
        let outs = Vec::new();
        Answer { number, outs }
    }

    /// The answer to a reply is an output of one byte: 1 for accept, 0 for reject.
    fn judge(&mut self, system: &[u8], reply: &[u8]) -> Answer {
        let ((carrier, number), accepted) = self.carrier.clone().take_reply(system, reply);
        self.carrier = carrier;
        let out = if number == 0 { accepted.into() } else { FILL };
        let outs = vec![vec![out]];
        Answer { number, outs }
    }

    /// Both sessions as a line shows them.
    fn shown(&self) -> String {
        format!(
            " {} {}",
            shown_card(&self.card),
            shown_carrier(&self.carrier)
        )
    }
}

const COMMIT: &str = "commit";
const ANSWER: &str = "answer";
const REPLY: &str = "reply";
const TAKE: &str = "take";
const ALPHA: &str = "alpha";
const MIDDLE: &str = "middle";
const ASK: &str = "ask";
const JUDGE: &str = "judge";

/// The call due or the verdict, the rounds over, and what is not zero.
fn shown_card(card: &Card) -> String {
    let phase = match card.phase {
        card::Phase::Commit => COMMIT,
        card::Phase::Answer => ANSWER,
        card::Phase::Reply => REPLY,
        card::Phase::Closed(verdict) => word_of(verdict),
    };
    let lent = card.held.iter().flat_map(|held| &held.lent);
    let flags = [('s', any(&card.s)), ('r', any(lent))];
    format!("{phase}{}{}", card.round, shown_flags(flags))
}

/// The call due or the verdict, the rounds accepted, and what is not zero.
fn shown_carrier(carrier: &Carrier) -> String {
    let phase = match carrier.phase {
        carrier::Phase::TakeCommitments => TAKE,
        carrier::Phase::SetAlpha => ALPHA,
        carrier::Phase::TakeMiddle => MIDDLE,
        carrier::Phase::SetChallenge => ASK,
        carrier::Phase::TakeReply => JUDGE,
        carrier::Phase::Closed(verdict) => word_of(verdict),
    };
    let round = &carrier.round;
    let messages = [&round.commitments[..], &round.middle, &[round.challenge]].concat();
    let flags = [('v', any(&carrier.v)), ('m', any(&messages))];
    format!("{phase}{}{}", carrier.accepted, shown_flags(flags))
}

fn word_of(verdict: Verdict) -> &'static str {
    match verdict {
        Verdict::None => "none",
        Verdict::Accepted => "accepted",
        Verdict::Rejected => "rejected",
    }
}

/// Is a byte not zero?
fn any<'a>(bytes: impl IntoIterator<Item = &'a u8>) -> bool {
    bytes.into_iter().any(|&byte| byte != 0)
}

/// The letters of what is not zero.
fn shown_flags(flags: [(char, bool); 2]) -> String {
    let set = flags.into_iter().filter(|(_, set)| *set);
    set.map(|(letter, _)| letter).collect()
}

/// The line of a call: its word, its number, what it put out, then both sessions.
fn line(call: &SessionCall, answer: &Answer, ends: &Ends) -> String {
    let out = match (call, answer.number) {
        (SessionCall::TakeReply { .. }, 0) if answer.outs[0][0] == 1 => " accept".to_string(),
        (SessionCall::TakeReply { .. }, 0) => " reject".to_string(),
        (SessionCall::TakeReply { .. }, _) => String::new(),
        _ => answer.outs.iter().map(|out| shown_digest(out)).collect(),
    };
    format!("{} {}{out}{}\n", call.word(), answer.number, ends.shown())
}

fn shown_digest(out: &[u8]) -> String {
    let digest = sha256(out);
    let digits = digest[..SHOWN].iter().map(|byte| format!("{byte:02x}"));
    format!(" {}", digits.collect::<String>())
}

/// Calls made one after another, with the file that holds them and the text that they print.
pub struct Script {
    pub ends: Ends,
    file: Vec<u8>,
    text: String,
    group: Vec<u8>,
    cases: usize,
    total: usize,
}

impl Script {
    pub fn new() -> Script {
        Script {
            ends: Ends::closed(),
            file: Vec::new(),
            text: String::new(),
            group: Vec::new(),
            cases: 0,
            total: 0,
        }
    }

    /// Makes a call, and hands back its output.
    pub fn call(&mut self, call: SessionCall) -> Vec<u8> {
        let answer = self.ends.call(&call);
        call.encode(&answer, &mut self.group);
        self.text += &line(&call, &answer, &self.ends);
        self.cases += 1;
        answer.outs.concat()
    }

    /// Ends a group of calls.
    pub fn end_group(&mut self, name: &str) {
        encode_head(&mut self.file, name, self.cases);
        self.file.append(&mut self.group);
        self.text += &super::line(name, self.cases);
        self.total += self.cases;
        self.cases = 0;
    }

    /// The file, and what the program must print.
    pub fn ended(self) -> (Vec<u8>, String) {
        (self.file, self.text + &super::line("total", self.total))
    }
}

impl Default for Script {
    fn default() -> Script {
        Script::new()
    }
}
