//! A case: one call with its expected number and outputs.

use super::audited::{Audit, FINDING};
use super::book_writing::BookWriting;
use super::exchange::{Card, Judgement};
use super::piece::{encode_number, Piece};
use super::reading;
use super::simulation::Simulation;
use super::writing::Writing;
use crate::book;
use crate::entries::{self, KEY};
use std::iter::repeat;

/// What every output byte is before most calls. It is no field's element, so that an element left
/// unwritten is seen.
pub const FILL: u8 = 255;

/// The most bytes that the programs' buffers take: a system; a record or a body of it, a message or
/// the report's input; a book, its labels or its keys; the report's text; any other piece but a
/// finding.
const MOST_OF_SYSTEM: usize = 500_000;
const MOST_OF_RECORD: usize = 131_072;
const MOST_OF_BOOK: usize = 262_144;
const MOST_OF_TEXT: usize = 8_192;
const MOST_OF_OTHERS: usize = 512;

/// One call: its arguments, and the lengths of its outputs where they are not fixed.
#[derive(Clone, Debug, PartialEq, Eq)]
pub enum Call {
    Check {
        system: Piece,
    },
    Evaluate {
        system: Piece,
        x: Piece,
        out: usize,
    },
    Polar {
        system: Piece,
        x: Piece,
        y: Piece,
        out: usize,
    },
    Digest {
        message: Piece,
        out: usize,
    },
    Commit(Card),
    Answer {
        card: Card,
        alpha: u8,
    },
    Reply {
        card: Card,
        challenge: u8,
    },
    Judge(Judgement),
    Simulate(Simulation),
    Read {
        record: Piece,
    },
    Write(Writing),
    Report {
        input: Piece,
    },
    Audit(Audit),
    ReadBook {
        book: Piece,
    },
    WriteBook(BookWriting),
    LookUp {
        book: Piece,
        label: Vec<u8>,
    },
}

/// What a call answers: its number and its outputs afterwards.
#[derive(Clone, Debug, PartialEq, Eq)]
pub struct Answer {
    pub number: u8,
    pub outs: Vec<Vec<u8>>,
}

/// Cases that are reported together.
pub struct Group {
    pub name: String,
    pub cases: Vec<Call>,
}

impl Call {
    /// The byte that names the call in a file.
    pub fn kind(&self) -> u8 {
        match self {
            Call::Check { .. } => 0,
            Call::Evaluate { .. } => 1,
            Call::Polar { .. } => 2,
            Call::Digest { .. } => 3,
            Call::Commit(_) => 4,
            Call::Answer { .. } => 5,
            Call::Reply { .. } => 6,
            Call::Judge(_) => 7,
            Call::Simulate(_) => 8,
            Call::Read { .. } => 9,
            Call::Write(_) => 10,
            Call::Report { .. } => 11,
            Call::Audit(audit) => audit.kind(),
            Call::ReadBook { .. } => 24,
            Call::WriteBook(_) => 25,
            Call::LookUp { .. } => 26,
        }
    }

    /// What this implementation answers.
    pub fn answer(&self) -> Answer {
        match self {
            Call::Check { system } => Answer {
                number: entries::check(&system.expanded()),
                outs: Vec::new(),
            },
            Call::Evaluate { system, x, out } => answer(*out, |out| {
                entries::evaluate(&system.expanded(), &x.expanded(), out)
            }),
            Call::Polar { system, x, y, out } => answer(*out, |out| {
                entries::polar(&system.expanded(), &x.expanded(), &y.expanded(), out)
            }),
            Call::Digest { message, out } => {
                answer(*out, |out| entries::digest(&message.expanded(), out))
            }
            Call::Commit(card) => written(card.commitments()),
            Call::Answer { card, alpha } => written(card.answer(*alpha)),
            Call::Reply { card, challenge } => written(card.reply(*challenge)),
            Call::Judge(judgement) => Answer {
                number: u8::from(judgement.is_accepted()),
                outs: Vec::new(),
            },
            Call::Simulate(simulation) => simulation.answer(),
            Call::Read { record } => reading::answer(record),
            Call::Write(writing) => writing.answer(),
            Call::Report { input } => written(entries::report(&input.expanded()).into_bytes()),
            Call::Audit(audit) => audit.answer(),
            Call::ReadBook { book } => answer(book::HEAD, |out| {
                let out = out.try_into().expect("a head");
                entries::read_book(&book.expanded(), out)
            }),
            Call::WriteBook(writing) => writing.answer(),
            Call::LookUp { book, label } => answer(KEY, |out| {
                let out = out.try_into().expect("a key");
                entries::look_up(&book.expanded(), label, out)
            }),
        }
    }

    /// The arguments that are read, in order.
    fn inputs(&self) -> Vec<Piece> {
        match self {
            Call::Check { system } => vec![system.clone()],
            Call::Evaluate { system, x, .. } => vec![system.clone(), x.clone()],
            Call::Polar { system, x, y, .. } => vec![system.clone(), x.clone(), y.clone()],
            Call::Digest { message, .. } => vec![message.clone()],
            Call::Commit(card) => card_inputs(card),
            Call::Answer { card, alpha } => {
                vec![
                    card.system.clone(),
                    Piece::byte(*alpha),
                    Piece::literal(&card.lent),
                ]
            }
            Call::Reply { card, challenge } => {
                let mut inputs = card_inputs(card);
                inputs.push(Piece::byte(*challenge));
                inputs
            }
            Call::Judge(judgement) => judgement_inputs(judgement),
            Call::Simulate(simulation) => simulation.inputs(),
            Call::Read { record } => vec![record.clone()],
            Call::Write(writing) => writing.inputs(),
            Call::Report { input } => vec![input.clone()],
            Call::Audit(audit) => audit.inputs(),
            Call::ReadBook { book } => vec![book.clone()],
            Call::WriteBook(writing) => writing.inputs(),
            Call::LookUp { book, label } => vec![book.clone(), Piece::literal(label)],
        }
    }

    /// The most bytes of the first pieces; `MOST_OF_OTHERS` of any further one.
    fn room(&self) -> Vec<usize> {
        match self {
            Call::Digest { .. } | Call::Read { .. } => vec![MOST_OF_RECORD],
            Call::Write(_) => room_of_writing(MOST_OF_RECORD),
            Call::Report { .. } => vec![MOST_OF_RECORD, MOST_OF_TEXT],
            Call::Audit(audit) => {
                let mut room = vec![MOST_OF_SYSTEM];
                room.extend(vec![MOST_OF_RECORD; audit.records.len()]);
                room.push(FINDING);
                room
            }
            Call::ReadBook { .. } | Call::LookUp { .. } => vec![MOST_OF_BOOK],
            Call::WriteBook(_) => room_of_writing(MOST_OF_BOOK),
            _ => vec![MOST_OF_SYSTEM],
        }
    }

    /// The inputs, then the outputs expected.
    fn pieces(&self, answer: &Answer) -> Vec<Piece> {
        let mut pieces = self.inputs();
        let outs = answer.outs.iter();
        pieces.extend(outs.map(|out| self.expected(answer.number, out)));
        pieces
    }

    /// What every output byte is before the call. A finding is made anew, also where it is a refusal.
    fn fill(&self) -> u8 {
        match self {
            Call::Audit(_) => 0,
            _ => FILL,
        }
    }

    /// The output expected: what was written, or in a refused call the fill, in short form.
    fn expected(&self, number: u8, out: &[u8]) -> Piece {
        match self {
            Call::Audit(_) => Piece::ending_with(out, &Piece::byte(0)),
            _ if number != 0 => Piece::repeated(&[FILL], out.len()),
            Call::Write(writing) => Piece::ending_with(out, &writing.exchanges),
            Call::WriteBook(writing) => Piece::ending_with(out, &writing.keys),
            Call::LookUp { .. } => Piece::ending_with(out, &Piece::byte(0)),
            _ => Piece::literal(out),
        }
    }

    /// Appends the case to a file: kind, number, fill, the inputs, the outputs expected.
    fn encode(&self, file: &mut Vec<u8>) {
        let answer = self.answer();
        file.extend([self.kind(), answer.number, self.fill()]);
        let room = self.room().into_iter().chain(repeat(MOST_OF_OTHERS));
        for (piece, most) in self.pieces(&answer).iter().zip(room) {
            assert!(piece.length() <= most, "room for a piece");
            piece.encode(file);
        }
    }
}

/// The room of a writer's pieces: two small ones, then three large ones, the last of them put out.
fn room_of_writing(large: usize) -> Vec<usize> {
    let mut room = vec![MOST_OF_OTHERS; 2];
    room.extend([large; 3]);
    room
}

/// The system, the scheme, s and the lent slice.
fn card_inputs(card: &Card) -> Vec<Piece> {
    vec![
        card.system.clone(),
        Piece::byte(card.scheme.byte()),
        Piece::literal(&card.s),
        Piece::literal(&card.lent),
    ]
}

/// The system, the scheme, v and the round in the order in which it ran.
fn judgement_inputs(judgement: &Judgement) -> Vec<Piece> {
    let round = &judgement.round;
    vec![
        judgement.system.clone(),
        Piece::byte(judgement.scheme.byte()),
        Piece::literal(&judgement.v),
        Piece::literal(&round.commitments),
        Piece::literal(&round.middle),
        Piece::byte(round.challenge),
        Piece::literal(&round.reply),
    ]
}

/// Calls an entry on an output of that length, filled beforehand.
fn answer(length: usize, call: impl Fn(&mut [u8]) -> u8) -> Answer {
    let mut out = vec![FILL; length];
    let number = call(&mut out);
    let outs = vec![out];
    Answer { number, outs }
}

/// The answer of a call that is not refused and has one output.
fn written(out: Vec<u8>) -> Answer {
    Answer {
        number: 0,
        outs: vec![out],
    }
}

/// The bytes of a vector file.
pub fn encode(groups: &[Group]) -> Vec<u8> {
    let mut file = Vec::new();
    for group in groups {
        encode_head(&mut file, &group.name, group.cases.len());
        for case in &group.cases {
            case.encode(&mut file);
        }
    }
    file
}

/// Appends what stands before a group's cases.
pub fn encode_head(file: &mut Vec<u8>, name: &str, cases: usize) {
    file.push(u8::try_from(name.len()).expect("a short name"));
    file.extend(name.as_bytes());
    encode_number(file, cases);
}
