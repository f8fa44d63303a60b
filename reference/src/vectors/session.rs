//! Sessions and records that the cases are made of.

use super::exchange::{Card, Judgement};
use super::instance::{prime, Shape};
use super::piece::Piece;
use crate::commitment::RHO;
use crate::random::Generator;
use crate::record::{write, Header, Layout};
use crate::rounds::Transcript;
use crate::scheme::Scheme;

/// The rounds of a session, with the key that they are judged by.
#[derive(Clone, Debug)]
pub struct Session {
    pub scheme: Scheme,
    pub system: Piece,
    pub v: Vec<u8>,
    pub rounds: Vec<Transcript>,
}

impl Session {
    /// Honest rounds of a random key, with random challenges and α.
    pub fn honest(random: &mut Generator, scheme: Scheme, shape: Shape, rounds: u8) -> Session {
        let system = shape.random_system(random);
        let s = shape.random_elements(random, shape.n());
        let judgements = (0..rounds).map(|_| {
            let card = Card::of_key(random, scheme, system.clone(), &s);
            let alpha = random.byte_below(shape.q.into());
            let challenge = random.byte_below(scheme.commitments().into());
            card.judged(alpha, challenge)
        });
        Session::of(&judgements.collect::<Vec<Judgement>>())
    }

    /// Rounds of one key, at least one.
    pub fn of(judgements: &[Judgement]) -> Session {
        let first = &judgements[0];
        Session {
            scheme: first.scheme,
            system: first.system.clone(),
            v: first.v.clone(),
            rounds: judgements
                .iter()
                .map(|judgement| judgement.round.clone())
                .collect(),
        }
    }

    /// Scheme, q, n, m, N.
    pub fn header(&self) -> [u8; 5] {
        let rounds = u8::try_from(self.rounds.len()).expect("at most 255 rounds");
        header(self.scheme, Shape::of(&self.system), rounds)
    }

    /// The commitments of all rounds.
    pub fn commitments(&self) -> Vec<u8> {
        let rounds = self.rounds.iter();
        rounds.flat_map(|round| round.commitments.clone()).collect()
    }

    /// The exchanges of all rounds.
    pub fn exchanges(&self) -> Vec<u8> {
        let rounds = self.rounds.iter();
        let exchanges = rounds.flat_map(|round| {
            let challenge = [round.challenge];
            [round.middle.as_slice(), &challenge, &round.reply].concat()
        });
        exchanges.collect()
    }

    pub fn record(&self) -> Vec<u8> {
        let layout = layout(self.header());
        write(layout, &self.v, &self.commitments(), &self.exchanges())
    }

    /// What the report program takes: the system, then the record.
    pub fn input(&self) -> Vec<u8> {
        [self.system.expanded(), self.record()].concat()
    }
}

/// Scheme, q, n, m, N.
pub fn header(scheme: Scheme, shape: Shape, rounds: u8) -> [u8; 5] {
    [scheme.byte(), shape.q, shape.n, shape.m, rounds]
}

/// The layout of a header that is not refused.
pub fn layout(header: [u8; 5]) -> Layout {
    Layout::of(Header::of_bytes(header).expect("numbers among their values"))
}

/// What the bytes of a part are.
#[derive(Clone, Copy, Debug, PartialEq, Eq)]
pub enum Holds {
    Elements,
    Challenge,
    Anything,
}

/// A vector, α, a challenge, or consecutive bytes of any value, within a record.
#[derive(Clone, Copy, Debug)]
pub struct Part {
    pub start: usize,
    pub length: usize,
    pub holds: Holds,
}

impl Part {
    /// Its first and its last place, without repeats.
    pub fn edges(self) -> Vec<usize> {
        let mut places = vec![self.start, self.start + self.length - 1];
        places.dedup();
        places
    }
}

/// The parts of a record's bodies in file order: the key, the commitments, then round by round
/// those of the exchange.
pub fn parts(layout: Layout) -> Vec<Part> {
    use Holds::{Anything, Challenge, Elements};
    let Header { scheme, size, .. } = layout.header;
    let (n, m) = (size.n, size.m);
    let exchange = match scheme {
        Scheme::ThreePass => vec![
            (1, Challenge),
            (n, Elements),
            (n, Elements),
            (m, Elements),
            (2 * RHO, Anything),
        ],
        Scheme::FivePass => vec![
            (1, Elements),
            (n, Elements),
            (m, Elements),
            (1, Challenge),
            (n, Elements),
            (RHO, Anything),
        ],
    };
    let exchanges = vec![exchange; layout.header.rounds.into()];
    let bodies = [(m, Elements), (layout.commitments.length, Anything)];
    let mut start = layout.key.offset;
    let consecutive = bodies.into_iter().chain(exchanges.into_iter().flatten());
    let parts = consecutive.map(|(length, holds)| {
        let part = Part {
            start,
            length,
            holds,
        };
        start += length;
        part
    });
    parts.collect()
}

/// The first places of the parts that hold this.
pub fn places(layout: Layout, holds: Holds) -> Vec<usize> {
    let parts = parts(layout).into_iter();
    let parts = parts.filter(|part| part.holds == holds);
    parts.map(|part| part.start).collect()
}

/// A record in short form, well-formed but of no card: elements over and over, challenges in turn.
pub fn patterned(random: &mut Generator, header: [u8; 5]) -> Piece {
    let layout = layout(header);
    let pattern = elements(random, layout);
    laid(Piece::repeated(&pattern, layout.length()), 0, layout)
}

/// Random elements, as many as a prime that no two rounds have the same part of.
pub fn elements(random: &mut Generator, layout: Layout) -> Vec<u8> {
    let Header { size, rounds, .. } = layout.header;
    let rounds = usize::from(rounds);
    let count = prime(rounds.max(10), layout.exchanges.length / rounds);
    random.bytes_below(size.field.order().into(), count)
}

/// Elements with the front of a record and its challenges put in, the record starting at an offset.
pub fn laid(elements: Piece, start: usize, layout: Layout) -> Piece {
    let piece = elements.overwritten(start, &layout.front());
    let challenges = layout.header.scheme.challenges().cycle();
    let challenges = places(layout, Holds::Challenge).into_iter().zip(challenges);
    challenges.fold(piece, |piece, (place, challenge)| {
        piece.patched(start + place, challenge)
    })
}
