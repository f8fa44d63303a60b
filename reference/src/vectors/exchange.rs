//! Rounds that the cases are made of: what the card's calls take, and what the judgement takes.

use super::instance::Shape;
use super::piece::Piece;
use crate::commitment::{Opening, RHO};
use crate::five_pass::{self, Middle};
use crate::map;
use crate::random::Generator;
use crate::rounds::{self, Transcript};
use crate::scheme::Scheme;
use crate::sha256::DIGEST;
use crate::system::System;
use crate::three_pass;

/// A card in one round: its secret and what is lent to it.
#[derive(Clone, Debug, PartialEq, Eq)]
pub struct Card {
    pub scheme: Scheme,
    pub system: Piece,
    pub s: Vec<u8>,
    pub lent: Vec<u8>,
}

/// A round as the carrier sees it, with the key that it is judged by.
#[derive(Clone, Debug, PartialEq, Eq)]
pub struct Judgement {
    pub scheme: Scheme,
    pub system: Piece,
    pub v: Vec<u8>,
    pub round: Transcript,
}

impl Card {
    /// A card of a shape with a random system, secret and lent slice.
    pub fn random(random: &mut Generator, scheme: Scheme, shape: Shape) -> Card {
        let system = shape.random_system(random);
        let s = shape.random_elements(random, shape.n());
        Card::of_key(random, scheme, system, &s)
    }

    /// A card of that key with a random lent slice.
    pub fn of_key(random: &mut Generator, scheme: Scheme, system: Piece, s: &[u8]) -> Card {
        let shape = Shape::of(&system);
        let vectors = [shape.n(), shape.n(), shape.m()];
        let [r0, t0, e0] = vectors.map(|count| shape.random_elements(random, count));
        Card::new(random, scheme, system, s, [&r0, &t0, &e0])
    }

    /// A card with these vectors r0, t0, e0 and random ρ.
    pub fn new(
        random: &mut Generator,
        scheme: Scheme,
        system: Piece,
        s: &[u8],
        vectors: [&[u8]; 3],
    ) -> Card {
        let rho = random.bytes_below(256, usize::from(scheme.commitments()) * RHO);
        Card {
            scheme,
            system,
            s: s.to_vec(),
            lent: [&vectors.concat()[..], &rho].concat(),
        }
    }

    pub fn v(&self) -> Vec<u8> {
        map::evaluate(&read(&self.system), &self.s)
    }

    pub fn commitments(&self) -> Vec<u8> {
        rounds::commit(&read(&self.system), self.scheme, &self.s, &self.lent)
    }

    /// t1 and e1 for α.
    pub fn answer(&self, alpha: u8) -> Vec<u8> {
        rounds::answer(&read(&self.system), alpha, &self.lent)
    }

    pub fn reply(&self, challenge: u8) -> Vec<u8> {
        let Card {
            scheme, s, lent, ..
        } = self;
        rounds::reply(&read(&self.system), *scheme, s, lent, challenge)
    }

    /// The honest round of that challenge, and in five passes that α.
    pub fn judged(&self, alpha: u8, challenge: u8) -> Judgement {
        let Card {
            scheme, s, lent, ..
        } = self;
        Judgement {
            scheme: *scheme,
            system: self.system.clone(),
            v: self.v(),
            round: rounds::honest(&read(&self.system), *scheme, s, lent, alpha, challenge),
        }
    }
}

/// Which of a judgement's inputs a byte belongs to.
#[derive(Clone, Copy, Debug, PartialEq, Eq)]
pub enum Input {
    Commitments,
    Middle,
    Reply,
    Key,
}

/// A commitment, a vector, a ρ or α within a judgement's inputs.
#[derive(Clone, Copy, Debug, PartialEq, Eq)]
pub struct Span {
    pub input: Input,
    pub start: usize,
    pub length: usize,
    /// Are its bytes elements?
    pub elements: bool,
}

impl Span {
    /// Its places.
    pub fn every_place(self) -> Vec<usize> {
        (self.start..self.start + self.length).collect()
    }

    /// Its first place, the middle one and the last, without repeats.
    pub fn edges(self) -> Vec<usize> {
        let offsets = [0, self.length / 2, self.length - 1];
        let mut places = offsets.map(|offset| self.start + offset).to_vec();
        places.sort_unstable();
        places.dedup();
        places
    }
}

impl Judgement {
    pub fn is_accepted(&self) -> bool {
        rounds::accepts(&read(&self.system), self.scheme, &self.v, &self.round)
    }

    pub fn with_round(&self, change: impl FnOnce(&mut Transcript)) -> Judgement {
        let mut judgement = self.clone();
        change(&mut judgement.round);
        judgement
    }

    /// The parts of all inputs, in their order.
    pub fn spans(&self) -> Vec<Span> {
        let system = read(&self.system);
        let (n, m) = (system.n, system.m());
        let (middle, reply) = match self.scheme {
            Scheme::ThreePass => (
                vec![],
                vec![(n, true), (n, true), (m, true), (RHO, false), (RHO, false)],
            ),
            Scheme::FivePass => (
                vec![(1, true), (n, true), (m, true)],
                vec![(n, true), (RHO, false)],
            ),
        };
        let digests = vec![(DIGEST, false); usize::from(self.scheme.commitments())];
        [
            consecutive(Input::Commitments, &digests),
            consecutive(Input::Middle, &middle),
            consecutive(Input::Reply, &reply),
            consecutive(Input::Key, &[(m, true)]),
        ]
        .concat()
    }

    /// A part of an input, counted from 0.
    pub fn span(&self, input: Input, part: usize) -> Span {
        let spans = self.spans();
        let mut of_input = spans.iter().filter(|span| span.input == input);
        *of_input.nth(part).expect("a part of the input")
    }

    /// The same with one byte changed: an element to another one, any other byte by one bit.
    pub fn changed(&self, span: Span, place: usize) -> Judgement {
        let mut judgement = self.clone();
        let q = self.q();
        let byte = &mut judgement.input(span.input)[place];
        *byte = if span.elements {
            let step = 1 + place % usize::from(q - 1);
            let element = (usize::from(*byte) + step) % usize::from(q);
            u8::try_from(element).expect("an element")
        } else {
            *byte ^ (1 << (place % 8))
        };
        judgement
    }

    /// The openings that the reply claims, two in three passes and one in five.
    pub fn opened(&self) -> Vec<Opening> {
        let system = read(&self.system);
        let Transcript {
            middle,
            challenge,
            reply,
            ..
        } = &self.round;
        match self.scheme {
            Scheme::ThreePass => three_pass::opened(&system, &self.v, *challenge, reply).to_vec(),
            Scheme::FivePass => {
                let middle = Middle::read(&system, middle);
                vec![five_pass::opened(
                    &system, &self.v, &middle, *challenge, reply,
                )]
            }
        }
    }

    /// Which of them hash to their commitments, by their k.
    pub fn opens(&self) -> Vec<(u8, bool)> {
        let opened = self.opened();
        let opens = opened
            .iter()
            .map(|opening| (opening.k, opening.opens(&self.round.commitments)));
        opens.collect()
    }

    /// The same with commitment k made of this.
    pub fn with_commitment(&self, k: u8, opening: &Opening) -> Judgement {
        let start = usize::from(k) * DIGEST;
        self.with_round(|round| {
            round.commitments[start..start + DIGEST].copy_from_slice(&opening.commitment());
        })
    }

    fn q(&self) -> u8 {
        read(&self.system).field.order()
    }

    fn input(&mut self, input: Input) -> &mut Vec<u8> {
        match input {
            Input::Commitments => &mut self.round.commitments,
            Input::Middle => &mut self.round.middle,
            Input::Reply => &mut self.round.reply,
            Input::Key => &mut self.v,
        }
    }
}

/// Spans one after another, from lengths and whether they hold elements.
fn consecutive(input: Input, parts: &[(usize, bool)]) -> Vec<Span> {
    let mut start = 0;
    let mut spans = Vec::new();
    for &(length, elements) in parts {
        spans.push(Span {
            input,
            start,
            length,
            elements,
        });
        start += length;
    }
    spans
}

/// The system of a piece that is well-formed.
pub fn read(system: &Piece) -> System {
    System::read(&system.expanded()).expect("a well-formed system")
}
