//! What is timed: systems of random coefficients, and records of honest sessions, made by the second implementation.

use reference::label::{Label, LABEL};
use reference::random::Generator;
use reference::record::{write, Header, Layout};
use reference::rounds::honest;
use reference::scheme::Scheme;
use reference::system::System;
use reference::vectors::instance::Shape;

/// The largest q, n and m.
pub const LARGEST: (u8, u8, u8) = (251, 96, 96);

/// A system of random coefficients.
pub fn system(random: &mut Generator, q: u8, n: u8, m: u8) -> Vec<u8> {
    Shape::new(q, n, m).random_bytes(random)
}

/// So many random elements.
pub fn elements(random: &mut Generator, q: u8, count: usize) -> Vec<u8> {
    random.bytes_below(u16::from(q), count)
}

/// The most cards of a key book.
pub const CARDS: usize = 2000;

/// What the ICCIDs of a delivery have in common.
const DELIVERY: &str = "8949020000012";

/// A key book of the largest size, and the label of a card in its middle. Five digits of the ICCIDs rise by a few from card to
/// card, and the last is any.
pub fn book(random: &mut Generator) -> (Vec<u8>, Vec<u8>) {
    let (q, n, m) = LARGEST;
    let mut number = random.below(10_000);
    let labels = (0..CARDS).map(|_| {
        number += 1 + random.below(9);
        let iccid = format!("{DELIVERY}{number:05}{}", random.below(10));
        Label::of_iccid(&iccid).expect("an ICCID").bytes()
    });
    let labels: Vec<[u8; LABEL]> = labels.collect();
    let keys = elements(random, q, CARDS * usize::from(m));
    let book = reference::book::write([q, n, m], labels.as_flattened(), &keys);
    (book, labels[CARDS * 3 / 5].to_vec())
}

/// A card with its key, and what was lent to it for each of its rounds.
pub struct Card {
    pub system: Vec<u8>,
    pub scheme: Scheme,
    pub s: Vec<u8>,
    pub v: Vec<u8>,
    pub lent: Vec<Vec<u8>>,
}

/// What a carrier asks in a round; three passes have no α.
#[derive(Clone, Copy)]
pub struct Question {
    pub alpha: u8,
    pub challenge: u8,
}

/// A record with its parts.
pub struct Session {
    pub header: [u8; 5],
    pub commitments: Vec<u8>,
    pub exchanges: Vec<u8>,
    pub record: Vec<u8>,
}

impl Card {
    pub fn random(random: &mut Generator, scheme: Scheme, q: u8, n: u8, m: u8, rounds: u8) -> Card {
        let system = system(random, q, n, m);
        let read = System::read(&system).expect("a well-formed system");
        let s = elements(random, q, usize::from(n));
        let v = reference::map::evaluate(&read, &s);
        let vectors = 2 * usize::from(n) + usize::from(m);
        let rhos = scheme.lent_length(read.dimensions()) - vectors;
        let lent = (0..rounds).map(|_| {
            let mut lent = elements(random, q, vectors);
            lent.extend(random.bytes_below(256, rhos));
            lent
        });
        let lent = lent.collect();
        Card {
            system,
            scheme,
            s,
            v,
            lent,
        }
    }

    /// The record of an honest session in which each round was asked so.
    pub fn session(&self, questions: &[Question]) -> Session {
        let system = System::read(&self.system).expect("a well-formed system");
        let [q, n, m] = [0, 1, 2].map(|at| self.system[at]);
        let header = [self.scheme.byte(), q, n, m, questions.len() as u8];
        let mut commitments = Vec::new();
        let mut exchanges = Vec::new();
        for (lent, question) in self.lent.iter().zip(questions) {
            let Question { alpha, challenge } = *question;
            let round = honest(&system, self.scheme, &self.s, lent, alpha, challenge);
            commitments.extend(round.commitments);
            exchanges.extend(round.middle);
            exchanges.push(challenge);
            exchanges.extend(round.reply);
        }
        let layout = Layout::of(Header::of_bytes(header).expect("a header's values"));
        Session {
            header,
            record: write(layout, &self.v, &commitments, &exchanges),
            commitments,
            exchanges,
        }
    }

    /// Three sessions of three passes whose last round alone has a full set: the audit looks at every round.
    pub fn three_records(&self, random: &mut Generator) -> [Vec<u8>; 3] {
        let last = self.lent.len() - 1;
        let start = random.below(3);
        [0, 1, 2].map(|record| {
            let questions = (0..self.lent.len()).map(|round| {
                // Before the last round one record is asked what another is.
                let own = if round == last { record } else { record.min(1) };
                let challenge = (start + round as u64 + own) % 3;
                Question {
                    alpha: 0,
                    challenge: challenge as u8,
                }
            });
            self.session(&questions.collect::<Vec<_>>()).record
        })
    }

    /// Four sessions of five passes that are a full set in every round.
    pub fn four_records(&self, q: u8) -> [Vec<u8>; 4] {
        [(0, 0), (0, 1), (1, 0), (1, 1)].map(|(alpha, challenge)| {
            let alpha = alpha % q;
            let questions = vec![Question { alpha, challenge }; self.lent.len()];
            self.session(&questions).record
        })
    }
}

/// Challenges of three passes in turn, so that each is as frequent as in a session.
pub fn challenges_in_turn(rounds: u8) -> Vec<Question> {
    let question = |round| Question {
        alpha: 0,
        challenge: round % 3,
    };
    (0..rounds).map(question).collect()
}
