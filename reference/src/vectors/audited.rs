//! Audits that the cases are made of: sessions of cards that are lent the same again, by what is
//! asked in each.

use super::case::Answer;
use super::exchange::Card;
use super::instance::Shape;
use super::piece::Piece;
use super::session::Session;
use crate::audit::{audit_five, audit_three, Finding};
use crate::random::Generator;
use crate::scheme::Scheme;

/// The bytes of a finding: four numbers, the secret, and two strings, each after its length.
pub const FINDING: usize = 4 + SECRET + 2 * (4 + STRING);
const SECRET: usize = 96;
const STRING: usize = 322;

/// How many records an audit takes.
pub fn records(scheme: Scheme) -> usize {
    match scheme {
        Scheme::ThreePass => 3,
        Scheme::FivePass => 4,
    }
}

/// An audit's arguments.
#[derive(Clone, Debug, PartialEq, Eq)]
pub struct Audit {
    pub scheme: Scheme,
    pub system: Piece,
    pub records: Vec<Piece>,
}

impl Audit {
    /// The audit of these sessions, by the scheme and the system of the first.
    pub fn of(sessions: &[Session]) -> Audit {
        let records = sessions.iter().map(|session| session.record());
        Audit {
            scheme: sessions[0].scheme,
            system: sessions[0].system.clone(),
            records: records.map(|record| Piece::literal(&record)).collect(),
        }
    }

    pub fn changed(&self, change: impl FnOnce(&mut Audit)) -> Audit {
        let mut audit = self.clone();
        change(&mut audit);
        audit
    }

    /// The same with a record's bytes changed.
    pub fn with_record(&self, record: usize, change: impl FnOnce(&mut Vec<u8>)) -> Audit {
        self.changed(|audit| {
            let mut bytes = audit.records[record].expanded();
            change(&mut bytes);
            audit.records[record] = Piece::literal(&bytes);
        })
    }

    /// The same with one byte of the system changed.
    pub fn with_system(&self, place: usize, byte: u8) -> Audit {
        self.changed(|audit| audit.system = self.system.clone().patched(place, byte))
    }

    /// The byte that names the call in a file.
    pub fn kind(&self) -> u8 {
        match self.scheme {
            Scheme::ThreePass => 22,
            Scheme::FivePass => 23,
        }
    }

    pub fn finding(&self) -> Finding {
        let system = self.system.expanded();
        let records: Vec<Vec<u8>> = self.records.iter().map(Piece::expanded).collect();
        match (self.scheme, &records[..]) {
            (Scheme::ThreePass, [a, b, c]) => audit_three(&system, a, b, c),
            (Scheme::FivePass, [a, b, c, d]) => audit_five(&system, a, b, c, d),
            _ => panic!("as many records as the audit takes"),
        }
    }

    /// What this implementation answers.
    pub fn answer(&self) -> Answer {
        let finding = self.finding();
        let number = match finding {
            Finding::Refused { number, .. } => number,
            Finding::Secret(_) | Finding::Clash { .. } => 0,
        };
        let outs = vec![layout(&finding)];
        Answer { number, outs }
    }

    /// The arguments in order.
    pub fn inputs(&self) -> Vec<Piece> {
        let system = [self.system.clone()].into_iter();
        system.chain(self.records.iter().cloned()).collect()
    }
}

/// A finding's bytes, as README.md lays them out.
pub fn layout(finding: &Finding) -> Vec<u8> {
    let empty = Vec::new();
    let (numbers, secret, strings) = match finding {
        Finding::Refused {
            number,
            record,
            round,
        } => ([0, *number, *record, *round], &empty, [&empty, &empty]),
        Finding::Secret(secret) => ([1, 0, 0, 0], secret, [&empty, &empty]),
        Finding::Clash { k, first, second } => ([2, *k, 0, 0], &empty, [first, second]),
    };
    let mut bytes = [&numbers, &padded(secret, SECRET)[..]].concat();
    for string in strings {
        let length = u32::try_from(string.len()).expect("at most 322");
        bytes.extend(length.to_le_bytes());
        bytes.extend(padded(string, STRING));
    }
    bytes
}

/// The bytes, and zeros up to a length.
fn padded(bytes: &[u8], length: usize) -> Vec<u8> {
    let mut bytes = bytes.to_vec();
    bytes.resize(length, 0);
    bytes
}

/// What is asked in a round: α, which three passes leave out, and the challenge.
pub type Question = (u8, u8);

/// A card for each round of one key. All their sessions have the same commitments.
#[derive(Clone)]
pub struct Cards(pub Vec<Card>);

impl Cards {
    /// Cards of a random key, each with a lent slice of its own.
    pub fn random(random: &mut Generator, scheme: Scheme, shape: Shape, rounds: u8) -> Cards {
        let system = shape.random_system(random);
        let s = shape.random_elements(random, shape.n());
        let secrets = vec![s; rounds.into()];
        Cards::of_secrets(random, scheme, &system, &secrets)
    }

    /// A card for each secret, with random lent slices.
    pub fn of_secrets(
        random: &mut Generator,
        scheme: Scheme,
        system: &Piece,
        secrets: &[Vec<u8>],
    ) -> Cards {
        let secrets = secrets.iter();
        let cards = secrets.map(|s| Card::of_key(random, scheme, system.clone(), s));
        Cards(cards.collect())
    }

    /// A session for each record, where a round has a question for each.
    pub fn sessions(&self, asked: &[Vec<Question>]) -> Vec<Session> {
        let session = |record: usize| {
            let rounds = self.0.iter().zip(asked);
            let rounds = rounds.map(|(card, questions)| {
                let (alpha, challenge) = questions[record];
                card.judged(alpha, challenge)
            });
            Session::of(&rounds.collect::<Vec<_>>())
        };
        (0..asked[0].len()).map(session).collect()
    }

    /// Sessions with full sets in these rounds, counted from 0, and in no other.
    pub fn with_full_sets(&self, random: &mut Generator, full: &[usize]) -> Vec<Session> {
        let Card { scheme, system, .. } = &self.0[0];
        let q = Shape::of(system).q;
        let asked = (0..self.0.len()).map(|round| {
            if full.contains(&round) {
                full_set(random, *scheme, q)
            } else {
                no_full_set(random, *scheme, q)
            }
        });
        let asked: Vec<Vec<Question>> = asked.collect();
        self.sessions(&asked)
    }
}

/// Questions that make a full set: in three passes any record the first, in five two random α.
pub fn full_set(random: &mut Generator, scheme: Scheme, q: u8) -> Vec<Question> {
    match scheme {
        Scheme::ThreePass => {
            let mut questions = vec![(0, 0), (0, 1), (0, 2)];
            questions.rotate_left(place_below(random, 3));
            questions
        }
        Scheme::FivePass => {
            let one = random.byte_below(q.into());
            let other = loop {
                let other = random.byte_below(q.into());
                if other != one {
                    break other;
                }
            };
            vec![(one, 0), (one, 1), (other, 0), (other, 1)]
        }
    }
}

/// The same, but that a record is asked what another one is. So there is no full set, in whatever
/// order.
pub fn no_full_set(random: &mut Generator, scheme: Scheme, q: u8) -> Vec<Question> {
    let mut questions = full_set(random, scheme, q);
    let record = place_below(random, questions.len());
    let step = 1 + place_below(random, questions.len() - 1);
    questions[record] = questions[(record + step) % questions.len()];
    questions
}

fn place_below(random: &mut Generator, count: usize) -> usize {
    usize::from(random.byte_below(u16::try_from(count).expect("a few")))
}
