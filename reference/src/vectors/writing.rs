//! Cases for the record's writer: document 01, "Session record" and the order of refusals.

use super::case::{Answer, Call, Group, FILL};
use super::honest::group;
use super::instance::Shape;
use super::piece::Piece;
use super::reading::{self, HEADER_VALUES};
use super::session::{header, layout, patterned, places, Holds};
use super::simulation::wrong_lengths;
use crate::entries::{self, Write};
use crate::random::Generator;
use crate::scheme::{Scheme, SCHEMES};

/// The writer's arguments. `header` is scheme, q, n, m, N; the output is given by its length.
#[derive(Clone, Debug, PartialEq, Eq)]
pub struct Writing {
    pub header: [u8; 5],
    pub key: Piece,
    pub commitments: Piece,
    pub exchanges: Piece,
    pub out: usize,
}

impl Writing {
    /// What this implementation answers.
    pub fn answer(&self) -> Answer {
        let mut out = vec![FILL; self.out];
        let number = entries::write(Write {
            header: self.header,
            key: &self.key.expanded(),
            commitments: &self.commitments.expanded(),
            exchanges: &self.exchanges.expanded(),
            out: &mut out,
        });
        let outs = vec![out];
        Answer { number, outs }
    }

    /// The arguments that are read, in order.
    pub fn inputs(&self) -> Vec<Piece> {
        vec![
            Piece::literal(&self.header),
            self.key.clone(),
            self.commitments.clone(),
            self.exchanges.clone(),
        ]
    }

    /// What would give this record, whose header is good.
    fn of(record: &Piece) -> Writing {
        let header = record.part(1, 6).expanded();
        let header = header.try_into().expect("five numbers");
        let layout = layout(header);
        let bodies = [layout.key, layout.commitments, layout.exchanges];
        let [key, commitments, exchanges] = bodies.map(|body| record.part(body.offset, body.end()));
        Writing {
            header,
            key,
            commitments,
            exchanges,
            out: layout.length(),
        }
    }

    fn changed(&self, change: impl FnOnce(&mut Writing)) -> Writing {
        let mut writing = self.clone();
        change(&mut writing);
        writing
    }
}

pub fn groups() -> Vec<Group> {
    SCHEMES.into_iter().flat_map(scheme_groups).collect()
}

fn scheme_groups(scheme: Scheme) -> Vec<Group> {
    let topics = [
        ("write honest records", of_records(&reading::honest(scheme))),
        ("write sizes", of_records(&reading::sizes(scheme))),
        (
            "write edges of each part",
            of_records(&reading::edges(scheme)),
        ),
        (
            "write every challenge",
            of_records(&reading::challenges(scheme)),
        ),
        (
            "write two bad bytes",
            of_records(&reading::two_bad_bytes(scheme)),
        ),
        ("write refused numbers", refused_numbers(scheme)),
        ("write refused lengths", refused_lengths(scheme)),
        ("write several faults", several_faults(scheme)),
    ];
    let groups = topics.map(|(topic, writings)| {
        let cases = writings.into_iter().map(Call::Write);
        group(scheme, topic, cases.collect())
    });
    groups.into()
}

fn of_records(records: &[Piece]) -> Vec<Writing> {
    records.iter().map(Writing::of).collect()
}

/// A writing that is not refused.
fn good(scheme: Scheme, shape: Shape, rounds: u8) -> Writing {
    let header = header(scheme, shape, rounds);
    Writing::of(&patterned(&mut Generator::from_seed(88), header))
}

/// Each number of the header at and outside its edges, the slices as before.
fn refused_numbers(scheme: Scheme) -> Vec<Writing> {
    let good = good(scheme, Shape::new(7, 2, 3), 2);
    let mut writings = Vec::new();
    for (place, values) in HEADER_VALUES {
        for &value in values {
            writings.push(good.changed(|writing| writing.header[place] = value));
        }
    }
    writings
}

/// Each slice with a wrong length: none, one too few or too many, one commitment, one round more or
/// fewer, or that of another slice.
fn refused_lengths(scheme: Scheme) -> Vec<Writing> {
    let mut writings = Vec::new();
    for (shape, rounds) in [
        (Shape::new(7, 2, 2), 1),
        (Shape::new(2, 1, 3), 3),
        (Shape::new(251, 96, 96), 255),
    ] {
        let good = good(scheme, shape, rounds);
        let [commitments, exchanges] = [&good.commitments, &good.exchanges].map(Piece::length);
        let [commitment, exchange] = [commitments, exchanges].map(|all| all / usize::from(rounds));
        for key in wrong_lengths(shape.m(), &[shape.n() + 7, 97]) {
            writings.push(good.changed(|writing| writing.key = ones(key)));
        }
        let others = [commitments - 32, commitments + 32, commitments + commitment];
        for length in wrong_lengths(commitments, &others) {
            writings.push(good.changed(|writing| writing.commitments = ones(length)));
        }
        let others = [exchanges - exchange, exchanges + exchange, commitments];
        for length in wrong_lengths(exchanges, &others) {
            writings.push(good.changed(|writing| writing.exchanges = ones(length)));
        }
        let others = [30, good.out - 30, good.out + exchange];
        for out in wrong_lengths(good.out, &others) {
            writings.push(good.changed(|writing| writing.out = out));
        }
    }
    writings
}

/// Elements and challenges that are all good.
fn ones(length: usize) -> Piece {
    Piece::repeated(&[1], length)
}

/// Each fault alone and in pairs, in two rounds.
fn several_faults(scheme: Scheme) -> Vec<Writing> {
    let good = good(scheme, Shape::new(7, 2, 2), 2);
    let layout = layout(good.header);
    let challenges = places(layout, Holds::Challenge);
    let [first, last] = [challenges[0], challenges[1]].map(|place| place - layout.exchanges.offset);
    let faults: [&dyn Fn(&mut Writing); 14] = [
        &|w| w.header[0] = 4,
        &|w| w.header[1] = 4,
        &|w| w.header[2] = 0,
        &|w| w.header[3] = 97,
        &|w| w.header[4] = 0,
        &|w| w.key = no_elements(w.key.length() + 1),
        &|w| w.commitments = no_elements(w.commitments.length() - 1),
        &|w| w.exchanges = no_elements(w.exchanges.length() + 1),
        &|w| w.out -= 1,
        &|w| w.key = w.key.clone().patched(1, 7),
        &|w| w.exchanges = w.exchanges.clone().patched(first + 1, 7),
        &|w| w.exchanges = w.exchanges.clone().patched(last + 1, 255),
        &|w| w.exchanges = w.exchanges.clone().patched(first, 3),
        &|w| w.exchanges = w.exchanges.clone().patched(last, 255),
    ];
    let mut writings = Vec::new();
    for (i, fault) in faults.iter().enumerate() {
        writings.push(good.changed(fault));
        for other in &faults[i + 1..] {
            writings.push(good.changed(other).changed(fault));
        }
    }
    writings
}

/// Neither elements nor challenges.
fn no_elements(length: usize) -> Piece {
    Piece::repeated(&[255], length)
}
