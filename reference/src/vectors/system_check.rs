//! Cases for the check of a system's bytes: document 01, "System, F and G".

use super::case::{Call, Group};
use super::instance::Shape;
use super::piece::Piece;
use crate::field::ORDERS;
use crate::random::Generator;
use crate::system::{width, HEAD};

pub fn groups() -> Vec<Group> {
    vec![
        group("values of q, n, m", values()),
        group("no whole head", heads()),
        group("sizes", sizes()),
        group("lengths", lengths()),
        group("elements", elements()),
        group("every place of a small system", every_place()),
        group("places of the largest system", largest()),
        group("several faults", several_faults()),
    ]
}

fn group(topic: &str, systems: Vec<Piece>) -> Group {
    let cases = systems.into_iter().map(|system| Call::Check { system });
    Group {
        name: format!("check, {topic}"),
        cases: cases.collect(),
    }
}

/// Each byte as q, as n and as m, beside 7, 1 and 1, with the length that they say.
fn values() -> Vec<Piece> {
    let mut systems = Vec::new();
    for byte in 0..=255 {
        systems.push(Shape::new(byte, 1, 1).system(&[1, 0]));
        systems.push(Shape::new(7, byte, 1).system(&[1, 6, 0]));
        systems.push(Shape::new(7, 1, byte).system(&[1, 6, 0]));
    }
    systems
}

/// Under three bytes, good ones and bad ones, and a head alone.
fn heads() -> Vec<Piece> {
    let bytes: [&[u8]; 12] = [
        &[],
        &[7],
        &[4],
        &[7, 2],
        &[4, 0],
        &[255, 255],
        &[7, 2, 2],
        &[4, 2, 2],
        &[7, 0, 2],
        &[7, 2, 0],
        &[7, 97, 2],
        &[7, 2, 97],
    ];
    bytes.iter().map(|bytes| Piece::literal(bytes)).collect()
}

/// Well-formed systems of the least and the largest sizes.
fn sizes() -> Vec<Piece> {
    let mut random = Generator::from_seed(11);
    let mut systems = Vec::new();
    for q in ORDERS {
        for (n, m) in [(1, 1), (1, 96), (96, 1), (96, 96), (5, 3), (33, 31)] {
            systems.push(Shape::new(q, n, m).random_system(&mut random));
        }
    }
    systems
}

/// Lengths that are too short or too long, by one byte and by a row.
fn lengths() -> Vec<Piece> {
    let mut random = Generator::from_seed(12);
    let mut systems = Vec::new();
    for q in ORDERS {
        for (n, m) in [(1, 1), (2, 2), (1, 96), (96, 1), (96, 96)] {
            let shape = Shape::new(q, n, m);
            let pattern = shape.random_pattern(&mut random);
            let right = shape.length();
            let row = width(shape.n());
            for wrong in [HEAD, right - row, right - 1, right + 1, right + 300] {
                systems.push(shape.system_of_length(&pattern, wrong));
            }
        }
    }
    systems
}

/// The first or the last coefficient at, just below and above q.
fn elements() -> Vec<Piece> {
    let mut random = Generator::from_seed(13);
    let mut systems = Vec::new();
    for q in ORDERS {
        for (n, m) in [(1, 1), (2, 3), (1, 96), (96, 1), (96, 96)] {
            let shape = Shape::new(q, n, m);
            let system = shape.random_system(&mut random);
            for byte in [q - 1, q, q + 1, 255] {
                systems.push(system.clone().patched(HEAD, byte));
                systems.push(system.clone().patched(shape.length() - 1, byte));
            }
        }
    }
    systems
}

/// One coefficient too large, at every place.
fn every_place() -> Vec<Piece> {
    let shape = Shape::new(31, 5, 3);
    let system = shape.random_system(&mut Generator::from_seed(14));
    (HEAD..shape.length())
        .map(|offset| system.clone().patched(offset, shape.q))
        .collect()
}

/// One coefficient too large in the largest system, around the edges of rows and of powers of two.
fn largest() -> Vec<Piece> {
    let mut random = Generator::from_seed(15);
    let mut systems = Vec::new();
    for q in ORDERS {
        let shape = Shape::new(q, 96, 96);
        let system = shape.random_system(&mut random);
        let row = width(shape.n());
        for edge in [16, 64, 512, 4096, row, 2 * row, 65_536, 48 * row, 95 * row] {
            for coefficient in [edge - 1, edge, edge + 1] {
                systems.push(system.clone().patched(HEAD + coefficient, q));
            }
        }
    }
    systems
}

/// Two faults at once: q, n, m before the length, the length before an element.
fn several_faults() -> Vec<Piece> {
    let bad_element = [255];
    let bad_heads = [
        (4, 2, 2),
        (7, 0, 2),
        (7, 2, 0),
        (7, 97, 2),
        (7, 2, 97),
        (0, 97, 97),
    ];
    let mut systems = Vec::new();
    for (q, n, m) in bad_heads {
        let shape = Shape::new(q, n, m);
        systems.push(shape.system(&bad_element));
        systems.push(shape.system_of_length(&bad_element, HEAD + 1));
        systems.push(shape.system_of_length(&[1], shape.length() + 1));
    }
    for (n, m) in [(2, 2), (96, 1), (1, 96), (96, 96)] {
        let shape = Shape::new(7, n, m);
        systems.push(shape.system_of_length(&bad_element, shape.length() - 1));
        systems.push(shape.system_of_length(&bad_element, shape.length() + 1));
        let long = shape.system_of_length(&[1], shape.length() + 1);
        systems.push(long.patched(shape.length(), 7));
    }
    systems
}
