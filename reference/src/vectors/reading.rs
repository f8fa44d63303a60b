//! Cases for the record's reader: document 01, "Session record" and the order of its refusals.

use super::case::{Answer, Call, Group, FILL};
use super::honest::{group, small_card, SMALL_ALPHA};
use super::instance::Shape;
use super::piece::Piece;
use super::session::{header, layout, parts, patterned, places, Holds, Session};
use crate::entries;
use crate::field::ORDERS;
use crate::random::Generator;
use crate::record::{Header, Layout, BODIES, HEADER};
use crate::scheme::{Scheme, SCHEMES};

/// What this implementation answers.
pub fn answer(record: &Piece) -> Answer {
    let mut out = [FILL; BODIES];
    let number = entries::read(&record.expanded(), &mut out);
    let outs = vec![out.to_vec()];
    Answer { number, outs }
}

pub fn groups() -> Vec<Group> {
    SCHEMES.into_iter().flat_map(scheme_groups).collect()
}

fn scheme_groups(scheme: Scheme) -> Vec<Group> {
    let topics = [
        ("read honest records", honest(scheme)),
        ("read sizes", sizes(scheme)),
        ("read edges of each part", edges(scheme)),
        ("read every challenge", challenges(scheme)),
        ("read every byte changed", every_byte(scheme)),
        ("read every truncation", every_length(scheme)),
        ("read headers", headers(scheme)),
        ("read tables", tables(scheme)),
        ("read two bad bytes", two_bad_bytes(scheme)),
        ("read several faults", several_faults(scheme)),
    ];
    let groups = topics.map(|(topic, records)| {
        let cases = records.into_iter().map(|record| Call::Read { record });
        group(scheme, topic, cases.collect())
    });
    groups.into()
}

/// The small key's honest round with each challenge.
pub fn honest(scheme: Scheme) -> Vec<Piece> {
    let card = small_card(&mut Generator::from_seed(80), scheme);
    let rounds = scheme.challenges();
    let rounds = rounds.map(|challenge| card.judged(SMALL_ALPHA, challenge));
    let mut records: Vec<Vec<u8>> = rounds.map(|round| Session::of(&[round]).record()).collect();
    let mut random = Generator::from_seed(81);
    for q in ORDERS {
        let session = Session::honest(&mut random, scheme, Shape::new(q, 3, 2), 3);
        records.push(session.record());
    }
    records
        .iter()
        .map(|record| Piece::literal(record))
        .collect()
}

/// Each q with each N, sizes in turn; and the largest records.
fn headers_of_sizes(scheme: Scheme) -> Vec<[u8; 5]> {
    let mut sizes = [(1, 1), (2, 2), (96, 1), (1, 96), (96, 96)].iter().cycle();
    let mut headers = Vec::new();
    for q in ORDERS {
        for rounds in [1, 2, 52, 255] {
            let (n, m) = *sizes.next().expect("a cycle goes on");
            headers.push(header(scheme, Shape::new(q, n, m), rounds));
        }
    }
    let largest = ORDERS.map(|q| header(scheme, Shape::new(q, 96, 96), 255));
    headers.extend(largest);
    headers.dedup();
    headers
}

pub fn sizes(scheme: Scheme) -> Vec<Piece> {
    let mut random = Generator::from_seed(82);
    let headers = headers_of_sizes(scheme).into_iter();
    headers
        .map(|header| patterned(&mut random, header))
        .collect()
}

/// q-1, q and 255 at the edges of each part of two rounds.
pub fn edges(scheme: Scheme) -> Vec<Piece> {
    let mut random = Generator::from_seed(83);
    let mut records = Vec::new();
    for q in ORDERS {
        let header = header(scheme, Shape::new(q, 3, 2), 2);
        let good = patterned(&mut random, header);
        for part in parts(layout(header)) {
            for place in part.edges() {
                records.extend([q - 1, q, 255].map(|byte| good.clone().patched(place, byte)));
            }
        }
    }
    records
}

/// Each challenge and some bytes that are none, in the first, a middle and the last of 52 rounds.
pub fn challenges(scheme: Scheme) -> Vec<Piece> {
    let header = header(scheme, Shape::new(31, 2, 1), 52);
    let good = patterned(&mut Generator::from_seed(84), header);
    let places = places(layout(header), Holds::Challenge);
    let mut records = Vec::new();
    for place in [places[0], places[26], places[51]] {
        records.extend([0, 1, 2, 3, 4, 255].map(|byte| good.clone().patched(place, byte)));
    }
    records
}

/// The small key's record of one round, and its layout.
fn small(scheme: Scheme) -> (Vec<u8>, Layout) {
    let card = small_card(&mut Generator::from_seed(85), scheme);
    let session = Session::of(&[card.judged(SMALL_ALPHA, 1)]);
    (session.record(), layout(session.header()))
}

/// Each byte one more, and 255.
fn every_byte(scheme: Scheme) -> Vec<Piece> {
    let (good, _) = small(scheme);
    let record = Piece::literal(&good);
    let mut records = Vec::new();
    for (place, byte) in good.iter().enumerate() {
        let mut bytes = vec![byte.wrapping_add(1), 255];
        bytes.dedup();
        records.extend(
            bytes
                .iter()
                .map(|&byte| record.clone().patched(place, byte)),
        );
    }
    records
}

/// The record cut at every place, and with bytes after it.
fn every_length(scheme: Scheme) -> Vec<Piece> {
    let (good, _) = small(scheme);
    let mut records: Vec<Piece> = (0..good.len())
        .map(|length| Piece::literal(&good[..length]))
        .collect();
    for more in [&[0][..], &[255], &good] {
        records.push(Piece::literal(&[&good, more].concat()));
    }
    records
}

/// Editions, and each number of the header at and outside its edges: with all else laid out as the
/// header says, if it is good, and with nothing else changed.
fn headers(scheme: Scheme) -> Vec<Piece> {
    let mut random = Generator::from_seed(86);
    let good = header(scheme, Shape::new(7, 2, 3), 2);
    let record = patterned(&mut random, good);
    let editions = [0, 1, 2, 3, 255].map(|edition| record.clone().patched(0, edition));
    let mut records = editions.to_vec();
    for (place, values) in HEADER_VALUES {
        for &value in values {
            let mut other = good;
            other[place] = value;
            if Header::of_bytes(other).is_ok() {
                records.push(patterned(&mut random, other));
            }
            records.push(record.clone().patched(1 + place, value));
        }
    }
    records
}

/// The edges of each number's values: scheme, q, n, m, N.
pub const HEADER_VALUES: [(usize, &[u8]); 5] = [
    (0, &[0, 1, 2, 3, 4, 5, 6, 13, 255]),
    (
        1,
        &[0, 1, 2, 3, 4, 7, 8, 16, 30, 31, 32, 250, 251, 252, 255],
    ),
    (2, &[0, 1, 95, 96, 97, 128, 255]),
    (3, &[0, 1, 95, 96, 97, 128, 255]),
    (4, &[0, 1, 2, 3, 254, 255]),
];

/// Tables that overlap, leave gaps or wrap, most of them with the right end; some also with a byte
/// more at the end.
fn tables(scheme: Scheme) -> Vec<Piece> {
    let (good, layout) = small(scheme);
    let longer = [&good[..], &[0]].concat();
    let right = [layout.key, layout.commitments, layout.exchanges];
    let right = right.map(|body| [number(body.offset), number(body.length)]);
    let (changed, moved) = (changed_numbers(right), moved_bodies(right));
    let other = [changed.clone(), moved.clone(), other_orders(right)].concat();
    let of_longer = [&changed[..6], &moved].concat();
    let records = other.iter().map(|table| with_table(&good, table));
    let of_longer = of_longer.iter().map(|table| with_table(&longer, table));
    records.chain(of_longer).collect()
}

/// Offset and length of each body.
type Table = [[u32; 2]; 3];

fn number(number: usize) -> u32 {
    u32::try_from(number).expect("below 2^32")
}

/// The record with another table.
fn with_table(record: &[u8], table: &Table) -> Piece {
    let mut record = record.to_vec();
    let bytes: Vec<u8> = table
        .as_flattened()
        .iter()
        .flat_map(|n| n.to_le_bytes())
        .collect();
    record[HEADER..BODIES].copy_from_slice(&bytes);
    Piece::literal(&record)
}

/// Each of the six numbers changed: one more first, then one less, by a bit of each byte, its bytes
/// the other way round, 0, the largest.
fn changed_numbers(right: Table) -> Vec<Table> {
    let changes: [fn(u32) -> u32; 9] = [
        |n| n + 1,
        |n| n - 1,
        |n| n ^ 1 << 8,
        |n| n ^ 1 << 16,
        |n| n ^ 1 << 24,
        |n| n ^ 1 << 31,
        u32::swap_bytes,
        |_| 0,
        |_| u32::MAX,
    ];
    let mut tables = Vec::new();
    for change in changes {
        for place in 0..6 {
            let mut table = right;
            let number = &mut table.as_flattened_mut()[place];
            *number = change(*number);
            tables.push(table);
        }
    }
    tables
}

/// What is added to offset and length of key, commitments and exchanges, modulo 2^32.
const MOVES: [[i32; 6]; 14] = [
    // A byte handed on from one body to the next, and back.
    [0, 1, 1, -1, 0, 0],
    [0, -1, -1, 1, 0, 0],
    [0, 0, 0, 1, 1, -1],
    [0, 0, 0, -1, -1, 1],
    // All bodies one byte on, the last one shorter; offsets from the first body.
    [1, 0, 1, 0, 1, -1],
    [-30, 0, -30, 0, -30, 0],
    // A gap before the key or the commitments, and as many bytes more in all.
    [1, 0, 1, 0, 1, 0],
    [0, 0, 1, 0, 1, 0],
    // A gap before a body or a piece of the one before it, the ends kept.
    [0, 0, 1, -1, 0, 0],
    [0, 0, -1, 1, 0, 0],
    [0, 0, 0, 0, -1, 1],
    // A body that ends 2^32 after its end.
    [-41, 41, 0, 0, 0, 0],
    [0, 0, -201, 201, 0, 0],
    [0, 0, 0, 0, i32::MIN, i32::MIN],
];

fn moved_bodies(right: Table) -> Vec<Table> {
    let tables = MOVES.map(|moves| {
        let mut table = right;
        for (number, by) in table.as_flattened_mut().iter_mut().zip(moves) {
            *number = number.wrapping_add_signed(by);
        }
        table
    });
    tables.to_vec()
}

/// Bodies, entries, or offset and length in another order; and the exchanges from byte 0 on.
fn other_orders([key, commitments, exchanges]: Table) -> Vec<Table> {
    let after = [key[0] + commitments[1], key[1]];
    let before = [key[0], commitments[1]];
    vec![
        [after, before, exchanges],
        [commitments, key, exchanges],
        [exchanges, commitments, key],
        [key, commitments, exchanges].map(|[offset, length]| [length, offset]),
        [key, commitments, [0, exchanges[0] + exchanges[1]]],
    ]
}

/// A bad element and a bad challenge in one record of two rounds, in either order.
pub fn two_bad_bytes(scheme: Scheme) -> Vec<Piece> {
    let header = header(scheme, Shape::new(7, 2, 2), 2);
    let good = patterned(&mut Generator::from_seed(87), header);
    bad_pairs(header)
        .into_iter()
        .map(|pair| {
            pair.iter().fold(good.clone(), |record, &(place, byte)| {
                record.patched(place, byte)
            })
        })
        .collect()
}

/// Each part's first element with each challenge, both made bad: their places in the record.
fn bad_pairs(header: [u8; 5]) -> Vec<[(usize, u8); 2]> {
    let layout = layout(header);
    let elements = places(layout, Holds::Elements);
    let challenges = places(layout, Holds::Challenge);
    let mut pairs = Vec::new();
    for &element in &elements {
        for &challenge in &challenges {
            pairs.push([(element, header[1]), (challenge, 3)]);
        }
    }
    pairs
}

/// Each fault alone and in pairs, in the small key's record, also with a byte too many; and cut.
fn several_faults(scheme: Scheme) -> Vec<Piece> {
    let (good, layout) = small(scheme);
    let challenge = places(layout, Holds::Challenge)[0];
    let faults = [
        (0, 2),
        (1, 4),
        (2, 4),
        (3, 0),
        (4, 97),
        (5, 0),
        (6, 31),
        (BODIES - 1, 1),
        (BODIES, 7),
        (challenge, 3),
    ];
    let mut records = Vec::new();
    for (i, fault) in faults.iter().enumerate() {
        for other in &faults[i..] {
            let mut record = good.clone();
            for &(place, byte) in [fault, other] {
                record[place] = byte;
            }
            records.push(Piece::literal(&record));
            if fault == other {
                records.extend([BODIES - 1, BODIES].map(|cut| Piece::literal(&record[..cut])));
            }
            record.push(0);
            records.push(Piece::literal(&record));
        }
    }
    records
}
