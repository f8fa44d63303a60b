//! Records checked by document 01's formulas alone, and by readers that are wrong in a known way.

use crate::stored::{cases, Case};

/// A byte of a record, 0 beyond its end.
fn at(record: &[u8], place: usize) -> usize {
    record.get(place).map_or(0, |&byte| byte.into())
}

/// Four bytes from a place on, the lowest first.
fn number(record: &[u8], place: usize) -> usize {
    let bytes = [3, 2, 1, 0].map(|i| at(record, place + i));
    bytes.iter().fold(0, |high, byte| 256 * high + byte)
}

/// The lengths of key, commitments and exchanges for scheme, q, n, m, N.
pub fn lengths([scheme, _, n, m, rounds]: [usize; 5]) -> [usize; 3] {
    if scheme == 3 {
        [m, rounds * 96, rounds * (1 + 2 * n + m + 64)]
    } else {
        [m, rounds * 64, rounds * (1 + n + m + 1 + n + 32)]
    }
}

fn header(record: &[u8]) -> [usize; 5] {
    [1, 2, 3, 4, 5].map(|place| at(record, place))
}

fn is_good_header([scheme, q, n, m, rounds]: [usize; 5]) -> bool {
    let counts = [(n, 96), (m, 96), (rounds, 255)];
    [3, 5].contains(&scheme)
        && [2, 7, 31, 251].contains(&q)
        && counts
            .iter()
            .all(|&(count, most)| 1 <= count && count <= most)
}

/// A test of a record: its refusal, if it applies.
type Step = fn(&[u8]) -> Option<u8>;

fn size(record: &[u8]) -> Option<u8> {
    (record.len() < 30).then_some(6)
}

fn edition(record: &[u8]) -> Option<u8> {
    (at(record, 0) != 1).then_some(6)
}

fn numbers(record: &[u8]) -> Option<u8> {
    (!is_good_header(header(record))).then_some(1)
}

fn table(record: &[u8]) -> Option<u8> {
    let mut end = 30;
    for (body, length) in lengths(header(record)).into_iter().enumerate() {
        let entry = 6 + 8 * body;
        if number(record, entry) != end || number(record, entry + 4) != length {
            return Some(6);
        }
        end += length;
    }
    None
}

/// Does the last body end at the end, by its entry?
fn total(record: &[u8]) -> Option<u8> {
    (record.len() != number(record, 22) + number(record, 26)).then_some(6)
}

/// The refusals of bad bytes in file order, place by place.
fn faults(record: &[u8]) -> Vec<u8> {
    let header = header(record);
    let [scheme, q, n, m, rounds] = header;
    let [key, commitments, exchanges] = lengths(header);
    let (challenge, below, first, last) = if scheme == 3 {
        (0, 3, 0, 2 * n + m)
    } else {
        (1 + n + m, 2, 0, 1 + 2 * n + m)
    };
    let mut faults = Vec::new();
    for place in 30..30 + key + commitments + exchanges {
        let byte = at(record, place);
        if place < 30 + key {
            faults.extend((byte >= q).then_some(3));
        } else if place >= 30 + key + commitments {
            let within = (place - 30 - key - commitments) % (exchanges / rounds);
            if within == challenge {
                faults.extend((byte >= below).then_some(4));
            } else if first <= within && within <= last {
                faults.extend((byte >= q).then_some(3));
            }
        }
    }
    faults
}

fn first_fault(record: &[u8]) -> Option<u8> {
    faults(record).first().copied()
}

fn least_fault(record: &[u8]) -> Option<u8> {
    faults(record).into_iter().min()
}

fn last_fault(record: &[u8]) -> Option<u8> {
    faults(record).last().copied()
}

const READER: [Step; 6] = [size, edition, numbers, table, total, first_fault];

/// The number of a record by these tests, one after another.
fn by(steps: &[Step], record: &[u8]) -> u8 {
    let refusal = steps.iter().find_map(|step| step(record));
    refusal.unwrap_or(0)
}

/// A record's number.
pub fn refusal(record: &[u8]) -> u8 {
    by(&READER, record)
}

#[test]
fn readings() {
    for case in cases(9) {
        let record = &case.inputs[0];
        assert_eq!(refusal(record), case.number);
        let out = match case.number {
            0 => record[..30].to_vec(),
            _ => vec![case.fill; 30],
        };
        assert_eq!(case.expected, [out]);
    }
}

/// Readers with a test left out, at another place or of another kind, and in how many of the stored
/// records each must be told.
#[test]
fn wrong_readers() {
    let wrong: [&[Step]; 8] = [
        &[size, numbers, table, total, first_fault],
        &[size, edition, numbers, total, first_fault],
        &[size, edition, numbers, table, first_fault],
        &[size, numbers, edition, table, total, first_fault],
        &[size, edition, table, total, numbers, first_fault],
        &[edition, numbers, table, size, total, first_fault],
        &[size, edition, numbers, table, total, least_fault],
        &[size, edition, numbers, table, total, last_fault],
    ];
    let readings = cases(9);
    for steps in wrong {
        let told = readings
            .iter()
            .filter(|case| by(steps, &case.inputs[0]) != case.number);
        assert!(told.count() >= 5);
    }
}

/// The header of a writing and whether its slices have their lengths.
fn written_header(case: &Case) -> ([usize; 5], bool) {
    let header = [0, 1, 2, 3, 4].map(|i| usize::from(case.inputs[0][i]));
    let right = lengths(header);
    let slices = [1, 2, 3].map(|i| case.inputs[i].len());
    let out = 30 + right.iter().sum::<usize>();
    (header, slices == right && case.expected[0].len() == out)
}

/// The record that the arguments make, whatever they are.
fn joined(case: &Case) -> Vec<u8> {
    let mut record = vec![1];
    record.extend(&case.inputs[0]);
    let mut offset = 30;
    for body in &case.inputs[1..] {
        for number in [offset, body.len()] {
            record.extend((0..4).map(|i| u8::try_from(number >> (8 * i) & 255).expect("a byte")));
        }
        offset += body.len();
    }
    record.extend(case.inputs[1..].concat());
    record
}

#[test]
fn writings() {
    for case in cases(10) {
        let record = joined(&case);
        let (header, is_long) = written_header(&case);
        let number = if !is_good_header(header) {
            1
        } else if !is_long {
            2
        } else {
            least_fault(&record).unwrap_or(0)
        };
        assert_eq!(number, case.number);
        let length = case.expected[0].len();
        let out = match number {
            0 => record,
            _ => vec![case.fill; length],
        };
        assert_eq!(case.expected, [out]);
    }
}

/// A writer that takes the first fault, as a reader does, is told.
#[test]
fn wrong_writer() {
    let refused = cases(10).into_iter().filter(|case| case.number == 3);
    let told = refused.filter(|case| first_fault(&joined(case)) == Some(4));
    assert!(told.count() >= 5);
}
