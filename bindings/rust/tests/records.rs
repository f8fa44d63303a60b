//! Records and reports: the proved functions and the second implementation.

mod common;

use canvasfox::{record_read, report, slices, Fields, FIELDS, TEXT};
use common::{any_bytes, assert_answers, below, damage, damage_challenge, once_in, output};
use common::{perhaps_damage, scheme, shape, Tally};
use reference::entries;
use reference::random::Generator;
use reference::record::BODIES;
use reference::vectors::reporting::mixed;
use reference::vectors::session::{header, patterned, Session};

/// A record, valid: of honest rounds, or of no card's.
fn record(random: &mut Generator) -> Vec<u8> {
    let scheme = scheme(random);
    if once_in(random, 3) {
        let shape = shape(random, usize::MAX);
        let rounds = 1 + random.byte_below(3);
        Session::honest(random, scheme, shape, rounds).record()
    } else {
        let shape = shape(random, 50);
        let most = if once_in(random, 50) { 255 } else { 6 };
        let rounds = 1 + random.byte_below(most);
        patterned(random, header(scheme, shape, rounds)).expanded()
    }
}

/// The fields that a record's own first bytes say.
fn fields(bytes: &[u8]) -> Fields {
    let number = |at: usize| {
        let word = bytes[at..at + 4].try_into().expect("four bytes");
        usize::try_from(u32::from_le_bytes(word)).expect("a length")
    };
    let body = |at: usize| number(at)..number(at) + number(at + 4);
    Fields {
        edition: bytes[0],
        scheme: bytes[1],
        q: bytes[2],
        n: bytes[3],
        m: bytes[4],
        rounds: bytes[5],
        key: body(6),
        commitments: body(14),
        exchanges: body(22),
    }
}

#[test]
fn read() {
    let mut random = Generator::from_seed(30);
    let mut tally = Tally::default();
    for _ in 0..30_000 {
        let mut bytes = record(&mut random);
        if once_in(&mut random, 10) {
            damage_challenge(&mut random, &mut bytes);
        }
        while once_in(&mut random, 2) {
            damage(&mut random, &mut bytes);
        }
        let before = output(&mut random, FIELDS);
        let mut expected = before.clone();
        // The second implementation's reader has no output of another length: here that is 2.
        let answer = match <&mut [u8; BODIES]>::try_from(&mut expected[..]) {
            Ok(fields) => entries::read(&bytes, fields),
            Err(_) => 2,
        };
        let mut found = before;
        assert_eq!(slices::record_read(&bytes, &mut found), answer);
        assert_eq!(found, expected);
        tally.note(answer);
        let mut right = [0; BODIES];
        let answer = entries::read(&bytes, &mut right);
        assert_answers(record_read(&bytes), answer, fields(&right));
    }
    tally.has("record read", &[0, 1, 2, 3, 4, 6], 150);
}

/// What the report says of an input, in an output of a length.
fn compare(random: &mut Generator, tally: &mut Tally, input: &[u8]) {
    let before = output(random, TEXT);
    let text = entries::report(input);
    let mut expected = before.clone();
    let length = if before.len() == TEXT { text.len() } else { 0 };
    expected[..length].copy_from_slice(&text.as_bytes()[..length]);
    let mut found = before;
    assert_eq!(slices::report(input, &mut found), length);
    assert!(found == expected, "the text {text}");
    assert_eq!(report(input), text);
    let refused = text.strip_prefix("refused ");
    tally.note(refused.map_or(0, |rest| rest.trim_end().parse().expect("a number")));
}

#[test]
fn reports() {
    let mut random = Generator::from_seed(31);
    let mut tally = Tally::default();
    for _ in 0..20_000 {
        let scheme = scheme(&mut random);
        let shape = shape(&mut random, 500);
        let rounds = 1 + random.byte_below(3);
        let session = Session::honest(&mut random, scheme, shape, rounds);
        let mut record = session.record();
        if once_in(&mut random, 10) {
            damage_challenge(&mut random, &mut record);
        }
        perhaps_damage(&mut random, 3, &mut record);
        let other = common::shape(&mut random, usize::MAX);
        let mut system = if once_in(&mut random, 12) {
            other.random_system(&mut random).expanded()
        } else {
            session.system.expanded()
        };
        perhaps_damage(&mut random, 6, &mut system);
        compare(&mut random, &mut tally, &[system, record].concat());
    }
    tally.has("report", &[0, 1, 2, 3, 4, 6, 7], 50);
}

/// 255 rounds, and inputs about the longest.
#[test]
fn long_reports() {
    let mut random = Generator::from_seed(32);
    let mut tally = Tally::default();
    for scheme in reference::scheme::SCHEMES {
        let shape = reference::vectors::instance::Shape::new(31, 2, 3);
        let session = Session::honest(&mut random, scheme, shape, 255);
        let input = session.input();
        for _ in 0..40 {
            compare(&mut random, &mut tally, &input);
        }
        for length in [65_535, 65_536, 65_537, 70_000] {
            let mut input = input.clone();
            input.resize(length, 0);
            compare(&mut random, &mut tally, &input);
        }
    }
    for _ in 0..100 {
        let length = below(&mut random, 66_000);
        let input = any_bytes(&mut random, length);
        compare(&mut random, &mut tally, &input);
    }
    tally.has("long reports", &[0, 1, 2, 6], 2);
}

/// Sessions of any length, any of whose rounds are rejected: each total has one, two or three digits,
/// and each pair of lengths comes up.
#[test]
fn totals() {
    let mut random = Generator::from_seed(33);
    let mut tally = Tally::default();
    let mut lengths = Tally::default();
    for _ in 0..400 {
        let scheme = scheme(&mut random);
        let shape = shape(&mut random, usize::MAX);
        let rounds = 1 + random.byte_below(255);
        let rejected = random.byte_below(u16::from(rounds) + 1);
        let counts = [rounds - rejected, rejected];
        let session = mixed(&mut random, scheme, shape, counts);
        compare(&mut random, &mut tally, &session.input());
        let [accepted, rejected] = counts.map(digits);
        lengths.note(10 * accepted + rejected);
    }
    tally.has("totals", &[0], 400);
    let pairs = [11, 12, 13, 21, 22, 23, 31, 32, 33];
    lengths.has("lengths of totals", &pairs, 10);
}

/// How many digits a number has.
fn digits(number: u8) -> u8 {
    1 + u8::from(number >= 10) + u8::from(number >= 100)
}
