//! The tables of times.

use crate::inputs::{book, challenges_in_turn, elements, system, Card, CARDS, LARGEST};
use crate::table::{micros, millis, ratio, Table};
use crate::timing::{best, Effort, Side};
use crate::{engine, plain};
use canvasfox::FINDING;
use reference::random::Generator;
use reference::scheme::Scheme;
use std::hint::black_box;

/// q, n, m of the systems that F and G are timed on.
const SIZES: [(u8, u8, u8); 4] = [(2, 84, 80), (31, 48, 48), (31, 64, 64), (251, 96, 96)];

/// Bytes of the messages that are hashed.
const MESSAGES: [usize; 3] = [34, 322, 65_535];

/// The key of the records.
const KEY: (u8, u8, u8) = (2, 84, 80);
const ROUNDS: u8 = 52;

pub const COMPARED: &str = "\
Best of many, in microseconds; the sides take turns. Where a loop starts within 32 bytes moves its time by some 10 % on either side, and
any change of the code moves that: each time is the better of two builds, the second with all code 16 bytes further on.

- `same form` is Rust in the form of the engine. F and G: the monomials once for a vector, then for each polynomial a product of two
  rows, in sixteen running sums of 32 bits. SHA-256: FIPS 180-4 as it stands, with no intrinsics. A record and an
  audit: the same monomials, hashes and checks of every byte, with no memory from the heap, and compiled apart for each q. No side
  puts the system in another form first, as in packed bits. A key book: a pass over its offsets, one over its labels and one over
  its keys by a running maximum, with no memory from the heap, and for the lookup a search by halves, after the same checks.
- `nested loops` is the definition: for each polynomial the double sum over i ≤ j in a running sum of 64 bits, with one division. G
  is the sum of the a(i,j)·(x_i·y_j + x_j·y_i).

The check of every byte of the system is counted on all sides. The first ratio is the engine's time by that of the same form in Rust,
and is to be at most the number behind it; the second is the time of the nested loops by the engine's, and is to be at least 7.

";

/// Every comparison.
pub fn compared(effort: Effort) -> String {
    let mut table = Table::new(&[
        "what",
        "size",
        "Rattle",
        "Rust, same form",
        "ratio",
        "to reach",
        "Rust, nested loops",
        "times as fast",
    ]);
    let mut random = Generator::from_seed(1);
    for (q, n, m) in SIZES {
        maps(effort, &mut table, &mut random, q, n, m);
    }
    for length in MESSAGES {
        hashes(effort, &mut table, &random.bytes_below(256, length));
    }
    let (q, n, m) = KEY;
    let card = Card::random(&mut random, Scheme::ThreePass, q, n, m, ROUNDS);
    let record = card.session(&challenges_in_turn(ROUNDS)).record;
    let of_record = format!("{} rounds at {q}, {n}, {m}", ROUNDS);
    let times = judging(effort, &card.system, &record, ROUNDS);
    table.row(row("judging a record", &of_record, &times, "1.15"));
    let records = card.three_records(&mut random);
    let times = auditing(effort, &card, &records);
    let of_records = format!("3 records of {of_record}");
    table.row(row("audit", &of_records, &times, "1.02"));
    let (book, label) = book(&mut random);
    let (q, n, m) = LARGEST;
    let of_book = format!("{CARDS} cards at {q}, {n}, {m}");
    let times = reading(effort, &book);
    table.row(row("reading a book", &of_book, &times, "1.15"));
    let times = looking_up(effort, &book, &label);
    table.row(row("lookup in a book", &of_book, &times, "1.15"));
    table.text().to_string()
}

/// A row of the table: the engine's time, that of the same form, and that of the nested loops where there is one.
fn row(what: &str, size: &str, times: &[f64], reach: &str) -> Vec<String> {
    let nested = times.get(2);
    vec![
        what.to_string(),
        size.to_string(),
        micros(times[0]),
        micros(times[1]),
        ratio(times[0], times[1]),
        reach.to_string(),
        nested.map_or(String::new(), |&time| micros(time)),
        nested.map_or(String::new(), |&time| ratio(time, times[0])),
    ]
}

fn maps(effort: Effort, table: &mut Table, random: &mut Generator, q: u8, n: u8, m: u8) {
    let bytes = system(random, q, n, m);
    let x = elements(random, q, usize::from(n));
    let y = elements(random, q, usize::from(n));
    let size = format!("{q}, {n}, {m}");
    table.row(row("F", &size, &evaluating(effort, &bytes, &x), "1.10"));
    table.row(row("G", &size, &polarising(effort, &bytes, &x, &y), "1.10"));
}

/// F: the engine, monomials in Rust, nested loops in Rust.
fn evaluating(effort: Effort, system: &[u8], x: &[u8]) -> Vec<f64> {
    let m = usize::from(system[2]);
    let [mut a, mut b, mut c] = [0; 3].map(|_| vec![0; m]);
    assert_eq!(engine::evaluate(system, x, &mut a), 0);
    assert_eq!(plain::map::evaluate(system, x, &mut b), Ok(()));
    assert_eq!(plain::map::nested_evaluate(system, x, &mut c), Ok(()));
    let read = reference::system::System::read(system).expect("a well-formed system");
    let expected = reference::map::evaluate(&read, x);
    assert!([&a, &b, &c].into_iter().all(|out| *out == expected));
    let mut sides: [Side; 3] = [
        Box::new(|| {
            black_box(engine::evaluate(black_box(system), black_box(x), &mut a));
        }),
        Box::new(|| {
            let _ = black_box(plain::map::evaluate(
                black_box(system),
                black_box(x),
                &mut b,
            ));
        }),
        Box::new(|| {
            let answer = plain::map::nested_evaluate(black_box(system), black_box(x), &mut c);
            let _ = black_box(answer);
        }),
    ];
    best(effort, &mut sides)
}

/// G: the same three.
fn polarising(effort: Effort, system: &[u8], x: &[u8], y: &[u8]) -> Vec<f64> {
    let m = usize::from(system[2]);
    let [mut a, mut b, mut c] = [0; 3].map(|_| vec![0; m]);
    assert_eq!(engine::polar(system, x, y, &mut a), 0);
    assert_eq!(plain::map::polar(system, x, y, &mut b), Ok(()));
    assert_eq!(plain::map::nested_polar(system, x, y, &mut c), Ok(()));
    let read = reference::system::System::read(system).expect("a well-formed system");
    let expected = reference::map::polar(&read, x, y);
    assert!([&a, &b, &c].into_iter().all(|out| *out == expected));
    let mut sides: [Side; 3] = [
        Box::new(|| {
            let (system, x, y) = (black_box(system), black_box(x), black_box(y));
            black_box(engine::polar(system, x, y, &mut a));
        }),
        Box::new(|| {
            let (system, x, y) = (black_box(system), black_box(x), black_box(y));
            let _ = black_box(plain::map::polar(system, x, y, &mut b));
        }),
        Box::new(|| {
            let (system, x, y) = (black_box(system), black_box(x), black_box(y));
            let _ = black_box(plain::map::nested_polar(system, x, y, &mut c));
        }),
    ];
    best(effort, &mut sides)
}

fn hashes(effort: Effort, table: &mut Table, message: &[u8]) {
    let [mut a, mut b] = [[0; 32]; 2];
    assert_eq!(engine::sha256(message, &mut a), 0);
    assert_eq!(plain::sha256::digest(message, &mut b), Ok(()));
    assert!(a == b && a == reference::sha256::sha256(message));
    let mut sides: [Side; 2] = [
        Box::new(|| {
            black_box(engine::sha256(black_box(message), &mut a));
        }),
        Box::new(|| {
            let _ = black_box(plain::sha256::digest(black_box(message), &mut b));
        }),
    ];
    let size = format!("{} bytes", message.len());
    table.row(row("SHA-256", &size, &best(effort, &mut sides), "1.15"));
}

/// A whole record: the engine, then Rust.
fn judging(effort: Effort, system: &[u8], record: &[u8], rounds: u8) -> Vec<f64> {
    assert_eq!(engine::judge(system, record), Ok(rounds));
    assert_eq!(plain::judge::judge(system, record), Ok(rounds));
    spoiled(system, record, rounds);
    let mut sides: [Side; 2] = [
        Box::new(|| {
            let _ = black_box(engine::judge(black_box(system), black_box(record)));
        }),
        Box::new(|| {
            let _ = black_box(plain::judge::judge(black_box(system), black_box(record)));
        }),
    ];
    best(effort, &mut sides)
}

/// Both sides reject a round whose ρ is another, so neither leaves its last round out.
fn spoiled(system: &[u8], record: &[u8], rounds: u8) {
    let mut other = record.to_vec();
    let last = other.len() - 1;
    other[last] ^= 1;
    assert_eq!(engine::judge(system, &other), Ok(rounds - 1));
    assert_eq!(plain::judge::judge(system, &other), Ok(rounds - 1));
}

/// An audit of three records: the engine, then Rust.
fn auditing(effort: Effort, card: &Card, records: &[Vec<u8>; 3]) -> Vec<f64> {
    let system = &card.system[..];
    let mut secret = [0; 96];
    secret[..card.s.len()].copy_from_slice(&card.s);
    let mut finding = [0; FINDING];
    let found = engine::audit_three(system, records, &mut finding);
    assert_eq!(found, Ok(&secret[..]));
    assert_eq!(plain::audit::audit_three(system, records), Ok(secret));
    let mut sides: [Side; 2] = [
        Box::new(|| {
            let (system, records) = (black_box(system), black_box(records));
            let _ = black_box(engine::audit_three(system, records, &mut finding));
        }),
        Box::new(|| {
            let _ = black_box(plain::audit::audit_three(
                black_box(system),
                black_box(records),
            ));
        }),
    ];
    best(effort, &mut sides)
}

/// A key book read: the engine, then Rust.
fn reading(effort: Effort, book: &[u8]) -> Vec<f64> {
    let mut fields = [0; 7];
    assert_eq!(engine::book_read(book, &mut fields), 0);
    assert_eq!(plain::book::read(book), Ok(fields));
    assert_eq!(fields, book[..7]);
    spoiled_books(book);
    let mut sides: [Side; 2] = [
        Box::new(|| {
            black_box(engine::book_read(black_box(book), &mut fields));
        }),
        Box::new(|| {
            let _ = black_box(plain::book::read(black_box(book)));
        }),
    ];
    best(effort, &mut sides)
}

/// Both sides refuse a book for a byte of its last offset, label and key, so neither leaves its last card out.
fn spoiled_books(book: &[u8]) {
    let keys = 7 + 14 * CARDS;
    let entry = keys - 14;
    let last = book.len() - 1;
    for (at, byte, number) in [
        (keys - 1, 1, 6),
        (entry, 0xa8, 12),
        (entry, 0, 13),
        (last, 251, 3),
    ] {
        let mut other = book.to_vec();
        other[at] = byte;
        assert_eq!(engine::book_read(&other, &mut [0; 7]), number);
        assert_eq!(plain::book::read(&other), Err(number));
    }
}

/// A label looked up in a key book, which is read first: the engine, then Rust.
fn looking_up(effort: Effort, book: &[u8], label: &[u8]) -> Vec<f64> {
    let mut key = [0; 96];
    assert_eq!(engine::book_lookup(book, label, &mut key), 0);
    assert_eq!(plain::book::lookup(book, label), Ok(Some(key)));
    let read = reference::book::Book::read(book).expect("a well-formed book");
    let wanted = reference::label::Label::of_bytes(label).expect("a label");
    assert_eq!(read.key(wanted), Some(&key[..]));
    let absent = [0; 10];
    assert_eq!(engine::book_lookup(book, &absent, &mut [0; 96]), 255);
    assert_eq!(plain::book::lookup(book, &absent), Ok(None));
    let mut sides: [Side; 2] = [
        Box::new(|| {
            let (book, label) = (black_box(book), black_box(label));
            black_box(engine::book_lookup(book, label, &mut key));
        }),
        Box::new(|| {
            let (book, label) = (black_box(book), black_box(label));
            let _ = black_box(plain::book::lookup(book, label));
        }),
    ];
    best(effort, &mut sides)
}

pub const GROWTH: &str = "\
The engine alone, best of many, in microseconds. F reads m·(n(n+1)/2 + n) coefficients twice, for the check and for the products:
its time is to grow as n² and as m. A record is judged round by round, after one check of the system: its time is to grow as N.

";

/// The sizes in steps, and the rounds of a record.
const STEPS: [u8; 12] = [8, 16, 24, 32, 40, 48, 56, 64, 72, 80, 88, 96];
const COUNTS: [u8; 9] = [1, 2, 4, 8, 16, 32, 64, 128, 255];

pub fn growth(effort: Effort) -> String {
    let effort = Effort {
        time: effort.time / 3,
        turns: effort.turns / 2,
        ..effort
    };
    let mut random = Generator::from_seed(2);
    let mut table = Table::new(&[
        "n or m",
        "F, q = 31, m = 64, by n",
        "by n², relative to n = 96",
        "F, q = 31, n = 64, by m",
        "by m, relative to m = 96",
    ]);
    let mut time_of_f = |n: u8, m: u8| {
        let bytes = system(&mut random, 31, n, m);
        let x = elements(&mut random, 31, usize::from(n));
        let mut out = vec![0; usize::from(m)];
        let mut sides: [Side; 1] = [Box::new(|| {
            black_box(engine::evaluate(black_box(&bytes), black_box(&x), &mut out));
        })];
        best(effort, &mut sides)[0]
    };
    let by_n = STEPS.map(|n| time_of_f(n, 64));
    let by_m = STEPS.map(|m| time_of_f(64, m));
    for (place, step) in STEPS.into_iter().enumerate() {
        let share = f64::from(step) / 96.0;
        table.row(vec![
            step.to_string(),
            micros(by_n[place]),
            ratio(by_n[place] / by_n[11], share * share),
            micros(by_m[place]),
            ratio(by_m[place] / by_m[11], share),
        ]);
    }
    format!(
        "{}\n{}",
        table.text(),
        growth_of_records(effort, &mut random)
    )
}

fn growth_of_records(effort: Effort, random: &mut Generator) -> String {
    let (q, n, m) = KEY;
    let judged = format!("judging a record, {q}, {n}, {m}");
    let mut table = Table::new(&["N", &judged, "for each round"]);
    let card = Card::random(random, Scheme::ThreePass, q, n, m, 255);
    for rounds in COUNTS {
        let record = card.session(&challenges_in_turn(rounds)).record;
        let mut sides: [Side; 1] = [Box::new(|| {
            let _ = black_box(engine::judge(black_box(&card.system), black_box(&record)));
        })];
        let time = best(effort, &mut sides)[0];
        table.row(vec![
            rounds.to_string(),
            micros(time),
            micros(time / f64::from(rounds)),
        ]);
    }
    table.text().to_string()
}

pub const LONGEST: &str = "\
The engine alone, on the largest inputs that it takes, best of some, in milliseconds. Every round is judged.

";

/// The largest N.
const MOST_ROUNDS: u8 = 255;

/// The calls that take longest.
pub fn longest(effort: Effort) -> String {
    let mut random = Generator::from_seed(3);
    let (q, n, m) = LARGEST;
    let of_rounds = format!("records of {MOST_ROUNDS} rounds at {q}, {n}, {m}");
    let mut table = Table::new(&["what", "milliseconds"]);
    let card = Card::random(&mut random, Scheme::ThreePass, q, n, m, MOST_ROUNDS);
    let records = card.three_records(&mut random);
    let mut finding = [0; FINDING];
    let audit = || engine::audit_three(&card.system, &records, &mut finding).is_ok();
    let time = alone(effort, audit);
    table.row(vec![format!("audit of 3 {of_rounds}"), millis(time)]);
    let card = Card::random(&mut random, Scheme::FivePass, q, n, m, MOST_ROUNDS);
    let records = card.four_records(q);
    let audit = || engine::audit_five(&card.system, &records, &mut finding).is_ok();
    let time = alone(effort, audit);
    table.row(vec![format!("audit of 4 {of_rounds}"), millis(time)]);
    table.text().to_string()
}

/// Microseconds of a call that has to succeed.
fn alone(effort: Effort, mut call: impl FnMut() -> bool) -> f64 {
    let effort = Effort {
        turns: effort.turns / 5,
        ..effort
    };
    let mut sides: [Side; 1] = [Box::new(|| assert!(black_box(call())))];
    best(effort, &mut sides)[0]
}
