//! The table of refused calls.

use crate::inputs::{Card, LARGEST};
use crate::table::{micros, ratio, Table};
use crate::timing::{best, Effort, Side};
use crate::{engine, plain};
use canvasfox::FINDING;
use reference::random::Generator;
use reference::scheme::Scheme;
use std::hint::black_box;

pub const TIMED: &str = "\
Best of many, in microseconds, with the largest system lent, q = 251 and n = m = 96, of 456,195 bytes. A call of a session that is
refused because of the state, with 11 where the session is closed and with 10 where another call is due, does not look at the system,
whose check is the first row. An audit ends at the first refusal: of the system, by its last byte, or of the first of three records of
255 rounds, by its edition, after the check of the system. Rust makes the same tests in the same order.

";

/// A closed session's phase, by the engine's number.
const CLOSED: u8 = 0;
/// The phases in which the card's commit, its answer to α and the carrier's taking of a reply are not due: a card's reply, and a
/// carrier's commitments.
const CARD_REPLY: u8 = 3;
const CARRIER_COMMITMENTS: u8 = 1;

/// The rounds of the audited records.
const ROUNDS: u8 = 255;

pub fn table(effort: Effort) -> String {
    let mut random = Generator::from_seed(5);
    let (q, n, m) = LARGEST;
    let card = Card::random(&mut random, Scheme::ThreePass, q, n, m, ROUNDS);
    let mut table = Table::new(&[
        "call",
        "refused with",
        "Rattle",
        "Rust, same tests",
        "ratio",
    ]);
    let times = checking(effort, &card.system);
    table.row(row("check of the system", 0, &times));
    sessions(effort, &card, &mut table);
    audits(effort, &card, card.three_records(&mut random), &mut table);
    table.text().to_string()
}

/// A row: the engine's time, and Rust's where there is one.
fn row(call: &str, number: u8, times: &[f64]) -> Vec<String> {
    let rust = times.get(1);
    vec![
        call.to_string(),
        match number {
            0 => String::new(),
            number => number.to_string(),
        },
        micros(times[0]),
        rust.map_or(String::new(), |&time| micros(time)),
        rust.map_or(String::new(), |&time| ratio(times[0], time)),
    ]
}

fn checking(effort: Effort, system: &[u8]) -> Vec<f64> {
    assert_eq!(engine::system_check(system), 0);
    assert_eq!(plain::system::check(system), Ok(()));
    let mut sides: [Side; 2] = [
        Box::new(|| {
            black_box(engine::system_check(black_box(system)));
        }),
        Box::new(|| {
            let _ = black_box(plain::system::check(black_box(system)));
        }),
    ];
    best(effort, &mut sides)
}

/// The calls of sessions that take a system, in a closed session and in one where another call is due.
fn sessions(effort: Effort, card: &Card, table: &mut Table) {
    let system = &card.system[..];
    let lent = &card.lent[0][..];
    let reply = vec![0; 3 * 96 + 64];
    let [mut commitments, mut middle] = [vec![0; 96], vec![0; 2 * 96]];
    let mut calls: [(&str, u8, Box<dyn FnMut(u8) -> u8 + '_>); 3] = [
        (
            "card, commit",
            CARD_REPLY,
            Box::new(|phase| engine::commit(phase, black_box(system), lent, &mut commitments)),
        ),
        (
            "card, answer to α",
            CARD_REPLY,
            Box::new(|phase| engine::answer_alpha(phase, black_box(system), 250, &mut middle)),
        ),
        (
            "carrier, taking of a reply",
            CARRIER_COMMITMENTS,
            Box::new(|phase| engine::take_reply(phase, black_box(system), &reply)),
        ),
    ];
    for (call, other, run) in &mut calls {
        for (phase, number) in [(CLOSED, 11), (*other, 10)] {
            assert_eq!(run(phase), number);
            let mut sides: [Side; 1] = [Box::new(|| {
                black_box(run(black_box(phase)));
            })];
            let times = best(effort, &mut sides);
            table.row(row(call, number, &times));
        }
    }
}

/// Audits of three with a bad system, and with a bad first record.
fn audits(effort: Effort, card: &Card, records: [Vec<u8>; 3], table: &mut Table) {
    let mut bad_system = card.system.clone();
    let last = bad_system.len() - 1;
    bad_system[last] = bad_system[0];
    let mut bad_records = records.clone();
    bad_records[0][0] = 2;
    let calls = [
        ("audit of 3, a bad system", 3, &bad_system, &records),
        (
            "audit of 3, a bad first record",
            6,
            &card.system,
            &bad_records,
        ),
    ];
    for (call, number, system, records) in calls {
        let times = auditing(effort, number, system, records);
        table.row(row(call, number, &times));
    }
}

fn auditing(effort: Effort, number: u8, system: &[u8], records: &[Vec<u8>; 3]) -> Vec<f64> {
    let mut finding = [0; FINDING];
    let refused = engine::audit_three(system, records, &mut finding);
    assert_eq!(refused, Err(number));
    assert_eq!(plain::audit::audit_three(system, records), Err(number));
    let mut sides: [Side; 2] = [
        Box::new(|| {
            let (system, records) = (black_box(system), black_box(records));
            let _ = black_box(engine::audit_three(system, records, &mut finding));
        }),
        Box::new(|| {
            let (system, records) = (black_box(system), black_box(records));
            let _ = black_box(plain::audit::audit_three(system, records));
        }),
    ];
    best(effort, &mut sides)
}
