//! SHA-256: the proved function and the second implementation, on the same messages.

mod common;

use canvasfox::{sha256, slices, DIGEST};
use common::{any_bytes, assert_answers, below, output, Tally};
use reference::entries;
use reference::random::Generator;

fn compare(random: &mut Generator, tally: &mut Tally, message: &[u8]) {
    let mut expected = output(random, DIGEST);
    let mut out = expected.clone();
    let answer = entries::digest(message, &mut expected);
    assert_eq!(slices::sha256(message, &mut out), answer);
    assert_eq!(out, expected, "a message of {} bytes", message.len());
    tally.note(answer);
    let mut right = [0; DIGEST];
    let answer = entries::digest(message, &mut right);
    assert_eq!(answer, if message.len() > 65_535 { 2 } else { 0 });
    assert_answers(sha256(message), answer, right);
}

/// Every length up to 400, 25 of each.
#[test]
fn short_messages() {
    let mut random = Generator::from_seed(1);
    let mut tally = Tally::default();
    for length in (0..=400).flat_map(|length| [length; 25]) {
        let message = any_bytes(&mut random, length);
        compare(&mut random, &mut tally, &message);
    }
    tally.has("sha256 short", &[0, 2], 100);
}

/// Lengths up to 70,000, and those about the longest.
#[test]
fn long_messages() {
    let mut random = Generator::from_seed(2);
    let mut tally = Tally::default();
    let about = (65_530..65_545).cycle().take(60);
    let any: Vec<usize> = (0..140).map(|_| below(&mut random, 70_000)).collect();
    for length in about.chain(any) {
        let message = any_bytes(&mut random, length);
        compare(&mut random, &mut tally, &message);
    }
    tally.has("sha256 long", &[0, 2], 20);
}
