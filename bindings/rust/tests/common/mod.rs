//! What the comparisons share: inputs that are valid or damaged, outputs, and a count of the answers.
//! Not every test uses all of it.
#![allow(dead_code)]

use canvasfox::Refusal;
use reference::field::ORDERS;
use reference::random::Generator;
use reference::scheme::{Scheme, SCHEMES};
use reference::vectors::instance::Shape;
use reference::vectors::session::{layout, places, Holds};
use std::collections::BTreeMap;
use std::fmt::Debug;

/// A number below the bound.
pub fn below(random: &mut Generator, bound: usize) -> usize {
    usize::try_from(random.below(u64::try_from(bound).expect("a bound"))).expect("below the bound")
}

/// Does it happen, one time in so many?
pub fn once_in(random: &mut Generator, times: usize) -> bool {
    below(random, times) == 0
}

/// One of several.
pub fn one_of<T: Copy>(random: &mut Generator, choices: &[T]) -> T {
    choices[below(random, choices.len())]
}

pub fn any_bytes(random: &mut Generator, count: usize) -> Vec<u8> {
    random.bytes_below(256, count)
}

/// A shape among its values: small, but for one in so many of any size up to the largest.
pub fn shape(random: &mut Generator, large: usize) -> Shape {
    let most = if once_in(random, large) { 96 } else { 5 };
    let [n, m] = [0; 2].map(|_| 1 + random.byte_below(most));
    Shape::new(one_of(random, &ORDERS), n, m)
}

pub fn scheme(random: &mut Generator) -> Scheme {
    one_of(random, &SCHEMES)
}

/// Damages the bytes in one of several ways: empty, cut, extended, or a byte changed, near the front or
/// anywhere, to any value, to 255 or by one.
pub fn damage(random: &mut Generator, bytes: &mut Vec<u8>) {
    let length = bytes.len();
    let way = below(random, 9);
    if length == 0 || way == 0 {
        let count = 1 + below(random, 40);
        bytes.extend(any_bytes(random, count));
        return;
    }
    let anywhere = below(random, length);
    let front = below(random, length.min(32));
    match way {
        1 => bytes.clear(),
        2 => bytes.truncate(anywhere),
        3 => bytes.truncate(length - 1),
        4 => bytes[anywhere] = 255,
        5 => bytes[anywhere] = random.byte_below(256),
        6 => bytes[front] = random.byte_below(256),
        7 => bytes[front] = bytes[front].wrapping_add(1),
        _ => bytes[anywhere] = bytes[anywhere].wrapping_add(1),
    }
}

/// The same, one time in so many; else the bytes stay.
pub fn perhaps_damage(random: &mut Generator, times: usize, bytes: &mut Vec<u8>) {
    if once_in(random, times) {
        damage(random, bytes);
    }
}

/// Puts a byte above every challenge, or one that is 2 in five passes, in the place of a valid record's.
pub fn damage_challenge(random: &mut Generator, record: &mut [u8]) {
    let header = record[1..6].try_into().expect("a valid record");
    let places = places(layout(header), Holds::Challenge);
    record[one_of(random, &places)] = one_of(random, &[2, 3, 255]);
}

/// An output with any bytes in it, of that length, or one time in ten of another.
pub fn output(random: &mut Generator, right: usize) -> Vec<u8> {
    let length = if once_in(random, 10) {
        let near = [0, right.saturating_sub(1), right + 1];
        let far = below(random, 2 * right + 40);
        one_of(random, &[near[0], near[1], near[2], far])
    } else {
        right
    };
    any_bytes(random, length)
}

/// How often each number was answered.
#[derive(Default)]
pub struct Tally(BTreeMap<u8, usize>);

impl Tally {
    pub fn note(&mut self, number: u8) {
        *self.0.entry(number).or_default() += 1;
    }

    /// Each of these was answered at least so often, and no other was; prints the counts.
    pub fn has(&self, what: &str, numbers: &[u8], least: usize) {
        let total: usize = self.0.values().sum();
        println!("{what}: {total} inputs, answers {:?}", self.0);
        let seen: Vec<u8> = self.0.keys().copied().collect();
        assert_eq!(seen, numbers, "{what}");
        assert!(
            self.0.values().all(|&count| count >= least),
            "{what}: {:?}",
            self.0
        );
    }
}

/// The number of an answer by value, 0 for none.
pub fn number<T>(result: &Result<T, Refusal>) -> u8 {
    result
        .as_ref()
        .map_or_else(|refusal| refusal.number(), |_| 0)
}

/// An answer by value is this number, and this value where the number is 0.
pub fn assert_answers<T: PartialEq + Debug>(result: Result<T, Refusal>, answer: u8, value: T) {
    assert_eq!(number(&result), answer);
    if answer == 0 {
        assert_eq!(result, Ok(value));
    }
}
