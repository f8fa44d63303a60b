//! Cases for SHA-256: document 01, "Commitments", and FIPS 180-4.

use super::case::{Call, Group};
use super::piece::Piece;
use crate::entries::LONGEST_MESSAGE;
use crate::random::Generator;
use crate::sha256::{BLOCK, DIGEST};

/// The messages of the published examples that a stored case can hold.
pub const PUBLISHED: [&str; 4] = [
    "",
    "abc",
    "abcdbcdecdefdefgefghfghighijhijkijkljklmklmnlmnomnopnopq",
    "abcdefghbcdefghicdefghijdefghijkefghijklfghijklmghijklmn\
     hijklmnoijklmnopjklmnopqklmnopqrlmnopqrsmnopqrstnopqrstu",
];

/// How long a long message's pattern is: prime, so that the blocks of a message differ.
const PERIOD: usize = 67;

pub fn groups() -> Vec<Group> {
    vec![
        group("published examples", published()),
        group("lengths 0 to 300", short_lengths()),
        group("longest strings of a commitment", commitments()),
        group("block edges", block_edges()),
        group("equal bytes", equal_bytes()),
        group("longest messages", longest()),
        group("refusals", refusals()),
    ]
}

fn group(topic: &str, cases: Vec<Call>) -> Group {
    let name = format!("SHA-256, {topic}");
    Group { name, cases }
}

fn published() -> Vec<Call> {
    let messages = PUBLISHED.iter();
    messages
        .map(|text| digest(Piece::literal(text.as_bytes()), DIGEST))
        .collect()
}

fn short_lengths() -> Vec<Call> {
    let mut random = Generator::from_seed(1);
    (0..=300)
        .map(|length| literal(&mut random, length))
        .collect()
}

/// Around 322 bytes, the longest string that is hashed.
fn commitments() -> Vec<Call> {
    let mut random = Generator::from_seed(2);
    (301..=330)
        .map(|length| literal(&mut random, length))
        .collect()
}

/// Lengths at which the padding's one bit or its count opens a new block.
fn block_edges() -> Vec<Call> {
    let mut random = Generator::from_seed(3);
    let counts = (6..=16).chain([17, 31, 32, 33, 64, 100, 255, 256, 257, 512, 1000, 1023]);
    let lengths = counts.flat_map(|blocks| {
        let edge = blocks * BLOCK;
        [
            edge - 10,
            edge - 9,
            edge - 8,
            edge - 7,
            edge - 1,
            edge,
            edge + 1,
        ]
    });
    lengths
        .map(|length| patterned(&mut random, length))
        .collect()
}

fn equal_bytes() -> Vec<Call> {
    let lengths = [1, 3, 4, 55, 56, 57, 63, 64, 65, 119, 120, 121, 128, 1000];
    let byte_and_length = [0, 0x7f, 0x80, 0xff].map(|byte| lengths.map(|length| (byte, length)));
    byte_and_length
        .iter()
        .flatten()
        .map(|&(byte, length)| digest(Piece::repeated(&[byte], length), DIGEST))
        .collect()
}

fn longest() -> Vec<Call> {
    let mut random = Generator::from_seed(4);
    let below = (0..=10).chain([63, 64, 65, 255, 256, 1024, 32_767, 32_768]);
    below
        .map(|less| patterned(&mut random, LONGEST_MESSAGE - less))
        .collect()
}

/// Messages that are too long, outputs of a wrong length, and both.
fn refusals() -> Vec<Call> {
    let mut random = Generator::from_seed(5);
    let mut cases = Vec::new();
    for more in [1, 2, 64, 65] {
        for out in [DIGEST, 0, DIGEST - 1] {
            let pattern = random.bytes_below(256, PERIOD);
            let message = Piece::repeated(&pattern, LONGEST_MESSAGE + more);
            cases.push(digest(message, out));
        }
    }
    for length in [0, 3, 64, LONGEST_MESSAGE] {
        for out in [0, 1, DIGEST - 1, DIGEST + 1, 2 * DIGEST] {
            let pattern = random.bytes_below(256, PERIOD);
            cases.push(digest(Piece::repeated(&pattern, length), out));
        }
    }
    cases
}

/// A message of random bytes.
fn literal(random: &mut Generator, length: usize) -> Call {
    digest(Piece::literal(&random.bytes_below(256, length)), DIGEST)
}

/// A message whose pattern is random.
fn patterned(random: &mut Generator, length: usize) -> Call {
    let pattern = random.bytes_below(256, PERIOD);
    digest(Piece::repeated(&pattern, length), DIGEST)
}

fn digest(message: Piece, out: usize) -> Call {
    Call::Digest { message, out }
}
