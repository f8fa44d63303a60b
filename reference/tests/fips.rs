//! SHA-256 against FIPS 180-4: its published examples and the origin of its constants.

use reference::sha256::{sha256, INITIAL, K};
use reference::vectors::hash::PUBLISHED;
use reference::vectors::samples::hex;

/// The published digests of `PUBLISHED`, in its order.
const DIGESTS: [&str; 4] = [
    "e3b0c44298fc1c149afbf4c8996fb92427ae41e4649b934ca495991b7852b855",
    "ba7816bf8f01cfea414140de5dae2223b00361a396177a9cb410ff61f20015ad",
    "248d6a61d20638b8e5c026930c3e6039a33ce45964ff2167f6ecedd419db06c1",
    "cf5b16a778af8380036ce59e7b0492370b249b11e8f07a51afac45037afee9d1",
];

#[test]
fn published_examples() {
    let bits = PUBLISHED.map(|message| 8 * message.len());
    assert_eq!(bits, [0, 24, 448, 896]);
    assert_eq!(
        PUBLISHED.map(|message| hex(&sha256(message.as_bytes()))),
        DIGESTS
    );
}

#[test]
fn one_million_times_a() {
    let digest = sha256(&vec![b'a'; 1_000_000]);
    let published = "cdc76e5c9914fb9281a1c7e284d73e67f1809a48a497200e046d39ccc7112cd0";
    assert_eq!(hex(&digest), published);
}

#[test]
fn constants_are_fractions_of_roots() {
    let primes = primes(64);
    let cubes: Vec<u32> = primes
        .iter()
        .map(|&p| fraction(p << 96, |r| r * r * r))
        .collect();
    let squares: Vec<u32> = primes[..8]
        .iter()
        .map(|&p| fraction(p << 64, |r| r * r))
        .collect();
    assert_eq!(cubes, K);
    assert_eq!(squares, INITIAL);
}

fn primes(count: usize) -> Vec<u128> {
    let is_prime = |n: &u128| (2..*n).all(|d| !n.is_multiple_of(d));
    (2..).filter(is_prime).take(count).collect()
}

/// The low 32 bits of the largest root whose power is at most the number.
fn fraction(number: u128, power: impl Fn(u128) -> u128) -> u32 {
    let mut root = 0;
    for bit in (0..38).rev() {
        let larger = root + (1 << bit);
        if power(larger) <= number {
            root = larger;
        }
    }
    u32::try_from(root % (1 << 32)).expect("32 bits")
}
