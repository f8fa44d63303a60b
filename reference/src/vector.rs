//! Document 01, "Field and vectors": vectors over a field, element by element.

use crate::field::Field;

/// Are all bytes elements of the field?
pub fn all_elements(field: Field, bytes: &[u8]) -> bool {
    bytes.iter().all(|&byte| field.contains(byte))
}

pub fn sum(field: Field, x: &[u8], y: &[u8]) -> Vec<u8> {
    pairwise(x, y, |a, b| field.sum(a, b))
}

pub fn difference(field: Field, x: &[u8], y: &[u8]) -> Vec<u8> {
    pairwise(x, y, |a, b| field.difference(a, b))
}

/// `x` less each of the others.
pub fn less(field: Field, x: &[u8], others: &[&[u8]]) -> Vec<u8> {
    let start = x.to_vec();
    others
        .iter()
        .fold(start, |rest, other| difference(field, &rest, other))
}

/// Each element of `x` times the scalar.
pub fn multiple(field: Field, scalar: u8, x: &[u8]) -> Vec<u8> {
    x.iter().map(|&a| field.product(scalar, a)).collect()
}

fn pairwise(x: &[u8], y: &[u8], operation: impl Fn(u8, u8) -> u8) -> Vec<u8> {
    assert_eq!(x.len(), y.len(), "vectors of one length");
    x.iter().zip(y).map(|(&a, &b)| operation(a, b)).collect()
}
