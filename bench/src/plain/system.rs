//! The check of a system's bytes.

/// The bytes of one polynomial.
pub fn width(n: usize) -> usize {
    n * (n + 1) / 2 + n
}

/// Are all bytes below q? The largest is found with no early exit, which vectorises.
pub fn all_below(q: u8, bytes: &[u8]) -> bool {
    bytes.is_empty() || bytes.iter().fold(0, |most, &byte| most.max(byte)) < q
}

/// Are q, n and m among their values?
pub fn are_sizes(q: u8, n: u8, m: u8) -> bool {
    matches!(q, 2 | 7 | 31 | 251) && (1..=96).contains(&n) && (1..=96).contains(&m)
}

/// The refusal of a system's bytes.
pub fn check(system: &[u8]) -> Result<(), u8> {
    let [q, n, m, coefficients @ ..] = system else {
        return Err(2);
    };
    if !are_sizes(*q, *n, *m) {
        return Err(1);
    }
    if coefficients.len() != usize::from(*m) * width(usize::from(*n)) {
        return Err(2);
    }
    if !all_below(*q, coefficients) {
        return Err(3);
    }
    Ok(())
}
