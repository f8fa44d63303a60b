//! F and G in two forms, each with the check of the system and of its arguments.
//!
//! The nested loops are the definition's: for each polynomial the double sum over i ≤ j, then the linear terms, in a running
//! sum of 64 bits, with one division at the end.
//!
//! The monomial form is the engine's: all x_i·x_j, reduced, are put in the order of the coefficients once for a vector, and each
//! polynomial is then one product of two rows of bytes.

use super::system::{all_below, check, width};
use crate::by_order;

/// The most monomials.
pub const MOST: usize = 96 * 97 / 2 + 96;

/// The refusal of a call of F, or of G with two arguments.
fn refusal(system: &[u8], arguments: &[&[u8]], out: usize) -> Result<(), u8> {
    check(system)?;
    let (n, m) = (usize::from(system[1]), usize::from(system[2]));
    if arguments.iter().any(|x| x.len() != n) || out != m {
        return Err(2);
    }
    if arguments.iter().any(|x| !all_below(system[0], x)) {
        return Err(3);
    }
    Ok(())
}

/// F(x) by nested loops.
pub fn nested_evaluate(system: &[u8], x: &[u8], out: &mut [u8]) -> Result<(), u8> {
    refusal(system, &[x], out.len())?;
    let n = x.len();
    let mut at = 3;
    for value in out {
        let mut sum: u64 = 0;
        for i in 0..n {
            for j in i..n {
                sum += u64::from(system[at]) * u64::from(x[i]) * u64::from(x[j]);
                at += 1;
            }
        }
        for &element in x {
            sum += u64::from(system[at]) * u64::from(element);
            at += 1;
        }
        *value = (sum % u64::from(system[0])) as u8;
    }
    Ok(())
}

/// G(x, y) by nested loops: the sum of the a(i,j)·(x_i·y_j + x_j·y_i).
pub fn nested_polar(system: &[u8], x: &[u8], y: &[u8], out: &mut [u8]) -> Result<(), u8> {
    refusal(system, &[x, y], out.len())?;
    let n = x.len();
    let mut at = 3;
    for value in out {
        let mut sum: u64 = 0;
        for i in 0..n {
            for j in i..n {
                let both = u64::from(x[i]) * u64::from(y[j]) + u64::from(x[j]) * u64::from(y[i]);
                sum += u64::from(system[at]) * both;
                at += 1;
            }
        }
        at += n;
        *value = (sum % u64::from(system[0])) as u8;
    }
    Ok(())
}

/// F(x) by monomials.
pub fn evaluate(system: &[u8], x: &[u8], out: &mut [u8]) -> Result<(), u8> {
    refusal(system, &[x], out.len())?;
    by_order!(system[0], f(system, x, out));
    Ok(())
}

/// G(x, y) by monomials.
pub fn polar(system: &[u8], x: &[u8], y: &[u8], out: &mut [u8]) -> Result<(), u8> {
    refusal(system, &[x, y], out.len())?;
    by_order!(system[0], g(system, x, y, out));
    Ok(())
}

/// F(x) of a checked system.
pub fn f<const Q: u32>(system: &[u8], x: &[u8], out: &mut [u8]) {
    let mut row = [0; MOST];
    let mut rest = &mut row[..];
    for (i, &left) in x.iter().enumerate() {
        let (products, later) = rest.split_at_mut(x.len() - i);
        for (product, &right) in products.iter_mut().zip(&x[i..]) {
            *product = product_of::<Q>(left, right) as u8;
        }
        rest = later;
    }
    rest[..x.len()].copy_from_slice(x);
    times_rows::<Q>(system, x.len(), &row, out);
}

/// G(x, y) of a checked system.
pub fn g<const Q: u32>(system: &[u8], x: &[u8], y: &[u8], out: &mut [u8]) {
    let mut row = [0; MOST];
    let mut rest = &mut row[..];
    for (i, (&x_i, &y_i)) in x.iter().zip(y).enumerate() {
        let (products, later) = rest.split_at_mut(x.len() - i);
        for (product, (&x_j, &y_j)) in products.iter_mut().zip(x[i..].iter().zip(&y[i..])) {
            let both = product_of::<Q>(x_i, y_j) + product_of::<Q>(x_j, y_i);
            *product = (both % Q as u16) as u8;
        }
        rest = later;
    }
    times_rows::<Q>(system, x.len(), &row, out);
}

/// In 16 bits, which hold 255 × 255: twice the lanes of 32.
fn product_of<const Q: u32>(a: u8, b: u8) -> u16 {
    u16::from(a) * u16::from(b) % Q as u16
}

/// Each polynomial's coefficients times the monomials.
fn times_rows<const Q: u32>(system: &[u8], n: usize, monomials: &[u8; MOST], out: &mut [u8]) {
    let monomials = &monomials[..width(n)];
    for (value, row) in out.iter_mut().zip(system[3..].chunks_exact(width(n))) {
        *value = if Q == 2 {
            parity(row, monomials)
        } else {
            (sum_of_products(row, monomials) % Q) as u8
        };
    }
}

/// Over two elements sums are differing bits, and products common ones.
fn parity(row: &[u8], monomials: &[u8]) -> u8 {
    let both = row.iter().zip(monomials);
    both.fold(0, |bits, (a, x)| bits ^ (a & x)) & 1
}

/// Sixteen running sums, which are one at the end: they stay in wide registers. A whole row is at most 4,752 × 250 × 250, which
/// 32 bits hold.
fn sum_of_products(row: &[u8], monomials: &[u8]) -> u32 {
    let product = |a: u8, x: u8| u32::from(a) * u32::from(x);
    let (blocks, rest) = row.as_chunks::<16>();
    let (others, last) = monomials.as_chunks::<16>();
    let mut sums = [0; 16];
    for (a, x) in blocks.iter().zip(others) {
        for (sum, (&a, &x)) in sums.iter_mut().zip(a.iter().zip(x)) {
            *sum += product(a, x);
        }
    }
    let rest: u32 = rest.iter().zip(last).map(|(&a, &x)| product(a, x)).sum();
    sums.iter().sum::<u32>() + rest
}
