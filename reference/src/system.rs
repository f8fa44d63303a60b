//! Document 01, "System, F and G": the bytes of a system, and their check.

use crate::field::Field;
use crate::refusal::{unless, Refusal};
use crate::vector::all_elements;

/// The most variables and the most polynomials of a system.
pub const MOST: u8 = 96;

/// The bytes before the coefficients: q, n, m.
pub const HEAD: usize = 3;

/// q, n and m, each among its values. A system's head and a record's header say them.
#[derive(Clone, Copy, Debug, PartialEq, Eq)]
pub struct Dimensions {
    pub field: Field,
    pub n: usize,
    pub m: usize,
}

/// A well-formed system, taken apart.
pub struct System {
    pub field: Field,
    /// How many variables.
    pub n: usize,
    pub polynomials: Vec<Polynomial>,
}

/// One polynomial's coefficients, by variables counted from 0.
pub struct Polynomial {
    /// The a(i,j) for i ≤ j: row i holds those of j = i, i+1, .., n-1.
    quadratic: Vec<Vec<u8>>,
    /// The b(i).
    linear: Vec<u8>,
}

impl Dimensions {
    /// From their three bytes; 1 for q, n or m.
    pub fn of_bytes(q: u8, n: u8, m: u8) -> Result<Dimensions, Refusal> {
        let field = Field::of_order(q).ok_or(Refusal::Value)?;
        let (n, m) = (count(n)?, count(m)?);
        Ok(Dimensions { field, n, m })
    }

    /// From the head of a system; 2 if it is not whole.
    fn of_head(system: &[u8]) -> Result<Dimensions, Refusal> {
        unless(system.len() >= HEAD, Refusal::Length)?;
        Dimensions::of_bytes(system[0], system[1], system[2])
    }
}

impl System {
    /// Takes a system's bytes apart. Refusals in order: 2 if there is no whole head, 1 for q, n or
    /// m, 2 for the length, 3 for an element.
    pub fn read(bytes: &[u8]) -> Result<System, Refusal> {
        let Dimensions { field, n, m } = Dimensions::of_head(bytes)?;
        let coefficients = &bytes[HEAD..];
        unless(coefficients.len() == m * width(n), Refusal::Length)?;
        unless(all_elements(field, coefficients), Refusal::Element)?;
        let rows = coefficients.chunks(width(n));
        let polynomials = rows.map(|row| Polynomial::read(n, row)).collect();
        Ok(System {
            field,
            n,
            polynomials,
        })
    }

    /// The system that the bytes begin with, which ends where its own q, n, m say, and the rest.
    /// The same refusals, where only too few bytes are a wrong length.
    pub fn read_first(bytes: &[u8]) -> Result<(System, &[u8]), Refusal> {
        let Dimensions { n, m, .. } = Dimensions::of_head(bytes)?;
        unless(bytes.len() >= length(n, m), Refusal::Length)?;
        let (system, rest) = bytes.split_at(length(n, m));
        Ok((System::read(system)?, rest))
    }

    /// How many polynomials.
    pub fn m(&self) -> usize {
        self.polynomials.len()
    }

    pub fn dimensions(&self) -> Dimensions {
        Dimensions {
            field: self.field,
            n: self.n,
            m: self.m(),
        }
    }
}

impl Polynomial {
    /// From one polynomial's bytes in stored order: the a(i,j), i slowest, then the b(i).
    fn read(n: usize, row: &[u8]) -> Polynomial {
        let mut stored = row.iter().copied();
        let quadratic = (0..n)
            .map(|i| stored.by_ref().take(n - i).collect())
            .collect();
        let linear = stored.collect();
        Polynomial { quadratic, linear }
    }

    /// a(i,j) for i ≤ j.
    pub fn a(&self, i: usize, j: usize) -> u8 {
        self.quadratic[i][j - i]
    }

    /// b(i).
    pub fn b(&self, i: usize) -> u8 {
        self.linear[i]
    }
}

/// The bytes of one polynomial in n variables: n(n+1)/2 + n.
pub fn width(n: usize) -> usize {
    n * (n + 1) / 2 + n
}

/// The bytes of a whole system.
pub fn length(n: usize, m: usize) -> usize {
    HEAD + m * width(n)
}

/// n or m from its byte, 1 to 96.
fn count(byte: u8) -> Result<usize, Refusal> {
    unless((1..=MOST).contains(&byte), Refusal::Value)?;
    Ok(usize::from(byte))
}
