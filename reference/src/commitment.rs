//! Document 01, "Commitments": the hashed string and its digest.

use crate::scheme::Scheme;
use crate::sha256::{sha256, DIGEST};

/// The bytes of ρ.
pub const RHO: usize = 32;

/// What a commitment is made of, and what a reply opens it to.
#[derive(Clone, Debug, PartialEq, Eq)]
pub struct Opening {
    pub scheme: Scheme,
    /// Which commitment.
    pub k: u8,
    pub rho: Vec<u8>,
    pub vectors: Vec<Vec<u8>>,
}

impl Opening {
    /// What stands before ρ in the string. Later editions put more bytes after k.
    fn prefix(&self) -> Vec<u8> {
        vec![self.scheme.byte(), self.k]
    }

    /// The hashed string: the prefix, ρ, then the vectors in order.
    pub fn string(&self) -> Vec<u8> {
        [self.prefix(), self.rho.clone(), self.vectors.concat()].concat()
    }

    /// Com.
    pub fn commitment(&self) -> [u8; DIGEST] {
        sha256(&self.string())
    }

    /// Does this hash to commitment k among those of the round?
    pub fn opens(&self, commitments: &[u8]) -> bool {
        let start = usize::from(self.k) * DIGEST;
        commitments[start..start + DIGEST] == self.commitment()
    }
}

/// A round's commitments, one after another.
pub fn commitments(openings: &[Opening]) -> Vec<u8> {
    let digests = openings.iter().flat_map(|opening| opening.commitment());
    digests.collect()
}
