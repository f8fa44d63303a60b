//! Document 01, "Commitments" and the two rounds: the schemes, their counts and their lengths.

use crate::commitment::RHO;
use crate::sha256::DIGEST;
use crate::system::Dimensions;

/// The two protocols.
pub const SCHEMES: [Scheme; 2] = [Scheme::ThreePass, Scheme::FivePass];

/// A protocol.
#[derive(Clone, Copy, Debug, PartialEq, Eq)]
pub enum Scheme {
    ThreePass,
    FivePass,
}

impl Scheme {
    /// The scheme of that byte, if there is one.
    pub fn of_byte(byte: u8) -> Option<Scheme> {
        SCHEMES.into_iter().find(|scheme| scheme.byte() == byte)
    }

    /// The byte that names the scheme.
    pub fn byte(self) -> u8 {
        match self {
            Scheme::ThreePass => 3,
            Scheme::FivePass => 5,
        }
    }

    /// How many commitments a round has. A challenge is below the same number.
    pub fn commitments(self) -> u8 {
        match self {
            Scheme::ThreePass => 3,
            Scheme::FivePass => 2,
        }
    }

    /// The challenges.
    pub fn challenges(self) -> std::ops::Range<u8> {
        0..self.commitments()
    }

    /// The bytes of a round's commitments.
    pub fn commitments_length(self) -> usize {
        usize::from(self.commitments()) * DIGEST
    }

    /// The bytes lent to the card for a round: r0, t0, e0 and a ρ for each commitment.
    pub fn lent_length(self, size: Dimensions) -> usize {
        2 * size.n + size.m + usize::from(self.commitments()) * RHO
    }

    /// The bytes of a reply's vectors, which stand before its ρ.
    pub fn reply_elements(self, size: Dimensions) -> usize {
        match self {
            Scheme::ThreePass => 2 * size.n + size.m,
            Scheme::FivePass => size.n,
        }
    }

    /// The bytes of a reply.
    pub fn reply_length(self, size: Dimensions) -> usize {
        let opened = match self {
            Scheme::ThreePass => 2,
            Scheme::FivePass => 1,
        };
        self.reply_elements(size) + opened * RHO
    }

    /// The bytes between commitments and challenge: none, or α, t1, e1.
    pub fn middle_length(self, size: Dimensions) -> usize {
        match self {
            Scheme::ThreePass => 0,
            Scheme::FivePass => 1 + size.n + size.m,
        }
    }
}
