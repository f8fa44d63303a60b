//! Document 01, "Five-pass round (scheme 5)". Arguments have their right lengths.

use crate::commitment::{Opening, RHO};
use crate::layout::parts;
use crate::map::{evaluate, polar};
use crate::scheme::Scheme;
use crate::system::System;
use crate::three_pass::masked_polar;
use crate::vector::{difference, less, multiple};

/// What the card holds in a round: r0 + r1 is s.
#[derive(Clone, Debug, PartialEq, Eq)]
pub struct Round {
    pub r0: Vec<u8>,
    pub r1: Vec<u8>,
    pub t0: Vec<u8>,
    pub e0: Vec<u8>,
    pub rho: [Vec<u8>; 2],
}

/// What passes between commitments and challenge: the carrier's α and the card's t1, e1.
#[derive(Clone, Debug, PartialEq, Eq)]
pub struct Middle {
    pub alpha: u8,
    pub t1: Vec<u8>,
    pub e1: Vec<u8>,
}

impl Round {
    /// From the secret and the lent slice: r0, t0, e0, ρ0, ρ1.
    pub fn new(system: &System, s: &[u8], lent: &[u8]) -> Round {
        let [r0, t0, e0, rho0, rho1] = lent_parts(system, lent);
        Round {
            r1: difference(system.field, s, &r0),
            r0,
            t0,
            e0,
            rho: [rho0, rho1],
        }
    }

    /// What c0 and c1 are made of.
    pub fn openings(&self, system: &System) -> [Opening; 2] {
        let masked = masked_polar(system, &self.t0, &self.r1, &self.e0);
        [
            opening(0, &self.rho[0], &[&self.r0, &self.t0, &self.e0]),
            opening(1, &self.rho[1], &[&self.r1, &masked]),
        ]
    }

    /// The reply to a challenge: a vector and the ρ of the commitment to be opened.
    pub fn reply(&self, challenge: u8) -> Vec<u8> {
        let [rho0, rho1] = &self.rho;
        match challenge {
            0 => [self.r0.as_slice(), rho0].concat(),
            1 => [self.r1.as_slice(), rho1].concat(),
            _ => panic!("a challenge of five passes"),
        }
    }
}

impl Middle {
    /// The card's answer to α, t1 = αr0 - t0 and e1 = αF(r0) - e0, from the lent slice.
    pub fn new(system: &System, alpha: u8, lent: &[u8]) -> Middle {
        let [r0, t0, e0, ..] = lent_parts(system, lent);
        let of_r0 = evaluate(system, &r0);
        Middle {
            alpha,
            t1: multiple_less(system, alpha, &r0, &t0),
            e1: multiple_less(system, alpha, &of_r0, &e0),
        }
    }

    /// From its bytes: α, t1, e1.
    pub fn read(system: &System, bytes: &[u8]) -> Middle {
        let [alpha, t1, e1] = parts(bytes, [1, system.n, system.m()]);
        let alpha = alpha[0];
        Middle { alpha, t1, e1 }
    }

    /// The card's part of it: t1, then e1.
    pub fn answer(&self) -> Vec<u8> {
        [self.t1.as_slice(), &self.e1].concat()
    }

    /// All of it: α, t1, e1.
    pub fn bytes(&self) -> Vec<u8> {
        [vec![self.alpha], self.answer()].concat()
    }
}

/// The opening that a reply claims.
pub fn opened(system: &System, v: &[u8], middle: &Middle, challenge: u8, reply: &[u8]) -> Opening {
    let [r, rho] = parts(reply, [system.n, RHO]);
    let Middle { alpha, t1, e1 } = middle;
    let of_r = evaluate(system, &r);
    match challenge {
        0 => {
            let t0 = multiple_less(system, *alpha, &r, t1);
            let e0 = multiple_less(system, *alpha, &of_r, e1);
            opening(0, &rho, &[&r, &t0, &e0])
        }
        1 => {
            let rest = difference(system.field, v, &of_r);
            let rest = multiple(system.field, *alpha, &rest);
            let masked = less(system.field, &rest, &[&polar(system, t1, &r), e1]);
            opening(1, &rho, &[&r, &masked])
        }
        _ => panic!("a challenge of five passes"),
    }
}

/// Is the round accepted? Its opening must hash to its commitment.
pub fn accepts(
    system: &System,
    v: &[u8],
    commitments: &[u8],
    middle: &Middle,
    challenge: u8,
    reply: &[u8],
) -> bool {
    opened(system, v, middle, challenge, reply).opens(commitments)
}

/// r0, t0, e0, ρ0, ρ1.
fn lent_parts(system: &System, lent: &[u8]) -> [Vec<u8>; 5] {
    parts(lent, [system.n, system.n, system.m(), RHO, RHO])
}

/// αx - y.
fn multiple_less(system: &System, alpha: u8, x: &[u8], y: &[u8]) -> Vec<u8> {
    difference(system.field, &multiple(system.field, alpha, x), y)
}

fn opening(k: u8, rho: &[u8], vectors: &[&Vec<u8>]) -> Opening {
    Opening {
        scheme: Scheme::FivePass,
        k,
        rho: rho.to_vec(),
        vectors: vectors.iter().map(|&vector| vector.clone()).collect(),
    }
}
