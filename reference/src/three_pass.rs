//! Document 01, "Three-pass round (scheme 3)". Arguments have their right lengths.

use crate::commitment::{Opening, RHO};
use crate::layout::parts;
use crate::map::{evaluate, polar};
use crate::scheme::Scheme;
use crate::system::System;
use crate::vector::{difference, less, sum};

/// What the card holds in a round: r0 + r1 is s, t0 + t1 is r0, e0 + e1 is F(r0).
#[derive(Clone, Debug, PartialEq, Eq)]
pub struct Round {
    pub r0: Vec<u8>,
    pub r1: Vec<u8>,
    pub t0: Vec<u8>,
    pub t1: Vec<u8>,
    pub e0: Vec<u8>,
    pub e1: Vec<u8>,
    pub rho: [Vec<u8>; 3],
}

impl Round {
    /// From the secret and the lent slice: r0, t0, e0, ρ0, ρ1, ρ2.
    pub fn new(system: &System, s: &[u8], lent: &[u8]) -> Round {
        let (n, m) = (system.n, system.m());
        let [r0, t0, e0, rho0, rho1, rho2] = parts(lent, [n, n, m, RHO, RHO, RHO]);
        let field = system.field;
        Round {
            r1: difference(field, s, &r0),
            t1: difference(field, &r0, &t0),
            e1: difference(field, &evaluate(system, &r0), &e0),
            r0,
            t0,
            e0,
            rho: [rho0, rho1, rho2],
        }
    }

    /// What c0, c1 and c2 are made of.
    pub fn openings(&self, system: &System) -> [Opening; 3] {
        let masked = masked_polar(system, &self.t0, &self.r1, &self.e0);
        [
            opening(0, &self.rho[0], [&self.r1, &masked]),
            opening(1, &self.rho[1], [&self.t0, &self.e0]),
            opening(2, &self.rho[2], [&self.t1, &self.e1]),
        ]
    }

    /// The reply to a challenge: three vectors, then the ρ of the two commitments to be opened.
    pub fn reply(&self, challenge: u8) -> Vec<u8> {
        let [rho0, rho1, rho2] = &self.rho;
        let reply = match challenge {
            0 => [&self.r0, &self.t1, &self.e1, rho1, rho2],
            1 => [&self.r1, &self.t1, &self.e1, rho0, rho2],
            2 => [&self.r1, &self.t0, &self.e0, rho0, rho1],
            _ => panic!("a challenge of three passes"),
        };
        reply.map(Vec::as_slice).concat()
    }
}

/// The two openings that a reply claims.
pub fn opened(system: &System, v: &[u8], challenge: u8, reply: &[u8]) -> [Opening; 2] {
    let (n, m) = (system.n, system.m());
    let [r, t, e, first_rho, second_rho] = parts(reply, [n, n, m, RHO, RHO]);
    match challenge {
        0 => {
            let t0 = difference(system.field, &r, &t);
            let e0 = difference(system.field, &evaluate(system, &r), &e);
            [
                opening(1, &first_rho, [&t0, &e0]),
                opening(2, &second_rho, [&t, &e]),
            ]
        }
        1 => {
            let masked = masked_polar_by_key(system, v, &r, &t, &e);
            [
                opening(0, &first_rho, [&r, &masked]),
                opening(2, &second_rho, [&t, &e]),
            ]
        }
        2 => {
            let masked = masked_polar(system, &t, &r, &e);
            [
                opening(0, &first_rho, [&r, &masked]),
                opening(1, &second_rho, [&t, &e]),
            ]
        }
        _ => panic!("a challenge of three passes"),
    }
}

/// Is the round accepted? Both openings must hash to their commitments.
pub fn accepts(system: &System, v: &[u8], commitments: &[u8], challenge: u8, reply: &[u8]) -> bool {
    let [first, second] = opened(system, v, challenge, reply);
    first.opens(commitments) && second.opens(commitments)
}

/// G(t0,r1) + e0.
pub fn masked_polar(system: &System, t0: &[u8], r1: &[u8], e0: &[u8]) -> Vec<u8> {
    sum(system.field, &polar(system, t0, r1), e0)
}

/// v - F(r1) - G(t1,r1) - e1, which is G(t0,r1) + e0 where the round is honest.
pub fn masked_polar_by_key(system: &System, v: &[u8], r1: &[u8], t1: &[u8], e1: &[u8]) -> Vec<u8> {
    let terms = [&evaluate(system, r1), &polar(system, t1, r1), e1];
    less(system.field, v, &terms)
}

fn opening(k: u8, rho: &[u8], vectors: [&Vec<u8>; 2]) -> Opening {
    Opening {
        scheme: Scheme::ThreePass,
        k,
        rho: rho.to_vec(),
        vectors: vectors.map(Clone::clone).to_vec(),
    }
}
