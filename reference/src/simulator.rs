//! Document 01, "Simulator": one three-pass round without s. Arguments are well-formed; `entries`
//! has the refusals.

use crate::commitment::{commitments, Opening, RHO};
use crate::map::evaluate;
use crate::system::System;
use crate::three_pass::{masked_polar_by_key, Round};
use crate::vector::{less, sum};

/// The bytes lent: s', r0, t0, e0, ρ0, ρ1, ρ2.
pub fn lent_length(system: &System) -> usize {
    lent_elements(system) + 3 * RHO
}

/// The bytes of the lent vectors, which stand before the ρ.
pub fn lent_elements(system: &System) -> usize {
    3 * system.n + system.m()
}

/// A simulated round: the commitments, and a reply for each challenge, of which the one to Ch*, the
/// challenge that is not answered, is no good.
pub struct Simulation {
    pub round: Round,
    pub openings: [Opening; 3],
}

impl Simulation {
    /// From v, Ch* (`unanswered`) and the lent slice.
    pub fn new(system: &System, v: &[u8], unanswered: u8, lent: &[u8]) -> Simulation {
        let (s, lent) = lent.split_at(system.n);
        let mut round = Round::new(system, s, lent);
        if unanswered == 0 {
            round.e1 = shifted(system, v, s, &round);
        }
        let mut openings = round.openings(system);
        if unanswered == 2 {
            let Round { r1, t1, e1, .. } = &round;
            openings[0].vectors[1] = masked_polar_by_key(system, v, r1, t1, e1);
        }
        Simulation { round, openings }
    }

    pub fn commitments(&self) -> Vec<u8> {
        commitments(&self.openings)
    }

    pub fn reply(&self, challenge: u8) -> Vec<u8> {
        self.round.reply(challenge)
    }
}

/// v - F(s') + F(r0) - e0, which is e1 for Ch* = 0.
fn shifted(system: &System, v: &[u8], s: &[u8], round: &Round) -> Vec<u8> {
    let rest = less(system.field, v, &[&evaluate(system, s)]);
    let with_r0 = sum(system.field, &rest, &evaluate(system, &round.r0));
    less(system.field, &with_r0, &[&round.e0])
}
