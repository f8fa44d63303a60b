//! A round of either scheme, for callers that are told which. Arguments are well-formed: their
//! refusals are the sessions'.

use crate::commitment::commitments;
use crate::scheme::Scheme;
use crate::system::System;
use crate::{five_pass, three_pass};

/// The card's commitments, from the secret and the lent slice.
pub fn commit(system: &System, scheme: Scheme, s: &[u8], lent: &[u8]) -> Vec<u8> {
    match scheme {
        Scheme::ThreePass => commitments(&three_pass::Round::new(system, s, lent).openings(system)),
        Scheme::FivePass => commitments(&five_pass::Round::new(system, s, lent).openings(system)),
    }
}

/// The card's t1 and e1 for α, in five passes.
pub fn answer(system: &System, alpha: u8, lent: &[u8]) -> Vec<u8> {
    five_pass::Middle::new(system, alpha, lent).answer()
}

/// The card's reply to a challenge.
pub fn reply(system: &System, scheme: Scheme, s: &[u8], lent: &[u8], challenge: u8) -> Vec<u8> {
    match scheme {
        Scheme::ThreePass => three_pass::Round::new(system, s, lent).reply(challenge),
        Scheme::FivePass => five_pass::Round::new(system, s, lent).reply(challenge),
    }
}

/// What passed between the two ends in a round. `middle` is empty in three passes, and in five α,
/// t1, e1.
#[derive(Clone, Debug, PartialEq, Eq)]
pub struct Transcript {
    pub commitments: Vec<u8>,
    pub middle: Vec<u8>,
    pub challenge: u8,
    pub reply: Vec<u8>,
}

/// The honest round of that challenge, and in five passes that α.
pub fn honest(
    system: &System,
    scheme: Scheme,
    s: &[u8],
    lent: &[u8],
    alpha: u8,
    challenge: u8,
) -> Transcript {
    let middle = match scheme {
        Scheme::ThreePass => Vec::new(),
        Scheme::FivePass => five_pass::Middle::new(system, alpha, lent).bytes(),
    };
    Transcript {
        commitments: commit(system, scheme, s, lent),
        middle,
        challenge,
        reply: reply(system, scheme, s, lent, challenge),
    }
}

/// Is the round accepted?
pub fn accepts(system: &System, scheme: Scheme, v: &[u8], round: &Transcript) -> bool {
    let Transcript {
        commitments,
        middle,
        challenge,
        reply,
    } = round;
    match scheme {
        Scheme::ThreePass => three_pass::accepts(system, v, commitments, *challenge, reply),
        Scheme::FivePass => {
            let middle = five_pass::Middle::read(system, middle);
            five_pass::accepts(system, v, commitments, &middle, *challenge, reply)
        }
    }
}
