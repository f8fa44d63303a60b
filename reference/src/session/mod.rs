//! Document 01, "Sessions": the card's end and the carrier's. A call takes its session by value and
//! hands it back with a number, 0 if the call is not refused. A refused call leaves session and
//! output as they were; a refused opening gives a closed session.
//!
//! What both ends share is here. Refusals have the order of document 01: 11, 10, those of the
//! system, 7, all 1, all 2, all 3, 4, 5. A call on a session takes all sizes from the session, and
//! an output is an argument with an exact length. What document 01 has zeroed is empty here.

use crate::refusal::{unless, Refusal};
use crate::scheme::Scheme;
use crate::system::{Dimensions, System};
use crate::vector::all_elements;

pub mod card;
pub mod carrier;

/// What a closed session says of its rounds. A card's says none, and so does that of a refused
/// opening.
#[derive(Clone, Copy, Debug, PartialEq, Eq)]
pub enum Verdict {
    None,
    Accepted,
    Rejected,
}

/// What an opening fixes for all rounds, each number among its values.
#[derive(Clone, Copy, Debug, PartialEq, Eq)]
pub struct Terms {
    pub scheme: Scheme,
    pub size: Dimensions,
    /// N.
    pub rounds: u8,
}

impl Terms {
    /// The terms of an opening with this system; 1 for the scheme or N.
    fn of(system: &System, scheme: u8, rounds: u8) -> Result<Terms, Refusal> {
        let scheme = Scheme::of_byte(scheme).ok_or(Refusal::Value)?;
        unless(rounds > 0, Refusal::Value)?;
        Ok(Terms {
            scheme,
            size: system.dimensions(),
            rounds,
        })
    }

    /// The system that is lent anew to a call: its own refusals, then 7.
    fn system(self, bytes: &[u8]) -> Result<System, Refusal> {
        let system = System::read(bytes)?;
        unless(system.dimensions() == self.size, Refusal::Mismatch)?;
        Ok(system)
    }

    /// 3, unless all bytes are elements.
    fn check_elements(self, bytes: &[u8]) -> Result<(), Refusal> {
        unless(all_elements(self.size.field, bytes), Refusal::Element)
    }

    /// 4, unless the scheme has this challenge.
    fn check_challenge(self, challenge: u8) -> Result<(), Refusal> {
        let known = self.scheme.challenges().contains(&challenge);
        unless(known, Refusal::Challenge)
    }

    /// The bytes of t1 and e1 together.
    fn answer_length(self) -> usize {
        self.size.n + self.size.m
    }
}

/// The terms of a session in this phase, if the call is due in it: 11 if the session is closed and
/// so has no terms, 10 if another call is due.
fn due<Phase: PartialEq>(
    terms: Option<Terms>,
    phase: Phase,
    call: Phase,
) -> Result<Terms, Refusal> {
    let terms = terms.ok_or(Refusal::Closed)?;
    unless(phase == call, Refusal::NotDue)?;
    Ok(terms)
}

/// 2, unless the slice has this length.
fn check_length(slice: &[u8], length: usize) -> Result<(), Refusal> {
    unless(slice.len() == length, Refusal::Length)
}

/// What a call answers: the session after it, or the one before it and the refusal's number.
fn answered<Session>(before: Session, after: Result<Session, Refusal>) -> (Session, u8) {
    match after {
        Ok(session) => (session, 0),
        Err(refusal) => (before, refusal.number()),
    }
}
