//! Document 01, "Report program", with document 02's paper 1: the text for a system and a record.

use crate::record;
use crate::refusal::{unless, Refusal};
use crate::rounds::accepts;
use crate::system::System;

/// The most bytes that system and record have together.
pub const MOST_OF_INPUT: usize = 65_536;

/// A round's challenge, and whether the round is accepted.
struct Judged {
    challenge: u8,
    accepted: bool,
}

/// What the program prints.
pub fn report(input: &[u8]) -> String {
    match judged(input) {
        Ok(rounds) => text(&rounds),
        Err(refusal) => format!("refused {}\n", refusal.number()),
    }
}

/// Every round judged. Refusals in order: 2 for the size of all, those of the system, those of the
/// record, 7 where q, n or m differ.
fn judged(input: &[u8]) -> Result<Vec<Judged>, Refusal> {
    unless(input.len() <= MOST_OF_INPUT, Refusal::Length)?;
    let (system, record) = System::read_first(input)?;
    let layout = record::read(record)?;
    let header = layout.header;
    unless(header.size == system.dimensions(), Refusal::Mismatch)?;
    let (v, rounds) = layout.session(record);
    let judged = rounds.iter().map(|round| Judged {
        challenge: round.challenge,
        accepted: accepts(&system, header.scheme, &v, round),
    });
    Ok(judged.collect())
}

/// A line for each round, then the verdict, which is accept only if every round is accepted, then
/// how many of the round lines say accept and how many reject.
fn text(rounds: &[Judged]) -> String {
    let lines = (1..).zip(rounds).map(|(number, round)| {
        let Judged {
            challenge,
            accepted,
        } = round;
        format!("round {number} challenge {challenge} {}\n", word(*accepted))
    });
    let accepted = rounds.iter().filter(|round| round.accepted).count();
    let rejected = rounds.iter().filter(|round| !round.accepted).count();
    let verdict = word(accepted == rounds.len());
    let verdict = format!("verdict {verdict} {accepted} of {}\n", rounds.len());
    let totals = format!("rounds {accepted} accepted {rejected} rejected\n");
    lines.chain([verdict, totals]).collect()
}

fn word(accepted: bool) -> &'static str {
    if accepted {
        "accept"
    } else {
        "reject"
    }
}
