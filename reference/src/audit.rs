//! Document 01, "Audit": what accepted records of one card give away whose commitments are the same.
//! A full set of replies opens every commitment twice. Either all openings agree, and r0 + r1 solves
//! F = v, or two strings have one digest.

use crate::commitment::Opening;
use crate::five_pass::{self, Middle};
use crate::record::{self, Layout};
use crate::refusal::{unless, Refusal};
use crate::rounds::{accepts, Transcript};
use crate::scheme::Scheme;
use crate::system::System;
use crate::three_pass;
use crate::vector::sum;

/// What an audit answers.
#[derive(Clone, Debug, PartialEq, Eq)]
pub enum Finding {
    /// A solution of F = v.
    Secret(Vec<u8>),
    /// Two strings that hash to commitment k of the round used.
    Clash {
        k: u8,
        first: Vec<u8>,
        second: Vec<u8>,
    },
    /// No finding. With 8 a record and its round, counted from 1; with any other number 0 and 0.
    Refused { number: u8, record: u8, round: u8 },
}

/// The audit of three-pass records, in any order.
pub fn audit_three(system: &[u8], a: &[u8], b: &[u8], c: &[u8]) -> Finding {
    audit(Scheme::ThreePass, system, [a, b, c], full_set_of_three)
}

/// The audit of five-pass records: a and b answered one α, c and d another, a and c challenge 0, b
/// and d challenge 1.
pub fn audit_five(system: &[u8], a: &[u8], b: &[u8], c: &[u8], d: &[u8]) -> Finding {
    audit(Scheme::FivePass, system, [a, b, c, d], full_set_of_five)
}

/// A refusal, and which record's round is rejected.
struct Refused {
    refusal: Refusal,
    record: u8,
    round: u8,
}

/// Records that can be audited: of one key, with the same commitments, all rounds accepted.
struct Sessions<const COUNT: usize> {
    system: System,
    v: Vec<u8>,
    /// Each record's rounds.
    rounds: [Vec<Transcript>; COUNT],
}

/// What the replies of a full set hold: each commitment's two openings by k, and the shares of s.
pub struct FullSet {
    pub openings: Vec<[Opening; 2]>,
    pub r0: Vec<u8>,
    pub r1: Vec<u8>,
}

/// The full set of a round's exchanges, one of each record, if they are one.
type FullSetOf<const COUNT: usize> =
    fn(&System, v: &[u8], round: [&Transcript; COUNT]) -> Option<FullSet>;

fn audit<const COUNT: usize>(
    scheme: Scheme,
    system: &[u8],
    records: [&[u8]; COUNT],
    full_set: FullSetOf<COUNT>,
) -> Finding {
    let sessions = Sessions::read(scheme, system, records);
    let finding = sessions.and_then(|sessions| sessions.finding(full_set));
    finding.unwrap_or_else(|refused| Finding::Refused {
        number: refused.refusal.number(),
        record: refused.record,
        round: refused.round,
    })
}

impl<const COUNT: usize> Sessions<COUNT> {
    /// Refusals in order: those of the system; of each record in turn its own, and 1 for another
    /// scheme; 7; 8.
    fn read(scheme: Scheme, system: &[u8], records: [&[u8]; COUNT]) -> Result<Self, Refused> {
        let system = System::read(system)?;
        let mut layouts = Vec::new();
        for record in records {
            layouts.push(read_record(scheme, record)?);
        }
        let of_system = |layout: &Layout| layout.header.size == system.dimensions();
        unless(layouts.iter().all(of_system), Refusal::Mismatch)?;
        unless(are_alike(&layouts, &records), Refusal::Mismatch)?;
        let (layout, first) = (layouts[0], records[0]);
        let sessions = Sessions {
            system,
            v: layout.key.of(first).to_vec(),
            rounds: records.map(|record| layout.session(record).1),
        };
        sessions.judge(scheme)?;
        Ok(sessions)
    }

    /// 8 for the first record with a rejected round, and its first such round.
    fn judge(&self, scheme: Scheme) -> Result<(), Refused> {
        for (record, rounds) in (1..=u8::MAX).zip(&self.rounds) {
            for (round, exchange) in (1..=u8::MAX).zip(rounds) {
                if !accepts(&self.system, scheme, &self.v, exchange) {
                    let refusal = Refusal::Rejected;
                    return Err(Refused {
                        refusal,
                        record,
                        round,
                    });
                }
            }
        }
        Ok(())
    }

    /// What the first full set gives; 9 if there is none.
    fn finding(&self, full_set: FullSetOf<COUNT>) -> Result<Finding, Refused> {
        let mut full_sets = (0..self.rounds[0].len()).filter_map(|round| {
            let exchanges = self.rounds.each_ref().map(|rounds| &rounds[round]);
            full_set(&self.system, &self.v, exchanges)
        });
        let first = full_sets.next().ok_or(Refusal::NoFullSet)?;
        Ok(first.finding(&self.system))
    }
}

impl FullSet {
    /// The first commitment that was opened to different vectors, whatever the ρ; else the secret.
    pub fn finding(self, system: &System) -> Finding {
        let mut pairs = self.openings.iter();
        match pairs.find(|[first, second]| first.vectors != second.vectors) {
            Some([first, second]) => Finding::Clash {
                k: first.k,
                first: first.string(),
                second: second.string(),
            },
            None => Finding::Secret(sum(system.field, &self.r0, &self.r1)),
        }
    }
}

impl From<Refusal> for Refused {
    fn from(refusal: Refusal) -> Refused {
        Refused {
            refusal,
            record: 0,
            round: 0,
        }
    }
}

/// A record's own refusals, then 1 for the scheme that the audit is not for.
fn read_record(scheme: Scheme, record: &[u8]) -> Result<Layout, Refusal> {
    let layout = record::read(record)?;
    unless(layout.header.scheme == scheme, Refusal::Value)?;
    Ok(layout)
}

/// Do all records agree in every byte before their exchanges: header, key and commitments, and the
/// table, which follows from the header?
fn are_alike(layouts: &[Layout], records: &[&[u8]]) -> bool {
    let fronts = layouts.iter().zip(records);
    let mut fronts = fronts.map(|(layout, record)| &record[..layout.exchanges.offset]);
    let first = fronts.next();
    fronts.all(|front| Some(front) == first)
}

/// Three passes: the challenges are 0, 1, 2 in any order. A commitment's openings stand in the order
/// of the challenges.
pub fn full_set_of_three(
    system: &System,
    v: &[u8],
    mut round: [&Transcript; 3],
) -> Option<FullSet> {
    round.sort_by_key(|exchange| exchange.challenge);
    if round.map(|exchange| exchange.challenge) != [0, 1, 2] {
        return None;
    }
    let opened =
        round.map(|exchange| three_pass::opened(system, v, exchange.challenge, &exchange.reply));
    let [[c1_by_0, c2_by_0], [c0_by_1, c2_by_1], [c0_by_2, c1_by_2]] = opened;
    let [r0, r1, _] = round.map(|exchange| exchange.reply[..system.n].to_vec());
    Some(FullSet {
        openings: vec![[c0_by_1, c0_by_2], [c1_by_0, c1_by_2], [c2_by_0, c2_by_1]],
        r0,
        r1,
    })
}

/// Five passes: challenges 0, 1, 0, 1; one α, t1, e1 in a and b, and one in c and d; and another α
/// there. A commitment's openings stand in the order of the records.
pub fn full_set_of_five(system: &System, v: &[u8], round: [&Transcript; 4]) -> Option<FullSet> {
    let middles = round.map(|exchange| Middle::read(system, &exchange.middle));
    let [a, b, c, d] = &middles;
    let is_full = round.map(|exchange| exchange.challenge) == [0, 1, 0, 1]
        && a == b
        && c == d
        && a.alpha != c.alpha;
    if !is_full {
        return None;
    }
    let opened = |record: usize| {
        let Transcript {
            challenge, reply, ..
        } = round[record];
        five_pass::opened(system, v, &middles[record], *challenge, reply)
    };
    let [r0, r1, ..] = round.map(|exchange| exchange.reply[..system.n].to_vec());
    Some(FullSet {
        openings: vec![[opened(0), opened(2)], [opened(1), opened(3)]],
        r0,
        r1,
    })
}
