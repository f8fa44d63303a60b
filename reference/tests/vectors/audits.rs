//! Audits checked by document 01's formulas, written out anew, and by audits that are wrong in a
//! known way.

use crate::records::refusal;
use crate::reports::session;
use crate::stored::{cases, Case};
use reference::audit::Finding;
use reference::entries::check;
use reference::field::ORDERS;
use reference::map::evaluate;
use reference::rounds::{accepts, Transcript};
use std::ops::Range;

/// A finding's number and bytes.
pub fn laid_out(finding: &Finding) -> (u8, Vec<u8>) {
    let mut bytes = vec![0; 752];
    let mut put =
        |place: usize, part: &[u8]| bytes[place..place + part.len()].copy_from_slice(part);
    let mut refusal = 0;
    match finding {
        Finding::Secret(secret) => {
            put(0, &[1]);
            put(4, secret);
        }
        Finding::Clash { k, first, second } => {
            put(0, &[2, *k]);
            for (place, string) in [(100, first), (426, second)] {
                let length = u16::try_from(string.len()).expect("at most 322");
                put(place, &length.to_le_bytes());
                put(place + 4, string);
            }
        }
        Finding::Refused {
            number,
            record,
            round,
        } => {
            put(1, &[*number, *record, *round]);
            refusal = *number;
        }
    }
    (refusal, bytes)
}

/// The stored audits of both schemes: of three passes, then of five.
fn audits() -> [Vec<Case>; 2] {
    [cases(22), cases(23)]
}

impl Case {
    fn records(&self) -> &[Vec<u8>] {
        &self.inputs[1..]
    }

    /// What stands in every record's header if it is none of the other scheme.
    fn scheme_byte(&self) -> u8 {
        if self.kind == 22 {
            3
        } else {
            5
        }
    }

    /// Is the record of the system's q, n and m?
    fn is_of_system(&self, record: &[u8]) -> bool {
        record.get(2..5) == Some(&self.inputs[0][..3])
    }

    /// The rejected rounds in order: record and round, counted from 1. A record of another shape has
    /// no others.
    fn rejected(&self) -> impl Iterator<Item = [u8; 2]> + '_ {
        let records = (1..).zip(self.records());
        records.flat_map(move |(number, record)| {
            let (system, (scheme, v, rounds)) = (self.system(), session(record));
            let is_rejected = move |round: &Transcript| {
                !self.is_of_system(record) || !accepts(&system, scheme, v, round)
            };
            let rounds = (1..=255).zip(rounds);
            let rejected = rounds.filter(move |(_, round)| is_rejected(round));
            rejected.map(move |(round, _)| [number, round])
        })
    }

    /// What the records hold of each round.
    fn rounds(&self) -> Vec<Vec<Transcript>> {
        let sessions: Vec<Vec<Transcript>> = self.records().iter().map(|r| session(r).2).collect();
        let fewest = sessions.iter().map(Vec::len).min().expect("records");
        let round = |i: usize| sessions.iter().map(|rounds| rounds[i].clone()).collect();
        (0..fewest).map(round).collect()
    }
}

// Refusals.

/// A test of an audit's arguments: its number, record and round, if it refuses.
type Step<'a> = &'a dyn Fn(&Case) -> Option<[u8; 3]>;

fn refused(number: u8) -> Option<[u8; 3]> {
    (number != 0).then_some([number, 0, 0])
}

fn system(case: &Case) -> Option<[u8; 3]> {
    refused(check(&case.inputs[0]))
}

/// A record's own refusal, and right after it the scheme's.
fn reading(case: &Case, record: &[u8]) -> Option<[u8; 3]> {
    match refusal(record) {
        0 if record[1] != case.scheme_byte() => refused(1),
        number => refused(number),
    }
}

/// Each record in turn.
fn records(case: &Case) -> Option<[u8; 3]> {
    let mut records = case.records().iter();
    records.find_map(|record| reading(case, record))
}

/// Each record in turn, without its scheme.
fn readings(case: &Case) -> Option<[u8; 3]> {
    let mut records = case.records().iter();
    records.find_map(|record| refused(refusal(record)))
}

fn schemes(case: &Case) -> Option<[u8; 3]> {
    let mut records = case.records().iter();
    records.find_map(|record| refused(u8::from(record[1] != case.scheme_byte())))
}

fn seven(is_wrong: bool) -> Option<[u8; 3]> {
    is_wrong.then_some([7, 0, 0])
}

fn sizes(case: &Case) -> Option<[u8; 3]> {
    let mut records = case.records().iter();
    seven(!records.all(|record| case.is_of_system(record)))
}

/// 7 if not all records have the same part.
fn part<T: PartialEq>(records: &[Vec<u8>], part: impl Fn(&[u8]) -> T) -> Option<[u8; 3]> {
    let mut records = records.iter();
    let first = part(records.next().expect("a record"));
    seven(!records.all(|record| part(record) == first))
}

fn headers(case: &Case) -> Option<[u8; 3]> {
    part(case.records(), |record| record[..6].to_vec())
}

fn keys(case: &Case) -> Option<[u8; 3]> {
    part(case.records(), |record| session(record).1.to_vec())
}

fn commitments(case: &Case) -> Option<[u8; 3]> {
    part(case.records(), commitments_of)
}

fn commitments_of(record: &[u8]) -> Vec<Vec<u8>> {
    let rounds = session(record).2.into_iter();
    rounds.map(|round| round.commitments).collect()
}

/// 8 for the first rejected round of the first record that has one.
fn judgement(case: &Case) -> Option<[u8; 3]> {
    eight(case.rejected().next())
}

fn eight(rejected: Option<[u8; 2]>) -> Option<[u8; 3]> {
    rejected.map(|[record, round]| [8, record, round])
}

const AUDIT: [Step; 7] = [
    &system,
    &records,
    &sizes,
    &headers,
    &keys,
    &commitments,
    &judgement,
];

// Full sets.

/// Which records have r0 and r1, if the exchanges of a round are a full set.
type Full<'a> = &'a dyn Fn(&[Transcript]) -> Option<[usize; 2]>;

fn challenges(round: &[Transcript]) -> Vec<u8> {
    round.iter().map(|exchange| exchange.challenge).collect()
}

fn full_three(round: &[Transcript]) -> Option<[usize; 2]> {
    let challenges = challenges(round);
    let place = |challenge| challenges.iter().position(|&other| other == challenge);
    place(2)?;
    Some([place(0)?, place(1)?])
}

/// What a full set in five passes consists of. Exchanges of three passes have no parts.
fn conditions(round: &[Transcript]) -> [bool; 8] {
    let part = |record: usize, part: usize| {
        let Transcript { middle, reply, .. } = &round[record];
        let t1 = 1 + reply.len() - 32;
        [middle.get(..1), middle.get(1..t1), middle.get(t1..)][part]
    };
    let equal = |one, other, which| part(one, which) == part(other, which);
    [
        challenges(round) == [0, 1, 0, 1],
        equal(0, 1, 0),
        equal(0, 1, 1),
        equal(0, 1, 2),
        equal(2, 3, 0),
        equal(2, 3, 1),
        equal(2, 3, 2),
        !equal(0, 2, 0),
    ]
}

fn full_five(round: &[Transcript]) -> Option<[usize; 2]> {
    (conditions(round) == [true; 8]).then_some([0, 1])
}

// Audits.

/// An audit: its tests one after another, its full sets, and which of several it uses.
struct Way<'a> {
    steps: &'a [Step<'a>],
    full: Full<'a>,
    used: Used,
}

/// Which of the findings of all rounds is used.
type Used = fn(&[Finding]) -> Option<&Finding>;

/// As document 01 says.
fn right(case: &Case) -> Way<'static> {
    Way {
        steps: &AUDIT,
        full: if case.kind == 22 {
            &full_three
        } else {
            &full_five
        },
        used: <[Finding]>::first,
    }
}

impl Way<'_> {
    fn finding(&self, case: &Case) -> Finding {
        let refusal = self.steps.iter().find_map(|step| step(case));
        if let Some([number, record, round]) = refusal {
            return Finding::Refused {
                number,
                record,
                round,
            };
        }
        let rounds = case.rounds();
        let secrets = rounds.iter().filter_map(|round| self.secret(case, round));
        let secrets: Vec<Finding> = secrets.collect();
        (self.used)(&secrets).cloned().unwrap_or(Finding::Refused {
            number: 9,
            record: 0,
            round: 0,
        })
    }

    /// r0 + r1, if the round has a full set.
    fn secret(&self, case: &Case, round: &[Transcript]) -> Option<Finding> {
        let [q, n] = [0, 1].map(|place| usize::from(case.inputs[0][place]));
        let [r0, r1] = (self.full)(round)?.map(|record| &round[record].reply[..n]);
        let sum = |(&a, &b): (&u8, &u8)| (usize::from(a) + usize::from(b)) % q;
        let sums = r0.iter().zip(r1).map(sum);
        let bytes = sums.map(|sum| u8::try_from(sum).expect("an element"));
        Some(Finding::Secret(bytes.collect()))
    }

    fn agrees(&self, case: &Case) -> bool {
        let (number, bytes) = laid_out(&self.finding(case));
        number == case.number && case.expected == [bytes]
    }
}

#[test]
fn findings() {
    for case in audits().iter().flatten() {
        assert!(right(case).agrees(case));
    }
}

/// In how many of the stored audits of a scheme another audit answers something else. The longest
/// records are left out, which take long.
fn told<'a>(audits: &[Case], way: impl Fn(&Case) -> Way<'a>) -> usize {
    let short = audits.iter().filter(|case| case.inputs[1].len() < 50_000);
    short.filter(|case| !way(case).agrees(case)).count()
}

fn told_by_steps(audits: &[Case], steps: &[Step]) -> usize {
    told(audits, |case| Way {
        steps,
        ..right(case)
    })
}

/// The audit's tests with some of them replaced.
fn replaced<'a>(range: Range<usize>, by: &[Step<'a>]) -> Vec<Step<'a>> {
    let mut steps: Vec<Step<'a>> = AUDIT.to_vec();
    steps.splice(range, by.iter().copied());
    steps
}

/// Tests left out or at another place; commitments compared in the first round alone. Another header
/// is told by q, n, m or the commitments' length too, so that it is left out together with these.
#[test]
fn wrong_steps() {
    let of_first_round = |case: &Case| part(case.records(), |r| commitments_of(r)[0].clone());
    let compared_in_turn = |case: &Case| {
        (1..=case.records().len()).find_map(|count| {
            let records = &case.records()[..count];
            reading(case, &records[count - 1]).or_else(|| part(records, commitments_of))
        })
    };
    let wrong = [
        replaced(2..3, &[]),
        replaced(4..5, &[]),
        replaced(5..6, &[]),
        replaced(6..7, &[]),
        replaced(5..6, &[&of_first_round]),
        replaced(3..6, &[&keys, &of_first_round]),
        replaced(1..2, &[&readings]),
        replaced(1..2, &[&readings, &schemes]),
        replaced(0..2, &[&records, &system]),
        replaced(1..2, &[&compared_in_turn]),
        replaced(1..3, &[&sizes, &records]),
        replaced(3..7, &[&judgement, &headers, &keys, &commitments]),
    ];
    for audits in audits() {
        for (i, steps) in wrong.iter().enumerate() {
            assert!(told_by_steps(&audits, steps) >= 2, "{i}");
        }
    }
}

/// One record not compared with the others, or not judged.
#[test]
fn one_record_left_out() {
    for audits in audits() {
        for left_out in 0..audits[0].records().len() {
            let alike = |case: &Case| {
                let mut others = case.records().to_vec();
                others.remove(left_out);
                part(&others, |record| {
                    (session(record).1.to_vec(), commitments_of(record))
                })
            };
            assert!(told_by_steps(&audits, &replaced(3..6, &[&alike])) >= 3);
            let judged = |case: &Case| {
                let mut rejected = case.rejected();
                eight(rejected.find(|[record, _]| usize::from(*record) != left_out + 1))
            };
            assert!(told_by_steps(&audits, &replaced(6..7, &[&judged])) >= 3);
        }
    }
}

/// The first round alone judged, or all but the last, or those with a full set; the rejected one
/// that comes first by its round, or last; counted from 0.
#[test]
fn wrong_judgements() {
    type Rejected<'a> = &'a dyn Fn(&Case) -> Option<[u8; 2]>;
    let last = |case: &Case| case.records()[0][5];
    let is_full = |case: &Case, round: u8| {
        let rounds = case.rounds();
        (right(case).full)(&rounds[usize::from(round) - 1]).is_some()
    };
    let wrong: [Rejected; 6] = [
        &|case| case.rejected().find(|[_, round]| *round == 1),
        &|case| case.rejected().find(|[_, round]| *round != last(case)),
        &|case| case.rejected().find(|[_, round]| is_full(case, *round)),
        &|case| {
            case.rejected()
                .min_by_key(|[record, round]| [*round, *record])
        },
        &|case| case.rejected().last(),
        &|case| case.rejected().next().map(|place| place.map(|i| i - 1)),
    ];
    for audits in audits() {
        for (i, rejected) in wrong.iter().enumerate() {
            let judgement = |case: &Case| eight(rejected(case));
            let steps = replaced(6..7, &[&judgement]);
            assert!(told_by_steps(&audits, &steps) >= 3, "{i}");
        }
    }
}

fn told_by_full(audits: &[Case], full: Full) -> usize {
    told(audits, |case| Way {
        full,
        ..right(case)
    })
}

/// Three passes: challenges in the order of the records only; r0 and r1 of the first records in any
/// order; without challenge 2; none needed.
#[test]
fn wrong_full_sets_of_three() {
    let [audits, _] = audits();
    let wrong: [Full; 4] = [
        &|round| (challenges(round) == [0, 1, 2]).then_some([0, 1]),
        &|round| full_three(round).map(|_| [0, 1]),
        &|round| {
            let place = |which| challenges(round).iter().position(|&other| other == which);
            Some([place(0)?, place(1)?])
        },
        &|_| Some([0, 1]),
    ];
    for (i, full) in wrong.iter().enumerate() {
        assert!(told_by_full(&audits, full) >= 3, "{i}");
    }
}

/// Five passes: each condition left out, the α of a and c among them.
#[test]
fn wrong_full_sets_of_five() {
    let [_, audits] = audits();
    for left_out in 0..8 {
        let full = |round: &[Transcript]| {
            let mut conditions = conditions(round);
            conditions[left_out] = true;
            (conditions == [true; 8]).then_some([0, 1])
        };
        assert!(told_by_full(&audits, &full) >= 2, "{left_out}");
    }
}

/// The last full set instead of the first, and 9 to all.
#[test]
fn wrong_choice_of_the_round() {
    let wrong: [Used; 2] = [<[Finding]>::last, |_| None];
    for audits in audits() {
        for used in wrong {
            let told = told(&audits, |case| Way {
                used,
                ..right(case)
            });
            assert!(told >= 12);
        }
    }
}

/// The findings among the stored cases.
fn found(audits: &[Case]) -> Vec<&Case> {
    audits.iter().filter(|case| case.number == 0).collect()
}

/// No vector is the secret of many.
#[test]
fn one_fixed_vector() {
    for audits in audits() {
        let found = found(&audits);
        for fixed in &found {
            let told = found.iter().filter(|case| case.expected != fixed.expected);
            assert!(told.count() > found.len() / 2);
        }
    }
}

/// Every finding is a secret that solves F = v, of every q, and of the least and the largest sizes.
#[test]
fn secrets() {
    for audits in audits() {
        let mut sizes = Vec::new();
        for case in found(&audits) {
            let finding = &case.expected[0];
            let system = case.system();
            let (secret, rest) = finding[4..].split_at(system.n);
            let record = &case.records()[0];
            assert_eq!(finding[..4], [1, 0, 0, 0]);
            assert!(rest.iter().all(|&byte| byte == 0));
            assert_eq!(evaluate(&system, secret), session(record).1);
            sizes.push([record[2], record[3], record[4], record[5]]);
        }
        for q in ORDERS {
            assert!(sizes.contains(&[q, 1, 1, 1]) && sizes.contains(&[q, 96, 96, 1]));
        }
        assert!(sizes.contains(&[31, 1, 1, 255]));
    }
}

/// A refusal's finding has its number and all zeros, but with 8 a record and a round: each of the
/// first three rounds in each record, and round 255.
#[test]
fn refusals() {
    for audits in audits() {
        let mut rejected = Vec::new();
        for case in audits.iter().filter(|case| case.number != 0) {
            let finding = &case.expected[0];
            assert_eq!(finding[..2], [0, case.number]);
            assert!(finding[4..].iter().all(|&byte| byte == 0));
            assert_eq!(finding[2..4] != [0, 0], case.number == 8);
            rejected.push([finding[2], finding[3]]);
        }
        let records = u8::try_from(audits[0].records().len()).expect("a few");
        for record in 1..=records {
            assert!([1, 2, 3]
                .iter()
                .all(|&round| rejected.contains(&[record, round])));
        }
        assert!(rejected.contains(&[1, 255]));
    }
}
