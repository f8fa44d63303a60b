//! Cases for the audit of systems and records that are malformed or of the other scheme: document 01,
//! "Refused because of the input" and "Order".

use super::audit_rejected::{in_each_place, sessions};
use super::audited::{records, Audit, Cards};
use super::auditing::Topic;
use super::instance::Shape;
use super::maps::bad_systems;
use super::piece::Piece;
use super::session::{header, layout, parts, patterned, places, Holds, Session};
use crate::random::Generator;
use crate::record::{Layout, BODIES, HEADER};
use crate::scheme::{Scheme, SCHEMES};
use std::slice::from_ref;

pub fn topics(scheme: Scheme) -> Vec<Topic> {
    vec![
        ("refused systems", refused_systems(scheme)),
        ("one refused record", one_refused(scheme)),
        ("two refused records", two_refused(scheme)),
        ("records of the other scheme", other_scheme(scheme)),
        ("empty slices", empty(scheme)),
        ("several refusals", several(scheme)),
        ("largest records", largest(scheme)),
    ]
}

/// Each refused system with records that are good, and with empty ones.
fn refused_systems(scheme: Scheme) -> Vec<Audit> {
    let good = Audit::of(&sessions(128, scheme, 1));
    let bad = bad_systems(Shape::of(&good.system), &good.system);
    let audits = bad.into_iter().flat_map(|system| {
        let audit = good.changed(|audit| audit.system = system);
        [
            audit.changed(|audit| audit.records.fill(Piece::literal(&[]))),
            audit,
        ]
    });
    audits.collect()
}

/// The session's record with one fault of each kind, in the order in which they are looked for.
fn bad_records(session: &Session) -> Vec<Piece> {
    let bytes = session.record();
    let good = Piece::literal(&bytes);
    let layout = layout(session.header());
    let challenge = places(layout, Holds::Challenge)[0];
    let vectors = parts(layout).into_iter();
    let mut vectors = vectors.filter(|part| part.holds == Holds::Elements);
    let last = vectors.next_back().expect("a vector").edges()[1];
    let cut = |length| Piece::literal(&bytes[..length]);
    let put = |place, byte| good.clone().patched(place, byte);
    vec![
        cut(0),
        cut(BODIES - 1),
        put(0, 0),
        put(0, 2),
        put(1, 4),
        put(2, 4),
        put(3, 0),
        put(4, 97),
        put(5, 0),
        put(HEADER, 31),
        put(BODIES - 1, 1),
        cut(BODIES),
        cut(bytes.len() - 1),
        Piece::literal(&[&bytes[..], &[0]].concat()),
        put(BODIES, 7),
        put(last, 255),
        put(challenge, session.scheme.commitments()),
        put(challenge, 255),
    ]
}

/// One of these faults for each number, no two neighbours with the same.
fn chosen(bad: &[Piece]) -> Vec<Piece> {
    [2, 5, 9, 14, 16].map(|fault| bad[fault].clone()).to_vec()
}

/// Each fault in the first record, and one of each number in each record.
fn one_refused(scheme: Scheme) -> Vec<Audit> {
    let sessions = sessions(129, scheme, 1);
    let good = Audit::of(&sessions);
    let bad = bad_records(&sessions[0]);
    let mut audits = in_first_place(&good, &bad);
    let mut others = in_each_place(&good, &chosen(&bad));
    others.retain(|audit| !audits.contains(audit));
    audits.extend(others);
    audits
}

fn in_first_place(good: &Audit, records: &[Piece]) -> Vec<Audit> {
    let audit = |record: &Piece| good.changed(|audit| audit.records[0] = record.clone());
    records.iter().map(audit).collect()
}

/// A record of the other scheme, of the same shape.
fn of_other_scheme(seed: u64, scheme: Scheme) -> Session {
    let mut others = SCHEMES.into_iter().filter(|&other| other != scheme);
    sessions(seed, others.next().expect("two schemes"), 1).remove(0)
}

/// Two neighbours, or the first and the last record, refused with different numbers, among them that
/// of the other scheme.
fn two_refused(scheme: Scheme) -> Vec<Audit> {
    let sessions = sessions(130, scheme, 1);
    let good = Audit::of(&sessions);
    let mut chosen = chosen(&bad_records(&sessions[0]));
    chosen.push(Piece::literal(&of_other_scheme(130, scheme).record()));
    let last = good.records.len() - 1;
    let neighbours = (0..last).map(|record| (record, record + 1));
    let mut audits = Vec::new();
    for (earlier, later) in neighbours.chain([(0, last)]) {
        for (i, fault) in chosen.iter().enumerate() {
            let other = &chosen[(i + 1) % chosen.len()];
            let audit = good.changed(|audit| audit.records[earlier] = fault.clone());
            audits.push(audit.changed(|audit| audit.records[later] = other.clone()));
        }
    }
    audits
}

/// A record of the other scheme in each place and in all, and in the first place with a fault of
/// each number.
fn other_scheme(scheme: Scheme) -> Vec<Audit> {
    let good = Audit::of(&sessions(131, scheme, 1));
    let session = of_other_scheme(131, scheme);
    let other = Piece::literal(&session.record());
    let mut audits = in_each_place(&good, from_ref(&other));
    audits.push(good.changed(|audit| audit.records.fill(other)));
    audits.extend(in_first_place(&good, &chosen(&bad_records(&session))));
    audits
}

/// An empty system, an empty record in each place, all records, and all slices.
fn empty(scheme: Scheme) -> Vec<Audit> {
    let good = Audit::of(&sessions(132, scheme, 1));
    let none = Piece::literal(&[]);
    let no_system = good.changed(|audit| audit.system = none.clone());
    let no_records = good.changed(|audit| audit.records.fill(none.clone()));
    let nothing = no_records.changed(|audit| audit.system = none.clone());
    let mut audits = in_each_place(&good, &[none]);
    audits.extend([no_system, no_records, nothing]);
    audits
}

/// Records without a full set, with each fault alone, in pairs and with all later ones: of the
/// system, the first record, the last, then another q or commitment, then ρ.
fn several(scheme: Scheme) -> Vec<Audit> {
    let mut random = Generator::from_seed(133);
    let cards = Cards::random(&mut random, scheme, Shape::new(7, 2, 2), 1);
    let sessions = cards.with_full_sets(&mut random, &[]);
    let good = Audit::of(&sessions);
    let other = Piece::literal(&of_other_scheme(133, scheme).record());
    let last = good.records.len() - 1;
    let Layout { commitments, .. } = layout(sessions[0].header());
    let faults: [&dyn Fn(&Audit) -> Audit; 8] = [
        &|audit| audit.changed(|audit| audit.system = Piece::literal(&[7, 2])),
        &|audit| audit.with_system(2, 97),
        &|audit| audit.with_system(3, 7),
        &|audit| audit.changed(|audit| audit.records[0] = other.clone()),
        &|audit| audit.with_record(last, |record| record[BODIES] = 7),
        &|audit| audit.with_system(0, 31),
        &|audit| audit.with_record(1, |record| record[commitments.offset] ^= 1),
        &|audit| audit.with_record(0, |record| *record.last_mut().expect("ρ") ^= 1),
    ];
    let mut audits = vec![good.clone()];
    for (i, fault) in faults.iter().enumerate() {
        let later = faults[i + 1..].iter().rev();
        audits.push(fault(&good));
        audits.extend(later.clone().map(|other| fault(&other(&good))));
        let all = later.fold(good.clone(), |audit, other| other(&audit));
        audits.push(fault(&all));
    }
    audits
}

/// 255 rounds of n = m = 96 in short form, which are no card's: copies, then the last challenge or
/// the last commitment changed in the last record.
fn largest(scheme: Scheme) -> Vec<Audit> {
    let mut random = Generator::from_seed(134);
    let shape = Shape::new(251, 96, 96);
    let header = header(scheme, shape, 255);
    let record = patterned(&mut random, header);
    let copies = Audit {
        scheme,
        system: shape.random_system(&mut random),
        records: vec![record.clone(); records(scheme)],
    };
    let challenge = places(layout(header), Holds::Challenge)[254];
    let commitment = layout(header).commitments.end() - 1;
    let changed = [challenge, commitment].map(|place| {
        let last = record.clone().patched(place, 255);
        copies.changed(|audit| audit.records[records(scheme) - 1] = last)
    });
    [vec![copies], changed.into()].concat()
}
