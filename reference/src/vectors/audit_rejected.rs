//! Cases for the audit of well-formed records with a rejected round, or of which one is not of the
//! others' key or commitments: document 01, "Refused because of the input", 7 and 8.

use super::audited::{Audit, Cards};
use super::auditing::Topic;
use super::instance::Shape;
use super::piece::Piece;
use super::reporting::{spoil_element, spoil_rho, spoiled};
use super::session::{layout, Session};
use crate::random::Generator;
use crate::record::{write, Layout};
use crate::rounds::Transcript;
use crate::scheme::Scheme;
use crate::sha256::DIGEST;
use std::slice::from_ref;

pub fn topics(scheme: Scheme) -> Vec<Topic> {
    vec![
        ("one rejected round", one_rejected(scheme)),
        ("two rejected rounds", two_rejected(scheme)),
        (
            "key or commitment changed in all records",
            changed_in_all(scheme),
        ),
        ("randomness repeats in one round only", repeats_once(scheme)),
        ("another header", other_headers(scheme)),
        ("another key or commitment", other_bodies(scheme)),
        ("another system", other_systems(scheme)),
    ]
}

/// Sessions of the small key's shape, with a full set in the last round.
pub fn sessions(seed: u64, scheme: Scheme, rounds: u8) -> Vec<Session> {
    let mut random = Generator::from_seed(seed);
    let cards = Cards::random(&mut random, scheme, Shape::new(7, 2, 2), rounds);
    cards.with_full_sets(&mut random, &[usize::from(rounds) - 1])
}

// 8.

/// Sessions with rounds spoiled, by their records.
fn with_spoiled(
    sessions: &[Session],
    rounds: &[(usize, usize)],
    spoil: fn(&mut Transcript),
) -> Audit {
    let mut sessions = sessions.to_vec();
    for &(record, round) in rounds {
        sessions[record] = spoiled(&sessions[record], &[round], spoil);
    }
    Audit::of(&sessions)
}

/// Each round of each record, q and what is spoiled in turn.
fn one_rejected(scheme: Scheme) -> Vec<Audit> {
    let mut random = Generator::from_seed(120);
    let mut audits = Vec::new();
    let mut spoils = [spoil_rho, spoil_element, spoil_e1].iter().cycle();
    for (round, q) in (0..3).zip([2, 31, 251]) {
        let cards = Cards::random(&mut random, scheme, Shape::new(q, 2, 2), 3);
        let sessions = cards.with_full_sets(&mut random, &[1]);
        for record in 0..sessions.len() {
            let spoil = spoils.next().expect("a cycle goes on");
            audits.push(with_spoiled(&sessions, &[(record, round)], *spoil));
        }
    }
    audits
}

/// The last element before the challenge, if there is one, else before ρ: both are e1 or e0.
fn spoil_e1(round: &mut Transcript) {
    let last = match round.middle.last_mut() {
        Some(last) => last,
        None => {
            let elements = round.reply.len() - 2 * DIGEST;
            &mut round.reply[elements - 1]
        }
    };
    *last = u8::from(*last == 0);
}

/// A later round of an earlier record with an earlier round of a later one; both rounds of a record;
/// all rounds.
fn two_rejected(scheme: Scheme) -> Vec<Audit> {
    let sessions = sessions(121, scheme, 2);
    let mut rejected = Vec::new();
    for later in 0..sessions.len() {
        rejected.push(vec![(later, 0), (later, 1)]);
        rejected.extend((0..later).map(|earlier| vec![(earlier, 1), (later, 0)]));
    }
    rejected.push(rejected.concat());
    let audits = rejected.iter();
    audits
        .map(|rounds| with_spoiled(&sessions, rounds, spoil_rho))
        .collect()
}

/// A byte of each commitment or of v changed in the same way in all records: the first record whose
/// challenge opens that is rejected.
fn changed_in_all(scheme: Scheme) -> Vec<Audit> {
    let sessions = sessions(122, scheme, 2);
    let layout = layout(sessions[0].header());
    let [key, commitments] = [layout.key, layout.commitments].map(|body| body.offset..body.end());
    let places = key.chain(commitments.step_by(DIGEST));
    let good = Audit::of(&sessions);
    let records = 0..good.records.len();
    let audits = places.map(|place| {
        records.clone().fold(good.clone(), |audit, record| {
            audit.with_record(record, |bytes| change(bytes, place))
        })
    });
    audits.collect()
}

/// Another byte at a place, which is an element too: 0, or 1 if it is 0.
fn change(bytes: &mut [u8], place: usize) {
    bytes[place] = u8::from(bytes[place] == 0);
}

// 7.

/// Three rounds, of which only one is lent the same in all records, and has a full set.
fn repeats_once(scheme: Scheme) -> Vec<Audit> {
    let mut random = Generator::from_seed(123);
    let audits = [0, 1, 2].map(|same| {
        let cards = Cards::random(&mut random, scheme, Shape::new(7, 2, 2), 3);
        let sessions = cards.with_full_sets(&mut random, &[same]);
        let mut records = Vec::new();
        for (record, session) in sessions.iter().enumerate() {
            let s = &cards.0[0].s;
            let secrets = vec![s.clone(); 3];
            let others = Cards::of_secrets(&mut random, scheme, &session.system, &secrets);
            let mut own = others.with_full_sets(&mut random, &[same]).remove(record);
            own.rounds[same] = session.rounds[same].clone();
            records.push(own);
        }
        Audit::of(&records)
    });
    audits.into()
}

/// One record, or all, with another q, n, m or N in the header, well-formed, the key and the
/// commitments the same as far as they go.
fn other_headers(scheme: Scheme) -> Vec<Audit> {
    let sessions = sessions(124, scheme, 1);
    let good = Audit::of(&sessions);
    let mut audits = Vec::new();
    for (place, numbers) in [(1, &[31, 251][..]), (2, &[1, 3]), (3, &[1, 3]), (4, &[2])] {
        for &number in numbers {
            let mut header = sessions[0].header();
            header[place] = number;
            let other = Piece::literal(&with_header(&sessions[0], header));
            audits.extend(in_each_place(&good, from_ref(&other)));
            audits.push(good.changed(|audit| audit.records.fill(other)));
        }
    }
    audits
}

/// Audits with one of the records in each place.
pub fn in_each_place(good: &Audit, records: &[Piece]) -> Vec<Audit> {
    let mut audits = Vec::new();
    for place in 0..good.records.len() {
        let audit = |record: &Piece| good.changed(|audit| audit.records[place] = record.clone());
        audits.extend(records.iter().map(audit));
    }
    audits
}

/// A well-formed record with that header, and the session's key and commitments.
fn with_header(session: &Session, header: [u8; 5]) -> Vec<u8> {
    let layout = layout(header);
    let [mut key, mut commitments] = [session.v.clone(), session.commitments()];
    key.resize(layout.key.length, 0);
    commitments.resize(layout.commitments.length, 0);
    write(
        layout,
        &key,
        &commitments,
        &vec![0; layout.exchanges.length],
    )
}

/// One record with another byte: the first or the last of the key or of the commitments, or one within
/// each commitment, opened or not; and the last of two rounds' commitments.
fn other_bodies(scheme: Scheme) -> Vec<Audit> {
    let mut audits = Vec::new();
    for rounds in [1, 2] {
        let sessions = sessions(125, scheme, rounds);
        let good = Audit::of(&sessions);
        let Layout {
            key, commitments, ..
        } = layout(sessions[0].header());
        let middles = (commitments.offset + 16..commitments.end()).step_by(DIGEST);
        let edges = [key, commitments].map(|body| [body.offset, body.end() - 1]);
        let places: Vec<usize> = middles.chain(edges.concat()).collect();
        let first = if rounds == 1 { 0 } else { places.len() - 1 };
        for &place in &places[first..] {
            let records = 0..good.records.len();
            let changed = |record| good.with_record(record, |bytes| change(bytes, place));
            audits.extend(records.map(changed));
        }
    }
    audits
}

/// Systems of another q, n or m; then of the same numbers and other coefficients, where rounds are
/// rejected.
fn other_systems(scheme: Scheme) -> Vec<Audit> {
    let good = Audit::of(&sessions(126, scheme, 1));
    let mut random = Generator::from_seed(127);
    let shapes = [
        (31, 2, 2),
        (2, 2, 2),
        (7, 1, 2),
        (7, 3, 2),
        (7, 2, 1),
        (7, 2, 96),
        (7, 2, 2),
    ];
    let systems = shapes.map(|(q, n, m)| Shape::new(q, n, m).random_system(&mut random));
    let audits = systems.map(|system| good.changed(|audit| audit.system = system));
    audits.into()
}
