//! The audits: the proved functions and the second implementation.

mod common;

use canvasfox::{audit_five, audit_three, slices, AuditRefusal, FINDING};
use common::{below, damage_challenge, once_in, output, perhaps_damage, shape, Tally};
use reference::audit::Finding;
use reference::random::Generator;
use reference::scheme::Scheme;
use reference::system::System;
use reference::vectors::audited::{layout, Cards};
use reference::vectors::instance::Shape;

/// A system and an audit's records: sessions with full sets in some rounds, then perhaps one record
/// damaged or replaced by another, two changed places, or the system damaged.
fn case(random: &mut Generator, scheme: Scheme) -> (Vec<u8>, Vec<Vec<u8>>) {
    let shape = shape(random, 500);
    let rounds = 1 + below(random, 3);
    let count = u8::try_from(rounds).expect("a few");
    let cards = Cards::random(random, scheme, shape, count);
    let full: Vec<usize> = (0..rounds).filter(|_| once_in(random, 2)).collect();
    let sessions = cards.with_full_sets(random, &full);
    let mut records: Vec<Vec<u8>> = sessions.iter().map(|session| session.record()).collect();
    let mut system = sessions[0].system.expanded();
    perhaps_damage(random, 12, &mut system);
    if once_in(random, 2) {
        return (system, records);
    }
    let [one, other] = [0; 2].map(|_| below(random, records.len()));
    match below(random, 9) {
        0 => records.swap(one, other),
        1 => records[one] = records[other].clone(),
        2 => records[one] = another(random, scheme, shape, count),
        3 => records[one] = another(random, other_scheme(scheme), shape, count),
        4 => damage_rho(random, &mut records[one]),
        5 => damage_challenge(random, &mut records[one]),
        _ => {
            for record in &mut records {
                perhaps_damage(random, 3, record);
            }
        }
    }
    (system, records)
}

fn other_scheme(scheme: Scheme) -> Scheme {
    match scheme {
        Scheme::ThreePass => Scheme::FivePass,
        Scheme::FivePass => Scheme::ThreePass,
    }
}

/// A record of another key.
fn another(random: &mut Generator, scheme: Scheme, shape: Shape, rounds: u8) -> Vec<u8> {
    let cards = Cards::random(random, scheme, shape, rounds);
    cards.with_full_sets(random, &[0])[0].record()
}

/// Changes one of the last bytes, which are ρ.
fn damage_rho(random: &mut Generator, record: &mut [u8]) {
    let place = record.len() - 1 - below(random, 32);
    record[place] ^= 1;
}

/// What the second implementation answers: the number that C has, and the finding's bytes.
fn answer(finding: &Finding) -> (u32, Vec<u8>) {
    let number = match finding {
        Finding::Refused {
            number,
            record,
            round,
        } => u32::from_le_bytes([*number, *record, *round, 0]),
        Finding::Secret(_) | Finding::Clash { .. } => 0,
    };
    (number, layout(finding))
}

/// What the functions by value answer to the same, in the second implementation's words.
fn by_value(result: Result<canvasfox::Finding, AuditRefusal>, n: usize) -> Finding {
    match result {
        Ok(canvasfox::Finding::Secret(secret)) => {
            assert!(secret[n..].iter().all(|&byte| byte == 0));
            Finding::Secret(secret[..n].to_vec())
        }
        Ok(canvasfox::Finding::Clash { k, first, second }) => Finding::Clash { k, first, second },
        Err(AuditRefusal {
            refusal,
            record,
            round,
        }) => Finding::Refused {
            number: refusal.number(),
            record,
            round,
        },
    }
}

/// The system decides first, then the output's length.
fn compare(
    random: &mut Generator,
    tally: &mut Tally,
    system: &[u8],
    (own, by_value): (&Finding, &Finding),
    call: impl FnOnce(&mut [u8]) -> u32,
) {
    assert_eq!(own, by_value);
    let mut expected = output(random, FINDING);
    let mut found = expected.clone();
    let number = match System::read(system) {
        Ok(_) if expected.len() != FINDING => 2,
        _ => {
            let (number, bytes) = answer(own);
            if number == 0 {
                expected = bytes;
            }
            number
        }
    };
    assert_eq!(call(&mut found), number);
    assert!(found == expected, "{own:?}");
    tally.note(number.to_le_bytes()[0]);
}

#[test]
fn three_records() {
    let mut random = Generator::from_seed(40);
    let mut tally = Tally::default();
    for _ in 0..20_000 {
        let (system, records) = case(&mut random, Scheme::ThreePass);
        let [a, b, c] = [0, 1, 2].map(|record| &records[record][..]);
        let own = reference::audit::audit_three(&system, a, b, c);
        let n = system.get(1).copied().unwrap_or(0).into();
        let found = by_value(audit_three(&system, [a, b, c]), n);
        compare(
            &mut random,
            &mut tally,
            &system,
            (&own, &found),
            |finding| slices::audit_three(&system, a, b, c, finding),
        );
    }
    tally.has("audit three", &[0, 1, 2, 3, 4, 6, 7, 8, 9], 300);
}

#[test]
fn four_records() {
    let mut random = Generator::from_seed(41);
    let mut tally = Tally::default();
    for _ in 0..20_000 {
        let (system, records) = case(&mut random, Scheme::FivePass);
        let [a, b, c, d] = [0, 1, 2, 3].map(|record| &records[record][..]);
        let own = reference::audit::audit_five(&system, a, b, c, d);
        let n = system.get(1).copied().unwrap_or(0).into();
        let found = by_value(audit_five(&system, [a, b, c, d]), n);
        compare(
            &mut random,
            &mut tally,
            &system,
            (&own, &found),
            |finding| slices::audit_five(&system, a, b, c, d, finding),
        );
    }
    tally.has("audit five", &[0, 1, 2, 3, 4, 6, 7, 8, 9], 300);
}

/// 255 rounds, of which the last has a full set, or is rejected in the last record.
#[test]
fn most_rounds() {
    let mut random = Generator::from_seed(42);
    let shape = Shape::new(251, 2, 1);
    let cards = Cards::random(&mut random, Scheme::ThreePass, shape, 255);
    let sessions = cards.with_full_sets(&mut random, &[254]);
    let system = sessions[0].system.expanded();
    let mut records: Vec<Vec<u8>> = sessions.iter().map(|session| session.record()).collect();
    for number in [0, 8] {
        let [a, b, c] = [0, 1, 2].map(|record| &records[record][..]);
        let mut finding = vec![7; FINDING];
        let answer = slices::audit_three(&system, a, b, c, &mut finding);
        assert_eq!(answer.to_le_bytes()[0], number);
        if number == 0 {
            assert_eq!(finding[4..6], cards.0[0].s);
            damage_rho(&mut random, &mut records[2]);
        } else {
            assert_eq!(answer, 8 + 256 * 3 + 65_536 * 255);
            assert_eq!(finding, vec![7; FINDING]);
        }
    }
}
