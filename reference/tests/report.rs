//! Document 01, "Report program", with document 02's paper 1: the printed case, verdicts and totals,
//! and refusals in order.

use reference::commitment::commitments;
use reference::entries::report;
use reference::field::ORDERS;
use reference::random::Generator;
use reference::scheme::SCHEMES;
use reference::system::System;
use reference::three_pass::Round;
use reference::vectors::instance::Shape;
use reference::vectors::maps::SMALL;
use reference::vectors::session::Session;

/// The worked key's input of one honest round, written out by hand.
fn worked(challenge: u8) -> Vec<u8> {
    let system = System::read(&SMALL).expect("a well-formed system");
    let lent = [[5, 1], [4, 2], [2, 5]].concat();
    let lent = [lent, vec![9; 32], vec![8; 32], vec![7; 32]].concat();
    let round = Round::new(&system, &[3, 5], &lent);
    let table = [30u32, 2, 32, 96, 128, 71].map(u32::to_le_bytes);
    [
        &SMALL[..],
        &[1, 3, 7, 2, 2, 1],
        &table.concat(),
        &[5, 6],
        &commitments(&round.openings(&system)),
        &[challenge],
        &round.reply(challenge),
    ]
    .concat()
}

#[test]
fn printed_case() {
    let lines = "round 1 challenge 2 accept\n\
                 verdict accept 1 of 1\n\
                 rounds 1 accepted 0 rejected\n";
    assert_eq!(report(&worked(2)), lines);
}

#[test]
fn another_challenge() {
    let mut input = worked(1);
    let lines = "round 1 challenge 1 accept\n\
                 verdict accept 1 of 1\n\
                 rounds 1 accepted 0 rejected\n";
    assert_eq!(report(&input), lines);
    // The first byte of v: F(s) is another.
    input[13 + 30] = 4;
    let lines = "round 1 challenge 1 reject\n\
                 verdict reject 0 of 1\n\
                 rounds 0 accepted 1 rejected\n";
    assert_eq!(report(&input), lines);
}

/// Honest sessions are accepted; with a bit of ρ changed in some rounds exactly these are rejected.
#[test]
fn verdicts() {
    let mut random = Generator::from_seed(301);
    for scheme in SCHEMES {
        for q in ORDERS {
            let mut session = Session::honest(&mut random, scheme, Shape::new(q, 2, 3), 12);
            let challenges: Vec<u8> = session.rounds.iter().map(|round| round.challenge).collect();
            let text = |bad: &[usize]| {
                let lines = challenges.iter().enumerate().map(|(i, challenge)| {
                    let word = if bad.contains(&i) { "reject" } else { "accept" };
                    format!("round {} challenge {challenge} {word}\n", i + 1)
                });
                lines.collect::<String>()
            };
            let end = "verdict accept 12 of 12\nrounds 12 accepted 0 rejected\n";
            assert_eq!(report(&session.input()), text(&[]) + end);
            for bad in [0, 11, 5] {
                let last = session.rounds[bad].reply.len() - 1;
                session.rounds[bad].reply[last] ^= 4;
            }
            let end = "verdict reject 9 of 12\nrounds 9 accepted 3 rejected\n";
            assert_eq!(report(&session.input()), text(&[0, 5, 11]) + end);
        }
    }
}

/// Each fault of an input with its number; of two at once the earlier test counts.
#[test]
fn refusals_in_order() {
    type Fault = (u8, fn(&mut Vec<u8>));
    let faults: [Fault; 16] = [
        (2, |i| i.resize(65_537, 0)),
        (2, |i| i.truncate(2)),
        (1, |i| i[0] = 4),
        (1, |i| i[1] = 97),
        (1, |i| i[2] = 0),
        (2, |i| i.truncate(12)),
        (3, |i| i[3] = 7),
        (3, |i| i[12] = 255),
        (6, |i| i.truncate(13 + 29)),
        (6, |i| i[13] = 2),
        (1, |i| i[13 + 1] = 4),
        (1, |i| i[13 + 5] = 0),
        (6, |i| i[13 + 6] = 31),
        (6, |i| i.push(0)),
        (3, |i| i[13 + 30] = 7),
        (4, |i| i[13 + 128] = 3),
    ];
    let changed = |input: &[u8], fault: fn(&mut Vec<u8>)| {
        let mut input = input.to_vec();
        fault(&mut input);
        input
    };
    let good = worked(2);
    for (i, &(number, fault)) in faults.iter().enumerate() {
        let text = format!("refused {number}\n");
        assert_eq!(report(&changed(&good, fault)), text);
        for &(_, later) in &faults[i + 1..] {
            assert_eq!(report(&changed(&changed(&good, later), fault)), text, "{i}");
        }
    }
}

/// 7 where a system's q, n or m is not the record's, after every other refusal.
#[test]
fn another_system() {
    let record = &worked(2)[13..];
    for (q, n, m, coefficients) in [(31, 2, 2, 10), (7, 1, 2, 4), (7, 2, 1, 5), (7, 3, 2, 18)] {
        let system = [vec![q, n, m], vec![1; coefficients]].concat();
        let joined = |record: &[u8]| report(&[&system, record].concat());
        assert_eq!(joined(record), "refused 7\n");
        for (place, byte, number) in [(0, 0, 6), (1, 6, 1), (10, 3, 6), (31, 7, 3), (128, 3, 4)] {
            let mut faulty = record.to_vec();
            faulty[place] = byte;
            assert_eq!(joined(&faulty), format!("refused {number}\n"));
        }
    }
}

/// Under three bytes, a system alone, and lengths around the largest.
#[test]
fn lengths() {
    for length in 0..3 {
        assert_eq!(report(&SMALL[..length]), "refused 2\n");
    }
    assert_eq!(report(&SMALL), "refused 6\n");
    assert_eq!(report(&[0; 65_537]), "refused 2\n");
    assert_eq!(report(&[0; 65_536]), "refused 1\n");
    let mut random = Generator::from_seed(302);
    for scheme in SCHEMES {
        let session = Session::honest(&mut random, scheme, Shape::new(7, 2, 2), 255);
        let text = report(&session.input());
        let end = "\nverdict accept 255 of 255\nrounds 255 accepted 0 rejected\n";
        assert!(text.ends_with(end));
        assert_eq!(text.lines().count(), 257);
    }
}
