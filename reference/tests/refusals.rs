//! Document 01, the refusals' numbers and their order; a refused call leaves its output unchanged.

use reference::entries::{check, digest, evaluate, polar, simulate, Simulate};
use reference::vectors::maps::SMALL;

/// The number of an evaluation, whose output is to stay as it was.
fn refused_evaluate(system: &[u8], x: &[u8], out: usize) -> u8 {
    let mut out = vec![255; out];
    let number = evaluate(system, x, &mut out);
    assert!(out.iter().all(|&byte| byte == 255));
    number
}

fn refused_polar(x: &[u8], y: &[u8], out: usize) -> u8 {
    let mut out = vec![255; out];
    let number = polar(&SMALL, x, y, &mut out);
    assert!(out.iter().all(|&byte| byte == 255));
    number
}

#[test]
fn system_in_order() {
    assert_eq!([&[][..], &[4], &[4, 0]].map(check), [2; 3]);
    assert_eq!(
        [[4, 2, 2], [7, 0, 2], [7, 2, 97]].map(|s| check(&s)),
        [1; 3]
    );
    assert_eq!(check(&SMALL[..3]), 2);
    assert_eq!(check(&SMALL[..12]), 2);
    assert_eq!(check(&[&SMALL[..], &[0]].concat()), 2);
    for place in 3..SMALL.len() {
        let mut system = SMALL;
        system[place] = 7;
        assert_eq!(check(&system), 3);
        assert_eq!(check(&system[..12]), 2);
        system[0] = 4;
        assert_eq!(check(&system), 1);
    }
}

#[test]
fn evaluate_in_order() {
    assert_eq!(refused_evaluate(&[4, 2], &[7], 9), 2);
    assert_eq!(refused_evaluate(&[4, 2, 2], &[7], 9), 1);
    assert_eq!(refused_evaluate(&[7, 1, 1, 7, 0], &[7, 7], 9), 3);
    assert_eq!(refused_evaluate(&SMALL, &[7], 2), 2);
    assert_eq!(refused_evaluate(&SMALL, &[7, 0], 1), 2);
    assert_eq!(refused_evaluate(&SMALL, &[7, 0], 2), 3);
    assert_eq!(refused_evaluate(&SMALL, &[0, 255], 2), 3);
}

#[test]
fn polar_in_order() {
    assert_eq!(refused_polar(&[7, 0], &[0], 2), 2);
    assert_eq!(refused_polar(&[0], &[7, 0], 2), 2);
    assert_eq!(refused_polar(&[7, 0], &[7, 0], 3), 2);
    assert_eq!(refused_polar(&[7, 0], &[0, 0], 2), 3);
    assert_eq!(refused_polar(&[0, 0], &[0, 7], 2), 3);
}

#[test]
fn digest_lengths() {
    let longest = vec![7; 65_536];
    let mut out = [255; 33];
    assert_eq!(digest(&longest, &mut out[..32]), 2);
    assert_eq!(digest(&longest[1..], &mut out[..31]), 2);
    assert_eq!(digest(b"abc", &mut out), 2);
    assert_eq!(out, [255; 33]);
    assert_eq!(digest(&longest[1..], &mut out[..32]), 0);
    assert_eq!(out[32], 255);
}

/// The arguments of a simulation that a test changes, beside outputs by their lengths.
#[derive(Clone)]
struct Simulation {
    system: Vec<u8>,
    v: Vec<u8>,
    unanswered: u8,
    challenge: u8,
    lent: Vec<u8>,
    commitments: usize,
    reply: usize,
}

impl Simulation {
    /// One of the small system that is not refused.
    fn good() -> Simulation {
        Simulation {
            system: SMALL.to_vec(),
            v: vec![5, 6],
            unanswered: 0,
            challenge: 1,
            lent: [vec![6; 8], vec![255; 96]].concat(),
            commitments: 96,
            reply: 70,
        }
    }

    fn changed(&self, change: impl Fn(&mut Simulation)) -> Simulation {
        let mut changed = self.clone();
        change(&mut changed);
        changed
    }

    /// Its number. The outputs are to stay as they were exactly if it is refused.
    fn number(&self) -> u8 {
        let mut commitments = vec![255; self.commitments];
        let mut reply = vec![255; self.reply];
        let number = simulate(Simulate {
            system: &self.system,
            v: &self.v,
            unanswered: self.unanswered,
            challenge: self.challenge,
            lent: &self.lent,
            commitments: &mut commitments,
            reply: &mut reply,
        });
        let mut written = commitments.iter().chain(&reply);
        assert_eq!(number != 0, written.all(|&byte| byte == 255));
        number
    }
}

/// Each fault of a simulation, with its number; of two at once the one that comes first in document
/// 01's order counts.
#[test]
fn simulate_in_order() {
    type Fault = (u8, fn(&mut Simulation));
    let systems: [Fault; 4] = [
        (2, |s| s.system.truncate(2)),
        (1, |s| s.system[0] = 4),
        (2, |s| s.system.push(0)),
        (3, |s| s.system[12] = 7),
    ];
    let arguments: [Fault; 16] = [
        (2, |s| s.v.truncate(1)),
        (2, |s| s.v.push(0)),
        (2, |s| s.lent.truncate(103)),
        (2, |s| s.lent.push(0)),
        (2, |s| s.commitments -= 32),
        (2, |s| s.commitments += 1),
        (2, |s| s.reply -= 1),
        (2, |s| s.reply += 2),
        (3, |s| s.v[1] = 7),
        (3, |s| s.lent[0] = 7),
        (3, |s| s.lent[3] = 7),
        (3, |s| s.lent[7] = 7),
        (4, |s| s.unanswered = 3),
        (4, |s| s.challenge = 3),
        (4, |s| s.unanswered = 255),
        (4, |s| s.challenge = s.unanswered),
    ];
    let good = Simulation::good();
    assert_eq!(good.number(), 0);
    for (i, (number, fault)) in arguments.iter().enumerate() {
        let faulty = good.changed(fault);
        assert_eq!(faulty.number(), *number);
        for (of_system, fault) in systems {
            assert_eq!(faulty.changed(fault).number(), of_system);
        }
        for (later_number, later) in &arguments[i + 1..] {
            assert!(number <= later_number);
            assert_eq!(good.changed(later).changed(fault).number(), *number);
        }
    }
}

#[test]
fn simulate_every_challenge() {
    for unanswered in 0..=4 {
        for challenge in 0..=4 {
            let simulation = Simulation {
                unanswered,
                challenge,
                ..Simulation::good()
            };
            let is_good = unanswered < 3 && challenge < 3 && unanswered != challenge;
            assert_eq!(simulation.number(), if is_good { 0 } else { 4 });
        }
    }
}
