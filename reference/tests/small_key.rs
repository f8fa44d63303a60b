//! Document 01, "The small key": K1 to K12 and the unmarked cases of field and system.

use reference::commitment::RHO;
use reference::entries::{check, evaluate, polar};
use reference::five_pass::{self, Middle};
use reference::simulator::Simulation;
use reference::system::System;
use reference::three_pass::{self, Round};
use reference::vectors::maps::SMALL;

const S: [u8; 2] = [3, 5];
const R0: [u8; 2] = [5, 1];
const R1: [u8; 2] = [5, 4];
const T0: [u8; 2] = [4, 2];
const E0: [u8; 2] = [2, 5];
const V: [u8; 2] = [5, 6];

fn f(system: &[u8], x: &[u8]) -> Vec<u8> {
    let mut out = vec![255; usize::from(system[2])];
    assert_eq!(evaluate(system, x, &mut out), 0);
    out
}

fn g(system: &[u8], x: &[u8], y: &[u8]) -> Vec<u8> {
    let mut out = vec![255; usize::from(system[2])];
    assert_eq!(polar(system, x, y, &mut out), 0);
    out
}

/// A system of zeros with this head, as long as the head says.
fn zeros(q: u8, n: u8, m: u8) -> Vec<u8> {
    let mut system = vec![q, n, m];
    let (n, m) = (usize::from(n), usize::from(m));
    system.resize(3 + m * (n * (n + 1) / 2 + n), 0);
    system
}

#[test]
fn k1_to_k4() {
    assert_eq!(check(&SMALL), 0);
    assert_eq!(f(&SMALL, &S), [5, 6]);
    assert_eq!(f(&SMALL, &R0), [1, 0]);
    assert_eq!(f(&SMALL, &R1), [6, 4]);
    assert_eq!(g(&SMALL, &R0, &R1), [5, 2]);
}

fn system() -> System {
    System::read(&SMALL).expect("a well-formed system")
}

/// r0, t0, e0 and as many ρ, each of equal bytes.
fn lent(count: u8) -> Vec<u8> {
    let rho = (0..count).flat_map(|k| [200 + k; RHO]);
    [R0, T0, E0].concat().into_iter().chain(rho).collect()
}

#[test]
fn k5_to_k7() {
    let system = system();
    let round = Round::new(&system, &S, &lent(3));
    assert_eq!(round.r1, R1);
    let openings = round.openings(&system);
    assert_eq!(openings[0].vectors, [R1, [2, 6]]);
    assert_eq!(openings[1].vectors, [T0, E0]);
    assert_eq!(openings[2].vectors, [[1, 6], [6, 2]]);
    let opened = three_pass::opened(&system, &V, 1, &round.reply(1));
    assert_eq!(opened[0].vectors, [R1, [2, 6]]);
    assert_eq!(opened[1].vectors, [[1, 6], [6, 2]]);
}

#[test]
fn k8() {
    let system = system();
    let round = five_pass::Round::new(&system, &S, &lent(2));
    let middle = Middle::new(&system, 3, &lent(2));
    assert_eq!(middle.bytes(), [3, 4, 1, 1, 2]);
    let opened = |challenge| {
        let reply = round.reply(challenge);
        five_pass::opened(&system, &V, &middle, challenge, &reply)
    };
    assert_eq!(opened(0).vectors, [R0, T0, E0]);
    assert_eq!(opened(1).vectors, [R1, [2, 6]]);
}

#[test]
fn k9() {
    let system = system();
    let lent = [&[1, 0][..], &lent(3)].concat();
    let simulation = Simulation::new(&system, &V, 0, &lent);
    assert_eq!(simulation.round.r1, [3, 6]);
    assert_eq!(simulation.round.e1, [2, 1]);
    assert_eq!(simulation.openings[0].vectors, [[3, 6], [4, 1]]);
}

#[test]
fn k10_to_k12() {
    assert_eq!(f(&SMALL, &[0, 0]), [0, 0]);
    assert_eq!(g(&[2, 1, 1, 1, 0], &[1], &[1]), [0]);
    assert_eq!(f(&[251, 1, 1, 1, 0], &[250]), [1]);
}

#[test]
fn unmarked() {
    assert_eq!(check(&zeros(4, 2, 2)), 1);
    assert_eq!(check(&zeros(7, 96, 1)), 0);
    assert_eq!(check(&zeros(7, 97, 1)), 1);
    assert_eq!(check(&[251, 1, 1, 250, 250]), 0);
    assert_eq!(check(&[251, 1, 1, 250, 251]), 3);
    let mut out = [255];
    assert_eq!(evaluate(&[251, 1, 1, 1, 1], &[250], &mut out), 0);
    assert_eq!(evaluate(&[251, 1, 1, 1, 1], &[251], &mut out), 3);
}

#[test]
fn largest_length() {
    assert_eq!(zeros(251, 96, 96).len(), 456_195);
    assert_eq!(check(&zeros(251, 96, 96)), 0);
}
