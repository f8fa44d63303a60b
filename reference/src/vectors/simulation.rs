//! Cases for the simulator: document 01, "Simulator" and the order of its refusals.

use super::case::{Answer, Call, Group, FILL};
use super::exchange::{read, Card, Judgement};
use super::honest::{pairs_of_sizes, SMALL_LENT, SMALL_S};
use super::instance::Shape;
use super::maps::{bad_systems, SMALL};
use super::piece::Piece;
use crate::commitment::RHO;
use crate::entries::{self, Simulate};
use crate::field::ORDERS;
use crate::map::evaluate;
use crate::random::Generator;
use crate::rounds::Transcript;
use crate::scheme::Scheme;
use crate::sha256::DIGEST;
use crate::simulator;

/// The simulator's arguments. `unanswered` is Ch*, the challenge that is not answered; outputs are given by their
/// lengths.
#[derive(Clone, Debug, PartialEq, Eq)]
pub struct Simulation {
    pub system: Piece,
    pub v: Piece,
    pub unanswered: u8,
    pub challenge: u8,
    pub lent: Piece,
    pub commitments: usize,
    pub reply: usize,
}

impl Simulation {
    /// What this implementation answers.
    pub fn answer(&self) -> Answer {
        let mut commitments = vec![FILL; self.commitments];
        let mut reply = vec![FILL; self.reply];
        let number = entries::simulate(Simulate {
            system: &self.system.expanded(),
            v: &self.v.expanded(),
            unanswered: self.unanswered,
            challenge: self.challenge,
            lent: &self.lent.expanded(),
            commitments: &mut commitments,
            reply: &mut reply,
        });
        Answer {
            number,
            outs: vec![commitments, reply],
        }
    }

    /// The arguments that are read, in order.
    pub fn inputs(&self) -> Vec<Piece> {
        vec![
            self.system.clone(),
            self.v.clone(),
            Piece::byte(self.unanswered),
            Piece::byte(self.challenge),
            self.lent.clone(),
        ]
    }

    /// Of a shape, with the lengths that it asks for.
    fn new(shape: Shape, system: Piece, v: Piece, lent: Piece) -> Simulation {
        Simulation {
            system,
            v,
            unanswered: 0,
            challenge: 1,
            lent,
            commitments: 3 * DIGEST,
            reply: 2 * shape.n() + shape.m() + 2 * RHO,
        }
    }

    /// Random arguments. v is any vector, which seldom has a solution.
    fn random(random: &mut Generator, shape: Shape) -> Simulation {
        let system = shape.random_system(random);
        let v = shape.random_elements(random, shape.m());
        let vectors = shape.random_elements(random, 3 * shape.n() + shape.m());
        let rho = random.bytes_below(256, 3 * RHO);
        let lent = [vectors, rho].concat();
        Simulation::new(shape, system, Piece::literal(&v), Piece::literal(&lent))
    }

    /// The same with these challenges.
    fn challenged(&self, (unanswered, challenge): (u8, u8)) -> Simulation {
        Simulation {
            unanswered,
            challenge,
            ..self.clone()
        }
    }

    /// The round as it would be judged, the reply formed as on the card.
    fn judged(&self) -> Judgement {
        let system = read(&self.system);
        let (v, lent) = (self.v.expanded(), self.lent.expanded());
        let round = simulator::Simulation::new(&system, &v, self.unanswered, &lent);
        Judgement {
            scheme: Scheme::ThreePass,
            system: self.system.clone(),
            round: Transcript {
                commitments: round.commitments(),
                middle: Vec::new(),
                challenge: self.challenge,
                reply: round.reply(self.challenge),
            },
            v,
        }
    }
}

/// A card's round simulated with another secret s', F(s') other than v, and Ch* that came all the
/// same.
pub fn unanswered_asked(random: &mut Generator, card: &Card, challenge: u8) -> Judgement {
    let system = read(&card.system);
    let v = card.v();
    let s = loop {
        let s = random.bytes_below(system.field.order().into(), system.n);
        if evaluate(&system, &s) != v {
            break s;
        }
    };
    let shape = Shape::of(&card.system);
    let lent = Piece::literal(&[s, card.lent.clone()].concat());
    let simulation = Simulation::new(shape, card.system.clone(), Piece::literal(&v), lent);
    simulation.challenged((challenge, challenge)).judged()
}

/// Each Ch* with each other Ch.
const PAIRS: [(u8, u8); 6] = [(0, 1), (0, 2), (1, 0), (1, 2), (2, 0), (2, 1)];

/// Simulated rounds as the judgement sees them.
pub fn judged_groups() -> Vec<Group> {
    vec![group("judged", judged())]
}

/// The simulator's own calls.
pub fn groups() -> Vec<Group> {
    vec![
        group("small key", calls(&small_key())),
        group("sizes", calls(&sizes())),
        group("every challenge", calls(&every_challenge())),
        group("refused systems", refused(Faults::systems)),
        group("refused lengths", refused(Faults::lengths)),
        group("refused elements", refused(Faults::elements)),
        group("refused challenges", refused(Faults::challenges)),
        group("several faults", refused(Faults::several)),
    ]
}

fn group(topic: &str, cases: Vec<Call>) -> Group {
    let name = format!("simulate, {topic}");
    Group { name, cases }
}

fn calls(simulations: &[Simulation]) -> Vec<Call> {
    simulations.iter().cloned().map(Call::Simulate).collect()
}

/// K9's s' and the secret itself, with each pair of challenges.
fn small_key() -> Vec<Simulation> {
    let mut random = Generator::from_seed(71);
    let rho = random.bytes_below(256, 3 * RHO);
    let shape = Shape::of(&Piece::literal(&SMALL));
    let v = evaluate(&read(&Piece::literal(&SMALL)), &SMALL_S);
    let mut simulations = Vec::new();
    for s in [[1, 0], SMALL_S] {
        let lent = Piece::literal(&[&s, &SMALL_LENT.concat()[..], &rho].concat());
        let of_s = Simulation::new(shape, Piece::literal(&SMALL), Piece::literal(&v), lent);
        simulations.extend(PAIRS.map(|pair| of_s.challenged(pair)));
    }
    simulations
}

/// Every size as n and as m, q and the challenges in turn; and the most uneven sizes at each q.
fn sizes() -> Vec<Simulation> {
    let mut random = Generator::from_seed(72);
    let mut pairs = PAIRS.into_iter().cycle();
    let mut simulations = Vec::new();
    for (q, n, m) in pairs_of_sizes() {
        let simulation = Simulation::random(&mut random, Shape::new(q, n, m));
        simulations.push(simulation.challenged(pairs.next().expect("a cycle goes on")));
    }
    for (n, m) in [(1, 1), (1, 96), (96, 1), (96, 96)] {
        for q in ORDERS {
            let simulation = Simulation::random(&mut random, Shape::new(q, n, m));
            simulations.push(simulation.challenged(pairs.next().expect("a cycle goes on")));
        }
    }
    simulations
}

/// Each pair of challenges at each q.
fn every_challenge() -> Vec<Simulation> {
    let mut random = Generator::from_seed(73);
    let mut simulations = Vec::new();
    for q in ORDERS {
        for (n, m) in [(3, 2), (2, 5)] {
            let simulation = Simulation::random(&mut random, Shape::new(q, n, m));
            simulations.extend(PAIRS.map(|pair| simulation.challenged(pair)));
        }
    }
    simulations
}

/// Simulated rounds judged, the reply to Ch* among them.
fn judged() -> Vec<Call> {
    let mut random = Generator::from_seed(74);
    let mut calls = Vec::new();
    for q in ORDERS {
        let simulation = Simulation::random(&mut random, Shape::new(q, 5, 3));
        for unanswered in Scheme::ThreePass.challenges() {
            for challenge in Scheme::ThreePass.challenges() {
                let judgement = simulation.challenged((unanswered, challenge)).judged();
                assert!(challenge == unanswered || judgement.is_accepted());
                calls.push(Call::Judge(judgement));
            }
        }
    }
    calls
}

/// The shapes at which each refusal is tried.
const REFUSED_SHAPES: [(u8, u8, u8); 4] = [(7, 2, 2), (2, 1, 3), (31, 5, 1), (251, 96, 96)];

/// Refused simulations of each shape, made from one that is not refused.
fn refused(make: fn(&Faults) -> Vec<Simulation>) -> Vec<Call> {
    let mut simulations = Vec::new();
    for (q, n, m) in REFUSED_SHAPES {
        simulations.extend(make(&Faults::new(Shape::new(q, n, m))));
    }
    calls(&simulations)
}

/// A simulation that is not refused, to be changed.
struct Faults {
    shape: Shape,
    good: Simulation,
}

impl Faults {
    /// In short form: the same few elements over and over, also as ρ.
    fn new(shape: Shape) -> Faults {
        let v = Piece::repeated(&[1], shape.m());
        let lent = Piece::repeated(&[1, 0, 1], 3 * shape.n() + shape.m() + 3 * RHO);
        let good = Simulation::new(shape, shape.system(&[0, 1, 1]), v, lent);
        Faults { shape, good }
    }

    /// The good one changed.
    fn changed(&self, change: impl FnOnce(&mut Simulation)) -> Simulation {
        let mut simulation = self.good.clone();
        change(&mut simulation);
        simulation
    }

    fn with_v(&self, v: Piece) -> Simulation {
        self.changed(|simulation| simulation.v = v)
    }

    fn with_lent(&self, lent: Piece) -> Simulation {
        self.changed(|simulation| simulation.lent = lent)
    }

    /// Each refused system, with arguments that are good and with some that are refused too.
    fn systems(&self) -> Vec<Simulation> {
        let others = [
            self.good.clone(),
            self.lengths()[0].clone(),
            self.elements()[0].clone(),
            self.good.challenged((3, 3)),
        ];
        let mut simulations = Vec::new();
        for system in bad_systems(self.shape, &self.good.system) {
            for other in &others {
                simulations.push(Simulation {
                    system: system.clone(),
                    ..other.clone()
                });
            }
        }
        simulations
    }

    /// Each slice with a wrong length: none, one too few or too many, the length of another slice.
    fn lengths(&self) -> Vec<Simulation> {
        let (n, m) = (self.shape.n(), self.shape.m());
        let Simulation { lent, reply, .. } = &self.good;
        let mut simulations = Vec::new();
        for length in wrong_lengths(m, &[97]) {
            simulations.push(self.with_v(Piece::repeated(&[1], length)));
        }
        let of_card = 2 * n + m + 3 * RHO;
        for length in wrong_lengths(lent.length(), &[of_card, lent.length() - RHO]) {
            simulations.push(self.with_lent(Piece::repeated(&[1], length)));
        }
        for commitments in wrong_lengths(3 * DIGEST, &[DIGEST, 2 * DIGEST, 4 * DIGEST]) {
            simulations.push(self.changed(|simulation| simulation.commitments = commitments));
        }
        for reply in wrong_lengths(*reply, &[n + RHO, reply + RHO]) {
            simulations.push(self.changed(|simulation| simulation.reply = reply));
        }
        simulations
    }

    /// The first or the last byte of a vector no element; and ρ of bytes that are none, which is
    /// not refused.
    fn elements(&self) -> Vec<Simulation> {
        let q = self.shape.q;
        let (n, m) = (self.shape.n(), self.shape.m());
        let Simulation { v, lent, .. } = &self.good;
        let mut simulations = Vec::new();
        for byte in [q, 255] {
            for place in edges(&[m]) {
                simulations.push(self.with_v(v.clone().patched(place, byte)));
            }
            for place in edges(&[n, n, n, m]) {
                simulations.push(self.with_lent(lent.clone().patched(place, byte)));
            }
        }
        let vectors = vec![1; 3 * n + m];
        let lent = [vectors, vec![255; 3 * RHO]].concat();
        simulations.push(self.with_lent(Piece::literal(&lent)));
        simulations
    }

    /// Ch* and Ch among and outside their values, equal and not.
    fn challenges(&self) -> Vec<Simulation> {
        let values = [0, 1, 2, 3, 255];
        let pairs = values
            .iter()
            .flat_map(|&unanswered| values.iter().map(move |&challenge| (unanswered, challenge)));
        pairs.map(|pair| self.good.challenged(pair)).collect()
    }

    /// Wrong lengths beside wrong elements, and either beside wrong challenges.
    fn several(&self) -> Vec<Simulation> {
        let Simulation { v, lent, .. } = &self.good;
        let bad_v = v.clone().patched(0, self.shape.q);
        let bad_lent = lent.clone().patched(0, 255);
        let long_v = Piece::repeated(&[255], v.length() + 1);
        let long_lent = Piece::repeated(&[255], lent.length() + 1);
        let lengths = [
            self.changed(|s| (s.v, s.lent) = (bad_v.clone(), long_lent.clone())),
            self.changed(|s| (s.v, s.lent) = (long_v.clone(), bad_lent.clone())),
            self.changed(|s| (s.v, s.commitments) = (bad_v.clone(), 2 * DIGEST)),
            self.changed(|s| (s.lent, s.reply) = (bad_lent.clone(), s.reply - 1)),
            self.changed(|s| (s.v, s.lent) = (long_v.clone(), long_lent.clone())),
        ];
        let elements = [
            self.with_v(bad_v.clone()),
            self.with_lent(bad_lent.clone()),
            self.changed(|s| (s.v, s.lent) = (bad_v, bad_lent)),
        ];
        let mut pairs = [(1, 1), (3, 0), (0, 255)].into_iter().cycle();
        let mut simulations = lengths.to_vec();
        for simulation in lengths.iter().chain(&elements).chain(&self.lengths()) {
            let pair = pairs.next().expect("a cycle goes on");
            simulations.push(simulation.challenged(pair));
        }
        simulations
    }
}

/// The first and the last place of consecutive vectors of these lengths, without repeats.
fn edges(lengths: &[usize]) -> Vec<usize> {
    let mut places = Vec::new();
    let mut start = 0;
    for length in lengths {
        places.extend([start, start + length - 1]);
        start += length;
    }
    places.dedup();
    places
}

/// None, one too few, one too many and the others, without the right one and repeats.
pub fn wrong_lengths(right: usize, others: &[usize]) -> Vec<usize> {
    let mut lengths = [&[0, right - 1, right + 1], others].concat();
    lengths.sort_unstable();
    lengths.dedup();
    lengths.retain(|&length| length != right);
    lengths
}
