//! Cases for honest rounds: document 01, "Three-pass round", "Five-pass round" and "The small key".

use super::case::{Call, Group};
use super::exchange::{read, Card, Judgement};
use super::instance::Shape;
use super::maps::SMALL;
use super::piece::Piece;
use crate::commitment::RHO;
use crate::field::ORDERS;
use crate::map::{evaluate, polar};
use crate::random::Generator;
use crate::rounds::Transcript;
use crate::scheme::{Scheme, SCHEMES};
use crate::sha256::DIGEST;

/// The sizes of n and m.
const SIZES: [u8; 9] = [1, 2, 3, 5, 16, 33, 64, 95, 96];

/// The small key: s, the lent r0, t0, e0, and α.
pub const SMALL_S: [u8; 2] = [3, 5];
pub const SMALL_LENT: [[u8; 2]; 3] = [[5, 1], [4, 2], [2, 5]];
pub const SMALL_ALPHA: u8 = 3;

/// What a scheme is called in a group's name.
pub fn name(scheme: Scheme) -> &'static str {
    match scheme {
        Scheme::ThreePass => "three passes",
        Scheme::FivePass => "five passes",
    }
}

/// A group of a scheme.
pub fn group(scheme: Scheme, topic: &str, cases: Vec<Call>) -> Group {
    let name = format!("{}, {topic}", name(scheme));
    Group { name, cases }
}

/// The small key's card with random ρ.
pub fn small_card(random: &mut Generator, scheme: Scheme) -> Card {
    let vectors = SMALL_LENT.each_ref().map(<[u8; 2]>::as_slice);
    Card::new(random, scheme, Piece::literal(&SMALL), &SMALL_S, vectors)
}

pub fn groups() -> Vec<Group> {
    SCHEMES.into_iter().flat_map(scheme_groups).collect()
}

fn scheme_groups(scheme: Scheme) -> Vec<Group> {
    let runs = runs_of_sizes(scheme);
    let mut groups = vec![
        group(scheme, "small key", small_key(scheme)),
        group(scheme, "commit", all(&runs, Run::commit)),
    ];
    if scheme == Scheme::FivePass {
        groups.push(group(scheme, "answer", all(&runs, Run::answer)));
    }
    groups.push(group(scheme, "reply", all(&runs, Run::reply)));
    groups.push(group(scheme, "judge", all(&runs, Run::judgements)));
    let topics = [
        ("smallest and largest elements", extreme_elements(scheme)),
        ("lowest differences", lowest_differences(scheme)),
    ];
    groups.extend(topics.map(|(topic, cases)| group(scheme, topic, cases)));
    groups
}

/// A card with the α, the challenge that it replies to and those whose replies are judged.
struct Run {
    card: Card,
    alpha: u8,
    challenge: u8,
    judged: Vec<u8>,
}

impl Run {
    fn commit(&self) -> Vec<Call> {
        vec![Call::Commit(self.card.clone())]
    }

    fn answer(&self) -> Vec<Call> {
        let Run { card, alpha, .. } = self;
        vec![Call::Answer {
            card: card.clone(),
            alpha: *alpha,
        }]
    }

    fn reply(&self) -> Vec<Call> {
        let Run {
            card, challenge, ..
        } = self;
        vec![Call::Reply {
            card: card.clone(),
            challenge: *challenge,
        }]
    }

    fn judgements(&self) -> Vec<Call> {
        let challenges = self.judged.iter();
        let judgements = challenges.map(|&challenge| self.card.judged(self.alpha, challenge));
        judgements.map(accepted).collect()
    }

    /// Every call of the round.
    fn calls(&self) -> Vec<Call> {
        let answer = match self.card.scheme {
            Scheme::ThreePass => Vec::new(),
            Scheme::FivePass => self.answer(),
        };
        [self.commit(), answer, self.reply(), self.judgements()].concat()
    }
}

fn all(runs: &[Run], calls: impl Fn(&Run) -> Vec<Call>) -> Vec<Call> {
    runs.iter().flat_map(calls).collect()
}

/// The judgement of a round that must be accepted.
fn accepted(judgement: Judgement) -> Call {
    assert!(judgement.is_accepted(), "an honest round");
    Call::Judge(judgement)
}

/// K5 to K8: every call with every challenge, in five passes with every α.
fn small_key(scheme: Scheme) -> Vec<Call> {
    let card = small_card(&mut Generator::from_seed(51), scheme);
    let alphas = match scheme {
        Scheme::ThreePass => 0..1,
        Scheme::FivePass => 0..SMALL[0],
    };
    let mut calls = Vec::new();
    for alpha in alphas {
        for challenge in scheme.challenges() {
            let run = Run {
                card: card.clone(),
                alpha,
                challenge,
                judged: vec![challenge],
            };
            let new = run.calls().into_iter().filter(|call| !calls.contains(call));
            calls.extend(new.collect::<Vec<Call>>());
        }
    }
    calls
}

/// Every size as n and as m, q in turn, every challenge judged; and at each q the most uneven sizes,
/// the least and the largest, one judged. Challenges that are replied to go in turn.
fn runs_of_sizes(scheme: Scheme) -> Vec<Run> {
    let mut random = Generator::from_seed(520 + u64::from(scheme.byte()));
    let mut challenges = scheme.challenges().cycle();
    let mut runs = Vec::new();
    for (q, n, m) in pairs_of_sizes() {
        let challenge = challenges.next().expect("a cycle goes on");
        let shape = Shape::new(q, n, m);
        let judged = scheme.challenges().collect();
        runs.push(random_run(&mut random, scheme, shape, challenge, judged));
    }
    for (n, m) in [(1, 1), (1, 96), (96, 1), (96, 96)] {
        for q in ORDERS {
            let challenge = challenges.next().expect("a cycle goes on");
            let shape = Shape::new(q, n, m);
            runs.push(random_run(
                &mut random,
                scheme,
                shape,
                challenge,
                vec![challenge],
            ));
        }
        challenges.next();
    }
    runs
}

/// Each size twice as n and twice as m, q in turn.
pub fn pairs_of_sizes() -> Vec<(u8, u8, u8)> {
    let mut orders = ORDERS.iter().cycle();
    let mut pairs = Vec::new();
    for (i, n) in SIZES.into_iter().enumerate() {
        for shift in [1, 4] {
            let m = SIZES[(i + shift) % SIZES.len()];
            pairs.push((*orders.next().expect("a cycle goes on"), n, m));
        }
        orders.next();
    }
    pairs
}

fn random_run(
    random: &mut Generator,
    scheme: Scheme,
    shape: Shape,
    challenge: u8,
    judged: Vec<u8>,
) -> Run {
    Run {
        card: Card::random(random, scheme, shape),
        alpha: random.byte_below(shape.q.into()),
        challenge,
        judged,
    }
}

/// s, r0 and t0 of all 0 or all q-1, e0 and α q-1: differences of the least and the largest.
fn extreme_elements(scheme: Scheme) -> Vec<Call> {
    let mut random = Generator::from_seed(530 + u64::from(scheme.byte()));
    let mut challenges = scheme.challenges().cycle();
    let mut calls = Vec::new();
    for q in ORDERS {
        let shape = Shape::new(q, 3, 2);
        for choice in 0..8 {
            let constant =
                |bit: u8| vec![if choice >> bit & 1 == 0 { 0 } else { q - 1 }; shape.n()];
            let [s, r0, t0] = [0, 1, 2].map(constant);
            let e0 = vec![q - 1; shape.m()];
            let system = shape.random_system(&mut random);
            let challenge = challenges.next().expect("a cycle goes on");
            let run = Run {
                card: Card::new(&mut random, scheme, system, &s, [&r0, &t0, &e0]),
                alpha: q - 1,
                challenge,
                judged: vec![challenge],
            };
            calls.extend(run.calls());
        }
    }
    calls
}

/// Challenge 1 where v is 0 and F(r1), G(t1,r1) and e1 are all q-1.
fn lowest_differences(scheme: Scheme) -> Vec<Call> {
    let mut random = Generator::from_seed(540 + u64::from(scheme.byte()));
    let judgements = ORDERS.map(|q| lowest_difference(&mut random, scheme, q));
    judgements.into_iter().map(accepted).collect()
}

fn lowest_difference(random: &mut Generator, scheme: Scheme, q: u8) -> Judgement {
    let shape = Shape::new(q, 2, 1);
    let last = vec![q - 1];
    let (system, r, t) = loop {
        let system = shape.random_system(random);
        let [r, t] = [0, 1].map(|_| shape.random_elements(random, shape.n()));
        let read = read(&system);
        if evaluate(&read, &r) == last && polar(&read, &t, &r) == last {
            break (system, r, t);
        }
    };
    let rho = |random: &mut Generator, count| random.bytes_below(256, count * RHO);
    let (middle, reply) = match scheme {
        Scheme::ThreePass => (Vec::new(), [r, t, last, rho(random, 2)].concat()),
        Scheme::FivePass => ([vec![1], t, last].concat(), [r, rho(random, 1)].concat()),
    };
    let judgement = Judgement {
        scheme,
        system,
        v: vec![0],
        round: Transcript {
            commitments: vec![0; usize::from(scheme.commitments()) * DIGEST],
            middle,
            challenge: 1,
            reply,
        },
    };
    let opened = judgement.opened();
    opened.iter().fold(judgement, |judgement, opening| {
        judgement.with_commitment(opening.k, opening)
    })
}
