//! Cases for the audit where a card is not honest, or its vectors are such that a changed α, t1 or e1
//! is accepted.

use super::audited::{full_set, Audit, Cards, Question};
use super::auditing::{every_alpha, one_round, Topic};
use super::exchange::{read, Card, Judgement};
use super::instance::Shape;
use super::session::Session;
use crate::commitment::commitments;
use crate::field::ORDERS;
use crate::five_pass;
use crate::map::polar;
use crate::random::Generator;
use crate::scheme::Scheme;
use crate::simulator::Simulation;
use crate::vector::sum;

pub fn topics(scheme: Scheme) -> Vec<Topic> {
    match scheme {
        Scheme::ThreePass => vec![("simulated rounds", simulated())],
        Scheme::FivePass => vec![
            ("alpha of no weight", alpha_of_no_weight()),
            ("a pair with t1 of no weight", t1_of_no_weight()),
            ("a pair with another e1", other_e1()),
        ],
    }
}

// Three passes.

/// A round simulated with each Ch*: asked for the two other challenges all are accepted, but there is
/// no full set; asked for all, Ch* is rejected, whichever record has it.
fn simulated() -> Vec<Audit> {
    let mut random = Generator::from_seed(110);
    let mut audits = Vec::new();
    for (unanswered, q) in (0..3).zip([2, 31, 251]) {
        let shape = Shape::new(q, 3, 2);
        let card = Card::random(&mut random, Scheme::ThreePass, shape);
        let other = shape.random_elements(&mut random, shape.n());
        let [one, two] = [1, 2].map(|step| (unanswered + step) % 3);
        for challenges in [
            [one, two, one],
            [two, two, one],
            [unanswered, one, two],
            [one, unanswered, two],
            [two, one, unanswered],
        ] {
            let records = challenges.map(|challenge| {
                Session::of(&[simulated_round(&card, &other, unanswered, challenge)])
            });
            audits.push(Audit::of(&records));
        }
    }
    audits
}

/// The reply that a simulation with s' has to a challenge, Ch* too.
fn simulated_round(card: &Card, s: &[u8], unanswered: u8, challenge: u8) -> Judgement {
    let system = read(&card.system);
    let lent = [s, &card.lent].concat();
    let simulation = Simulation::new(&system, &card.v(), unanswered, &lent);
    card.judged(0, challenge).with_round(|round| {
        round.commitments = simulation.commitments();
        round.reply = simulation.reply(challenge);
    })
}

// Five passes.

/// r0 is zero, so that t1 and e1 are the same for every α: the α of the four records equal and
/// different in every way.
fn alpha_of_no_weight() -> Vec<Audit> {
    let mut random = Generator::from_seed(111);
    let mut audits = Vec::new();
    for (q, alphas) in [(2, &[0, 1][..]), (251, &[250, 0, 1, 2])] {
        let mut card = Card::random(&mut random, Scheme::FivePass, Shape::new(q, 3, 2));
        card.lent[..3].fill(0);
        audits.extend(one_round(&Cards(vec![card]), every_alpha(alphas)));
    }
    audits
}

/// One pair whose replies to challenge 1 have another t1 than those to 0, and all else equal: where
/// r1 is zero, and where G(t1,r1) stays the same.
fn t1_of_no_weight() -> Vec<Audit> {
    let mut random = Generator::from_seed(112);
    let mut audits = Vec::new();
    for q in ORDERS {
        let shape = Shape::new(q, 3, 1);
        let card = Card::random(&mut random, Scheme::FivePass, shape);
        let lost = lost_by_polar(&mut random, &card);
        let s = card.lent[..3].to_vec();
        let without_r1 = Card { s, ..card.clone() };
        for record in [1, 3] {
            audits.push(with_t1(&mut random, &card, record, &lost));
            for change in [[1, 0, 0], [0, 0, q - 1]] {
                audits.push(with_t1(&mut random, &without_r1, record, &change));
            }
        }
    }
    audits
}

/// A vector other than zero whose G with r1 is zero.
fn lost_by_polar(random: &mut Generator, card: &Card) -> Vec<u8> {
    let system = read(&card.system);
    let round = five_pass::Round::new(&system, &card.s, &card.lent);
    let zero = vec![0; system.m()];
    loop {
        let vector = random.bytes_below(system.field.order().into(), system.n);
        let is_zero = vector.iter().all(|&element| element == 0);
        if !is_zero && polar(&system, &vector, &round.r1) == zero {
            return vector;
        }
    }
}

/// One round with a full set, but that t1 of a record is changed by a vector.
fn with_t1(random: &mut Generator, card: &Card, record: usize, change: &[u8]) -> Audit {
    let field = read(&card.system).field;
    let cards = Cards(vec![card.clone()]);
    let mut sessions = cards.with_full_sets(random, &[0]);
    let t1 = &mut sessions[record].rounds[0].middle[1..][..change.len()];
    t1.copy_from_slice(&sum(field, t1, change));
    Audit::of(&sessions)
}

/// One pair whose replies to challenge 1 have another e1 than those to 0, and all else equal; or both
/// pairs. v is F(r0 + r1) but for one element, and c1 is made so that only one α goes well.
fn other_e1() -> Vec<Audit> {
    let mut random = Generator::from_seed(113);
    let mut audits = Vec::new();
    for q in ORDERS {
        for place in [0, 1] {
            let card = Card::random(&mut random, Scheme::FivePass, Shape::new(q, 3, 2));
            let asked = full_set(&mut random, card.scheme, q);
            let alphas = [0, 2].map(|record: usize| asked[record].0);
            let third = (0..q).find(|alpha| !alphas.contains(alpha));
            for guess in alphas.into_iter().chain(third) {
                let rounds = asked.iter();
                let rounds = rounds.map(|&question| guessed(&card, place, guess, question));
                let sessions = rounds.map(|round| Session::of(&[round]));
                audits.push(Audit::of(&sessions.collect::<Vec<Session>>()));
            }
        }
    }
    audits
}

/// The accepted round of a card whose s does not solve F = v, since v has one more at a place. It
/// guesses an α, for which t1 and e1 go with both challenges; for another α, challenge 1 takes
/// another e1.
fn guessed(card: &Card, place: usize, guess: u8, (alpha, challenge): Question) -> Judgement {
    let system = read(&card.system);
    let field = system.field;
    let mut openings = five_pass::Round::new(&system, &card.s, &card.lent).openings(&system);
    let masked = &mut openings[1].vectors[1][place];
    *masked = field.sum(*masked, guess);
    let mut judgement = card.judged(alpha, challenge).with_round(|round| {
        round.commitments = commitments(&openings);
        if challenge == 1 {
            let e1 = &mut round.middle[1 + system.n + place];
            *e1 = field.sum(*e1, field.difference(alpha, guess));
        }
    });
    judgement.v[place] = field.sum(judgement.v[place], 1);
    assert!(judgement.is_accepted(), "a guess of α");
    judgement
}
