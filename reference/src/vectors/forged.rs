//! Cases for rounds that are not honest: document 01, the two rounds' checks and "Traps".

use super::case::{Call, Group};
use super::exchange::{read, Card, Input, Judgement, Span};
use super::honest::{group, small_card, SMALL_ALPHA};
use super::instance::Shape;
use super::simulation::unanswered_asked;
use crate::commitment::{Opening, RHO};
use crate::field::ORDERS;
use crate::map::{evaluate, polar};
use crate::random::Generator;
use crate::scheme::{Scheme, SCHEMES};
use crate::system::System;
use crate::three_pass::Round;
use crate::vector::{difference, sum};

pub fn groups() -> Vec<Group> {
    let mut groups = of_three_passes();
    groups.extend(of_five_passes());
    groups
}

fn of_three_passes() -> Vec<Group> {
    let scheme = Scheme::ThreePass;
    let mut groups = of_either(scheme);
    groups.extend(one_opening_fails());
    groups.push(group(scheme, "both openings fail", both_openings_fail()));
    groups
}

fn of_five_passes() -> Vec<Group> {
    let scheme = Scheme::FivePass;
    let topics = [
        ("alpha is not the challenge", alpha_and_challenge()),
        ("alpha of no weight", alpha_of_no_weight()),
        ("v and t1 of no weight", others_of_no_weight()),
    ];
    let mut groups = of_either(scheme);
    groups.extend(topics.map(|(topic, cases)| group(scheme, topic, cases)));
    groups
}

fn of_either(scheme: Scheme) -> Vec<Group> {
    let topics = [
        ("reply to another challenge", another_reply(scheme)),
        ("commitments made otherwise", made_otherwise(scheme)),
    ];
    let mut groups = every_place(scheme);
    groups.extend(edges(scheme));
    groups.extend(topics.map(|(topic, cases)| group(scheme, topic, cases)));
    groups
}

fn judge(judgements: Vec<Judgement>) -> Vec<Call> {
    judgements.into_iter().map(Call::Judge).collect()
}

// One byte changed.

/// The small key's round with one byte changed, at every place of every input.
fn every_place(scheme: Scheme) -> Vec<Group> {
    let card = small_card(&mut Generator::from_seed(60), scheme);
    let mut groups = Vec::new();
    for challenge in scheme.challenges() {
        let honest = card.judged(SMALL_ALPHA, challenge);
        for (input, name) in [
            (Input::Commitments, "the commitments"),
            (Input::Middle, "alpha, t1, e1"),
            (Input::Reply, "the reply"),
            (Input::Key, "v"),
        ] {
            let mut spans = honest.spans();
            spans.retain(|span| span.input == input);
            let cases = changes(&honest, &spans, Span::every_place);
            if !cases.is_empty() {
                let topic = format!("challenge {challenge}, every place of {name}");
                groups.push(group(scheme, &topic, cases));
            }
        }
    }
    groups
}

/// Larger rounds with one byte changed, at the first, middle and last place of α, of each vector, of
/// the commitments and of the reply's ρ.
fn edges(scheme: Scheme) -> Vec<Group> {
    let mut random = Generator::from_seed(610 + u64::from(scheme.byte()));
    let mut groups = Vec::new();
    for (q, n, m) in [(2, 16, 33), (31, 5, 16), (251, 64, 33)] {
        let card = Card::random(&mut random, scheme, Shape::new(q, n, m));
        let mut cases = Vec::new();
        for challenge in scheme.challenges() {
            let alpha = 1 + random.byte_below(u16::from(q - 1));
            let honest = card.judged(alpha, challenge);
            let spans = joined(&honest.spans());
            cases.extend(changes(&honest, &spans, Span::edges));
        }
        let topic = format!("q = {q}, edges of each part");
        groups.push(group(scheme, &topic, cases));
    }
    groups
}

/// The spans with neighbours joined that hold no elements.
fn joined(spans: &[Span]) -> Vec<Span> {
    let mut joined: Vec<Span> = Vec::new();
    for &span in spans {
        match joined.last_mut() {
            Some(last) if last.input == span.input && !last.elements && !span.elements => {
                last.length += span.length;
            }
            _ => joined.push(span),
        }
    }
    joined
}

/// The round with one byte changed at each of the chosen places.
fn changes(honest: &Judgement, spans: &[Span], places: fn(Span) -> Vec<usize>) -> Vec<Call> {
    let mut judgements = Vec::new();
    for &span in spans {
        for place in places(span) {
            judgements.push(honest.changed(span, place));
        }
    }
    judge(judgements)
}

// One of the two openings, or both.

/// The small key's card, one of each q, and two larger ones.
fn cards(random: &mut Generator) -> Vec<Card> {
    let mut cards = small_cards(random);
    for (q, n, m) in [(2, 16, 33), (251, 33, 16)] {
        cards.push(Card::random(random, Scheme::ThreePass, Shape::new(q, n, m)));
    }
    cards
}

/// The small key's card and one of each q.
fn small_cards(random: &mut Generator) -> Vec<Card> {
    let mut cards = vec![small_card(random, Scheme::ThreePass)];
    for q in ORDERS {
        cards.push(Card::random(random, Scheme::ThreePass, Shape::new(q, 3, 2)));
    }
    cards
}

/// Exactly one of the two openings fails, for each challenge and each of the two.
fn one_opening_fails() -> Vec<Group> {
    let mut groups = Vec::new();
    for challenge in Scheme::ThreePass.challenges() {
        for which in [0, 1] {
            let mut random = Generator::from_seed(62);
            let mut judgements = Vec::new();
            for card in cards(&mut random) {
                judgements.extend(one_fails(&mut random, &card, challenge, which));
            }
            let fails = judgements[0].opens()[which].0;
            for judgement in &judgements {
                let opens = judgement.opens();
                assert!(opens[which] == (fails, false) && opens[1 - which].1);
            }
            let topic = format!("challenge {challenge}, only c{fails} fails");
            groups.push(group(Scheme::ThreePass, &topic, judge(judgements)));
        }
    }
    groups
}

/// Rounds of the card in which only that one of the two openings fails: because of the commitment,
/// of its ρ or of the vectors.
fn one_fails(random: &mut Generator, card: &Card, challenge: u8, which: usize) -> Vec<Judgement> {
    let honest = card.judged(0, challenge);
    let k = honest.opens()[which].0;
    let commitment = honest.span(Input::Commitments, k.into());
    let rho = honest.span(Input::Reply, 3 + which);
    let mut judgements = vec![
        honest.changed(commitment, commitment.start),
        honest.changed(commitment, commitment.start + commitment.length - 1),
        honest.with_commitment(k, &another_opening(random, card, k)),
        honest.changed(rho, rho.start),
    ];
    if which == 0 {
        let r = honest.span(Input::Reply, 0);
        let v = honest.span(Input::Key, 0);
        judgements.push(honest.changed(r, r.start + r.length - 1));
        judgements.push(unanswered_asked(random, card, challenge));
        if challenge == 1 {
            judgements.push(honest.changed(v, v.start));
        }
    } else {
        let system = read(&card.system);
        for place in [0, system.n - 1] {
            let reply = other_second_vectors(&system, challenge, &honest.round.reply, place);
            judgements.push(honest.with_round(|round| round.reply = reply));
        }
    }
    judgements
}

/// What commitment k is made of in another round of the card.
fn another_opening(random: &mut Generator, card: &Card, k: u8) -> Opening {
    let system = read(&card.system);
    let q = u16::from(system.field.order());
    let vectors = [system.n, system.n, system.m()].map(|count| random.bytes_below(q, count));
    let rho = random.bytes_below(256, 3 * RHO);
    let lent = [vectors.concat(), rho].concat();
    let [c0, c1, c2] = Round::new(&system, &card.s, &lent).openings(&system);
    match k {
        0 => c0,
        1 => c1,
        _ => c2,
    }
}

/// The reply with another t, which differs at that place, and an e (in challenge 0 an r too) that
/// keeps what the first opening is made of.
pub fn other_second_vectors(system: &System, challenge: u8, reply: &[u8], place: usize) -> Vec<u8> {
    let (field, n, m) = (system.field, system.n, system.m());
    let mut step = vec![0; n];
    step[place] = 1;
    let [r, t, e] = [&reply[..n], &reply[n..2 * n], &reply[2 * n..2 * n + m]];
    let new_t = sum(field, t, &step);
    let (new_r, new_e) = if challenge == 0 {
        let new_r = sum(field, r, &step);
        let moved = difference(field, &evaluate(system, &new_r), &evaluate(system, r));
        (new_r, sum(field, e, &moved))
    } else {
        (r.to_vec(), difference(field, e, &polar(system, &step, r)))
    };
    [&new_r, &new_t, &new_e, &reply[2 * n + m..]].concat()
}

/// Both openings fail: e changed, the two ρ exchanged, the two commitments exchanged.
fn both_openings_fail() -> Vec<Call> {
    let mut random = Generator::from_seed(63);
    let mut judgements = Vec::new();
    for card in small_cards(&mut random) {
        for challenge in card.scheme.challenges() {
            let honest = card.judged(0, challenge);
            let opened = honest.opened();
            let [first, second] =
                [0, 1].map(|which| honest.span(Input::Commitments, opened[which].k.into()));
            let [e, first_rho, second_rho] = [2, 3, 4].map(|part| honest.span(Input::Reply, part));
            judgements.extend([
                honest.changed(e, e.start),
                honest.with_round(|round| swap(&mut round.reply, first_rho, second_rho)),
                honest.with_round(|round| swap(&mut round.commitments, first, second)),
            ]);
        }
    }
    for judgement in &judgements {
        assert!(judgement.opens().iter().all(|&(_, opens)| !opens));
    }
    judge(judgements)
}

/// Exchanges two spans of one input that are of the same length.
fn swap(bytes: &mut [u8], one: Span, other: Span) {
    for offset in 0..one.length {
        bytes.swap(one.start + offset, other.start + offset);
    }
}

// Taken for something else.

/// The reply to each challenge given to each other one.
fn another_reply(scheme: Scheme) -> Vec<Call> {
    let mut random = Generator::from_seed(640 + u64::from(scheme.byte()));
    let mut judgements = Vec::new();
    for (q, n, m) in [(2, 16, 5), (7, 3, 2), (31, 2, 3), (251, 5, 16)] {
        let card = Card::random(&mut random, scheme, Shape::new(q, n, m));
        let alpha = random.byte_below(q.into());
        for asked in scheme.challenges() {
            for given in scheme.challenges().filter(|&given| given != asked) {
                let honest = card.judged(alpha, given);
                judgements.push(honest.with_round(|round| round.challenge = asked));
            }
        }
    }
    judge(judgements)
}

/// Each opened commitment made with another k, the other scheme's byte, the vectors in another
/// order or without the last one.
fn made_otherwise(scheme: Scheme) -> Vec<Call> {
    let card = small_card(&mut Generator::from_seed(65), scheme);
    let mut judgements = Vec::new();
    for challenge in scheme.challenges() {
        let honest = card.judged(SMALL_ALPHA, challenge);
        for opening in honest.opened() {
            let mut made = |change: &dyn Fn(&mut Opening)| {
                let mut other = opening.clone();
                change(&mut other);
                judgements.push(honest.with_commitment(opening.k, &other));
            };
            for k in scheme.challenges().filter(|&k| k != opening.k) {
                made(&|other| other.k = k);
            }
            for of in SCHEMES.into_iter().filter(|&of| of != scheme) {
                made(&|other| other.scheme = of);
            }
            made(&|other| other.vectors.reverse());
            made(&|other| other.vectors.truncate(other.vectors.len() - 1));
        }
    }
    judge(judgements)
}

/// α of 0 and of 1, and a few more, beside each challenge and each reply.
fn alpha_and_challenge() -> Vec<Call> {
    let mut random = Generator::from_seed(66);
    let scheme = Scheme::FivePass;
    let mut judgements = Vec::new();
    for q in ORDERS {
        let card = Card::random(&mut random, scheme, Shape::new(q, 3, 2));
        let mut alphas = vec![0, 1, q / 2, q - 1];
        alphas.sort_unstable();
        alphas.dedup();
        for alpha in alphas {
            for given in scheme.challenges() {
                let honest = card.judged(alpha, given);
                for asked in scheme.challenges() {
                    judgements.push(honest.with_round(|round| round.challenge = asked));
                }
            }
        }
    }
    judge(judgements)
}

/// r0 is zero, so that v = F(r1): any α leaves both openings as they are.
fn alpha_of_no_weight() -> Vec<Call> {
    let mut random = Generator::from_seed(67);
    let scheme = Scheme::FivePass;
    let mut judgements = Vec::new();
    for q in ORDERS {
        let shape = Shape::new(q, 3, 2);
        let system = shape.random_system(&mut random);
        let [s, t0] = [0, 1].map(|_| shape.random_elements(&mut random, shape.n()));
        let e0 = shape.random_elements(&mut random, shape.m());
        let r0 = vec![0; shape.n()];
        let card = Card::new(&mut random, scheme, system, &s, [&r0, &t0, &e0]);
        for challenge in scheme.challenges() {
            for alpha in [0, 1, q - 1] {
                let honest = card.judged(0, challenge);
                let changed = honest.with_round(|round| round.middle[0] = alpha);
                assert!(changed.is_accepted());
                judgements.push(changed);
            }
        }
    }
    judge(judgements)
}

/// Challenge 1 with α = 0, where v may be any; and with r1 zero, where t1 may be any.
fn others_of_no_weight() -> Vec<Call> {
    let mut random = Generator::from_seed(68);
    let scheme = Scheme::FivePass;
    let mut judgements = Vec::new();
    for q in ORDERS {
        let shape = Shape::new(q, 3, 2);
        let card = Card::random(&mut random, scheme, shape);
        let honest = card.judged(0, 1);
        let v = honest.span(Input::Key, 0);
        for place in v.every_place() {
            judgements.push(honest.changed(v, place));
        }
        let r0 = card.lent[..shape.n()].to_vec();
        let honest = Card { s: r0, ..card }.judged(q - 1, 1);
        let t1 = honest.span(Input::Middle, 1);
        for place in t1.every_place() {
            judgements.push(honest.changed(t1, place));
        }
    }
    assert!(judgements.iter().all(Judgement::is_accepted));
    judge(judgements)
}
