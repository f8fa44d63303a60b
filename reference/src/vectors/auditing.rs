//! Cases for the audit: document 01, "Audit". Here are the secrets found, and records of honest
//! rounds without a full set.

use super::audit_faults;
use super::audit_forged;
use super::audit_rejected;
use super::audited::{records, Audit, Cards, Question};
use super::case::{Call, Group};
use super::exchange::{read, Card};
use super::honest::{group, small_card, SMALL_ALPHA};
use super::instance::Shape;
use super::piece::Piece;
use super::reporting::{spoil_rho, spoiled};
use super::session::{layout, parts, Holds, Session};
use crate::field::ORDERS;
use crate::map::evaluate;
use crate::random::Generator;
use crate::scheme::{Scheme, SCHEMES};

pub fn groups() -> Vec<Group> {
    SCHEMES.into_iter().flat_map(scheme_groups).collect()
}

/// What a group is about, and its cases.
pub type Topic = (&'static str, Vec<Audit>);

fn scheme_groups(scheme: Scheme) -> Vec<Group> {
    let found = vec![
        ("small key", small_key(scheme)),
        ("secrets of every size", sizes(scheme)),
        (
            "randomness repeats in all rounds, full set in one",
            one(scheme),
        ),
        ("first of several full sets", first_of_several(scheme)),
        ("records in every order", orders(scheme)),
        ("all that may be asked", choices(scheme)),
        ("vectors of zeros", zeros(scheme)),
        ("equal copies", copies(scheme)),
        ("255 rounds", most_rounds(scheme)),
    ];
    let topics = [
        found,
        audit_forged::topics(scheme),
        audit_rejected::topics(scheme),
        audit_faults::topics(scheme),
    ];
    let topics = topics.into_iter().flatten();
    let groups = topics.map(|(topic, audits)| {
        let cases = audits.into_iter().map(Call::Audit).collect();
        group(scheme, &format!("audit {topic}"), cases)
    });
    groups.collect()
}

/// The audit of sessions with full sets in these rounds, counted from 0.
fn with_full_sets(random: &mut Generator, cards: &Cards, full: &[usize]) -> Audit {
    Audit::of(&cards.with_full_sets(random, full))
}

/// The small key's card, in five passes with its α and each other one.
fn small_key(scheme: Scheme) -> Vec<Audit> {
    let cards = Cards(vec![small_card(&mut Generator::from_seed(100), scheme)]);
    let asked = match scheme {
        Scheme::ThreePass => vec![vec![(0, 0), (0, 1), (0, 2)]],
        Scheme::FivePass => (0..7)
            .filter(|&alpha| alpha != SMALL_ALPHA)
            .map(|alpha| {
                let alphas = [SMALL_ALPHA, SMALL_ALPHA, alpha, alpha].into_iter();
                alphas.zip([0, 1, 0, 1]).collect()
            })
            .collect(),
    };
    one_round(&cards, asked)
}

/// One round of each q and size, the most uneven sizes in turn.
fn sizes(scheme: Scheme) -> Vec<Audit> {
    let mut random = Generator::from_seed(101);
    let mut uneven = [(1, 96), (96, 1)].iter().cycle();
    let mut audits = Vec::new();
    for q in ORDERS {
        let uneven = *uneven.next().expect("a cycle goes on");
        for (n, m) in [(1, 1), (2, 3), (9, 5), (96, 96), uneven] {
            let cards = Cards::random(&mut random, scheme, Shape::new(q, n, m), 1);
            audits.push(with_full_sets(&mut random, &cards, &[0]));
        }
    }
    audits
}

/// The first, the middle or the last of three rounds, at each q.
fn one(scheme: Scheme) -> Vec<Audit> {
    let mut random = Generator::from_seed(102);
    let mut audits = Vec::new();
    for q in ORDERS {
        let cards = Cards::random(&mut random, scheme, Shape::new(q, 3, 2), 3);
        for round in 0..3 {
            audits.push(with_full_sets(&mut random, &cards, &[round]));
        }
    }
    audits
}

/// Cards of two secrets in turn that solve F = v both, so that the secret found tells which round
/// was used: full sets in both of two rounds, either card first, and in the last two of three.
fn first_of_several(scheme: Scheme) -> Vec<Audit> {
    let mut random = Generator::from_seed(103);
    let mut audits = Vec::new();
    for q in ORDERS {
        let (system, [one, other]) = two_solutions(&mut random, Shape::new(q, 3, 1));
        for (secrets, full) in [
            ([&one, &other].to_vec(), &[0, 1][..]),
            ([&other, &one].to_vec(), &[0, 1]),
            ([&one, &other, &one].to_vec(), &[1, 2]),
        ] {
            let secrets: Vec<Vec<u8>> = secrets.into_iter().cloned().collect();
            let cards = Cards::of_secrets(&mut random, scheme, &system, &secrets);
            audits.push(with_full_sets(&mut random, &cards, full));
        }
    }
    audits
}

/// A random system and two vectors at which F is the same.
fn two_solutions(random: &mut Generator, shape: Shape) -> (Piece, [Vec<u8>; 2]) {
    loop {
        let system = shape.random_system(random);
        let vectors = [0, 1].map(|_| shape.random_elements(random, shape.n()));
        let [one, other] = vectors.each_ref();
        let read = read(&system);
        if one != other && evaluate(&read, one) == evaluate(&read, other) {
            return (system, vectors);
        }
    }
}

/// The records of two rounds, the second with a full set, in all orders. In five passes the two
/// pairs may change places, and any other order has no full set.
fn orders(scheme: Scheme) -> Vec<Audit> {
    let mut random = Generator::from_seed(104);
    let cards = Cards::random(&mut random, scheme, Shape::new(31, 2, 2), 2);
    let good = with_full_sets(&mut random, &cards, &[1]);
    let count = u8::try_from(good.records.len()).expect("three or four");
    let mut orders = lists(count.into(), count);
    orders.retain(|order| (0..count).all(|record| order.contains(&record)));
    let reordered = orders.iter().map(|order| {
        let records = order.iter().map(|&record| usize::from(record));
        let records = records.map(|record| good.records[record].clone());
        good.changed(|audit| audit.records = records.collect())
    });
    reordered.collect()
}

/// All lists of so many numbers below a bound.
fn lists(count: usize, bound: u8) -> Vec<Vec<u8>> {
    (0..count).fold(vec![Vec::new()], |shorter, _| {
        let longer = shorter.iter().flat_map(|list| {
            let last = 0..bound;
            last.map(move |number| [&list[..], &[number]].concat())
        });
        longer.collect()
    })
}

/// One round with all challenges that the records may have; in five passes those of two α, and those
/// of a full set with the α equal and different in every way.
fn choices(scheme: Scheme) -> Vec<Audit> {
    let mut random = Generator::from_seed(105);
    let cards = Cards::random(&mut random, scheme, Shape::new(7, 2, 2), 1);
    let challenges = lists(records(scheme), scheme.commitments());
    let asked = challenges.iter().map(|challenges| {
        let alphas = [3, 3, 0, 0].into_iter();
        alphas.zip(challenges.iter().copied()).collect()
    });
    let mut asked: Vec<Vec<Question>> = asked.collect();
    if scheme == Scheme::FivePass {
        asked.extend(every_alpha(&[3, 0, 6, 5]));
    }
    one_round(&cards, asked)
}

/// The challenges of a full set in five passes, with these α in the four records, equal and different
/// in every way.
pub fn every_alpha(alphas: &[u8]) -> Vec<Vec<Question>> {
    let mut ways = lists(4, u8::try_from(alphas.len()).expect("a few"));
    // An α that no earlier record has is always the next of these.
    ways.retain(|way| {
        let mut next = 0;
        way.iter().all(|&which| {
            let is_known_or_next = which <= next;
            next = next.max(which + 1);
            is_known_or_next
        })
    });
    let asked = ways.iter().map(|way| {
        let alphas = way.iter().map(|&which| alphas[usize::from(which)]);
        alphas.zip([0, 1, 0, 1]).collect()
    });
    asked.collect()
}

/// Audits of one round, by what is asked.
pub fn one_round(cards: &Cards, asked: Vec<Vec<Question>>) -> Vec<Audit> {
    let sessions = asked.into_iter().map(|round| cards.sessions(&[round]));
    sessions.map(|sessions| Audit::of(&sessions)).collect()
}

/// Zero as s, r0, r1, t0 and e0, t1 and e0 in three passes, and all; and as all of the system.
fn zeros(scheme: Scheme) -> Vec<Audit> {
    let mut random = Generator::from_seed(106);
    let mut audits = Vec::new();
    for q in [2, 251] {
        let shape = Shape::new(q, 3, 2);
        let system = shape.random_system(&mut random);
        let [s, r0, t0] = [0; 3].map(|_| shape.random_elements(&mut random, shape.n()));
        let e0 = shape.random_elements(&mut random, shape.m());
        let (zero, no_e) = (vec![0; shape.n()], vec![0; shape.m()]);
        for (s, vectors) in [
            (&zero, [&r0, &t0, &e0]),
            (&s, [&zero, &t0, &e0]),
            (&s, [&s, &t0, &e0]),
            (&s, [&r0, &zero, &no_e]),
            (&s, [&r0, &r0, &no_e]),
            (&zero, [&zero, &zero, &no_e]),
        ] {
            let vectors = vectors.map(Vec::as_slice);
            let card = Card::new(&mut random, scheme, system.clone(), s, vectors);
            audits.push(with_full_sets(&mut random, &Cards(vec![card]), &[0]));
        }
        let cards = Cards::of_secrets(&mut random, scheme, &shape.system(&[0]), &[s]);
        audits.push(with_full_sets(&mut random, &cards, &[0]));
    }
    audits
}

/// Copies of one record: the small key's with each challenge, and one of two rounds at each q; in
/// five passes also two records, each twice.
fn copies(scheme: Scheme) -> Vec<Audit> {
    let mut random = Generator::from_seed(107);
    let small = Cards(vec![small_card(&mut random, scheme)]);
    let mut audits = Vec::new();
    for challenge in scheme.challenges() {
        let copies = vec![(SMALL_ALPHA, challenge); records(scheme)];
        audits.extend(one_round(&small, vec![copies]));
    }
    for q in ORDERS {
        let cards = Cards::random(&mut random, scheme, Shape::new(q, 2, 2), 2);
        let good = with_full_sets(&mut random, &cards, &[0, 1]);
        let records = &good.records;
        let [a, b] = [0, 1].map(|record| records[record].clone());
        let copies = vec![a.clone(); records.len()];
        audits.push(good.changed(|audit| audit.records = copies));
        if scheme == Scheme::FivePass {
            let twice = vec![a.clone(), b.clone(), a, b];
            audits.push(good.changed(|audit| audit.records = twice));
        }
    }
    audits
}

/// A full set in the last round only; and the first record's last round rejected, where the others'
/// rounds are no card's.
fn most_rounds(scheme: Scheme) -> Vec<Audit> {
    let mut random = Generator::from_seed(108);
    let shape = Shape::new(31, 1, 1);
    let cards = Cards::random(&mut random, scheme, shape, 255);
    let found = with_full_sets(&mut random, &cards, &[254]);
    let card = Card::random(&mut random, scheme, shape);
    let sessions = Cards(vec![card; 255]).with_full_sets(&mut random, &[]);
    let first = spoiled(&sessions[0], &[254], spoil_rho);
    let rejected = Audit::of(&sessions).changed(|audit| {
        audit.records.fill(of_no_card(&first));
        audit.records[0] = Piece::literal(&first.record());
    });
    vec![found, rejected]
}

/// A record in short form with the same bytes before its exchanges, if the commitments are the same
/// in all rounds. Its exchanges are well-formed.
fn of_no_card(session: &Session) -> Piece {
    let layout = layout(session.header());
    let mut pattern = session.rounds[0].commitments.clone();
    let phase = layout.commitments.offset % pattern.len();
    pattern.rotate_right(phase);
    let repeated = Piece::repeated(&pattern, layout.length());
    let front = [layout.front(), session.v.clone()].concat();
    let exchanges = parts(layout).into_iter();
    let exchanges = exchanges.filter(|part| part.start >= layout.exchanges.offset);
    let restricted = exchanges.filter(|part| part.holds != Holds::Anything);
    restricted.fold(repeated.overwritten(0, &front), |piece, part| {
        piece.overwritten(part.start, &vec![0; part.length])
    })
}
