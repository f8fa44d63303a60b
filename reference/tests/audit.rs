//! Document 01, "Audit": the secrets and clashes found, and the refusals in order.

use reference::audit::{audit_three, full_set_of_five, full_set_of_three, Finding};
use reference::commitment::commitments;
use reference::field::ORDERS;
use reference::five_pass;
use reference::map::{evaluate, polar};
use reference::random::Generator;
use reference::rounds::Transcript;
use reference::scheme::{Scheme, SCHEMES};
use reference::system::System;
use reference::three_pass;
use reference::vector::{difference, sum};
use reference::vectors::audited::{Audit, Cards, Question};
use reference::vectors::exchange::Card;
use reference::vectors::instance::Shape;
use reference::vectors::maps::SMALL;
use reference::vectors::piece::Piece;
use reference::vectors::reporting::spoil_rho;
use reference::vectors::session::Session;

fn refused(number: u8) -> Finding {
    Finding::Refused {
        number,
        record: 0,
        round: 0,
    }
}

fn rejected(record: usize, round: usize) -> Finding {
    let [record, round] = [record, round].map(|i| u8::try_from(i + 1).expect("at most 255"));
    Finding::Refused {
        number: 8,
        record,
        round,
    }
}

/// A key's cards of several rounds, and their sessions with full sets in some of them.
fn sessions(
    seed: u64,
    scheme: Scheme,
    shape: Shape,
    rounds: u8,
    full: &[usize],
) -> (Cards, Vec<Session>) {
    let mut random = Generator::from_seed(seed);
    let cards = Cards::random(&mut random, scheme, shape, rounds);
    let sessions = cards.with_full_sets(&mut random, full);
    (cards, sessions)
}

fn small(seed: u64, scheme: Scheme, full: &[usize]) -> Vec<Session> {
    sessions(seed, scheme, Shape::new(7, 3, 2), 3, full).1
}

fn finding(sessions: &[Session]) -> Finding {
    Audit::of(sessions).finding()
}

/// Whatever the key and the round, the secret is the card's, which solves F = v.
#[test]
fn secrets() {
    let mut seed = 400;
    for scheme in SCHEMES {
        for q in ORDERS {
            for (n, m) in [(1, 1), (1, 9), (2, 2), (3, 5), (17, 4), (96, 2)] {
                for round in 0..4 {
                    seed += 1;
                    let (cards, sessions) =
                        sessions(seed, scheme, Shape::new(q, n, m), 4, &[round]);
                    assert_eq!(finding(&sessions), Finding::Secret(cards.0[0].s.clone()));
                }
            }
        }
    }
}

/// The small key's records, written out by hand: 0, 1, 2 give s, and three copies give 9.
#[test]
fn small_key() {
    let read = System::read(&SMALL).expect("a well-formed system");
    let lent = [[5, 1], [4, 2], [2, 5]].concat();
    let lent = [lent, vec![9; 32], vec![8; 32], vec![7; 32]].concat();
    let round = three_pass::Round::new(&read, &[3, 5], &lent);
    let commitments = commitments(&round.openings(&read));
    let table = [30u32, 2, 32, 96, 128, 71].map(u32::to_le_bytes).concat();
    let record = |challenge| {
        let exchange = [vec![challenge], round.reply(challenge)].concat();
        [
            &[1, 3, 7, 2, 2, 1],
            &table[..],
            &[5, 6],
            &commitments,
            &exchange,
        ]
        .concat()
    };
    let [a, b, c] = [0, 1, 2].map(record);
    let secret = Finding::Secret(vec![3, 5]);
    assert_eq!(audit_three(&SMALL, &a, &b, &c), secret);
    assert_eq!(audit_three(&SMALL, &c, &a, &b), secret);
    for copy in [&a, &b, &c] {
        assert_eq!(audit_three(&SMALL, copy, copy, copy), refused(9));
    }
}

/// Of 255 rounds the last.
#[test]
fn most_rounds() {
    for scheme in SCHEMES {
        let (cards, mut sessions) = sessions(401, scheme, Shape::new(251, 2, 1), 255, &[254]);
        assert_eq!(finding(&sessions), Finding::Secret(cards.0[0].s.clone()));
        let last = sessions.len() - 1;
        spoil_rho(&mut sessions[last].rounds[254]);
        assert_eq!(finding(&sessions), rejected(last, 254));
    }
}

/// Two cards with different secrets of one v: the first full set's is found.
#[test]
fn first_full_set() {
    let mut random = Generator::from_seed(402);
    // F(x, y) = xy.
    let system = Piece::literal(&[31, 2, 1, 0, 1, 0, 0, 0]);
    let secrets = [vec![2, 3], vec![6, 1], vec![1, 6]];
    for scheme in SCHEMES {
        let cards = Cards::of_secrets(&mut random, scheme, &system, &secrets);
        for (full, first) in [(&[0, 1, 2][..], 0), (&[1, 2], 1), (&[0, 2], 0), (&[2], 2)] {
            let sessions = cards.with_full_sets(&mut random, full);
            assert_eq!(finding(&sessions), Finding::Secret(secrets[first].clone()));
        }
    }
}

/// In three passes every order of the records will do; in five only the two pairs may change places.
#[test]
fn orders() {
    for scheme in SCHEMES {
        let sessions = small(403, scheme, &[1]);
        let count = sessions.len();
        let orders = (0..count.pow(count as u32)).map(|number| {
            let digit = |place: usize| number / count.pow(place as u32) % count;
            (0..count).map(digit).collect::<Vec<usize>>()
        });
        for order in orders {
            let reordered: Vec<Session> = order.iter().map(|&i| sessions[i].clone()).collect();
            let is_full = match scheme {
                Scheme::ThreePass => (0..3).all(|record| order.contains(&record)),
                Scheme::FivePass => order == [0, 1, 2, 3] || order == [2, 3, 0, 1],
            };
            let found = matches!(finding(&reordered), Finding::Secret(_));
            assert_eq!(found, is_full, "{order:?}");
            assert!(found || finding(&reordered) == refused(9));
        }
    }
}

/// Five passes: one pair of challenges, but of one α; α that differ within a pair.
#[test]
fn alphas() {
    let mut random = Generator::from_seed(404);
    let cards = Cards::random(&mut random, Scheme::FivePass, Shape::new(31, 2, 2), 1);
    let asked = |alphas: [u8; 4]| -> Finding {
        let round: Vec<Question> = alphas.into_iter().zip([0, 1, 0, 1]).collect();
        finding(&cards.sessions(&[round]))
    };
    assert_eq!(asked([5, 5, 0, 0]), Finding::Secret(cards.0[0].s.clone()));
    for alphas in [
        [5, 5, 5, 5],
        [5, 0, 5, 0],
        [5, 6, 0, 0],
        [5, 5, 0, 1],
        [5, 0, 0, 5],
    ] {
        assert_eq!(asked(alphas), refused(9));
    }
}

/// Each round of each record; of two the earlier record's counts, then its earlier round.
#[test]
fn rejected_rounds() {
    for scheme in SCHEMES {
        let sessions = small(405, scheme, &[0]);
        let places = (0..sessions.len()).flat_map(|record| [0, 1, 2].map(|round| (record, round)));
        let places: Vec<(usize, usize)> = places.collect();
        for &one in &places {
            for &other in &places {
                let mut spoiled = sessions.clone();
                spoil_rho(&mut spoiled[one.0].rounds[one.1]);
                if one != other {
                    spoil_rho(&mut spoiled[other.0].rounds[other.1]);
                }
                let (record, round) = one.min(other);
                assert_eq!(finding(&spoiled), rejected(record, round));
            }
        }
    }
}

/// Each fault of an audit with its number; of two at once the earlier test counts, also where an
/// earlier record's has a higher number. Without any there is no full set.
#[test]
fn refusals_in_order() {
    type Fault = (u8, fn(&mut Audit));
    let faults: [Fault; 19] = [
        (2, |a| a.system = Piece::literal(&[])),
        (1, |a| put(&mut a.system, 0, 4)),
        (2, |a| a.system = a.system.part(0, a.system.length() - 1)),
        (3, |a| put(&mut a.system, 3, 255)),
        (6, |a| a.records[0] = Piece::literal(&[])),
        (6, |a| put(&mut a.records[0], 0, 2)),
        (1, |a| put(&mut a.records[0], 5, 0)),
        (6, |a| put(&mut a.records[0], 6, 31)),
        (3, |a| put(&mut a.records[0], 30, 7)),
        (1, |a| a.records[0] = other_record(a.scheme)),
        (6, |a| put(&mut a.records[1], 0, 2)),
        (1, |a| a.records[1] = other_record(a.scheme)),
        (6, |a| put(&mut a.records[2], 0, 2)),
        (4, |a| put_challenge(a, 2)),
        (1, |a| a.records[2] = other_record(a.scheme)),
        (7, |a| put(&mut a.system, 0, 31)),
        (7, |a| put(&mut a.records[2], 31, 6)),
        (7, |a| put(&mut a.records[1], 32, 1)),
        (8, |a| {
            let last = a.records[0].length() - 1;
            put(&mut a.records[0], last, 1);
        }),
    ];
    for scheme in SCHEMES {
        let good = Audit::of(&small(406, scheme, &[]));
        let number = |audit: &Audit| match audit.finding() {
            Finding::Refused { number, .. } => number,
            _ => 0,
        };
        assert_eq!(good.finding(), refused(9));
        for (i, &(first, fault)) in faults.iter().enumerate() {
            assert_eq!(number(&good.changed(fault)), first, "{i}");
            for &(_, later) in &faults[i + 1..] {
                assert_eq!(number(&good.changed(later).changed(fault)), first, "{i}");
            }
        }
    }
}

fn put(piece: &mut Piece, place: usize, byte: u8) {
    *piece = piece.clone().patched(place, byte);
}

/// 255 as the first challenge, for q = 7, n = 3, m = 2, N = 3.
fn put_challenge(audit: &mut Audit, record: usize) {
    let place = match audit.records[record].expanded()[1] {
        3 => 30 + 2 + 3 * 96,
        _ => 30 + 2 + 3 * 64 + 1 + 3 + 2,
    };
    put(&mut audit.records[record], place, 255);
}

/// A good record of the other scheme.
fn other_record(scheme: Scheme) -> Piece {
    let other = SCHEMES.into_iter().find(|&other| other != scheme);
    let session = &small(407, other.expect("two schemes"), &[0])[0];
    Piece::literal(&session.record())
}

/// 7 for every byte of key and commitments that differs in one record, opened or not.
#[test]
fn every_byte_of_the_bodies() {
    for scheme in SCHEMES {
        let sessions = small(408, scheme, &[2]);
        let good = Audit::of(&sessions);
        let end = 32 + sessions[0].commitments().len();
        for record in 0..sessions.len() {
            for place in 30..end {
                let other = good.with_record(record, |bytes| {
                    bytes[place] = u8::from(bytes[place] == 0);
                });
                assert_eq!(other.finding(), refused(7));
            }
        }
    }
}

/// Records of one key whose cards are lent the same in one round only: 7, though it has a full set.
#[test]
fn randomness_repeats_once() {
    let mut random = Generator::from_seed(409);
    for scheme in SCHEMES {
        let (cards, sessions) = sessions(410, scheme, Shape::new(7, 3, 2), 2, &[0, 1]);
        for same in [0, 1] {
            let mut others = sessions.clone();
            let secrets = vec![cards.0[0].s.clone(); 2];
            let own = Cards::of_secrets(&mut random, scheme, &sessions[0].system, &secrets);
            let own = own.with_full_sets(&mut random, &[]);
            others[1].rounds[1 - same] = own[1].rounds[1 - same].clone();
            assert_eq!(finding(&others), refused(7));
        }
    }
}

// Clashes. No records hold one, since SHA-256 would have to; full sets of replies that are not
// accepted do.

/// A card's exchanges by what they are asked, its key, and a vector other than zero.
fn replies<const COUNT: usize>(
    random: &mut Generator,
    scheme: Scheme,
    q: u8,
    asked: [Question; COUNT],
) -> (Card, System, [Transcript; COUNT], Vec<u8>) {
    let card = Card::random(random, scheme, Shape::new(q, 3, 2));
    let system = System::read(&card.system.expanded()).expect("a well-formed system");
    let exchanges = asked.map(|(alpha, challenge)| card.judged(alpha, challenge).round);
    let change = vec![0, 1 + random.byte_below(u16::from(q) - 1), 0];
    (card, system, exchanges, change)
}

/// The same ending with other vectors before it.
fn with_vectors(reply: &[u8], vectors: &[u8]) -> Vec<u8> {
    [vectors, &reply[vectors.len()..]].concat()
}

fn clash(scheme: u8, k: u8, rho: &[u8], strings: [Vec<u8>; 2]) -> Finding {
    let [first, second] = strings.map(|vectors| [&[scheme, k], rho, &vectors[..]].concat());
    Finding::Clash { k, first, second }
}

/// c0 before c1 before c2, the lower challenge first, in any order of the records.
#[test]
fn clashes_of_three() {
    let mut random = Generator::from_seed(411);
    for q in ORDERS {
        let asked = [(0, 0), (0, 1), (0, 2)];
        let (card, system, honest, change) = replies(&mut random, Scheme::ThreePass, q, asked);
        let round = three_pass::Round::new(&system, &card.s, &card.lent);
        let three_pass::Round {
            r0,
            r1,
            t0,
            t1,
            e0,
            e1,
            rho,
        } = &round;
        let add = |x: &[u8], y: &[u8]| sum(system.field, x, y);
        let v = card.v();
        let assert_finds = |exchanges: &[Transcript; 3], expected: &Finding| {
            for [a, b, c] in [[0, 1, 2], [1, 2, 0], [2, 1, 0]] {
                let round = [&exchanges[a], &exchanges[b], &exchanges[c]];
                let set = full_set_of_three(&system, &v, round).expect("a full set");
                assert_eq!(&set.finding(&system), expected);
            }
        };
        let mut exchanges = honest.clone();
        exchanges.iter_mut().for_each(spoil_rho);
        assert_finds(&exchanges, &Finding::Secret(card.s.clone()));
        // To challenge 0 another r0, t1 and e1, so that c1 keeps its string.
        let other_r0 = add(r0, &change);
        let shift = difference(
            system.field,
            &evaluate(&system, &other_r0),
            &evaluate(&system, r0),
        );
        let [other_t1, other_e1] = [add(t1, &change), add(e1, &shift)];
        let mut exchanges = honest.clone();
        let vectors = [other_r0, other_t1.clone(), other_e1.clone()].concat();
        exchanges[0].reply = with_vectors(&honest[0].reply, &vectors);
        let strings = [[other_t1, other_e1].concat(), [&t1[..], e1].concat()];
        assert_finds(&exchanges, &clash(3, 2, &rho[2], strings));
        // To challenge 2 another t0 and e0 besides, so that c0 keeps its string.
        let other_t0 = add(t0, &change);
        let other_e0 = difference(system.field, e0, &polar(&system, &change, r1));
        let vectors = [r1.clone(), other_t0.clone(), other_e0.clone()].concat();
        exchanges[2].reply = with_vectors(&honest[2].reply, &vectors);
        let strings = [[&t0[..], e0].concat(), [other_t0, other_e0].concat()];
        assert_finds(&exchanges, &clash(3, 1, &rho[1], strings));
        // To challenge 1 another e1 besides.
        let mut e1 = e1.clone();
        e1[1] = system.field.sum(e1[1], 1);
        let vectors = [&r1[..], t1, &e1].concat();
        exchanges[1].reply = with_vectors(&honest[1].reply, &vectors);
        let masked = three_pass::masked_polar(&system, t0, r1, e0);
        let mut by_1 = masked.clone();
        by_1[1] = system.field.difference(by_1[1], 1);
        let strings = [by_1, masked].map(|masked| [&r1[..], &masked].concat());
        assert_finds(&exchanges, &clash(3, 0, &rho[0], strings));
    }
}

/// c0 before c1, the earlier record first.
#[test]
fn clashes_of_five() {
    let mut random = Generator::from_seed(412);
    for q in ORDERS {
        let asked = [(1, 0), (1, 1), (0, 0), (0, 1)];
        let (card, system, honest, change) = replies(&mut random, Scheme::FivePass, q, asked);
        let round = five_pass::Round::new(&system, &card.s, &card.lent);
        let five_pass::Round {
            r0,
            r1,
            t0,
            e0,
            rho,
        } = &round;
        let v = card.v();
        let found = |exchanges: &[Transcript; 4]| {
            let set = full_set_of_five(&system, &v, exchanges.each_ref()).expect("a full set");
            set.finding(&system)
        };
        let mut exchanges = honest.clone();
        exchanges.iter_mut().for_each(spoil_rho);
        assert_eq!(found(&exchanges), Finding::Secret(card.s.clone()));
        // With α = 0 another r1 has another string of -G(t1,r1) - e1, which is G(t0,r1) + e0.
        let other_r1 = sum(system.field, r1, &change);
        let mut exchanges = honest.clone();
        exchanges[3].reply = with_vectors(&honest[3].reply, &other_r1);
        let masked = |r1: &[u8]| [r1, &three_pass::masked_polar(&system, t0, r1, e0)].concat();
        let strings = [masked(r1), masked(&other_r1)];
        assert_eq!(found(&exchanges), clash(5, 1, &rho[1], strings));
        // And t0 and e0 stay the same, whatever r0.
        let other_r0 = sum(system.field, r0, &change);
        exchanges[2].reply = with_vectors(&honest[2].reply, &other_r0);
        let strings = [r0, &other_r0].map(|r0| [&r0[..], t0, e0].concat());
        assert_eq!(found(&exchanges), clash(5, 0, &rho[0], strings));
    }
}
