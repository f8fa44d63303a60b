//! The rounds of both schemes and the simulator, on random keys: what is accepted, what is not, and
//! that a full set of replies gives the secret away.

mod shapes;

use reference::commitment::{commitments, Opening, RHO};
use reference::field::ORDERS;
use reference::five_pass::{self, Middle};
use reference::map::{evaluate, polar};
use reference::random::Generator;
use reference::rounds::{accepts, honest, Transcript};
use reference::scheme::{Scheme, SCHEMES};
use reference::sha256::DIGEST;
use reference::simulator::{self, Simulation};
use reference::system::System;
use reference::three_pass;
use reference::vector::{all_elements, sum};
use reference::vectors::forged::other_second_vectors;
use reference::vectors::instance::Shape;
use shapes::SHAPES;

/// A key and what is lent to its card for one round.
struct Card {
    scheme: Scheme,
    system: System,
    s: Vec<u8>,
    v: Vec<u8>,
    lent: Vec<u8>,
}

impl Card {
    fn random(random: &mut Generator, scheme: Scheme, q: u8, n: u8, m: u8) -> Card {
        let bytes = Shape::new(q, n, m).random_bytes(random);
        let system = System::read(&bytes).expect("a well-formed system");
        let s = random.bytes_below(q.into(), n.into());
        let v = evaluate(&system, &s);
        let elements = 2 * system.n + system.m();
        let rho = usize::from(scheme.commitments()) * RHO;
        let mut lent = random.bytes_below(q.into(), elements);
        lent.extend(random.bytes_below(256, rho));
        assert_eq!(lent.len(), scheme.lent_length(system.dimensions()));
        Card {
            scheme,
            system,
            s,
            v,
            lent,
        }
    }

    /// The honest round of that challenge, and in five passes that α.
    fn transcript(&self, alpha: u8, challenge: u8) -> Transcript {
        let Card {
            scheme,
            system,
            s,
            lent,
            ..
        } = self;
        honest(system, *scheme, s, lent, alpha, challenge)
    }

    fn accepts(&self, round: &Transcript) -> bool {
        accepts(&self.system, self.scheme, &self.v, round)
    }

    fn q(&self) -> u8 {
        self.system.field.order()
    }
}

fn cards(scheme: Scheme, seed: u64) -> Vec<Card> {
    let mut random = Generator::from_seed(seed);
    let mut cards = Vec::new();
    for q in ORDERS {
        for (n, m) in SHAPES {
            cards.push(Card::random(&mut random, scheme, q, n, m));
        }
    }
    cards
}

/// Some α: the edges of the field and one between.
fn alphas(q: u8) -> Vec<u8> {
    let mut alphas = vec![0, 1, q / 2, q - 1];
    alphas.dedup();
    alphas
}

/// The byte at a place changed: an element to another element, any other byte by one bit.
fn changed(bytes: &[u8], place: usize, order: Option<u8>) -> Vec<u8> {
    let mut bytes = bytes.to_vec();
    bytes[place] = match order {
        Some(q) => (bytes[place] + 1) % q,
        None => bytes[place] ^ (1 << (place % 8)),
    };
    bytes
}

#[test]
fn schemes_by_their_bytes() {
    let schemes = (0..=255).filter_map(Scheme::of_byte);
    assert_eq!(schemes.collect::<Vec<Scheme>>(), SCHEMES);
}

#[test]
fn hashed_string() {
    let opening = Opening {
        scheme: Scheme::FivePass,
        k: 1,
        rho: vec![9; RHO],
        vectors: vec![vec![1, 2], vec![3]],
    };
    let string = [&[5, 1][..], &[9; RHO], &[1, 2, 3]].concat();
    assert_eq!(opening.string(), string);
    assert!(opening.opens(&commitments(&[opening.clone(), opening.clone()])));
}

#[test]
fn longest_string() {
    let mut random = Generator::from_seed(30);
    let card = Card::random(&mut random, Scheme::FivePass, 2, 96, 96);
    let round = five_pass::Round::new(&card.system, &card.s, &card.lent);
    let lengths = round.openings(&card.system).map(|o| o.string().len());
    assert_eq!(lengths, [322, 226]);
}

#[test]
fn honest_replies_are_accepted() {
    for scheme in SCHEMES {
        for card in cards(scheme, 31) {
            for alpha in alphas(card.q()) {
                for challenge in scheme.challenges() {
                    let round = card.transcript(alpha, challenge);
                    assert_eq!(
                        round.reply.len(),
                        scheme.reply_length(card.system.dimensions())
                    );
                    assert_eq!(
                        round.middle.len(),
                        scheme.middle_length(card.system.dimensions())
                    );
                    assert!(card.accepts(&round));
                }
            }
        }
    }
}

/// Every byte of a reply enters a hashed string, so that each change is rejected.
#[test]
fn changed_replies_are_rejected() {
    for scheme in SCHEMES {
        for card in cards(scheme, 32) {
            let elements = scheme.reply_elements(card.system.dimensions());
            for challenge in scheme.challenges() {
                let round = card.transcript(1, challenge);
                for place in 0..round.reply.len() {
                    let order = (place < elements).then_some(card.q());
                    let reply = changed(&round.reply, place, order);
                    assert!(!card.accepts(&Transcript {
                        reply,
                        ..round.clone()
                    }));
                }
            }
        }
    }
}

/// A changed commitment is rejected where it is opened: in three passes every one but that of the
/// challenge's number, in five that one alone.
#[test]
fn changed_commitments() {
    for scheme in SCHEMES {
        for card in cards(scheme, 33) {
            for challenge in scheme.challenges() {
                let round = card.transcript(1, challenge);
                for place in 0..round.commitments.len() {
                    let of_challenge = place / DIGEST == usize::from(challenge);
                    let is_opened = of_challenge == (scheme == Scheme::FivePass);
                    let commitments = changed(&round.commitments, place, None);
                    let forged = Transcript {
                        commitments,
                        ..round.clone()
                    };
                    assert_eq!(card.accepts(&forged), !is_opened);
                }
            }
        }
    }
}

/// A changed v is rejected where it is used: in challenge 1, and in five passes only if α is not 0.
#[test]
fn changed_keys() {
    for scheme in SCHEMES {
        for mut card in cards(scheme, 34) {
            for alpha in alphas(card.q()) {
                for challenge in scheme.challenges() {
                    let round = card.transcript(alpha, challenge);
                    let is_used = challenge == 1 && (scheme == Scheme::ThreePass || alpha != 0);
                    let v = card.v.clone();
                    for place in 0..v.len() {
                        card.v = changed(&v, place, Some(card.q()));
                        assert_eq!(card.accepts(&round), !is_used);
                    }
                    card.v = v;
                }
            }
        }
    }
}

/// A changed α, t1 or e1 is rejected, but for three cases in which the opening stays the same: in
/// challenge 0 α where r0 is zero, in challenge 1 α where v is F(r1) and t1 where G(t1,r1) stays.
#[test]
fn changed_middles() {
    for card in cards(Scheme::FivePass, 35) {
        let system = &card.system;
        let round = five_pass::Round::new(system, &card.s, &card.lent);
        for alpha in alphas(card.q()) {
            for challenge in card.scheme.challenges() {
                let honest = card.transcript(alpha, challenge);
                let before = Middle::read(system, &honest.middle);
                for place in 0..honest.middle.len() {
                    let middle = changed(&honest.middle, place, Some(card.q()));
                    let after = Middle::read(system, &middle);
                    let alpha_is_lost = if challenge == 0 {
                        round.r0.iter().all(|&element| element == 0)
                    } else {
                        card.v == evaluate(system, &round.r1)
                    };
                    let t1_is_lost = challenge == 1
                        && polar(system, &after.t1, &round.r1)
                            == polar(system, &before.t1, &round.r1);
                    let is_lost = if after.alpha != before.alpha {
                        alpha_is_lost
                    } else {
                        after.t1 != before.t1 && t1_is_lost
                    };
                    let forged = Transcript {
                        middle,
                        ..honest.clone()
                    };
                    assert_eq!(card.accepts(&forged), is_lost);
                }
            }
        }
    }
}

/// Replies to 0, 1 and 2 open alike, and r0 + r1 solves F = v.
#[test]
fn secret_from_three_passes() {
    for card in cards(Scheme::ThreePass, 36) {
        let system = &card.system;
        let replies = [0, 1, 2].map(|challenge| card.transcript(0, challenge).reply);
        let [first, second, third] =
            [0, 1, 2].map(|c| three_pass::opened(system, &card.v, c, &replies[usize::from(c)]));
        assert_eq!(
            [&first[0], &first[1], &second[0]],
            [&third[1], &second[1], &third[0]]
        );
        let [r0, r1] = [0, 1].map(|challenge: usize| &replies[challenge][..system.n]);
        assert_solves(&card, r0, r1);
    }
}

/// Two α, each with both challenges: replies open alike, and r0 + r1 solves F = v.
#[test]
fn secret_from_five_passes() {
    for card in cards(Scheme::FivePass, 37) {
        let system = &card.system;
        let opened = |alpha, challenge| {
            let round = card.transcript(alpha, challenge);
            assert!(card.accepts(&round));
            let middle = Middle::read(system, &round.middle);
            five_pass::opened(system, &card.v, &middle, challenge, &round.reply)
        };
        let (one, other) = (0, card.q() - 1);
        assert_eq!(opened(one, 0), opened(other, 0));
        assert_eq!(opened(one, 1), opened(other, 1));
        let [r0, r1] = [0, 1].map(|challenge| card.transcript(one, challenge).reply);
        assert_solves(&card, &r0[..system.n], &r1[..system.n]);
    }
}

fn assert_solves(card: &Card, r0: &[u8], r1: &[u8]) {
    let solution = sum(card.system.field, r0, r1);
    assert_eq!(evaluate(&card.system, &solution), card.v);
}

/// For any v and s', a simulated reply is accepted, but for the one to Ch*, which needs F(s') = v.
#[test]
fn simulated_replies() {
    let mut random = Generator::from_seed(38);
    for card in cards(Scheme::ThreePass, 39) {
        let system = &card.system;
        let other_v = random.bytes_below(card.q().into(), system.m());
        let other_s = random.bytes_below(card.q().into(), system.n);
        for (v, s) in [
            (&card.v, &other_s),
            (&other_v, &other_s),
            (&card.v, &card.s),
        ] {
            let lent = [s.as_slice(), &card.lent].concat();
            assert_eq!(lent.len(), simulator::lent_length(system));
            for unanswered in card.scheme.challenges() {
                let simulation = Simulation::new(system, v, unanswered, &lent);
                for challenge in card.scheme.challenges() {
                    let is_accepted = three_pass::accepts(
                        system,
                        v,
                        &simulation.commitments(),
                        challenge,
                        &simulation.reply(challenge),
                    );
                    let is_solved = evaluate(system, s) == *v;
                    assert_eq!(is_accepted, challenge != unanswered || is_solved);
                }
            }
        }
    }
}

/// Where F(s') = v the simulated round is the card's.
#[test]
fn simulation_with_the_secret() {
    for card in cards(Scheme::ThreePass, 40) {
        let lent = [card.s.as_slice(), &card.lent].concat();
        for unanswered in card.scheme.challenges() {
            let simulation = Simulation::new(&card.system, &card.v, unanswered, &lent);
            for challenge in card.scheme.challenges() {
                let round = card.transcript(0, challenge);
                assert_eq!(simulation.commitments(), round.commitments);
                assert_eq!(simulation.reply(challenge), round.reply);
            }
        }
    }
}

/// Exactly one of the two openings fails where a change of the vectors keeps the other's string.
#[test]
fn one_opening_fails() {
    for card in cards(Scheme::ThreePass, 41) {
        for challenge in card.scheme.challenges() {
            let round = card.transcript(0, challenge);
            let first = changed(&round.reply, 0, Some(card.q()));
            assert_eq!(opens(&card, &round, &first), [false, true]);
            let place = card.system.n - 1;
            let second = other_second_vectors(&card.system, challenge, &round.reply, place);
            assert_eq!(opens(&card, &round, &second), [true, false]);
            for reply in [first, second] {
                assert!(all_elements(
                    card.system.field,
                    &reply[..card.scheme.reply_elements(card.system.dimensions())]
                ));
                assert!(!card.accepts(&Transcript {
                    reply,
                    ..round.clone()
                }));
            }
        }
    }
}

/// Which of the two openings of a reply hash to their commitments.
fn opens(card: &Card, round: &Transcript, reply: &[u8]) -> [bool; 2] {
    let opened = three_pass::opened(&card.system, &card.v, round.challenge, reply);
    opened.map(|opening| opening.opens(&round.commitments))
}
