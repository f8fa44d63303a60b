//! Cases for the report: document 01, "Report program" and the order of its refusals; document 02's
//! paper 1.

use super::case::{Call, Group};
use super::honest::{group, small_card, SMALL_ALPHA};
use super::instance::Shape;
use super::piece::Piece;
use super::session::{elements, header, laid, layout, places, Holds, Session};
use crate::field::ORDERS;
use crate::random::Generator;
use crate::record::{BODIES, HEADER};
use crate::report::MOST_OF_INPUT;
use crate::rounds::Transcript;
use crate::scheme::{Scheme, SCHEMES};
use crate::system::HEAD;

/// The input whose text document 01 prints: the small key, one honest round, challenge 2.
pub fn printed_case() -> Vec<u8> {
    small(Scheme::ThreePass, 2).input()
}

/// The small key's session of one honest round.
fn small(scheme: Scheme, challenge: u8) -> Session {
    let card = small_card(&mut Generator::from_seed(90), scheme);
    Session::of(&[card.judged(SMALL_ALPHA, challenge)])
}

pub fn groups() -> Vec<Group> {
    SCHEMES.into_iter().flat_map(scheme_groups).collect()
}

fn scheme_groups(scheme: Scheme) -> Vec<Group> {
    let topics = [
        ("report small key", literal(&small_key(scheme))),
        ("report sizes", literal(&sizes(scheme))),
        ("report counts of rounds", literal(&counts(scheme))),
        ("report totals", totals(scheme)),
        ("report rejected rounds", literal(&rejected(scheme))),
        ("report every byte changed", literal(&every_byte(scheme))),
        ("report every truncation", literal(&every_length(scheme))),
        ("report largest inputs", largest(scheme)),
        ("report refused systems", literal(&refused_systems(scheme))),
        ("report refused records", literal(&refused_records(scheme))),
        ("report other systems", literal(&other_systems(scheme))),
    ];
    let groups = topics.map(|(topic, inputs)| {
        let cases = inputs.into_iter().map(|input| Call::Report { input });
        group(scheme, topic, cases.collect())
    });
    groups.into()
}

fn literal(inputs: &[Vec<u8>]) -> Vec<Piece> {
    inputs.iter().map(|input| Piece::literal(input)).collect()
}

fn inputs(sessions: &[Session]) -> Vec<Vec<u8>> {
    sessions.iter().map(Session::input).collect()
}

// Sessions.

/// Each challenge; in three passes the last is the printed case.
fn small_key(scheme: Scheme) -> Vec<Vec<u8>> {
    let challenges = scheme.challenges();
    challenges
        .map(|challenge| small(scheme, challenge).input())
        .collect()
}

/// Honest sessions of each q, with several n and m.
fn sizes(scheme: Scheme) -> Vec<Vec<u8>> {
    let mut random = Generator::from_seed(91);
    let mut inputs = Vec::new();
    for q in ORDERS {
        for (n, m) in [(1, 1), (3, 2), (2, 5), (16, 9)] {
            let session = Session::honest(&mut random, scheme, Shape::new(q, n, m), 3);
            inputs.push(session.input());
        }
    }
    inputs
}

/// Honest sessions at the edges of the numbers' lengths, and the longest, q in turn; some with the
/// last round rejected too.
fn counts(scheme: Scheme) -> Vec<Vec<u8>> {
    let mut random = Generator::from_seed(92);
    let mut orders = ORDERS.iter().cycle();
    let mut sessions = Vec::new();
    for rounds in [1, 9, 10, 11, 100, 255] {
        let q = *orders.next().expect("a cycle goes on");
        let session = Session::honest(&mut random, scheme, Shape::new(q, 2, 2), rounds);
        if [10, 100].contains(&rounds) {
            sessions.push(spoiled(&session, &[session.rounds.len() - 1], spoil_rho));
        }
        sessions.push(session);
    }
    inputs(&sessions)
}

/// Accepted and rejected rounds at the edges of both totals' lengths, q in turn. Most long sessions
/// are of five passes, which have fewer bytes. The last is of 255 rounds, none accepted.
fn totals(scheme: Scheme) -> Vec<Piece> {
    let mut random = Generator::from_seed(96);
    let short = [[1, 9], [0, 10], [10, 1], [10, 10]];
    let long: &[[u8; 2]] = match scheme {
        Scheme::ThreePass => &[[100, 10]],
        Scheme::FivePass => &[[1, 99], [10, 100], [100, 155], [1, 254], [254, 1]],
    };
    let orders = ORDERS.into_iter().cycle();
    let counts = short.iter().chain(long).zip(orders);
    let sessions = counts.map(|(&counts, q)| {
        let shape = Shape::new(q, 1, 1);
        mixed(&mut random, scheme, shape, counts)
    });
    let mut inputs = literal(&inputs(&sessions.collect::<Vec<Session>>()));
    inputs.push(patterned(&mut random, scheme, Shape::new(251, 2, 2), 255));
    inputs
}

/// So many accepted and so many rejected rounds, in any order.
pub fn mixed(
    random: &mut Generator,
    scheme: Scheme,
    shape: Shape,
    [accepted, rejected]: [u8; 2],
) -> Session {
    let session = Session::honest(random, scheme, shape, accepted + rejected);
    let rounds = 0..session.rounds.len();
    let mut order: Vec<(u64, usize)> = rounds.map(|round| (random.word(), round)).collect();
    order.sort_unstable();
    let first = order.iter().take(rejected.into());
    let rounds: Vec<usize> = first.map(|&(_, round)| round).collect();
    spoiled(&session, &rounds, spoil_rho)
}

/// The same with these rounds changed.
pub fn spoiled(session: &Session, rounds: &[usize], spoil: fn(&mut Transcript)) -> Session {
    let mut session = session.clone();
    for &round in rounds {
        spoil(&mut session.rounds[round]);
    }
    session
}

/// A bit of the reply's last ρ, which every challenge opens.
pub fn spoil_rho(round: &mut Transcript) {
    let last = round.reply.len() - 1;
    round.reply[last] ^= 1;
}

/// The reply's first element, which every challenge hashes: 0, or 1 if it is 0.
pub fn spoil_element(round: &mut Transcript) {
    round.reply[0] = u8::from(round.reply[0] == 0);
}

/// A bit of each commitment.
fn spoil_commitments(round: &mut Transcript) {
    for digest in round.commitments.chunks_mut(32) {
        digest[7] ^= 16;
    }
}

/// A bit of one commitment, which only some challenges open.
fn spoil_commitment(round: &mut Transcript) {
    round.commitments[31] ^= 128;
}

/// Rounds rejected at the first, a middle and the last place, several of them and all; two rounds'
/// commitments exchanged; another v, which rejects only rounds of challenge 1.
fn rejected(scheme: Scheme) -> Vec<Vec<u8>> {
    let mut random = Generator::from_seed(93);
    let spoils = [
        spoil_rho,
        spoil_element,
        spoil_commitments,
        spoil_commitment,
    ];
    let mut sessions = Vec::new();
    for (q, spoil) in ORDERS.into_iter().zip(spoils) {
        let honest = Session::honest(&mut random, scheme, Shape::new(q, 3, 2), 5);
        for rounds in [&[0][..], &[2], &[4], &[0, 4], &[1, 2, 3], &[0, 1, 2, 3, 4]] {
            sessions.push(spoiled(&honest, rounds, spoil));
        }
        let mut exchanged = honest.clone();
        exchanged.rounds[0].commitments = honest.rounds[4].commitments.clone();
        exchanged.rounds[4].commitments = honest.rounds[0].commitments.clone();
        let mut other_key = honest;
        other_key.v[0] = u8::from(other_key.v[0] == 0);
        sessions.extend([exchanged, other_key]);
    }
    inputs(&sessions)
}

// Single bytes, and lengths.

/// Each byte of the small key's input one more.
fn every_byte(scheme: Scheme) -> Vec<Vec<u8>> {
    let good = small(scheme, 1).input();
    let places = 0..good.len();
    places
        .map(|place| {
            let byte = good[place].wrapping_add(1);
            changed(&good, &[(place, byte)])
        })
        .collect()
}

/// The input with bytes changed.
fn changed(input: &[u8], changes: &[(usize, u8)]) -> Vec<u8> {
    let mut input = input.to_vec();
    for &(place, byte) in changes {
        input[place] = byte;
    }
    input
}

/// The small key's input cut at every place, the empty input and a system alone among them, and
/// with a byte after it.
fn every_length(scheme: Scheme) -> Vec<Vec<u8>> {
    let good = small(scheme, 0).input();
    let cut = (0..good.len()).map(|length| good[..length].to_vec());
    let longer = [0, 255].map(|byte| [&good[..], &[byte]].concat());
    cut.chain(longer).collect()
}

/// Around 65,536 bytes: well-formed ones whose rounds are all rejected, and bytes that are neither
/// system nor record.
fn largest(scheme: Scheme) -> Vec<Piece> {
    let mut random = Generator::from_seed(94);
    let mut inputs = Vec::new();
    for total in [MOST_OF_INPUT - 1, MOST_OF_INPUT, MOST_OF_INPUT + 1] {
        let (shape, rounds) = shape_of_total(scheme, total);
        inputs.push(patterned(&mut random, scheme, shape, rounds));
        inputs.push(Piece::repeated(&[0], total));
        let small = small(scheme, 0).input();
        inputs.push(Piece::repeated(&[1], total).overwritten(0, &small));
    }
    inputs
}

/// A well-formed input in short form, whose rounds are no card's.
fn patterned(random: &mut Generator, scheme: Scheme, shape: Shape, rounds: u8) -> Piece {
    let layout = layout(header(scheme, shape, rounds));
    let total = shape.length() + layout.length();
    let elements = Piece::repeated(&elements(random, layout), total);
    let with_head = elements.overwritten(0, &[shape.q, shape.n, shape.m]);
    laid(with_head, shape.length(), layout)
}

/// A shape and as many rounds as there can be, so that system and record have this length together.
fn shape_of_total(scheme: Scheme, total: usize) -> (Shape, u8) {
    for rounds in (1..=255).rev() {
        for n in 2..=96 {
            for m in 2..=96 {
                let shape = Shape::new(251, n, m);
                let record = layout(header(scheme, shape, rounds)).length();
                if shape.length() + record == total {
                    return (shape, rounds);
                }
            }
        }
    }
    panic!("no input of this length")
}

// Refusals.

/// Faults of the system, alone, in pairs and beside faults of the record.
fn refused_systems(scheme: Scheme) -> Vec<Vec<u8>> {
    let good = small(scheme, 1).input();
    let record = Shape::new(7, 2, 2).length();
    let faults = [
        (0, 4),
        (1, 0),
        (1, 97),
        (2, 0),
        (2, 97),
        (2, 96),
        (HEAD, 7),
        (record - 1, 255),
    ];
    let of_record = [
        (record, 2),
        (record + 1, 4),
        (record + HEADER, 31),
        (record + BODIES, 7),
    ];
    let mut inputs = Vec::new();
    for (i, &fault) in faults.iter().enumerate() {
        for &other in faults[i..].iter().chain(&of_record) {
            inputs.push(changed(&good, &[other, fault]));
        }
    }
    inputs
}

/// Faults of the record, alone and in pairs, and with a byte after it.
fn refused_records(scheme: Scheme) -> Vec<Vec<u8>> {
    let session = small(scheme, 1);
    let good = session.input();
    let record = session.system.length();
    let layout = layout(session.header());
    let elements = places(layout, Holds::Elements);
    let places = [
        elements[0],
        elements[1],
        places(layout, Holds::Challenge)[0],
    ];
    let [key, element, challenge] = places.map(|place| record + place);
    let faults = [
        (record, 0),
        (record + 1, 13),
        (record + 2, 16),
        (record + 5, 0),
        (record + HEADER, 29),
        (record + BODIES - 1, 255),
        (key, 7),
        (element, 7),
        (challenge, 3),
    ];
    let mut inputs = Vec::new();
    for (i, &fault) in faults.iter().enumerate() {
        for &other in &faults[i..] {
            let faulty = changed(&good, &[other, fault]);
            inputs.push([&faulty[..], &[1]].concat());
            inputs.push(faulty);
        }
    }
    inputs
}

/// Records with the system of another q, n or m, good ones and ones with a fault of their own; and
/// with the same numbers but other coefficients.
fn other_systems(scheme: Scheme) -> Vec<Vec<u8>> {
    let mut random = Generator::from_seed(95);
    let shapes = [
        (7, 3, 2),
        (31, 3, 2),
        (7, 2, 2),
        (7, 3, 3),
        (7, 2, 3),
        (251, 96, 1),
        (7, 3, 2),
    ];
    let session = Session::honest(&mut random, scheme, Shape::new(7, 3, 2), 2);
    let record = session.record();
    let last_element = places(layout(session.header()), Holds::Elements).pop();
    let faults = [
        (0, 2),
        (1, 0),
        (HEADER, 0),
        (last_element.expect("vectors"), 255),
    ];
    let mut inputs = Vec::new();
    for (q, n, m) in shapes {
        let system = Shape::new(q, n, m).random_system(&mut random).expanded();
        inputs.push([&system[..], &record].concat());
        let faulty = faults.map(|fault| changed(&record, &[fault]));
        inputs.extend(faulty.map(|record| [&system[..], &record].concat()));
    }
    inputs
}
