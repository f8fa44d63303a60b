//! The table of stack use.

use crate::engine::{self, Round};
use crate::inputs::{book, challenges_in_turn, elements, Card, Question, Session, LARGEST};
use crate::stack::most;
use crate::table::Table;
use canvasfox::FINDING;
use reference::random::Generator;
use reference::scheme::Scheme;

pub const MEASURED: &str = "\
The lowest byte of a painted stack that a call changes, at n = m = 96 and q = 251 (the report: q = 31, n = m = 48, which its
65,536 bytes hold; a key book: 2,000 cards), over every challenge; the harness's own call is counted too, some 20 to 140 bytes.
A session's calls take and return the session by value and are measured together, as one round in one function, whose own copies
of the session count. The engine takes no memory from the heap and calls nothing recursively, so these do not grow with the input.

";

/// Calls that are measured together.
type Calls<'a> = Vec<Box<dyn FnMut() + Send + 'a>>;

pub fn measured() -> String {
    let mut rows = entries();
    for scheme in [Scheme::ThreePass, Scheme::FivePass] {
        rows.extend(sessions(scheme));
    }
    rows.sort_by_key(|(_, used)| std::cmp::Reverse(*used));
    let mut table = Table::new(&["entry", "stack, bytes"]);
    for (entry, used) in &rows {
        table.row(vec![entry.clone(), used.to_string()]);
    }
    let (largest, used) = &rows[0];
    format!("{}\nThe largest: {largest}, {used} bytes.\n", table.text())
}

fn entries() -> Vec<(String, usize)> {
    let mut random = Generator::from_seed(3);
    let (q, n, m) = LARGEST;
    let (long, tall) = (usize::from(n), usize::from(m));
    let card = Card::random(&mut random, Scheme::ThreePass, q, n, m, 3);
    let five = Card::random(&mut random, Scheme::FivePass, q, n, m, 3);
    let small = Card::random(&mut random, Scheme::ThreePass, 31, 48, 48, 6);
    let session = card.session(&challenges_in_turn(3));
    let reported = [
        small.system.clone(),
        small.session(&challenges_in_turn(6)).record,
    ]
    .concat();
    let three = card.three_records(&mut random);
    let four = five.four_records(q);
    let x = elements(&mut random, q, long);
    let y = elements(&mut random, q, long);
    let message = random.bytes_below(256, 65_535);
    let system = &card.system[..];
    let (card, session, five) = (&card, &session, &five);
    let (x, y, message, reported) = (&x, &y, &message, &reported);
    let (three, four) = (&three, &four);
    let (book, label) = book(&mut random);
    let (book, label) = (&book, &label);
    let mut lent = elements(&mut random, q, 3 * long + tall);
    lent.extend(random.bytes_below(256, 96));
    let lent = &lent;
    let simulated = |unanswered: u8, challenge: u8| -> Box<dyn FnMut() + Send + '_> {
        let mut commitments = vec![0; 96];
        let mut reply = vec![0; 2 * long + tall + 64];
        Box::new(move || {
            let v = &card.v;
            let (sent, replied) = (&mut commitments, &mut reply);
            let answer = engine::simulate(system, v, unanswered, challenge, lent, sent, replied);
            assert_eq!(answer, 0);
        })
    };
    let mut out = vec![0; tall];
    let mut other = vec![0; tall];
    let mut written = vec![0; session.record.len()];
    let mut text = vec![0; 8192];
    let [mut finding, mut finding_of_five] = [[0; FINDING]; 2];
    let rows: Vec<(&str, Calls)> = vec![
        (
            "check of a system",
            vec![Box::new(|| assert_eq!(engine::system_check(system), 0))],
        ),
        (
            "evaluate (F)",
            vec![Box::new(|| {
                assert_eq!(engine::evaluate(system, x, &mut out), 0)
            })],
        ),
        (
            "polar (G)",
            vec![Box::new(|| {
                assert_eq!(engine::polar(system, x, y, &mut other), 0)
            })],
        ),
        (
            "digest (SHA-256)",
            vec![Box::new(|| {
                assert_eq!(engine::sha256(message, &mut [0; 32]), 0)
            })],
        ),
        (
            "simulate",
            vec![simulated(0, 1), simulated(1, 2), simulated(2, 0)],
        ),
        (
            "read",
            vec![Box::new(|| {
                assert_eq!(engine::record_read(&session.record, &mut [0; 30]), 0)
            })],
        ),
        (
            "write",
            vec![Box::new(|| {
                let Session {
                    header,
                    commitments,
                    exchanges,
                    ..
                } = session;
                let out = &mut written[..];
                let answer = engine::write(*header, &card.v, commitments, exchanges, out);
                assert_eq!(answer, 0)
            })],
        ),
        (
            "report",
            vec![Box::new(|| {
                assert!(engine::report(reported, &mut text[..]) > 0)
            })],
        ),
        (
            "audit_three",
            vec![Box::new(|| {
                assert!(engine::audit_three(system, three, &mut finding).is_ok())
            })],
        ),
        (
            "audit_five",
            vec![Box::new(|| {
                assert!(engine::audit_five(&five.system, four, &mut finding_of_five).is_ok())
            })],
        ),
        (
            "reading a book",
            vec![Box::new(|| {
                assert_eq!(engine::book_read(book, &mut [0; 7]), 0)
            })],
        ),
        (
            "lookup in a book",
            vec![Box::new(|| {
                assert_eq!(engine::book_lookup(book, label, &mut [0; 96]), 0)
            })],
        ),
    ];
    let measured = rows
        .into_iter()
        .map(|(entry, calls)| (entry.to_string(), most(calls)));
    measured.collect()
}

/// One honest round on the card's side and on the carrier's.
fn sessions(scheme: Scheme) -> Vec<(String, usize)> {
    let mut random = Generator::from_seed(4);
    let (q, n, m) = LARGEST;
    let card = Card::random(&mut random, scheme, q, n, m, 1);
    let card = &card;
    let (passes, middle, reply) = match scheme {
        Scheme::ThreePass => ("scheme 3", 0, 2 * usize::from(n) + usize::from(m) + 64),
        Scheme::FivePass => (
            "scheme 5",
            usize::from(n) + usize::from(m),
            usize::from(n) + 32,
        ),
    };
    let questions = scheme.challenges().map(|challenge| Question {
        alpha: 250,
        challenge,
    });
    let (mut cards, mut carriers): (Calls, Calls) = (Vec::new(), Vec::new());
    for question in questions {
        let round = move || Round {
            system: &card.system,
            scheme: scheme.byte(),
            v: &card.v,
            alpha: question.alpha,
            challenge: question.challenge,
        };
        let mut sent = vec![0; scheme.commitments_length()];
        let mut told = vec![0; middle];
        let mut replied = vec![0; reply];
        let lent = &card.lent[0];
        let s = &card.s;
        assert_eq!(
            engine::card(&round(), s, lent, &mut sent, &mut told, &mut replied),
            0
        );
        let (commitments, middle, reply) = (sent.clone(), told.clone(), replied.clone());
        cards.push(Box::new(move || {
            let refusal = engine::card(&round(), s, lent, &mut sent, &mut told, &mut replied);
            assert_eq!(refusal, 0);
        }));
        carriers.push(Box::new(move || {
            assert!(engine::carrier(&round(), &commitments, &middle, &reply));
        }));
    }
    vec![
        (format!("card, a round of {passes}"), most(cards)),
        (format!("carrier, a round of {passes}"), most(carriers)),
    ]
}
