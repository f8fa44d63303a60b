//! Reports checked by the formulas of document 01 and of document 02's paper 1, rounds cut out anew.

use crate::records::{lengths, refusal};
use crate::stored::{cases, made, Case};
use reference::entries::check;
use reference::rounds::{accepts, Transcript};
use reference::scheme::Scheme;
use reference::system::System;
use reference::vectors::printed_case;

/// How long the system at the start is by its own numbers.
fn system_length(input: &[u8]) -> usize {
    let [n, m] = [1, 2].map(|place| usize::from(input[place]));
    3 + m * (n * (n + 1) / 2 + n)
}

/// The refusal of an input, 0 if there is none.
fn input_refusal(input: &[u8]) -> u8 {
    if input.len() > 65_536 || input.len() < 3 {
        return 2;
    }
    let length = system_length(input);
    let system = &input[..length.min(input.len())];
    let numbers = [check(system), refusal(&input[system.len()..])];
    match numbers {
        [0, 0] if input[..3] == input[length + 2..length + 5] => 0,
        [0, 0] => 7,
        [0, number] | [number, _] => number,
    }
}

/// The rounds of a record, with the scheme that judges them and v.
pub fn session(record: &[u8]) -> (Scheme, &[u8], Vec<Transcript>) {
    let header = [1, 2, 3, 4, 5].map(|place| usize::from(record[place]));
    let [scheme, _, n, m, rounds] = header;
    let [key, commitments, exchanges] = lengths(header);
    let (v, rest) = record[30..].split_at(key);
    let (digests, replies) = rest.split_at(commitments);
    let middle = if scheme == 3 { 0 } else { 1 + n + m };
    let transcripts = (0..rounds).map(|round| {
        let exchange = &replies[round * exchanges / rounds..][..exchanges / rounds];
        Transcript {
            commitments: digests[round * commitments / rounds..][..commitments / rounds].to_vec(),
            middle: exchange[..middle].to_vec(),
            challenge: exchange[middle],
            reply: exchange[middle + 1..].to_vec(),
        }
    });
    let scheme = Scheme::of_byte(record[1]).expect("a scheme");
    (scheme, v, transcripts.collect())
}

fn word(accepted: bool) -> &'static str {
    if accepted {
        "accept"
    } else {
        "reject"
    }
}

/// How many round lines of a text say accept, and how many reject.
fn totals(text: &str) -> [usize; 2] {
    [" accept", " reject"].map(|end| {
        let rounds = text.lines().filter(|line| line.starts_with("round "));
        rounds.filter(|line| line.ends_with(end)).count()
    })
}

/// The text of an input that is not refused.
fn text(input: &[u8]) -> String {
    let (system, record) = input.split_at(system_length(input));
    let system = System::read(system).expect("a well-formed system");
    let (scheme, v, rounds) = session(record);
    let mut text = String::new();
    let mut accepted = 0;
    for (number, round) in (1..).zip(&rounds) {
        let good = accepts(&system, scheme, v, round);
        accepted += usize::from(good);
        let (challenge, word) = (round.challenge, word(good));
        text += &format!("round {number} challenge {challenge} {word}\n");
    }
    let rounds = rounds.len();
    let verdict = word(accepted == rounds);
    text += &format!("verdict {verdict} {accepted} of {rounds}\n");
    let [accepted, rejected] = totals(&text);
    text + &format!("rounds {accepted} accepted {rejected} rejected\n")
}

/// A case's expected text.
fn expected(case: &Case) -> String {
    String::from_utf8(case.expected[0].clone()).expect("ASCII")
}

#[test]
fn reports() {
    for case in cases(11) {
        let input = &case.inputs[0];
        let text = match input_refusal(input) {
            0 => text(input),
            number => format!("refused {number}\n"),
        };
        assert_eq!(expected(&case), text);
    }
}

/// Every text that is no refusal has a line for each of the N rounds, the verdict and the totals,
/// whose sum is N; and it fits the programs' buffers.
#[test]
fn ends() {
    let mut cases = cases(11);
    cases.retain(|case| !case.expected[0].starts_with(b"refused"));
    assert!(!cases.is_empty());
    for case in cases {
        let input = &case.inputs[0];
        let rounds = usize::from(input[system_length(input) + 5]);
        let text = expected(&case);
        let [accepted, rejected] = totals(&text);
        assert_eq!(accepted + rejected, rounds);
        let verdict = word(rejected == 0);
        let end = format!(
            "\nverdict {verdict} {accepted} of {rounds}\n\
             rounds {accepted} accepted {rejected} rejected\n"
        );
        assert!(text.ends_with(&end), "{end}");
        assert_eq!(text.lines().count(), rounds + 2);
        assert!(text.len() <= 8_192);
    }
}

/// Verdicts of every sort: all rounds accepted, none, one, all but one, and in between; totals of
/// one, two and three digits, each with each.
const ENDS: [&str; 19] = [
    "verdict accept 1 of 1\nrounds 1 accepted 0 rejected\n",
    "verdict accept 100 of 100\nrounds 100 accepted 0 rejected\n",
    "verdict accept 255 of 255\nrounds 255 accepted 0 rejected\n",
    "verdict reject 0 of 1\nrounds 0 accepted 1 rejected\n",
    "verdict reject 0 of 5\nrounds 0 accepted 5 rejected\n",
    "verdict reject 4 of 5\nrounds 4 accepted 1 rejected\n",
    "verdict reject 9 of 10\nrounds 9 accepted 1 rejected\n",
    "verdict reject 99 of 100\nrounds 99 accepted 1 rejected\n",
    "verdict reject 1 of 10\nrounds 1 accepted 9 rejected\n",
    "verdict reject 0 of 10\nrounds 0 accepted 10 rejected\n",
    "verdict reject 10 of 11\nrounds 10 accepted 1 rejected\n",
    "verdict reject 10 of 20\nrounds 10 accepted 10 rejected\n",
    "verdict reject 1 of 100\nrounds 1 accepted 99 rejected\n",
    "verdict reject 100 of 110\nrounds 100 accepted 10 rejected\n",
    "verdict reject 10 of 110\nrounds 10 accepted 100 rejected\n",
    "verdict reject 100 of 255\nrounds 100 accepted 155 rejected\n",
    "verdict reject 1 of 255\nrounds 1 accepted 254 rejected\n",
    "verdict reject 254 of 255\nrounds 254 accepted 1 rejected\n",
    "verdict reject 0 of 255\nrounds 0 accepted 255 rejected\n",
];

/// Every refusal is stored, and every sort of end.
#[test]
fn every_sort_of_text() {
    let texts: Vec<String> = cases(11).iter().map(expected).collect();
    for end in ENDS {
        assert!(texts.iter().any(|text| text.ends_with(end)), "{end}");
    }
    for number in [1, 2, 3, 4, 6, 7] {
        assert!(texts.contains(&format!("refused {number}\n")));
    }
}

/// Of both schemes, inputs of 65,535 and 65,536 bytes are judged; one of 65,537 is refused, though
/// it would not be but for its size.
#[test]
fn largest() {
    let longest = cases(11);
    let longest = longest.iter().filter(|case| case.inputs[0].len() >= 65_535);
    let mut judged = [0; 3];
    for case in longest {
        let input = &case.inputs[0];
        let is_refused = case.expected[0].starts_with(b"refused");
        let is_well_formed =
            [7, 251].contains(&input[0]) && refusal(&input[system_length(input)..]) == 0;
        assert_eq!(is_refused, input.len() == 65_537 || !is_well_formed);
        judged[input.len() - 65_535] += usize::from(is_well_formed);
    }
    assert_eq!(judged, [2; 3]);
}

/// The report program's own file is document 01's printed case, with paper 1's line.
#[test]
fn printed() {
    let file = printed_case();
    let lines = "round 1 challenge 2 accept\n\
                 verdict accept 1 of 1\n\
                 rounds 1 accepted 0 rejected\n";
    assert_eq!(file.stdout, lines);
    assert!(cases(11).iter().any(|case| case.inputs[0] == file.stdin));
    assert!(made().iter().all(|made| made.program != file.program));
}
