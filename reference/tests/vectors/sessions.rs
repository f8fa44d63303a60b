//! The sessions' calls, played once more from the file: each answers as its case says, and all
//! lines together are the text.

use crate::stored::{groups, made, Case};
use reference::session::card::{self, Card};
use reference::session::carrier::{self, Carrier};
use reference::session::Verdict;
use reference::sha256::sha256;
use reference::vectors::ProgramFile;

const PROGRAM: &str = "session_vectors";

/// Both sessions, and for each call its line.
struct Table {
    card: Card,
    carrier: Carrier,
    lines: Vec<String>,
}

impl Table {
    fn new() -> Table {
        Table {
            card: Card::open(&[], 0, 0, &[], &[]).0,
            carrier: Carrier::open(&[], 0, 0, &[]).0,
            lines: Vec::new(),
        }
    }

    /// Makes the call of a case, which answers as it says.
    fn play(&mut self, case: &Case) {
        let before = (self.card.clone(), self.carrier.clone());
        let mut out = vec![case.fill; case.expected.first().map_or(0, Vec::len)];
        let number = if case.kind < 16 {
            self.of_card(case, &mut out)
        } else {
            self.of_carrier(case, &mut out)
        };
        assert_eq!(number, case.number);
        assert_eq!(out, case.expected.concat());
        let opening = case.kind == 12 || case.kind == 16;
        let changed = (&before.0, &before.1) != (&self.card, &self.carrier);
        assert!(
            opening || changed == (number == 0),
            "a refusal alone changes nothing"
        );
        self.lines.push(self.line(case, &out));
    }

    fn of_card(&mut self, case: &Case, out: &mut [u8]) -> u8 {
        let inputs = &case.inputs;
        let card = self.card.clone();
        let (card, number) = match case.kind {
            12 => Card::open(
                &inputs[0],
                inputs[1][0],
                inputs[2][0],
                &inputs[3],
                &inputs[4],
            ),
            13 => card.commit(&inputs[0], &inputs[1], out),
            14 => card.answer(&inputs[0], inputs[1][0], out),
            _ => card.reply(inputs[0][0], out),
        };
        self.card = card;
        number
    }

    fn of_carrier(&mut self, case: &Case, out: &mut [u8]) -> u8 {
        let inputs = &case.inputs;
        let carrier = self.carrier.clone();
        let (carrier, number) = match case.kind {
            16 => Carrier::open(&inputs[0], inputs[1][0], inputs[2][0], &inputs[3]),
            17 => carrier.take_commitments(&inputs[0]),
            18 => carrier.set_alpha(inputs[0][0]),
            19 => carrier.take_middle(&inputs[0]),
            20 => carrier.set_challenge(inputs[0][0]),
            _ => {
                let (answer, accepted) = carrier.take_reply(&inputs[0], &inputs[1]);
                if answer.1 == 0 {
                    out[0] = accepted.into();
                }
                answer
            }
        };
        self.carrier = carrier;
        number
    }

    /// README.md's line.
    fn line(&self, case: &Case, out: &[u8]) -> String {
        let words = "card commit answer reply carrier take alpha middle ask judge";
        let words: Vec<&str> = words.split(' ').collect();
        let word = words[usize::from(case.kind) - 12];
        let put = match (case.kind, case.number) {
            (13..=15, _) => format!(" {}", digest_start(out)),
            (21, 0) => [" reject", " accept"][usize::from(out[0])].to_string(),
            _ => String::new(),
        };
        let [card, carrier] = [self.card_word(), self.carrier_word()];
        format!("{word} {}{put} {card} {carrier}\n", case.number)
    }

    fn card_word(&self) -> String {
        let Card { phase, round, .. } = self.card;
        let word = match phase {
            card::Phase::Commit => "commit",
            card::Phase::Answer => "answer",
            card::Phase::Reply => "reply",
            card::Phase::Closed(verdict) => verdict_word(verdict),
        };
        let lent = self.card.held.as_ref().map_or(&[][..], |held| &held.lent);
        let [s, r] = [letter("s", &self.card.s), letter("r", lent)];
        format!("{word}{round}{s}{r}")
    }

    fn carrier_word(&self) -> String {
        let Carrier {
            phase, accepted, ..
        } = self.carrier;
        let word = match phase {
            carrier::Phase::TakeCommitments => "take",
            carrier::Phase::SetAlpha => "alpha",
            carrier::Phase::TakeMiddle => "middle",
            carrier::Phase::SetChallenge => "ask",
            carrier::Phase::TakeReply => "judge",
            carrier::Phase::Closed(verdict) => verdict_word(verdict),
        };
        let round = &self.carrier.round;
        let messages = [&round.commitments[..], &round.middle, &[round.challenge]].concat();
        let [v, m] = [letter("v", &self.carrier.v), letter("m", &messages)];
        format!("{word}{accepted}{v}{m}")
    }
}

fn verdict_word(verdict: Verdict) -> &'static str {
    match verdict {
        Verdict::None => "none",
        Verdict::Accepted => "accepted",
        Verdict::Rejected => "rejected",
    }
}

/// The letter, unless all bytes are zero.
fn letter<'a>(letter: &'a str, bytes: &[u8]) -> &'a str {
    if bytes.iter().all(|&byte| byte == 0) {
        ""
    } else {
        letter
    }
}

fn digest_start(out: &[u8]) -> String {
    let start = &sha256(out)[..8];
    start.iter().map(|byte| format!("{byte:02x}")).collect()
}

fn file() -> &'static ProgramFile {
    let mut files = made().iter();
    files.find(|file| file.program == PROGRAM).expect("a file")
}

/// The text of the file's calls, group by group, and for all.
fn text() -> String {
    let mut table = Table::new();
    let mut total = 0;
    for (name, cases) in groups(file()) {
        cases.iter().for_each(|case| table.play(case));
        let count = cases.len();
        total += count;
        let line = format!("{name}: {count} cases, {count} agree\n");
        table.lines.push(line);
    }
    let last = format!("total: {total} cases, {total} agree\n");
    table.lines.concat() + &last
}

#[test]
fn calls_answer_as_they_say_and_print_the_text() {
    assert_eq!(text(), file().stdout);
}

#[test]
fn every_call_is_refused_with_each_of_its_numbers() {
    let numbers: [&[u8]; 10] = [
        &[0, 1, 2, 3, 5],
        &[0, 1, 2, 3, 7, 10, 11],
        &[0, 1, 2, 3, 7, 10, 11],
        &[0, 2, 4, 10, 11],
        &[0, 1, 2, 3],
        &[0, 2, 10, 11],
        &[0, 3, 10, 11],
        &[0, 2, 3, 10, 11],
        &[0, 4, 10, 11],
        &[0, 1, 2, 3, 7, 10, 11],
    ];
    for (kind, expected) in (12..).zip(numbers) {
        let cases = crate::stored::cases(kind);
        let mut seen: Vec<u8> = cases.iter().map(|case| case.number).collect();
        seen.sort_unstable();
        seen.dedup();
        assert_eq!(seen, expected, "kind {kind}");
    }
}

#[test]
fn sessions_of_255_rounds_are_accepted() {
    let text = &file().stdout;
    assert_eq!(
        text.matches("judge 0 accept none0 accepted255\n").count(),
        2
    );
    assert!(text.len() < 210_000);
}
