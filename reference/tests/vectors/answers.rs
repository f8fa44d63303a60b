//! Every case run: it answers as it says.

use crate::audits;
use crate::stored::{groups, made, Case};
use reference::audit::{audit_five, audit_three};
use reference::entries::{self, Simulate, Write, WriteBook};
use reference::rounds::{self, Transcript};
use reference::scheme::Scheme;
use reference::system::System;
use reference::vectors::ProgramFile;
use std::collections::BTreeSet;

impl Case {
    /// Runs the case: does it answer as it says?
    fn agrees(&self) -> bool {
        let lengths = self.expected.iter().map(Vec::len);
        let mut outs: Vec<Vec<u8>> = lengths.map(|length| vec![self.fill; length]).collect();
        self.call(&mut outs) == self.number && outs == self.expected
    }

    fn call(&self, outs: &mut [Vec<u8>]) -> u8 {
        let inputs = &self.inputs;
        match self.kind {
            0 => entries::check(&inputs[0]),
            1 => entries::evaluate(&inputs[0], &inputs[1], &mut outs[0]),
            2 => entries::polar(&inputs[0], &inputs[1], &inputs[2], &mut outs[0]),
            3 => entries::digest(&inputs[0], &mut outs[0]),
            4..=6 => {
                outs[0].copy_from_slice(&self.of_card());
                0
            }
            7 => {
                let (v, round) = self.judged();
                rounds::accepts(&self.system(), self.scheme(), v, &round).into()
            }
            8 => self.simulate(outs),
            9 => {
                let out = outs[0].as_mut_slice();
                entries::read(&inputs[0], out.try_into().expect("30 bytes"))
            }
            10 => self.write(&mut outs[0]),
            11 => {
                outs[0].copy_from_slice(entries::report(&inputs[0]).as_bytes());
                0
            }
            24 => {
                let out = outs[0].as_mut_slice();
                entries::read_book(&inputs[0], out.try_into().expect("7 bytes"))
            }
            25 => self.write_book(&mut outs[0]),
            26 => {
                let out = outs[0].as_mut_slice();
                entries::look_up(&inputs[0], &inputs[1], out.try_into().expect("96 bytes"))
            }
            _ => self.audit(&mut outs[0]),
        }
    }

    /// What the card's call gives.
    fn of_card(&self) -> Vec<u8> {
        let inputs = &self.inputs;
        let system = self.system();
        match self.kind {
            4 => rounds::commit(&system, self.scheme(), &inputs[2], &inputs[3]),
            5 => rounds::answer(&system, inputs[1][0], &inputs[2]),
            _ => {
                let [s, lent, challenge] = [2, 3, 4].map(|i| &inputs[i]);
                rounds::reply(&system, self.scheme(), s, lent, challenge[0])
            }
        }
    }

    fn simulate(&self, outs: &mut [Vec<u8>]) -> u8 {
        let inputs = &self.inputs;
        let [commitments, reply] = outs else {
            panic!("two outputs");
        };
        entries::simulate(Simulate {
            system: &inputs[0],
            v: &inputs[1],
            unanswered: inputs[2][0],
            challenge: inputs[3][0],
            lent: &inputs[4],
            commitments,
            reply,
        })
    }

    fn write(&self, out: &mut [u8]) -> u8 {
        let [header, key, commitments, exchanges] = [0, 1, 2, 3].map(|i| &self.inputs[i]);
        entries::write(Write {
            header: header[..].try_into().expect("five numbers"),
            key,
            commitments,
            exchanges,
            out,
        })
    }

    fn write_book(&self, out: &mut [u8]) -> u8 {
        let [count, numbers, labels, keys] = [0, 1, 2, 3].map(|i| &self.inputs[i]);
        entries::write_book(WriteBook {
            count: u32::from_le_bytes(count[..].try_into().expect("four bytes")),
            numbers: numbers[..].try_into().expect("three numbers"),
            labels,
            keys,
            out,
        })
    }

    fn audit(&self, out: &mut [u8]) -> u8 {
        let finding = match &self.inputs[..] {
            [system, a, b, c] => audit_three(system, a, b, c),
            [system, a, b, c, d] => audit_five(system, a, b, c, d),
            _ => panic!("three records or four"),
        };
        let (number, bytes) = audits::laid_out(&finding);
        out.copy_from_slice(&bytes);
        number
    }

    pub fn system(&self) -> System {
        System::read(&self.inputs[0]).expect("a well-formed system")
    }

    pub fn scheme(&self) -> Scheme {
        Scheme::of_byte(self.inputs[1][0]).expect("a scheme")
    }

    /// v and the round of a judgement.
    pub fn judged(&self) -> (&[u8], Transcript) {
        let [v, commitments, middle, challenge, reply] = [2, 3, 4, 5, 6].map(|i| &self.inputs[i]);
        let round = Transcript {
            commitments: commitments.clone(),
            middle: middle.clone(),
            challenge: challenge[0],
            reply: reply.clone(),
        };
        (v, round)
    }
}

/// The files of single calls, and the kinds of each.
const FILES: [(&str, &[u8]); 2] = [
    ("vectors", &[0, 1, 2, 3, 4, 5, 6, 7, 8, 9, 10, 11, 22, 23]),
    ("book_vectors", &[24, 25, 26]),
];

/// The file of a program.
fn file(program: &str) -> &'static ProgramFile {
    let file = made().iter().find(|file| file.program == program);
    file.expect("a file")
}

/// The numbers that the cases of a kind answer. The calls of a round, kinds 4 to 7, are never
/// refused; 1 is a judgement's accept. A report's text says its refusal. 255 is a lookup's absent.
fn numbers_of(kind: u8) -> &'static [u8] {
    match kind {
        0..=2 => &[0, 1, 2, 3],
        3 => &[0, 2],
        4..=6 | 11 => &[0],
        7 => &[0, 1],
        8 => &[0, 1, 2, 3, 4],
        9 => &[0, 1, 3, 4, 6],
        10 => &[0, 1, 2, 3, 4],
        24 => &[0, 1, 3, 6, 12, 13],
        25 => &[0, 1, 2, 3, 6, 12, 13],
        26 => &[0, 1, 2, 3, 6, 12, 13, 255],
        _ => &[0, 1, 2, 3, 4, 6, 7, 8, 9],
    }
}

/// Runs the cases of a file: what its program prints, and the kinds and numbers that there are.
fn run(file: &ProgramFile) -> (String, BTreeSet<(u8, u8)>) {
    let mut report = String::new();
    let mut total = 0;
    let mut seen = BTreeSet::new();
    let mut names = BTreeSet::new();
    for (name, cases) in groups(file) {
        for case in &cases {
            assert!(case.agrees(), "a case of {name}");
            seen.insert((case.kind, case.number));
        }
        let count = cases.len();
        total += count;
        report += &format!("{name}: {count} cases, {count} agree\n");
        assert!(names.insert(name), "two groups of one name");
    }
    report += &format!("total: {total} cases, {total} agree\n");
    (report, seen)
}

#[test]
fn every_case_answers_as_it_says() {
    for (program, kinds) in FILES {
        let (report, seen) = run(file(program));
        assert_eq!(report, file(program).stdout);
        let kinds = kinds.iter();
        let expected =
            kinds.flat_map(|&kind| numbers_of(kind).iter().map(move |&number| (kind, number)));
        assert_eq!(seen, expected.collect());
    }
}

#[test]
fn files_are_small() {
    assert!(made().iter().all(|file| file.stdin.len() < 1 << 22));
}
