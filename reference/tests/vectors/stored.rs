//! The stored cases, by the format in README.md.

use reference::vectors::{files, ProgramFile};
use std::sync::OnceLock;

/// The vector files, made once for all tests.
pub fn made() -> &'static [ProgramFile] {
    static MADE: OnceLock<Vec<ProgramFile>> = OnceLock::new();
    MADE.get_or_init(files)
}

struct Reader<'a> {
    left: &'a [u8],
}

/// The groups of a file in order, read one at a time: their names and cases.
pub fn groups(file: &ProgramFile) -> impl Iterator<Item = (String, Vec<Case>)> + '_ {
    let mut reader = Reader { left: &file.stdin };
    std::iter::from_fn(move || (!reader.left.is_empty()).then(|| reader.group()))
}

/// The stored cases of a kind.
pub fn cases(kind: u8) -> Vec<Case> {
    let groups = made().iter().flat_map(groups);
    let cases = groups.flat_map(|(_, cases)| cases);
    cases.filter(|case| case.kind == kind).collect()
}

impl Reader<'_> {
    fn bytes(&mut self, count: usize) -> Vec<u8> {
        let (taken, left) = self.left.split_at(count);
        self.left = left;
        taken.to_vec()
    }

    fn byte(&mut self) -> u8 {
        self.bytes(1)[0]
    }

    fn number(&mut self) -> usize {
        let bytes = self.bytes(4);
        bytes
            .iter()
            .rev()
            .fold(0, |high, &byte| 256 * high + usize::from(byte))
    }

    fn piece(&mut self) -> Vec<u8> {
        let [length, period, patches] = [self.number(), self.number(), self.number()];
        let pattern = self.bytes(period);
        let mut bytes = pattern.repeat(length.div_ceil(period.max(1)));
        bytes.truncate(length);
        assert_eq!(bytes.len(), length, "no pattern");
        for _ in 0..patches {
            let offset = self.number();
            bytes[offset] = self.byte();
        }
        bytes
    }

    fn pieces(&mut self, count: usize) -> Vec<Vec<u8>> {
        (0..count).map(|_| self.piece()).collect()
    }

    fn case(&mut self) -> Case {
        let [kind, number, fill] = [self.byte(), self.byte(), self.byte()];
        let (inputs, outputs) = counts(kind);
        Case {
            kind,
            number,
            fill,
            inputs: self.pieces(inputs),
            expected: self.pieces(outputs),
        }
    }

    /// The next group's name and cases.
    fn group(&mut self) -> (String, Vec<Case>) {
        let length = usize::from(self.byte());
        let name = String::from_utf8(self.bytes(length)).expect("a name in ASCII");
        assert!(name.is_ascii());
        let cases = self.number();
        (name, (0..cases).map(|_| self.case()).collect())
    }
}

/// A case as it stands in a file.
pub struct Case {
    pub kind: u8,
    pub number: u8,
    pub fill: u8,
    pub inputs: Vec<Vec<u8>>,
    pub expected: Vec<Vec<u8>>,
}

/// How many inputs and outputs a kind has.
fn counts(kind: u8) -> (usize, usize) {
    const INPUTS: [usize; 27] = [
        1, 2, 3, 1, 4, 3, 5, 7, 5, 1, 4, 1, 5, 2, 2, 1, 4, 1, 1, 1, 1, 2, 4, 5, 1, 4, 2,
    ];
    const OUTPUTS: [usize; 27] = [
        0, 1, 1, 1, 1, 1, 1, 0, 2, 1, 1, 1, 0, 1, 1, 1, 0, 0, 0, 0, 0, 1, 1, 1, 1, 1, 1,
    ];
    let kind = usize::from(kind);
    (INPUTS[kind], OUTPUTS[kind])
}
