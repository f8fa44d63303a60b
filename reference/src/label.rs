//! Document 02, "Paper 2": a card's label, the ICCID as stored on the card.

use crate::refusal::{unless, Refusal};

/// The bytes of a label.
pub const LABEL: usize = 10;

/// The halves of a label, two in a byte, the first in the low half.
pub const HALVES: usize = 2 * LABEL;

/// F, which only the twentieth half may be.
pub const FILLER: u8 = 15;

/// A half that no label has, for a character that is no digit.
const NO_DIGIT: u8 = 10;

/// A label by its halves, none of them wrong. Labels are ordered digit by digit, the first one
/// first; F comes after 9.
#[derive(Clone, Copy, Debug, PartialEq, Eq, PartialOrd, Ord)]
pub struct Label {
    halves: [u8; HALVES],
}

impl Label {
    /// 12 for a wrong half.
    pub fn of_halves(halves: [u8; HALVES]) -> Result<Label, Refusal> {
        let [digits @ .., last] = halves;
        let wrong = digits.iter().any(|&half| half > 9) || (last > 9 && last != FILLER);
        unless(!wrong, Refusal::Half)?;
        Ok(Label { halves })
    }

    /// 2 for the length, then 12 for a wrong half.
    pub fn of_bytes(bytes: &[u8]) -> Result<Label, Refusal> {
        let bytes = bytes.try_into().map_err(|_| Refusal::Length)?;
        Label::of_halves(unpacked(bytes))
    }

    /// From an ICCID of twenty characters, the last of which may be F, or of nineteen, which stand
    /// for the label with F at its end. 2 for the length, then 12 for a character that is no digit.
    pub fn of_iccid(iccid: &str) -> Result<Label, Refusal> {
        let mut halves: Vec<u8> = iccid.bytes().map(half).collect();
        if halves.len() == HALVES - 1 {
            halves.push(FILLER);
        }
        Label::of_halves(halves.try_into().map_err(|_| Refusal::Length)?)
    }

    /// As it stands in a book.
    pub fn bytes(self) -> [u8; LABEL] {
        packed(self.halves)
    }

    /// The ICCID: nineteen digits where the twentieth half is F, else twenty.
    pub fn iccid(self) -> String {
        let digits = self.halves.iter().filter(|&&half| half != FILLER);
        digits.map(u8::to_string).collect()
    }
}

/// The half that a character stands for.
fn half(character: u8) -> u8 {
    match character {
        b'0'..=b'9' => character - b'0',
        b'F' => FILLER,
        _ => NO_DIGIT,
    }
}

/// The halves of a label, whatever they are.
pub fn unpacked(bytes: [u8; LABEL]) -> [u8; HALVES] {
    let pairs = bytes.map(|byte| [byte % 16, byte / 16]);
    pairs.as_flattened().try_into().expect("two a byte")
}

/// The bytes of these halves, each below 16.
pub fn packed(halves: [u8; HALVES]) -> [u8; LABEL] {
    let pairs = halves.chunks(2).map(|pair| pair[0] + 16 * pair[1]);
    let bytes: Vec<u8> = pairs.collect();
    bytes.try_into().expect("a byte for two")
}
