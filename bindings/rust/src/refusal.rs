//! The refusals by their numbers.

/// Why a call is refused.
#[derive(Clone, Copy, Debug, PartialEq, Eq)]
pub enum Refusal {
    /// 1: q, n, m, N or the scheme is outside its values.
    Value,
    /// 2: a slice's length is wrong.
    Length,
    /// 3: an element is not below q.
    Element,
    /// 4: a challenge is outside its values, or is Ch*, the one not answered.
    Challenge,
    /// 6: a record's or a book's size, edition, count, table or total length is wrong.
    Record,
    /// 7: the system's q, n, m are not the record's, or audited records differ.
    Mismatch,
    /// 8: a round of an audited record is rejected.
    Rejected,
    /// 9: no round has a full set of challenges.
    NoFullSet,
    /// 12: a label has a wrong half.
    Label,
    /// 13: a label of a book is not above the one before.
    NotAbove,
}

const NUMBERED: [(u8, Refusal); 10] = [
    (1, Refusal::Value),
    (2, Refusal::Length),
    (3, Refusal::Element),
    (4, Refusal::Challenge),
    (6, Refusal::Record),
    (7, Refusal::Mismatch),
    (8, Refusal::Rejected),
    (9, Refusal::NoFullSet),
    (12, Refusal::Label),
    (13, Refusal::NotAbove),
];

impl Refusal {
    /// The refusal's number.
    pub fn number(self) -> u8 {
        let mut numbered = NUMBERED.into_iter();
        let found = numbered.find(|&(_, refusal)| refusal == self);
        found.expect("every refusal has a number").0
    }

    /// The value where the number is 0, else the refusal of that number.
    pub(crate) fn or<T>(number: u8, value: T) -> Result<T, Refusal> {
        if number == 0 {
            return Ok(value);
        }
        let mut numbered = NUMBERED.into_iter();
        let found = numbered.find(|&(of, _)| of == number);
        Err(found.expect("a number that these calls answer").1)
    }
}
