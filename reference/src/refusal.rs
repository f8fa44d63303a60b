//! Document 01, "Refused because of the input" and "of the state", and document 02, "Paper 2": the
//! refusals by their numbers.

/// Why a call is refused.
#[derive(Clone, Copy, Debug, PartialEq, Eq)]
pub enum Refusal {
    /// 1: q, n, m, N or the scheme is outside its values.
    Value,
    /// 2: a slice's length is wrong.
    Length,
    /// 3: an element is not below q.
    Element,
    /// 4: a challenge is outside its values.
    Challenge,
    /// 5: F(s) is not v.
    Key,
    /// 6: a record's size, edition, table or length is wrong, or a book's size, count, table or
    /// length.
    Record,
    /// 7: q, n or m of the system differ from the session's or the record's, or audited records
    /// differ from each other.
    Mismatch,
    /// 8: a round of an audited record is rejected.
    Rejected,
    /// 9: no round has a full set.
    NoFullSet,
    /// 10: the call is not the one due.
    NotDue,
    /// 11: the session is closed.
    Closed,
    /// 12: a label has a wrong half.
    Half,
    /// 13: a label is not above the one before.
    Order,
}

impl Refusal {
    pub fn number(self) -> u8 {
        match self {
            Refusal::Value => 1,
            Refusal::Length => 2,
            Refusal::Element => 3,
            Refusal::Challenge => 4,
            Refusal::Key => 5,
            Refusal::Record => 6,
            Refusal::Mismatch => 7,
            Refusal::Rejected => 8,
            Refusal::NoFullSet => 9,
            Refusal::NotDue => 10,
            Refusal::Closed => 11,
            Refusal::Half => 12,
            Refusal::Order => 13,
        }
    }
}

/// The number that an entry answers: 0 if it is not refused.
pub fn number(result: Result<(), Refusal>) -> u8 {
    result.map_or_else(Refusal::number, |()| 0)
}

/// `refusal`, unless the condition holds.
pub fn unless(condition: bool, refusal: Refusal) -> Result<(), Refusal> {
    if condition {
        Ok(())
    } else {
        Err(refusal)
    }
}
