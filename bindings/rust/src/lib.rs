//! The proved engine for Rust: safe functions over `include/canvasfox.h`, which says what each does and
//! refuses.
//!
//! The functions here take slices and return values. `slices` has the same with lent outputs, as C has
//! them.

mod refusal;
pub mod slices;

pub use refusal::Refusal;
use std::ops::Range;

/// The bytes of a digest.
pub const DIGEST: usize = 32;

/// The bytes of a round's three commitments.
pub const COMMITMENTS: usize = 96;

/// The bytes of a record's fields, as `slices::record_read` lays them out.
pub const FIELDS: usize = 30;

/// The bytes of a report's buffer.
pub const TEXT: usize = 8192;

/// The bytes of a finding, as `slices::audit_three` lays them out.
pub const FINDING: usize = 752;

/// The bytes of a label.
pub const LABEL: usize = 10;

/// The bytes of a key book's fields, as `slices::book_read` lays them out.
pub const BOOK_FIELDS: usize = 7;

/// The bytes of a key as `slices::book_lookup` writes it. In a book, and for `book_write`, a key has m.
pub const KEY: usize = 96;

/// The most cards of a key book.
pub const CARDS_MOST: u32 = 2000;

/// What `slices::book_lookup` answers where no card has the label.
pub const ABSENT: u8 = 255;

/// The SHA-256 digest of a message.
pub fn sha256(message: &[u8]) -> Result<[u8; DIGEST], Refusal> {
    let mut digest = [0; DIGEST];
    Refusal::or(slices::sha256(message, &mut digest), digest)
}

/// Whether a system is well-formed.
pub fn system_check(system: &[u8]) -> Result<(), Refusal> {
    Refusal::or(slices::system_check(system), ())
}

/// F(x).
pub fn evaluate(system: &[u8], x: &[u8]) -> Result<Vec<u8>, Refusal> {
    let mut out = vec![0; byte_of(system, 2)];
    Refusal::or(slices::evaluate(system, x, &mut out), out)
}

/// G(x, y).
pub fn polar(system: &[u8], x: &[u8], y: &[u8]) -> Result<Vec<u8>, Refusal> {
    let mut out = vec![0; byte_of(system, 2)];
    Refusal::or(slices::polar(system, x, y, &mut out), out)
}

/// A simulated three-pass round.
#[derive(Clone, Debug, PartialEq, Eq)]
pub struct Simulated {
    pub commitments: [u8; COMMITMENTS],
    pub reply: Vec<u8>,
}

/// A three-pass round without the secret: `unanswered` is Ch*, the challenge that is not answered, and
/// `challenge` the one replied to.
pub fn simulate(
    system: &[u8],
    v: &[u8],
    unanswered: u8,
    challenge: u8,
    lent: &[u8],
) -> Result<Simulated, Refusal> {
    let (n, m) = (byte_of(system, 1), byte_of(system, 2));
    let mut commitments = [0; COMMITMENTS];
    let mut reply = vec![0; 2 * n + m + 64];
    let number = slices::simulate(
        system,
        v,
        unanswered,
        challenge,
        lent,
        &mut commitments,
        &mut reply,
    );
    Refusal::or(number, Simulated { commitments, reply })
}

/// A record's header, and where its bodies stand.
#[derive(Clone, Debug, PartialEq, Eq)]
pub struct Fields {
    pub edition: u8,
    pub scheme: u8,
    pub q: u8,
    pub n: u8,
    pub m: u8,
    /// N.
    pub rounds: u8,
    pub key: Range<usize>,
    pub commitments: Range<usize>,
    pub exchanges: Range<usize>,
}

/// Reads a session record. No round is judged.
pub fn record_read(record: &[u8]) -> Result<Fields, Refusal> {
    let mut bytes = [0; FIELDS];
    let number = slices::record_read(record, &mut bytes);
    let [edition, scheme, q, n, m, rounds, ..] = bytes;
    let body = |at: usize| {
        let offset = number_at(&bytes, at);
        offset..offset + number_at(&bytes, at + 4)
    };
    let fields = Fields {
        edition,
        scheme,
        q,
        n,
        m,
        rounds,
        key: body(6),
        commitments: body(14),
        exchanges: body(22),
    };
    Refusal::or(number, fields)
}

/// The report on a system with a record behind it: a line for each round, the verdict, then
/// `rounds A accepted R rejected`; or the one line that says why the two are refused.
pub fn report(input: &[u8]) -> String {
    let mut text = vec![0; TEXT];
    let length = slices::report(input, &mut text);
    text.truncate(length);
    String::from_utf8(text).expect("a report is ASCII")
}

/// A key book's count, q, n and m.
#[derive(Clone, Copy, Debug, PartialEq, Eq)]
pub struct BookFields {
    pub count: u32,
    pub q: u8,
    pub n: u8,
    pub m: u8,
}

/// The key book of a delivery: the labels of all cards, one behind the other, 10 bytes a card, and
/// their keys in the same order, m bytes a card.
pub fn book_write(fields: BookFields, labels: &[u8], keys: &[u8]) -> Result<Vec<u8>, Refusal> {
    let BookFields { count, q, n, m } = fields;
    // A larger count is refused, whatever the length.
    let cards = count.min(CARDS_MOST) as usize;
    let mut book = vec![0; BOOK_FIELDS + cards * (LABEL + 4 + usize::from(m))];
    let number = slices::book_write(count, [q, n, m], labels, keys, &mut book);
    Refusal::or(number, book)
}

/// Reads a key book.
pub fn book_read(book: &[u8]) -> Result<BookFields, Refusal> {
    let mut bytes = [0; BOOK_FIELDS];
    let number = slices::book_read(book, &mut bytes);
    let [a, b, c, d, q, n, m] = bytes;
    let count = u32::from_le_bytes([a, b, c, d]);
    Refusal::or(number, BookFields { count, q, n, m })
}

/// The key of the card with this label, which has 10 bytes: the key, and zeros beyond m; nothing where
/// no card has it.
pub fn book_lookup(book: &[u8], label: &[u8]) -> Result<Option<[u8; KEY]>, Refusal> {
    let mut key = [0; KEY];
    match slices::book_lookup(book, label, &mut key) {
        ABSENT => Ok(None),
        number => Refusal::or(number, Some(key)),
    }
}

/// What an audit found.
#[derive(Clone, Debug, PartialEq, Eq)]
pub enum Finding {
    /// The card's secret, and zeros.
    Secret([u8; 96]),
    /// Two strings that hash to commitment k of the round used.
    Clash {
        k: u8,
        first: Vec<u8>,
        second: Vec<u8>,
    },
}

/// Why an audit found nothing. Record and round count from 1 where a round is rejected, and are 0 in
/// every other refusal.
#[derive(Clone, Copy, Debug, PartialEq, Eq)]
pub struct AuditRefusal {
    pub refusal: Refusal,
    pub record: u8,
    pub round: u8,
}

/// The audit of three records of scheme 3.
pub fn audit_three(system: &[u8], records: [&[u8]; 3]) -> Result<Finding, AuditRefusal> {
    let mut bytes = [0; FINDING];
    let [a, b, c] = records;
    audited(slices::audit_three(system, a, b, c, &mut bytes), &bytes)
}

/// The audit of four records of scheme 5.
pub fn audit_five(system: &[u8], records: [&[u8]; 4]) -> Result<Finding, AuditRefusal> {
    let mut bytes = [0; FINDING];
    let [a, b, c, d] = records;
    audited(slices::audit_five(system, a, b, c, d, &mut bytes), &bytes)
}

/// An audit's answer, taken apart.
fn audited(answer: u32, bytes: &[u8; FINDING]) -> Result<Finding, AuditRefusal> {
    let [number, record, round, _] = answer.to_le_bytes();
    Refusal::or(number, ()).map_err(|refusal| AuditRefusal {
        refusal,
        record,
        round,
    })?;
    let string = |at: usize| bytes[at + 4..at + 4 + number_at(bytes, at)].to_vec();
    Ok(match bytes[0] {
        1 => Finding::Secret(bytes[4..100].try_into().expect("96 bytes")),
        _ => Finding::Clash {
            k: bytes[1],
            first: string(100),
            second: string(426),
        },
    })
}

/// The byte at a place, 0 beyond the end. A system that is too short is refused whatever its outputs
/// are.
fn byte_of(bytes: &[u8], place: usize) -> usize {
    bytes.get(place).copied().unwrap_or(0).into()
}

/// Four bytes, the lowest first.
fn number_at(bytes: &[u8], at: usize) -> usize {
    let word = bytes[at..at + 4].try_into().expect("four bytes");
    usize::try_from(u32::from_le_bytes(word)).expect("a length")
}

/// A finding's bytes, laid out by hand as canvasfox.h has them: no audit can be made to find a clash,
/// since no two strings with one digest are known.
#[cfg(test)]
mod tests {
    use super::{audited, AuditRefusal, Finding, Refusal, FINDING};

    /// Zeros, but for these parts at their offsets.
    fn laid(parts: &[(usize, &[u8])]) -> [u8; FINDING] {
        let mut bytes = [0; FINDING];
        for (at, part) in parts {
            bytes[*at..at + part.len()].copy_from_slice(part);
        }
        bytes
    }

    /// So many bytes, none of them 0 and neighbours different.
    fn string(first: u8, length: u16) -> Vec<u8> {
        let ascending = (first..=255).chain(1..first).cycle();
        ascending.take(length.into()).collect()
    }

    #[test]
    fn secrets() {
        let secret = string(3, 96);
        let bytes = laid(&[(0, &[1]), (4, &secret)]);
        let secret = secret.try_into().expect("96 bytes");
        assert_eq!(audited(0, &bytes), Ok(Finding::Secret(secret)));
    }

    /// The longest strings, and shorter ones, whose lengths take one byte or two.
    #[test]
    fn clashes() {
        for (k, one, other) in [(0, 322, 322), (1, 36, 322), (2, 258, 255)] {
            let [first, second] = [string(7, one), string(200, other)];
            let bytes = laid(&[
                (0, &[2, k]),
                (100, &u32::from(one).to_le_bytes()),
                (104, &first),
                (426, &u32::from(other).to_le_bytes()),
                (430, &second),
            ]);
            let clash = Finding::Clash { k, first, second };
            assert_eq!(audited(0, &bytes), Ok(clash));
        }
    }

    /// A refusal is in the answer alone, whatever the bytes are.
    #[test]
    fn refusals() {
        let answer = 8 + 256 * 3 + 65_536 * 255;
        let refused = AuditRefusal {
            refusal: Refusal::Rejected,
            record: 3,
            round: 255,
        };
        for bytes in [[0; FINDING], [1; FINDING], [255; FINDING]] {
            assert_eq!(audited(answer, &bytes), Err(refused));
        }
    }
}
