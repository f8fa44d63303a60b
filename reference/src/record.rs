//! Document 01, "Session record": the layout, what is written and what is read. Rounds are not
//! judged here, and `entries` has the writer's refusals.

use crate::layout::parts;
use crate::refusal::{unless, Refusal};
use crate::rounds::Transcript;
use crate::scheme::Scheme;
use crate::system::Dimensions;

/// The edition, byte 0.
pub const EDITION: u8 = 1;

/// The bytes before the table: edition, scheme, q, n, m, N.
pub const HEADER: usize = 6;

/// Where the bodies start: after the header and three entries of offset and length, 4 bytes each.
pub const BODIES: usize = HEADER + 3 * 8;

/// What the header says after the edition, each number among its values.
#[derive(Clone, Copy, Debug, PartialEq, Eq)]
pub struct Header {
    pub scheme: Scheme,
    pub size: Dimensions,
    /// N.
    pub rounds: u8,
}

/// A body's place in a record.
#[derive(Clone, Copy, Debug, PartialEq, Eq)]
pub struct Body {
    pub offset: usize,
    pub length: usize,
}

/// A header, and the bodies that follow from it.
#[derive(Clone, Copy, Debug, PartialEq, Eq)]
pub struct Layout {
    pub header: Header,
    pub key: Body,
    pub commitments: Body,
    pub exchanges: Body,
}

/// What a byte has to be.
#[derive(Clone, Copy)]
enum Kind {
    Element,
    Challenge,
    Any,
}

impl Header {
    /// From scheme, q, n, m, N; 1 if one is outside its values.
    pub fn of_bytes([scheme, q, n, m, rounds]: [u8; 5]) -> Result<Header, Refusal> {
        let scheme = Scheme::of_byte(scheme).ok_or(Refusal::Value)?;
        let size = Dimensions::of_bytes(q, n, m)?;
        unless(rounds > 0, Refusal::Value)?;
        Ok(Header {
            scheme,
            size,
            rounds,
        })
    }

    /// All bytes before the table.
    fn bytes(self) -> Vec<u8> {
        let Header {
            scheme,
            size,
            rounds,
        } = self;
        let [n, m] = [size.n, size.m].map(|count| u8::try_from(count).expect("at most 96"));
        vec![EDITION, scheme.byte(), size.field.order(), n, m, rounds]
    }

    /// The lengths of an exchange's parts: α, t1, e1, of which three passes have none; the
    /// challenge; the reply.
    fn exchange_parts(self) -> [usize; 3] {
        let Header { scheme, size, .. } = self;
        [scheme.middle_length(size), 1, scheme.reply_length(size)]
    }

    /// What each byte of an exchange has to be.
    fn exchange_kinds(self) -> Vec<Kind> {
        let [middle, _, reply] = self.exchange_parts();
        let elements = self.scheme.reply_elements(self.size);
        [
            vec![Kind::Element; middle],
            vec![Kind::Challenge],
            vec![Kind::Element; elements],
            vec![Kind::Any; reply - elements],
        ]
        .concat()
    }

    /// The refusal of a byte that is not what it has to be.
    fn fault(self, kind: Kind, byte: u8) -> Option<Refusal> {
        let result = match kind {
            Kind::Element => unless(self.size.field.contains(byte), Refusal::Element),
            Kind::Challenge => unless(self.scheme.challenges().contains(&byte), Refusal::Challenge),
            Kind::Any => Ok(()),
        };
        result.err()
    }

    /// The refusals of all bad bytes of key and exchanges, in file order.
    pub fn faults(self, key: &[u8], exchanges: &[u8]) -> Vec<Refusal> {
        let of_key = key.iter().map(|&byte| (Kind::Element, byte));
        let kinds = self.exchange_kinds();
        let of_exchanges = kinds.into_iter().cycle().zip(exchanges.iter().copied());
        let bytes = of_key.chain(of_exchanges);
        bytes
            .filter_map(|(kind, byte)| self.fault(kind, byte))
            .collect()
    }
}

impl Body {
    pub fn end(self) -> usize {
        self.offset + self.length
    }

    /// The body's bytes in a record.
    pub fn of(self, record: &[u8]) -> &[u8] {
        &record[self.offset..self.end()]
    }

    /// The entry in the table.
    fn entry(self) -> Vec<u8> {
        let numbers = [self.offset, self.length];
        let numbers = numbers.map(|number| u32::try_from(number).expect("below 2^32"));
        numbers.map(u32::to_le_bytes).concat()
    }
}

impl Layout {
    /// The bodies in their order, without gaps.
    pub fn of(header: Header) -> Layout {
        let rounds = usize::from(header.rounds);
        let exchange: usize = header.exchange_parts().iter().sum();
        let lengths = [
            header.size.m,
            rounds * header.scheme.commitments_length(),
            rounds * exchange,
        ];
        let mut offset = BODIES;
        let [key, commitments, exchanges] = lengths.map(|length| {
            let body = Body { offset, length };
            offset = body.end();
            body
        });
        Layout {
            header,
            key,
            commitments,
            exchanges,
        }
    }

    /// The bytes of the whole record.
    pub fn length(self) -> usize {
        self.exchanges.end()
    }

    /// The table of contents.
    fn table(self) -> Vec<u8> {
        let bodies = [self.key, self.commitments, self.exchanges];
        bodies.map(Body::entry).concat()
    }

    /// All bytes before the bodies: the header and the table.
    pub fn front(self) -> Vec<u8> {
        [self.header.bytes(), self.table()].concat()
    }

    /// v and the rounds of a record that is laid out so.
    pub fn session(self, record: &[u8]) -> (Vec<u8>, Vec<Transcript>) {
        let header = self.header;
        let [commitments, exchanges] = [self.commitments, self.exchanges].map(|body| {
            let round = body.length / usize::from(header.rounds);
            body.of(record).chunks(round)
        });
        let rounds = commitments.zip(exchanges).map(|(commitments, exchange)| {
            let [middle, challenge, reply] = parts(exchange, header.exchange_parts());
            Transcript {
                commitments: commitments.to_vec(),
                middle,
                challenge: challenge[0],
                reply,
            }
        });
        (self.key.of(record).to_vec(), rounds.collect())
    }
}

/// The record of these bodies, which have their lengths.
pub fn write(layout: Layout, key: &[u8], commitments: &[u8], exchanges: &[u8]) -> Vec<u8> {
    [&layout.front(), key, commitments, exchanges].concat()
}

/// Where a record's bodies are. Refusals in order: 6 for the size or the edition, 1, 6 for the
/// table or the length, then 3 or 4 for the first bad byte.
pub fn read(record: &[u8]) -> Result<Layout, Refusal> {
    unless(record.len() >= BODIES, Refusal::Record)?;
    let [edition, numbers @ ..] = first(record);
    unless(edition == EDITION, Refusal::Record)?;
    let layout = Layout::of(Header::of_bytes(numbers)?);
    unless(record[HEADER..BODIES] == layout.table(), Refusal::Record)?;
    unless(record.len() == layout.length(), Refusal::Record)?;
    let (key, exchanges) = (layout.key.of(record), layout.exchanges.of(record));
    let faults = layout.header.faults(key, exchanges);
    faults.first().map_or(Ok(layout), |&fault| Err(fault))
}

/// The header's bytes.
fn first(record: &[u8]) -> [u8; HEADER] {
    record[..HEADER].try_into().expect("a whole header")
}
