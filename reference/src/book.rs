//! Document 02, "Paper 2": the key book of a delivery. Its layout, what is written, what is read,
//! and the lookup; `entries` has the refusals of writer and lookup.

use crate::label::{Label, LABEL};
use crate::refusal::{unless, Refusal};
use crate::system::Dimensions;
use crate::vector::all_elements;

/// The most cards of a book.
pub const MOST_CARDS: u32 = 2_000;

/// The bytes before the table: the count, 4 bytes, the lowest first; q, n, m.
pub const HEAD: usize = 7;

/// An entry of the table: a label, and the key's offset from byte 0, 4 bytes, the lowest first.
pub const ENTRY: usize = LABEL + 4;

/// What the head says, each number among its values.
#[derive(Clone, Copy, Debug, PartialEq, Eq)]
pub struct Head {
    pub count: usize,
    pub size: Dimensions,
}

/// A well-formed book, taken apart.
pub struct Book {
    pub head: Head,
    pub cards: Vec<Card>,
}

/// A card of a book, and its key v.
pub struct Card {
    pub label: Label,
    pub key: Vec<u8>,
}

impl Head {
    /// From the count and q, n, m. Refusals in order: 6 for the count, 1.
    pub fn of(count: u32, [q, n, m]: [u8; 3]) -> Result<Head, Refusal> {
        unless(count <= MOST_CARDS, Refusal::Record)?;
        let size = Dimensions::of_bytes(q, n, m)?;
        let count = usize::try_from(count).expect("a small count");
        Ok(Head { count, size })
    }

    /// From a book's first bytes.
    fn of_bytes([a, b, c, d, numbers @ ..]: [u8; HEAD]) -> Result<Head, Refusal> {
        Head::of(u32::from_le_bytes([a, b, c, d]), numbers)
    }

    /// The bytes of the whole book.
    pub fn length(self) -> usize {
        first_key(self.count) + self.count * self.size.m
    }
}

impl Book {
    /// Takes a book's bytes apart. Refusals in order: 6 for the size or the count, 1, 6 for the
    /// table or the length, 12 or 13 for the first entry at fault, 3 for a byte of a key.
    pub fn read(book: &[u8]) -> Result<Book, Refusal> {
        let bytes = book.first_chunk().ok_or(Refusal::Record)?;
        let head = Head::of_bytes(*bytes)?;
        unless(book.len() == head.length(), Refusal::Record)?;
        let (front, keys) = book.split_at(first_key(head.count));
        let entries = front[HEAD..]
            .chunks(ENTRY)
            .map(|entry| entry.split_at(LABEL));
        let (labels, offsets): (Vec<&[u8]>, Vec<&[u8]>) = entries.unzip();
        let right = (0..head.count).map(|card| offset(head.count, head.size.m, card));
        unless(right.eq(offsets), Refusal::Record)?;
        let labels = rising(labels)?;
        unless(all_elements(head.size.field, keys), Refusal::Element)?;
        let keys = keys.chunks(head.size.m).map(<[u8]>::to_vec);
        let cards = labels.into_iter().zip(keys);
        let cards = cards.map(|(label, key)| Card { label, key }).collect();
        Ok(Book { head, cards })
    }

    /// The key of the card with this label, or none if the book has no such card.
    pub fn key(&self, label: Label) -> Option<&[u8]> {
        let card = self.cards.iter().find(|card| card.label == label);
        card.map(|card| &card.key[..])
    }
}

/// The labels, each above the one before: 12 or 13 for the first at fault, 12 before 13.
pub fn rising<'a>(stored: impl IntoIterator<Item = &'a [u8]>) -> Result<Vec<Label>, Refusal> {
    let mut labels: Vec<Label> = Vec::new();
    for bytes in stored {
        let label = Label::of_bytes(bytes)?;
        let above = labels.last().is_none_or(|before| *before < label);
        unless(above, Refusal::Order)?;
        labels.push(label);
    }
    Ok(labels)
}

/// The book of q, n, m, these labels, and as many keys of m bytes. It is laid out as a book is,
/// whatever the labels and numbers are.
pub fn write(numbers: [u8; 3], labels: &[u8], keys: &[u8]) -> Vec<u8> {
    let count = labels.len() / LABEL;
    let m = usize::from(numbers[2]);
    let entries = labels.chunks(LABEL).enumerate();
    let table = entries.flat_map(|(card, label)| [label, &offset(count, m, card)].concat());
    let table: Vec<u8> = table.collect();
    [&four_bytes(count), &numbers[..], &table, keys].concat()
}

/// Where the first key starts.
fn first_key(count: usize) -> usize {
    HEAD + count * ENTRY
}

/// A card's offset as the table has it.
fn offset(count: usize, m: usize, card: usize) -> [u8; 4] {
    four_bytes(first_key(count) + card * m)
}

/// The lowest first.
fn four_bytes(number: usize) -> [u8; 4] {
    u32::try_from(number).expect("below 2^32").to_le_bytes()
}
