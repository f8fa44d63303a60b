//! The reader of a key book and the lookup in it. Every byte is checked: the offsets, then the labels, then the keys, in a pass
//! each. A label is then found by halving the table.

use super::system::{all_below, are_sizes};

/// The most cards.
const MOST: u32 = 2000;

/// The bytes before the table, of a label, and of an entry: a label and an offset.
const HEAD: usize = 7;
const LABEL: usize = 10;
const ENTRY: usize = LABEL + 4;

/// A well-formed book, taken apart.
struct Book<'a> {
    head: &'a [u8; HEAD],
    table: &'a [[u8; ENTRY]],
    keys: &'a [u8],
    m: usize,
}

impl<'a> Book<'a> {
    /// Reads a book; the refusal's number where it is not well-formed.
    fn read(bytes: &'a [u8]) -> Result<Book<'a>, u8> {
        let (head, bodies) = bytes.split_first_chunk().ok_or(6)?;
        let [a, b, c, d, q, n, m] = *head;
        let count = u32::from_le_bytes([a, b, c, d]);
        if count > MOST {
            return Err(6);
        }
        if !are_sizes(q, n, m) {
            return Err(1);
        }
        let (count, m) = (count as usize, usize::from(m));
        if bodies.len() != count * (ENTRY + m) {
            return Err(6);
        }
        let (table, keys) = bodies.split_at(count * ENTRY);
        let (table, _) = table.as_chunks();
        let mut offset = HEAD + count * ENTRY;
        for entry in table {
            if offset_in(entry) as usize != offset {
                return Err(6);
            }
            offset += m;
        }
        rising(table)?;
        if !all_below(q, keys) {
            return Err(3);
        }
        Ok(Book {
            head,
            table,
            keys,
            m,
        })
    }

    /// The key of the card with this label, zero beyond m; none if the book has no such card.
    fn key(&self, label: &[u8; LABEL]) -> Option<[u8; 96]> {
        let place = self
            .table
            .partition_point(|entry| is_below(label_in(entry), label));
        if label_in(self.table.get(place)?) != label {
            return None;
        }
        let mut key = [0; 96];
        key[..self.m].copy_from_slice(&self.keys[place * self.m..][..self.m]);
        Some(key)
    }
}

/// The bytes before the table, or the refusal's number.
pub fn read(book: &[u8]) -> Result<[u8; HEAD], u8> {
    Ok(*Book::read(book)?.head)
}

/// The key of the card with this label, if there is one, or the refusal's number.
pub fn lookup(book: &[u8], label: &[u8]) -> Result<Option<[u8; 96]>, u8> {
    let book = Book::read(book)?;
    let label = label.try_into().map_err(|_| 2)?;
    if !is_label(label) {
        return Err(12);
    }
    Ok(book.key(label))
}

fn label_in(entry: &[u8; ENTRY]) -> &[u8; LABEL] {
    entry.first_chunk().expect("an entry has 14 bytes")
}

fn offset_in(entry: &[u8; ENTRY]) -> u32 {
    u32::from_le_bytes(*entry.last_chunk().expect("an entry has 14 bytes"))
}

/// 12 or 13 for the first label at fault.
fn rising(table: &[[u8; ENTRY]]) -> Result<(), u8> {
    let mut before = None;
    for entry in table {
        let label = label_in(entry);
        if !is_label(label) {
            return Err(12);
        }
        if before.is_some_and(|before| !is_below(before, label)) {
            return Err(13);
        }
        before = Some(label);
    }
    Ok(())
}

/// Is no half of it wrong? All nine bytes are looked at, which vectorises; F may stand at the end alone.
fn is_label([digits @ .., last]: &[u8; LABEL]) -> bool {
    let good = digits
        .iter()
        .fold(true, |good, &byte| good & are_digits(byte));
    good && (are_digits(*last) || last >> 4 == 15 && last & 15 <= 9)
}

fn are_digits(byte: u8) -> bool {
    byte & 15 <= 9 && byte >> 4 <= 9
}

/// Does label a stand before b, by the first digit in which they differ?
fn is_below(a: &[u8; LABEL], b: &[u8; LABEL]) -> bool {
    let in_order = |byte: &u8| byte.rotate_left(4);
    a.iter().map(in_order).lt(b.iter().map(in_order))
}
