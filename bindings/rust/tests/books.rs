//! Key books: the proved functions and the second implementation, on the same books and labels.

mod common;

use canvasfox::{book_lookup, book_read, book_write, slices, BookFields, ABSENT, BOOK_FIELDS, KEY};
use common::{
    any_bytes, assert_answers, below, damage, once_in, output, perhaps_damage, shape, Tally,
};
use reference::entries::{self, WriteBook};
use reference::label::{packed, HALVES};
use reference::random::Generator;

/// What a book is written of.
struct Delivery {
    count: u32,
    numbers: [u8; 3],
    labels: Vec<u8>,
    keys: Vec<u8>,
}

/// A label of digits, most of them 0, so that labels share their first digits; the last may be F.
fn label(random: &mut Generator) -> [u8; 10] {
    let mut halves = [0; HALVES];
    for half in &mut halves {
        *half = if once_in(random, 4) {
            random.byte_below(10)
        } else {
            0
        };
    }
    if once_in(random, 3) {
        halves[HALVES - 1] = 15;
    }
    packed(halves)
}

/// A delivery of so many cards at most, its labels rising.
fn delivery(random: &mut Generator, most: usize) -> Delivery {
    let shape = shape(random, 50);
    let wanted = below(random, most + 1);
    let mut labels: Vec<[u8; 10]> = (0..wanted).map(|_| label(random)).collect();
    labels.sort_by_key(|label| label.map(|byte| byte.rotate_left(4)));
    labels.dedup();
    let count = labels.len();
    let keys = random.bytes_below(shape.q.into(), count * usize::from(shape.m));
    Delivery {
        count: u32::try_from(count).expect("a count"),
        numbers: [shape.q, shape.n, shape.m],
        labels: labels.concat(),
        keys,
    }
}

/// Writes a delivery by both, and gives the book.
fn written(random: &mut Generator, tally: &mut Tally, delivery: &Delivery) -> Vec<u8> {
    let &Delivery {
        count,
        numbers,
        ref labels,
        ref keys,
    } = delivery;
    let length = 7 + labels.len() / 10 * (14 + usize::from(numbers[2]));
    let mut found = output(random, length);
    let mut expected = found.clone();
    let arguments = WriteBook {
        count,
        numbers,
        labels,
        keys,
        out: &mut expected,
    };
    let answer = entries::write_book(arguments);
    assert_eq!(
        slices::book_write(count, numbers, labels, keys, &mut found),
        answer
    );
    assert_eq!(found, expected);
    tally.note(answer);
    let mut right = vec![0; length];
    let arguments = WriteBook {
        count,
        numbers,
        labels,
        keys,
        out: &mut right,
    };
    let answer = entries::write_book(arguments);
    let [q, n, m] = numbers;
    let fields = BookFields { count, q, n, m };
    if count <= 2000 && labels.len() == count as usize * 10 {
        assert_answers(book_write(fields, labels, keys), answer, right.clone());
    }
    right
}

/// Reads a book by both.
fn read(random: &mut Generator, tally: &mut Tally, book: &[u8]) {
    let mut found = output(random, BOOK_FIELDS);
    let mut expected = found.clone();
    // The second implementation has no output of another length: here that is 2.
    let answer = match <&mut [u8; BOOK_FIELDS]>::try_from(&mut expected[..]) {
        Ok(fields) => entries::read_book(book, fields),
        Err(_) => 2,
    };
    assert_eq!(slices::book_read(book, &mut found), answer);
    assert_eq!(found, expected);
    tally.note(answer);
    let mut right = [0; BOOK_FIELDS];
    let answer = entries::read_book(book, &mut right);
    let [a, b, c, d, q, n, m] = right;
    let count = u32::from_le_bytes([a, b, c, d]);
    assert_answers(book_read(book), answer, BookFields { count, q, n, m });
}

/// Looks a label up by both.
fn look_up(random: &mut Generator, tally: &mut Tally, book: &[u8], label: &[u8]) {
    let mut found = output(random, KEY);
    let mut expected = found.clone();
    let answer = match <&mut [u8; KEY]>::try_from(&mut expected[..]) {
        Ok(key) => entries::look_up(book, label, key),
        Err(_) => 2,
    };
    assert_eq!(slices::book_lookup(book, label, &mut found), answer);
    assert_eq!(found, expected);
    tally.note(answer);
    let mut right = [0; KEY];
    match entries::look_up(book, label, &mut right) {
        ABSENT => assert_eq!(book_lookup(book, label), Ok(None)),
        answer => assert_answers(book_lookup(book, label), answer, Some(right)),
    }
}

#[test]
fn books() {
    let mut random = Generator::from_seed(41);
    let [mut writes, mut reads, mut lookups] = [(); 3].map(|()| Tally::default());
    for _ in 0..20_000 {
        let mut delivery = delivery(&mut random, 8);
        perhaps_damage(&mut random, 8, &mut delivery.labels);
        perhaps_damage(&mut random, 8, &mut delivery.keys);
        if once_in(&mut random, 20) {
            delivery.numbers[below(&mut random, 3)] = random.byte_below(256);
        }
        if once_in(&mut random, 20) {
            delivery.count = delivery.count.wrapping_add(random.byte_below(3).into()) ^ 2048;
        }
        let mut book = written(&mut random, &mut writes, &delivery);
        perhaps_damage(&mut random, 3, &mut book);
        read(&mut random, &mut reads, &book);
        let mut wanted = label(&mut random).to_vec();
        let cards = delivery.labels.len() / 10;
        if 0 < cards && !once_in(&mut random, 3) {
            let at = 10 * below(&mut random, cards);
            wanted = delivery.labels[at..at + 10].to_vec();
        }
        perhaps_damage(&mut random, 6, &mut wanted);
        look_up(&mut random, &mut lookups, &book, &wanted);
    }
    writes.has("book write", &[0, 1, 2, 3, 6, 12, 13], 50);
    reads.has("book read", &[0, 1, 2, 3, 6, 12, 13], 50);
    lookups.has("book lookup", &[0, 1, 2, 3, 6, 12, 13, ABSENT], 50);
}

/// Books of up to 2,000 cards, whole and damaged in several ways, and bytes that are no book.
#[test]
fn long_books() {
    let mut random = Generator::from_seed(42);
    let [mut writes, mut reads, mut lookups] = [(); 3].map(|()| Tally::default());
    for _ in 0..60 {
        let delivery = delivery(&mut random, 2000);
        let book = written(&mut random, &mut writes, &delivery);
        read(&mut random, &mut reads, &book);
        for label in delivery.labels.chunks(10).step_by(97) {
            look_up(&mut random, &mut lookups, &book, label);
        }
        let other = label(&mut random);
        look_up(&mut random, &mut lookups, &book, &other);
        for _ in 0..20 {
            let mut damaged = book.clone();
            damage(&mut random, &mut damaged);
            read(&mut random, &mut reads, &damaged);
        }
    }
    let bytes = any_bytes(&mut random, 220_007);
    read(&mut random, &mut reads, &bytes);
    writes.has("long book write", &[0, 2], 1);
    reads.has("long book read", &[0, 1, 2, 3, 6, 12, 13], 5);
    lookups.has("long book lookup", &[0, 2, ABSENT], 10);
}
