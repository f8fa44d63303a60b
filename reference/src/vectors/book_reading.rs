//! Cases for the reader of books: document 02, "Paper 2" and the order of its refusals.

use super::books::{
    all_halves, alone_and_in_pairs, group, not_among, with_half, Book, Fault, LabelBytes,
};
use super::case::{Call, Group};
use super::instance::Shape;
use super::piece::Piece;
use crate::book::{ENTRY, HEAD};
use crate::field::ORDERS;
use crate::label::{FILLER, HALVES, LABEL};
use crate::random::Generator;

/// The edges of q, n and m.
pub const VALUES: [(usize, &[u8]); 3] = [
    (
        0,
        &[0, 1, 2, 3, 4, 6, 7, 8, 16, 30, 31, 32, 250, 251, 252, 255],
    ),
    (1, &[0, 1, 95, 96, 97, 128, 255]),
    (2, &[0, 1, 95, 96, 97, 128, 255]),
];

/// Counts that are too large, some of which have a good count in their low bytes.
pub const LARGE_COUNTS: [u32; 10] = [
    2_001,
    2_048,
    65_536,
    65_536 + 1,
    65_536 + 3,
    1 << 24,
    (1 << 24) + 3,
    (1 << 31) + 3,
    u32::MAX - 1,
    u32::MAX,
];

pub fn groups() -> Vec<Group> {
    let topics = [
        ("every q", pieces(&every_order())),
        ("counts", pieces(&counts())),
        ("counts in the head", head_counts()),
        ("q, n and m", numbers()),
        ("every bit changed", every_bit()),
        ("every truncation and bytes behind", every_length()),
        ("offsets", offsets()),
        ("labels that differ in one half", pieces(&one_half())),
        (
            "labels that differ in two halves",
            pieces(&two_halves(1..HALVES)),
        ),
        ("A to F in each half", pieces(&wrong_halves())),
        ("F after 9", pieces(&fillers())),
        ("edges of each key", pieces(&key_edges())),
        ("faults of two entries", pieces(&entry_faults())),
        ("several faults", literals(&several_faults())),
        (
            "faults that may undo each other",
            literals(&undoing_faults()),
        ),
        ("last of 2,000 cards at fault", pieces(&large_faults())),
        ("length and table of 2,000 cards", large_tables()),
    ];
    let groups = topics.map(|(topic, books)| {
        let cases = books.into_iter().map(|book| Call::ReadBook { book });
        group("read", topic, cases.collect())
    });
    groups.into()
}

fn pieces(books: &[Book]) -> Vec<Piece> {
    books.iter().map(Book::piece).collect()
}

fn literals(books: &[Vec<u8>]) -> Vec<Piece> {
    books.iter().map(|bytes| Piece::literal(bytes)).collect()
}

// Books that the writer has too.

/// Each q with a few cards, n and m in turn.
pub fn every_order() -> Vec<Book> {
    let mut random = Generator::from_seed(160);
    let mut sizes = [(1, 1), (2, 3), (96, 2), (5, 96), (96, 95)]
        .into_iter()
        .cycle();
    let mut books = Vec::new();
    for q in ORDERS {
        for count in [1, 2, 3, 9] {
            let (n, m) = sizes.next().expect("a cycle goes on");
            books.push(Book::random(&mut random, Shape::new(q, n, m), count));
        }
    }
    books
}

/// The least counts, the largest, and one more.
pub fn counts() -> Vec<Book> {
    let mut random = Generator::from_seed(161);
    let mut books = Vec::new();
    for shape in [
        Shape::new(2, 1, 1),
        Shape::new(31, 7, 3),
        Shape::new(251, 96, 96),
    ] {
        books.extend([0, 1, 2].map(|count| Book::random(&mut random, shape, count)));
    }
    books.extend([Book::largest(), Book::many(2_000), Book::many(2_001)]);
    books
}

/// A few cards with keys of one byte.
fn cards(random: &mut Generator, labels: &[LabelBytes]) -> Book {
    Book::of(random, Shape::new(7, 2, 1), labels.to_vec())
}

/// Two labels that differ in each half alone, rising and falling, also after a third; and equal
/// ones.
pub fn one_half() -> Vec<Book> {
    let mut random = Generator::from_seed(163);
    let mut books = Vec::new();
    for half in 0..HALVES {
        for digits in [[5, 6], [6, 5], [0, 9], [9, 0]] {
            let pair = digits.map(|digit| with_half(all_halves(5), half, digit));
            books.push(cards(&mut random, &pair));
            if digits.contains(&6) {
                books.push(cards(&mut random, &[&[all_halves(1)], &pair[..]].concat()));
            }
        }
    }
    for digit in [0, 5, 9] {
        let label = all_halves(digit);
        books.push(cards(&mut random, &[label; 2]));
        books.push(cards(
            &mut random,
            &[with_half(label, HALVES - 1, FILLER); 2],
        ));
    }
    books
}

/// Two labels of which a half and one that comes so many after it differ in opposite directions, the
/// first of them rising and falling. The twentieth half is F in one of them.
pub fn two_halves(distances: std::ops::Range<usize>) -> Vec<Book> {
    let mut random = Generator::from_seed(164);
    let mut books = Vec::new();
    for distance in distances {
        for first in 0..HALVES - distance {
            let second = first + distance;
            let most = if second == HALVES - 1 { FILLER } else { 9 };
            let mut pair = [(5, most), (6, 0)].map(|(digit, other)| {
                let label = with_half(all_halves(5), first, digit);
                with_half(label, second, other)
            });
            books.push(cards(&mut random, &pair));
            pair.reverse();
            books.push(cards(&mut random, &pair));
        }
    }
    books
}

/// A to F in each half of the second label and of the first.
fn wrong_halves() -> Vec<Book> {
    let mut random = Generator::from_seed(165);
    let mut books = Vec::new();
    for label in labels_of_letters() {
        books.push(cards(&mut random, &[all_halves(1), label]));
        books.push(cards(&mut random, &[label, all_halves(9)]));
    }
    books
}

/// Labels with A to F in each half.
pub fn labels_of_letters() -> Vec<LabelBytes> {
    let halves = 0..HALVES;
    halves
        .flat_map(|half| (10..=FILLER).map(move |value| with_half(all_halves(5), half, value)))
        .collect()
}

/// Two labels that differ in the twentieth half, which is F or a digit; and in the one before too.
pub fn fillers() -> Vec<Book> {
    let mut random = Generator::from_seed(166);
    let ends = [0, 8, 9, FILLER];
    let of_ends =
        |digit, end| with_half(with_half(all_halves(5), HALVES - 2, digit), HALVES - 1, end);
    let mut books = Vec::new();
    for first in ends {
        for second in ends {
            for digits in [[5, 5], [5, 6], [6, 5]] {
                let pair = [of_ends(digits[0], first), of_ends(digits[1], second)];
                books.push(cards(&mut random, &pair));
            }
        }
    }
    books
}

/// q-1, q and 255 in the first and the last byte of the first, a middle and the last key.
pub fn key_edges() -> Vec<Book> {
    let mut random = Generator::from_seed(167);
    let mut books = Vec::new();
    for q in ORDERS {
        let good = Book::random(&mut random, Shape::new(q, 2, 3), 3);
        for place in [0, 2, 3, 5, 6, 8] {
            books.extend([q - 1, q, 255].map(|byte| good.changed(|book| book.keys[place] = byte)));
        }
    }
    books
}

/// Five cards.
fn five() -> Book {
    Book::random(&mut Generator::from_seed(168), Shape::new(7, 2, 2), 5)
}

/// A wrong half and a label that is not above the one before, in one entry and in two, either of
/// them first; the same with a bad byte in a key; and neighbours in the wrong order.
pub fn entry_faults() -> Vec<Book> {
    let good = five();
    let mut books = Vec::new();
    for wrong in 0..5 {
        let with_wrong = good.changed(|book| book.labels[wrong] = spoiled(book.labels[wrong]));
        for other in (1..5).filter(|&other| other != wrong) {
            books.push(with_wrong.changed(|book| book.labels[other] = good.labels[other - 1]));
        }
        for place in [0, 9] {
            books.push(with_wrong.changed(|book| book.keys[place] = 7));
        }
    }
    for card in 1..5 {
        let equal = good.changed(|book| book.labels[card] = book.labels[card - 1]);
        let swapped = good.changed(|book| book.labels.swap(card - 1, card));
        for book in [equal, swapped] {
            books.push(book.changed(|book| book.keys[0] = 7));
            books.push(book.changed(|book| book.keys[9] = 255));
            books.push(book);
        }
        let both = [7, HALVES - 1].map(|half| with_half(all_halves(0), half, 12));
        books.extend(both.map(|label| good.changed(|book| book.labels[card] = label)));
    }
    books.extend(ends_below_filler());
    books
}

/// A to E at the end of a label, after one that ends in F.
fn ends_below_filler() -> Vec<Book> {
    let mut random = Generator::from_seed(169);
    let of_end = |end| with_half(all_halves(5), HALVES - 1, end);
    let ends = 10..FILLER;
    ends.map(|end| cards(&mut random, &[of_end(FILLER), of_end(end)]))
        .collect()
}

/// A label with a wrong half at its end, which does not change its place much.
pub fn spoiled(label: LabelBytes) -> LabelBytes {
    with_half(label, HALVES - 1, 10)
}

/// The last label equal to the one before, the last label with a wrong half, and the last byte of
/// the last key q.
pub fn large_faults() -> Vec<Book> {
    let good = Book::many(2_000);
    vec![
        good.changed(|book| book.labels[1_999] = book.labels[1_998]),
        good.changed(|book| book.labels[1_999] = spoiled(book.labels[1_999])),
        good.changed(|book| book.keys[1_999] = 251),
    ]
}

// The reader's own.

/// Small books with another count in the head.
fn head_counts() -> Vec<Piece> {
    let mut random = Generator::from_seed(170);
    let books = [0, 1].map(|count| Book::random(&mut random, Shape::new(7, 2, 2), count));
    let mut pieces = Vec::new();
    for book in books.iter().chain([&Book::small()]) {
        let good = [0, 1, 2, 3, 4, 256 + 3, 2_000];
        for count in good.into_iter().chain(LARGE_COUNTS) {
            pieces.push(book.piece().overwritten(0, &count.to_le_bytes()));
        }
    }
    pieces
}

/// q, n and m at and outside their edges: with all else laid out as m says, and with nothing else
/// changed. All bytes of the keys are 1.
fn numbers() -> Vec<Piece> {
    let mut pieces = Vec::new();
    for (place, values) in VALUES {
        for &value in values {
            let piece = of_ones([251, 2, 3]).piece();
            pieces.push(piece.patched(4 + place, value));
            if place == 2 {
                pieces.push(of_ones([251, 2, value]).piece());
            }
        }
    }
    pieces
}

/// Three cards with these numbers, whatever they are, and keys of ones.
pub fn of_ones([q, n, m]: [u8; 3]) -> Book {
    Book::small().changed(|book| {
        book.shape = Shape::new(q, n, m);
        book.keys = vec![1; 3 * usize::from(m)];
    })
}

/// Each byte of the small book changed: by each bit, to one more, to 0 and 255.
fn every_bit() -> Vec<Piece> {
    let small = Book::small().bytes();
    let mut pieces = Vec::new();
    for (place, &byte) in small.iter().enumerate() {
        let bits = (0..8).map(|bit| byte ^ 1 << bit);
        let mut others: Vec<u8> = bits.chain([byte.wrapping_add(1), 0, 255]).collect();
        others.sort_unstable();
        others.dedup();
        others.retain(|&other| other != byte);
        let others = others.into_iter();
        pieces.extend(others.map(|other| Piece::literal(&small).patched(place, other)));
    }
    pieces
}

/// The small book and an empty one, cut at every place and with bytes after them.
fn every_length() -> Vec<Piece> {
    let small = Book::small();
    let empty = Book::random(&mut Generator::from_seed(171), small.shape, 0);
    let mut pieces = Vec::new();
    for good in [small.bytes(), empty.bytes()] {
        pieces.extend((0..=good.len()).map(|length| Piece::literal(&good[..length])));
        for more in [&[0][..], &[255], &[1, 2], &good] {
            pieces.push(Piece::literal(&[&good, more].concat()));
        }
    }
    pieces
}

/// Where a card's offset stands.
pub fn offset_place(card: usize) -> usize {
    HEAD + card * ENTRY + LABEL
}

/// The bytes of a book with each offset replaced.
fn with_offsets(book: &[u8], count: usize, change: impl Fn(usize, u32) -> u32) -> Vec<u8> {
    let mut bytes = book.to_vec();
    for card in 0..count {
        let place = offset_place(card);
        let stored = &mut bytes[place..place + 4];
        let offset = u32::from_le_bytes((&*stored).try_into().expect("four bytes"));
        stored.copy_from_slice(&change(card, offset).to_le_bytes());
    }
    bytes
}

/// Each byte of the first, a middle and the last offset changed; and other tables.
fn offsets() -> Vec<Piece> {
    let good = five().bytes();
    let mut pieces = Vec::new();
    for card in [0, 2, 4] {
        for place in offset_place(card)..offset_place(card) + 4 {
            let byte = good[place];
            let others = [byte.wrapping_add(1), byte.wrapping_sub(1), byte ^ 128];
            pieces.extend(others.map(|other| Piece::literal(&good).patched(place, other)));
        }
    }
    pieces.extend(literals(&[other_tables(&good), gaps(&good)].concat()));
    pieces
}

/// Where the first key of five cards stands.
const FIRST_OF_FIVE: usize = HEAD + 5 * ENTRY;

/// Offsets of another kind: one off, of a neighbour, from the first key on, the other way round.
fn other_tables(good: &[u8]) -> Vec<Vec<u8>> {
    let start = u32::try_from(FIRST_OF_FIVE).expect("below 2^32");
    let changes: [fn(usize, u32) -> u32; 8] = [
        |_, offset| offset + 1,
        |_, offset| offset - 1,
        |_, offset| offset + 2,
        |_, offset| offset - 2,
        |_, offset| offset.swap_bytes(),
        |_, offset| offset.wrapping_add(1 << 31),
        |_, _| 0,
        |_, _| u32::MAX,
    ];
    let with = |change: &dyn Fn(usize, u32) -> u32| with_offsets(good, 5, change);
    let mut tables: Vec<Vec<u8>> = changes.iter().map(|change| with(change)).collect();
    tables.extend([
        with(&|_, offset| offset - start),
        with(&|_, _| start),
        with(&|card, offset| {
            if card < 2 {
                2 * start + 2 - offset
            } else {
                offset
            }
        }),
    ]);
    tables
}

/// A zero before the first key, all offsets one more; before the last key, its offset one more; and
/// after it, the offsets as they were or the last one more.
fn gaps(good: &[u8]) -> Vec<Vec<u8>> {
    let all_more = with_offsets(good, 5, |_, offset| offset + 1);
    let last_more = with_offsets(good, 5, |card, offset| offset + u32::from(card == 4));
    let gaps = [
        (&all_more[..], 0),
        (&last_more, 8),
        (good, 10),
        (&last_more, 10),
    ];
    let books = gaps.map(|(bytes, place)| {
        let mut bytes = bytes.to_vec();
        bytes.insert(FIRST_OF_FIVE + place, 0);
        bytes
    });
    books.to_vec()
}

/// The last offset wrong, and a byte too few.
fn large_tables() -> Vec<Piece> {
    let good = Book::many(2_000).piece();
    let offset = good.expanded()[offset_place(1_999)];
    vec![
        good.clone().patched(offset_place(1_999), offset + 1),
        good.part(0, good.length() - 1),
    ]
}

/// A fault of a book's bytes.
type BytesFault = Fault<Vec<u8>>;

/// The second label equal to the first.
pub const EQUAL_LABEL: BytesFault = |book| book.copy_within(HEAD..HEAD + LABEL, HEAD + ENTRY);

/// The second label below every other, so that none after it is below it.
pub const LEAST_LABEL: BytesFault = |book| book[HEAD + ENTRY] = 0;

/// The faults of the small book, those that are looked at first before the others. The second label's
/// is one of the two above.
pub fn faults(second_label: BytesFault) -> [BytesFault; 18] {
    [
        |book| book.clear(),
        |book| book.truncate(6),
        |book| book[..4].copy_from_slice(&[0xd1, 7, 0, 0]),
        |book| book[3] = 1,
        |book| book[4] = 16,
        |book| book[5] = 0,
        |book| book[6] = 97,
        |book| book.truncate(7),
        |book| book.truncate(54),
        |book| book.push(0),
        |book| book[offset_place(0)] += 1,
        |book| book[offset_place(2) + 3] = 1,
        |book| book[HEAD] = 0xa8,
        second_label,
        |book| book[HEAD + 2 * ENTRY + 9] = 0xb0,
        |book| book[HEAD + 2 * ENTRY] = 0x88,
        |book| book[HEAD + 3 * ENTRY] = 7,
        |book| book[HEAD + 3 * ENTRY + 5] = 255,
    ]
}

/// Each fault alone and in pairs. No two cancel each other.
fn several_faults() -> Vec<Vec<u8>> {
    alone_and_in_pairs(&Book::small().bytes(), &faults(EQUAL_LABEL))
}

/// What else there is with the least label: the second label's fault undoes the third's, which is to
/// be below it.
fn undoing_faults() -> Vec<Vec<u8>> {
    let books = alone_and_in_pairs(&Book::small().bytes(), &faults(LEAST_LABEL));
    not_among(&several_faults(), books)
}
