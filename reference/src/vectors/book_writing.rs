//! Cases for the writer of books: document 02, "Paper 2" and the order of its refusals.

use super::book_reading::{self, labels_of_letters, of_ones, spoiled, LARGE_COUNTS, VALUES};
use super::books::{all_halves, alone_and_in_pairs, group, not_among, Book, Fault, LabelBytes};
use super::case::{Answer, Call, Group, FILL};
use super::instance::Shape;
use super::piece::Piece;
use super::simulation::wrong_lengths;
use crate::entries::{self, WriteBook};
use crate::label::LABEL;
use crate::random::Generator;

/// The writer's arguments. `numbers` is q, n, m; the output is given by its length.
#[derive(Clone, Debug, PartialEq, Eq)]
pub struct BookWriting {
    pub count: u32,
    pub numbers: [u8; 3],
    pub labels: Piece,
    pub keys: Piece,
    pub out: usize,
}

impl BookWriting {
    /// What would give this book.
    fn of(book: &Book) -> BookWriting {
        let piece = book.piece();
        let (front, length) = (piece.length() - book.keys.len(), piece.length());
        BookWriting {
            count: u32::try_from(book.labels.len()).expect("below 2^32"),
            numbers: book.numbers(),
            labels: book.labels_piece(),
            keys: piece.part(front, length),
            out: length,
        }
    }

    /// What this implementation answers.
    pub fn answer(&self) -> Answer {
        let mut out = vec![FILL; self.out];
        let number = entries::write_book(WriteBook {
            count: self.count,
            numbers: self.numbers,
            labels: &self.labels.expanded(),
            keys: &self.keys.expanded(),
            out: &mut out,
        });
        let outs = vec![out];
        Answer { number, outs }
    }

    /// The arguments that are read, in order.
    pub fn inputs(&self) -> Vec<Piece> {
        vec![
            Piece::literal(&self.count.to_le_bytes()),
            Piece::literal(&self.numbers),
            self.labels.clone(),
            self.keys.clone(),
        ]
    }

    fn changed(&self, change: impl FnOnce(&mut BookWriting)) -> BookWriting {
        let mut writing = self.clone();
        change(&mut writing);
        writing
    }
}

pub fn groups() -> Vec<Group> {
    let topics = [
        ("every q", of_books(&book_reading::every_order())),
        ("counts", of_books(&book_reading::counts())),
        ("refused counts", refused_counts()),
        ("q, n and m", numbers()),
        ("refused lengths", refused_lengths()),
        (
            "labels that differ in one half",
            of_books(&book_reading::one_half()),
        ),
        (
            "labels that differ in two halves",
            of_books(&book_reading::two_halves(1..2)),
        ),
        ("A to F in each half", of_books(&wrong_halves())),
        ("F after 9", of_books(&book_reading::fillers())),
        ("edges of each key", of_books(&book_reading::key_edges())),
        (
            "faults of two entries",
            of_books(&book_reading::entry_faults()),
        ),
        ("several faults", several_faults()),
        ("faults that may undo each other", undoing_faults()),
        (
            "last of 2,000 cards at fault",
            of_books(&book_reading::large_faults()),
        ),
    ];
    let groups = topics.map(|(topic, writings)| {
        let cases = writings.into_iter().map(Call::WriteBook);
        group("write", topic, cases.collect())
    });
    groups.into()
}

fn of_books(books: &[Book]) -> Vec<BookWriting> {
    books.iter().map(BookWriting::of).collect()
}

/// Counts that are too large or not that of the slices, which are those of 0, 1 or 3 cards.
fn refused_counts() -> Vec<BookWriting> {
    let mut random = Generator::from_seed(180);
    let books = [0, 1, 3].map(|count| Book::random(&mut random, Shape::new(7, 2, 2), count));
    let mut writings = Vec::new();
    for good in of_books(&books) {
        for count in [0, 1, 2, 3, 4, 2_000].into_iter().chain(LARGE_COUNTS) {
            writings.push(good.changed(|writing| writing.count = count));
        }
    }
    writings
}

/// q, n and m at and outside their edges: with slices as m says, and with nothing else changed.
fn numbers() -> Vec<BookWriting> {
    let good = BookWriting::of(&of_ones([251, 2, 3]));
    let mut writings = Vec::new();
    for (place, values) in VALUES {
        for &value in values {
            writings.push(good.changed(|writing| writing.numbers[place] = value));
            if place == 2 {
                writings.push(BookWriting::of(&of_ones([251, 2, value])));
            }
        }
    }
    writings
}

/// Each slice with a wrong length: none, one byte or one card too few or too many; two slices that
/// are wrong but as long as they should be together. A slice that is too long has good bytes.
fn refused_lengths() -> Vec<BookWriting> {
    let mut random = Generator::from_seed(181);
    let mut writings = Vec::new();
    for (count, m) in [(1, 1), (3, 2), (4, 96)] {
        let book = Book::random(&mut random, Shape::new(31, 2, m), count);
        let good = BookWriting::of(&book);
        let (labels, keys, m) = (good.labels.length(), good.keys.length(), usize::from(m));
        for length in wrong_lengths(labels, &[labels - LABEL, labels + LABEL]) {
            writings.push(good.changed(|writing| writing.labels = of_length(&good.labels, length)));
        }
        for length in wrong_lengths(keys, &[keys - m, keys + m]) {
            writings.push(good.changed(|writing| writing.keys = of_length(&good.keys, length)));
        }
        let others = [7, good.out - keys, good.out - labels, good.out + m];
        for out in wrong_lengths(good.out, &others) {
            writings.push(good.changed(|writing| writing.out = out));
        }
        writings.push(good.changed(|writing| {
            writing.labels = of_length(&good.labels, labels + 1);
            writing.keys = of_length(&good.keys, keys - 1);
        }));
    }
    writings.extend(lengths_of_none());
    writings
}

/// Slices for no card that are not empty, and outputs that are not seven bytes.
fn lengths_of_none() -> Vec<BookWriting> {
    let none = Book::random(&mut Generator::from_seed(182), Shape::new(31, 2, 2), 0);
    let good = BookWriting::of(&none);
    let mut writings = Vec::new();
    for length in [1, 2, LABEL] {
        writings.push(good.changed(|writing| writing.labels = zeros(length)));
        writings.push(good.changed(|writing| writing.keys = zeros(length)));
    }
    let outs = [0, 6, 8, 23].map(|out| good.changed(|writing| writing.out = out));
    writings.extend(outs);
    writings
}

fn zeros(length: usize) -> Piece {
    Piece::repeated(&[0], length)
}

/// The slice cut or with its own bytes behind it.
fn of_length(slice: &Piece, length: usize) -> Piece {
    Piece::repeated(&slice.expanded(), length)
}

/// A to F in each half of the second label.
fn wrong_halves() -> Vec<Book> {
    let mut random = Generator::from_seed(183);
    let labels = labels_of_letters().into_iter();
    labels
        .map(|label| {
            let labels = vec![all_halves(1), label];
            Book::of(&mut random, Shape::new(7, 2, 1), labels)
        })
        .collect()
}

/// Faults of the small book's writing, those that are looked at first before the others. Those of an
/// output that is too long and of the second label are given.
fn faults(
    long_output: Fault<BookWriting>,
    second_label: Fault<BookWriting>,
) -> [Fault<BookWriting>; 15] {
    [
        |w| w.count += 1_998,
        |w| w.count += 65_536,
        |w| w.numbers[0] = 16,
        |w| w.numbers[1] = 97,
        |w| w.numbers[2] = 0,
        |w| w.labels = of_length(&w.labels, 29),
        |w| w.keys = of_length(&w.keys, 7),
        |w| w.out -= 1,
        long_output,
        |w| overwrite_label(w, 0, spoiled(Book::small().labels[0])),
        second_label,
        |w| w.labels = w.labels.clone().patched(2 * LABEL + 3, 0xc0),
        |w| w.labels = w.labels.clone().patched(2 * LABEL, 0x88),
        |w| w.keys = w.keys.clone().patched(0, 7),
        |w| w.keys = w.keys.clone().patched(5, 255),
    ]
}

/// Puts another label in the place of a card's.
fn overwrite_label(writing: &mut BookWriting, card: usize, label: LabelBytes) {
    writing.labels = writing.labels.clone().overwritten(card * LABEL, &label);
}

/// Each fault alone and in pairs. No two cancel each other: an output that is a byte too short and two
/// too long is one too long.
fn several_faults() -> Vec<BookWriting> {
    let faults = faults(
        |w| w.out += 2,
        |w| overwrite_label(w, 1, Book::small().labels[0]),
    );
    alone_and_in_pairs(&BookWriting::of(&Book::small()), &faults)
}

/// What else there is with an output that is one byte too long, which one that is too short undoes,
/// and with a second label below every other, so that the third can't be below it.
fn undoing_faults() -> Vec<BookWriting> {
    let faults = faults(
        |w| w.out += 1,
        |w| w.labels = w.labels.clone().patched(LABEL, 0),
    );
    let writings = alone_and_in_pairs(&BookWriting::of(&Book::small()), &faults);
    not_among(&several_faults(), writings)
}
