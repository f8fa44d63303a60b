//! Cases for the lookup in a book: document 02, "Paper 2" and the order of its refusals.

use super::book_reading::{
    every_order, faults, fillers, labels_of_letters, EQUAL_LABEL, LARGE_COUNTS, LEAST_LABEL,
};
use super::books::{
    all_halves, group, label_at, place_of, with_faults, with_half, Book, LabelBytes,
};
use super::case::{Call, Group};
use super::instance::Shape;
use super::piece::Piece;
use crate::label::{unpacked, FILLER, HALVES, LABEL};
use crate::random::Generator;

pub fn groups() -> Vec<Group> {
    let topics = [
        ("every card", every_card()),
        ("every q", every_q()),
        ("labels next to each card", next_to_each()),
        ("labels that share nineteen digits", one_half()),
        ("halves in another order", other_orders()),
        ("F and digits at the end", ends()),
        ("2,000 cards", large()),
        ("refused counts", refused_counts()),
        ("wrong lengths", wrong_lengths()),
        ("A to F in each half", wrong_halves()),
        ("every byte changed", every_byte()),
        ("every truncation", every_length()),
        ("several faults", several_faults()),
        ("faults that may undo each other", undoing_faults()),
    ];
    let groups = topics.map(|(topic, cases)| group("lookup", topic, cases));
    groups.into()
}

fn look_up(book: &Piece, label: &[u8]) -> Call {
    Call::LookUp {
        book: book.clone(),
        label: label.to_vec(),
    }
}

/// A lookup of each label in a book.
fn all_of(book: &Book, labels: &[LabelBytes]) -> Vec<Call> {
    let piece = book.piece();
    labels.iter().map(|label| look_up(&piece, label)).collect()
}

/// A lookup of each card in bytes that were a book.
fn cards_in(bytes: &[u8], book: &Book) -> Vec<Call> {
    let piece = Piece::literal(bytes);
    let labels = book.labels.iter();
    labels.map(|label| look_up(&piece, label)).collect()
}

/// Books of a few cards.
fn few() -> Vec<Book> {
    let mut random = Generator::from_seed(190);
    let books = [1, 2, 3, 7].map(|count| Book::random(&mut random, Shape::new(31, 5, 4), count));
    books.to_vec()
}

/// Each card of books of a few, none of whose keys is the same as another.
fn every_card() -> Vec<Call> {
    let books = few().into_iter().chain([Book::small()]);
    books.flat_map(|book| all_of(&book, &book.labels)).collect()
}

/// The first and the last card for each q, n and m in turn.
fn every_q() -> Vec<Call> {
    let books = every_order().into_iter();
    books
        .flat_map(|book| {
            let mut labels = vec![book.labels[0], book.labels[book.labels.len() - 1]];
            labels.dedup();
            all_of(&book, &labels)
        })
        .collect()
}

/// The labels just below and just above.
fn neighbours(label: LabelBytes) -> [LabelBytes; 2] {
    let place = place_of(label);
    [place - 1, place + 1].map(label_at)
}

/// The least label and the largest.
fn extremes() -> [LabelBytes; 2] {
    [all_halves(0), with_half(all_halves(9), HALVES - 1, FILLER)]
}

/// The labels just below and just above each card, the least and the largest; also in a book of
/// labels that follow each other, in an empty one and in one of the least and the largest label.
fn next_to_each() -> Vec<Call> {
    let mut random = Generator::from_seed(191);
    let shape = Shape::new(7, 2, 2);
    let start = place_of(all_halves(5)) - 3;
    let consecutive = (start..start + 7).map(label_at).collect();
    let books = [
        Book::of(&mut random, shape, consecutive),
        Book::of(&mut random, shape, Vec::new()),
    ];
    let mut calls = Vec::new();
    for book in few().iter().chain(&books) {
        let labels = book.labels.iter().copied();
        let labels: Vec<LabelBytes> = labels.flat_map(neighbours).chain(extremes()).collect();
        calls.extend(all_of(book, &labels));
    }
    let of_extremes = Book::of(&mut random, shape, extremes().to_vec());
    let labels = [extremes()[0], all_halves(5), extremes()[1]];
    calls.extend(all_of(&of_extremes, &labels));
    calls
}

/// The label of each card of the small book with one half changed, each half in turn.
fn one_half() -> Vec<Call> {
    let small = Book::small();
    let mut labels = Vec::new();
    for &label in &small.labels {
        for half in 0..HALVES {
            let digit = unpacked(label)[half];
            labels.push(with_half(label, half, (digit + 1) % 10));
            if digit == FILLER {
                labels.extend((0..10).map(|digit| with_half(label, half, digit)));
            }
        }
    }
    all_of(&small, &labels)
}

/// A card's label with two neighbouring halves exchanged, where they differ; and its bytes or all
/// its halves the other way round.
fn other_orders() -> Vec<Call> {
    let digits = |i: u128| 11 * (1_234_567_890_123_456_789 + i * 10_u128.pow(15));
    let labels = (0..5).map(|i| label_at(digits(i))).collect();
    let book = Book::of(&mut Generator::from_seed(192), Shape::new(7, 2, 2), labels);
    let label = book.labels[2];
    let mut others = vec![label];
    for half in 0..HALVES - 1 {
        let [first, second] = [half, half + 1].map(|half| unpacked(label)[half]);
        others.push(with_half(with_half(label, half, second), half + 1, first));
    }
    let mut reversed = label;
    reversed.reverse();
    others.extend([reversed, label.map(|byte| byte.rotate_left(4))]);
    all_of(&book, &others)
}

/// Labels that end in F or a digit, in books that have one of them, or two.
fn ends() -> Vec<Call> {
    let ends = [0, 8, 9, FILLER].map(|end| with_half(all_halves(5), HALVES - 1, end));
    let mut calls = Vec::new();
    for (i, label) in ends.into_iter().enumerate() {
        let mut random = Generator::from_seed(193);
        let book = Book::of(&mut random, Shape::new(7, 2, 2), vec![label]);
        calls.extend(all_of(&book, &ends));
        if i > 0 {
            let book = Book::of(&mut random, Shape::new(7, 2, 2), ends[i - 1..=i].to_vec());
            calls.extend(all_of(&book, &ends));
        }
    }
    for book in fillers() {
        calls.extend(all_of(&book, &book.labels[1..]));
    }
    calls
}

/// The first, a middle and the last of 2,000 cards, and labels next to them; in 2,001.
fn large() -> Vec<Call> {
    let largest = Book::largest();
    let [_, above_middle] = neighbours(largest.labels[1_000]);
    let [below_last, _] = neighbours(largest.labels[1_999]);
    let labels = [0, 999, 1_999].map(|card| largest.labels[card]);
    let absent = [above_middle, below_last];
    let mut calls = all_of(&largest, &[&labels[..], &absent].concat());
    let many = [2_000, 2_001].map(Book::many);
    let [below_first, _] = neighbours(many[0].labels[0]);
    let [_, above_last] = neighbours(many[0].labels[1_999]);
    calls.extend(all_of(&many[0], &[below_first, above_last]));
    calls.extend(all_of(&many[1], &many[1].labels[2_000..]));
    calls
}

/// A card of the small book, in which the count is too large.
fn refused_counts() -> Vec<Call> {
    let small = Book::small();
    let books = LARGE_COUNTS.map(|count| small.piece().overwritten(0, &count.to_le_bytes()));
    let calls = books.map(|book| look_up(&book, &small.labels[1]));
    calls.to_vec()
}

/// Labels of other lengths, which begin with a card's or with wrong halves; in books of no card
/// and of three.
fn wrong_lengths() -> Vec<Call> {
    let small = Book::small();
    let empty = Book::of(&mut Generator::from_seed(195), small.shape, Vec::new());
    let mut calls = Vec::new();
    for book in [small.piece(), empty.piece()] {
        for pattern in [&small.labels[1][..], &[0xff], &[0]] {
            for length in [0, 1, LABEL - 1, LABEL, LABEL + 1, HALVES, 96] {
                let label = Piece::repeated(pattern, length).expanded();
                calls.push(look_up(&book, &label));
            }
        }
    }
    calls
}

/// A to F in each half, in a book that has a digit there.
fn wrong_halves() -> Vec<Call> {
    let labels = vec![all_halves(5), all_halves(6)];
    let book = Book::of(&mut Generator::from_seed(196), Shape::new(7, 2, 1), labels);
    all_of(&book, &labels_of_letters())
}

/// A bit of each byte of the small book changed, the bits in turn, and each card looked up.
fn every_byte() -> Vec<Call> {
    let small = Book::small();
    let places = 0..small.bytes().len();
    places
        .flat_map(|place| {
            let mut bytes = small.bytes();
            bytes[place] ^= 1 << (place % 8);
            cards_in(&bytes, &small)
        })
        .collect()
}

/// The small book cut at every place, whole, and with a byte more, and each card looked up.
fn every_length() -> Vec<Call> {
    let small = Book::small();
    let longer = [&small.bytes()[..], &[0]].concat();
    (0..=longer.len())
        .flat_map(|length| cards_in(&longer[..length], &small))
        .collect()
}

/// A label of a wrong length, with wrong halves or not, with a wrong half, absent, and found.
fn labels_in_order() -> [Vec<u8>; 5] {
    let label = Book::small().labels[1];
    let wrong = with_half(label, 4, 11);
    [
        wrong[..LABEL - 1].to_vec(),
        [&label[..], &[0]].concat(),
        wrong.to_vec(),
        with_half(label, 4, 9).to_vec(),
        label.to_vec(),
    ]
}

/// The small book and what each fault makes of it, with each label.
fn several_faults() -> Vec<Call> {
    let good = Book::small().bytes();
    let spoiled = faults(EQUAL_LABEL).map(|fault| with_faults(&good, &[fault]));
    with_each_label(&[&[good][..], &spoiled].concat())
}

/// The small book with its second label below every other, with each label.
fn undoing_faults() -> Vec<Call> {
    with_each_label(&[with_faults(&Book::small().bytes(), &[LEAST_LABEL])])
}

fn with_each_label(books: &[Vec<u8>]) -> Vec<Call> {
    let mut calls = Vec::new();
    for label in labels_in_order() {
        let books = books.iter().map(|bytes| Piece::literal(bytes));
        calls.extend(books.map(|book| look_up(&book, &label)));
    }
    calls
}
