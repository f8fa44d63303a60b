//! Books and labels that the cases are made of: document 02, "Paper 2".

use super::case::{Call, Group};
use super::instance::Shape;
use super::piece::Piece;
use crate::book::{self, ENTRY, HEAD};
use crate::label::{packed, unpacked, Label, FILLER, HALVES, LABEL};
use crate::random::Generator;

/// After how many cards with keys of one byte the offsets' low bytes repeat.
const REGULAR: usize = 256;

/// The bytes of a label, well-formed or not.
pub type LabelBytes = [u8; LABEL];

/// What a book is made of. It is laid out as a book, but need not be well-formed.
#[derive(Clone, Debug)]
pub struct Book {
    pub shape: Shape,
    pub labels: Vec<LabelBytes>,
    pub keys: Vec<u8>,
}

impl Book {
    /// Random labels and keys.
    pub fn random(random: &mut Generator, shape: Shape, count: usize) -> Book {
        let labels = random_labels(random, count);
        Book::of(random, shape, labels)
    }

    /// Random keys for these labels.
    pub fn of(random: &mut Generator, shape: Shape, labels: Vec<LabelBytes>) -> Book {
        let keys = shape.random_elements(random, labels.len() * shape.m());
        Book {
            shape,
            labels,
            keys,
        }
    }

    /// These labels, and keys that are short in a file if q is 251: the first bytes of the book over
    /// and over, as remainders by q.
    pub fn patterned(shape: Shape, labels: Vec<LabelBytes>, period: usize) -> Book {
        let count = labels.len();
        let mut book = Book {
            shape,
            labels,
            keys: Vec::new(),
        };
        let front = book.bytes();
        let all = Piece::repeated(&front[..period], front.len() + count * shape.m());
        let keys = all.expanded().split_off(front.len());
        book.keys = keys.iter().map(|byte| byte % shape.q).collect();
        book
    }

    /// The largest book, 220,007 bytes. The period of its keys is all that stands before them.
    pub fn largest() -> Book {
        let labels = random_labels(&mut Generator::from_seed(162), 2_000);
        let period = HEAD + labels.len() * ENTRY;
        Book::patterned(Shape::new(251, 96, 96), labels, period)
    }

    /// Many cards with keys of one byte. A card's label differs from that of 256 cards before in one
    /// byte only, and so does its offset, so that the book is short in a file.
    pub fn many(count: usize) -> Book {
        let numbers = (0..count).map(|card| [card / REGULAR, card % REGULAR]);
        let labels = numbers.map(|[block, card]| {
            let number = 8_944_100_000_000_000_000 + 100_000 * block + card;
            label_at(11 * u128::try_from(number).expect("a small number"))
        });
        Book::patterned(Shape::new(251, 3, 1), labels.collect(), REGULAR * ENTRY)
    }

    /// Three cards, the second with F at its end and the small key's v.
    pub fn small() -> Book {
        let iccids = [
            "89441000000000000123",
            "8944100000000000013",
            "89441000000000000200",
        ];
        let labels = iccids.map(|iccid| Label::of_iccid(iccid).expect("digits").bytes());
        Book {
            shape: Shape::new(7, 2, 2),
            labels: labels.to_vec(),
            keys: vec![3, 1, 5, 6, 0, 4],
        }
    }

    /// q, n, m.
    pub fn numbers(&self) -> [u8; 3] {
        [self.shape.q, self.shape.n, self.shape.m]
    }

    pub fn bytes(&self) -> Vec<u8> {
        book::write(self.numbers(), &self.labels.concat(), &self.keys)
    }

    /// The bytes in short form: by the period of all that stands before the keys, by that of regular
    /// labels, or as they are, whichever is shortest.
    pub fn piece(&self) -> Piece {
        let bytes = self.bytes();
        let periods = [bytes.len() - self.keys.len(), REGULAR * ENTRY];
        shortest(&bytes, &periods)
    }

    /// All labels in short form.
    pub fn labels_piece(&self) -> Piece {
        shortest(&self.labels.concat(), &[REGULAR * LABEL])
    }

    pub fn changed(&self, change: impl FnOnce(&mut Book)) -> Book {
        let mut book = self.clone();
        change(&mut book);
        book
    }
}

/// The bytes by one of the periods, whichever is shortest.
fn shortest(bytes: &[u8], periods: &[usize]) -> Piece {
    let pieces = periods.iter().map(|&period| {
        let pattern = &bytes[..period.min(bytes.len())];
        Piece::ending_with(bytes, &Piece::repeated(pattern, bytes.len()))
    });
    pieces.min_by_key(Piece::size).expect("a period")
}

/// A label with one half changed.
pub fn with_half(label: LabelBytes, half: usize, value: u8) -> LabelBytes {
    let mut halves = unpacked(label);
    halves[half] = value;
    packed(halves)
}

/// The label whose halves are all this digit.
pub fn all_halves(digit: u8) -> LabelBytes {
    packed([digit; HALVES])
}

/// The label at a place in the order of all labels, from 0 on. The twentieth half has eleven
/// values, F the last.
pub fn label_at(place: u128) -> LabelBytes {
    let mut halves = [0; HALVES];
    let mut left = place / 11;
    for half in halves[..HALVES - 1].iter_mut().rev() {
        *half = u8::try_from(left % 10).expect("a digit");
        left /= 10;
    }
    assert_eq!(left, 0, "a label's place");
    halves[HALVES - 1] = match place % 11 {
        10 => FILLER,
        digit => u8::try_from(digit).expect("a digit"),
    };
    packed(halves)
}

/// The place of a label in the order of all labels.
pub fn place_of(label: LabelBytes) -> u128 {
    let [digits @ .., last] = unpacked(label);
    let digits = digits.iter();
    let number = digits.fold(0, |high, &digit| 10 * high + u128::from(digit));
    11 * number + u128::from(last.min(10))
}

/// Rising labels, some of them next to each other and some far apart.
pub fn random_labels(random: &mut Generator, count: usize) -> Vec<LabelBytes> {
    let mut place = 5 * u128::from(random.word());
    let labels = (0..count).map(|_| {
        let digits = u32::try_from(random.below(16)).expect("a small number");
        place += 1 + u128::from(random.below(11u64.pow(digits)));
        label_at(place)
    });
    labels.collect()
}

/// A fault of what a call is given.
pub type Fault<T> = fn(&mut T);

/// Something good with faults, the first of them made last.
pub fn with_faults<T: Clone>(good: &T, faults: &[Fault<T>]) -> T {
    let mut spoiled = good.clone();
    for fault in faults.iter().rev() {
        fault(&mut spoiled);
    }
    spoiled
}

/// Something good with each fault alone and in pairs.
pub fn alone_and_in_pairs<T: Clone>(good: &T, faults: &[Fault<T>]) -> Vec<T> {
    let mut spoiled = Vec::new();
    for (i, &fault) in faults.iter().enumerate() {
        spoiled.push(with_faults(good, &[fault]));
        let others = faults[i + 1..].iter();
        spoiled.extend(others.map(|&other| with_faults(good, &[fault, other])));
    }
    spoiled
}

/// All but those that are among the others.
pub fn not_among<T: PartialEq>(others: &[T], mut all: Vec<T>) -> Vec<T> {
    all.retain(|one| !others.contains(one));
    all
}

/// A group of a call's cases.
pub fn group(call: &str, topic: &str, cases: Vec<Call>) -> Group {
    let name = format!("book {call}, {topic}");
    Group { name, cases }
}
