//! Document 02, "Paper 2": labels and their order; what the writer of books makes, the reader takes
//! and the lookup finds, and their refusals in order.

use reference::entries::{evaluate, look_up, read_book, write_book, WriteBook, ABSENT};
use reference::field::ORDERS;
use reference::label::Label;
use reference::random::Generator;
use reference::refusal::Refusal;
use reference::vectors::books::{label_at, place_of, with_half, Book};
use reference::vectors::honest::SMALL_S;
use reference::vectors::instance::Shape;
use reference::vectors::maps::SMALL;

/// The writer's arguments, the output by its length.
#[derive(Clone)]
struct Writing {
    count: u32,
    numbers: [u8; 3],
    labels: Vec<u8>,
    keys: Vec<u8>,
    out: usize,
}

impl Writing {
    fn of(book: &Book) -> Writing {
        Writing {
            count: u32::try_from(book.labels.len()).expect("a small count"),
            numbers: book.numbers(),
            labels: book.labels.concat(),
            keys: book.keys.clone(),
            out: 7 + book.labels.len() * 14 + book.keys.len(),
        }
    }

    /// What a book that is not refused was written from, by its layout.
    fn read_from(book: &[u8]) -> Writing {
        let (number, fields) = reading(book);
        assert_eq!(number, 0);
        let count = u32::from_le_bytes(fields[..4].try_into().expect("four bytes"));
        let entries = book[7..].chunks(14).take(count as usize);
        let m = usize::from(fields[6]);
        let mut writing = Writing {
            count,
            numbers: fields[4..].try_into().expect("three numbers"),
            labels: Vec::new(),
            keys: Vec::new(),
            out: book.len(),
        };
        for entry in entries {
            let offset = u32::from_le_bytes(entry[10..].try_into().expect("four bytes"));
            writing.labels.extend(&entry[..10]);
            writing.keys.extend(&book[offset as usize..][..m]);
        }
        writing
    }

    fn changed(&self, change: impl Fn(&mut Writing)) -> Writing {
        let mut changed = self.clone();
        change(&mut changed);
        changed
    }

    /// Its number and the output, which is to stay as it was if the call is refused.
    fn write(&self) -> (u8, Vec<u8>) {
        let mut out = vec![254; self.out];
        let number = write_book(WriteBook {
            count: self.count,
            numbers: self.numbers,
            labels: &self.labels,
            keys: &self.keys,
            out: &mut out,
        });
        assert!(number == 0 || out.iter().all(|&byte| byte == 254));
        (number, out)
    }
}

/// A book's number and its fields, which are to stay as they were if it is refused.
fn reading(book: &[u8]) -> (u8, [u8; 7]) {
    let mut fields = [254; 7];
    let number = read_book(book, &mut fields);
    assert!(number == 0 || fields == [254; 7]);
    (number, fields)
}

/// What a lookup answers, which leaves the output unless it finds a key.
fn found(book: &[u8], label: &[u8]) -> (u8, [u8; 96]) {
    let mut key = [254; 96];
    let number = look_up(book, label, &mut key);
    assert!(number == 0 || key == [254; 96]);
    (number, key)
}

#[test]
fn layout_of_a_small_book() {
    let book = [
        [3, 0, 0, 0, 7, 2, 2].to_vec(),
        [0x98, 0x44, 0x01, 0, 0, 0, 0, 0, 0x10, 0x32].to_vec(),
        [49, 0, 0, 0].to_vec(),
        [0x98, 0x44, 0x01, 0, 0, 0, 0, 0, 0x10, 0xf3].to_vec(),
        [51, 0, 0, 0].to_vec(),
        [0x98, 0x44, 0x01, 0, 0, 0, 0, 0, 0x20, 0].to_vec(),
        [53, 0, 0, 0].to_vec(),
        [3, 1, 5, 6, 0, 4].to_vec(),
    ];
    let book = book.concat();
    assert_eq!(Writing::of(&Book::small()).write(), (0, book.clone()));
    assert_eq!(reading(&book), (0, [3, 0, 0, 0, 7, 2, 2]));
    let mut key = [0; 96];
    assert_eq!(evaluate(&SMALL, &SMALL_S, &mut key[..2]), 0);
    assert_eq!(found(&book, &book[21..31]), (0, key));
}

/// ICCIDs of twenty and of nineteen digits to labels and back; F as the twentieth of twenty.
#[test]
fn iccids() {
    let bytes = |iccid: &str| Label::of_iccid(iccid).map(Label::bytes);
    let twenty = [0x21, 0x43, 0x65, 0x87, 0x09, 0x21, 0x43, 0x65, 0x87, 0x09];
    assert_eq!(bytes("12345678901234567890"), Ok(twenty));
    let nineteen = with_half(twenty, 19, 15);
    assert_eq!(bytes("1234567890123456789"), Ok(nineteen));
    assert_eq!(bytes("1234567890123456789F"), Ok(nineteen));
    for (label, iccid) in [
        (twenty, "12345678901234567890"),
        (nineteen, "1234567890123456789"),
    ] {
        assert_eq!(
            Label::of_bytes(&label).map(Label::iccid),
            Ok(iccid.to_string())
        );
    }
    for length in (0..19).chain(21..25) {
        assert_eq!(bytes(&"x".repeat(length)), Err(Refusal::Length));
    }
    for place in 0..20 {
        for wrong in ["A", "E", "F", "f", "/", ":", " ", "-"] {
            for length in [19, 20] {
                let mut iccid = "5".repeat(length);
                if place < length {
                    iccid.replace_range(place..=place, wrong);
                    let right = wrong == "F" && place == 19;
                    assert_eq!(bytes(&iccid).is_ok(), right, "{iccid}");
                }
            }
        }
    }
}

/// The order of labels is that of their places, which are numbers.
#[test]
fn order() {
    let mut random = Generator::from_seed(210);
    let last = 11 * 10_u128.pow(19) - 1;
    let mut places = vec![0, 9, 10, 11, last];
    for digits in 0..19 {
        let power = 11 * 10_u128.pow(digits);
        places.extend([
            power - 1,
            power,
            power + 1,
            power * random.below(10) as u128,
        ]);
    }
    places.extend((0..40).map(|_| u128::from(random.word()) * 5));
    for &a in &places {
        let label = Label::of_bytes(&label_at(a)).expect("a label");
        assert_eq!(place_of(label.bytes()), a);
        for &b in &places {
            let other = Label::of_bytes(&label_at(b)).expect("a label");
            assert_eq!(label.cmp(&other), a.cmp(&b));
        }
    }
}

/// What is written is read as it was, and each card is found with its key.
#[test]
fn round_trip() {
    let mut random = Generator::from_seed(211);
    for (q, n, m, count) in [
        (2, 1, 1, 0),
        (7, 2, 2, 1),
        (31, 5, 96, 40),
        (251, 96, 1, 300),
    ] {
        let book = Book::random(&mut random, Shape::new(q, n, m), count);
        let (number, bytes) = Writing::of(&book).write();
        assert_eq!(number, 0);
        let read = Writing::read_from(&bytes);
        assert_eq!(read.count as usize, count);
        assert_eq!(read.numbers, [q, n, m]);
        assert_eq!(read.labels, book.labels.concat());
        assert_eq!(read.keys, book.keys);
        for (label, key) in book.labels.iter().zip(book.keys.chunks(m.into())) {
            let (number, out) = found(&bytes, label);
            assert_eq!((number, &out[..m.into()]), (0, key));
            assert!(out[m.into()..].iter().all(|&byte| byte == 0));
            let above = label_at(place_of(*label) + 1);
            let expected = if book.labels.contains(&above) {
                0
            } else {
                ABSENT
            };
            assert_eq!(found(&bytes, &above).0, expected);
        }
    }
}

/// Every book that is read is the one that the writer makes of its fields, also after one or two
/// bytes were changed.
#[test]
fn every_accepted_book_is_written_so() {
    let mut random = Generator::from_seed(212);
    let mut accepted = 0;
    for q in ORDERS {
        let good = Book::random(&mut random, Shape::new(q, 3, 4), 3).bytes();
        for _ in 0..4000 {
            let mut book = good.clone();
            for _ in 0..1 + random.below(2) {
                let place = random.below(good.len() as u64) as usize;
                book[place] = random.byte_below(256);
            }
            if reading(&book).0 == 0 {
                assert_eq!(Writing::read_from(&book).write(), (0, book));
                accepted += 1;
            }
        }
    }
    assert!((1000..8000).contains(&accepted), "{accepted}");
}

/// A change of a book.
type Fault = (u8, fn(&mut Vec<u8>));

/// The small book's faults in their order.
const FAULTS: [Fault; 16] = [
    (6, |b| b.truncate(6)),
    (6, |b| b[..2].copy_from_slice(&[0xd1, 7])),
    (6, |b| b[3] = 255),
    (1, |b| b[4] = 16),
    (1, |b| b[5] = 97),
    (1, |b| b[6] = 0),
    (6, |b| b[17] = 48),
    (6, |b| b[48] = 1),
    (6, |b| b.truncate(54)),
    (6, |b| b.push(0)),
    (12, |b| b[7] = 0xf8),
    (13, |b| b.copy_within(7..17, 21)),
    (12, |b| b[44] = 0xa0),
    (13, |b| b[35] = 0x88),
    (3, |b| b[49] = 7),
    (3, |b| b[54] = 255),
];

/// Each fault of a book with its number; of two at once the earlier test counts. The lookup has the
/// same, whatever is looked up.
#[test]
fn read_in_order() {
    let good = Book::small().bytes();
    let number = |book: &[u8]| {
        let (number, _) = reading(book);
        for label in [&good[7..17], &[255; 10], &[]] {
            assert_eq!(found(book, label).0, number);
        }
        number
    };
    for (i, (refusal, fault)) in FAULTS.iter().enumerate() {
        let mut book = good.clone();
        fault(&mut book);
        assert_eq!(number(&book), *refusal, "{i}");
        for (j, (_, later)) in FAULTS.iter().enumerate().skip(i + 1) {
            let mut book = good.clone();
            later(&mut book);
            fault(&mut book);
            assert_eq!(number(&book), *refusal, "{i} {j}");
        }
    }
}

/// Each fault of a writing with its number; of two at once the earlier test counts.
#[test]
fn write_in_order() {
    type Fault = (u8, fn(&mut Writing));
    let faults: [Fault; 15] = [
        (6, |w| w.count = 2_001),
        (6, |w| w.count += 1 << 16),
        (1, |w| w.numbers[0] = 16),
        (1, |w| w.numbers[1] = 0),
        (1, |w| w.numbers[2] = 97),
        (2, |w| w.labels.push(0)),
        (2, |w| w.keys.push(0)),
        (2, |w| w.out += 1),
        (2, |w| w.out -= 2),
        (12, |w| w.labels[0] = 0xf8),
        (13, |w| w.labels.copy_within(..10, 10)),
        (12, |w| w.labels[29] = 0xa0),
        (13, |w| w.labels[20] = 0x88),
        (3, |w| w.keys[0] = 7),
        (3, |w| w.keys[5] = 255),
    ];
    let good = Writing::of(&Book::small());
    for (i, (number, fault)) in faults.iter().enumerate() {
        assert_eq!(good.changed(fault).write().0, *number, "{i}");
        for (j, (_, later)) in faults.iter().enumerate().skip(i + 1) {
            let both = good.changed(later).changed(fault);
            assert_eq!(both.write().0, *number, "{i} {j}");
        }
    }
}

/// A label that is looked up: 2 before 12, and 12 before absent.
#[test]
fn looked_up_in_order() {
    let good = Book::small().bytes();
    for length in [0, 9, 11, 20] {
        assert_eq!(found(&good, &vec![255; length]).0, 2);
    }
    for half in 0..20 {
        for value in 10..16 {
            let expected = if half == 19 && value == 15 {
                ABSENT
            } else {
                12
            };
            let label = with_half([0x11; 10], half, value);
            assert_eq!(found(&good, &label).0, expected);
        }
    }
    assert_eq!(found(&good, &[0x11; 10]).0, ABSENT);
}

/// The largest count passes, and one more does not, with all three calls.
#[test]
fn largest_count() {
    let largest = Book::largest();
    let (number, bytes) = Writing::of(&largest).write();
    assert_eq!((number, bytes.len()), (0, 220_007));
    assert_eq!(reading(&bytes), (0, [208, 7, 0, 0, 251, 96, 96]));
    let (number, key) = found(&bytes, &largest.labels[1_999]);
    assert_eq!((number, &key[..]), (0, &bytes[219_911..]));
    let more = Book::many(2_001);
    assert_eq!(Writing::of(&more).write().0, 6);
    assert_eq!(reading(&more.bytes()).0, 6);
    assert_eq!(found(&more.bytes(), &more.labels[0]).0, 6);
}
