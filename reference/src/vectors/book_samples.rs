//! The book program's samples: books in files, and runs of the program on them.

use super::books::{label_at, place_of, Book};
use super::edges::{longer, Runs};
use super::instance::Shape;
use super::samples::{file, folder, hex};
use super::Stored;
use crate::book;
use crate::label::{Label, LABEL};
use crate::random::Generator;
use crate::refusal::Refusal;

/// The program, which is the folder that the samples lie in.
pub const PROGRAM: &str = "book";

/// The run that the program's own folder has the arguments and the output of.
const STORED_RUN: &str = "small";

/// All files of the folder. Some of the runs are on files that are not stored.
pub fn stored() -> Vec<Stored> {
    let samples = samples();
    let printed = printed(&samples, STORED_RUN);
    folder(PROGRAM, STORED_RUN, printed, runs().text(PROGRAM), samples)
}

/// The small book, and the same with its last label below the one before.
fn samples() -> Vec<Stored> {
    let small = Book::small();
    let damaged = small.changed(|book| book.labels.swap(1, 2));
    vec![
        file("small", small.bytes()),
        file("damaged", damaged.bytes()),
    ]
}

/// The files of all runs, and the runs.
pub fn runs() -> Runs {
    let files = files();
    let of_large = of_large();
    let runs = SMALL_RUNS.iter().map(|run| run.to_string());
    let runs = runs.chain(of_large).chain(NO_BOOKS.map(str::to_string));
    let runs = runs.map(|run| {
        let printed = printed(&files, &run);
        (run, printed)
    });
    Runs {
        runs: runs.collect(),
        files,
    }
}

/// Runs on small books: lists and refused books; each card; absent cards; ICCIDs of wrong lengths and
/// with wrong characters; and refused books with an ICCID, right or wrong.
const SMALL_RUNS: [&str; 48] = [
    "small",
    "twelve",
    "empty",
    "damaged",
    "short/small",
    "short/empty",
    "long/small",
    "long/empty",
    "nothing",
    "half",
    "element",
    "value",
    "count",
    "small 89441000000000000123",
    "small 8944100000000000013",
    "small 8944100000000000013F",
    "small 89441000000000000200",
    "small 8944100000000000012",
    "small 8944100000000000012F",
    "small 89441000000000000130",
    "small 89441000000000000139",
    "small 8944100000000000020",
    "small 00000000000000000000",
    "small 9999999999999999999",
    "empty 89441000000000000123",
    "small 894410000000000001",
    "small 894410000000000001230",
    "small 8",
    "small 8944100000000000013FF",
    "small 89441000000000000123000000000000",
    "small 894410000000000001230000000000000",
    "small 89441000000000000/23",
    "small 8944100000000000012:",
    "small A9441000000000000123",
    "small 8944100000000000013f",
    "small 8944100000000000013E",
    "small 894410000000000001F",
    "small 894410000000000001FF",
    "small F9441000000000000123",
    "small -8944100000000000123",
    "small 894410000000000-01",
    "damaged 89441000000000000123",
    "damaged 8944100000000000013X",
    "damaged 1",
    "damaged 894410000000000001230000000000000",
    "long/small 1",
    "value 8944100000000000013X",
    "element 89441000000000000123",
];

/// Runs that print nothing: no file, one argument too many, and a file that is not there.
const NO_BOOKS: [&str; 4] = [
    "",
    "small 89441000000000000123 89441000000000000123",
    "missing",
    "missing 89441000000000000123",
];

/// Cards of the largest book: the first, a middle and the last one, and labels next to them; and
/// files that are longer than any book.
fn of_large() -> Vec<String> {
    let labels = Book::largest().labels;
    let next = |card: usize, above: bool| {
        let place = place_of(labels[card]);
        label_at(if above { place + 1 } else { place - 1 })
    };
    let looked_up = [
        labels[0],
        labels[1_000],
        labels[1_999],
        next(0, false),
        next(1_000, true),
        next(1_999, true),
    ];
    let runs = looked_up.map(|label| format!("large {}", iccid(label)));
    let over = ["over/large", "over/value"].map(str::to_string);
    let with_iccid = format!("over/large {}", iccid(labels[0]));
    runs.into_iter().chain(over).chain([with_iccid]).collect()
}

fn iccid(label: [u8; LABEL]) -> String {
    let label = Label::of_bytes(&label).expect("a label of a book");
    label.iccid()
}

/// The files that runs are on: the samples; books of no and of twelve cards; the small and the empty
/// book without their last byte and with one more; faults of each kind; the largest book, and longer
/// files.
fn files() -> Vec<Stored> {
    let mut random = Generator::from_seed(229);
    let small = Book::small().bytes();
    let empty = Book::random(&mut random, Shape::new(31, 5, 4), 0).bytes();
    let twelve = Book::random(&mut random, Shape::new(251, 96, 6), 12).bytes();
    let mut files = samples();
    for (name, bytes) in [("small", &small), ("empty", &empty)] {
        let short = bytes[..bytes.len() - 1].to_vec();
        files.push(file(&format!("short/{name}"), short));
        files.push(file(
            &format!("long/{name}"),
            longer(bytes, bytes.len() + 1),
        ));
    }
    files.extend([
        file("empty", empty),
        file("twelve", twelve),
        file("nothing", Vec::new()),
        file("half", patched(&small, 8, 0x4a)),
        file("element", patched(&small, small.len() - 1, 7)),
        file("value", patched(&small, 4, 16)),
        file("count", patched(&small, 2, 1)),
    ]);
    let large = Book::largest().bytes();
    let over = longer(&large, large.len() + 1);
    files.extend([
        file("over/value", patched(&over, 4, 16)),
        file("over/large", over),
        file("large", large),
    ]);
    files
}

fn patched(bytes: &[u8], place: usize, byte: u8) -> Vec<u8> {
    let mut bytes = bytes.to_vec();
    bytes[place] = byte;
    bytes
}

/// What the program prints for these arguments: nothing, unless they are a file that there is, and
/// an ICCID or none.
fn printed(files: &[Stored], run: &str) -> String {
    let mut words = run.split(' ');
    let path = words.next().unwrap_or_default();
    let book = files.iter().find(|file| file.path == path);
    let arguments = (book, words.next(), words.next());
    let (Some(book), iccid, None) = arguments else {
        return String::new();
    };
    text(&book.bytes, iccid)
}

/// All cards of a book, or the key of the one with this ICCID.
pub fn text(book: &[u8], iccid: Option<&str>) -> String {
    let book = book::Book::read(book);
    let text = book.and_then(|book| match iccid {
        Some(iccid) => found(&book, iccid),
        None => Ok(list(&book)),
    });
    text.unwrap_or_else(|refusal| format!("refused {}\n", refusal.number()))
}

/// A line of numbers, then one for each card.
fn list(book: &book::Book) -> String {
    let book::Head { count, size } = book.head;
    let (q, n, m) = (size.field.order(), size.n, size.m);
    let head = format!("q {q} n {n} m {m} count {count}\n");
    let cards = book.cards.iter();
    let lines = cards.map(|card| format!("{} {}\n", card.label.iccid(), hex(&card.key)));
    [head].into_iter().chain(lines).collect()
}

/// The key, or that there is none.
fn found(book: &book::Book, iccid: &str) -> Result<String, Refusal> {
    let key = book.key(Label::of_iccid(iccid)?);
    Ok(key.map_or("absent\n".to_string(), |key| format!("{}\n", hex(key))))
}
