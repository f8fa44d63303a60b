//! Books checked by document 02's formulas alone, and by readers, writers and lookups that are wrong
//! in a known way.

use crate::stored::{cases, groups, made, Case};

/// A byte of a book, 0 beyond its end.
fn at(book: &[u8], place: usize) -> usize {
    book.get(place).map_or(0, |&byte| byte.into())
}

/// So many bytes from a place on, the lowest first.
fn number(book: &[u8], place: usize, bytes: usize) -> usize {
    let bytes = (0..bytes).rev().map(|i| at(book, place + i));
    bytes.fold(0, |high, byte| 256 * high + byte)
}

fn count(book: &[u8]) -> usize {
    number(book, 0, 4)
}

/// q, n, m.
fn numbers(book: &[u8]) -> [usize; 3] {
    [4, 5, 6].map(|place| at(book, place))
}

/// Where a card's key has to start.
fn key_place(book: &[u8], card: usize) -> usize {
    let [_, _, m] = numbers(book);
    7 + 14 * count(book) + m * card
}

/// A card's label.
fn label(book: &[u8], card: usize) -> &[u8] {
    &book[7 + 14 * card..][..10]
}

/// The labels' halves, the first digit first.
fn halves(label: &[u8]) -> Vec<u8> {
    let halves = label.iter().flat_map(|byte| [byte & 15, byte >> 4]);
    halves.collect()
}

/// The halves as digits of one number, which has the labels' order.
fn rank(halves: &[u8]) -> u128 {
    halves
        .iter()
        .fold(0, |high, &half| high << 4 | u128::from(half))
}

fn is_wrong(label: &[u8]) -> bool {
    has_wrong(&halves(label))
}

fn has_wrong(halves: &[u8]) -> bool {
    let last = halves.len() - 1;
    let right = |(place, half): (usize, &u8)| *half <= 9 || (place == last && *half == 15);
    !halves.iter().enumerate().all(right)
}

fn is_above(label: &[u8], before: &[u8]) -> bool {
    rank(&halves(label)) > rank(&halves(before))
}

/// A test of a book: its refusal, if it applies.
type Step<'a> = &'a dyn Fn(&[u8]) -> Option<u8>;

fn size(book: &[u8]) -> Option<u8> {
    (book.len() < 7).then_some(6)
}

fn cards(book: &[u8]) -> Option<u8> {
    (count(book) > 2_000).then_some(6)
}

/// 2,001 cards taken.
fn one_card_more(book: &[u8]) -> Option<u8> {
    (count(book) > 2_001).then_some(6)
}

fn is_good([q, n, m]: [usize; 3]) -> bool {
    [2, 7, 31, 251].contains(&q) && (1..=96).contains(&n) && (1..=96).contains(&m)
}

fn values(book: &[u8]) -> Option<u8> {
    (!is_good(numbers(book))).then_some(1)
}

/// Is the offset of a card another one?
fn is_off(book: &[u8], card: usize) -> bool {
    number(book, 17 + 14 * card, 4) != key_place(book, card)
}

fn table(book: &[u8]) -> Option<u8> {
    (0..count(book)).any(|card| is_off(book, card)).then_some(6)
}

fn total(book: &[u8]) -> Option<u8> {
    (book.len() != key_place(book, count(book))).then_some(6)
}

/// 12 of one entry, by this judgement of labels.
fn wrong(book: &[u8], card: usize, is_wrong: impl Fn(&[u8]) -> bool) -> Option<u8> {
    is_wrong(label(book, card)).then_some(12)
}

/// 13 of one entry, by this order.
fn falls(book: &[u8], card: usize, is_above: impl Fn(&[u8], &[u8]) -> bool) -> Option<u8> {
    let falls = card > 0 && !is_above(label(book, card), label(book, card - 1));
    falls.then_some(13)
}

/// The first entry at fault by these.
fn entries_by(
    book: &[u8],
    is_wrong: impl Fn(&[u8]) -> bool,
    is_above: impl Fn(&[u8], &[u8]) -> bool,
) -> Option<u8> {
    (0..count(book)).find_map(|card| {
        let wrong = wrong(book, card, &is_wrong);
        wrong.or_else(|| falls(book, card, &is_above))
    })
}

fn entries(book: &[u8]) -> Option<u8> {
    entries_by(book, is_wrong, is_above)
}

/// The bytes of all keys.
fn keys(book: &[u8]) -> &[u8] {
    &book[key_place(book, 0)..]
}

fn elements(book: &[u8]) -> Option<u8> {
    let q = at(book, 4);
    keys(book)
        .iter()
        .any(|&byte| usize::from(byte) >= q)
        .then_some(3)
}

const READER: [Step; 7] = [&size, &cards, &values, &table, &total, &entries, &elements];

/// The reader's tests, one of them replaced by others.
fn replaced<'a>(place: usize, by: &[Step<'a>]) -> Vec<Step<'a>> {
    let mut steps: Vec<Step<'a>> = READER.to_vec();
    steps.splice(place..=place, by.iter().copied());
    steps
}

/// The number of a book by these tests, one after another.
fn by(steps: &[Step], book: &[u8]) -> u8 {
    let refusal = steps.iter().find_map(|step| step(book));
    refusal.unwrap_or(0)
}

#[test]
fn readings() {
    for case in cases(24) {
        let book = &case.inputs[0];
        assert_eq!(by(&READER, book), case.number);
        let out = match case.number {
            0 => book[..7].to_vec(),
            _ => vec![case.fill; 7],
        };
        assert_eq!(case.expected, [out]);
    }
}

/// The cases of a group.
fn named(name: &str) -> Vec<Case> {
    let mut groups = made().iter().flat_map(groups);
    let group = groups.find(|(other, _)| other == name);
    group.expect("a group of this name").1
}

/// Each of so many faults alone is refused, and so is each pair, with the number of the first.
#[test]
fn several_faults() {
    for (name, faults) in [
        ("book read, several faults", 18),
        ("book write, several faults", 15),
    ] {
        let cases = named(name);
        let mut numbers = cases.iter().map(|case| case.number);
        for later in (0..faults).rev() {
            let alone = numbers.next();
            assert!(alone.is_some_and(|number| number != 0), "{name}");
            for _ in 0..later {
                assert_eq!(numbers.next(), alone, "{name}");
            }
        }
        assert_eq!(numbers.next(), None, "{name}");
    }
}

/// With a second label below every other each book is refused, with the number of the first fault. So is
/// each writing with such a label or an output that is a byte too long, but for a byte too short besides.
#[test]
fn faults_that_may_undo_each_other() {
    let of_call = |call: &str| named(&format!("book {call}, faults that may undo each other"));
    let numbers = |cases: &[Case]| -> Vec<u8> { cases.iter().map(|case| case.number).collect() };
    let [read, written, looked_up] = ["read", "write", "lookup"].map(of_call);
    let before = [6, 6, 1, 1, 1, 6, 6, 6, 6, 12];
    assert_eq!(numbers(&read), [&before[..], &[13; 5]].concat());
    assert_eq!(numbers(&looked_up), [13; 5]);
    for case in read.iter().chain(&looked_up) {
        assert_eq!(case.inputs[0][21], 0);
    }
    let before = [&[6; 4][..], &[1; 6], &[2; 4], &[0], &[2; 7], &[12]];
    assert_eq!(numbers(&written), [&before.concat()[..], &[13; 5]].concat());
    for case in written.iter().filter(|case| case.number != 0) {
        assert!(case.inputs[2][10] == 0 || case.expected[0].len() == 56);
    }
}

/// Each card is looked up at every length of the small book, and found in the whole book alone.
#[test]
fn every_truncation() {
    let cases = named("book lookup, every truncation");
    let lengths = cases.iter().map(|case| case.inputs[0].len());
    assert!(lengths.eq((0..=56).flat_map(|length| [length; 3])));
    for case in &cases {
        let expected = if case.inputs[0].len() == 55 { 0 } else { 6 };
        assert_eq!(case.number, expected);
    }
}

/// In how many of the stored books another reader answers something else.
fn told(readings: &[Case], steps: &[Step]) -> usize {
    let told = readings
        .iter()
        .filter(|case| by(steps, &case.inputs[0]) != case.number);
    told.count()
}

/// Each test left out but the size, without which there is nothing to read; the table and the length
/// where the file has room for the entries, which the tests behind them take for granted.
#[test]
fn tests_left_out() {
    let readings = cases(24);
    let no_total = |book: &[u8]| (book.len() < key_place(book, count(book))).then_some(6);
    assert!(told(&readings, &replaced(1, &[])) >= 2);
    assert!(told(&readings, &replaced(3, &[])) >= 2);
    assert!(told(&readings, &replaced(4, &[&no_total])) >= 2);
    assert!(told(&readings, &replaced(5, &[])) >= 2);
    assert!(told(&readings, &replaced(6, &[])) >= 2);
}

/// The tests in another order.
#[test]
fn tests_in_another_order() {
    let readings = cases(24);
    let orders: [&[Step]; 6] = [
        &[&size, &values, &cards, &table, &total, &entries, &elements],
        &[&size, &cards, &table, &values, &total, &entries, &elements],
        &[&size, &cards, &total, &table, &values, &entries, &elements],
        &[&values, &size, &cards, &table, &total, &entries, &elements],
        &[&size, &cards, &values, &total, &entries, &table, &elements],
        &[&size, &cards, &values, &table, &total, &elements, &entries],
    ];
    for (i, steps) in orders.iter().enumerate() {
        assert!(told(&readings, steps) >= 2, "{i}");
    }
}

/// Counts of 2,001 taken, and counts of which the high bytes are not read.
#[test]
fn wrong_counts() {
    let readings = cases(24);
    assert!(told(&readings, &replaced(1, &[&one_card_more])) >= 1);
    for bytes in 1..=3 {
        let steps: &[Step] = &[
            &size,
            &|book| (number(book, 0, bytes) > 2_000).then_some(6),
            &|book| {
                let mut low = book.to_vec();
                low[bytes..4].fill(0);
                Some(by(&READER, &low)).filter(|&number| number > 0)
            },
        ];
        assert!(told(&readings, steps) >= 2, "{bytes}");
    }
}

/// q, n or m of another value taken.
#[test]
fn wrong_values() {
    let readings = cases(24);
    for (place, value) in [(0, 16), (0, 4), (1, 0), (1, 97), (2, 0), (2, 97)] {
        let values = |book: &[u8]| {
            let mut numbers = numbers(book);
            if numbers[place] == value {
                numbers[place] = 2;
            }
            (!is_good(numbers)).then_some(1)
        };
        assert!(
            told(&readings, &replaced(2, &[&values])) >= 1,
            "{place} {value}"
        );
    }
}

/// The first, the last or all offsets but the first not compared, or only their low bytes.
#[test]
fn wrong_tables() {
    let readings = cases(24);
    let wrong: [Step; 5] = [
        &|book| (1..count(book)).any(|card| is_off(book, card)).then_some(6),
        &|book| {
            let last = count(book).saturating_sub(1);
            (0..last).any(|card| is_off(book, card)).then_some(6)
        },
        &|book| {
            (0..count(book).min(1))
                .any(|card| is_off(book, card))
                .then_some(6)
        },
        &|book| low_bytes_off(book, 2),
        &|book| low_bytes_off(book, 3),
    ];
    for (i, step) in wrong.iter().enumerate() {
        assert!(told(&readings, &replaced(3, &[*step])) >= 2, "{i}");
    }
}

/// The table compared by the low bytes of each offset.
fn low_bytes_off(book: &[u8], bytes: usize) -> Option<u8> {
    let low = |number: usize| number % (1 << (8 * bytes));
    let mut cards = 0..count(book);
    let off = |card| number(book, 17 + 14 * card, bytes) != low(key_place(book, card));
    cards.any(off).then_some(6)
}

/// 13 before 12 in one entry.
fn order_first(book: &[u8]) -> Option<u8> {
    let mut cards = 0..count(book);
    cards.find_map(|card| falls(book, card, is_above).or(wrong(book, card, is_wrong)))
}

/// Entries at fault in another order: 13 before 12 in one entry; all 12 before all 13; the last one.
#[test]
fn wrong_order_of_entries() {
    let readings = cases(24);
    let thirteen = |book: &[u8], card| falls(book, card, is_above);
    let twelve = |book: &[u8], card| wrong(book, card, is_wrong);
    let orders: [Step; 4] = [
        &order_first,
        &|book| {
            let first = (0..count(book)).find_map(|card| twelve(book, card));
            first.or_else(|| (0..count(book)).find_map(|card| thirteen(book, card)))
        },
        &|book| {
            let first = (0..count(book)).find_map(|card| thirteen(book, card));
            first.or_else(|| (0..count(book)).find_map(|card| twelve(book, card)))
        },
        &|book| first_fault(book, (0..count(book)).rev()),
    ];
    for (i, step) in orders.iter().enumerate() {
        assert!(told(&readings, &replaced(5, &[*step])) >= 2, "{i}");
    }
}

/// Another order of labels.
type Above = fn(&[u8], &[u8]) -> bool;

/// The halves of each byte the other way round.
fn swapped(label: &[u8]) -> Vec<u8> {
    let halves = label.iter().flat_map(|byte| [byte >> 4, byte & 15]);
    halves.collect()
}

/// F below every digit.
fn with_filler_first(label: &[u8]) -> Vec<u8> {
    let halves = halves(label);
    halves.iter().map(|half| (half + 1) % 16).collect()
}

/// F as if it were 9.
fn with_filler_as_nine(label: &[u8]) -> Vec<u8> {
    halves(label).iter().map(|&half| half.min(9)).collect()
}

fn reversed(label: &[u8]) -> Vec<u8> {
    halves(label).into_iter().rev().collect()
}

/// Labels that follow each other as the book must not have them.
const ABOVE: [Above; 8] = [
    |a, b| rank(&halves(a)) >= rank(&halves(b)),
    |a, b| rank(&swapped(a)) > rank(&swapped(b)),
    |a, b| rank(&with_filler_first(a)) > rank(&with_filler_first(b)),
    |a, b| rank(&with_filler_as_nine(a)) > rank(&with_filler_as_nine(b)),
    |a, b| rank(&reversed(a)) > rank(&reversed(b)),
    |a, b| rank(&halves(a)[..19]) > rank(&halves(b)[..19]),
    |a, b| rank(&halves(a)[1..]) > rank(&halves(b)[1..]),
    |a, b| a != b,
];

/// The order of labels with an equal one let through, by high halves first, with F before 9 or equal
/// to it, from the last half on, without the last or the first half, and without any.
#[test]
fn wrong_orders_of_labels() {
    let [readings, writings] = [cases(24), cases(25)];
    for (i, above) in ABOVE.iter().enumerate() {
        let step = |book: &[u8]| entries_by(book, is_wrong, above);
        let steps = replaced(5, &[&step]);
        assert!(told(&readings, &steps) >= 2, "{i}");
        let told = writings
            .iter()
            .filter(|case| written(case, &steps) != case.number);
        assert!(told.count() >= 2, "{i}");
    }
}

/// Each half by itself not compared, or not looked at; and each half of another value taken.
#[test]
fn every_half() {
    let readings = cases(24);
    for half in 0..20 {
        let without = |label: &[u8]| {
            let mut halves = halves(label);
            halves.remove(half);
            rank(&halves)
        };
        let step = |book: &[u8]| entries_by(book, is_wrong, |a, b| without(a) > without(b));
        assert!(told(&readings, &replaced(5, &[&step])) >= 2, "{half}");
        for value in 10..16 {
            let other = |label: &[u8]| {
                let mut halves = halves(label);
                if halves[half] == value {
                    halves[half] = 0;
                }
                has_wrong(&halves)
            };
            let step = |book: &[u8]| entries_by(book, other, is_above);
            let told = told(&readings, &replaced(5, &[&step]));
            let right = half == 19 && value == 15;
            assert_eq!(told >= 1, !right, "{half} {value}");
        }
    }
    let never_filler = |label: &[u8]| is_wrong(label) || halves(label)[19] == 15;
    let step = |book: &[u8]| entries_by(book, never_filler, is_above);
    assert!(told(&readings, &replaced(5, &[&step])) >= 2);
}

/// Labels or keys of some cards not looked at: those of the first, of the last, of all but these.
#[test]
fn cards_left_out() {
    let readings = cases(24);
    type Left = fn(usize, usize) -> bool;
    let left_out: [Left; 3] = [
        |card, _| card == 0,
        |card, count| card + 1 == count,
        |card, count| card > 0 && card + 1 < count,
    ];
    for (i, left) in left_out.iter().enumerate() {
        let looked_at = |book: &[u8]| {
            let count = count(book);
            (0..count).filter(move |&card| !left(card, count))
        };
        let halves = |book: &[u8]| looked_at(book).find_map(|card| wrong(book, card, is_wrong));
        let order = |book: &[u8]| first_fault(book, looked_at(book));
        let elements = |book: &[u8]| {
            let [q, _, m] = numbers(book);
            let mut keys = looked_at(book).map(|card| &keys(book)[m * card..][..m]);
            let bad = keys.any(|key| key.iter().any(|&byte| usize::from(byte) >= q));
            bad.then_some(3)
        };
        assert!(told(&readings, &replaced(5, &[&order])) >= 2, "{i}");
        assert!(told(&readings, &replaced(5, &[&halves])) >= 2, "{i}");
        assert!(told(&readings, &replaced(6, &[&elements])) >= 2, "{i}");
    }
}

/// The first of these entries at fault.
fn first_fault(book: &[u8], mut cards: impl Iterator<Item = usize>) -> Option<u8> {
    cards.find_map(|card| wrong(book, card, is_wrong).or(falls(book, card, is_above)))
}

/// q taken as an element, and only the first or the last byte of a key looked at.
#[test]
fn wrong_elements() {
    let readings = cases(24);
    let q_taken = |book: &[u8]| {
        let q = at(book, 4);
        keys(book)
            .iter()
            .any(|&byte| usize::from(byte) > q)
            .then_some(3)
    };
    let one_byte = |book: &[u8], place: fn(usize) -> usize| {
        let [q, _, m] = numbers(book);
        let mut bytes = keys(book).iter().skip(place(m)).step_by(m);
        bytes.any(|&byte| usize::from(byte) >= q).then_some(3)
    };
    let steps: [Step; 3] = [&q_taken, &|book| one_byte(book, |_| 0), &|book| {
        one_byte(book, |m| m - 1)
    }];
    for (i, step) in steps.iter().enumerate() {
        assert!(told(&readings, &replaced(6, &[*step])) >= 2, "{i}");
    }
}

// The writer.

/// The book that the arguments make, whatever they are.
fn joined(case: &Case) -> Vec<u8> {
    let [count, numbers, labels, keys] = [0, 1, 2, 3].map(|i| &case.inputs[i]);
    let mut book = [&count[..], numbers].concat();
    for (card, label) in labels.chunks(10).enumerate() {
        let offset = 7 + labels.len() / 10 * 14 + card * usize::from(numbers[2]);
        book.extend(label);
        book.extend((0..4).map(|i| u8::try_from(offset >> (8 * i) & 255).expect("a byte")));
    }
    book.extend(keys);
    book
}

/// Which of labels, keys and output have their lengths.
fn lengths(case: &Case) -> [bool; 3] {
    let book = case.inputs[..2].concat();
    let (count, [_, _, m]) = (count(&book), numbers(&book));
    [
        case.inputs[2].len() == 10 * count,
        case.inputs[3].len() == m * count,
        case.expected[0].len() == 7 + count * (14 + m),
    ]
}

/// The number of a writing: by a reader's tests of the book that it makes, but for the lengths.
fn written(case: &Case, steps: &[Step]) -> u8 {
    let head = case.inputs[..2].concat();
    let of_head = by(&steps[1..3], &head);
    if of_head != 0 {
        of_head
    } else if lengths(case) != [true; 3] {
        2
    } else {
        by(&steps[5..], &joined(case))
    }
}

#[test]
fn writings() {
    for case in cases(25) {
        assert_eq!(written(&case, &READER), case.number);
        let length = case.expected[0].len();
        let out = match case.number {
            0 => joined(&case),
            _ => vec![case.fill; length],
        };
        assert_eq!(case.expected, [out]);
    }
}

/// One of the lengths not compared, all of them before the numbers or after the labels; 2,001 taken;
/// 13 before 12, and 3 before both.
#[test]
fn wrong_writers() {
    type Writer<'a> = &'a dyn Fn(&Case) -> u8;
    let first_two = |case: &Case| match written(case, &READER) {
        6 => 6,
        _ if lengths(case) != [true; 3] => 2,
        number => number,
    };
    let missed = |case: &Case, place: usize| {
        let lengths = lengths(case);
        (0..3).all(|other| other == place || lengths[other]) && !lengths[place]
    };
    let told = |writer: Writer| {
        let writings = cases(25);
        let told = writings.iter().filter(|case| writer(case) != case.number);
        told.count()
    };
    for place in 0..3 {
        assert!(
            told(&|case| match case.number {
                2 if missed(case, place) => 0,
                number => number,
            }) >= 5
        );
    }
    assert!(told(&first_two) >= 2);
    assert!(told(&|case| written(case, &replaced(5, &[&order_first]))) >= 2);
    assert!(told(&|case| written(case, &replaced(1, &[&one_card_more]))) >= 1);
    let element_first: [Step; 7] = [&size, &cards, &values, &table, &total, &elements, &entries];
    assert!(told(&|case| written(case, &element_first)) >= 2);
}

// The lookup.

/// The card that is found, by this equality of labels.
fn found(case: &Case, is_equal: impl Fn(&[u8], &[u8]) -> bool) -> Option<usize> {
    let [book, looked_up] = [&case.inputs[0], &case.inputs[1]];
    (0..count(book)).find(|&card| is_equal(label(book, card), looked_up))
}

/// A card's key by its offset, and zeros.
fn key(book: &[u8], card: usize) -> Vec<u8> {
    let [_, _, m] = numbers(book);
    let offset = number(book, 17 + 14 * card, 4);
    let mut key = book[offset..offset + m].to_vec();
    key.resize(96, 0);
    key
}

/// The refusal of the label that is looked up.
fn label_refusal(case: &Case) -> u8 {
    match &case.inputs[1] {
        label if label.len() != 10 => 2,
        label if is_wrong(label) => 12,
        _ => 0,
    }
}

/// What a lookup answers that finds cards in its own way: its number and the output.
fn looked_up(case: &Case, find: impl Fn(&Case) -> Option<usize>) -> (u8, Vec<u8>) {
    let book = &case.inputs[0];
    let refusals = [by(&READER, book), label_refusal(case)];
    let refusal = refusals.into_iter().find(|&number| number != 0);
    let left = vec![case.fill; 96];
    match refusal {
        Some(number) => (number, left),
        None => find(case).map_or((255, left), |card| (0, key(book, card))),
    }
}

fn agrees(case: &Case, (number, out): (u8, Vec<u8>)) -> bool {
    case.number == number && case.expected == [out]
}

fn right(case: &Case) -> Option<usize> {
    found(case, |a, b| a == b)
}

#[test]
fn lookups() {
    for case in cases(26) {
        assert!(agrees(&case, looked_up(&case, right)));
    }
}

/// The last card of a book.
fn last(case: &Case) -> usize {
    count(&case.inputs[0]) - 1
}

/// The neighbour's key; absent for the last or the first card, or always; found for a label that is
/// not there; labels compared but for some halves.
#[test]
fn wrong_lookups() {
    type Find<'a> = &'a dyn Fn(&Case) -> Option<usize>;
    let at_least = |a: &[u8], b: &[u8]| rank(&halves(a)) >= rank(&halves(b));
    let wrong: [Find; 10] = [
        &|case| right(case).map(|card| (card + 1).min(last(case))),
        &|case| right(case).map(|card| card.saturating_sub(1)),
        &|case| right(case).filter(|&card| card != last(case)),
        &|case| right(case).filter(|&card| card != 0),
        &|case| right(case).filter(|&card| card < 1_999),
        &|_| None,
        &|case| found(case, at_least),
        &|case| found(case, |a, b| a[..9] == b[..9]),
        &|case| found(case, |a, b| halves(a)[..19] == halves(b)[..19]),
        &|case| {
            found(case, |a, b| {
                with_filler_as_nine(a) == with_filler_as_nine(b)
            })
        },
    ];
    let lookups = cases(26);
    for (i, find) in wrong.iter().enumerate() {
        let told = lookups
            .iter()
            .filter(|case| !agrees(case, looked_up(case, find)));
        assert!(told.count() >= 1, "{i}");
    }
    for half in 0..20 {
        let without = |label: &[u8]| {
            let mut halves = halves(label);
            halves.remove(half);
            halves
        };
        let find = |case: &Case| found(case, |a, b| without(a) == without(b));
        let told = lookups
            .iter()
            .filter(|case| !agrees(case, looked_up(case, find)));
        assert!(told.count() >= 2, "{half}");
    }
}

/// A search by halving, in another order of labels, misses cards.
#[test]
fn wrong_searches() {
    let lookups = cases(26);
    let search = |case: &Case, above: &dyn Fn(&[u8], &[u8]) -> bool| {
        let [book, looked_up] = [&case.inputs[0], &case.inputs[1]];
        let (mut low, mut high) = (0, count(book));
        while low < high {
            let middle = (low + high) / 2;
            if above(looked_up, label(book, middle)) {
                low = middle + 1;
            } else {
                high = middle;
            }
        }
        (low < count(book) && label(book, low) == looked_up).then_some(low)
    };
    let told = |above: &dyn Fn(&[u8], &[u8]) -> bool| {
        let find = |case: &Case| search(case, above);
        let told = lookups
            .iter()
            .filter(|case| !agrees(case, looked_up(case, find)));
        told.count()
    };
    assert_eq!(told(&is_above), 0);
    for above in [1, 2, 4].map(|i| ABOVE[i]) {
        assert!(told(&above) >= 1);
    }
}

/// The label's refusals before the book's; 12 before 2; a key that is not filled up; a key of n
/// bytes; and a reader's wrong ways.
#[test]
fn wrong_order_of_a_lookup() {
    let lookups = cases(26);
    let told = |number: &dyn Fn(&Case) -> u8| {
        let told = lookups.iter().filter(|case| number(case) != case.number);
        told.count()
    };
    assert!(
        told(&|case| match label_refusal(case) {
            0 => case.number,
            number => number,
        }) >= 5
    );
    assert!(
        told(&|case| match case.number {
            2 if is_wrong(&[&case.inputs[1][..], &[0]].concat()) => 12,
            number => number,
        }) >= 2
    );
    let found = lookups.iter().filter(|case| case.number == 0);
    let key_end =
        |case: &Case, place: usize| case.expected[0][numbers(&case.inputs[0])[place]..].to_vec();
    let unfilled = found.clone().filter(|case| !key_end(case, 2).is_empty());
    assert!(unfilled.count() >= 2);
    let cut = found.filter(|case| key_end(case, 1).iter().any(|&byte| byte != 0));
    assert!(cut.count() >= 1);
    for steps in [
        replaced(1, &[&one_card_more]),
        replaced(3, &[]),
        replaced(5, &[]),
        replaced(6, &[]),
    ] {
        assert!(
            told(&|case| match by(&steps, &case.inputs[0]) {
                0 if case.number != 255 => 0,
                _ => case.number,
            }) >= 1
        );
    }
}
