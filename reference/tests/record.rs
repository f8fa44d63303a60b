//! Document 01, "Session record": what the writer makes and the reader takes, and their refusals in
//! order.

use reference::entries::{read, write, Write};
use reference::field::ORDERS;
use reference::random::Generator;
use reference::scheme::{Scheme, SCHEMES};
use reference::vectors::instance::Shape;
use reference::vectors::session::Session;

/// The writer's arguments, the output by its length.
#[derive(Clone)]
struct Writing {
    header: [u8; 5],
    key: Vec<u8>,
    commitments: Vec<u8>,
    exchanges: Vec<u8>,
    out: usize,
}

impl Writing {
    fn of(session: &Session) -> Writing {
        Writing {
            header: session.header(),
            key: session.v.clone(),
            commitments: session.commitments(),
            exchanges: session.exchanges(),
            out: session.record().len(),
        }
    }

    /// What a record that is not refused was written from, by what the reader answers.
    fn read_from(record: &[u8]) -> Writing {
        let (number, out) = reading(record);
        assert_eq!(number, 0);
        let number = |place: usize| {
            let bytes = out[place..place + 4].iter().rev();
            bytes.fold(0, |high, &byte| 256 * high + usize::from(byte))
        };
        let body = |place| record[number(place)..][..number(place + 4)].to_vec();
        Writing {
            header: out[1..6].try_into().expect("five numbers"),
            key: body(6),
            commitments: body(14),
            exchanges: body(22),
            out: record.len(),
        }
    }

    fn changed(&self, change: impl Fn(&mut Writing)) -> Writing {
        let mut changed = self.clone();
        change(&mut changed);
        changed
    }

    /// Its number and the output, which is to stay as it was if the call is refused.
    fn write(&self) -> (u8, Vec<u8>) {
        let mut out = vec![254; self.out];
        let number = write(Write {
            header: self.header,
            key: &self.key,
            commitments: &self.commitments,
            exchanges: &self.exchanges,
            out: &mut out,
        });
        assert!(number == 0 || out.iter().all(|&byte| byte == 254));
        (number, out)
    }
}

/// A record's number and what the reader answers, which is to stay as it was if it is refused.
fn reading(record: &[u8]) -> (u8, [u8; 30]) {
    let mut out = [254; 30];
    let number = read(record, &mut out);
    assert!(number == 0 || out == [254; 30]);
    (number, out)
}

fn number(record: &[u8]) -> u8 {
    reading(record).0
}

/// Sessions of two rounds at each q.
fn sessions(scheme: Scheme) -> [Session; 4] {
    let mut random = Generator::from_seed(201);
    ORDERS.map(|q| Session::honest(&mut random, scheme, Shape::new(q, 3, 2), 2))
}

#[test]
fn layout_of_a_small_record() {
    let [_, three, ..] = sessions(Scheme::ThreePass);
    let front = [
        [1, 3, 7, 3, 2, 2].to_vec(),
        [30u32, 2, 32, 192, 224, 146].map(u32::to_le_bytes).concat(),
    ];
    let rounds = three.rounds.iter();
    let exchanges = rounds.map(|round| [&[round.challenge], &round.reply[..]].concat());
    let exchanges = exchanges.collect::<Vec<_>>().concat();
    let bodies = [three.v.clone(), three.commitments(), exchanges];
    let record = [front.concat(), bodies.concat()].concat();
    assert_eq!(Writing::of(&three).write(), (0, record));
    let [.., five] = sessions(Scheme::FivePass);
    let (_, out) = reading(&five.record());
    assert_eq!(out[..6], [1, 5, 251, 3, 2, 2]);
    let table = [30u32, 2, 32, 128, 160, 84].map(u32::to_le_bytes);
    assert_eq!(out[6..], table.concat());
}

/// What is written is read as it was, and what is read is written as it was.
#[test]
fn round_trip() {
    let mut random = Generator::from_seed(202);
    for scheme in SCHEMES {
        for (q, n, m, rounds) in [
            (2, 1, 1, 1),
            (7, 2, 2, 255),
            (31, 5, 96, 2),
            (251, 96, 1, 3),
        ] {
            let session = Session::honest(&mut random, scheme, Shape::new(q, n, m), rounds);
            let (number, record) = Writing::of(&session).write();
            assert_eq!(number, 0);
            let read = Writing::read_from(&record);
            assert_eq!(read.header, session.header());
            assert_eq!(read.key, session.v);
            assert_eq!(read.commitments, session.commitments());
            assert_eq!(read.exchanges, session.exchanges());
        }
    }
}

/// Every record that is read is the one that the writer makes of its fields, also after one or two
/// bytes were changed. At other places than commitments and ρ a change is mostly refused.
#[test]
fn every_accepted_record_is_written_so() {
    let mut random = Generator::from_seed(203);
    let mut accepted = 0;
    for scheme in SCHEMES {
        for session in sessions(scheme) {
            let good = session.record();
            for _ in 0..2000 {
                let mut record = good.clone();
                for _ in 0..1 + random.below(2) {
                    let place = random.below(good.len() as u64) as usize;
                    record[place] = random.byte_below(256);
                }
                if number(&record) == 0 {
                    assert_eq!(Writing::read_from(&record).write(), (0, record));
                    accepted += 1;
                }
            }
        }
    }
    assert!((8000..14_000).contains(&accepted), "{accepted}");
}

/// Each fault of a writing with its number; of two at once the lower number counts.
#[test]
fn write_in_order() {
    type Fault = (u8, fn(&mut Writing));
    let faults: [Fault; 15] = [
        (1, |w| w.header[0] = 4),
        (1, |w| w.header[1] = 4),
        (1, |w| w.header[2] = 0),
        (1, |w| w.header[3] = 97),
        (1, |w| w.header[4] = 0),
        (2, |w| w.key.push(7)),
        (2, |w| w.commitments.truncate(1)),
        (2, |w| w.exchanges.push(0)),
        (2, |w| w.exchanges = vec![255; w.exchanges.len() - 2]),
        (2, |w| w.out += 1),
        (2, |w| w.out -= 2),
        (3, |w| w.key[1] = 31),
        (3, |w| w.exchanges[1] = 255),
        (4, |w| w.exchanges[challenge(w.header[0])] = 3),
        (4, |w| {
            let second = w.exchanges.len() / 2;
            w.exchanges[second + challenge(w.header[0])] = 255;
        }),
    ];
    for scheme in SCHEMES {
        let good = Writing::of(&sessions(scheme)[2]);
        assert_eq!(good.write().0, 0);
        for (i, (number, fault)) in faults.iter().enumerate() {
            assert_eq!(good.changed(fault).write().0, *number);
            for (_, later) in &faults[i + 1..] {
                assert_eq!(good.changed(later).changed(fault).write().0, *number);
            }
        }
    }
}

/// The challenge's place in an exchange of n = 3, m = 2.
fn challenge(scheme: u8) -> usize {
    if scheme == 5 {
        6
    } else {
        0
    }
}

/// Each fault of a record with its number; of two at once the earlier test counts.
#[test]
fn read_in_order() {
    type Fault = (u8, fn(&mut Vec<u8>));
    let faults: [Fault; 13] = [
        (6, |r| r.truncate(29)),
        (6, |r| r[0] = 0),
        (6, |r| r[0] = 2),
        (1, |r| r[1] = 13),
        (1, |r| r[2] = 4),
        (1, |r| r[3] = 97),
        (1, |r| r[4] = 0),
        (1, |r| r[5] = 0),
        (6, |r| r[6] = 29),
        (6, |r| r[29] = 1),
        (6, |r| r.push(0)),
        (6, |r| r.truncate(r.len() - 2)),
        (3, |r| r[30] = 31),
    ];
    let changed = |record: &[u8], fault: fn(&mut Vec<u8>)| {
        let mut record = record.to_vec();
        fault(&mut record);
        record
    };
    for scheme in SCHEMES {
        let good = sessions(scheme)[2].record();
        assert_eq!(number(&good), 0);
        assert_eq!(number(&good[..30]), 6);
        for (i, &(refusal, fault)) in faults.iter().enumerate() {
            assert_eq!(number(&changed(&good, fault)), refusal);
            for &(_, later) in &faults[i + 1..] {
                assert_eq!(number(&changed(&changed(&good, later), fault)), refusal);
            }
        }
    }
}

/// Of an element and a challenge the reader goes by the first bad one, the writer by the element.
#[test]
fn first_bad_byte() {
    for (scheme, elements) in [
        (Scheme::ThreePass, &[1, 3, 4, 6, 7, 8][..]),
        (Scheme::FivePass, &[0, 1, 3, 4, 5, 7, 9]),
    ] {
        let session = &sessions(scheme)[1];
        let record = session.record();
        let exchange = session.exchanges().len() / 2;
        let first = record.len() - 2 * exchange;
        let challenges = [0, 1].map(|round| first + round * exchange + challenge(scheme.byte()));
        let of_rounds =
            [0, 1].map(|round| elements.iter().map(move |e| first + round * exchange + e));
        for element in of_rounds.into_iter().flatten().chain([30, 31]) {
            for challenge in challenges {
                let mut bad = record.clone();
                bad[element] = 7;
                assert_eq!(number(&bad), 3);
                let mut writing = Writing::read_from(&record);
                bad[challenge] = scheme.commitments();
                assert_eq!(number(&bad), if element < challenge { 3 } else { 4 });
                writing.key = bad[30..32].to_vec();
                writing.exchanges = bad[first..].to_vec();
                assert_eq!(writing.write().0, 3);
            }
        }
    }
}

/// Document 01's unmarked cases: N = 0 gives 1 and 255 passes; q = 4; n = 97; elements 250, 251.
#[test]
fn unmarked() {
    let of = |header: [u8; 5]| {
        let [n, m, rounds] = [2, 3, 4].map(|i| usize::from(header[i]));
        let writing = Writing {
            header,
            key: vec![0; m],
            commitments: vec![255; rounds * 96],
            exchanges: vec![0; rounds * (1 + 2 * n + m + 64)],
            out: 30 + m + rounds * (161 + 2 * n + m),
        };
        let (number, record) = writing.write();
        assert!(number != 0 || self::number(&record) == 0);
        number
    };
    assert_eq!(
        [[3, 7, 2, 2, 0], [3, 4, 2, 2, 1], [3, 7, 97, 2, 1]].map(of),
        [1; 3]
    );
    assert_eq!(
        [[4, 7, 2, 2, 1], [13, 7, 2, 2, 1], [3, 7, 2, 97, 1]].map(of),
        [1; 3]
    );
    assert_eq!(
        [[3, 7, 2, 2, 255], [3, 2, 96, 96, 255], [3, 251, 96, 1, 1]].map(of),
        [0; 3]
    );
    let [.., large] = sessions(Scheme::ThreePass);
    let writing = Writing::of(&large);
    assert_eq!(writing.changed(|w| w.key[0] = 250).write().0, 0);
    assert_eq!(writing.changed(|w| w.key[0] = 251).write().0, 3);
}
