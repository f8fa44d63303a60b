//! The audit program's samples: a system and records in files, and runs of the program on them.

use super::audited::Cards;
use super::edges;
use super::honest::SMALL_S;
use super::maps::SMALL;
use super::piece::Piece;
use super::reporting::{spoil_rho, spoiled};
use super::session::Session;
use super::Stored;
use crate::audit::{audit_five, audit_three, Finding};
use crate::random::Generator;
use crate::scheme::Scheme;

/// The program, which is the folder that the samples lie in.
const PROGRAM: &str = "audit";

/// The run that the program's own folder has the arguments and the output of.
const STORED_RUN: &str = "system three/a three/b three/c";

/// The other runs: records in any order; of scheme 5; one accepted record three times; a pair that
/// is none; a rejected round; records of the other scheme; a file that is no system.
const RUNS: [&str; 7] = [
    "system three/c three/a three/b",
    "system five/a five/b five/c five/d",
    "system three/a three/a three/a",
    "system five/a five/c five/b five/d",
    "system three/a three/rejected three/c",
    "system five/a five/b five/c",
    "three/a three/a three/b three/c",
];

/// Runs that print nothing: a wrong number of files, and a file that is not there.
const NO_AUDITS: [&str; 2] = ["system three/a three/b", "system three/a three/b missing"];

/// All files of the folder: the samples, the run's arguments and output, and `runs`, where a line
/// starts with `$ audit` and the arguments, and what is printed follows. Some of the runs are on
/// files that are not stored.
pub fn stored() -> Vec<Stored> {
    let samples = samples();
    let mut runs = String::new();
    for run in [STORED_RUN].into_iter().chain(RUNS) {
        runs += &format!("$ audit {run}\n{}", printed(&samples, run));
    }
    for run in NO_AUDITS {
        runs += &format!("$ audit {run}\n");
    }
    runs += &edges::audit().text(PROGRAM);
    let printed = printed(&samples, STORED_RUN);
    folder(PROGRAM, STORED_RUN, printed, runs, samples)
}

/// The files of a program's folder: the samples in `data`; `args` and `stdout` of a run, an argument
/// a line; and `runs`.
pub fn folder(
    program: &str,
    run: &str,
    printed: String,
    runs: String,
    samples: Vec<Stored>,
) -> Vec<Stored> {
    let args = run.replace(' ', "\n") + "\n";
    let texts = [("args", args), ("stdout", printed), ("runs", runs)];
    let texts = texts.map(|(name, text)| Stored {
        path: format!("{program}/{name}"),
        bytes: text.into_bytes(),
    });
    let samples = samples.into_iter().map(|sample| Stored {
        path: format!("{program}/data/{}", sample.path),
        bytes: sample.bytes,
    });
    texts.into_iter().chain(samples).collect()
}

/// The small key's system; records of two rounds, the second with a full set; and the second of
/// scheme 3 with that round rejected.
pub fn samples() -> Vec<Stored> {
    let three = sessions(
        Scheme::ThreePass,
        [&[(0, 0), (0, 1), (0, 1)], &[(0, 2), (0, 0), (0, 1)]],
    );
    let five = sessions(
        Scheme::FivePass,
        [
            &[(6, 1), (6, 1), (2, 0), (2, 1)],
            &[(3, 0), (3, 1), (5, 0), (5, 1)],
        ],
    );
    let rejected = spoiled(&three[1], &[1], spoil_rho);
    let mut files = vec![file("system", SMALL.to_vec())];
    for (folder, sessions) in [("three", three), ("five", five)] {
        let records = sessions.iter().map(Session::record);
        let named = ["a", "b", "c", "d"].into_iter().zip(records);
        files.extend(named.map(|(name, record)| file(&format!("{folder}/{name}"), record)));
    }
    files.push(file("three/rejected", rejected.record()));
    files
}

/// A file of the folder.
pub fn file(path: &str, bytes: Vec<u8>) -> Stored {
    let path = path.to_string();
    Stored { path, bytes }
}

/// Sessions of the small key with the same commitments, by α and challenge of each in each round.
fn sessions(scheme: Scheme, asked: [&[(u8, u8)]; 2]) -> Vec<Session> {
    let mut random = Generator::from_seed(140 + u64::from(scheme.byte()));
    let secrets = vec![SMALL_S.to_vec(); asked.len()];
    let cards = Cards::of_secrets(&mut random, scheme, &Piece::literal(&SMALL), &secrets);
    cards.sessions(&asked.map(<[(u8, u8)]>::to_vec))
}

/// What the program prints for these files: an audit of scheme 3 with three records, of scheme 5
/// with four.
pub fn printed(samples: &[Stored], run: &str) -> String {
    let bytes = |path: &str| {
        let sample = samples.iter().find(|sample| sample.path == path);
        &sample.expect("a sample").bytes[..]
    };
    let files: Vec<&[u8]> = run.split(' ').map(bytes).collect();
    match files[..] {
        [system, a, b, c] => text(&audit_three(system, a, b, c)),
        [system, a, b, c, d] => text(&audit_five(system, a, b, c, d)),
        _ => panic!("a system and three or four records"),
    }
}

/// A finding in words and hexadecimal digits.
pub fn text(finding: &Finding) -> String {
    match finding {
        Finding::Secret(secret) => format!("secret {}\n", hex(secret)),
        Finding::Clash { k, first, second } => {
            let [first, second] = [first, second].map(|string| hex(string));
            format!("clash {k}\nfirst {first}\nsecond {second}\n")
        }
        Finding::Refused {
            number: 8,
            record,
            round,
        } => format!("refused 8 record {record} round {round}\n"),
        Finding::Refused { number, .. } => format!("refused {number}\n"),
    }
}

/// Two digits a byte.
pub fn hex(bytes: &[u8]) -> String {
    bytes.iter().map(|byte| format!("{byte:02x}")).collect()
}
