//! Runs of the programs on files at the edges of what they read. The files are made for the runs
//! and not stored.

use super::audited::{Audit, Cards};
use super::instance::Shape;
use super::samples::{file, printed, samples, text};
use super::session::Session;
use super::Stored;
use crate::entries::report;
use crate::random::Generator;
use crate::report::MOST_OF_INPUT;
use crate::scheme::{Scheme, SCHEMES};
use crate::system::MOST;

/// Files, and runs of a program on them: the arguments of each, and what is printed.
pub struct Runs {
    pub files: Vec<Stored>,
    pub runs: Vec<(String, String)>,
}

impl Runs {
    /// A line for each run, which starts with `$`, the program and the arguments; what is printed
    /// follows.
    pub fn text(&self, program: &str) -> String {
        let runs = self.runs.iter();
        runs.map(|(run, printed)| format!("$ {program} {run}\n{printed}"))
            .collect()
    }
}

/// The folder of a scheme's records, and their names.
fn named(scheme: Scheme) -> (&'static str, &'static [&'static str]) {
    match scheme {
        Scheme::ThreePass => ("three", &["a", "b", "c"]),
        Scheme::FivePass => ("five", &["a", "b", "c", "d"]),
    }
}

/// A system and a scheme's records below a folder.
fn paths(folder: &str, scheme: Scheme) -> Vec<String> {
    let (of_scheme, names) = named(scheme);
    let records = names
        .iter()
        .map(|name| format!("{folder}{of_scheme}/{name}"));
    [format!("{folder}system")]
        .into_iter()
        .chain(records)
        .collect()
}

/// The run on these files, but for one of them.
fn with(paths: &[String], place: usize, path: &str) -> String {
    let mut paths = paths.to_vec();
    paths[place] = path.to_string();
    paths.join(" ")
}

/// The bytes, and zeros up to a length.
pub fn longer(bytes: &[u8], length: usize) -> Vec<u8> {
    let mut bytes = bytes.to_vec();
    bytes.resize(length, 0);
    bytes
}

/// The audit: one file of a good run a byte shorter or longer, in each place; and the largest
/// files.
pub fn audit() -> Runs {
    let mut audit = spoiled_lengths();
    let largest = largest();
    audit.files.extend(largest.files);
    audit.runs.extend(largest.runs);
    audit
}

/// Each sample, and as `short/` and `long/` the same without its last byte and with a 0 behind it.
fn spoiled_lengths() -> Runs {
    let mut files = samples();
    for sample in samples() {
        let length = sample.bytes.len();
        let short = file(
            &format!("short/{}", sample.path),
            sample.bytes[..length - 1].to_vec(),
        );
        let long = longer(&sample.bytes, length + 1);
        files.extend([short, file(&format!("long/{}", sample.path), long)]);
    }
    let mut runs = Vec::new();
    for scheme in SCHEMES {
        let good = paths("", scheme);
        for (place, path) in good.iter().enumerate() {
            for folder in ["short", "long"] {
                let run = with(&good, place, &format!("{folder}/{path}"));
                let printed = printed(&files, &run);
                runs.push((run, printed));
            }
        }
    }
    Runs { files, runs }
}

/// The largest system, with records of both schemes of as many rounds as there can be, all of them
/// the same; and a system and a record that are a byte longer, with which nothing is printed,
/// whichever file they stand for.
fn largest() -> Runs {
    let mut random = Generator::from_seed(150);
    let shape = Shape::new(251, MOST, MOST);
    let system = shape.random_system(&mut random);
    let secret = shape.random_elements(&mut random, shape.n());
    let mut files = vec![file("largest/system", system.expanded())];
    let mut runs = Vec::new();
    for scheme in SCHEMES {
        let secrets = [secret.clone()];
        let cards = Cards::of_secrets(&mut random, scheme, &system, &secrets);
        let sessions = cards.with_full_sets(&mut random, &[0]);
        let paths = paths("largest/", scheme);
        let records = sessions.iter().map(|session| repeated(session).record());
        files.extend(
            paths[1..]
                .iter()
                .zip(records)
                .map(|(path, record)| file(path, record)),
        );
        // What the first round gives away, all do.
        runs.push((paths.join(" "), text(&Audit::of(&sessions).finding())));
    }
    let [three, five] = SCHEMES.map(|scheme| paths("largest/", scheme));
    runs.push((with(&five, 4, &three[1]), "refused 1\n".to_string()));
    for (name, large) in [("system", 0), ("record", 1)] {
        let bytes = &files[large].bytes;
        let more = longer(bytes, bytes.len() + 1);
        files.push(file(&format!("over/{name}"), more));
    }
    runs.push((with(&three, 0, "over/system"), String::new()));
    for place in 1..4 {
        runs.push((with(&three, place, "over/record"), String::new()));
    }
    runs.push((with(&five, 4, "over/record"), String::new()));
    Runs { files, runs }
}

/// A session of one round over and over.
fn repeated(session: &Session) -> Session {
    let mut session = session.clone();
    session.rounds = vec![session.rounds[0].clone(); 255];
    session
}

/// The report: an honest session whose input has as many bytes as it takes, 65,536, and longer
/// inputs that begin so.
pub fn reports() -> Runs {
    let mut random = Generator::from_seed(151);
    let shape = Shape::new(251, 37, 87);
    let longest = Session::honest(&mut random, Scheme::FivePass, shape, 4).input();
    assert_eq!(longest.len(), MOST_OF_INPUT, "the longest input");
    let lengths = [MOST_OF_INPUT, MOST_OF_INPUT + 1, 70_000];
    let inputs = lengths.map(|length| longer(&longest, length));
    let runs = inputs
        .iter()
        .map(|input| (input.len().to_string(), report(input)));
    Runs {
        runs: runs.collect(),
        files: inputs
            .iter()
            .map(|input| file(&input.len().to_string(), input.clone()))
            .collect(),
    }
}
