//! The stored test vectors: one file of all single calls, one of the sessions' calls, and one of
//! the calls for books.
//!
//! The format is documented in README.md. Expected answers are those of `entries` and `rounds`.

pub mod audit_faults;
pub mod audit_forged;
pub mod audit_rejected;
pub mod audited;
pub mod auditing;
pub mod book_lookup;
pub mod book_reading;
pub mod book_samples;
pub mod book_writing;
pub mod books;
pub mod calls;
pub mod case;
pub mod demo;
pub mod edges;
pub mod exchange;
pub mod faults;
pub mod forged;
pub mod hash;
pub mod honest;
pub mod instance;
pub mod maps;
pub mod piece;
pub mod reading;
pub mod reporting;
pub mod samples;
pub mod session;
pub mod sessions;
pub mod simulation;
pub mod system_check;
pub mod writing;

use crate::entries::report;
use case::{encode, Group};

/// What one program reads, and what it must print.
pub struct ProgramFile {
    pub program: &'static str,
    pub stdin: Vec<u8>,
    pub stdout: String,
}

/// A stored file: its path below the folder of all programs, and what it holds.
pub struct Stored {
    pub path: String,
    pub bytes: Vec<u8>,
}

/// All stored files: what each program reads, and what it must print.
pub fn stored() -> Vec<Stored> {
    let programs = files().into_iter().chain([printed_case(), demo::file()]);
    let pairs = programs.flat_map(|file| {
        let parts = [("stdin", file.stdin), ("stdout", file.stdout.into_bytes())];
        parts.map(|(name, bytes)| Stored {
            path: format!("{}/{name}", file.program),
            bytes,
        })
    });
    let report_runs = Stored {
        path: "report/runs".to_string(),
        bytes: edges::reports().text("report").into_bytes(),
    };
    pairs
        .chain(samples::stored())
        .chain(book_samples::stored())
        .chain([report_runs])
        .collect()
}

/// The files that the runs in `audit/runs`, `report/runs` and `book/runs` are on, below a folder for
/// each program.
pub fn run_files() -> Vec<Stored> {
    let programs = [
        ("audit", edges::audit()),
        ("report", edges::reports()),
        ("book", book_samples::runs()),
    ];
    let files = programs.into_iter().flat_map(|(program, runs)| {
        runs.files.into_iter().map(move |file| Stored {
            path: format!("{program}/{}", file.path),
            bytes: file.bytes,
        })
    });
    files.collect()
}

/// The vector file of each program.
pub fn files() -> Vec<ProgramFile> {
    vec![
        of_groups("vectors", &call_groups()),
        sessions::file(),
        of_groups("book_vectors", &book_groups()),
    ]
}

/// The file of cases each of which stands by itself.
fn of_groups(program: &'static str, groups: &[Group]) -> ProgramFile {
    ProgramFile {
        program,
        stdin: encode(groups),
        stdout: agreement(groups),
    }
}

/// The cases of all calls but those of the sessions and for books.
fn call_groups() -> Vec<Group> {
    [
        hash::groups(),
        system_check::groups(),
        maps::groups(),
        honest::groups(),
        forged::groups(),
        simulation::judged_groups(),
        simulation::groups(),
        reading::groups(),
        writing::groups(),
        reporting::groups(),
        auditing::groups(),
    ]
    .into_iter()
    .flatten()
    .collect()
}

/// The cases of the calls for books.
fn book_groups() -> Vec<Group> {
    [
        book_reading::groups(),
        book_writing::groups(),
        book_lookup::groups(),
    ]
    .into_iter()
    .flatten()
    .collect()
}

/// The report program's own: document 01's printed case, which is no vector file.
pub fn printed_case() -> ProgramFile {
    let stdin = reporting::printed_case();
    ProgramFile {
        program: "report",
        stdout: report(&stdin),
        stdin,
    }
}

/// What a program prints if every case agrees.
fn agreement(groups: &[Group]) -> String {
    let lines = groups
        .iter()
        .map(|group| line(&group.name, group.cases.len()));
    let total = groups.iter().map(|group| group.cases.len()).sum();
    lines.chain([line("total", total)]).collect()
}

fn line(name: &str, cases: usize) -> String {
    format!("{name}: {cases} cases, {cases} agree\n")
}
