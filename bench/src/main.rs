//! Times the proved engine against Rust in one process, measures the engine's stack use, and prints both as Markdown.
//!
//! Every side is run on the same inputs, and all answers are compared before anything is timed.
//!
//! usage: bench [--quick] [--times | --with FILE] [--code FILE]
//! `--times` prints nothing but the times, a line for each task. `--with FILE` takes those of the other build, whose code lies
//! 16 bytes further on, and prints the page with the better of both. `--code FILE` has what `objdump` says of the archive, for
//! a section on it.

mod engine;
mod inputs;
mod machine;
mod plain;
mod refused;
mod registers;
mod stack;
mod stacks;
mod table;
mod times;
mod timing;

use std::cell::RefCell;
use std::time::Duration;
use timing::{Effort, Log};

// The code of both sides 16 bytes further on: where a loop starts within 32 bytes moves its time.
#[cfg(shifted)]
std::arch::global_asm!(
    ".section .text.shift, \"axR\", @progbits",
    ".p2align 4",
    ".skip 16"
);

fn main() {
    let words: Vec<String> = std::env::args().skip(1).collect();
    let has = |word: &str| words.iter().position(|other| other == word);
    let file = |word: &str| {
        has(word).map(|place| std::fs::read_to_string(&words[place + 1]).expect("a file"))
    };
    let log = match file("--with") {
        Some(times) => Log::after(&times),
        None => Log::default(),
    };
    let log = RefCell::new(log);
    let (time, turns) = match has("--quick") {
        Some(_) => (100, 5),
        None => (1500, 60),
    };
    let time = Duration::from_millis(time);
    let effort = Effort {
        time,
        turns,
        log: &log,
    };
    let page = page(effort, file("--code"));
    match has("--times") {
        Some(_) => print!("{}", log.borrow().text()),
        None => print!("{page}"),
    }
}

/// The whole page.
fn page(effort: Effort, code: Option<String>) -> String {
    let mut page = String::new();
    page += "# Performance\n\nMade by `bench/run --store`, which builds both sides twice and times both in one process for each build. Not edited by hand.\n\n";
    page += &machine::described();
    page += "\n## Against Rust\n\n";
    page += times::COMPARED;
    page += &times::compared(effort);
    page += "\n## How time grows\n\n";
    page += times::GROWTH;
    page += &times::growth(effort);
    page += "\n## The longest calls\n\n";
    page += times::LONGEST;
    page += &times::longest(effort);
    page += "\n## Refused calls\n\n";
    page += refused::TIMED;
    page += &refused::table(effort);
    page += "\n## Stack use\n\n";
    page += stacks::MEASURED;
    page += &stacks::measured();
    if let Some(code) = code {
        page += "\n## Registers of 32 bits\n\n";
        page += &registers::described(&code);
    }
    page
}
