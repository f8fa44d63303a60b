//! `reference make DIR` writes into DIR what the programs read, and what they must print;
//! `reference runs DIR` the files of further runs, which are not stored.

use reference::vectors::{self, Stored};
use std::path::Path;
use std::process::ExitCode;

fn main() -> ExitCode {
    let words: Vec<String> = std::env::args().skip(1).collect();
    let [command, folder] = words.as_slice() else {
        return usage();
    };
    let files = match command.as_str() {
        "make" => vectors::stored(),
        "runs" => vectors::run_files(),
        _ => return usage(),
    };
    match write(Path::new(folder), files) {
        Ok(()) => ExitCode::SUCCESS,
        Err(error) => {
            eprintln!("reference: {folder}: {error}");
            ExitCode::FAILURE
        }
    }
}

fn usage() -> ExitCode {
    eprintln!("usage: reference make|runs DIR");
    ExitCode::from(2)
}

/// Writes each file below the folder.
fn write(folder: &Path, files: Vec<Stored>) -> std::io::Result<()> {
    for file in files {
        let path = folder.join(file.path);
        if let Some(parent) = path.parent() {
            std::fs::create_dir_all(parent)?;
        }
        std::fs::write(path, file.bytes)?;
    }
    Ok(())
}
