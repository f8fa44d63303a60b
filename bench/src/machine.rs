//! The machine's kind and the compilers, with nothing that tells one machine from another of its kind.

use std::thread::available_parallelism;

/// `bench/run` hands the compilers' versions over.
const COMPILERS: [(&str, &str); 2] = [("BENCH_RATTLE", "Rattle"), ("BENCH_RUST", "Rust")];

pub fn described() -> String {
    let cores = available_parallelism().map_or(1, usize::from);
    let mut text = format!(
        "- Machine: {}, {cores} cores, {} on {}\n",
        processor(),
        std::env::consts::OS,
        std::env::consts::ARCH
    );
    for (variable, name) in COMPILERS {
        let version = std::env::var(variable).unwrap_or_else(|_| "version not told".to_string());
        text += &format!("- {name}: {version}\n");
    }
    text += "- Both sides are compiled by LLVM at level 3 for x86-64-v2 (SSE4.2 is the widest, in registers of 128 bits); Rust as one\n  codegen unit, with its checks of indices and without checks of overflow, as release builds have it.\n";
    text
}

/// The processor's name with family and model, by which clouds that shorten the name can still be told apart.
fn processor() -> String {
    let told = std::fs::read_to_string("/proc/cpuinfo").unwrap_or_default();
    let field = |name: &str| {
        let line = told
            .lines()
            .find(|line| line.split(':').next().map(str::trim) == Some(name));
        let value = line.and_then(|line| line.split(':').nth(1));
        value.map_or("unknown".to_string(), |value| value.trim().to_string())
    };
    format!(
        "{} (family {}, model {})",
        field("model name"),
        field("cpu family"),
        field("model")
    )
}
