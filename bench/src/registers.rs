//! What F and G are compiled into: the width of every instruction that multiplies or adds, read off the archive.

use crate::table::Table;
use std::cmp::Reverse;

/// The functions of the archive that F and G are made of. The sums of `rows` are put inline in the first, and what forms the monomials
/// in the next two but for the loop over a row, which is made for each of two closures.
const PARTS: [&str; 4] = [
    "polynomials::products",
    "polynomials::f",
    "polynomials::g",
    "rows::combination::fill",
];

const TOLD: &str = "\
A card's registers have 32 bits. What F and G multiply and add is not wider: counted here are the instructions of the archive's functions
that F and G are made of, as `objdump` prints them. The first forms the sums, which are those of `rows` put inline, and their
remainders; the others form the monomials. Packed instructions count by their lanes. In 64-bit registers stand addresses, lengths and
places alone: below is every instruction that adds or takes away in one where the sums are formed, and the first loop that forms them.

";

const HEADS: [&str; 5] = [
    "function",
    "multiplies of 64 bits",
    "of 32 or fewer",
    "packed adds of 64 bits",
    "of 32 or fewer",
];

/// An instruction: what it does, to what, and where it goes on if it jumps.
struct Instruction {
    address: u64,
    name: String,
    operands: String,
}

/// The section, of what `objdump -d --no-show-raw-insn` says.
pub fn described(code: &str) -> String {
    let mut table = Table::new(&HEADS);
    for part in PARTS {
        let body = body(code, part);
        let count = |kind: fn(&Instruction) -> Option<bool>| {
            let widths = body.iter().filter_map(kind);
            let (wide, narrow): (Vec<bool>, Vec<bool>) = widths.partition(|&wide| wide);
            [wide.len().to_string(), narrow.len().to_string()]
        };
        let counts = [count(multiplies), count(adds_packed)].concat();
        table.row([vec![format!("`{part}`")], counts].concat());
    }
    let sums = body(code, PARTS[0]);
    let mut steps: Vec<String> = sums.iter().filter(|i| adds_wide(i)).map(text).collect();
    steps.sort();
    steps.dedup();
    let steps: Vec<String> = steps.iter().map(|step| format!("`{step}`")).collect();
    let lines: Vec<String> = longest_loop(&sums).iter().map(text).collect();
    format!(
        "{TOLD}{}\nIn 64-bit registers: {}.\n\n```\n{}\n```\n",
        table.text(),
        wrapped(&steps),
        lines.join("\n")
    )
}

/// The instructions of a function, and of all that are made of it where it is generic.
fn body(code: &str, name: &str) -> Vec<Instruction> {
    let (alone, generic) = (format!("<{name}>:"), format!("<{name}::<"));
    let mut inside = false;
    let mut body = Vec::new();
    for line in code.lines() {
        if line.ends_with(">:") {
            inside = line.ends_with(&alone) || line.contains(&generic);
        } else if inside {
            body.extend(instruction(line));
        }
    }
    assert!(!body.is_empty(), "{name} is no function of the archive");
    body
}

fn instruction(line: &str) -> Option<Instruction> {
    let (address, text) = line.split_once(":\t")?;
    let (name, operands) = text.split_once(' ').unwrap_or((text, ""));
    Some(Instruction {
        address: u64::from_str_radix(address.trim(), 16).ok()?,
        name: name.to_string(),
        operands: operands.trim().to_string(),
    })
}

fn text(instruction: &Instruction) -> String {
    format!("{} {}", instruction.name, instruction.operands)
}

/// Whether what is written is a 64-bit register: one with no letter behind its number, or named %r..
fn writes_wide(instruction: &Instruction) -> bool {
    let last = instruction.operands.rsplit(',').next().unwrap_or("");
    let number = last.strip_prefix("%r");
    number.is_some_and(|rest| !rest.ends_with(['d', 'w', 'b'])) || instruction.name.ends_with('q')
}

/// Whether a multiply is wider than 32 bits; none for what is no multiply.
fn multiplies(instruction: &Instruction) -> Option<bool> {
    let name = instruction.name.as_str();
    match name {
        _ if name.starts_with("imul") || name.starts_with("mul") => Some(writes_wide(instruction)),
        "pmuludq" | "pmuldq" => Some(true),
        _ if name.starts_with("pmul") || name.starts_with("pmadd") => Some(false),
        _ => None,
    }
}

/// Whether an addition or a difference of packed numbers is wider than 32 bits.
fn adds_packed(instruction: &Instruction) -> Option<bool> {
    match instruction.name.as_str() {
        "paddq" | "psubq" | "psadbw" => Some(true),
        name if name.starts_with("padd") || name.starts_with("psub") || name.starts_with("ph") => {
            Some(false)
        }
        _ => None,
    }
}

/// Whether it adds or takes away in a 64-bit register.
fn adds_wide(instruction: &Instruction) -> bool {
    let stem = instruction.name.trim_end_matches('q');
    let adds = ["add", "adc", "sub", "sbb", "inc", "dec", "neg", "lea"].contains(&stem);
    adds && writes_wide(instruction)
}

/// The loop with the most multiplies, none other inside it; of several the first.
fn longest_loop(body: &[Instruction]) -> &[Instruction] {
    let loops = body.iter().enumerate().filter_map(|(end, jump)| {
        let target = jump.operands.split(' ').next()?;
        let target = u64::from_str_radix(target, 16).ok()?;
        let start = body.iter().position(|i| i.address == target)?;
        (jump.name.starts_with('j') && start < end).then(|| &body[start..=end])
    });
    let inner = loops.filter(|turn| turn.iter().filter(|i| i.name.starts_with('j')).count() == 1);
    let most =
        inner.min_by_key(|turn| Reverse(turn.iter().filter(|i| i.name == "pmaddwd").count()));
    most.expect("a loop")
}

/// The words with commas, on lines of at most 120 characters.
fn wrapped(words: &[String]) -> String {
    let mut text = String::new();
    let mut width = 0;
    for (place, word) in words.iter().enumerate() {
        let gap = match place {
            0 => "",
            _ if width + word.len() > 118 => ",\n",
            _ => ", ",
        };
        width = if gap == ",\n" { 0 } else { width + gap.len() } + word.len();
        text += gap;
        text += word;
    }
    text
}
