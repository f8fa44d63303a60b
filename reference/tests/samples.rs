//! The texts of the audit and the book program, the samples stored for them, and the files of the
//! runs at the edges.

use reference::audit::{audit_three, Finding};
use reference::vectors::samples::{stored, text};
use reference::vectors::{book_samples, edges, Stored};

#[test]
fn texts() {
    let clash = Finding::Clash {
        k: 1,
        first: vec![10, 255],
        second: vec![],
    };
    assert_eq!(text(&clash), "clash 1\nfirst 0aff\nsecond \n");
    assert_eq!(text(&Finding::Secret(vec![3, 250])), "secret 03fa\n");
    let refused = |number, record, round| {
        text(&Finding::Refused {
            number,
            record,
            round,
        })
    };
    assert_eq!(refused(9, 0, 0), "refused 9\n");
    assert_eq!(refused(8, 2, 1), "refused 8 record 2 round 1\n");
}

/// The stored run finds the small key's secret; the others end as their comment says.
#[test]
fn runs() {
    let stored = stored();
    let file = |path: &str| {
        let file = stored.iter().find(|file| file.path == path);
        std::str::from_utf8(&file.expect("a stored file").bytes).expect("a text")
    };
    assert_eq!(file("audit/stdout"), "secret 0305\n");
    assert_eq!(file("audit/args"), "system\nthree/a\nthree/b\nthree/c\n");
    let runs = file("audit/runs");
    for run in [
        "$ audit system five/a five/b five/c five/d\nsecret 0305\n",
        "$ audit system three/a three/a three/a\nrefused 9\n",
        "$ audit system three/a three/rejected three/c\nrefused 8 record 2 round 2\n",
        "$ audit system five/a five/b five/c\nrefused 1\n",
    ] {
        assert!(runs.contains(run), "{run}");
    }
}

/// The bytes of one of the files that runs are on.
fn bytes<'a>(files: &'a [Stored], path: &str) -> &'a [u8] {
    let file = files.iter().find(|file| file.path == path);
    &file.expect("a file of a run").bytes
}

/// The largest files have document 01's lengths, and each of the 255 rounds is accepted: with the
/// last byte of the last record changed, round 255 of record 3 is rejected.
#[test]
fn largest_files() {
    let audit = edges::audit();
    let file = |path| bytes(&audit.files, path);
    assert_eq!(file("largest/system").len(), 456_195);
    for record in ["largest/three/a", "largest/three/b", "largest/three/c"] {
        assert_eq!(file(record).len(), 30 + 96 + 255 * (96 + 1 + 3 * 96 + 64));
    }
    assert_eq!(file("over/system").len(), 456_196);
    assert_eq!(file("over/record").len(), 114_622);
    let mut changed = file("largest/three/c").to_vec();
    *changed.last_mut().expect("a record") ^= 1;
    let [system, a, b] = ["largest/system", "largest/three/a", "largest/three/b"].map(file);
    let rejected = Finding::Refused {
        number: 8,
        record: 3,
        round: 255,
    };
    assert_eq!(audit_three(system, a, b, &changed), rejected);
}

/// A file that is a byte too short or too long is refused in each place, and with one that is too
/// large nothing is printed.
#[test]
fn lengths() {
    let runs = edges::audit().text("audit");
    for run in [
        "$ audit long/system three/a three/b three/c\nrefused 2\n",
        "$ audit system three/a long/three/b three/c\nrefused 6\n",
        "$ audit system five/a five/b five/c short/five/d\nrefused 6\n",
        "$ audit over/system largest/three/a largest/three/b largest/three/c\n$ ",
    ] {
        assert!(runs.contains(run), "{run}");
    }
}

/// The longest input is an honest session's; one byte more is refused.
#[test]
fn longest_input() {
    let reports = edges::reports();
    let lengths: Vec<usize> = reports.files.iter().map(|file| file.bytes.len()).collect();
    assert_eq!(lengths, [65_536, 65_537, 70_000]);
    let printed: Vec<&str> = reports.runs.iter().map(|(_, text)| &text[..]).collect();
    assert!(printed[0].ends_with("verdict accept 4 of 4\nrounds 4 accepted 0 rejected\n"));
    assert_eq!(printed[1..], ["refused 2\n", "refused 2\n"]);
}

/// The stored run lists the small book's cards, the second with the small key's v.
#[test]
fn books() {
    let stored = book_samples::stored();
    let text = |path| std::str::from_utf8(bytes(&stored, path)).expect("a text");
    let list = "q 7 n 2 m 2 count 3\n\
        89441000000000000123 0301\n8944100000000000013 0506\n89441000000000000200 0004\n";
    assert_eq!(text("book/stdout"), list);
    assert_eq!(text("book/args"), "small\n");
    let runs = text("book/runs");
    for run in [
        "$ book small 8944100000000000013\n0506\n",
        "$ book small 8944100000000000013F\n0506\n",
        "$ book small 89441000000000000130\nabsent\n",
        "$ book small 894410000000000001\nrefused 2\n",
        "$ book small 89441000000000000123000000000000\nrefused 2\n",
        "$ book small 894410000000000001230000000000000\nrefused 2\n",
        "$ book small 894410000000000001F\nrefused 12\n",
        "$ book damaged\nrefused 13\n",
        "$ book damaged 1\nrefused 13\n",
        "$ book damaged 894410000000000001230000000000000\nrefused 13\n",
        "$ book over/large\nrefused 6\n",
        "$ book over/value\nrefused 1\n",
        "$ book missing\n$ ",
    ] {
        assert!(runs.contains(run), "{run}");
    }
}

/// The files of the book program's runs: the largest book, and longer ones. Of twelve cards some
/// have nineteen digits and some twenty.
#[test]
fn book_files() {
    let runs = book_samples::runs();
    assert_eq!(bytes(&runs.files, "large").len(), 220_007);
    assert_eq!(bytes(&runs.files, "over/large").len(), 220_008);
    assert_eq!(bytes(&runs.files, "over/value").len(), 220_008);
    let twelve = book_samples::text(bytes(&runs.files, "twelve"), None);
    let lengths: Vec<usize> = twelve
        .lines()
        .skip(1)
        .map(|line| line.find(' ').expect("a space"))
        .collect();
    assert_eq!(lengths.len(), 12);
    assert!(lengths.contains(&19) && lengths.contains(&20));
}
