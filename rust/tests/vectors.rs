//! Every call held to lists that the published Rust answered.
//!
//! The lists stand in `../../shared/vectors/after-4`, seen from this crate: they have notices, the
//! number of rungs on each send and prompt, and the quiet time of the current epoch;
//! `SIKLYAVON_VECTORS` names another folder. Random calls are answered by the oracle's program, which
//! `oracle/build` makes; `SIKLYAVON_ORACLE` names another. Where nothing is named and the default is
//! not there, the tests that need it are reported as ignored (build.rs). What is named and not there
//! fails them, and so does a list that is missing from its folder or has no block.
mod support;

use std::io::Write as _;
use std::path::PathBuf;
use std::process::{Command, Stdio};

/// A path that a variable names, or the default, both seen from this crate.
fn place(variable: &str, default: &str) -> PathBuf {
    let named = std::env::var(variable).unwrap_or(default.into());
    PathBuf::from(env!("CARGO_MANIFEST_DIR")).join(named)
}

fn list(name: &str) -> String {
    let path = place("SIKLYAVON_VECTORS", "../../shared/vectors/after-4").join(name);
    std::fs::read_to_string(&path).unwrap_or_else(|e| {
        panic!("{}: {e}. SIKLYAVON_VECTORS names the folder of the lists", path.display())
    })
}

/// Hold our answers to the list's, block by block.
fn hold(name: &str, list: &str) {
    let theirs = support::blocks(list);
    assert!(!theirs.is_empty(), "{name} has no block");
    let (mut i, mut differ) = (0, Vec::new());
    support::play(list, |name, text| {
        assert_eq!(theirs[i].0, name);
        if theirs[i].1 != text {
            let at = theirs[i].1.lines().zip(text.lines()).find(|(a, b)| a != b);
            differ.push(format!("{name}: {at:?}"));
        }
        i += 1;
    });
    assert_eq!(i, theirs.len());
    assert!(differ.is_empty(), "{} of {i} differ:\n{}", differ.len(), differ.join("\n"));
    println!("{i} blocks of {name}");
}

#[test]
#[cfg_attr(no_lists, ignore = "no ../../shared/vectors/after-4; SIKLYAVON_VECTORS names another folder")]
fn single() {
    hold("single.txt", &list("single.txt"));
}

#[test]
#[cfg_attr(no_lists, ignore = "no ../../shared/vectors/after-4; SIKLYAVON_VECTORS names another folder")]
fn runs() {
    hold("runs.txt", &list("runs.txt"));
}

#[test]
#[cfg_attr(no_lists, ignore = "no ../../shared/vectors/after-4; SIKLYAVON_VECTORS names another folder")]
fn refusals() {
    hold("refusals.txt", &list("refusals.txt"));
}

#[test]
#[cfg_attr(no_lists, ignore = "no ../../shared/vectors/after-4; SIKLYAVON_VECTORS names another folder")]
fn opens() {
    hold("opens.txt", &list("opens.txt"));
}

#[test]
#[cfg_attr(no_lists, ignore = "no ../../shared/vectors/after-4; SIKLYAVON_VECTORS names another folder")]
fn notices() {
    hold("notices.txt", &list("notices.txt"));
}

#[test]
#[cfg_attr(no_lists, ignore = "no ../../shared/vectors/after-4; SIKLYAVON_VECTORS names another folder")]
fn noticed() {
    hold("noticed.txt", &list("noticed.txt"));
}

/// What the oracle's program writes.
fn oracle(words: &[&str], input: &str) -> String {
    let program = place("SIKLYAVON_ORACLE", "../target/oracle/build/release/machine");
    let mut child = Command::new(&program)
        .args(words)
        .stdin(Stdio::piped())
        .stdout(Stdio::piped())
        .spawn()
        .unwrap_or_else(|e| {
            panic!(
                "{}: {e}. Run oracle/build, or name the program in SIKLYAVON_ORACLE",
                program.display()
            )
        });
    let mut stdin = child.stdin.take().expect("piped");
    let input = input.to_owned();
    let writer = std::thread::spawn(move || {
        // The oracle may not read what it has no use for.
        _ = stdin.write_all(input.as_bytes());
    });
    let out = child.wait_with_output().expect("the oracle ends");
    writer.join().expect("written");
    assert!(out.status.success(), "the oracle failed at {words:?}");
    String::from_utf8(out.stdout).expect("text")
}

/// Blocks that the oracle makes: `SIKLYAVON_RANDOM` is how many of each kind (500) and
/// `SIKLYAVON_SEED` their seed (1).
#[test]
#[cfg_attr(no_oracle, ignore = "oracle/build was not run; SIKLYAVON_ORACLE names another program")]
fn random() {
    let count = std::env::var("SIKLYAVON_RANDOM").unwrap_or("500".into());
    let seed = std::env::var("SIKLYAVON_SEED").unwrap_or("1".into());
    let calls = ["single", "runs", "refusals", "opens"];
    for kind in calls.into_iter().chain(["notices", "noticed", "noticerefusals", "statuses"]) {
        let asked = oracle(&["random", kind, &seed, &count], "");
        hold(&format!("random {kind}"), &oracle(&["answer"], &asked));
    }
}
