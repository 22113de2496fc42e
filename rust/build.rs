//! Finds the archive, holds the records of src/raw.rs to it, and links it.
//!
//! probe.rs is compiled against the archive and run: the library gives a sample of each record, with
//! a number of its own in every field, and the probe reads each field back. Nothing is built where
//! one differs.
//!
//! For the tests it looks whether what they compare with is there, so that a test which cannot run is
//! reported as ignored (tests/vectors.rs).
use std::path::{Path, PathBuf};
use std::process::Command;

/// Sets `cfg(flag)` where the variable names nothing and the default path is not there.
fn missing(flag: &str, variable: &str, default: &Path) {
    println!("cargo:rustc-check-cfg=cfg({flag})");
    println!("cargo:rerun-if-env-changed={variable}");
    println!("cargo:rerun-if-changed={}", default.display());
    if std::env::var_os(variable).is_none() && !default.exists() {
        println!("cargo:rustc-cfg={flag}");
    }
}

fn main() {
    let here = PathBuf::from(std::env::var("CARGO_MANIFEST_DIR").expect("cargo sets it"));
    let folder = match std::env::var("SIKLYAVON_LINK") {
        Ok(f) => here.join(f),
        Err(_) => here.join("../target/staticlib"),
    };
    let archive = folder.join("liblink.a");
    println!("cargo:rerun-if-env-changed=SIKLYAVON_LINK");
    println!("cargo:rerun-if-changed={}", archive.display());
    println!("cargo:rerun-if-changed=src/raw.rs");
    println!("cargo:rerun-if-changed=probe.rs");
    assert!(
        archive.exists(),
        "{} is not there: run `tools/archive` in the repository's top folder first, or name \
         the folder that has liblink.a in SIKLYAVON_LINK",
        archive.display()
    );

    let probe = PathBuf::from(std::env::var("OUT_DIR").expect("cargo sets it")).join("probe");
    let compiled = Command::new(std::env::var("RUSTC").expect("cargo sets it"))
        .args(["--edition", "2021", "-A", "warnings", "-l", "static=link", "-L"])
        .arg(&folder)
        .arg("-o")
        .arg(&probe)
        .arg(here.join("probe.rs"))
        .status()
        .expect("rustc runs");
    assert!(
        compiled.success(),
        "the probe of the records' layout does not compile and link against {}: where that is older \
         than this crate, run `tools/archive` again",
        archive.display()
    );
    let held = Command::new(&probe).output().expect("the probe runs");
    assert!(
        held.status.success(),
        "src/raw.rs and {} differ:\n{}",
        archive.display(),
        String::from_utf8_lossy(&held.stderr)
    );

    missing("no_lists", "SIKLYAVON_VECTORS", &here.join("../../shared/vectors/after-4"));
    missing("no_oracle", "SIKLYAVON_ORACLE", &here.join("../target/oracle/build/release/machine"));

    println!("cargo:rustc-link-search=native={}", folder.display());
    println!("cargo:rustc-link-lib=static=link");
}
