//! A build where the proved library is not there.
#![forbid(unsafe_code)]

use std::fs;
use std::path::Path;
use std::process::Command;

/// Cargo is called for this package with an empty folder for the library, and a target folder of its own.
#[test]
fn the_build_stops_and_says_what_to_run() {
    let scratch = Path::new(env!("CARGO_TARGET_TMPDIR")).join("no_library");
    let empty = scratch.join("empty");
    fs::create_dir_all(&empty).expect("a folder can be made");
    let build = Command::new(env!("CARGO"))
        .args(["build", "--offline", "--manifest-path"])
        .arg(concat!(env!("CARGO_MANIFEST_DIR"), "/Cargo.toml"))
        .arg("--target-dir")
        .arg(scratch.join("target"))
        .env("CELLPRISM_STATICLIB", &empty)
        .output()
        .expect("cargo can be called");
    let said = String::from_utf8_lossy(&build.stderr);
    assert!(!build.status.success(), "{said}");
    let missing = format!("there is no libcellprism.a in {}\n", empty.display());
    for part in [
        missing.as_str(),
        "bash host/staticlib.sh cellprism",
        "CELLPRISM_STATICLIB",
    ] {
        assert!(said.contains(part), "no {part:?} in: {said}");
    }
}
