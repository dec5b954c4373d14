#!/usr/bin/env bash
# original.sh SOURCES OUT: lays out in OUT the three crates of the original, compiled unchanged from
# SOURCES. Two of them are supplied without their crate root: a root is written that declares the
# one module that is supplied. Nothing of the original is copied.
set -euo pipefail

sources=$(cd "$1" && pwd)
out=$2

case $sources in
*[\"\\]*)
    echo "original.sh: a quote or a backslash in the path $sources" >&2
    exit 1
    ;;
esac

# crate NAME ROOT DEPENDENCIES: the manifest of one crate.
crate() {
    mkdir -p "$out/$1"
    cat >"$out/$1/Cargo.toml" <<EOF
[package]
name = "$1"
version = "0.0.0"
edition = "2021"
publish = false

[lib]
path = "$2"

[dependencies]
$3
EOF
}

crate magnetar-field lib.rs ''
cat >"$out/magnetar-field/lib.rs" <<EOF
#[path = "$sources/crates/magnetar-field/src/gf128.rs"]
pub mod gf128;
pub use gf128::*;

/// Stands in for a name that r1cs.rs uses and that is not supplied. What is compared never calls it.
pub struct EqBits {
    pub values: Vec<Gf128>,
}

impl EqBits {
    pub fn build(_point: &[Gf128]) -> EqBits {
        panic!("EqBits is a stand-in: the original's is not supplied")
    }
}
EOF

crate magnetar-spartan lib.rs 'magnetar-field = { path = "../magnetar-field" }
rayon = "1"'
cat >"$out/magnetar-spartan/lib.rs" <<EOF
#[path = "$sources/crates/magnetar-spartan/src/r1cs.rs"]
pub mod r1cs;
pub use r1cs::*;
EOF

crate magnetar-cpu "$sources/crates/magnetar-cpu/src/lib.rs" \
    'magnetar-field = { path = "../magnetar-field" }
magnetar-spartan = { path = "../magnetar-spartan" }'
