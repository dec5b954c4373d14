#!/usr/bin/env bash
# staticlib.sh NAME..: proves crate NAME_c, which has the functions of crate NAME behind C names, and puts its static library where
# callers look for it: target/staticlib/libNAME.a. What rt says of the proof is printed.
set -euo pipefail

root=$(cd "$(dirname "${BASH_SOURCE[0]}")/.." && pwd)
if [ $# -eq 0 ]; then
    echo "usage: staticlib.sh NAME.." >&2
    exit 2
fi
if ! command -v rt >/dev/null; then
    echo "staticlib.sh: the Rattle kit is missing: there is no command rt" >&2
    exit 1
fi
mkdir -p "$root/target/staticlib"
for name in "$@"; do
    crate=${name}_c library=$root/target/staticlib/lib$name.a
    if ! [ -d "$root/crates/$crate" ]; then
        echo "staticlib.sh: there is no crate $crate" >&2
        exit 1
    fi
    rm -f "$library" "$root/crates/$crate/out/lib$crate.a"
    (cd "$root/crates/$crate" && rt lib)
    cp "$root/crates/$crate/out/lib$crate.a" "$library"
done
