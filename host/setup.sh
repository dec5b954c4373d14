#!/usr/bin/env bash
# What ./test and ./bench need of the machine to build host/; they source it. It reads `root`, the
# repository, `original`, the original's sources, and `logs`, a folder; what cannot be had is said
# in `lacking`.
# shellcheck disable=SC2154 # root, original and logs are the caller's

registry=/usr/share/cargo/registry # where Debian puts the sources of Rust crates
oldest_rust=77                     # 1.77: the comparison calls each_ref on arrays (the original needs 1.73)
lacking=
PATH=$PATH${HOME:+:$HOME/.cargo/bin}

as_root() {
    if [ "$(id -u)" = 0 ]; then
        "$@"
    else
        sudo -n "$@"
    fi
}

# apt_install PACKAGE..: the package lists are brought up to date once.
updated=no
apt_install() {
    command -v apt-get >/dev/null || return 1
    echo "      installing $*"
    export DEBIAN_FRONTEND=noninteractive
    {
        [ "$updated" = yes ] || as_root apt-get update
        updated=yes
        as_root apt-get -o DPkg::Lock::Timeout=300 install -y --no-install-recommends "$@"
    } >>"$logs/apt" 2>&1
}

need_original() {
    local file
    for file in magnetar-field/src/gf128.rs magnetar-spartan/src/r1cs.rs \
        magnetar-cpu/src/{lib,circuit,decode,expand,interp}.rs; do
        if ! [ -r "$original/crates/$file" ]; then
            lacking="the original's sources are not at hand: no crates/$file in $original"
            return 1
        fi
    done
    original=$(cd "$original" && pwd)
}

# Without both the original's product is wrong. The programs themselves ask again as they run.
need_processor() {
    if [ "$(uname -m)" != x86_64 ]; then
        lacking="the processor is no x86-64"
    elif ! grep -qw pclmulqdq /proc/cpuinfo; then
        lacking="the processor lacks PCLMULQDQ"
    elif ! grep -qw sse4_1 /proc/cpuinfo; then
        lacking="the processor lacks SSE4.1"
    fi
    [ -z "$lacking" ]
}

rust_fits() {
    hash -r
    command -v cargo >/dev/null && [[ $(rustc --version 2>/dev/null) =~ ^rustc\ 1\.([0-9]+) ]] &&
        [ "${BASH_REMATCH[1]}" -ge "$oldest_rust" ]
}

# Debian 12 has a Rust that is too old and, under the names with -web, one that is not.
need_rust() {
    rust_fits || apt_install cargo-web rustc-web || apt_install cargo rustc
    rust_fits && return
    lacking="no cargo and rustc from 1.$oldest_rust on, and none could be installed"
    return 1
}

need_linker() {
    command -v cc >/dev/null || apt_install gcc libc6-dev
    command -v cc >/dev/null && return
    lacking="no C compiler and linker (cc), and none could be installed"
    return 1
}

rayon_there() { compgen -G "$registry/rayon-1.*" >/dev/null; }

need_rayon() {
    rayon_there || apt_install librust-rayon-dev
    rayon_there && return
    lacking="rayon is not in $registry and could not be installed (librust-rayon-dev)"
    return 1
}

# build_host TARGET WORDS..: builds host/ over the original into target/TARGET; WORDS go to cargo.
# The lock file follows the system's packages, so that of an earlier run is not kept.
build_host() {
    local target=$root/target/$1
    shift
    rm -f "$root/host/Cargo.lock"
    bash "$root/host/original.sh" "$original" "$root/target/original" &&
        CARGO_TARGET_DIR=$target CELLPRISM_STATICLIB=$root/target/staticlib \
            cargo build --release --offline --manifest-path "$root/host/Cargo.toml" \
            --config 'source.crates-io.replace-with="debian"' \
            --config "source.debian.directory=\"$registry\"" "$@"
}
