#!/usr/bin/env bash
# For a machine that is no x86-64: compiles the model for x86-64 into target/bench/model-x86-64/, to be counted beside the archive. The Rust that is
# installed has no standard library for x86-64, so Debian's Rust is unpacked below target/, with that library, and nothing is installed.
set -eu
cd "$(dirname "$0")/../.."
work=$PWD/target/bench/model-x86-64
own=$(dpkg --print-architecture)
# apt with lists of its own, for both kinds of machine.
apt_here() {
    "$1" -q -o "APT::Architectures::=$own" -o "APT::Architectures::=amd64" -o "Dir::State::lists=$work/lists" -o "Dir::Cache=$work/cache" \
        -o APT::Sandbox::User=root "${@:2}"
}

# The package that PACKAGE depends on and whose name begins so.
needed_by() { # PACKAGE BEGINNING
    apt_here apt-cache depends "$1" | sed -n "s/^ *Depends: \($2[^ ]*\)\$/\1/p" | head -n 1
}

if [ ! -x "$work/rust/usr/bin/rustc" ]; then
    mkdir -p "$work/debs" "$work/lists/partial" "$work/cache/archives/partial"
    apt_here apt-get update
    libraries=$(needed_by libstd-rust-web-dev libstd-rust-web-)
    (cd "$work/debs" && apt_here apt-get download rustc-web libstd-rust-web-dev libstd-rust-web-dev:amd64 "$libraries" "$(needed_by "$libraries" libllvm)")
    for package in "$work"/debs/*.deb; do
        dpkg -x "$package" "$work/unpacked"
    done
    mv "$work/unpacked" "$work/rust"
    rm -r "$work/debs" "$work/lists" "$work/cache"
fi
LD_LIBRARY_PATH=$work/rust/usr/lib:$work/rust/usr/lib/$(uname -m)-linux-gnu RUSTC=$work/rust/usr/bin/rustc cargo build --quiet --profile measured \
    --target x86_64-unknown-linux-gnu --target-dir "$work/target" --manifest-path rust/Cargo.toml -p bench-model
cp "$work/target/x86_64-unknown-linux-gnu/measured/libbench_model.a" "$work/"
