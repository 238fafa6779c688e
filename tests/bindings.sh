#!/usr/bin/env bash
# Every call through the compiled library, from Rust and from C. Builds the archive, runs the Rust crate's tests (which compare every
# call with an independent planner), and compiles and runs the C programs; and looks what the archive needs from outside. Prints nothing
# where all passes.
set -u
cd "$(dirname "$0")/.." || exit 1
log=$(mktemp)
trap 'rm -f "$log"' EXIT

# Runs a command, and shows what it wrote where it fails.
quietly() {
    "$@" > "$log" 2>&1 && return
    cat "$log"
    echo "failed: $*"
    exit 1
}

archive=target/staticlib/libexports.a
quietly bash bindings/archive.sh

# What the archive asks of whoever links it: these two and nothing else.
quietly diff <(printf '%s\n' memcpy memset) <(nm -u "$archive" | sed -n 's/^ *U //p' | sort -u)

export CARGO_TARGET_DIR=$PWD/target/cargo
for profile in dev release; do
    quietly cargo test --offline --locked --quiet --profile "$profile" --manifest-path bindings/rust/Cargo.toml
done

mkdir -p target/c
for program in example calls; do
    quietly "${CC:-cc}" -std=c99 -Wall -Wextra -Werror -Iinclude "bindings/c/$program.c" "$archive" -o "target/c/$program"
done
quietly target/c/calls
target/c/example > target/c/example.out || { echo "failed: target/c/example"; exit 1; }
quietly diff bindings/c/expected target/c/example.out
