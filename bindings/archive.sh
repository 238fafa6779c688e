#!/usr/bin/env bash
# Proves the exports and all that is below them, and writes target/staticlib/libexports.a, which programs in C and Rust link.
set -eu
cd "$(dirname "$0")/.."
(cd crates/exports_c && rt lib)
mkdir -p target/staticlib
cp crates/exports_c/out/libexports_c.a target/staticlib/libexports.a
