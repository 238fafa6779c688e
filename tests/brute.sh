#!/usr/bin/env bash
# The brute-force planner holds document 01's own examples, and the requests and answers stored for `trials` are those it makes today. The
# requests that are too long for `trials` go to target/tests, for tests/program.sh.
set -eu
folder=$(mktemp -d)
trap 'rm -rf "$folder"' EXIT
python3 -B tests/test_brute.py
python3 -B tests/requests.py pack "$folder/stdin" expect "$folder/stdout" long target/tests
cmp "$folder/stdin" crates/trials/stdin
cmp "$folder/stdout" crates/trials/stdout
