#!/usr/bin/env bash
# The built program `plan`, one request at a time.
set -eu
python3 -B tests/program.py
