#!/usr/bin/env bash
# Each wrong program of the must-fail edits is refused at the fact that no longer holds.
set -eu
python3 -B tests/refused.py
