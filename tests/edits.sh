#!/usr/bin/env bash
# Tries every edit of edits/CRATE/, or with --gate those of crates/CRATE/must-fail/: the prover must refuse each. See tests/edits.py.
cd "$(dirname "$0")/.." || exit 1
exec python3 tests/edits.py "$@"
