#!/usr/bin/env bash
# The package for Python: every call, on every build that the processor runs, against tests/reference; all numbers; buffers of every
# sort; rosters; where the library is found; the wheel; the pages' examples. First the reference itself against brute force.
# Needs rt, gcc and Python 3.11; no network.
set -euo pipefail
cd "$(dirname "$0")/.."
tools/build_library.sh
export PYTHONPATH=$PWD/bindings/python PYTHONDONTWRITEBYTECODE=1
log=$(mktemp)
trap 'rm -f "$log"' EXIT
PYTHONPATH= python3 tests/reference/self_check.py >"$log" 2>&1 || { cat "$log"; exit 1; }
python3 -m unittest discover -v --start-directory bindings/python/tests --top-level-directory bindings/python >"$log" 2>&1 || { cat "$log"; exit 1; }
# what could not be run is said
grep ' \.\.\. skipped ' "$log" || true
python3 -c 'from tests.builds import BUILDS; print("from Python on", *BUILDS)'
grep '^Ran ' "$log"
