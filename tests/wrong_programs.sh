#!/usr/bin/env bash
# Tries the wrong programs of tests/wrong_programs, which the gate leaves out to stay short: each is an edit of a crate, as in
# crates/*/must-fail, and must be refused. tests/wrong_programs.sh [CRATE]..
set -euo pipefail
cd "$(dirname "$0")/.."
tests/check_edits.sh
work=$(mktemp -d)
trap 'rm -rf "$work"' EXIT
# rt begins with what its checks kept here
tar -c --exclude='crates/*/out' --exclude='crates/*/must-fail' crates crates.txt | tar -x -C "$work"
if [ $# -eq 0 ]; then set -- $(ls tests/wrong_programs); fi
for crate in "$@"; do
    cp -r "tests/wrong_programs/$crate" "$work/crates/$crate/must-fail"
done
cd "$work"
rt must-fail "$@"
