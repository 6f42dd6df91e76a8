#!/usr/bin/env bash
# Every line of an edit is read: `file: `, `old: ` or `new:`, a comment that starts with #, or empty. Whatever else stands in an edit is
# passed over by `rt must-fail`, so a text of two lines would try something else than the edit's name says.
set -euo pipefail
cd "$(dirname "$0")/.."
edits=(crates/*/must-fail/*.edit tests/wrong_programs/*/*.edit)
if grep -nvE '^(file: |old: |new:|#|$)' "${edits[@]}"; then
    echo "lines that are passed over: an old: and a new: text is one line"
    exit 1
fi
echo "${#edits[@]} edits, of lines that are read"
