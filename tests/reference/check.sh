#!/usr/bin/env bash
# Makes every stored output anew by the Python reference, in a temporary folder, and compares it with what is stored.
set -eu
here=$(cd "$(dirname "$0")" && pwd)
crates=$here/../../crates
work=$(mktemp -d)
trap 'rm -rf "$work"' EXIT
mkdir -p "$work"/{sheet,compare,weights,sheet_cases,small_plans,cases}
"$here/make_sheets.sh" "$work"
"$here/make_cases.sh" "$work"
for file in $(cd "$work" && find . -type f); do
    cmp "$work/$file" "$crates/$file"
done
for file in "$here"/large_*.py; do
    python3 "$file" | cmp - "${file%.py}.out"
done
echo "every stored output is what the reference makes"
