#!/usr/bin/env bash
# The programs that read a record take eight bytes of it: `sheet`, `plain`, `compare` and `weights` on records of every kind and length, held to what
# the Python reference prints. A record of kind 3 has seven bytes; longer ones, and those of kind 1 that are too long, meet number 2.
# And `record`, on n and k. None of the programs has a heap, and `cases` and `sheet_cases` read all of their input before they answer.
# Needs the proved programs (`make programs`, or `rt ci`), Python and nm.
set -euo pipefail
cd "$(dirname "$0")/.."
records=(
    "" "1" "9" "1 7 3 6 3" "2 214 3 1" "2 11 15 10"
    "3 2 9 1 140 5 1" "3 1 15 1 12 15 10" "3 255 241 15 41 16 8"
    "1 7 3 6 3 0" "1 7 3 6 3 6 6 6" "2 214 3 1 1" "3 2 9 1 140 5 1 1" "3 1 15 1 12 15 10 0 0"
)
# the record's bytes
bytes() { local byte; for byte in $1; do printf "\\$(printf %03o "$byte")"; done; }
for program in sheet plain compare weights; do
    for record in "${records[@]}"; do
        diff <(bytes "$record" | "crates/$program/out/$program") <(python3 "tests/reference/$program.py" "$record") || { echo "$program of the record '$record' differs"; exit 1; }
    done
done
asked=("" "6" "6 5" "6 5 0" "0 0" "1 1" "2 1" "2 2" "3 2" "6 0" "6 7" "15 10" "16 3" "51 30" "100 60" "251 125" "253 84" "254 127" "255 120" "255 255" "255 0")
for sizes in "${asked[@]}"; do
    diff <(bytes "$sizes" | crates/record/out/record) <(python3 tests/reference/record.py "$sizes") || { echo "record of '$sizes' differs"; exit 1; }
done
for program in sheet plain compare weights record cases sheet_cases small_plans tables field_tables; do
    names=$(nm -D "crates/$program/out/$program")
    if grep -E ' (malloc|realloc|free)(@|$)' <<<"$names"; then echo "$program wants a heap"; exit 1; fi
done
# a line, and the end of the input a second later: whoever waits half a second for an answer has none
early() { { printf '%s\n' "$2"; sleep 1; } | "crates/$1/out/$1" 2>/dev/null | { read -r -t 0.5 _; }; }
if early cases 'plan 1 7 3 6 4' || early sheet_cases 'record 1 7 3 6 4'; then echo "a program answers before it has read its input"; exit 1; fi
echo "${#records[@]} records by four programs, and ${#asked[@]} that were asked for: as the reference prints them"
