#!/usr/bin/env bash
# make_sheets.sh [FOLDER]: writes the records that the program `sheet_cases` reads (FOLDER/sheet_cases/stdin: those in records.txt), and
# what the programs `sheet`, `compare`, `weights`, `sheet_cases` and `small_plans` must print (FOLDER/PROGRAM/stdout), by the Python reference.
# FOLDER is crates/ unless it is given.
set -eu
here=$(cd "$(dirname "$0")" && pwd)
crates=${1:-$here/../../crates}
python3 "$here/sheet.py" "1 7 3 6 4" > "$crates/sheet/stdout"
python3 "$here/compare.py" "1 7 3 6 4" > "$crates/compare/stdout"
python3 "$here/weights.py" "1 7 3 6 3" > "$crates/weights/stdout"
cp "$here/records.txt" "$crates/sheet_cases/stdin"
python3 "$here/sheet_cases.py" "$here/records.txt" > "$crates/sheet_cases/stdout"
python3 "$here/plan_list.py" > "$crates/small_plans/stdout"
