#!/usr/bin/env bash
# make_cases.sh [FOLDER]: writes the calls that the program `cases` answers (FOLDER/cases/stdin: those in cases.txt and cases_*.txt, and those of small_plans.py and histories.py),
# and what that program must print (FOLDER/cases/stdout), by the Python reference. FOLDER is crates/ unless it is given.
set -eu
here=$(cd "$(dirname "$0")" && pwd)
crates=${1:-$here/../../crates}
cat "$here/cases.txt" "$here"/cases_*.txt > "$crates/cases/stdin"
python3 "$here/small_plans.py" >> "$crates/cases/stdin"
python3 "$here/histories.py" >> "$crates/cases/stdin"
python3 "$here/cases.py" "$crates/cases/stdin" > "$crates/cases/stdout"
