#!/usr/bin/env bash
# make_tables.sh [FOLDER]: writes what the programs `tables` and `field_tables` must print, by ISA-L's arithmetic of the field of 256
# elements, to FOLDER/tables/stdout and FOLDER/field_tables/stdout. FOLDER is crates/ unless it is given. It needs a C compiler and
# Debian's package libisal-dev.
set -eu
here=$(cd "$(dirname "$0")" && pwd)
crates=${1:-$here/../../crates}
program=$(mktemp)
trap 'rm -f "$program"' EXIT
cc -O1 -Wall -Wextra -o "$program" "$here/tables.c" -lisal
"$program" > "$crates/tables/stdout"
"$program" products > "$crates/field_tables/stdout"
