#!/usr/bin/env python3
"""Checks that the constant tables of the field of 256 elements are the numbers that the program `tables` prints, in its order."""
import pathlib
import re
import sys

crates = pathlib.Path(__file__).resolve().parents[2] / "crates"
source = (crates / "field/src/tables.rt").read_text()
bodies = re.findall(r"^const (\w+): \[u8; 255\] = \[([0-9,\s]*)\];", source, re.M)
if [name for name, _ in bodies] != ["POWERS", "LOGARITHMS"]:
    sys.exit("check_constants: field/src/tables.rt does not hold the tables POWERS and LOGARITHMS, in this order")
numbers = [int(word) for _, body in bodies for word in body.split(",") if word.strip()]
printed = [int(word) for word in (crates / "tables/stdout").read_text().split("\n")[:-1]]
if len(printed) != 510:
    sys.exit(f"check_constants: tables/stdout has {len(printed)} lines, not 510")
if numbers != printed:
    sys.exit("check_constants: the constants of field/src/tables.rt are other numbers than tables/stdout has")
print("constants: 510 numbers, as the program `tables` prints them")
