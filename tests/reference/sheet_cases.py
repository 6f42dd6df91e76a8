#!/usr/bin/env python3
"""sheet_cases.py FILE: prints each line of FILE, a record in words ("record 1 7 3 6 4"), with the record's sheet and comparison below it, or with
what makes it no record.

An empty line or a comment, which starts with #, is printed as it is.
"""
import sys
from compare import comparison
from sheet import sheet
from words import NotRead, is_comment, read_line


def answered(line):
    if is_comment(line):
        return [line]
    try:
        _, record, _ = read_line(line, {"record": []})
    except NotRead as fault:
        return [f"{line}: no record, {fault}"]
    return [line, *sheet(record), *comparison(record)]


with open(sys.argv[1]) as lines:
    for line in lines:
        print("\n".join(answered(line.rstrip("\n"))))
