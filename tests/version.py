#!/usr/bin/env python3
"""Holds the version to the file VERSION at the top: the header, the number that the library gives, the packages for Rust and Python, and
the newest entry of CHANGELOG.md.

    tests/version.py            says where another version stands
    tests/version.py --write    puts the version of VERSION there (CHANGELOG.md is written by hand)
"""
import os
import re
import sys

TOP = os.path.dirname(os.path.dirname(os.path.abspath(__file__)))
# the version as the library's code and statement have it
NUMBER = "10000 * {} + 100 * {} + {}"
# a file, what stands before and after the version in it, and how it is written there
PLACES = [
    ("include/balanced.h", r'(^#define BALANCED_VERSION ")([^"]*)(")'),
    ("bindings/rust/Cargo.toml", r'(\A\[package\]\nname = "balanced"\nversion = ")([^"]*)(")'),
    ("bindings/rust/Cargo.lock", r'(^name = "balanced"\nversion = ")([^"]*)(")'),
    ("bindings/python/balanced/__init__.py", r'(^__version__ = ")([^"]*)(")'),
    ("bindings/python/pyproject.toml", r'(^version = ")([^"]*)(")'),
    ("crates/balanced_c/src/version.rt", r"(^    )(10000 .*)($)", NUMBER),
    ("crates/balanced_c/specs/Version.antt", r"(^version_number = )(.*)($)", NUMBER),
    ("CHANGELOG.md", r"(\A[^#]*# Changelog\n(?:(?!## ).*\n)*## )(\S+)( )"),
]


def read(path):
    with open(os.path.join(TOP, path), encoding="utf-8") as file:
        return file.read()


def main():
    version = read("VERSION").strip()
    faults = [] if re.fullmatch(r"\d+\.\d+\.\d+", version) else [f"VERSION: {version!r} is not three numbers"]
    for path, form, *written in PLACES:
        here = written[0].format(*version.split(".")) if written else version
        if not os.path.exists(os.path.join(TOP, path)):
            print(f"version: {path} is not there and is left out")
            continue
        text = read(path)
        found = [match.group(2) for match in re.finditer(form, text, re.M)]
        if len(found) != 1:
            faults.append(f"{path}: {len(found)} places for the version, not one")
        elif found != [here] and "--write" in sys.argv and path != "CHANGELOG.md":
            with open(os.path.join(TOP, path), "w", encoding="utf-8") as file:
                file.write(re.sub(form, rf"\g<1>{here}\g<3>", text, flags=re.M))
        elif found != [here]:
            faults.append(f"{path}: {found[0]}, where VERSION has {here}")
    for fault in faults:
        print(fault)
    print(f"version: {version}, {len(faults)} faults")
    sys.exit(bool(faults))


if __name__ == "__main__":
    main()
