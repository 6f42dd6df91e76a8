#!/usr/bin/env python3
"""Prints the man page balanced(3), from include/balanced.h: what the header says of records, blocks and callers, its numbers and its calls.

    tools/make_man.py            the page
    tools/make_man.py --calls    the names of the calls, one a line
"""
import os
import re
import sys

TOP = os.path.dirname(os.path.dirname(os.path.abspath(__file__)))
DECLARED = re.compile(r"^(?:uint\w+|static inline const char \*) ?(balanced_\w+)\([^;{]*\)(?=;| \{)", re.M)
NUMBER = re.compile(r"^    (BALANCED_\w+) = (\d+),? +/\* (.*) \*/$", re.M)
COMMENT = re.compile(r"^/\*\n(.*?)\n \*/\n", re.M | re.S)
ABSTRACT = "a message over n nodes, any k of which give it back"


def read(name):
    with open(os.path.join(TOP, name), encoding="utf-8") as file:
        return file.read()


def escaped(text):
    """Text of a page: no character of it is taken for a request or a hyphen."""
    text = text.replace("\\", "\\e").replace("-", "\\-")
    return "\\&" + text if text[:1] in (".", "'") else text


def lines_of(comment):
    """The text of a comment, without its stars."""
    return [line[3:] if line.startswith(" * ") else line.lstrip(" *") for line in comment.split("\n")]


def kind_of(line, last):
    """What a line is: set in, it goes on with an item, or else stays as it is."""
    if line.startswith("  "):
        return "item" if last == "item" else "table"
    return "end" if not line else "item" if line.startswith("- ") else "text"


def paragraphs(lines):
    """Requests for lines of text, in which an item begins with `- `."""
    last = "end"
    for line in [*lines, ""]:
        kind = kind_of(line, last)
        if last == "table" != kind:
            yield ".fi"
        if kind == "item" and line.startswith("- "):
            yield ".IP \\(bu 2"
        elif kind in ("text", "table") and kind != last:
            yield ".PP" if kind == "text" else ".PP\n.nf"
        if line:
            yield escaped(line[2:] if kind != "text" else line)
        last = kind


def sections(comment):
    """The parts of the comment at the head: a heading stands alone, behind two empty lines."""
    parts = re.split(r"\n \*\n \*\n \* ([A-Z][\w ]*)\n \*\n", comment)
    yield "Description", parts[0].split("\n", 2)[2]
    yield from zip(parts[1::2], parts[2::2])


def numbers(header):
    yield ".SH NUMBERS"
    for name, number, text in NUMBER.findall(header):
        yield f".TP\n.BR {name} \" ({number})\"\n{escaped(text)}"


def calls(header):
    """Each comment, below the names of the calls that follow it."""
    yield ".SH CALLS"
    for match in COMMENT.finditer(header):
        behind = header[match.end():]
        following = re.match(r"(?:(?:uint\w+ |static inline const char \*)balanced_\w+\([^;{]*\)(?:;| \{)\n)+", behind)
        if following:
            names = ", ".join(name for name in DECLARED.findall(following[0]))
            yield f".SS {names}"
            yield from paragraphs(lines_of(match[1]))
        elif match.start() > 0:
            # what several calls have in common
            yield f".SS {re.split('[:.]', lines_of(match[1])[0])[0]}"
            yield from paragraphs(lines_of(match[1]))


def page(header):
    names = DECLARED.findall(header)
    yield f'.TH BALANCED 3 "" "balanced {read("VERSION").strip()}" "Library Functions"'
    yield ".nh\n.ad l\n.SH NAME"
    yield escaped(", ".join(["balanced", *names])) + " \\- " + ABSTRACT
    yield ".SH SYNOPSIS\n.B #include <balanced.h>"
    for match in DECLARED.finditer(header):
        words = " ".join(match[0].split())
        yield f".HP 4\n.B {escaped(words)};"
    yield ".PP\nLink with \\-lbalanced:\n.PP\n.nf\ncc program.c $(pkg\\-config \\-\\-cflags \\-\\-libs balanced)\n.fi"
    for heading, text in sections(COMMENT.search(header)[1]):
        yield f".SH {heading.upper()}"
        yield from paragraphs(lines_of(text))
    yield from numbers(header)
    yield from calls(header)
    yield ".SH SEE ALSO\n.BR imagestore (1),\n.BR pkg\\-config (1)"


def main():
    header = read("include/balanced.h")
    print("\n".join(DECLARED.findall(header) if sys.argv[1:] == ["--calls"] else page(header)))


if __name__ == "__main__":
    main()
