#!/usr/bin/env python3
"""Proves a program that takes a record, and runs it on one: sheet, plain, compare or weights; or record, which takes n and k.

    tools/run_program.py PROGRAM [NUMBER..]

The record is the numbers given, or else those of the variable RECORD, in base ten; in kind 3 p and α may be numbers above 255.
For `record` the numbers are n and k, or else those of the variables N and K.
What the program writes is passed on as it is. Where it is a refusal, standard error says what the number means for this record,
and what to do. Exit status: 0 the record is accepted, 1 it is refused, 2 there is no such program or record; where something is
not proved, that of rt.
"""
import os
import re
import subprocess
import sys
from crates import program as program_file
from prove import prove, say
from record_text import NoRecord, bytes_of, counts_of
from refusal_words import words_for

PROGRAMS = ("sheet", "plain", "compare", "weights", "record")
NO_SUCH_SIZE = "size: n is from 2 to 255, and k from 1 to n."


def asked():
    """The program and the record's text, as they were given."""
    program, *numbers = sys.argv[1:] or [""]
    names = ("N", "K") if program == "record" else ("RECORD",)
    given = numbers or [os.environ[name] for name in names if name in os.environ]
    text = " ".join(given) if given else None
    if program not in PROGRAMS or text is None:
        say(f"usage: tools/run_program.py {'|'.join(PROGRAMS)} NUMBER..")
        sys.exit(2)
    return program, text


def run(program, record):
    return subprocess.run([program_file(program)], input=record, stdout=subprocess.PIPE, check=True).stdout


def hand_on(output):
    """Writes the output; a reader who has seen enough, as `head`, may close it before its end."""
    try:
        with open(sys.stdout.fileno(), "wb", closefd=False) as out:
            out.write(output)
    except BrokenPipeError:
        pass


def main():
    program, text = asked()
    try:
        record = counts_of(text) if program == "record" else bytes_of(text)
    except NoRecord as fault:
        say(fault)
        sys.exit(2)
    prove([program])
    output = run(program, record)
    hand_on(output)
    refused = re.fullmatch(rb"refused ([0-9]+)\n", output)
    if refused:
        say(NO_SUCH_SIZE if program == "record" else words_for(int(refused[1]), record))
        sys.exit(1)


if __name__ == "__main__":
    try:
        main()
    except KeyboardInterrupt:
        sys.exit(130)
