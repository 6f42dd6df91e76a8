#!/usr/bin/env python3
"""Proves crates, and says on standard error how far it is: a line for each crate that was proved.

    tools/prove.py NAME..          proves and builds these crates and all that they rest on: a library by `rt lib`, a program by
                                   `rt run`, on its file stdin, and it must write what its file stdout has
    tools/prove.py --sum           prints the sum of what all crates are proved from
    tools/prove.py --passed SUM    notes that `rt ci` has proved and run every crate as it stands; SUM was printed before `rt ci` began

A crate that is unchanged since it was last proved is counted and has no line. What rt says is kept in target/prove.log, and is
shown where something is not proved. target/proved has for each crate that was proved the sum of all that its proof read and made: while
that is the same, rt is not asked again. Exit status: that of rt, 0 where all is proved; 2 for a name that crates.txt does not list.
"""
import functools
import hashlib
import os
import re
import subprocess
import sys
import tempfile
import time
from crates import TOP, crates, folder, in_order, is_program, needed, program

LOG = os.path.join(TOP, "target", "prove.log")
NOTED = os.path.join(TOP, "target", "proved")
BEGUN = re.compile(r"rt: chose --jobs \d+ for (\w+)$")


def say(words):
    print(words, file=sys.stderr, flush=True)


def rt(*words, **how):
    """A run of rt, begun."""
    try:
        return subprocess.Popen(["rt", *words], **how)
    except FileNotFoundError:
        say("rt is not on the path: the proofs need the Rattle toolchain")
        sys.exit(2)


# ---------------------------------------------------------------- what was proved before

def sum_of(path):
    with open(path, "rb") as file:
        return hashlib.sha256(file.read()).hexdigest()


@functools.lru_cache(maxsize=None)
def version():
    with rt("version", stdout=subprocess.PIPE) as asked:
        return asked.stdout.read()


@functools.lru_cache(maxsize=None)
def files_of(name):
    """What a crate is proved from, and a program is run on, each file with its sum as it was when this program first read it."""
    return [(os.path.relpath(path, TOP), sum_of(path)) for path in paths_of(name)]


def paths_of(name):
    for part in ("src", "specs", "proofs"):
        for at, folders, files in os.walk(os.path.join(folder(name), part)):
            folders.sort()
            yield from (os.path.join(at, file) for file in sorted(files))
    yield from (path for path in (os.path.join(folder(name), part) for part in ("stdin", "stdout")) if os.path.exists(path))


def sources(names):
    """The sum of what the named crates and all that they rest on are proved from."""
    graph = crates()
    read = [(name, graph[name], files_of(name)) for name in sorted(needed(names))]
    return hashlib.sha256(repr((version(), read)).encode()).hexdigest()


def built(name, *inside):
    """A file of a library as rt builds it."""
    return os.path.join(folder(name), "out", "rlib", *inside)


def made(name):
    """The files that a crate's proof leaves: a program; of a library the lists of sums of its files and of those below it."""
    if is_program(name):
        return [program(name)]
    return [built(other, f"{other}.rlib", "format") for other in in_order(name)]


def mark(name):
    """The sum of all that a crate's proof read and made, None where something of it is not there."""
    if not all(map(os.path.isfile, made(name))):
        return None
    return hashlib.sha256(repr((sources([name]), [sum_of(file) for file in made(name)])).encode()).hexdigest()


def note(name):
    path, now = os.path.join(NOTED, name), mark(name)
    if now:
        os.makedirs(NOTED, exist_ok=True)
        with open(path, "w", encoding="utf-8") as file:
            file.write(now)


def is_noted(name):
    path = os.path.join(NOTED, name)
    return os.path.exists(path) and open(path, encoding="utf-8").read() == mark(name)


def note_all(before):
    """Notes what `rt ci` has proved, if no file was touched since. It leaves a library without a stamp, and gives back one that an earlier command built and stamped."""
    if sources(crates()) != before:
        say("prove.py: files of the crates have changed while rt ci ran")
        sys.exit(1)
    for name in crates():
        if is_program(name) or not any(os.path.exists(built(other, "stamp")) for other in in_order(name)):
            note(name)


# ---------------------------------------------------------------- proving

def follow(lines, order, log):
    """Keeps what rt says in the log, and says which crates are proved."""
    name, since = None, time.monotonic()
    for line in lines:
        log.write(line)
        begun = BEGUN.match(line.rstrip("\n"))
        if begun:
            name, since = begun.group(1), time.monotonic()
        elif name and line.startswith("logic=proved "):
            say(f"{order.index(name) + 1} of {len(order)} proved: {name} ({time.monotonic() - since:.0f} s)")
            name = None


def stop(status):
    say(open(LOG, encoding="utf-8").read().rstrip("\n"))
    sys.exit(status)


def stream(name, part):
    """What a program is given, or what it must write."""
    path = os.path.join(folder(name), part)
    return open(path if os.path.exists(path) else os.devnull, "rb")


def prove_one(name, order, log):
    """Proves and builds a crate and what it rests on; ends this program where that fails."""
    told = {"cwd": folder(name), "text": True, "errors": "replace"}
    if is_program(name):
        with stream(name, "stdin") as given, tempfile.TemporaryFile() as written, rt("run", stdin=given, stdout=written, stderr=subprocess.PIPE, **told) as run:
            follow(run.stderr, order, log)
            run.wait()
            written.seek(0)
            with stream(name, "stdout") as wanted:
                same = wanted.read() == written.read()
        status = run.returncode or (0 if same else 1)
        if status == 1 and not run.returncode:
            log.write(f"{name}: the program wrote something else than its file stdout has\n")
    else:
        with rt("lib", stdin=subprocess.DEVNULL, stdout=subprocess.PIPE, stderr=subprocess.STDOUT, **told) as run:
            follow(run.stdout, order, log)
        status = run.returncode
    log.flush()
    if status:
        stop(status)


def prove(names):
    """Proves the crates and all that they rest on; ends this program where that fails."""
    left = [name for name in names if not is_noted(name)]
    if not left:
        return
    order = list(dict.fromkeys(crate for name in left for crate in in_order(name)))
    say(f"proving {' '.join(left)}: {len(order)} crates, a line for each that has changed")
    os.makedirs(os.path.dirname(LOG), exist_ok=True)
    with open(LOG, "w", encoding="utf-8") as log:
        for name in left:
            prove_one(name, order, log)
            note(name)


def main():
    names = sys.argv[1:]
    if names == ["--sum"]:
        print(sources(crates()))
        return
    if names[:1] == ["--passed"] and len(names) == 2:
        note_all(names[1])
        return
    unknown = [name for name in names if name not in crates()]
    if unknown or not names:
        say(f"crates.txt lists no {unknown[0]}" if unknown else "usage: tools/prove.py NAME..")
        sys.exit(2)
    prove(names)


if __name__ == "__main__":
    try:
        main()
    except KeyboardInterrupt:
        sys.exit(130)
