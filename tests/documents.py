#!/usr/bin/env python3
"""Checks what the documents show: the commands' output, the programs in C and Python, the links, and the files and names they cite.

    tests/documents.py            runs and compares
    tests/documents.py --write    puts the output that was seen into the documents

A block of `sh` is run by bash at the top of the repository, a block of `c` is compiled with the library and run, a block of
`python` is run over the package; the block of `text` right after one is what it prints. Blocks of `sh` without a block of
`text` are not run. A block of `antt` or `rattle` that names a file is a part of that file. Needs the programs and the library
(`make programs library`). Blocks of `rust` are tested by cargo (bindings/rust/src/lib.rs).
"""
import os
import re
import subprocess
import sys
import tempfile

TOP = os.path.dirname(os.path.dirname(os.path.abspath(__file__)))
SHOWN = re.compile(r"^```(sh|c|python)\n(.*?)^```\n(?:```text\n(.*?)^```\n)?", re.M | re.S)
EXCERPT = re.compile(r"^```(?:antt|rattle) (\S+)\n(.*?)^```\n", re.M | re.S)
CITED = re.compile(r"((?:`[\w.-]+`,? (?:and )?)+)in `(crates/[\w./-]+)`")
LINK = re.compile(r"!?\[[^\]]*\]\(([^)#]*)(?:#([^)]*))?\)")


def run_shell(code):
    return subprocess.run(["bash", "-euo", "pipefail", "-c", code], cwd=TOP, capture_output=True, text=True)


def run_c(code):
    with tempfile.TemporaryDirectory() as folder:
        source, program = os.path.join(folder, "snippet.c"), os.path.join(folder, "snippet")
        with open(source, "w", encoding="utf-8") as file:
            file.write(code)
        compiled = subprocess.run(
            ["gcc", "-std=c99", "-pedantic", "-Wall", "-Wextra", "-Werror", "-Iinclude", "-o", program, source, "target/lib/libbalanced.a"],
            cwd=TOP, capture_output=True, text=True)
        return compiled if compiled.returncode else subprocess.run([program], capture_output=True, text=True)


def run_python(code):
    package = os.path.join(TOP, "bindings", "python")
    environment = {**os.environ, "PYTHONPATH": package, "PYTHONDONTWRITEBYTECODE": "1"}
    return subprocess.run([sys.executable, "-c", code], cwd="/", env=environment, capture_output=True, text=True)


RUN = {"sh": run_shell, "c": run_c, "python": run_python}


def anchor(heading):
    """The name that a heading gets in a link."""
    return re.sub(r"[^\w\- ]", "", heading.strip().lower()).replace(" ", "-")


def places(file):
    """The places that a link into a file can name: the headings of a document, the ids of a page."""
    text = open(file, encoding="utf-8").read()
    if file.endswith(".html"):
        return re.findall(r'\bid="([^"]+)"', text)
    return [anchor(heading) for heading in re.findall(r"^#+ (.*)$", text, re.M)]


def broken_links(path, text):
    for target, place in LINK.findall(re.sub(r"```.*?```", "", text, flags=re.S)):
        if "://" in target:
            continue
        file = os.path.normpath(os.path.join(os.path.dirname(path), target)) if target else path
        if not os.path.exists(file):
            yield f"no file {target}"
        elif place and place not in places(file):
            yield f"no place {place} in {target or 'this file'}"


def left_out(text):
    """The parts of a document that its list of them leaves out. A document that links to three parts in four before the first, or under
    "Contents", lists them."""
    parts = re.split(r"^## (.*)$", text, flags=re.M)
    headings = [heading for heading in parts[1::2] if heading != "Contents"]
    listed = parts[0] + (parts[2] if parts[1:2] == ["Contents"] else "")
    links = {place for target, place in LINK.findall(listed) if not target}
    absent = [heading for heading in headings if anchor(heading) not in links]
    if 4 * len(absent) < len(headings):
        yield from (f"the list of parts leaves out {heading}" for heading in absent)


def missing(text):
    """The paths and names that a document cites and that are not there."""
    for path in set(re.findall(r"`((?:crates|tests|docs|include|bindings|examples|bench|tools)/[\w./-]+)`", text)):
        if not os.path.exists(os.path.join(TOP, path)):
            yield f"no file {path}"
    for names, path in CITED.findall(text):
        file = os.path.join(TOP, path)
        cited = open(file, encoding="utf-8").read() if os.path.isfile(file) else ""
        for name in re.findall(r"`([^`]+)`", names):
            if not re.search(r"(?<![\w-])" + re.escape(name) + r"(?![\w-])", cited):
                yield f"no {name} in {path}"


def lines_of(text):
    """A text without its indentation."""
    return "\n".join(line.strip() for line in text.strip().splitlines())


def stale_excerpts(text):
    """The parts of files that a document shows and that are not there."""
    for path, part in EXCERPT.findall(text):
        file = os.path.join(TOP, path)
        if not os.path.isfile(file) or lines_of(part) not in lines_of(open(file, encoding="utf-8").read()):
            yield f"not in {path}: {part.strip().splitlines()[0]} .."


def check(path, write):
    """The faults of one document, and how many blocks were run."""
    text = open(path, encoding="utf-8").read()
    faults, ran = [*broken_links(path, text), *left_out(text), *missing(text), *stale_excerpts(text)], 0

    def shown(match):
        nonlocal ran
        language, code, expected = match.groups()
        if expected is None and language == "sh":
            return match.group(0)
        ran += 1
        seen = RUN[language](code)
        if seen.returncode:
            faults.append(f"failed: {code.splitlines()[0]} ..\n{seen.stdout}{seen.stderr}")
        elif write and expected is not None:
            return f"```{language}\n{code}```\n```text\n{seen.stdout}```\n"
        elif seen.stdout != (expected or ""):
            faults.append(f"another output: {code.splitlines()[0]} ..\n{seen.stdout}")
        return match.group(0)

    changed = SHOWN.sub(shown, text)
    if write and changed != text:
        with open(path, "w", encoding="utf-8") as file:
            file.write(changed)
    return faults, ran


def main():
    paths = [os.path.join(TOP, "README.md")]
    paths += sorted(os.path.join(TOP, "docs", name) for name in os.listdir(os.path.join(TOP, "docs")) if name.endswith(".md"))
    total = wrong = 0
    for path in paths:
        faults, ran = check(path, "--write" in sys.argv)
        total, wrong = total + ran, wrong + len(faults)
        for fault in faults:
            print(f"{os.path.relpath(path, TOP)}: {fault}")
    print(f"documents: {len(paths)}, {total} blocks run, {wrong} faults")
    sys.exit(1 if wrong else 0)


if __name__ == "__main__":
    main()
