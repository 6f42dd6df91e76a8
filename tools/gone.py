#!/usr/bin/env python3
"""Lists what stood in crates/ at a commit and is no longer there: functions, types, definitions and lemmas.

    tools/gone.py COMMIT [CRATE]..

A name is still there where its crate has it, a function's on the same type; one that a crate had twice has to be there twice. Lemmas
are the names of proofs/ that other files can cite, without the answers to goals."""
import collections
import io
import pathlib
import re
import subprocess
import sys
import tarfile

ROOT = pathlib.Path(__file__).resolve().parent.parent
DECLARED = re.compile(r"(\s*)(?:abbrev |unfoldable |opaque )*pub (record |data )?([^\s:(){},.=|]+)(?: [^=]*?)? :(?: |$)")


def sources(commit):
    """The files of the checkout, or of a commit, as pairs of path and text."""
    if commit is None:
        for path in ROOT.glob("crates/**/*"):
            if "/out/" not in str(path) and path.suffix in (".rt", ".antt"):
                yield str(path.relative_to(ROOT)), path.read_text()
        return
    archive = subprocess.run(["git", "archive", commit, "crates"], cwd=ROOT, check=True, capture_output=True).stdout
    with tarfile.open(fileobj=io.BytesIO(archive)) as files:
        for member in files.getmembers():
            if member.isfile() and member.name.endswith((".rt", ".antt")):
                yield member.name, files.extractfile(member).read().decode()


def code(text):
    """The functions of a source, with the type that they are methods of, and its types."""
    owner = ""
    for line in text.split("\n"):
        block = re.match(r"(?:pub )?(?:impl|trait)\b(?:<[^>]*>)? (?:.* for )?(\w+)", line)
        function = re.match(r"(\s*)(?:pub(?:\(\w+\))? )?(?:final |unsafe |extern \"C\" )*fn (\w+)", line)
        kind = re.match(r"(?:pub(?:\(\w+\))? )?(?:struct|enum|trait|const|type) (\w+)", line)
        if function:
            yield "function", (owner if function.group(1) else "") + function.group(2)
        elif kind:
            yield "type", kind.group(1)
        if block:
            owner = block.group(1) + "::"
        elif line.startswith("}"):
            owner = ""


def declared(text):
    """The names of specs/ and proofs/ that other files can cite; a record's fields are part of it."""
    inside = None
    for line in text.split("\n"):
        match = DECLARED.match(line)
        if match and (inside is None or len(match.group(1)) <= inside):
            inside = len(match.group(1)) if match.group(2) else None
            yield match.group(3)
        elif line.strip() and inside is not None and len(line) - len(line.lstrip()) <= inside:
            inside = None


def names(commit):
    """How often each name stands at a commit, by crate and what it is, and the files where it does."""
    count, places = collections.Counter(), collections.defaultdict(set)
    for path, text in sources(commit):
        crate, folder, *rest = path.split("/")[1:]
        if folder == "src":
            found = code(text)
        elif folder == "specs":
            found = (("definition", name) for name in declared(text))
        elif folder == "proofs" and not (rest[1:] and rest[-1] in ("Answers.antt", "Invariants.antt")):
            found = (("lemma", name) for name in declared(text))
        else:
            found = ()
        for kind, name in found:
            count[crate, kind, name] += 1
            places[crate, kind, name].add("/".join([folder, *rest]))
    return count, places


def main():
    if len(sys.argv) < 2:
        sys.exit(__doc__)
    (old, before), (new, after) = names(sys.argv[1]), names(None)
    for key in sorted(old):
        if old[key] > new[key] and (not sys.argv[2:] or key[0] in sys.argv[2:]):
            where = sorted(before[key] - after[key]) or sorted(before[key])
            print(f"{key[0]}: {key[1]} {key[2]} ({', '.join(where)})")


main()
