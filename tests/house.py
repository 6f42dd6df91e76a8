#!/usr/bin/env python3
"""Order in crates/: each spec name is defined once, a letter of the public specs has one meaning, no proof counts more than five steps
back, no law is proved in two files, and none stands that nobody cites.

A law is a declaration of a proofs/ file that is no function's own proof. It is cited by another declaration or by docs/CLAIMS.md; a law
`.._agrees` or `..-agrees` says that two definitions are the same, and is a statement by itself. Two laws are the same if their
statements are, but for the names of variables.
"""
import collections
import glob
import os
import re
import sys

top = os.path.dirname(os.path.dirname(os.path.abspath(__file__)))
MOST_STEPS = 5
# a function's own proof stands in a folder of its own
OWN = ("Answers.antt", "Invariants.antt")
WORD = re.compile(r"[^\s(){}\[\],;.]+")
NAME = r"[^\s(){}\[\],;.:λ→]+"
# the types that the letters of docs/MAP.md's glossary have in specs/ at the top level; a letter with a prime has its letter's
NUMBER, LIST = "ℕ", r"List (ℕ|\(Symbol q\))"
LETTERS = {
    **dict.fromkeys("n k d l t f w e p q u".split(), NUMBER),
    **dict.fromkeys("r j i".split(), rf"{NUMBER}|Fin .*"),
    **dict.fromkeys("rec s out us vs ws ms js ys cs".split(), LIST),
    **dict.fromkeys("y z".split(), "Arrangement"),
    **{"h": "Header", "m": "List ℕ|Message .*", "answer": "Answer .*", "g": ".*→.*", "roster": "Roster", "plan": "(Small)?Plan"},
    **{"ev": "Event", "evs": "List Event", "call": r"Call|Header → ℕ", "calls": "List Call"},
}
IMPORT = re.compile(r"(?m)^(?:pub |ghost |unfoldable )*use [^{;\n]*(?:\{[^}]*\})?.*$")
HEAD = re.compile(r"(?:abbrev |unfoldable )*(?:pub )?(?:record |data )?([^\s(){}]+)")
faults = []


def read(path):
    with open(path, encoding="utf-8") as file:
        return file.read()


def short(path):
    return os.path.relpath(path, top)


def specs():
    return sorted(glob.glob(f"{top}/crates/*/specs/**/*.antt", recursive=True))


def proofs():
    return sorted(glob.glob(f"{top}/crates/*/proofs/**/*.antt", recursive=True))


def declarations(text):
    """(name, the lines that declare it, the modules around it) for each declaration; a record's fields are part of it"""
    found, depth, around = [], None, []
    for line in text.split("\n"):
        if not line.strip() or line.lstrip().startswith(("--", "use ", "open ", "pub mod", "mod ")):
            continue
        indent = len(line) - len(line.lstrip())
        while around and indent <= around[-1][0]:
            around.pop()
        if line.lstrip().startswith("module "):
            around.append((indent, line.strip()))
            depth = None
            continue
        if depth is not None and indent > depth:
            found[-1][1].append(line)
            continue
        if line.lstrip().startswith("unfolding "):
            continue
        head = HEAD.match(line.lstrip())
        if not head:
            found[-1][1].append(line)
            continue
        name = head.group(1)
        if depth != indent or not found or found[-1][0] != name:
            found.append((name, [], " ".join(text for _, text in around)))
        found[-1][1].append(line)
        depth = indent
    return found


def names_once():
    places = collections.defaultdict(list)
    for path in specs():
        for name in {name for name, _, _ in declarations(read(path))}:
            places[name].append(short(path))
    for name, where in sorted(places.items()):
        if len(where) > 1:
            faults.append(f"{name} is defined in {' and in '.join(where)}")


def parted(text, mark):
    """text at each mark that stands in no parentheses, up to one that closes what was open before"""
    parts, depth = [""], 0
    for sign in text:
        depth += (sign in "({[") - (sign in ")}]")
        if depth < 0:
            break
        if sign == mark and depth == 0:
            parts.append("")
        else:
            parts[-1] += sign
    return [part.strip() for part in parts if part.strip()]


def bound(name, lines):
    """(variable, type) of what a declaration binds with a type, and of the arguments of its equations"""
    text = " ".join(lines)
    for found in re.finditer(rf"[({{]((?:{NAME} )+): ", text):
        yield from ((variable, parted(text[found.end() :], "\0")[0]) for variable in found.group(1).split())
    kinds = [kind for line in lines for kind in re.findall(rf"^\s*(?:abbrev |unfoldable |pub )*{re.escape(name)}(?: {{.*?}})* : (.*)$", line)]
    for line in lines if kinds else ():
        arguments = re.match(rf"\s*{re.escape(name)} ([^=]*) =(?:\s|$)", line)
        types = []
        for kind in filter(None, (re.sub(r"^(\{[^}]*\} ?)*", "", kind) for kind in parted(kinds[0], "→"))):
            named = re.fullmatch(rf"\(((?:{NAME} )+): (.*)\)", kind)
            types += [named.group(2) for _ in named.group(1).split()] if named else [re.sub(r"^\((.*→.*)\)$", r"\1", kind)]
        yield from zip(parted(arguments.group(1), " ") if arguments else (), types)


def letters():
    for path in glob.glob(f"{top}/crates/*/specs/*.antt"):
        for name, lines, _ in declarations(read(path)):
            for variable, kind in bound(name, lines):
                wanted = LETTERS.get(variable.rstrip("'"))
                if wanted and not re.fullmatch(wanted, kind):
                    faults.append(f"{short(path)}: {variable} of {name} is of the type {kind}")


def steps():
    for path in proofs():
        for number, line in enumerate(read(path).split("\n"), 1):
            if re.search(r"(\.before\s*){%d}\.before" % MOST_STEPS, line):
                faults.append(f"{short(path)}:{number}: more than {MOST_STEPS} steps back")


def statement(around, lines):
    """the declared type in its modules, with the variables numbered in the order in which they are bound"""
    text = " ".join(line.strip() for line in lines)
    text = around + " " + text[text.index(" : ") + 3 :]
    bound = re.findall(r"[({]([^(){}:]+) :|λ ([^\s.(]+)|λ \(([^\s:]+)", text)
    order = []
    for group in bound:
        for name in " ".join(group).split():
            if name not in order:
                order.append(name)
    numbers = {name: f"v{i}" for i, name in enumerate(order)}
    return re.sub(r"[^\s(){}\[\],;.]+", lambda word: numbers.get(word.group(0), word.group(0)), text)


def laws():
    """(path, name, statement, the lines that declare it) of every law"""
    for path in proofs():
        folder, file = os.path.split(path)
        if file in ("Proof.antt", "Lib.antt") or file in OWN and os.path.basename(folder) != "proofs":
            continue
        for name, lines, around in declarations(read(path)):
            typed = [line.strip() for line in lines if re.match(r"\s*(pub )?%s : " % re.escape(name), line)]
            if typed and not lines[0].lstrip().startswith(("abbrev", "unfoldable", "pub record", "record")):
                yield path, name, statement(around, typed), lines


def said_once():
    places = collections.defaultdict(list)
    for path, name, says, _ in laws():
        if re.search("[≡<≤↔⊥]", says.split("where ")[-1]) and len(says) > 30:
            places[says].append(f"{short(path)} {name}")
    for says, where in sorted(places.items()):
        if len(where) > 1:
            faults.append(f"one law in {' and in '.join(where)}")


def cited():
    uses = collections.Counter()
    for path in specs() + proofs() + glob.glob(f"{top}/crates/*/src/*.rt"):
        text = "\n".join(line for line in IMPORT.sub("", read(path)).split("\n") if not line.startswith("--"))
        uses.update(name for word in WORD.findall(text) for name in word.split("::"))
    told = set(re.findall(r"`([^`]+)`", read(f"{top}/docs/CLAIMS.md")))
    told |= {name.split(".")[-1] for name in told}
    for path, name, _, lines in laws():
        if uses[name] <= WORD.findall("\n".join(lines)).count(name) and name not in told and not name.endswith(("_agrees", "-agrees")):
            faults.append(f"{short(path)}: nobody cites {name}")


def main():
    for check in (names_once, letters, steps, said_once, cited):
        check()
    for fault in faults:
        print(fault)
    print(f"house: {len(faults)} faults")
    sys.exit(1 if faults else 0)


if __name__ == "__main__":
    main()
