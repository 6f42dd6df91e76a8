#!/usr/bin/env python3
"""Lists the places in crates/*/src that docs/DESIGN-PASS.md counts, a line each, and their number.

    tools/places.py [POINT].. [--at COMMIT] [--quiet]

POINT is 1 to 8, all if none is given. With --at the places of that commit are listed in place of those of the checkout."""
import collections
import pathlib
import re
import subprocess
import sys
import tarfile
import io

ROOT = pathlib.Path(__file__).resolve().parent.parent


def sources(commit, pattern):
    """The files of the checkout or of a commit whose path matches, as pairs of path and text."""
    if commit is None:
        for path in sorted(ROOT.glob("crates/**/*")):
            name = str(path.relative_to(ROOT))
            if "/out/" not in name and re.fullmatch(pattern, name) and path.is_file():
                yield name, path.read_text()
        return
    archive = subprocess.run(["git", "archive", commit, "crates"], cwd=ROOT, check=True, capture_output=True).stdout
    with tarfile.open(fileobj=io.BytesIO(archive)) as files:
        for member in sorted(files.getmembers(), key=lambda m: m.name):
            if member.isfile() and re.fullmatch(pattern, member.name):
                yield member.name, files.extractfile(member).read().decode()


class Function:
    """A function as it stands in a source: its name, where it stands, its head, its clauses and its body."""

    def __init__(self, path, line, indent, text):
        self.path, self.line, self.text = path, line, text
        self.name = re.search(r"\bfn (\w+)", text).group(1)
        at = text.find("\n" + indent + "{")
        one_line = at < 0
        at = text.find("{") if one_line else at
        self.head, self.body = text[:at], text[at:]
        self.clauses = re.findall(r"^\s*(requires|ensures)\b(?: \w+)? \{ (.*) \}$", self.head, re.M)
        inside = re.sub(r"^\s*(requires|ensures)\b.*$", "", self.head, flags=re.M)
        listed = re.search(r"\((.*)\)", inside, re.S)
        self.parameters = re.findall(r"(\w+): ([^,()]+(?:\([^)]*\))?)", listed.group(1)) if listed else []

    def place(self, note=""):
        return f"{self.path}:{self.line}: {self.name}{': ' + note if note else ''}"


def functions(commit):
    for path, text in sources(commit, r"crates/\w+/src/.*\.rt"):
        lines = text.split("\n")
        for at, line in enumerate(lines):
            begins = re.match(r"( *)(?:pub )?(?:extern \"C\" )?fn \w+", line)
            if not begins:
                continue
            indent = begins.group(1)
            end = at
            while end < len(lines) and lines[end] != indent + "}" and not re.match(indent + r"\{.*\}$", lines[end]):
                if end > at and lines[end].startswith(indent + "fn "):
                    break
                end += 1
            yield Function(path, at + 1, indent, "\n".join(lines[at : end + 1]))


def lines_with(commit, pattern, note=""):
    for path, text in sources(commit, r"crates/\w+/src/.*\.rt"):
        for at, line in enumerate(text.split("\n")):
            if re.search(pattern, line) and not line.strip().startswith("//"):
                yield f"{path}:{at + 1}: {line.strip()}"


def point_1(commit):
    """Enums with a variant that holds a refusal's number, structs with a number, a fault or a flag beside a value, functions that
    answer with such a number, and functions that hand one on."""
    yield from lines_with(commit, r"^\s*(Refused|Meets)\(u8\)")
    yield from lines_with(commit, r"^\s*(pub )?(number|fault): u8,$")
    yield from lines_with(commit, r"^\s*pub (near|found|wrote): bool,$")
    yield from lines_with(commit, r"^\s*(pub )?call: usize,$")
    for f in functions(commit):
        if f.path.startswith("crates/balanced_c"):
            continue
        if re.search(r"-> u8\b", f.head) and re.search(r"fault|number|first|refus", f.name + f.body):
            yield f.place("answers with a number")
        elif ("number", "u8") in [(n, t.strip()) for n, t in f.parameters]:
            yield f.place("is handed a number")


def shape(f):
    """The body and the types of a function with names, numbers and types in the order in which they first stand."""
    text = re.sub(r"//.*", "", f.body)
    tokens = re.findall(r"\w+|[^\w\s]", re.sub(r"^\s*(requires|ensures)\b.*$", "", f.head, flags=re.M) + text)
    keep = {"fn", "let", "mut", "while", "for", "in", "if", "else", "return", "match", "as", "self", "pub", "break", "true", "false", "loop"}
    seen, out = {}, []
    for token in tokens:
        if re.fullmatch(r"\w+", token) and token not in keep:
            out.append(str(seen.setdefault(token, len(seen))))
        else:
            out.append(token)
    return " ".join(out), len(tokens)


def point_2(commit):
    """Functions whose text is the same but for names, types and numbers, in groups; those of the interface for C are thin by nature."""
    groups = collections.defaultdict(list)
    for f in functions(commit):
        if f.path.startswith(("crates/balanced_c", "crates/test_", "crates/cases", "crates/sheet_cases")):
            continue
        same, size = shape(f)
        if size >= 14:
            groups[same].append(f)
    for group in sorted(groups.values(), key=lambda g: g[0].path):
        if len(group) > 1:
            for f in group:
                yield f.place("one of " + ", ".join(sorted({g.name for g in group})) + f" ({len(group)})")


def loops(commit):
    for f in functions(commit):
        lines = f.body.split("\n")
        for at, line in enumerate(lines):
            begins = re.match(r"(\s*)(?:'\w+: )?while (.*) \{$", line)
            if begins:
                end = at + 1
                while not lines[end].startswith(begins.group(1) + "}"):
                    end += 1
                start = f.line + f.head.count("\n") + at
                yield f, start, begins.group(2), "\n".join(lines[at + 1 : end])


def point_3(commit):
    """Loops that count: a `while` with a variable of its condition raised or lowered by a constant in its body."""
    for f, line, condition, body in loops(commit):
        counted = [n for n in re.findall(r"\b[a-z_]\w*\b", condition) if re.search(rf"^\s*{n} (\+=|-=|= {n} [+-]) \d+;", body, re.M)]
        if counted:
            yield f"{f.path}:{line}: {f.name}: while {condition}"


def point_4(commit):
    """Equality, order, copies, conversions and printing by hand, by the names of functions and the shapes of their lines."""
    for f in functions(commit):
        if re.fullmatch(r"(larger|smaller|copy|clear|same|equal|swap|move\w*|get[48]|put[48]|wide4?|low_byte|high_byte|symbol|pair|to_number|digit\w*|number_of|text_of)", f.name):
            yield f.place()
        elif re.search(r"^\s*(\w+)\[(\w+)\] = (\w+)\[\2\];$", f.body, re.M) and len(f.body.split("\n")) < 12:
            yield f.place("a copy")


def facts(clause):
    depth, part, out = 0, "", []
    for char in clause:
        depth += (char in "({[") - (char in ")}]")
        if char == "×" and depth == 0:
            out.append(part.strip())
            part = ""
        else:
            part += char
    return [re.sub(r"^\((.*)\)$", r"\1", p) for p in out + [part.strip()]]


def point_5(commit):
    """Facts of one value that three or more functions require, and groups of three or more parameters that three or more functions share."""
    required = collections.defaultdict(list)
    shared = collections.defaultdict(list)
    for f in functions(commit):
        if f.path.startswith("crates/balanced_c"):
            continue
        for kind, clause in f.clauses:
            if kind == "requires":
                for fact in facts(clause):
                    if re.fullmatch(r"(Sound|AreTables|Codes|Planned|usable|Sixteen) .*|usable \S+ ≡ true|\(?1 ≤ w\)?.*", fact):
                        required[re.sub(r"\b(h|tables|codes|field|self)(\.now|\.field|\.old)*\b", "_", fact)].append(f)
        names = tuple(f"{n}: {t.strip()}" for n, t in f.parameters)
        for size in (3,):
            for at in range(len(names) - size + 1):
                shared[names[at : at + size]].append(f)
    for fact, group in sorted(required.items(), key=lambda i: -len(i[1])):
        if len(group) > 2:
            yield f"fact in {len(group)} contracts: {fact}"
    for names, group in sorted(shared.items(), key=lambda i: -len(i[1])):
        if len(group) > 2:
            yield f"parameters of {len(group)} functions: {', '.join(names)} ({', '.join(sorted({g.path.split('/')[1] for g in group}))})"


def point_6(commit):
    """Structs with an array and how much of it is used, and functions with a lent list beside a count of it."""
    for path, text in sources(commit, r"crates/\w+/src/.*\.rt"):
        for m in re.finditer(r"struct (\w+)[^{;]*\{([^}]*)\}", text):
            if re.search(r"\[\w+; \w+\]", m.group(2)) and re.search(r"\b(count|counts|len|length|altered|size): (usize|u8|u32|\[usize)", m.group(2)):
                yield f"{path}:{text[:m.start()].count(chr(10)) + 1}: {m.group(1)}: an array with a count"
    for f in functions(commit):
        kinds = [(n, t.strip()) for n, t in f.parameters]
        if any(re.match(r"&(mut )?\[", t) for _, t in kinds) and any(n in ("count", "length", "at", "written") and t == "usize" for n, t in kinds) and re.search(r"text|word|symbol|nodes?|list", f.path.split("/")[1] + f.name):
            yield f.place("a list beside a count or a place")


def point_7(commit):
    """Matches that choose a step by a kind that the caller passed."""
    yield from lines_with(commit, r"match (m\.)?(way|step|kind|call)\b")


def point_8(commit):
    """Answers and lemmas in proofs/: how many, by crate."""
    count = collections.Counter()
    for path, text in sources(commit, r"crates/\w+/proofs/.*\.antt"):
        count[path.split("/")[1]] += len(re.findall(r"^\s*(?:pub )?[\w-]+ :", text, re.M))
    for crate, number in sorted(count.items()):
        yield f"crates/{crate}/proofs: {number} answers and lemmas"


def main():
    words = sys.argv[1:]
    commit = None
    if "--at" in words:
        at = words.index("--at")
        commit = words[at + 1]
        del words[at : at + 2]
    quiet = "--quiet" in words
    chosen = [w for w in words if w != "--quiet"] or [str(n) for n in range(1, 9)]
    for point in chosen:
        places = list(globals()[f"point_{point}"](commit))
        if not quiet:
            print("\n".join(places))
        print(f"point {point}: {len(places)} places")


main()
