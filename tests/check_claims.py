#!/usr/bin/env python3
"""Holds docs/CLAIMS.md to what is there: every file and every name that it cites, and every public call.

A citation is a path in code type, from crates/ or from the top, and after a colon the names in it, each in code type:
`scheme/proofs/Bounds.antt`: `price`, `reads_up`. A name must be defined in that file; that the word occurs there does not do:

    .antt       a definition or theorem, a record, a data type; a member is Record.field
    .rt .rs     a function, a struct, an enum, a trait, a constant; a member is Struct.field, Enum.Case, Type.method,
                or Function.label, a labelled part of a function's contract
    .py .c .h   a function, a class, a constant

A name in code type without a path, if it looks like one of these, stands with its path elsewhere in the document.
Each call of crates/balanced and each function that crates/balanced_c_c exports for C has no `requires` and is named under the heading
"Index by call". Each field of the theorem `demands` is named under the heading "One theorem", and each wrong program that is tried, an edit
of crates/*/must-fail or of tests/wrong_programs, stands in some table with what it contradicts.
"""
import glob
import os
import re
import sys

TOP = os.path.dirname(os.path.dirname(os.path.abspath(__file__)))
CLAIMS = os.path.join(TOP, "docs", "CLAIMS.md")
SPAN = re.compile(r"`([^`]+)`")
PATH = re.compile(r"[\w.-]*(?:/[\w.-]+)+/?")
# what looks like a name of the code: a letter in the middle is a capital, or words are joined by - or _, or a member is named
NAMED = re.compile(r"[A-Za-z]\w*[a-z]\w*[A-Z]\w*|[A-Z]?\w+([-_][\w′]+)+|[A-Z]\w*\.[\w-]+|[a-z]\w*\.[a-z][\w-]+")


def find(path):
    for base in ("crates", "."):
        full = os.path.join(TOP, base, path)
        if os.path.exists(full):
            return full
    return None


def indent(line):
    return len(line) - len(line.lstrip())


TYPED = re.compile(r"(?:record|data)\s+([^\s(){}:]+)(?=.*\bwhere\s*$)")
TYPE_OF = re.compile(r"([^\s(){}:=.,]+(?:\s+[^\s(){}:=.,]+)*)\s*(?:\{[^}]*\}\s*)*:\s")
OTHER = ("let ", "use ", "module ", "open ", "infix", "unfolding ")


def antt_names(text):
    """The names that a file of definitions or proofs defines: `name`, and `Record.field` for members. What is local to a proof is left out."""
    names, owner, depth, local = set(), None, 0, None
    for line in text.splitlines():
        if not line.strip() or line.lstrip().startswith("--"):
            continue
        if owner and indent(line) <= depth:
            owner = None
        if local is not None and indent(line) < local:
            local = None
        if line.strip() == "where":
            local = indent(line)
        words = re.sub(r"^\s*((pub|unfoldable|abbrev)\s+)*", "", line)
        typed, named = TYPED.match(words), TYPE_OF.match(words + " ")
        if local is not None or words.startswith(OTHER):
            continue
        if typed:
            owner, depth = typed.group(1), indent(line)
            names.add(owner)
        elif named and owner:
            names |= {f"{owner}.{name}" for name in named.group(1).split()}
        elif named and " " not in named.group(1):
            names.add(named.group(1))
    return names


ITEM = re.compile(r"^(\s*)(?:pub(?:\([^)]*\))?\s+)?(?:final\s+)?(?:extern\s+\"C\"\s+)?(fn|struct|enum|trait|const|static|type|mod)\s+(\w+)")
BLOCK = re.compile(r"^(\s*)impl(?:<[^>]*>)?\s+(?:\w+(?:<[^>]*>)?\s+for\s+)?(\w+)")
MEMBER = re.compile(r"^\s*(?:pub\s+)?(\w+)\s*(?:[:(,{]|$)")
LABEL = re.compile(r"^\s*ensures\s+([\w-]+)\s*\{")


def rattle_names(text):
    """The same for a file of Rattle or Rust."""
    names, holder, function, depth = set(), None, None, 0
    for line in text.splitlines():
        if holder and line.strip().startswith("}") and indent(line) <= depth:
            holder = None
        block, item, member, label = (form.match(line) for form in (BLOCK, ITEM, MEMBER, LABEL))
        if block:
            holder, depth = block.group(2), len(block.group(1))
        elif item:
            names |= {item.group(3), f"{holder}.{item.group(3)}"}
            function = item.group(3) if item.group(2) == "fn" else None
            if item.group(2) in ("struct", "enum", "trait") and line.rstrip().endswith("{"):
                holder, depth = item.group(3), len(item.group(1))
        elif label and function:
            names.add(f"{function}.{label.group(1)}")
        elif holder and member:
            names.add(f"{holder}.{member.group(1)}")
    return names


PYTHON = re.compile(r"^\s*(?:def|class)\s+(\w+)|^(\w+)\s*=", re.M)
C = re.compile(r"^\s*#\s*define\s+(\w+)|^\s*([A-Z][A-Z0-9_]+)\s*[=,]|^(?:\w+[\s*]+)+(\w+)\s*\(", re.M)
READERS = {
    ".antt": antt_names,
    ".rt": rattle_names,
    ".rs": rattle_names,
    ".py": lambda text: {name for found in PYTHON.findall(text) for name in found},
    ".c": lambda text: {name for found in C.findall(text) for name in found},
    ".h": lambda text: {name for found in C.findall(text) for name in found},
}


def defined(full, kept={}):
    """The names that a file defines; None for a folder, and for a file of another kind."""
    if full not in kept:
        reader = READERS.get(os.path.splitext(full)[1])
        kept[full] = reader(open(full, encoding="utf-8").read()) if reader and os.path.isfile(full) else None
    return kept[full]


def citations(line):
    """The paths and names of a line: (path, None) for a path, (path, name) for a name of it, (None, name) for a name by itself."""
    for cell in re.split(r"(?<!\\)\|", line):
        path, end = None, 0
        for span in SPAN.finditer(cell):
            between, text, end = cell[end:span.start()], span.group(1), span.end()
            if PATH.fullmatch(text):
                path, joined = text, ": "
                yield path, None
            elif path and between in (joined, ", ", " and "):
                joined = ", "
                yield path, text
            else:
                path = None
                yield None, text


def cited_faults(lines):
    """What the document cites and is not there, and how much it cites."""
    faults, given, bare = [], set(), []
    count = 0
    for number, line in enumerate(lines, 1):
        for path, name in citations(line):
            count += path is not None
            if path is None:
                bare.append((number, name))
                continue
            full = find(path)
            if full is None:
                faults.append(f"{number}: no file {path}")
            elif name is not None:
                names = defined(full)
                given.add(name)
                if names is None:
                    faults.append(f"{number}: {path} defines no names")
                elif name not in names:
                    faults.append(f"{number}: {path} does not define {name}")
    for number, name in bare:
        if NAMED.fullmatch(name) and name not in given:
            faults.append(f"{number}: {name} stands nowhere with its file")
    return faults, count


def exports():
    """(crate, name) for each name that the store passes on; of the interface for C all that it exports, with no name."""
    with open(find("balanced/src/lib.rt"), encoding="utf-8") as store:
        lists = re.findall(r"^pub use (\w+)::(\w+|\{[\w,\s]+\});", store.read(), re.M)
    return [*((crate, name) for crate, names in lists for name in re.findall(r"\w+", names)), ("balanced_c_c", None)]


def public_calls():
    """The calls of the store and the functions for C, each with its file; None for the calls where an export has none."""
    for crate, name in exports():
        folder, found = find(f"{crate}/src"), False
        for file in sorted(os.listdir(folder)) if folder else []:
            text = open(os.path.join(folder, file), encoding="utf-8").read()
            if name is None:
                called = re.findall(r"#\[unsafe\(no_mangle\)\]\s*pub extern \"C\" fn (\w+)", text)
            elif name[0].isupper():
                block = re.search(rf"^impl {name} \{{\n(.*?)^\}}", text, re.M | re.S)
                called = re.findall(r"^\s*pub fn (\w+)", block.group(1), re.M) if block else []
            else:
                called = re.findall(rf"^pub fn ({name})\b", text, re.M)
            for call in called:
                found = True
                yield call, os.path.join(folder, file), text
        if not found and not (name and name[0].isupper()):
            yield None, f"crates/{crate}", name


def named_under(heading, document):
    """What stands in code type under a heading of the document."""
    parts = document.split(f"\n## {heading}\n")
    return set(SPAN.findall(parts[1].split("\n## ")[0])) if len(parts) == 2 else set()


def theorem_faults(document):
    """The fields of the theorem that the document does not name."""
    file = find("demands/specs/Demands.antt")
    fields = {name for name in defined(file) if name.startswith("Demands.")} if file else set()
    if not fields:
        return ["crates/demands has no fields of Demands"]
    return [f"One theorem does not name {name}" for name in sorted(fields - named_under("One theorem", document))]


def edit_faults(document):
    """The edits that no row of a table has."""
    rows = {span for line in document.splitlines() if line.startswith("|") for span in SPAN.findall(line)}
    told = {os.path.realpath(full) for full in map(find, rows) if full}
    edits = sorted(glob.glob(f"{TOP}/crates/*/must-fail/*.edit") + glob.glob(f"{TOP}/tests/wrong_programs/*/*.edit"))
    return [f"no table has {os.path.relpath(edit, TOP)}" for edit in edits if os.path.realpath(edit) not in told]


def call_faults(document):
    """The public calls that ask something of their caller, or that the index does not name."""
    named = named_under("Index by call", document)
    calls = list(public_calls())
    faults = [f"{file} has no public call {name or ''}".rstrip() for call, file, name in calls if call is None]
    calls = [found for found in calls if found[0] is not None]
    for call, file, text in calls:
        head = re.search(rf"\bfn {call}\b.*?\n\s*\{{\n", text, re.S).group(0)
        if re.search(r"^\s*requires\b", head, re.M):
            faults.append(f"{os.path.relpath(file, TOP)}: {call} has a precondition")
        if call not in named:
            faults.append(f"the index by call does not name {call}")
    return faults, len(calls)


def main():
    with open(CLAIMS, encoding="utf-8") as file:
        document = file.read()
    faults, count = cited_faults(document.splitlines())
    missing, calls = call_faults(document)
    missing += theorem_faults(document) + edit_faults(document)
    for fault in faults + missing:
        print(f"docs/CLAIMS.md:{fault}" if fault[0].isdigit() else fault)
    print(f"claims: {count} citations, {calls} public calls, {len(faults) + len(missing)} faults")
    sys.exit(1 if faults or missing else 0)


if __name__ == "__main__":
    main()
