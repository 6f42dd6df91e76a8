#!/usr/bin/env python3
"""Makes README's table of crates and docs/pictures/crates.svg from docs/MAP.md, and holds the map to crates.txt and to the code.

    docs/make_map.py            writes the table and the picture
    docs/make_map.py --check    says what is not as it would be written

The map's layers are its headings `### Layer: what it is`, lowest first, each with a table of crates. A crate stands in one layer and
uses crates of its own layer or of lower ones. The walks name functions as `crate::function`; each must be in that crate.
"""
import glob
import os
import re
import sys
from drawing import MARGIN, OURS, PALE, PLAIN, THEORY, Drawing, text_width

TOP = os.path.dirname(os.path.dirname(os.path.abspath(__file__)))
sys.path.append(os.path.join(TOP, "tools"))
from crates import crates  # noqa: E402

MAP, README = os.path.join(TOP, "docs", "MAP.md"), os.path.join(TOP, "README.md")
PICTURE = os.path.join(TOP, "docs", "pictures", "crates.svg")
BEGIN, END = "<!-- the table of crates, made from docs/MAP.md -->", "<!-- end of the table -->"
WIDTH, INDENT = 960, 110
KINDS = {"theory": (THEORY, "theory, no functions"), "code": (OURS, "proved functions"), "program": (PLAIN, "programs")}


def read(path):
    with open(path, encoding="utf-8") as file:
        return file.read()


def layers():
    """(name, what it is, [(crate, what it is for)]) for each layer of the map, lowest first"""
    found = []
    for part in re.split(r"(?m)^### ", read(MAP))[1:]:
        name, says = part.split("\n", 1)[0].split(": ", 1)
        rows = re.findall(r"(?m)^\| `(\w+)` \| (.*?) \|$", part.split("\n## ")[0])
        found.append((name, says, rows))
    return found


def kind(crate):
    """whether a crate is a program, has functions, or is theory alone"""
    source = os.path.join(TOP, "crates", crate, "src")
    if os.path.exists(os.path.join(source, "main.rt")):
        return "program"
    return "code" if any(re.search(r"(?m)^\s*(pub )?(extern \"C\" )?fn |^pub use ", read(f)) for f in glob.glob(f"{source}/*.rt")) else "theory"


def order_faults(found, graph):
    """crates that the map lacks or has twice, and those that use a higher layer"""
    level = {}
    for number, (_, _, rows) in enumerate(found):
        for crate, _ in rows:
            if crate in level:
                yield f"docs/MAP.md has {crate} twice"
            level[crate] = number
    for crate in sorted(set(graph) ^ set(level)):
        yield f"{crate} stands in {'crates.txt' if crate in graph else 'docs/MAP.md'} alone"
    for crate, below in graph.items():
        for other in below:
            if level.get(other, 0) > level.get(crate, 99):
                yield f"{crate} uses {other}, which stands in a higher layer of docs/MAP.md"


def walk_faults():
    """functions that the walks name and that are not there"""
    for crate, name in re.findall(r"`(\w+)::(\w+)`", read(MAP)):
        sources = glob.glob(f"{TOP}/crates/{crate}/src/*.rt")
        if not any(re.search(rf"fn {name}\b", read(source)) for source in sources):
            yield f"docs/MAP.md names {crate}::{name}, and there is no such function"


def table(found):
    lines = ["| Layer | Crate | Holds |", "|---|---|---|"]
    for name, _, rows in found:
        for number, (crate, says) in enumerate(rows):
            lines.append(f"| {name if number == 0 else ''} | `{crate}` | {says} |")
    return "\n".join(lines)


def readme(found):
    text = read(README)
    start, end = text.index(BEGIN) + len(BEGIN), text.index(END)
    return text[:start] + "\n" + table(found) + "\n" + text[end:]


def boxes(rows):
    """(crate, x, line, width of its box): side by side, a new line where the width is used up"""
    x, line = INDENT, 0
    for crate, _ in rows:
        size = text_width(crate, 13) + 20
        if x + size > WIDTH - 10:
            x, line = INDENT, line + 1
        yield crate, x, line, size
        x += size + 8


def picture(found):
    drawing, y = Drawing("The crates by layer. A crate uses its own layer and those below it."), 44
    for name, _, rows in reversed(found):
        placed = list(boxes(rows))
        high = 36 * (1 + placed[-1][2]) + 8
        drawing.box(MARGIN, y, WIDTH, high, PALE)
        drawing.text(MARGIN + 10, y + high / 2 + 5, name, 14)
        for crate, x, line, size in placed:
            top = y + 8 + 36 * line
            drawing.box(MARGIN + x, top, size, 28, KINDS[kind(crate)][0], ' rx="4"')
            drawing.text(MARGIN + x + size / 2, top + 19, crate, 13, "middle", "white")
        y += high + 8
    drawing.legend(MARGIN, y + 8, KINDS.values())
    return drawing.done()


def main():
    found, graph = layers(), crates()
    faults = list(order_faults(found, graph)) + list(walk_faults())
    wanted = {README: readme(found), PICTURE: picture(found)}
    for path, text in wanted.items():
        if "--check" in sys.argv[1:]:
            if not os.path.exists(path) or read(path) != text:
                faults.append(f"{os.path.relpath(path, TOP)} is not what docs/make_map.py writes")
        else:
            with open(path, "w", encoding="utf-8") as file:
                file.write(text)
    for fault in faults:
        print(fault)
    print(f"map: {sum(len(rows) for _, _, rows in found)} crates in {len(found)} layers, {len(faults)} faults")
    sys.exit(1 if faults else 0)


if __name__ == "__main__":
    main()
