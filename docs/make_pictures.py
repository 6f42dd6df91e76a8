#!/usr/bin/env python3
"""Draws the pictures of docs/pictures from the output of the programs `sheet`, `compare`, `weights` and `cases`.

    docs/make_pictures.py            writes the pictures
    docs/make_pictures.py --check    says which stored picture is not the one that would be written

The programs are those that `make programs` proves and compiles, as `rt ci` does: crates/NAME/out/NAME.
"""
import os
import subprocess
import sys
from drawing import INK, MARGIN, OURS, PALE, PLAIN, Drawing, text_width

TOP = os.path.dirname(os.path.dirname(os.path.abspath(__file__)))
sys.path.append(os.path.join(TOP, "tools"))
from crates import program as program_file  # noqa: E402

FOLDER = os.path.join(TOP, "docs", "pictures")


# ---------------------------------------------------------------- what the programs say

def run(program, record):
    output = subprocess.run([program_file(program)], input=bytes(record), capture_output=True, check=True).stdout
    return [line.split() for line in output.decode("ascii").splitlines()]


def sheet(record):
    """n, k, d, b, which may be one of two numbers, and for each row its shift and its entries."""
    head, *rows = run("sheet", record)
    n, k, d, *b = map(int, head[1:])
    return n, k, d, " or ".join(map(str, b)), [(int(row[2]), [int(x) for x in row[4:]]) for row in rows]


def compare(record):
    """For each layout its writes, least and greatest reads; for the bound its writes and reads."""
    lines = run("compare", record)
    return {line[0]: [int(word) for word in line[1:] if word.isdigit()] for line in lines}


def weights(record):
    """For each number of nodes that are not zero the number of messages."""
    return [int(count) for _, count in run("weights", record)]


def answers(lines):
    """What the program `cases` says to each of the lines."""
    output = subprocess.run([program_file("cases")], input="".join(line + "\n" for line in lines), capture_output=True, check=True, text=True).stdout
    return [line.split(": ", 1)[1] for line in output.splitlines()]


def reads(record, left, call, count):
    """How often each node stands in the lists of so many calls, after some nodes have left."""
    words = " ".join(map(str, record))
    n, k = record[-2:]
    lines = [f"roster {words}", *(f"leave {words} node {node}" for node in left), *[f"{call} {words} room {k}"] * count]
    found = [0] * n
    for answer in answers(lines)[1 + len(left):]:
        for node in answer.split(",")[0].split()[1:]:
            found[int(node)] += 1
    return found


# ---------------------------------------------------------------- drawing

def name_of(record):
    return "record " + " ".join(map(str, record))


def costs_of(n, k, d, b):
    """The figures of a sheet in words."""
    return f"n = {n}, k = {k}. A changed symbol writes {d} nodes, a node reads {b} symbols."


def small_generator(record):
    """A generator with its entries written out, and the reads of each node below."""
    n, k, d, b, rows = sheet(record)
    labels = [f"symbol {r}, shift {shift}" for r, (shift, _) in enumerate(rows)]
    cell, left, top = 52, MARGIN + max(text_width(label, 12) for label in labels) + 12, 88
    picture = Drawing(f"Generator of the {name_of(record)}", costs_of(n, k, d, b))
    for j in range(n):
        picture.text(left + (j + 0.5) * cell, top - 8, f"node {j}", 12, "middle")
    for r, (_, entries) in enumerate(rows):
        y = top + r * cell
        picture.text(left - 12, y + cell / 2 + 5, labels[r], 12, "end")
        for j, entry in enumerate(entries):
            picture.box(left + j * cell + 1, y + 1, cell - 2, cell - 2, OURS if entry else PALE)
            if entry:
                picture.text(left + (j + 0.5) * cell, y + cell / 2 + 6, str(entry), 16, "middle", "white")
    y = top + k * cell + 24
    picture.text(left - 12, y, "symbols read", 12, "end")
    for j in range(n):
        reads = sum(1 for _, entries in rows if entries[j])
        picture.text(left + (j + 0.5) * cell, y, str(reads), 14, "middle")
    picture.text(MARGIN, y + 32, "Coloured: the entry is not zero, so the node reads the symbol.")
    return picture.done()


def runs(entries):
    """The runs of entries that are not zero: place and length."""
    found = []
    for j, entry in enumerate(entries):
        if entry and found and found[-1][0] + found[-1][1] == j:
            found[-1][1] += 1
        elif entry:
            found.append([j, 1])
    return found


def large_generator(record):
    """A generator as an image: one point for each entry."""
    n, k, d, b, rows = sheet(record)
    point, left, top = 3, MARGIN + text_width("symbol 0", 12) + 8, 84
    picture = Drawing(f"Generator of the {name_of(record)}", costs_of(n, k, d, b))
    picture.text(left, top - 8, "node 0")
    picture.text(left + n * point, top - 8, f"node {n - 1}", 12, "end")
    picture.text(left - 8, top + 12, "symbol 0", 12, "end")
    picture.text(left - 8, top + k * point, f"{k - 1}", 12, "end")
    picture.box(left, top, n * point, k * point, PALE)
    for r, (_, entries) in enumerate(rows):
        for start, length in runs(entries):
            picture.box(left + start * point, top + r * point, length * point, point, OURS)
    picture.text(left, top + k * point + 26, f"Each row has {d} entries that are not zero, each column {b}.")
    return picture.done()


def bars(reads):
    """One bar for each node; where there are too many to tell apart, one for each stretch of equal ones: place, length, height."""
    found = []
    for j, count in enumerate(reads):
        if len(reads) >= 50 and found and found[-1][2] == count:
            found[-1][1] += 1
        else:
            found.append([j, 1, count])
    return found


def reads_per_node(record):
    """The symbols that each node reads, in the plain layout and in ours, beside the bound."""
    n, k, _, _, rows = sheet(record)
    figures = compare(record)
    _, least, greatest = figures["plain"]
    bound = figures["bound"][1]
    plain = [least if j < k else greatest for j in range(n)]
    ours = [sum(1 for _, entries in rows if entries[j]) for j in range(n)]
    picture = Drawing(f"Symbols that each node reads: {name_of(record)}", f"n = {n}, k = {k}. Dashed: no layout has a busiest node that reads less.")
    reads_panel(picture, 84, plain, PLAIN, f"plain layout: {k} data nodes, {n - k} parity nodes", bound, greatest)
    reads_panel(picture, 284, ours, OURS, "balanced layout", bound, greatest)
    return picture.done()


def reads_panel(picture, top, reads, colour, words, bound, most):
    """One layout's bars under its name; a bar of the greatest height stands for `most`."""
    n, width, height, left = len(reads), 760, 130, MARGIN + text_width(str(most), 12) + 8
    step, space, scale, y = width / n, 8 if n < 50 else 0, height / most, top + 14 + height
    picture.text(left, top, words)
    for start, length, count in bars(reads):
        picture.box(left + start * step + space / 2, y - count * scale, length * step - space, count * scale, colour)
    picture.line(left, y, left + width, y, INK)
    picture.line(left, y - bound * scale, left + width, y - bound * scale, INK, ' stroke-dasharray="5 4"')
    for count in sorted({bound, max(reads)}):
        picture.text(left - 8, y - count * scale + 4, str(count), 12, "end")
    picture.text(left, y + 18, "node 0")
    picture.text(left + width, y + 18, f"node {n - 1}", 12, "end")


def messages_by_weight(record):
    """A bar for each number of nodes that are not zero: how many messages have it."""
    counts = weights(record)
    total, tallest = sum(counts), max(counts)
    step, height, left, top = 96, 180, MARGIN, 84
    average = sum(w * count for w, count in enumerate(counts)) / total
    picture = Drawing(f"Messages by the nodes that hold something other than zero: {name_of(record)}", f"{total} messages, {average:.2f} nodes on average")
    for w, count in enumerate(counts):
        x, tall = left + w * step, height * count / tallest
        picture.box(x + 8, top + height - tall, step - 16, tall, OURS)
        picture.text(x + step / 2, top + height - tall - 6, str(count), 13, "middle")
        picture.text(x + step / 2, top + height + 18, f"{w} nodes", 12, "middle")
    picture.line(left, top + height, left + len(counts) * step, top + height, INK)
    lowest = next(w for w, count in enumerate(counts) if w and count)
    picture.text(left, top + height + 46, f"Apart from the message of zeros none has fewer than {lowest} nodes that are not zero.")
    return picture.done()


def reads_per_job(record, left, count):
    """How often each node is read by so many rebuilds: always the k lowest, and job after job."""
    n, k = record[-2:]
    lowest, jobs = reads(record, left, "lowest", count), reads(record, left, "job", count)
    gone = " and ".join(map(str, left))
    picture = Drawing(f"Reads of each node in {count} rebuilds: {name_of(record)}", f"n = {n}, k = {k}; nodes {gone} have left")
    jobs_panel(picture, 84, lowest, PLAIN, "always the k lowest present nodes", max(lowest))
    jobs_panel(picture, 254, jobs, OURS, "job after job, each node in its turn", max(lowest))
    return picture.done()


def jobs_panel(picture, top, counts, colour, words, most):
    """A bar for each node with its count; a bar of the greatest height stands for `most`."""
    width, height, left = 600, 110, MARGIN + text_width("node", 12) + 8
    step, scale, y = width / len(counts), height / most, top + 14 + height
    picture.text(left, top, words)
    for j, times in enumerate(counts):
        middle = left + (j + 0.5) * step
        picture.box(left + j * step + 4, y - times * scale, step - 8, times * scale, colour)
        if times:
            picture.text(middle, y - times * scale + 16, str(times), 12, "middle", "white")
        picture.text(middle, y + 18, str(j), 12, "middle")
    picture.line(left, y, left + width, y, INK)
    picture.text(left - 8, y + 18, "node", 12, "end")


# ---------------------------------------------------------------- all of them

SMALL, UNEVEN, LARGE = (1, 7, 3, 6, 4), (1, 7, 3, 6, 5), (2, 2, 255, 120)
PICTURES = {
    "generator-6-4.svg": lambda: small_generator(SMALL),
    "generator-6-5.svg": lambda: small_generator(UNEVEN),
    "generator-255-120.svg": lambda: large_generator(LARGE),
    "reads-6-4.svg": lambda: reads_per_node(SMALL),
    "reads-255-120.svg": lambda: reads_per_node(LARGE),
    "weights-6-3.svg": lambda: messages_by_weight((1, 7, 3, 6, 3)),
    "jobs-15-6.svg": lambda: reads_per_job((2, 11, 15, 6), (1, 4), 20),
}


def main():
    stale = []
    os.makedirs(FOLDER, exist_ok=True)
    for name, draw in PICTURES.items():
        path, drawn = os.path.join(FOLDER, name), draw()
        if "--check" not in sys.argv:
            with open(path, "w", encoding="utf-8") as file:
                file.write(drawn)
        elif not os.path.exists(path) or open(path, encoding="utf-8").read() != drawn:
            stale.append(name)
    print(f"pictures: {len(PICTURES)}, {len(stale)} stale {' '.join(stale)}".rstrip())
    sys.exit(1 if stale else 0)


if __name__ == "__main__":
    main()
