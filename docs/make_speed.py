#!/usr/bin/env python3
"""Makes the tables of docs/SPEED.md, one for each build, and the picture docs/pictures/speed.svg from docs/speed.txt, what one run of `make bench` wrote.

    docs/make_speed.py            writes both
    docs/make_speed.py --check    says which of them is not the one that would be written
"""
import math
import os
import sys
from drawing import INK, MARGIN, OURS, PALE, PLAIN, THEORY, Drawing, text_width

DOCS = os.path.dirname(os.path.abspath(__file__))
RUN, TABLE, PICTURE = (os.path.join(DOCS, name) for name in ("speed.txt", "SPEED.md", os.path.join("pictures", "speed.svg")))
START, END = "<!-- made by make_speed.py -->\n", "<!-- end -->\n"
# how the rows of Correct are named
NAMES = {"correct": "Correct, words", "correct_wrong": "Correct, wrong"}
SHOWN = [(15, 10, 64), (15, 10, 4096), (51, 34, 64), (51, 34, 4096), (255, 120, 1), (255, 120, 64), (255, 120, 4096), (250, 125, 4096)]
CALLS = ["encode", "update", "recover", "rebuild", "belongs", "correct", "correct_wrong", "plan"]
# what our time is compared with, and the heads of the columns
PEERS = {
    "isal": "to ISA-L", "isal_turned": "ISA-L turned", "jerasure": "to Jerasure", "jerasure_turned": "Jer. turned", "isal_kept": "ISA-L kept",
    "jerasure_kept": "Jer. kept", "klauspost": "klauspost kept", "libfec": "to libfec", "belongs": "to Belongs",
}
BUILDS = {"x86-64": "For every x86-64", "x86-64-v3": "For x86-64-v3 (AVX2)", "x86-64-v4": "For x86-64-v4 (AVX-512)"}
CODES = [(15, 10), (51, 34), (255, 120)]
COLOURS = {"encode": OURS, "recover": PLAIN, "belongs": THEORY}


def read_run():
    """The time in µs of each call of each build on each block, and its ratio to each peer."""
    times, ratios, head = {}, {}, []
    for line in open(RUN, encoding="utf-8"):
        words = line.split()
        if words[:1] == ["n"]:
            head = words
        elif len(words) == len(head) > 0 and words[0].isdigit():
            row = dict(zip(head, words))
            key = row["build"], row["call"], int(row["n"]), int(row["k"]), int(row["lanes"])
            times[key] = float(row["us"])
            ratios.update({(*key, peer): float(row[peer]) for peer in PEERS if row[peer] != "-"})
    return times, ratios


def time_words(us):
    return f"{us / 1000:.1f} ms" if us >= 1000 else f"{us:.0f} µs" if us >= 100 else f"{us:.1f} µs"


def ratio_words(ratio):
    return "" if ratio is None else f"{ratio:.0f}" if ratio >= 20 else f"{ratio:.2f}" if ratio >= 0.01 else f"{ratio:.3f}"


def table(times, ratios, build):
    lines = ["| n, k, lanes | call | time | rate | " + " | ".join(PEERS.values()) + " |", "|---" * (4 + len(PEERS)) + "|"]
    for n, k, lanes in SHOWN:
        block = f"{n}, {k}, {lanes}"
        for call in CALLS:
            us = times.get((build, call, n, k, lanes))
            if us is None:
                continue
            rate = "" if call in ("update", "plan") else f"{k * lanes / us:.0f} MB/s"
            cells = [ratio_words(ratios.get((build, call, n, k, lanes, peer))) for peer in PEERS]
            lines.append("| " + " | ".join([block, NAMES.get(call, call.capitalize()), time_words(us), rate, *cells]) + " |")
            block = ""
    return "\n".join(lines) + "\n"


def tables(times, ratios):
    """A table for each build of the run."""
    return "\n".join(f"### {head}\n\n{table(times, ratios, build)}" for build, head in BUILDS.items() if any(key[0] == build for key in times))


def scale(drawing, left, right, middle, unit):
    """Lines at the powers of two from an eighth to eight."""
    for step in range(-3, 4):
        y = middle - step * unit
        drawing.line(left, y, right, y, INK if step == 0 else PALE)
        drawing.text(left - 8, y + 4, f"{2.0 ** step:g}", 12, "end")


def bars(drawing, ratios, build, left, middle, unit):
    """For each code a bar per call: the build's time over ISA-L's at 4,096 lanes, on a scale of powers of two."""
    width, group = 46, 186
    scale(drawing, left, left + len(CODES) * group, middle, unit)
    drawing.text(left, middle - 3 * unit - 30, BUILDS[build], 12)
    for place, (n, k) in enumerate(CODES):
        x = left + place * group + 18
        for number, (call, colour) in enumerate(COLOURS.items()):
            ratio = ratios.get((build, call, n, k, 4096, "isal"))
            if ratio:
                start, height = x + number * (width + 6), unit * math.log2(ratio)
                drawing.box(start, middle - max(height, 0), width, abs(height), colour)
                drawing.text(start + width / 2, middle - max(height, 0) - 5, f"{ratio:.2f}", 12, "middle")
        drawing.text(x + 1.5 * width + 6, middle + 3 * unit + 26, f"n = {n}, k = {k}", 12, "middle")


def picture(ratios):
    """A panel for each build, one below the other."""
    left, unit, middle = MARGIN + text_width("0.125", 12) + 8, 26, 190
    drawing = Drawing("Our time over that of ISA-L, the same work", "4,096 lanes, the field of 256 elements; below 1 we are faster")
    for build in BUILDS:
        if any(key[0] == build for key in ratios):
            bars(drawing, ratios, build, left, middle, unit)
            middle += 6 * unit + 96
    drawing.legend(left, middle - 3 * unit - 50, [(colour, call.capitalize()) for call, colour in COLOURS.items()])
    return drawing.done()


def main():
    times, ratios = read_run()
    text = open(TABLE, encoding="utf-8").read()
    before, rest = text.split(START)
    made = {TABLE: before + START + tables(times, ratios) + END + rest.split(END, 1)[1], PICTURE: picture(ratios)}
    stale = [path for path, want in made.items() if not os.path.exists(path) or open(path, encoding="utf-8").read() != want]
    if "--check" not in sys.argv:
        for path in stale:
            with open(path, "w", encoding="utf-8") as out:
                out.write(made[path])
        stale = []
    for path in stale:
        print("stale:", os.path.relpath(path, DOCS))
    print(f"speed: {len(times)} times, {len(stale)} stale")
    sys.exit(bool(stale))


main()
