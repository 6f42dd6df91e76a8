#!/usr/bin/env python3
"""Checks that in every picture of docs/pictures each text stands inside the picture, and no two texts stand on one another.

Texts are measured in a font that is wider than those that readers have (docs/drawing.py). The named boxes, which have round
corners, must not overlap either, and each must hold the text that stands at its middle.
"""
import os
import sys
import xml.etree.ElementTree as tree
from itertools import combinations

TOP = os.path.dirname(os.path.dirname(os.path.abspath(__file__)))
FOLDER = os.path.join(TOP, "docs", "pictures")
sys.path.append(os.path.join(TOP, "docs"))
from drawing import text_box  # noqa: E402

SVG = "{http://www.w3.org/2000/svg}"


def texts(root):
    """Each text with its left, top, right and bottom."""
    for text in root.iter(SVG + "text"):
        words = "".join(text.itertext())
        size = text.get("font-size", root.get("font-size", "16"))
        yield words, text_box(float(text.get("x", 0)), float(text.get("y", 0)), words, float(size), text.get("text-anchor", "start"))


def boxes(root):
    """The left, top, right and bottom of each box with round corners."""
    for box in root.iter(SVG + "rect"):
        if box.get("rx"):
            x, y, width, height = (float(box.get(name)) for name in ("x", "y", "width", "height"))
            yield x, y, x + width, y + height


def inside(inner, outer):
    return outer[0] <= inner[0] and outer[1] <= inner[1] and inner[2] <= outer[2] and inner[3] <= outer[3]


def overlap(one, other):
    return one[0] < other[2] and other[0] < one[2] and one[1] < other[3] and other[1] < one[3]


def middle_in(text, box):
    x, y = (text[0] + text[2]) / 2, (text[1] + text[3]) / 2
    return box[0] <= x <= box[2] and box[1] <= y <= box[3]


def faults_of(root):
    frame = tuple(map(float, root.get("viewBox").split()))
    found, named = list(texts(root)), list(boxes(root))
    for words, place in found:
        if not inside(place, frame):
            yield f"leaves the picture: {words}"
        for box in named:
            if middle_in(place, box) and not inside(place, box):
                yield f"leaves its box: {words}"
    for (words, one), (others, other) in combinations(found, 2):
        if overlap(one, other):
            yield f"stand on one another: {words} / {others}"
    for one, other in combinations(named, 2):
        if overlap(one, other):
            yield f"boxes overlap at {one} and {other}"


def main():
    names = sorted(name for name in os.listdir(FOLDER) if name.endswith(".svg"))
    faults = [f"{name}: {fault}" for name in names for fault in faults_of(tree.parse(os.path.join(FOLDER, name)).getroot())]
    for fault in faults:
        print(fault)
    print(f"pictures: {len(names)} looked at, {len(faults)} faults")
    sys.exit(1 if faults or not names else 0)


if __name__ == "__main__":
    main()
