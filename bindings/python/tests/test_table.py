"""The table, the errors and the limits are those of include/balanced.h, so that no declaration can part from its function."""
import re
import unittest
from ctypes import c_size_t, c_uint8, c_uint16, c_uint32
from pathlib import Path

import balanced
from balanced import ERRORS, findings
from balanced.table import CALLS, Buffer, Number, Result

HEADER = (Path(__file__).resolve().parents[3] / "include" / "balanced.h").read_text(encoding="utf-8")
KINDS = {"uint8_t": c_uint8, "uint16_t": c_uint16, "uint32_t": c_uint32, "size_t": c_size_t}
DECLARED = re.compile(r"^uint8_t balanced_(\w+)\(([^;]*)\);", re.M)
PARAMETER = re.compile(r"(const )?(\w+) (\*?)(\w+)")


def parameters(declared):
    """The parameters of a declaration: a pointer with a size_t after it is a buffer."""
    words = [PARAMETER.fullmatch(" ".join(word.split())).groups() for word in declared.split(",")]
    while words:
        const, kind, pointer, name = words.pop(0)
        if not pointer:
            yield Number(name, KINDS[kind])
        elif words and words[0][1:3] == ("size_t", ""):
            words.pop(0)
            yield Buffer(name, not const, KINDS[kind])
        else:
            yield Result(name, KINDS[kind])


class Table(unittest.TestCase):
    def test_calls(self):
        declared = {name: tuple(parameters(words)) for name, words in DECLARED.findall(HEADER)}
        self.assertEqual(CALLS, declared)

    def test_numbers(self):
        declared = re.findall(r"BALANCED_(\w+) = (\d+),? +/\* (.*) \*/", HEADER)
        self.assertEqual(declared.pop(0)[:2], ("OK", "0"))
        self.assertEqual([(error.name.upper(), str(error.number), error.text) for error in ERRORS.values()], declared)

    def test_classes(self):
        for number, error in ERRORS.items():
            self.assertEqual((error.number, error.__name__), (number, f"{error.name.capitalize()}Error"))
            self.assertIs(getattr(balanced, error.__name__), error)
            self.assertTrue(issubclass(error, balanced.Error))
            self.assertEqual(str(error()), f"{error.name} ({number}): {error.text}")

    def test_findings(self):
        named = {"UNCHANGED": findings.Unchanged(), "ADDED": findings.Added(3, 4), "NONE": findings.NoSingleUpdate()}
        declared = re.findall(r"BALANCED_FIND_(\w+) = (\d+)", HEADER)
        self.assertEqual(len(declared), 3)
        for name, answer in declared:
            self.assertEqual(findings.finding(int(answer), 3, 4), named[name])

    def test_limits(self):
        declared = {name: int(value) for name, value in re.findall(r"#define BALANCED_(\w+) (\d+)", HEADER)}
        self.assertEqual(
            (declared["MAX_LANES"], declared["MAX_NODES"], declared["ROSTER"]),
            (balanced.MAX_LANES, balanced.MAX_NODES, balanced.ROSTER_LEN),
        )
