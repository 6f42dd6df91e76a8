"""The independent implementation of tests/reference: `code`, the store by its definitions, `roster`, rosters by their history, and
a module for each group of further calls.

Its first module is called balanced, as the package is: while its modules are loaded, the name is theirs.
"""
import importlib.util
import sys
from pathlib import Path

import balanced

FOLDER = Path(__file__).resolve().parents[3] / "tests" / "reference"


def load(name):
    spec = importlib.util.spec_from_file_location(name, FOLDER / f"{name}.py")
    module = importlib.util.module_from_spec(spec)
    sys.modules[name] = module
    spec.loader.exec_module(module)
    return module


try:
    code = load("balanced")
    roster = load("roster")
    rearranged, differences, carry, choose, listed, traces = map(
        load, ["rearranged", "differences", "carry", "choose", "listed", "traces"])
finally:
    sys.modules["balanced"] = balanced
