"""The builds of the library that this processor runs, and a call made on each of them.

glibc has picked the widest; the narrower ones run, too.
"""
from ctypes import CDLL
from pathlib import Path
from unittest.mock import patch

import balanced
from balanced import calls
from balanced.table import CALLS

LEVELS = ["x86-64-v4", "x86-64-v3"]


def build_files():
    """The files of the builds, the widest first."""
    picked = Path(balanced.library_path())
    if picked.parent.name not in LEVELS:
        return [picked]
    narrower = LEVELS[LEVELS.index(picked.parent.name) + 1:]
    return [picked, *(picked.parents[1] / level / picked.name for level in narrower), picked.parents[2] / picked.name]


BUILDS = {str(path): {name: calls.declared(CDLL(str(path)), name) for name in CALLS} for path in build_files()}


def outcome_once(function, given):
    """(number, what the call gives, what it was lent afterwards). A refused call has changed nothing."""
    lent = [bytearray(x) if isinstance(x, bytearray) else x for x in given]
    try:
        return 0, function(*lent), lent
    except balanced.Error as error:
        assert lent == list(given), f"{function} was refused with number {error.number}, and wrote"
        return error.number, None, lent


def outcome(function, *given):
    """The same on every build, which must agree. Bytearrays are copied for each."""
    outcomes = []
    for build in BUILDS.values():
        with patch.dict(calls.FUNCTIONS, build):
            outcomes.append(outcome_once(function, given))
    assert all(other == outcomes[0] for other in outcomes), f"builds differ: {function} {given} {outcomes}"
    return outcomes[0]
