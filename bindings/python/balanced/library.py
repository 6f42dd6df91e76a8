"""Finds and loads the shared library, libbalanced.so.1.

It is looked for in the folder that BALANCED_LIB_DIR names, and nowhere else where that is set; then in `lib` beside this
file, where an installed package has it; then in target/lib of the repository.

Beside libbalanced.so.1, which runs on every x86-64, a folder may hold builds for newer processors, in
glibc-hwcaps/x86-64-v3 and -v4. glibc picks the widest that the processor runs, but only for a library that another one
needs by its name. So where libbalanced_any.so is there, that is loaded: it is empty, needs libbalanced.so.1 and has it
looked for in its own folder first. Else libbalanced.so.1 of the folder itself is loaded.
"""
from __future__ import annotations

import ctypes
import os
from pathlib import Path

LIBRARY, ANY_BUILD = "libbalanced.so.1", "libbalanced_any.so"


def folders() -> list[Path]:
    """Where the library is looked for."""
    named = os.environ.get("BALANCED_LIB_DIR")
    if named:
        return [Path(named).absolute()]
    here = Path(__file__).resolve().parent
    return [here / "lib", here.parents[2] / "target" / "lib"]


def load() -> ctypes.CDLL:
    for folder in folders():
        for name in (ANY_BUILD, LIBRARY):
            if (folder / name).is_file():
                return ctypes.CDLL(str(folder / name))
    looked = " or ".join(str(folder) for folder in folders())
    raise ImportError(f"there is no {LIBRARY} in {looked}: run `make build`, or set BALANCED_LIB_DIR to the library's folder")


class Symbol(ctypes.Structure):
    """What dladdr says of an address (Dl_info)."""

    _fields_ = [("file", ctypes.c_char_p), ("base", ctypes.c_void_p), ("name", ctypes.c_char_p), ("address", ctypes.c_void_p)]


def library_path() -> str:
    """The file that the calls come from: it tells which build glibc has picked.

    >>> os.path.basename(library_path())
    'libbalanced.so.1'
    """
    symbol = Symbol()
    function = ctypes.cast(library.balanced_plan, ctypes.c_void_p)
    if not ctypes.CDLL(None).dladdr(function, ctypes.byref(symbol)):
        raise OSError("the loader does not know where the library is")
    return os.path.realpath(os.fsdecode(symbol.file))


library = load()
