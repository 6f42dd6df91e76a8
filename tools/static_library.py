#!/usr/bin/env python3
"""Proves a crate that crates.txt has as a static library, and builds it, for every x86-64: crates/NAME/out/libNAME.a.

    tools/static_library.py KIT NAME

It is what `rt lib --cpu x86-64` does in the crate's folder, by the kit KIT, over the libraries below it as they stand, which
tools/prove.py or `rt ci` has built: `rt lib` would prove anew those that `rt ci` built.
"""
import importlib.machinery
import importlib.util
import os
import sys
from crates import TOP, folder


def load(kit):
    """rt's functions, which take the folder that they stand in for the kit."""
    sys.dont_write_bytecode = True
    loader = importlib.machinery.SourceFileLoader("rtlib", os.path.join(kit, "bin", "rtlib.py"))
    made = importlib.util.module_from_spec(importlib.util.spec_from_loader("rtlib", loader))
    sys.modules["rtlib"] = made
    loader.exec_module(made)
    return made


def main():
    kit, name = sys.argv[1:]
    rtlib = load(kit)
    os.chdir(folder(name))
    crate = rtlib.Crate(os.getcwd(), TOP, {})
    if not crate.is_static:
        sys.exit(f"static_library: crates.txt has {name} as no static library")
    # no other rt changes these folders meanwhile
    crate.held = rtlib.lock([*crate.below(), crate])
    os.makedirs("out", exist_ok=True)
    sys.exit(crate.build_static(["--cpu", "x86-64"]))


if __name__ == "__main__":
    main()
