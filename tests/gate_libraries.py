"""Marks the libraries that a passed gate has left under crates/ as built, so that `rt lib` takes them for the shared library of
the checks and proves none of them anew. Where the toolchain is another than this expects, nothing is marked, and `rt lib`
builds its own."""

import functools
import importlib.machinery
import importlib.util
import os
import shutil
import sys

TOP = os.path.normpath(os.path.join(os.path.dirname(os.path.realpath(__file__)), ".."))


def toolchain():
    """The toolchain's own account of crates and of what they are made from."""
    path = os.path.join(os.path.dirname(os.path.realpath(shutil.which("rt"))), "rtlib.py")
    loader = importlib.machinery.SourceFileLoader("rtlib", path)
    module = importlib.util.module_from_spec(importlib.util.spec_from_loader("rtlib", loader))
    sys.modules["rtlib"] = module
    loader.exec_module(module)
    return module


def mark(top):
    """The names of the crates whose libraries are marked."""
    os.chdir(top)
    tools = toolchain()
    # A crate's sum takes those of the crates that it stands on. Unless each is kept, those of the lowest are made
    # anew for every way that leads to them, which takes minutes.
    tools.Crate.stamp = functools.cache(tools.Crate.stamp)
    marked = []
    for crate in tools.crates_below(top):
        if os.path.isfile(os.path.join(crate.rlib, "format")):
            with open(os.path.join(os.path.dirname(crate.rlib), "stamp"), "w") as file:
                file.write(crate.stamp())
            marked.append(crate.name)
    return marked


if __name__ == "__main__":
    try:
        print("tests: %d libraries of the gate are taken" % len(mark(TOP)), file=sys.stderr)
    except Exception as fault:  # whatever another toolchain lacks
        print("tests: the gate's libraries are not taken: %r" % fault, file=sys.stderr)
