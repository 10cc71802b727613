"""What tools share that work with the kit's `rt`: its own library, the crates of crates.txt, and how many of its runs fit the machine."""

import functools
import glob
import importlib.machinery
import importlib.util
import os
import shutil
import sys

from checks import TOP, text_of

HOME = os.path.dirname(os.path.dirname(os.path.realpath(shutil.which("rt") or sys.exit("rt isn't in the path"))))


def load_rt():
    """Returns the kit's own library, which knows the words that a check and a try of a crate take."""
    sys.dont_write_bytecode = True
    loader = importlib.machinery.SourceFileLoader("rtlib", f"{HOME}/bin/rtlib.py")
    made = importlib.util.module_from_spec(importlib.util.spec_from_loader("rtlib", loader))
    sys.modules["rtlib"] = made
    loader.exec_module(made)
    return made


RT = load_rt()


def crate_in(top, name):
    """Returns a crate of the repository, or of a copy of it, as the kit's library knows it."""
    return RT.Crate(f"{top}/crates/{name}", top, {})


@functools.cache
def listed():
    """Returns the crates of crates.txt, lowest first, each with the names of the libraries that it uses."""
    found = {}
    for line in text_of(f"{TOP}/crates.txt").split("\n"):
        head, colon, rest = line.partition("#")[0].partition(":")
        if colon:
            found[head.split()[0]] = rest.split()
    return found


def sources(name):
    """Returns the files of a crate's src/."""
    return sorted(glob.glob(f"{TOP}/crates/{name}/src/**/*.rt", recursive=True))


def lanes(run_bytes):
    """Returns how many runs that take so much memory may go side by side: one a processor, as far as memory goes."""
    memory = os.sysconf("SC_PAGE_SIZE") * os.sysconf("SC_PHYS_PAGES")
    return max(1, min(len(os.sched_getaffinity(0)), memory // run_bytes))
