"""What tools share: counted checks, where the library and the programs are, the worked rows, and the blocks of a page."""

import dataclasses
import functools
import glob
import os
import re
import subprocess
import sys
import time

TOP = os.path.dirname(os.path.dirname(os.path.realpath(__file__)))
HEADER = f"{TOP}/c/amqp_types.h"
WARNINGS = ["-std=c11", "-O2", "-Wall", "-Wextra", "-Werror"]
SANITIZERS = ["-g", "-fsanitize=address,undefined", "-fno-sanitize-recover=all"]
PYTHONS = (sys.executable, "/usr/bin/python3")
# The examples of the Rust crate, with their arguments, and what they print.
RUST_EXAMPLES = (
    ("canon", ("accepted", "005324c00000"), "00532445 6\n"),
    ("walk", (), "Described, 2 inside\n  Ulong, 0 inside\n  List, 2 inside\n    Uint, 0 inside\n    Ulong, 0 inside\n"),
    ("address", (), "queue\n"),
)
# The examples that are there in C, Rust and Python, with their arguments, and what each of the three prints.
MESSAGE = (
    "005370c00903415004700000ea60005371c10d02a3057472616365a103616263005372c10d02a308782d6f70742d69645307005373c0420a98000102030405060708090a"
    "0b0c0d0e0fa0056775657374a10771756575652f61a10568656c6c6f4040a30a746578742f706c61696e4040830000013167adb8a1005374c11404a1016e54ffa1036269"
    "6781ffffff0000000000005377a10d48656c6c6f2c20576f726c6421005378c10b02a303637263700001e240"
)
CONNECTION = (
    "414d5150000100000000001a02000000005310c00d04a101634070000100006000ff00000008020000000000000c020000000053244500000014020000000053"
)
SHARED_EXAMPLES = (
    (
        "router",
        (MESSAGE,),
        "header: 14 bytes at 0\ndelivery-annotations: 18 bytes at 14\nmessage-annotations: 18 bytes at 32\nproperties: 71 bytes at 50\n"
        "  to: queue/a\napplication-properties: 25 bytes at 121\namqp-value: 18 bytes at 146\nfooter: 16 bytes at 164\n"
        "bare message: 114 bytes at 50\n",
    ),
    (
        "archive",
        ("00537741", "008000000000000000775601", "00537742"),
        "1: new, 4 bytes, 4 in canonical text\n1: known, 12 bytes, 4 in canonical text\n2: new, 4 bytes, 4 in canonical text\n",
    ),
    (
        "filter",
        (CONNECTION,),
        "0: protocol header\n8: open\n34: empty\n42: WrongDescriptor at byte 51\n54: no whole frame\n",
    ),
)


class Checks:
    """Counts checks, and prints a line for each."""

    def __init__(self):
        self.passed = self.failed = 0
        self.started = 0.0

    def check(self, what, holds, why=""):
        """Counts one check."""
        self.passed += bool(holds)
        self.failed += not holds
        print(f"{'passed' if holds else 'FAILED'}: {what}" + (f"\n{why[-3000:]}" if why and not holds else ""), flush=True)
        return holds

    def run(self, what, words, wanted=0, **how):
        """Runs a command, which has to end with the status that is wanted, and returns what it printed."""
        ran = subprocess.run(words, stdout=subprocess.PIPE, stderr=subprocess.PIPE, text=True, errors="replace", check=False, **how)
        self.check(what, ran.returncode == wanted, ran.stdout + ran.stderr + f"status {ran.returncode}")
        return ran.stdout

    def prints(self, what, words, wanted, **how):
        """Runs a command, which has to succeed and to print what is wanted."""
        found = self.run(f"{what} runs", words, **how)
        return self.check(f"{what} prints what it should", found == wanted, f"wanted {wanted!r}, found {found!r}")

    def start(self):
        """Begins to measure the time to a first call."""
        self.started = time.monotonic()

    def first_call(self, what):
        """Says how long it took to the first call."""
        print(f"time: {what}: {time.monotonic() - self.started:.1f} s from the file to the first answer", flush=True)

    def end(self):
        """Prints the sum, and returns the status of the tool."""
        print(f"{self.passed} passed, {self.failed} failed")
        return int(self.failed > 0)


def skip(what, why):
    print(f"skipped: {what}, since {why}", flush=True)


# Files.


def text_of(path):
    with open(path, encoding="utf-8") as file:
        return file.read()


def write(path, text):
    os.makedirs(os.path.dirname(path), exist_ok=True)
    with open(path, "w", encoding="utf-8") as file:
        file.write(text)


def lines(printed):
    return "".join(f"{line}\n" for line in printed)


def library():
    """Returns the path of the static library: what AMQP_C_LIBRARY names, or where `rt lib` makes it in crates/amqp_c."""
    return os.path.abspath(os.environ.get("AMQP_C_LIBRARY") or f"{TOP}/crates/amqp_c/out/libamqp_c.a")


def program(crate):
    """Returns the path of a crate's program: what its variable names, as AMQP_CANON that of amqp_canon, or where `rt ci` builds it."""
    return os.path.abspath(os.environ.get(crate.upper()) or f"{TOP}/crates/{crate}/out/{crate}")


def enum_of(prefix):
    """Returns the numbers of one of the header's enums by their names, without the prefix."""
    found = re.findall(rf"^ +{prefix}(\w+) = (\d+)", text_of(HEADER), re.M)
    return {name: int(number) for name, number in found}


def python_with(*modules):
    """Returns an interpreter that has all these modules, or None if there is none."""
    for python in PYTHONS:
        words = [python, "-c", f"import {', '.join(modules)}"]
        if os.path.exists(python) and not subprocess.run(words, capture_output=True, check=False).returncode:
            return python
    return None


# Worked rows.


def row_files():
    return sorted(glob.glob(f"{TOP}/crates/amqp_worked_rows/data/*.rows"))


def rows_of(file):
    """Returns the rows of a file as pairs of a line and the answer."""
    with open(file, encoding="utf-8") as text:
        rows = [line.rstrip("\n") for line in text if " => " in line and not line.startswith("#")]
    return [tuple(line.split(" => ")) for line in rows]


# Pages.


@dataclasses.dataclass
class Block:
    """A block of a page: its language, the number of its first line, its text, and the text between it and the blocks around it."""

    page: str
    of: str
    line: int
    text: str
    before: str
    behind: str

    @functools.cached_property
    def first(self):
        """Returns the block's first line."""
        return self.text.partition("\n")[0]

    @functools.cached_property
    def prints(self):
        """Returns the lines that the page says that the block prints: by the sentence right behind it, or by comments at the ends of its lines."""
        told = re.match(r"\s*It prints (.*?)\.\s", self.behind, re.S)
        return re.findall(r"`([^`]*)`", told[1]) if told else re.findall(r"  # (.*)$", self.text, re.M)


FENCE = re.compile(r"^```(\w*)\n(.*?)^```\n", re.M | re.S)


def blocks(page):
    """Returns the blocks of a page."""
    text = text_of(f"{TOP}/{page}")
    found = list(FENCE.finditer(text))
    ends = [0, *(it.end() for it in found)]
    starts = [*(it.start() for it in found), len(text)]
    between = [text[end:start] for end, start in zip(ends, starts)]
    return [
        Block(page, it[1], text.count("\n", 0, it.start(2)) + 1, it[2], before, behind)
        for it, before, behind in zip(found, between, between[1:])
    ]


def examples(page, of):
    """Returns a page's programs in a language, with what the page says that each prints."""
    return [(it.text, it.prints) for it in blocks(page) if it.of == of]
