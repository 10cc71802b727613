"""What edits came to when they were last tried: in the repository, in the file edits/record of a crate, and on this machine."""

import functools
import hashlib
import json
import os
import re
import subprocess

from checks import TOP, text_of
from edit_checks import ARE_REFUSED, UNTRIED, without_bodies, body_of
from edit_files import FUNCTION, functions_of
from kit import RT

CACHE = os.path.join(os.environ.get("XDG_CACHE_HOME") or os.path.expanduser("~/.cache"), "amqp-edits")
# Another number where the tool reads an edit, or judges what a check says of it, in another way.
FORM = 1


# Checksums.


def sum_of(*parts):
    return hashlib.sha256(repr(parts).encode()).hexdigest()


def without_comments(path, text):
    """Returns the text of a file without its lines that are comments."""
    mark = "//" if path.endswith(".rt") else "--"
    return "\n".join(row for row in text.split("\n") if not row.lstrip().startswith(mark))


def is_stated(path):
    """Whether a crate above can cite what a file of the crate says: the files of functions' proofs are folders below proofs/."""
    return not path.startswith("proofs/") or path.count("/") == 1


def stated_in(path, folder, functions):
    """Returns what a file says to the crates above. It leaves out the bodies of functions, unless it writes macros."""
    text = text_of(f"{folder}/{path}")
    if path.endswith(".rt") and "macro_rules!" not in text:
        rows = text.split("\n")
        starts = [it.rows[0] - 1 for it in functions if it.file == path]
        has_body = [it for it in starts if not FUNCTION.match(rows[it])[2] and body_of(rows, it, FUNCTION.match(rows[it])[1])]
        text = without_bodies(text, has_body)
    return re.sub(r"\n\s*\n+", "\n", without_comments(path, text))


class Sums:
    """The checksums of what the verdict on an edit depends on: the kit, the form of this tool, the edit, the files of its crate, and what the crates below
    state. A proof cites their public items, contracts, definitions and lemmas, and no body of a function and no proof. Comments count nowhere."""

    def __init__(self):
        self.kit = subprocess.run(["rt", "version"], stdout=subprocess.PIPE, text=True, check=True).stdout
        self.whole, self.stated = {}, {}

    def of_crate(self, crate):
        """Returns the checksum of all files of a crate."""
        if crate.name not in self.whole:
            paths = sorted(os.path.relpath(path, crate.folder) for path in RT.files_of(crate.folder))
            read = [(path, without_comments(path, text_of(f"{crate.folder}/{path}"))) for path in paths]
            self.whole[crate.name] = sum_of(crate.name, crate.of_kit, read)
        return self.whole[crate.name]

    def of_statements(self, crate):
        """Returns the checksum of what a crate states."""
        if crate.name not in self.stated:
            paths = sorted(os.path.relpath(path, crate.folder) for path in RT.files_of(crate.folder))
            functions = functions_of(crate.folder)
            read = [(path, stated_in(path, crate.folder, functions)) for path in paths if is_stated(path)]
            self.stated[crate.name] = sum_of(crate.name, crate.of_kit, read)
        return self.stated[crate.name]

    @functools.cache
    def of_base(self, crate):
        """Returns the checksum of what the verdicts on all edits of a crate depend on."""
        return sum_of(FORM, self.kit, self.of_crate(crate), *map(self.of_statements, crate.below()))

    def of_edit(self, crate, edit):
        return sum_of(self.of_base(crate), edit.name, edit.exchanges, edit.checked)[:32]


# What stays on the machine.


class Kept:
    """What edits came to in earlier runs on this machine, by their checksums."""

    def __init__(self, sums, anew):
        self.sums, self.anew = sums, anew

    def path_of(self, crate, edit):
        return f"{CACHE}/{crate.name}-{self.sums.of_edit(crate, edit)}.json"

    def of_edit(self, crate, edit):
        """Returns what the edit came to, or None."""
        try:
            kind, text, seconds = json.loads(text_of(self.path_of(crate, edit)))
        except (OSError, ValueError):
            return None
        return (kind, text, seconds) if not self.anew else None

    def keep(self, crate, edit, result):
        if result[0] == UNTRIED:
            return
        os.makedirs(CACHE, exist_ok=True)
        path = self.path_of(crate, edit)
        with open(f"{path}.{os.getpid()}", "w", encoding="utf-8") as file:
            json.dump(result, file)
        os.replace(f"{path}.{os.getpid()}", path)


# What stands in the repository.


class Record:
    """The file edits/record of a crate: for each edit a line with its name, the checksum of what its verdict depended on, the verdict, and the processor
    seconds that it took: its share of the checks that tried it."""

    def __init__(self, crate, edits):
        self.path, self.edits = f"{TOP}/crates/{crate}/edits/record", edits
        self.lines, self.wrong, self.is_there = {}, [], os.path.isfile(self.path)
        for row in text_of(self.path).splitlines() if self.is_there else []:
            self.read(row)
        names = {it.name for it in edits} if self.is_there else set()
        self.wrong += [f"{name} has a line in edits/record, and there is no such edit" for name in sorted({*self.lines} - names)]
        self.wrong += [f"{name} has no line in edits/record: run tools/edits --all --record {crate}" for name in sorted(names - {*self.lines})]

    def read(self, row):
        words = row.split(" ")
        if len(words) == 4 and words[2] in ARE_REFUSED and words[3].isdecimal() and words[0] not in self.lines:
            self.lines[words[0]] = (words[1], words[2], int(words[3]))
        else:
            self.wrong.append(f"edits/record has a line that it can't have: {row}")

    def stands(self, edit, sum):
        """Whether the record says that the edit was refused, when what its verdict depends on was what it is now."""
        return self.lines.get(edit.name, ("",))[0] == sum

    def seconds(self, edit):
        """Returns how many processor seconds the edit took, as far as the record knows."""
        return self.lines.get(edit.name, (0,))[-1]

    def write(self, sums, results):
        """Writes a line for each edit: of what was tried now, or else as it stands. Returns what keeps it from that."""
        lines = {it.name: self.lines.get(it.name) for it in self.edits}
        for name, (kind, text, seconds) in results.items():
            if kind not in ARE_REFUSED:
                return f"{name} wasn't refused: {text}"
            lines[name] = (sums[name], kind, round(seconds))
        lacking = [name for name, line in lines.items() if not line]
        if lacking:
            return f"{', '.join(lacking)} wasn't tried: run it with --all"
        with open(self.path, "w", encoding="utf-8") as file:
            file.write("".join(f"{name} {sum} {kind} {seconds}\n" for name, (sum, kind, seconds) in sorted(lines.items())))
        return ""


# The sample.

# How many edits of one crate the sample has at most, and what comes to their seconds, since a smaller check has a larger share of reading the libraries.
OF_ONE_CRATE, FIXED_SECONDS = 10, 30


def commit():
    """Returns the commit that is checked out, empty outside of a repository."""
    ran = subprocess.run(["git", "rev-parse", "HEAD"], cwd=TOP, stdout=subprocess.PIPE, stderr=subprocess.DEVNULL, text=True, check=False)
    return ran.stdout.strip()


def sample_of(records, at, minutes):
    """Returns the names of edits that are tried whatever the record says, by their crates: some of each crate, in an order that the commit `at` gives, as
    many as take so many processor minutes by the record."""
    left, found = 60.0 * minutes, {}
    for name in sorted(records, key=lambda it: sum_of(at, it)):
        if left <= 0:
            break
        edits = sorted(records[name].edits, key=lambda it: sum_of(at, it.name))[:OF_ONE_CRATE]
        found[name] = {it.name for it in edits}
        left -= FIXED_SECONDS + sum(map(records[name].seconds, edits))
    return found
