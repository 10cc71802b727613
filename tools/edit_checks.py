"""Checks of a crate in which edits are planted, and what they say of each edit.

An edited function has a proof of its own, and that cites the contracts of what the function calls, and never their bodies. So edits are planted in a
copy in which every function that no edit changes has the body `unreachable!()`, and a hole for its proof (`rattle check --allow-holes`): its contract is
given, and costs nothing. An edit that isn't refused there is tried in the crate as it is. A sound try checks first that the functions which the edits
change pass in that copy as they are, and counts a refusal only of those that do."""

import difflib
import glob
import os
import re
import shutil
import subprocess
import tempfile

from checks import TOP, text_of
from edit_files import FUNCTION, functions_of, module_of, planted, source_files
from kit import RT, crate_in

REFUSED, BY_LIMIT, BY_NAMES, BAD, MISSED, UNTRIED = "refused", "by-limit", "by-names", "bad", "missed", "untried"
ARE_REFUSED = (REFUSED, BY_LIMIT, BY_NAMES)
STALE = "NOT TRIED: the kept work of a library could not be used: run rt ci again"
# What the prover says if a library below isn't there.
LACKS_A_LIBRARY = re.compile(r"which no --extern passes and no `-L dependency=DIR` holds")


# Copies in which contracts are given.

CLAUSE = re.compile(r"\s*(?:requires|ensures|ghost)\b")
OF_A_PROOF = ("Proof.antt", "Invariants.antt", "Answers.antt")


def body_of(rows, start, indent):
    """Returns the rows at which the body of a function opens and closes, or None if it has none of several rows."""
    has_clause = False
    for at in range(start, len(rows)):
        row = rows[at]
        has_clause = has_clause or at > start and bool(CLAUSE.match(row))
        if row == indent + "{" or row.endswith("{") and not has_clause:
            end = next((it for it in range(at + 1, len(rows)) if rows[it] == indent + "}"), None)
            return (at, end) if end is not None else None
        follows = at + 1 < len(rows) and bool(CLAUSE.match(rows[at + 1]))
        if row.endswith("{}") and not has_clause or row.endswith(";") and not follows:
            return None
    return None


def without_bodies(text, starts):
    """Returns the text of a file in which the functions that begin at these rows are never reached. Each row stays where it is."""
    rows = text.split("\n")
    for start in starts:
        indent = FUNCTION.match(rows[start])[1]
        opens, closes = body_of(rows, start, indent)
        rows[opens + 1 : closes] = [f"{indent}    unreachable!()", *[""] * (closes - opens - 2)]
        # (a function that calls nothing is in no cycle)
        for row in range(start - 1, -1, -1):
            if not rows[row].strip() or FUNCTION.match(rows[row]):
                break
            if rows[row].strip().startswith("#[cycle("):
                rows[row] = ""
    return "\n".join(rows)


def hole_for(crate, parts):
    """Returns the file of a proof that is a hole."""
    module = ".".join(parts)
    return f"use Rattle.{crate}.proofs.{module}.Statement.{{statement}}\n\npub {parts[-1]}_spec : {{M : Type 1}} → statement M\n{parts[-1]}_spec = ?\n"


class Copy:
    """A copy of a crate: the texts of the files that differ, and the files that it lacks."""

    def __init__(self, folder, texts=None, without=()):
        self.folder, self.texts, self.without = folder, texts or {}, set(without)

    def text_at(self, path):
        """Returns the text of a file in the copy."""
        return self.texts.get(path) or text_of(f"{self.folder}/{path}")

    def plant(self, edits):
        """Returns the copy with edits in it."""
        return Copy(self.folder, self.texts | planted(edits, self.text_at), self.without)

    def lay_out(self, room):
        """Writes what a check of the crate reads to a folder."""
        for part in RT.PARTS:
            if os.path.isdir(f"{self.folder}/{part}"):
                shutil.copytree(f"{self.folder}/{part}", f"{room}/{part}")
        for path in self.without:
            if os.path.isfile(f"{room}/{path}"):
                os.remove(f"{room}/{path}")
        for path, text in self.texts.items():
            os.makedirs(os.path.dirname(f"{room}/{path}"), exist_ok=True)
            with open(f"{room}/{path}", "w", encoding="utf-8") as file:
                file.write(text)


def is_given(function, text, keeps, named):
    """Whether the contract of a function is given in a copy: no edit changes it or its cycle of calls, the names are known of it, or of all of its cycle,
    and it has a body of several rows. (What a constant function returns can be seen where it is called.)"""
    rows, start = text.split("\n"), function.rows[0] - 1
    found = FUNCTION.match(rows[start])
    return function.place() not in keeps and function.place() in named and not found[2] and body_of(rows, start, found[1]) is not None


def given_copy(crate, keeps, name_of):
    """Returns a copy of the crate in which the contracts of all functions are given but those at the places `keeps`, and those of which `name_of` returns no
    name."""
    functions = functions_of(crate.folder)
    nameless = {it.place() for it in functions if not name_of(it)}
    named = {it.place() for it in functions} - nameless
    texts, without = {}, set()
    for path in source_files(crate.folder):
        text = text_of(f"{crate.folder}/{path}")
        given = [it for it in functions if it.file == path and is_given(it, text, keeps, named)]
        texts[path] = without_bodies(text, [it.rows[0] - 1 for it in given])
        for function in given:
            parts = name_of(function).split("::")[1:]
            without |= {"/".join(["proofs", *parts, name]) for name in OF_A_PROOF}
            if function.cycle:
                folders = glob.glob(f"{crate.folder}/proofs/**/+{function.cycle}", recursive=True)
                without |= {os.path.relpath(file, crate.folder) for folder in folders for file in glob.glob(f"{folder}/*.antt")}
            texts["/".join(["proofs", *parts, OF_A_PROOF[0]])] = hole_for(crate.name, parts)
    return Copy(crate.folder, texts, without)


# Checks.


def functions_in(said):
    """Returns the names of the functions that a check reports on."""
    return re.findall(r"(?m)^fn (\S+): ", said)


class Checked:
    """A check of a copy of a crate, or of some of its functions, over what checks before it proved."""

    def __init__(self, crate, copy, only=(), over=None, has_holes=False):
        with tempfile.TemporaryDirectory(prefix="edits-") as room:
            copy.lay_out(room)
            words = [RT.RATTLE, "check", *crate.words(["--jobs", "1"], keeps=False), *["--allow-holes"] * has_holes]
            words += [word for path in only for word in ("--only", path)]
            words += ["--incremental", over] if over else []
            how = {"cwd": room, "stdin": subprocess.DEVNULL, "stdout": subprocess.PIPE, "stderr": subprocess.STDOUT}
            with subprocess.Popen([*RT.guarded(), "nice", "-n", "10", *words], text=True, errors="replace", **how) as ran:
                self.said = ran.stdout.read()
                _, status, used = os.wait4(ran.pid, 0)
                ran.returncode = os.waitstatus_to_exitcode(status)
        self.status, self.copy = ran.returncode, copy
        self.seconds = used.ru_utime + used.ru_stime
        self.reports = dict(re.findall(r"(?m)^fn (\S+): (.*)", self.said))
        self.is_stale = bool(RT.STALE.search(self.said) or LACKS_A_LIBRARY.search(self.said))

    def is_read(self):
        """Whether the prover could read the crate."""
        return bool(self.reports) and not any(map(self.is_unread, self.said.split("\n")))

    def is_unread(self, line):
        """Whether the line says that a text of the crate means nothing, and not only that it isn't so."""
        at = re.match(r"(?:\./)?(\S+?):\d+:\d+: error: (?:(`[^`]*`): )?(.*)", line)
        if not at or at[1] not in self.copy.texts and not at[1].startswith(("src/", "specs/")):
            return False
        # (what hangs on a lemma that the edit makes false is left out, and that lemma is what refuses it)
        if re.search(r"which was (rejected|not admitted)", at[3]):
            return False
        said = re.sub(r"`[^`]*`", "", at[3])
        return not at[2] or bool(re.search(r"is not in scope|has no field|is no name|operand is missing|expected the end|cannot continue", said))

    def reports_on(self, name):
        """Returns what is said of the function, and of its closures; or of what is in the module of this name."""
        return [said for path, said in self.reports.items() if path == name or path.startswith(name + "::")]

    def passes(self, name):
        """Whether the function is reported, and its own proof has no fault, whatever is said of those that it calls."""
        reports = self.reports_on(name)
        return bool(reports) and not any(map(is_refusal, reports))

    def notes(self, functions, is_alone):
        """Returns the lines that say what isn't proved: those of these functions, or else all if the edit is the only one."""
        notes = re.findall(r"(?m)^(?:note: )?(?:\./)?((\S+?):(\d+):\d+: (?!note: |warning: ).*)", self.said)
        # (a hole that the copy has for a proof is no fault)
        notes = [it for it in notes if not (it[1].startswith("proofs/") and it[1] in self.copy.texts)]
        own = [note for note, file, row in notes for it in functions if file == it.file and int(row) in it.rows or it.is_proved_by(file)]
        return own or [note for note, _, _ in notes if is_alone]

    def what_is_wrong(self):
        said = self.said.split("\n")
        return next((it for it in said if "error" in it), said[0])[:300]


def is_refusal(report):
    """Whether a function's report says that its own proof fails, and not only that of one that it calls."""
    return not report.startswith(("proved", "no holes", "depends on a hole", "not proved; it calls", "could not tell"))


def found_out(checked, edit, report=""):
    """Returns that an edit is refused, with the first thing that is said of it. The report is that of its function, if others were tried with it."""
    notes = checked.notes(edit.functions, not report) or [report]
    # (a proof file that names what the edit took away, and what cites that proof)
    names = re.compile(r"proofs/.*(has no field|is not in scope|has no `|was not admitted)")
    first = next((it for it in notes if not names.match(it)), "")
    if first or not any(notes):
        return REFUSED, "refused, as it must be" + (f": {first[:160]}" if first else "")
    why = "only because a proof file names what the edit took away, so this says little of the contract: change a value and keep the names"
    return BY_NAMES, f"refused, as it must be ({why}): {notes[0][:160]}"


class Crate:
    """A crate whose edits are tried. `told` are the names of its functions, as far as they are known."""

    def __init__(self, name, is_sound):
        self.name, self.is_sound, self.told = name, is_sound, set()
        self.of_rt = crate_in(TOP, name)
        self.as_it_is = Copy(self.of_rt.folder)
        self.names, self.seconds, self.given, self.counted = {}, 0.0, None, set()

    def stale_libraries(self):
        """Returns the libraries below that aren't there, or were built before a file below them changed."""
        below, found, changed = self.of_rt.below(), [], {}
        for it in below:
            changed[it.name] = max((os.stat(path).st_ctime_ns for path in RT.files_of(it.folder)), default=0)
            newest = max(changed[low.name] for low in [*it.below(), it])
            if not os.path.isdir(it.rlib) or os.stat(it.rlib).st_ctime_ns < newest:
                found.append(it.name)
        return found

    def check(self, *words, **how):
        """Checks a copy of the crate, and counts what that takes."""
        checked = Checked(self.of_rt, *words, **how)
        self.seconds += checked.seconds
        return checked

    # Names.

    def name_of(self, function):
        """Returns the name by which a check knows the function, as far as it is known."""
        return self.names.get(function, f"{self.name}::{function.path()}")

    def told_name_of(self, function):
        """Returns the name by which a check knows the function if a check has told it, or else none."""
        name = self.name_of(function)
        return name if name in self.told else ""

    def learn_names(self, functions):
        """Takes up the names of the functions that are told by the library that rt ci built of the crate, or else by a check of the functions given."""
        index = f"{self.of_rt.rlib}/toolchain/checked.json"
        if not self.told and self.of_rt.makes_rlib() and os.path.isfile(index):
            with open(index, encoding="utf-8") as file:
                found = re.findall(rf'"part/Rattle-{self.name}-proofs\.([^"]*)\.Code"', file.read())
            self.told = {"::".join([self.name, *path.split(".")]) for path in found}
        if not self.told:
            self.told = set(functions_in(self.check(self.as_it_is, sorted(map(self.name_of, functions))).said))
        known = {self.name_of(it) for it in functions_of(self.of_rt.folder)} & self.told
        for function in functions_of(self.of_rt.folder):
            others = self.like(function, self.told - known)
            # (of several names it can't be known which is the function's)
            if self.name_of(function) not in self.told and len(others) == 1:
                self.names[function] = others[0]

    def like(self, function, names):
        """Returns the names that end as the function does and stand in one of its modules, if they aren't another function's."""
        heads = tuple("::".join(part for part in (self.name, module_of(file), "") if part) for file in (function.home, function.file))
        return [it for it in names if it.startswith(heads) and it.endswith("::" + function.name) and it not in self.names.values()]

    def nearest(self, function, names):
        """Returns which of the names is most like what was guessed."""
        guess = f"{self.name}::{function.path()}"
        return max(self.like(function, names), key=lambda it: difflib.SequenceMatcher(None, it, guess).ratio(), default=guess)

    def look_up(self, function, said):
        """Returns what a check calls the function, by what the check said that didn't know it, or else by a check of all functions of its name."""
        if "several functions" not in said:
            said = self.check(self.as_it_is, [function.name]).said
        return self.nearest(function, re.findall(r"`(" + self.name + r"::[^`]*)`", said) or functions_in(said))

    def check_functions(self, copy, functions, over):
        """Checks some functions of a copy of the crate. Where a name fits none or several, the check says which there are."""
        for _ in functions:
            checked = self.check(copy, sorted(map(self.name_of, functions)), over)
            wrong = re.search(r"error: (?:`\w+` has no function|several functions are named) `([^`]*)`", checked.said)
            lacking = [it for it in functions if wrong and self.name_of(it) == wrong[1]]
            if not lacking or lacking[0] in self.names:
                break
            self.names[lacking[0]] = self.look_up(lacking[0], checked.said)
        return checked

    def checked_by(self, edit):
        """Returns the names that the edit's lines `check:` give."""
        return [f"{self.name}::{path}" for path in edit.checked]

    # Tries.

    def try_rounds(self, rounds):
        """Tries rounds of edits one after another, each over what the checks before it proved, and yields each round with what its edits came to."""
        with tempfile.TemporaryDirectory(prefix="edits-over-") as over, tempfile.TemporaryDirectory(prefix="edits-given-") as over_given:
            edits = [it for edits in rounds for it in edits if not it.why]
            self.give_contracts(edits, over_given)
            for edits in rounds:
                bad = {it.name: (BAD, f"BAD EDIT: {it.why}") for it in edits if it.why}
                found = bad | self.try_given([it for it in edits if not it.why], over_given)
                left = [it for it in edits if it.name not in found]
                yield edits, found | (self.try_round(left, over) if left else {})

    def give_contracts(self, edits, over):
        """Makes the copy in which contracts are given. A sound try checks there the functions that the edits change or name, as they are."""
        changed = {function for edit in edits for function in edit.functions}
        checked = {name for edit in edits for name in self.checked_by(edit)}
        if not changed and not checked:
            return
        self.learn_names(changed)
        keeps = {it.place() for it in functions_of(self.of_rt.folder) if it in changed or is_in(self.name_of(it), checked)}
        self.given = given_copy(self.of_rt, keeps, self.told_name_of)
        self.counted = {self.name_of(it) for it in changed} | checked
        if self.is_sound:
            before = self.check_given(self.given, self.counted, over)
            self.counted = {name for name in self.counted if before.passes(name)}

    def check_given(self, copy, names, over):
        """Checks functions over the contracts of all others."""
        while True:
            checked = self.check(copy, sorted(names), over, has_holes=True)
            # (what derives write has a proof of its own kind)
            taken = set(re.findall(r"\./(proofs/\S+/Proof\.antt): error\[reserved-name\]", checked.said)) & set(copy.texts)
            if not taken:
                return checked
            for path in taken:
                copy.texts.pop(path)
                self.given.texts.pop(path, None)

    def try_given(self, edits, over):
        """Returns what edits come to that are refused over the contracts of all other functions."""
        edits = [it for it in edits if self.given and self.names_for(it) and self.names_for(it) <= self.counted and all(map(self.told_name_of, it.functions))]
        if not edits:
            return {}
        halves = edits[: len(edits) // 2], edits[len(edits) // 2 :]
        if edits[0].stands_alone() and len(edits) > 1:
            return self.try_given(halves[0], over) | self.try_given(halves[1], over)
        checked, found = self.check_given(self.given.plant(edits), set().union(*map(self.names_for, edits)), over), {}
        if not checked.is_read() and not checked.is_stale and len(edits) > 1:
            return self.try_given(halves[0], over) | self.try_given(halves[1], over)
        for edit in edits if checked.is_read() and not checked.is_stale else []:
            refusals = [said for name in self.names_for(edit) for said in checked.reports_on(name) if is_refusal(said)]
            if refusals:
                found[edit.name] = found_out(checked, edit, refusals[0] if len(edits) > 1 else "")
        return found

    def names_for(self, edit):
        """Returns the names of what is to refuse the edit: the functions that it changes, or those that it says."""
        return {self.name_of(it) for it in edit.functions} or set(self.checked_by(edit))

    def try_round(self, edits, over):
        """Tries the edits of a round in the crate as it is, and returns what each came to."""
        if not edits[0].stands_alone():
            return self.try_together(edits, over)
        if not edits[0].is_of_definitions():
            module = [f"{self.name}::{it.module()}" for it in edits if it.module()]
            return {it.name: self.try_alone(it, self.checked_by(it) or module, over) for it in edits}
        if self.check(self.as_it_is, over=over).status != 0:
            return {it.name: (UNTRIED, "NOT TRIED: the crate itself isn't proved") for it in edits}
        return {it.name: self.try_alone(it, over=over) for it in edits}

    def try_together(self, edits, over):
        functions = {function for edit in edits for function in edit.functions}
        checked = self.check_functions(self.as_it_is.plant(edits), functions, over)
        if checked.is_stale:
            return {it.name: (UNTRIED, STALE) for it in edits}
        if len(edits) > 1 and not checked.is_read():
            half = len(edits) // 2
            return self.try_together(edits[:half], over) | self.try_together(edits[half:], over)
        if not checked.is_read():
            return {edits[0].name: (BAD, f"BAD EDIT: the prover cannot read the edited text, so no contract was tried: {checked.what_is_wrong()}")}
        found = {}
        for edit in edits:
            refusals = [said for function in edit.functions for said in checked.reports_on(self.name_of(function)) if is_refusal(said)]
            if refusals:
                found[edit.name] = found_out(checked, edit, refusals[0] if len(edits) > 1 else "")
            elif len(edits) > 1:
                found |= self.try_together([edit], over)
            else:
                found[edit.name] = self.try_alone(edit, over=over)
        return found

    def try_alone(self, edit, only=(), over=None):
        """Tries an edit by a check of some functions, if some are given, and then of the whole crate."""
        copy = self.as_it_is.plant([edit])
        checked = self.check(copy, only, over)
        # (all of them are proved, or there are none)
        if only and checked.status in (0, 2):
            checked = self.check(copy, over=over)
        if checked.is_stale:
            return UNTRIED, STALE
        if checked.status == 0:
            return MISSED, "NOT REFUSED: the crate is still proved with this edit (one that means the same as before cannot be refused: remove it)"
        if checked.status == 1 and checked.is_read():
            return found_out(checked, edit)
        if checked.status == 1:
            return BAD, f"BAD EDIT: the prover cannot read the edited text, so no contract was tried: {checked.what_is_wrong()}"
        if checked.status == 3:
            return BY_LIMIT, f"refused, as it must be (only by a limit of the prover, so this says less of the contract): {checked.what_is_wrong()}"
        return UNTRIED, f"NOT TRIED: its check ended with status {checked.status}, so nothing is known of it: {checked.what_is_wrong()}"


def is_in(name, paths):
    """Whether a function is one of these, or in one of these modules or types."""
    return any(name == path or name.startswith(path + "::") for path in paths)
