"""The must-fail edits of a crate: what each exchanges, which functions it changes, and which edits one check can try together."""

import dataclasses
import functools
import glob
import os
import re

from checks import TOP, text_of

# Functions.


@dataclasses.dataclass(frozen=True)
class Function:
    """A function: its file and the rows of it there, the type or trait that it is a method of, its name, the cycle of calls that it is in, and the
    file by whose module a check names it: that of the type's declaration, if it is a method of the type's own."""

    file: str
    rows: range
    block: str
    name: str
    cycle: str
    home: str

    def module(self):
        return module_of(self.home)

    def path(self):
        """Returns what a check calls it, but for its crate."""
        return "::".join(part for part in (self.module(), self.block, self.name) if part)

    def place(self):
        """Returns what only one edit at a time may change: the function, or its cycle of calls, which has one proof."""
        return self.cycle or (self.file, self.rows)

    def is_proved_by(self, file):
        """Whether a file of proofs is of this function."""
        return file.startswith("proofs/") and f"/{self.name}/" in file


FUNCTION = re.compile(r'^( *)(?:pub(?:\([^)]*\))? )?(const )?(?:unsafe )?(?:extern "C" )?fn (\w+)')
BLOCK = re.compile(r"^( *)(?:pub(?:\([^)]*\))? )?(?:unsafe )?(impl|trait)\b(.*)")
CYCLE = re.compile(r"#\[cycle\((\w+)\)\]")


def module_of(path):
    """Returns the module that a file of src/ is, empty for the root."""
    module = path.removeprefix("src/").removesuffix(".rt").replace("/", "::").removesuffix("::mod")
    return "" if module in ("lib", "main") else module


def words_of_type(text, parameters):
    """Returns how a check spells a type, or a trait, in the name of an impl: its words one after another, without lifetimes."""
    found = ""
    for part in re.findall(r"&|\bmut\b|\bdyn\b|\[|'\w+|(?:\w+::)*\w+", re.sub(r"\[(?=[^\]]*;)", "Array ", text)):
        word = part.rsplit("::", 1)[-1]
        if part.startswith("'") or word in parameters:
            continue
        found += {"&": "Ref", "mut": "Mut", "[": "Slice", "dyn": "Dyn"}.get(part, word[0].upper() + word[1:])
    return found


def split_parameters(head):
    """Splits '<T: A<B>, C> rest' into the names of the parameters and the rest."""
    if not head.startswith("<"):
        return set(), head
    depth = 0
    for at, sign in enumerate(head):
        depth += {"<": 1, ">": -1}.get(sign, 0) if head[at - 1] != "-" else 0
        if depth == 0:
            names = re.split(r",(?![^<]*>)", head[1:at])
            return {re.sub(r"^const ", "", name.strip()).split(":")[0].strip() for name in names}, head[at + 1 :].strip()
    return set(), head


def block_of(rows, at, indent):
    """Returns how a check names the impl or the trait that encloses the row, empty if none does, and whether it is an impl of no trait."""
    for start in range(at, -1, -1):
        found = BLOCK.match(rows[start])
        if found and len(found[1]) < len(indent):
            break
    else:
        return "", False
    head = found[3].strip()
    for row in rows[start + 1 : at + 1]:
        if "{" in head:
            break
        head += " " + row.strip()
    head = re.split(r"\{|\bwhere\b", head)[0].strip()
    if found[2] == "trait":
        return re.match(r"\w+", head)[0], False
    parameters, head = split_parameters(head)
    if " for " in head:
        of_trait, of_type = head.split(" for ", 1)
        of_type = "Any" if of_type.strip() in parameters else words_of_type(of_type, parameters)
        return of_type + words_of_type(of_trait, parameters), False
    return words_of_type(re.sub(r"<.*", "", head), set()), True


@functools.cache
def source_files(folder):
    """Returns the files of a crate's src/, by their paths in the crate."""
    return [os.path.relpath(path, folder) for path in sorted(glob.glob(f"{folder}/src/**/*.rt", recursive=True))]


@functools.cache
def files_of_type(folder, name):
    """Returns the files of src/ that declare a type of this name."""
    declares = re.compile(rf"(?m)^(?:pub(?:\([^)]*\))? )?(?:struct|enum) {name}\b")
    return [path for path in source_files(folder) if declares.search(text_of(f"{folder}/{path}"))]


def function_from(folder, path, rows, start):
    """Returns the function of the crate's file whose first row this is, or None if the row begins none."""
    found = FUNCTION.match(rows[start])
    if not found:
        return None
    indent = found[1]
    end = next((it for it in range(start + 1, len(rows)) if rows[it].startswith(indent + "}")), None)
    if end is None:
        return None
    above = "\n".join(rows[max(0, start - 8) : start])
    cycle = CYCLE.findall(above[max(above.rfind("\n\n"), 0) :])
    block, is_own = block_of(rows, start, indent) if indent else ("", False)
    homes = files_of_type(folder, block) if is_own else []
    home = path if path in homes or not homes else homes[0]
    return Function(path, range(start + 1, end + 2), block, found[3], cycle[-1] if cycle else "", home)


def function_at(folder, path, text, at):
    """Returns the function of the crate whose text the offset is in, or None."""
    rows, row = text.split("\n"), text[:at].count("\n")
    start = next((it for it in range(row, -1, -1) if FUNCTION.match(rows[it])), None)
    function = function_from(folder, path, rows, start) if start is not None else None
    return function if function and row + 1 in function.rows else None


def functions_of(folder):
    """Returns the functions of a crate's files."""
    found = []
    for path in source_files(folder):
        rows = text_of(f"{folder}/{path}").split("\n")
        found += filter(None, (function_from(folder, path, rows, row) for row in range(len(rows))))
    return found


# Edits.

FIRST = 10
SHOWS_MOST = "0_"


@dataclasses.dataclass
class Edit:
    """An edit: its crate, its file's name, the triples of a file and the texts that it exchanges there, why it can't be tried, if it can't, the functions
    that it changes, if it changes nothing else, and the functions or modules that are to refuse it, if it says which."""

    crate: str
    name: str
    exchanges: list
    why: str
    functions: list
    checked: list

    def label(self):
        return f"edit {self.crate}/{self.name}"

    def stands_alone(self):
        return not self.functions

    def is_of_definitions(self):
        return all(path.startswith("specs/") for path, _, _ in self.exchanges)

    def module(self):
        """Returns the module of the one file of src/ that it changes, or none."""
        paths = {path for path, _, _ in self.exchanges}
        return module_of(*paths) if len(paths) == 1 and all(path.startswith("src/") for path in paths) else ""


def checked_of(text):
    """Reads the lines 'check: PATH' of an edit, which name functions or modules of its crate."""
    return [line[7:].strip() for line in text.split("\n") if line.startswith("check: ")]


def exchanges_of(text):
    """Reads the lines 'file: PATH' and 'old: TEXT', 'new: TEXT' of an edit."""
    path, old, found = None, None, []
    for line in text.split("\n"):
        if line.startswith("file: "):
            path = line[6:].strip()
        elif line.startswith("old: "):
            old = line[5:]
        elif line.startswith("new:"):
            found.append((path, old, line[4:].removeprefix(" ")))
    return found


def planted(edits, text_at):
    """Returns the texts, by their paths, of the files that the edits change. The function returns the text of a file as it stands. Several edits change
    other functions each, and what one exchanges isn't looked for in what another has written."""
    texts = {path: text_at(path) for edit in edits for path, _, _ in edit.exchanges}
    if len(edits) == 1:
        for path, old, new in edits[0].exchanges:
            texts[path] = texts[path].replace(old, new)
        return texts
    for path, text in texts.items():
        spots = [(text.index(old), old, new) for edit in edits for file, old, new in edit.exchanges if file == path]
        for at, old, new in sorted(spots, reverse=True):
            texts[path] = texts[path][:at] + new + texts[path][at + len(old) :]
    return texts


def read_edit(crate, path):
    """Reads an edit of a crate."""
    folder, text = f"{TOP}/crates/{crate}", text_of(path)
    exchanges = exchanges_of(text)
    texts, functions, why = {}, [], "" if exchanges else "it exchanges nothing"
    for file, old, new in exchanges:
        if not os.path.isfile(f"{folder}/{file}"):
            why = f"there is no {file}"
            break
        was = text_of(f"{folder}/{file}")
        now = texts.get(file, was)
        if now.count(old) != 1:
            why = f"'{old.strip()}' stands {now.count(old)} times in {file}"
            break
        functions.append(function_at(folder, file, was, was.index(old)) if file.endswith(".rt") and was.count(old) == 1 else None)
        texts[file] = now.replace(old, new)
    if why or None in functions:
        functions = []
    return Edit(crate, os.path.basename(path), exchanges, why, functions, checked_of(text))


def edits_of(crate):
    """Returns the edits of a crate in the order of their names."""
    return [read_edit(crate, path) for path in sorted(glob.glob(f"{TOP}/crates/{crate}/edits/*.edit"))]


def first_of(edits):
    """Returns the ten edits of a crate that are tried unless all are: in the order of their names those that show most, then those that the same check
    can try, then the others."""
    taken = [it for it in edits if it.name.startswith(SHOWS_MOST)]
    places = {function.place() for edit in taken for function in edit.functions}
    for edit in edits:
        own = {function.place() for function in edit.functions}
        if own and not own & places:
            taken.append(edit)
            places |= own
    return sorted((taken + [it for it in edits if it not in taken])[:FIRST], key=lambda it: it.name)


def rounds_of(edits):
    """Puts the edits into rounds: in one of functions each place is changed by one edit at most; those of definitions are all in one."""
    rounds, alone = [], []
    definitions = [edit for edit in edits if edit.stands_alone() and edit.is_of_definitions()]
    for edit in edits:
        if edit.stands_alone():
            alone += [[edit]] if edit not in definitions else []
            continue
        places = {function.place() for function in edit.functions}
        free = next((it for it in rounds if not it[0] & places), None)
        if free is None:
            free = (set(), [])
            rounds.append(free)
        free[0].update(places)
        free[1].append(edit)
    return [*([definitions] if definitions else []), *alone, *(edits for _, edits in rounds)]


def crates_with_edits(names):
    """Returns those of the crates that have edits."""
    return [name for name in names if glob.glob(f"{TOP}/crates/{name}/edits/*.edit")]
