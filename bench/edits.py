"""Wrong bodies: which files of a crate an edit changes, and which functions."""
import collections
import os
import re

# A function that an edit changes: the end of the name that a check prints, its file, and its first and last line there.
Function = collections.namedtuple("Function", "name file first last")

FREE = re.compile(r"(?:pub(?:\([^)]*\))? )?fn (\w+)")
METHOD = re.compile(r"    (?:pub(?:\([^)]*\))? )?fn (\w+)")
# A line that begins another item than a function or an impl.
ITEM = re.compile(r"[^\s{})\]/#]")


class Edit:
    """One file of audit/ or must-fail/."""

    def __init__(self, path, crate):
        self.path, self.crate = path, crate
        part, name = path.split("/")[-2:]
        self.name, self.label = name.removesuffix(".edit"), f"{crate.name}/{part}/{name.removesuffix('.edit')}"
        self.pairs = pairs_in(path)
        self.functions = self.functions_of()

    def functions_of(self):
        """The functions that it changes, or none where it changes more than bodies."""
        found, texts = [], {}
        for file, old, new in self.pairs:
            if not file.startswith("src/") or not os.path.isfile(f"{self.crate.folder}/{file}"):
                return []
            if file not in texts:
                with open(f"{self.crate.folder}/{file}", encoding="utf-8") as it:
                    texts[file] = it.read()
            if texts[file].count(old) != 1:
                return []
            function = function_at(file, texts[file], old)
            if not function:
                return []
            texts[file] = texts[file].replace(old, new)
            found.append(function)
        return list(dict.fromkeys(found))


def pairs_in(path):
    """The file, the old and the new text of each of an edit's changes."""
    file, old, found = "", "", []
    with open(path, encoding="utf-8") as it:
        for line in it.read().split("\n"):
            word, _, rest = line.partition(":")
            rest = rest.removeprefix(" ")
            if word == "file":
                file = rest.strip()
            elif word == "old":
                old = rest
            elif word == "new":
                found.append((file, old, rest))
    return found


def first_of(lines, number):
    """The number of the first line of the function whose `fn` stands in this one: its attributes stand above, and the prover names goals by them."""
    while number > 0 and lines[number - 1].lstrip().startswith("#["):
        number -= 1
    return number


def function_at(file, text, old):
    """The function around this text, or None where it stands in none."""
    lines = text.split("\n")
    at = text[: text.index(old) + len(old) - len(old.lstrip())].count("\n")
    module = file.removeprefix("src/").removesuffix(".rt").removesuffix("/mod").replace("/", "::")
    inside = "" if module in ("lib", "main") else f"{module}::"
    method = None
    for number in range(at, -1, -1):
        line = lines[number]
        found = METHOD.match(line)
        if found and not method:
            method = found[1], first_of(lines, number)
        found = FREE.match(line)
        if found:
            return Function(inside + found[1], file, first_of(lines, number) + 1, end_of(lines, number, "}"))
        if re.match(r"impl\b", line):
            return method and Function(method_of(line, method[0]), file, method[1] + 1, end_of(lines, method[1], "    }"))
        if ITEM.match(line) and not line.startswith("where"):
            return None
    return None


def end_of(lines, first, end):
    """The number of the line that ends what begins in this one."""
    return next((it for it in range(first, len(lines)) if lines[it] == end), len(lines) - 1) + 1


def method_of(line, method):
    """The end of the name of a method of this `impl`: of its type, or of its type and trait in one word."""
    line = line.removeprefix("impl").strip()
    depth = 0
    for at, letter in enumerate(line if line.startswith("<") else ""):
        depth += (letter == "<") - (letter == ">" and line[at - 1] != "-")
        if not depth:
            line = line[at + 1 :].strip()
            break
    trait, _, of = line.partition(" for ")
    plain = lambda it: re.sub(r"<.*|\s.*|\{.*", "", it.strip()).rpartition("::")[2]
    return f"{plain(of)}{plain(trait)}::{method}" if of else f"{plain(trait)}::{method}"


def batches_of(edits):
    """The edits in lists, in each of which no two change one function. One that changes more than bodies is alone."""
    found = []
    for edit in edits:
        names = {it.name for it in edit.functions}
        apart = lambda batch: all(it.functions and not names & {one.name for one in it.functions} for it in batch)
        fits = lambda batch: names and apart(batch) and texts_of([*batch, edit])
        batch = next((it for it in found if fits(it)), None)
        if batch is None:
            found.append(batch := [])
        batch.append(edit)
    return found


def texts_of(batch):
    """The files as all edits of a list leave them, by their path in the crate, or None where one can't be applied behind the others."""
    texts = {}
    for edit in batch:
        for file, old, new in edit.pairs:
            if file not in texts:
                with open(f"{edit.crate.folder}/{file}", encoding="utf-8") as it:
                    texts[file] = it.read()
            if texts[file].count(old) != 1:
                return None
            texts[file] = texts[file].replace(old, new)
    return texts


def why_not(edit):
    """Why an edit can't be applied, or nothing where it can: each old text stands in its file exactly once."""
    for file, old, _ in edit.pairs:
        if not os.path.isfile(f"{edit.crate.folder}/{file}"):
            return f"there is no {file}"
    if not edit.pairs:
        return "it names no change"
    return "" if texts_of([edit]) else "an old text doesn't stand in its file exactly once"
