#!/usr/bin/env python3
"""trusted.py [--list]: how much a reader of the run theorem has to read.

Begins with the names that the contract of `run` imports (`ghost use` in crates/script_runner/src/run.rt), and goes on through the
specs of the repository: each definition leads to those that its own text names, by the imports of its file. It counts definitions
and their lines. A line counts where it has text of the definition: comments, blank lines and imports don't. Types that the code
declares (structs and enums) are counted apart, since a reader finds them in src/. Definitions of the kit, as those of std and of clap, are
counted apart too. With --list each definition is printed, by crate and file, in the order in which it was reached."""
import os
import re
import sys

TOP = os.path.join(os.path.dirname(os.path.abspath(__file__)), "..")
ROOT = "crates/script_runner/src/run.rt"
USE = re.compile(r"^\s*(?:pub )?(?:ghost )?use Rattle\.([A-Za-z0-9_.]+?)(?:\.\{([^}]*)\})?(?: as (\S+?))?;?$")
HEAD = re.compile(r"^(?:(?:abbrev|unfoldable) )?pub (?:(?:record|data) )?([^\s:]+)\s*[:({]")
SPLIT = re.compile(r"[\s(),;{}\[\]⟦⟧<>]+")


class Imports:
    """What a file imports: names, aliases of modules, and those of the names that it hands on."""

    def __init__(self):
        self.names = {}
        self.aliases = {}
        self.again = {}
        self.definitions = {}

    def imports(self, line):
        found = USE.match(line)
        if not found:
            return
        module, names, alias = found.groups()
        if alias:
            self.aliases[alias] = module
        for name in (names or "").split(","):
            name = name.strip()
            if name:
                self.names[token_of(name)] = (module, token_of(name))
                if line.lstrip().startswith("pub use"):
                    self.again[token_of(name)] = (module, token_of(name))


class File(Imports):
    """One file of a specs folder: what it imports, and its definitions with their lines."""

    def __init__(self, path):
        super().__init__()
        with open(path, encoding="utf-8") as it:
            text = it.read()
        self.read(text.split("\n"))

    def read(self, lines):
        name = None
        for line in lines:
            bare = line.split("--")[0].rstrip()
            if not bare:
                continue
            if re.match(r"^(pub )?(ghost )?use ", bare):
                self.imports(bare)
                continue
            if re.match(r"^(infix|pub mod|mod) ?", bare):
                continue
            if not bare[0].isspace():
                name = self.head(bare, name)
            if name is not None:
                self.definitions.setdefault(name, []).append(bare)

    def head(self, line, last):
        """The definition to which a line at the margin belongs: one that begins, or one more clause of a function."""
        first = HEAD.match(line)
        if first:
            return token_of(first.group(1))
        for word in SPLIT.split(line):
            if word in self.definitions:
                return word
        return last


def token_of(name):
    """An operator is used without the places of its operands."""
    return name.replace("◌", " ").split()[0] if "◌" in name and name.replace("◌", " ").split() else name


class Reader:
    def __init__(self):
        self.files = {}
        self.reached = {}
        self.types = set()
        self.library = set()

    def file(self, module):
        """The file that a module names, if it is one of this repository's specs."""
        parts = module.split(".")
        if len(parts) < 3 or parts[1] != "specs":
            return None
        if module not in self.files:
            path = os.path.join(TOP, "crates", parts[0], "specs", *parts[2:]) + ".antt"
            self.files[module] = File(path) if os.path.isfile(path) else None
        return self.files[module]

    def reach(self, module, name):
        parts = module.split(".")
        if "declared" in parts:
            if os.path.isdir(os.path.join(TOP, "crates", parts[0])):
                at = parts.index("declared")
                # A type's name, or that of the module of its variants.
                self.types.add(".".join([parts[0]] + [it for it in parts[at + 1:] if not it.startswith("The")]))
            return
        it = self.file(module)
        if it is None:
            self.library.add((module, name))
            return
        if name in it.again and name not in it.definitions:
            return self.reach(*it.again[name])
        if name not in it.definitions or (module, name) in self.reached:
            return
        lines = it.definitions[name]
        self.reached[(module, name)] = len(lines)
        self.follow(it, module, lines)

    def follow(self, it, module, lines):
        for line in lines:
            for word in SPLIT.split(line):
                self.word(it, module, word)

    def word(self, it, module, word):
        parts = word.split(".")
        if parts[0] in it.aliases and len(parts) > 1:
            self.reach(it.aliases[parts[0]], parts[1])
        elif parts[0] in it.names:
            self.reach(*it.names[parts[0]])
        elif parts[0] in it.definitions:
            self.reach(module, parts[0])


def clauses(text):
    """The contract of `run`: from its name up to its body."""
    begin = text.index("pub fn run<")
    return text[begin:text.index("\n{\n", begin)].split("\n")


def lines_of_run():
    """The text of the file that has `run`, and the lines of its contract without comments."""
    with open(os.path.join(TOP, ROOT), encoding="utf-8") as it:
        text = it.read()
    return text, [it.split("//")[0] for it in clauses(text)]


def read_run():
    """All that the contract of `run` leads to."""
    sys.setrecursionlimit(10000)
    text, lines = lines_of_run()
    root = Imports()
    for line in text.split("\n"):
        root.imports(line)
    reader = Reader()
    reader.follow(root, "", lines)
    return reader


def main():
    reader = read_run()
    _, lines = lines_of_run()
    if "--list" in sys.argv[1:]:
        for (module, name), count in reader.reached.items():
            crate, _, *file = module.split(".")
            print(f"{crate}/specs/{'/'.join(file)}.antt {name} {count}")
    crates = {module.split(".")[0] for module, _ in reader.reached}
    files = {module for module, _ in reader.reached}
    clause_lines = sum(1 for it in lines if it.strip().startswith(("requires", "ensures")))
    print(f"clauses of run: {clause_lines}")
    print(f"definitions: {len(reader.reached)} in {len(files)} files of {len(crates)} crates")
    print(f"lines: {sum(reader.reached.values())}")
    print(f"types declared in code: {len(reader.types)}")
    print(f"definitions of the kit, not counted: {len(reader.library)}")


if __name__ == "__main__":
    main()
