#!/usr/bin/env python3
"""definitions.py [--write]: draws docs/DEFINITIONS.md from the comments above the definitions; docs.sh compares the two.

A definition is on the page where contracts of public functions of two crates beside its own cite it, or where the run theorem reaches
it, as trusted.py finds those. With it stands the first sentence of the comment right above it. One without a comment stands by its name alone, and
its file with the first sentence of the comment that the file begins with.
Without --write the page is printed."""
import glob
import os
import re
import sys

sys.dont_write_bytecode = True
import trusted

TOP = os.path.abspath(trusted.TOP)
PAGE = "docs/DEFINITIONS.md"
FN = re.compile(r"^(\s*)(pub(?:\([a-z]+\))? )?(?:const |unsafe )*fn ")
OWNER = re.compile(r"^(?:pub )?(?:trait|impl\b.* for|impl|struct|enum|mod|macro_rules!) ?")
METHODS = re.compile(r"^(?:pub trait|impl\b.* for) ")
CLAUSE = re.compile(r"^\s*(?:requires|ensures)\b")
# Two dots, as in `1, 2, ..`, end no sentence.
END = re.compile(r"(?<!\.)\.(?:\s|$)")
HEAD = """# Definitions

Drawn from the comments in `crates/*/specs` by `bench/definitions.py --write`, and compared by `bench/docs.sh`.

**Which are here:** those that the run theorem reaches (`bench/trusted.py --list`), and those that contracts of public functions of two
crates beside their own cite. Each has the first sentence of the comment right above it. Those without a comment stand by name, behind
*also*; what their file is about stands beside the file then. The others stand in their crate's `specs/`, with their comments.
[THEOREM.md](THEOREM.md) has an order in which to read those of the theorem.
"""


def clause_lines(lines):
    """The lines of the clauses of public functions: of `pub fn`, of the methods of public traits and of those of their impls."""
    owner, is_public, depth = "", False, 0
    for line in lines:
        code = line.split("//")[0]
        if depth == 0:
            if OWNER.match(code):
                owner = code
            found = FN.match(code)
            if found:
                is_method = bool(found.group(1)) and METHODS.match(owner)
                is_public = found.group(2) == "pub " or bool(is_method and not found.group(2))
        if depth > 0 or CLAUSE.match(code):
            depth += code.count("{") - code.count("}")
            if is_public:
                yield code


def words_of(imports, lines):
    """The definitions that lines name, each as its module and its name there."""
    for line in lines:
        for word in trusted.SPLIT.split(line):
            first, _, rest = word.partition(".")
            if rest and first in imports.aliases:
                yield imports.aliases[first], rest.split(".")[0]
            elif first in imports.names:
                yield imports.names[first]


def origin(reader, module, name):
    """Where a definition stands that a module may only hand on; none where it is the kit's or is declared in code."""
    it = None if "declared" in module.split(".") else reader.file(module)
    while it is not None and name in it.again and name not in it.definitions:
        module, name = it.again[name]
        it = reader.file(module)
    return (module, name) if it is not None and name in it.definitions else None


def cited(reader):
    """Each definition with the crates that have a public function whose contract cites it."""
    found = {}
    for path in glob.glob(os.path.join(TOP, "crates/*/src/**/*.rt"), recursive=True):
        crate = os.path.relpath(path, os.path.join(TOP, "crates")).split(os.sep)[0]
        lines = lines_of(path)
        imports = trusted.Imports()
        for line in lines:
            imports.imports(line)
        for module, name in words_of(imports, clause_lines(lines)):
            stands = origin(reader, module, name)
            if stands:
                found.setdefault(stands, set()).add(crate)
    return found


def lines_of(path):
    with open(os.path.join(TOP, path), encoding="utf-8") as it:
        return it.read().split("\n")


def first_comment(lines):
    """What a file is about."""
    for at, line in enumerate(lines):
        if not line.startswith("--"):
            return sentence(" ".join(it[2:].strip() for it in lines[:at]))
    return ""


def comments(lines):
    """The definitions of a file in their order, each with the comment right above it."""
    above = []
    for line in lines:
        head = trusted.HEAD.match(line)
        if head:
            yield trusted.token_of(head.group(1)), " ".join(above)
        above = above + [line[2:].strip()] if line.startswith("--") else []


def sentence(comment):
    end = END.search(comment)
    return (comment[:end.start()] if end else comment).rstrip(".:")


def crate_of(module):
    return module.split(".")[0]


def crates_in_order():
    lines = [line for line in lines_of("crates.txt") if ":" in line and not line.startswith("#")]
    return [re.split(r"[\s:]", line)[0] for line in lines]


def of_file(crate, module, names):
    path = os.path.join("crates", crate, "specs", *module.split(".")[2:]) + ".antt"
    lines = lines_of(path)
    told, bare = [], []
    for name, comment in comments(lines):
        if name in names:
            names = names - {name}
            if comment:
                told.append(f"- `{name}`: {sentence(comment)}")
            else:
                bare.append(f"`{name}`")
    head = f"[{'/'.join(module.split('.')[2:])}](../{path})"
    if bare:
        told.append("- *also* " + ", ".join(bare))
        head += f": {first_comment(lines)}"
    return [head, ""] + told + [""]


def page():
    reader = trusted.read_run()
    chosen = {it for it, crates in cited(reader).items() if len(crates - {crate_of(it[0])}) > 1} | set(reader.reached)
    lines = HEAD.split("\n")
    for crate in crates_in_order():
        modules = sorted({module for module, _ in chosen if crate_of(module) == crate})
        if modules:
            lines += [f"## {crate}", ""]
        for module in modules:
            lines += of_file(crate, module, {name for at, name in chosen if at == module})
    return "\n".join(lines).rstrip("\n") + "\n"


def main():
    if "--write" not in sys.argv[1:]:
        print(page(), end="")
        return
    with open(os.path.join(TOP, PAGE), "w", encoding="utf-8") as it:
        it.write(page())


if __name__ == "__main__":
    main()
