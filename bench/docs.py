#!/usr/bin/env python3
"""Checks the code blocks of the documents; docs.sh says how it is called.

Each block between ``` has a mark on the line above it, an HTML comment, which says what it is:

  <!-- run -->             commands, run from the top of the repository. They end with status 0, or with N by <!-- run, status N -->
  <!-- prints -->          what the commands above it print on standard output
  <!-- gate -->            the gate itself, which isn't run here: its last line has to be the one that .ci/run runs
  <!-- from FILE: LINE --> an excerpt of that file, which begins with LINE there; a line of dots, `// ..`, leaves lines out
  <!-- text -->            no code

A block indented by four spaces, or one without a mark, is refused. So is a link to a file or a heading that isn't there, a name that isn't in
the repository (names.py), and a page of definitions that isn't the one that definitions.py draws."""
import glob
import os
import re
import subprocess
import sys
import tempfile

sys.dont_write_bytecode = True
import definitions
import names

TOP = os.path.abspath(os.path.join(os.path.dirname(os.path.abspath(__file__)), ".."))
PAGES = ["README.md", "docs/MANUAL.md", "docs/GUIDE.md", "docs/EMBED.md", "docs/THEOREM.md"]
LINKED = ["README.md", "docs/*.md", "crates/*/README.md", "bench/*/README.md"]
MARK = re.compile(r"^<!-- (run|prints|gate|text|from)(?:, status (\d+))?(?: ([^ :]+): (.*?))? -->$")
LINK = re.compile(r"\]\(([^)#\s]*)(?:#([^)\s]*))?\)")
HEADING = re.compile(r"^#+ +(.*?) *$", re.MULTILINE)
SECONDS = 7200
# How many seconds `rt try` gives a command, which takes one: the sixty that it gives by itself don't do on a machine that is full.
ANSWERS = 600
# What `rt try --cases` says of a case: its line, and above it the ends of what was printed, what differs, or why there is no end.
CASE = re.compile(r"(.*?^case=case(\d+) [^\n]*)\n", re.MULTILINE | re.DOTALL)
# Stands for the program, or for `rt try`, as a page is read: it notes its words and its standard input, and prints nothing.
NOTE = """#!/bin/sh
[ "$(basename "$0")" = delos_sim ] || while [ $# -gt 0 ] && [ "$1" != -- ]; do shift; done
[ "${1-}" = -- ] && shift
for word in "$@"; do printf '%s\\n' "$word"; done > "$DOCS_CASE.args"
case "$*" in make*|--help*) : > "$DOCS_CASE" ;; *) cat > "$DOCS_CASE" ;; esac
"""


class Block:
    def __init__(self, page, number, mark, lines):
        self.page, self.number, self.lines = page, number, lines
        self.kind, self.status, self.file, self.first = mark
        self.prints = None

    def where(self):
        return f"{self.page}:{self.number}"


def blocks_of(page, faults):
    """The marked blocks of a page, in order; commands get what is printed below them."""
    with open(os.path.join(TOP, page), encoding="utf-8") as it:
        lines = it.read().split("\n")
    blocks, mark, begin = [], None, None
    for number, line in enumerate(lines, 1):
        if line.startswith("```"):
            if begin is not None:
                if mark is not None:
                    blocks.append(Block(page, begin, mark, lines[begin:number - 1]))
                mark, begin = None, None
                continue
            begin = number
            found = MARK.match(lines[number - 2]) if number > 1 else None
            if found is None:
                faults.append(f"{page}:{number}: a block without a mark")
            else:
                mark = (found.group(1), int(found.group(2) or 0), found.group(3), found.group(4))
        elif begin is None and line.startswith("    ") and line.strip() and not lines[number - 2].strip():
            faults.append(f"{page}:{number}: an indented block, which can have no mark")
    for above, below in zip([None] + blocks, blocks):
        if below.kind == "prints":
            if above is None or above.kind != "run":
                faults.append(f"{below.where()}: nothing above it prints")
            else:
                above.prints = "\n".join(below.lines) + "\n"
    return blocks


def check_excerpt(block, faults):
    """The block's lines stand in the file one after another, from the line that the mark names, with the same indentation throughout."""
    path = os.path.join(TOP, block.file)
    if not os.path.isfile(path):
        faults.append(f"{block.where()}: there is no {block.file}")
        return
    with open(path, encoding="utf-8") as it:
        source = it.read().split("\n")
    begins = [at for at, line in enumerate(source) if line.strip() == block.first.strip()]
    if not begins:
        faults.append(f"{block.where()}: {block.file} has no line '{block.first}'")
    elif not any(is_excerpt(block.lines, source, at) for at in begins):
        faults.append(f"{block.where()}: it isn't what stands in {block.file} from '{block.first}' on")


def is_excerpt(lines, source, at):
    indent = len(source[at]) - len(source[at].lstrip())
    free = False
    for line in lines:
        if line.strip() == "// ..":
            free = True
            continue
        wanted = (" " * indent + line) if line.strip() else ""
        while at < len(source) and source[at].rstrip() != wanted.rstrip():
            if not free:
                return False
            at += 1
        if at == len(source):
            return False
        at, free = at + 1, False
    return True


def commands_of(block):
    return "\n".join(block.lines) + "\n"


def shell(block, path, extra):
    environment = dict(os.environ, PATH=f"{path}:{os.environ['PATH']}" if path else os.environ["PATH"], **extra)
    return subprocess.run(["sh", "-c", commands_of(block)], cwd=TOP, env=environment, capture_output=True, text=True, timeout=SECONDS)


def judge(block, status, printed, faults):
    """Compares the status, and what was printed, where that is told here."""
    if status is not None and status != block.status:
        faults.append(f"{block.where()}: status {status}, and not {block.status}")
    if printed is not None and block.prints is not None and printed != block.prints:
        faults.append(f"{block.where()}: it prints\n{printed}and not\n{block.prints}")
    is_ok = not any(it.startswith(block.where() + ":") for it in faults)
    print(f"{'ok' if is_ok else 'NO'} {block.where()} {block.lines[0]}", flush=True)


def is_of_the_program(block):
    return "delos_sim " in commands_of(block)


def run_program(blocks, program, faults):
    """The commands that run the program. With a built one they are run as they stand, with that one in the place of `rt try`."""
    with tempfile.TemporaryDirectory() as work:
        for name in ("delos_sim", "rt"):
            path = os.path.join(work, name)
            with open(path, "w", encoding="utf-8") as it:
                it.write(NOTE if program is None else as_program(name, program))
            os.chmod(path, 0o755)
        if program is None:
            run_cases(blocks, work, faults)
            return
        for block in blocks:
            done = shell(block, work, {})
            judge(block, done.returncode, done.stdout, faults)


def as_program(name, program):
    drop = "" if name == "delos_sim" else 'while [ "$1" != -- ]; do shift; done; shift\n'
    return f"#!/bin/sh\n{drop}exec '{program}' \"$@\"\n"


def run_cases(blocks, work, faults):
    """`rt try --cases` builds the program once, with no proof, runs it for each noted case, and compares what it prints."""
    cases = os.path.join(work, "cases")
    os.mkdir(cases)
    for at, block in enumerate(blocks):
        case = os.path.join(cases, f"case{at:02}")
        shell(block, work, {"DOCS_CASE": case})
        with open(case + ".stdout", "w", encoding="utf-8") as it:
            it.write(block.prints or "")
    words = ["rt", "try", "--seconds", str(ANSWERS), "--cases", cases, "--"]
    done = subprocess.run(words, cwd=os.path.join(TOP, "crates/delos_sim"), capture_output=True, text=True, timeout=SECONDS)
    told = done.stdout + done.stderr
    said = {int(number): text for text, number in CASE.findall(told)}
    if len(said) < len(blocks):
        faults.append(f"rt try ended with status {done.returncode} behind {len(said)} of {len(blocks)} commands:\n{told[-2000:]}")
    for at, block in enumerate(blocks):
        judge_case(block, said.get(at), faults)


def judge_case(block, said, faults):
    """Judges a command by what `rt try` says of its case, if anything. A run that came to no end has no status there."""
    line = said.rpartition("\n")[2] if said else ""
    status = re.search(r" run=ended status=(\d+) ", line)
    if not said:
        faults.append(f"{block.where()}: it wasn't run")
    elif not status:
        faults.append(f"{block.where()}: it came to no end:\n{said}")
    elif " output=expected " not in line:
        faults.append(f"{block.where()}: it prints something else:\n{said}")
    judge(block, status and int(status[1]), None, faults)


def check_links(page, faults):
    path = os.path.join(TOP, page)
    if not os.path.isfile(path):
        faults.append(f"{page}: it isn't there")
        return
    with open(path, encoding="utf-8") as it:
        for target, heading in LINK.findall(it.read()):
            file = os.path.join(os.path.dirname(path), target) if target else path
            if "://" in target:
                continue
            if not os.path.exists(file):
                faults.append(f"{page}: a link to {target}, which isn't there")
            elif heading and heading not in headings_of(file):
                faults.append(f"{page}: a link to {target}#{heading}, a heading which isn't there")


def headings_of(path):
    """The headings of a page, as links name them."""
    with open(path, encoding="utf-8") as it:
        found = HEADING.findall(it.read())
    return {re.sub(r"[^\w\- ]", "", heading.lower()).replace(" ", "-") for heading in found}


def check_definitions(faults):
    with open(os.path.join(TOP, definitions.PAGE), encoding="utf-8") as it:
        if it.read() != definitions.page():
            faults.append(f"{definitions.PAGE}: it isn't what bench/definitions.py draws; with --write it draws it anew")


def main():
    words = sys.argv[1:]
    program = os.path.abspath(words[0]) if words else None
    faults = []
    for shape in LINKED:
        for path in sorted(glob.glob(os.path.join(TOP, shape))):
            check_links(os.path.relpath(path, TOP), faults)
    check_definitions(faults)
    faults += names.faults()
    blocks = [it for page in PAGES if os.path.isfile(os.path.join(TOP, page)) for it in blocks_of(page, faults)]
    with open(os.path.join(TOP, ".ci/run"), encoding="utf-8") as it:
        gate = it.read().rstrip().split("\n")[-1].split(" ", 1)[1]
    for block in blocks:
        if block.kind == "from":
            check_excerpt(block, faults)
        if block.kind == "gate" and block.lines[-1] != gate:
            faults.append(f"{block.where()}: .ci/run runs '{gate}'")
    commands = [it for it in blocks if it.kind == "run"]
    for block in commands:
        if not is_of_the_program(block):
            done = shell(block, None, {})
            judge(block, done.returncode, done.stdout, faults)
    run_program([it for it in commands if is_of_the_program(it)], program, faults)
    counts = {kind: sum(1 for it in blocks if it.kind == kind) for kind in ("run", "prints", "from", "gate", "text")}
    print(", ".join(f"{count} {kind}" for kind, count in counts.items()) + f"; {len(faults)} wrong")
    for fault in faults:
        print(fault, file=sys.stderr)
    return 1 if faults else 0


if __name__ == "__main__":
    sys.exit(main())
