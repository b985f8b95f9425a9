#!/usr/bin/env python3
"""names.py: lists the names in backquotes of README.md, docs/ and the crates' READMEs that aren't in the repository; docs.sh runs it.

What counts as a name: a word with an underscore or with a capital inside, a word that stands alone in its backquotes, and a path. It is in
the repository where code, a definition, a proof, a script, a case, or the name of a file has it; comments don't count. Blocks of code are
passed over, since docs.py compares them, and so are words of capitals alone or of two letters, which stand for something. Words that are meant
otherwise stand in OTHERS."""
import glob
import os
import re
import sys

TOP = os.path.abspath(os.path.join(os.path.dirname(os.path.abspath(__file__)), ".."))
PAGES = ["README.md", "docs/*.md", "crates/*/README.md", "bench/*/README.md"]
SPAN = re.compile(r"`([^`\n]+)`")
WORD = re.compile(r"[A-Za-z_][A-Za-z0-9_]*(?:-[A-Za-z0-9_]+)*")
PATH = re.compile(r"^[\w./*-]*(?:/[\w.*-]+|\.(?:rt|antt|md|py|sh|txt|tsv|svg|edit|go))/?$")
NAMED = re.compile(r"_|[a-z0-9][A-Z]")
COMMENTS = {".rt": "//", ".antt": "--", ".py": "#", ".sh": "#"}
# Words of the kit, of the system, and of the files that the prover leaves.
OTHERS = set("rattle-kit-13f start_lib sched_vcpu_pack realloc Lts Proof Tie".split())


def files():
    for folder, folders, names in os.walk(TOP):
        folders[:] = [it for it in folders if it not in (".git", "out", "__pycache__")]
        for name in names:
            yield os.path.join(folder, name)


def known():
    """All words of the repository's files but of its pages, and the paths of all files and folders."""
    words, paths = set(), set()
    for path in files():
        below = os.path.relpath(path, TOP)
        parts = below.split(os.sep)
        for at in range(len(parts)):
            paths.add("/".join(parts[:at + 1]))
            words.update(WORD.findall(parts[at]))
            words.add(os.path.splitext(parts[at])[0])
        if not path.endswith(".md"):
            words.update(words_in(path))
    return words, paths


def words_in(path):
    mark = COMMENTS.get(os.path.splitext(path)[1])
    with open(path, encoding="utf-8", errors="replace") as it:
        for line in it:
            code = line.split(mark)[0] if mark else line
            for word in WORD.findall(code):
                yield word
                yield from word.split("-")


def spans(page):
    """The words in backquotes of a page, with their lines, but for those in blocks of code."""
    is_block = False
    with open(os.path.join(TOP, page), encoding="utf-8") as it:
        for number, line in enumerate(it, 1):
            if line.startswith("```"):
                is_block = not is_block
            elif not is_block and not line.startswith("    "):
                for span in SPAN.findall(line):
                    yield number, span


def is_there(path, page, paths):
    """A path from the top, from the page's folder, or the end of one that is there; stars stand for anything."""
    wanted = path.rstrip("/")
    if "*" in wanted:
        shape = re.compile("(?:.*/)?" + re.escape(wanted).replace(r"\*", ".*") + "$")
        return any(shape.match(it) for it in paths)
    beside = os.path.normpath(os.path.join(os.path.dirname(page), wanted))
    return wanted in paths or beside in paths or any(it.endswith("/" + wanted) for it in paths)


def lost(page, words, paths):
    for number, span in spans(page):
        if span in OTHERS:
            continue
        if PATH.match(span) and " " not in span:
            if not is_there(span, page, paths) and not set(WORD.findall(span)) <= words:
                yield number, span
            continue
        found = WORD.findall(span)
        for word in found:
            is_name = len(word) > 2 and (NAMED.search(word) or (found == [span] and word != word.upper()))
            if is_name and word not in words and word not in OTHERS:
                yield number, word


def faults(pages=None):
    words, paths = known()
    told = []
    for shape in pages or PAGES:
        for path in sorted(glob.glob(os.path.join(TOP, shape))):
            page = os.path.relpath(path, TOP)
            told += [f"{page}:{number}: `{name}` isn't in the repository" for number, name in lost(page, words, paths)]
    return told


def main():
    told = faults()
    for it in told:
        print(it)
    return 1 if told else 0


if __name__ == "__main__":
    sys.exit(main())
