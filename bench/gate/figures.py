"""What parts of the gate took, in processor seconds: kept as lines of a file, of which the newest of each part counts."""
import collections
import hashlib
import os

# What a crate is measured by, in the order of the table.
PROOF, TESTS, BUILDS, SEED, EDITS, OTHER = "proof", "tests", "builds", "seed", "edits", "other"
HEAD = ("run", "crate", "part", "what", "seconds", "text")

Figure = collections.namedtuple("Figure", HEAD)


def text_sum(top, name, line):
    """A sum of what a crate's proof and its edits are read from, but for the crates below it."""
    made = hashlib.sha256(line.encode())
    for part in ("src", "specs", "proofs"):
        for at, folders, files in os.walk(f"{top}/crates/{name}/{part}"):
            folders.sort()
            for file in sorted(files):
                with open(f"{at}/{file}", "rb") as it:
                    made.update(f"{part}/{file}\n".encode() + it.read())
    return made.hexdigest()[:8]


def read(path):
    """The newest figure of each part: what one run told of it in several processes is added up."""
    newest = {}
    if os.path.isfile(path):
        with open(path, encoding="utf-8") as it:
            for line in it.read().splitlines()[1:]:
                add(newest, Figure(*line.split("\t")))
    return newest


def add(newest, told):
    """Adds a process of a run to its part, or begins the part anew where the run is another one."""
    key, told = (told.crate, told.part, told.what), told._replace(seconds=float(told.seconds))
    was = newest.get(key)
    if was and was.run == told.run:
        told = told._replace(seconds=was.seconds + told.seconds)
    newest[key] = told


def standing(newest, crates):
    """Those of the figures whose part the gate still has: a crate that is gone costs nothing, nor do tests or wrong bodies that are."""
    named = {it.name: it for it in crates}
    return {key: told for key, told in newest.items() if not told.crate or (told.crate in named and has_part(named[told.crate], told))}


def has_part(crate, told):
    """Whether a crate still has what was measured. Tries of wrong bodies are told by their numbers."""
    edits = len(crate.edits("must-fail"))
    return {TESTS: crate.has_tests(), SEED: edits > 0, EDITS: told.what.isdigit() and int(told.what) < edits}.get(told.part, True)


def write(path, newest):
    """Writes the figures, one line each, in place of what the file had."""
    with open(f"{path}.new", "w", encoding="utf-8") as it:
        it.write("\t".join(HEAD) + "\n")
        for told in sorted(newest.values(), key=lambda it: (it.crate, it.part, it.what)):
            it.write("\t".join([*told[:4], f"{told.seconds:.2f}", told.text]) + "\n")
    os.replace(f"{path}.new", path)
