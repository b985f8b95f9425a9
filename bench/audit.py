"""Tries wrong bodies in a scratch copy, and tells how each is refused (see audit.sh)."""
import argparse
import collections
import concurrent.futures
import os
import re
import resource
import shutil
import signal
import subprocess
import sys
import tempfile

sys.dont_write_bytecode = True
from crates import crates_of, repository
from edits import Edit, batches_of, texts_of, why_not

CLAUSE, SHAPE, NAME, MISSED, UNKNOWN = "a", "b", "c", "d", "-"
SORTS = (CLAUSE, SHAPE, NAME, MISSED, UNKNOWN)
# What of a crate a check reads, and where it keeps what it proved.
PARTS = ("src", "specs", "proofs", "out")

# A line of the prover at a place of a file; what it says of a goal that is left; and a proof file's complaint of a name that is gone, or
# of what cites such a proof.
AT = re.compile(r"(?:note: )?(?:\./)?((src|specs|proofs)/\S+?):(\d+):\d+:")
LEFT = re.compile(r"it is not proved that|: error")
GONE = re.compile(r"has no field|is not in scope|has no `|was not admitted")
# What a check says of a function that `--only` doesn't find, of one that its front end refuses, and of a text that can't be read.
NOT_FOUND = re.compile(r"has no function|fits \d+ functions|fits several")
REJECTED = re.compile(r"\berror\[[\w-]+\]")
UNREAD = re.compile(r"(?:\./)?(?:src|specs)/\S+?:\d+:\d+: error: (?!`)|is no name|operand is missing|expected the end|cannot continue")

Try = collections.namedtuple("Try", "sort said")


class Audit:
    """A scratch copy of the crates that are tried and of those below them, with what `rt check` kept in this checkout."""

    def __init__(self, crates, top, room, said):
        self.top, self.said = room, said and os.path.abspath(said)
        needed = {it.name for it in crates}.union(*(it.below() for it in crates))
        # (it is the top of a repository)
        os.mkdir(f"{room}/.git")
        for file in ("crates.txt", "HANDLES"):
            shutil.copy(f"{top}/{file}", room)
        for name in sorted(needed):
            os.makedirs(f"{room}/crates/{name}")
            there = [f"{top}/crates/{name}/{it}" for it in PARTS if os.path.isdir(f"{top}/crates/{name}/{it}")]
            subprocess.run(["cp", "-a", "--reflink=auto", *there, f"{room}/crates/{name}"], check=True)
        listed = [it.line for it in crates_of(top) if it.name in needed]
        with open(f"{room}/crates.txt", "w", encoding="utf-8") as it:
            it.write("\n".join(listed) + "\n")

    def check(self, crate, texts, edits):
        """Checks the crate with these texts: the functions that the edits change, or all of it where there are none."""
        folder = f"{self.top}/crates/{crate.name}"
        names = dict.fromkeys(one.name for it in edits for one in it.functions)
        words = ["rt", "check", "--jobs", "1", *(word for it in names for word in ("--only", it))]
        kept = {}
        for path, text in texts.items():
            with open(f"{folder}/{path}", encoding="utf-8") as it:
                kept[path] = it.read()
            write(f"{folder}/{path}", text)
        try:
            for _ in range(2):
                ran = subprocess.run(words, cwd=folder, stdin=subprocess.DEVNULL, stdout=subprocess.PIPE, stderr=subprocess.STDOUT, text=True, errors="replace")
                # (else most likely for memory)
                if ran.returncode != -signal.SIGKILL:
                    break
        finally:
            for path, text in kept.items():
                write(f"{folder}/{path}", text)
        return ran

    def begin(self, crate):
        """Has the crate and those below it proved as they stand."""
        ran = self.check(crate, {}, [])
        if ran.returncode:
            print(ran.stdout[-2000:], file=sys.stderr)
        return not ran.returncode

    def attempt(self, crate, batch):
        """What the edits of a list come to, by edit: they are tried in one check, and those of which it tells nothing alone."""
        texts = texts_of(batch) if len(batch) > 1 else {}
        if not texts:
            return {it: self.alone(crate, it) for it in batch}
        ran = self.check(crate, texts, batch)
        self.keep(ran, [it.name for it in batch], crate)
        tried = {it: fall(ran, it) if ran.returncode == 1 else None for it in batch}
        return {it: Try(*found) if found else self.alone(crate, it) for it, found in tried.items()}

    def alone(self, crate, edit):
        """What one edit comes to. What is proved of its functions alone is tried once more of the whole crate."""
        why = why_not(edit)
        if why:
            return Try(UNKNOWN, why)
        for some in ([edit], []) if edit.functions else ([],):
            ran = self.check(crate, texts_of([edit]), some)
            if ran.returncode and not (ran.returncode == 2 and NOT_FOUND.search(ran.stdout)):
                break
        self.keep(ran, [edit.name], crate)
        return Try(*sort_of(ran))

    def keep(self, ran, names, crate):
        """Leaves what the prover said where it was asked for."""
        for name in names if self.said else ():
            os.makedirs(self.said, exist_ok=True)
            write(f"{self.said}/{crate.name}.{name}.txt", ran.stdout)

    def tries_of(self, crate, edits, is_whole):
        """What the edits of a crate come to: one list of them after another, each over what the ones before it kept."""
        for it in edits if is_whole else ():
            it.functions = []
        if not self.begin(crate):
            return dict.fromkeys(edits, Try(UNKNOWN, "it, or a crate below it, isn't proved as it stands"))
        found = {}
        for batch in batches_of(edits):
            for it, tried in self.attempt(crate, batch).items():
                say(f"{tried.sort}  {it.label}  {tried.said[:200]}")
                found[it] = tried
        return found


def write(path, text):
    with open(path, "w", encoding="utf-8") as it:
        it.write(text)


def sort_of(ran):
    """How a check of one edit refuses it, and by which line."""
    lines = ran.stdout.rstrip("\n").split("\n")
    if not ran.returncode:
        return MISSED, "the crate is still proved"
    bad = next((it for it in lines if REJECTED.search(it) or UNREAD.search(it)), None)
    if ran.returncode != 1 or bad:
        return UNKNOWN, bad or lines[-1]
    return first_of([it for it in lines if AT.match(it) and LEFT.search(it)]) or (UNKNOWN, lines[-1])


def first_of(told):
    """The sort of what the prover says of goals that are left, and the line that shows it."""
    goals = [it for it in told if AT.match(it)[2] == "src"]
    shapes = [it for it in told if not GONE.search(it)]
    for sort, found in ((CLAUSE, goals), (SHAPE, shapes), (NAME, told)):
        if found:
            return sort, found[0]
    return None


def fall(ran, edit):
    """How one of several edits falls in a check, by what the prover says of the functions that it changes, or None where that tells nothing."""
    if REJECTED.search(ran.stdout):
        return None
    is_own = lambda at: any(is_of(at, it) for it in edit.functions)
    lines = ran.stdout.split("\n")
    refused = [it for it in edit.functions if re.search(rf"(?m)^fn (\S+::)?{re.escape(it.name)}: (not proved|no proof)", ran.stdout)]
    return first_of([it for it in lines if AT.match(it) and LEFT.search(it) and is_own(AT.match(it))]) if refused else None


def is_of(at, function):
    """Whether a place is one of the function's body, or of its own proof."""
    if at[2] == "src":
        return at[1] == function.file and function.first <= int(at[3]) <= function.last
    return f"/{function.name.replace('::', '/')}/" in f"/{at[1]}"


def say(text):
    print(text, flush=True)


def edits_of(crate, asked):
    """The crate's edits that are asked for: one is named NAME/EDIT, wherever it stands."""
    found = [Edit(it, crate) for part in ("audit", "must-fail") for it in crate.edits(part)]
    is_whole = not asked.names or crate.name in asked.names
    wanted = lambda it: is_whole and (asked.must_fail or "/audit/" in it.label)
    return [it for it in found if wanted(it) or f"{crate.name}/{it.name}" in asked.names]


def tell_unapplied(crates):
    """Says which edits of both folders can't be applied, and returns how many."""
    every = [Edit(path, it) for it in crates for part in ("audit", "must-fail") for path in it.edits(part)]
    unapplied = [(it, why_not(it)) for it in every if why_not(it)]
    for edit, why in unapplied:
        say(f"{UNKNOWN}  {edit.label}: {why}")
    return len(unapplied)


def counts(tried):
    """How many of the tries fell how, in words."""
    found = collections.Counter(it.sort for it in tried)
    fell = ", ".join(f"{sort} {found[sort]}" for sort in SORTS if found[sort])
    return f"{len(tried)} tried: {fell or 'none'}"


def try_all(top, edits, asked):
    """Tries the edits, crate by crate, RT_JOBS crates at once."""
    jobs = int(os.environ.get("RT_JOBS", max(1, (os.cpu_count() or 1) // 2)))
    with tempfile.TemporaryDirectory(prefix="audit-") as room, concurrent.futures.ThreadPoolExecutor(jobs) as pool:
        audit = Audit(list(edits), top, room, asked.said)
        runs = {crate: pool.submit(audit.tries_of, crate, found, asked.whole) for crate, found in edits.items()}
        return {crate: list(it.result().values()) for crate, it in runs.items()}


def main(words):
    reads = argparse.ArgumentParser(prog="audit.sh", description="Tries the wrong bodies of crates/NAME/audit/.")
    reads.add_argument("--must-fail", action="store_true", help="those of must-fail/ too")
    reads.add_argument("--whole", action="store_true", help="each alone, against the whole crate")
    reads.add_argument("--said", metavar="FOLDER", help="keep what the prover said of each there")
    reads.add_argument("names", nargs="*", metavar="NAME", help="a crate, or NAME/EDIT")
    reads.add_argument("--apply", action="store_true", help="try none: say which of both folders can't be applied")
    asked = reads.parse_args(words)
    top = repository()
    crates = crates_of(top)
    if asked.apply:
        return 1 if tell_unapplied(crates) else 0
    edits = {it: found for it in crates if (found := edits_of(it, asked))}
    known = {it.name for it in crates}.union(f"{crate.name}/{it.name}" for crate, found in edits.items() for it in found)
    lacking = {*asked.names} - known
    if lacking:
        sys.exit(f"audit: there is no {' '.join(sorted(lacking))}")
    tried = try_all(top, edits, asked)
    for crate, found in tried.items():
        say(f"{crate.name}: {counts(found)}")
    every = [it for found in tried.values() for it in found]
    took = resource.getrusage(resource.RUSAGE_CHILDREN)
    say(f"{counts(every)} ({took.ru_utime + took.ru_stime:.0f} processor seconds)")
    return 1 if any(it.sort in (MISSED, UNKNOWN) for it in every) else 0


if __name__ == "__main__":
    sys.exit(main(sys.argv[1:]))
