"""Runs the gate, and notes what each process that it starts takes."""
import datetime
import os
import resource
import subprocess
import sys
import time

sys.dont_write_bytecode = True
sys.path.insert(0, os.path.dirname(os.path.dirname(os.path.realpath(__file__))))
from crates import crates_of, repository
from figures import BUILDS, EDITS, OTHER, PROOF, SEED, TESTS, Figure, read, standing, text_sum, write
from table import table_of

# How often the processes are looked at, in seconds: what one takes after it was last looked at counts as "all else".
PAUSE = 0.25
TICKS = os.sysconf("SC_CLK_TCK")


def part_of(words, folder):
    """Of which crate and part a process is, and which of its processes; None where it is of none."""
    tool, verb = os.path.basename(words[0]), (words + [""])[1]
    if tool == "rattle-link" and "-o" in words:
        made, name = os.path.basename(words[words.index("-o") + 1]), os.path.basename(folder)
        return name, TESTS if made == f"{name}_tests" else BUILDS, "link"
    if tool != "rattle" or verb not in ("check", "build") or "--crate-name" not in words:
        return None
    behind = lambda word: words[words.index(word) + 1]
    name = behind("--crate-name")
    if "/rt-edit-" in f"{folder}/":
        kept = os.path.basename(behind("--incremental")) if "--incremental" in words else "alone"
        return (name, SEED, verb) if kept == "seed" else (name, EDITS, kept)
    if "--crate-checked" in words:
        return name, BUILDS, behind("--backend")
    return name, TESTS if "--test" in words else PROOF, verb


def bytes_of(path):
    """What a file of /proc has, or nothing where its process has ended."""
    try:
        with open(path, "rb") as it:
            return it.read()
    except OSError:
        return b""


class Watch:
    """The processes below one: of what part each is, and what it took so far itself."""

    def __init__(self, root, note):
        self.root, self.note, self.running, self.parts, self.noted = root, note, {}, {}, 0.0

    def look(self):
        """Looks at all of them once, and notes those that have ended since."""
        parents, seen = {}, {}
        for pid in filter(str.isdigit, os.listdir("/proc")):
            fields = bytes_of(f"/proc/{pid}/stat").rpartition(b")")[2].split()
            if fields:
                # (its parent, when it began, and its user and system time)
                parents[pid] = fields[1].decode(), fields[19], sum(map(int, fields[11:13])) / TICKS
        for pid, (_, began, seconds) in parents.items():
            below, part = self.place(pid, parents)
            if below:
                seen[pid, began] = part or self.running.get((pid, began), (None, 0))[0], seconds
        for key in self.running.keys() - seen.keys():
            self.end(*self.running[key])
        self.running = seen

    def place(self, pid, parents):
        """Whether a process is below the one that is watched, and of what part: its own, or that of the nearest above it."""
        part = None
        while pid in parents and pid != self.root:
            part = part or self.part(pid, parents[pid][1])
            pid = parents[pid][0]
        return pid == self.root, part

    def part(self, pid, began):
        """What its words say; a process may get others as it goes."""
        if not self.parts.get((pid, began)):
            words = bytes_of(f"/proc/{pid}/cmdline").decode(errors="replace").split("\0")[:-1]
            try:
                self.parts[pid, began] = part_of(words, os.readlink(f"/proc/{pid}/cwd")) if words else None
            except OSError:
                return None
        return self.parts[pid, began]

    def end(self, part, seconds):
        if part:
            self.noted += seconds
            self.note(*part, seconds)

    def follow(self, process):
        """Looks until the process has ended; its exit status."""
        while process.poll() is None:
            self.look()
            time.sleep(PAUSE)
        for it in self.running.values():
            self.end(*it)
        return process.returncode


class Timer:
    """Notes each process that ends, in the file of raw figures as it goes."""

    def __init__(self, path, texts):
        self.path, self.texts = path, texts
        self.run = datetime.datetime.now().isoformat("T", "seconds")
        write(path, read(path))

    def note(self, name, part, what, seconds):
        told = Figure(self.run, name, part, what, f"{seconds:.3f}", self.texts.get(name, ""))
        with open(self.path, "a", encoding="utf-8") as it:
            it.write("\t".join(told) + "\n")


def run(words, timer):
    """Runs the gate with these words, each process timed; what is of no crate is noted of a gate of all crates alone."""
    before = resource.getrusage(resource.RUSAGE_CHILDREN)
    process = subprocess.Popen(["rt", "ci", *words])
    watch = Watch(str(process.pid), timer.note)
    status = watch.follow(process)
    after = resource.getrusage(resource.RUSAGE_CHILDREN)
    whole = after.ru_utime + after.ru_stime - before.ru_utime - before.ru_stime
    if all(it.startswith("-") for it in words):
        timer.note("", OTHER, "rt", max(whole - watch.noted, 0.0))
    write(timer.path, read(timer.path))
    return status


def main(words):
    top = repository()
    os.chdir(top)
    raw, page = f"{top}/bench/results/gate.tsv", f"{top}/bench/results/gate.md"
    crates = crates_of(top)
    texts = {it.name: text_sum(top, it.name, it.line) for it in crates}
    status = run(words, Timer(raw, texts)) if words != ["--table"] else 0
    write(raw, standing(read(raw), crates))
    with open(page, "w", encoding="utf-8") as it:
        it.write(table_of(crates, read(raw), texts))
    print(f"gate: {os.path.relpath(page, top)}", file=sys.stderr)
    return status


if __name__ == "__main__":
    sys.exit(main(sys.argv[1:]))
