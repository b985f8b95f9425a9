"""The repository and its crates, as crates.txt lists them."""
import os
import subprocess


def repository():
    """The top of the repository, where crates.txt stands."""
    here = os.path.dirname(os.path.realpath(__file__))
    told = subprocess.run(["git", "-C", here, "rev-parse", "--show-toplevel"], capture_output=True, text=True)
    return told.stdout.strip() or os.path.dirname(here)


class Crate:
    """A line of crates.txt: a crate, and those of the repository that it uses."""

    def __init__(self, top, line):
        said, _, used = line.partition(":")
        self.line, self.name, self.used = line, said.split()[0], used.split()
        self.folder, self.deps = f"{top}/crates/{self.name}", []

    def below(self):
        """The names of all crates of the repository that it rests on."""
        return {it.name for it in self.deps}.union(*(it.below() for it in self.deps))

    def edits(self, part):
        """The files of wrong bodies in audit/ or must-fail/."""
        at = f"{self.folder}/{part}"
        return [f"{at}/{it}" for it in sorted(os.listdir(at)) if it.endswith(".edit")] if os.path.isdir(at) else []

    def has_tests(self):
        """Whether a file of it has a test function."""
        for at, _, files in os.walk(f"{self.folder}/src"):
            for file in files:
                with open(f"{at}/{file}", encoding="utf-8") as it:
                    if "#[test]" in it.read():
                        return True
        return False


def crates_of(top):
    """The crates, lowest first."""
    with open(f"{top}/crates.txt", encoding="utf-8") as it:
        found = [Crate(top, line) for line in it.read().splitlines() if ":" in line and not line.startswith("#")]
    named = {it.name: it for it in found}
    for crate in found:
        crate.deps = [named[it] for it in crate.used if it in named]
    return sorted(found, key=lambda it: len(it.below()))
