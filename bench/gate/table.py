"""The table of what the gate takes, crate by crate, and its longest chain."""
import os
import platform

from figures import BUILDS, EDITS, PROOF, SEED, TESTS

PARTS = (PROOF, TESTS, BUILDS, SEED, EDITS)


def seconds_of(figures, name, part):
    """What all processes of a part of a crate took."""
    return sum(it.seconds for it in figures.values() if it.crate == name and it.part == part)


def longest_chain(crates, took):
    """The crates that are proved one after another and take most together, from the lowest: what is below must be proved first."""
    best = {}
    for crate in crates:
        below = max((best[it.name] for it in crate.deps), default=(0, []))
        best[crate.name] = below[0] + took[crate.name, PROOF], [*below[1], crate.name]
    return max(best.values(), default=(0, []))


def row(cells):
    return "| " + " | ".join(str(it) for it in cells) + " |\n"


def number(seconds):
    return f"{seconds:,.0f}" if seconds else ""


def processor():
    """What the system calls its processors."""
    with open("/proc/cpuinfo", encoding="utf-8") as it:
        named = [line.partition(":")[2].strip() for line in it if line.startswith("model name")]
    return f"{os.cpu_count()} processors ({named[0] if named else platform.machine()})"


def table_of(crates, figures, texts):
    """The page, from the newest figure of each part."""
    crates = sorted(crates, key=lambda it: len(it.below()))
    took = {(it.name, part): seconds_of(figures, it.name, part) for it in crates for part in PARTS}
    old = {it.crate for it in figures.values() if it.crate in texts and it.text != texts[it.crate]}
    runs = sorted({it.run[:10] for it in figures.values()})
    tried = {it.name: sum(told.crate == it.name and told.part == EDITS for told in figures.values()) for it in crates}
    of = {part: sum(took[it.name, part] for it in crates) for part in PARTS}
    other = sum(it.seconds for it in figures.values() if it.crate not in texts)
    whole = sum(of.values()) + other
    length, chain = longest_chain(crates, took)
    page = "# What the gate takes\n\n"
    page += "Processor seconds (user and system, of whole process trees), over libraries that were proved before. Made by `bench/gate/run.sh`.\n"
    page += f"Measured {' to '.join(dict.fromkeys([runs[0], runs[-1]])) if runs else 'never'} on {processor()}.\n\n"
    page += "| part | seconds | minutes |\n|---|---|---|\n"
    said = {PROOF: "proofs", TESTS: "tests: their proofs and builds", BUILDS: "builds of programs", SEED: "must-fail edits: what they begin with", EDITS: f"must-fail edits: {sum(tried.values())} tries"}
    for part in PARTS:
        page += row([said[part], number(of[part]), f"{of[part] / 60:.1f}"])
    page += row(["all else: formats, runs, the gate itself", number(other), f"{other / 60:.1f}"])
    page += row(["**all**", f"**{whole:,.0f}**", f"**{whole / 60:.1f}**"])
    lacking = [it.name for it in crates if not took[it.name, PROOF]]
    if lacking:
        page += f"\nProofs that aren't measured yet: {', '.join(f'`{it}`' for it in lacking)}.\n"
    if old:
        page += f"\nMeasured of an earlier text: {', '.join(f'`{it}`' for it in sorted(old))}.\n"
    page += "\n## The longest chain\n\nEach crate waits for the proof of the one before it.\n\n| crate | proof | so far |\n|---|---|---|\n"
    sofar = 0
    for name in chain:
        sofar += took[name, PROOF]
        page += row([f"`{name}`", number(took[name, PROOF]), number(sofar)])
    page += f"\n{len(chain)} crates, {length:,.0f} seconds ({length / 60:.1f} minutes): however many processors there are, the proofs take no less.\n"
    page += "\n## Crate by crate\n\nFrom the lowest up.\n\n| crate | proof | tests | builds | seed | edits | tries | all |\n|---|---|---|---|---|---|---|---|\n"
    for it in crates:
        cells = [took[it.name, part] for part in PARTS]
        page += row([f"`{it.name}`", *map(number, cells), tried[it.name] or "", number(sum(cells))])
    return page
