"""The figures of the documents that a script can take, each with the place that says it. tests/layout asks."""

import glob
import re
import shutil
import subprocess

ONES = "zero one two three four five six seven eight nine ten eleven twelve thirteen fourteen fifteen sixteen seventeen eighteen nineteen".split()
TENS = "twenty thirty forty fifty sixty seventy eighty ninety".split()
WORDS = {word: number for number, word in enumerate(ONES)}
WORDS |= {f"{ten}-{ONES[one]}" if one else ten: 20 + 10 * place + one for place, ten in enumerate(TENS) for one in range(10)}


def read(path):
    with open(path, encoding="utf-8") as file:
        return file.read()


def number_of(text):
    """A number in digits or in words."""
    text = text.lower().replace(",", "")
    return int(text) if text.isdigit() else WORDS.get(text)


def crates(layer=""):
    """How many crates stand in crates.txt, or in the part of it that has this heading."""
    text = read("crates.txt")
    return len(re.findall(r"^\w+(?: staticlib)?:", text.partition(f"\n# {layer}\n")[2] if layer else text, re.M))


def counted(pattern, *paths):
    """How often a line so stands in these files."""
    return sum(len(re.findall(pattern, read(path), re.M)) for path in paths)


def kit():
    """What `rt` says of itself: the kit's name, and that of its logic; None where it is not on the path."""
    if not shutil.which("rt"):
        return None
    return subprocess.run(["rt", "--version"], capture_output=True, text=True, check=True).stdout.split()


def figures():
    """Each document, what it says around a figure, and the figure."""
    commands = counted(r"_COMMAND: CommandRow = ", "crates/command_line/src/command_table.rt")
    conformance = counted(r"^case ", "tests/conformance/cases.txt")
    named = len(glob.glob("crates/*/must-fail/*.edit"))
    others = counted(r"^name: ", *glob.glob("crates/*/wrong-bodies.edits"))
    cases = len(glob.glob("tests/cases/**/args", recursive=True))
    yield "README.md", r"There are ([\w-]+) commands", commands
    yield "docs/ARCHITECTURE.md", r"([\w-]+) crates, [\w-]+ of them for tests", crates()
    yield "docs/ARCHITECTURE.md", r"crates, ([\w-]+) of them for tests", crates("tests")
    yield "docs/PERFORMANCE.md", r"the (\d+) wrong bodies that it tries", named
    yield "docs/PERFORMANCE.md", r"wrong bodies, some ([\d,]+), take", round(others, -2)
    yield "docs/PROOFS.md", r"the (\d+) cases and the transcripts", cases
    yield "docs/TESTING.md", r"are (\d+) rules of", conformance
    yield "crates/conformance_command/README.md", r"keeps all (\d+) cases", conformance


def faults():
    """Each figure that is not so, or no longer said."""
    for path, pattern, figure in figures():
        said = re.search(pattern.replace(" ", r"\s+"), read(path))
        if not said:
            yield f"{path}: nothing says {pattern}"
        elif number_of(said[1]) != figure:
            yield f"{path}: {said[0]}: {figure}"
    found = kit()
    if found:
        # a later kit of the same number proves the same, by the same logic
        least = re.search(r"`(rattle-kit-[0-9]+)([a-z])` or later", read("README.md"))
        if not least or not found[0].startswith(least[1]) or found[0] < f"{least[1]}{least[2]}":
            yield f"README.md: the kit here is {' '.join(found)}"
        if f"`{found[2]}`" not in read("docs/PROOFS.md"):
            yield f"docs/PROOFS.md: the kit here is {' '.join(found)}"
