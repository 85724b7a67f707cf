"""The wrong bodies of a crate: a file of them read, and what of the source each one changes.

`crates/NAME/wrong-bodies.edits` has one after another, each as

    name: what_is_wrong
    file: src/verdict.rt
    old: body.len() - HEAD
    new: body.len()

with a line that is empty before the next, and lines that begin with `#` to be read. An old text stands in its file once, as the
pairs before it left that; each text is one line. `whole: WHY` in one of them says that it can't stand beside the right body, and
why. `crates/NAME/must-fail/*.edit` has one a file, with no name in it, which `rt ci` tries too."""

import glob
import os
import re

HEAD = re.compile(r'( *)(?:pub(?:\([a-z ]+\))? )?(?:const )?(?:unsafe )?(?:extern "C" )?fn (\w+)')
BLOCK = re.compile(r" *(?:unsafe )?(impl|(?:pub(?:\([a-z ]+\))? )?trait|(?:pub(?:\([a-z ]+\))? )?mod)\b")
NAME = "wrong-bodies.edits"


class WrongBody:
    """One wrong body: its name, the pairs that make it, each with its file, and why it is tried on the whole crate, if it is."""

    def __init__(self, crate, name, place):
        self.crate, self.name, self.place, self.pairs, self.whole = crate, name, place, [], None

    def __str__(self):
        return f"{self.crate}: {self.name}"

    @property
    def is_tried_by_the_kit(self):
        return "/must-fail/" in self.place


def read(path):
    with open(path, encoding="utf-8") as file:
        return file.read()


def parsed(crate, text, path, name=None):
    """The wrong bodies of a text, in order, and what of it can't be read, each as a line of text."""
    found, faults, file, old = [], [], None, None
    if name:
        found.append(WrongBody(crate, name, f"{path}:1"))
    for number, line in enumerate(text.split("\n"), 1):
        word, _, rest = line.partition(":")
        rest = rest.removeprefix(" ")
        if word == "name" and not name:
            found.append(WrongBody(crate, rest, f"{path}:{number}"))
            file = old = None
        elif not line or line.startswith("#"):
            continue
        elif not found:
            faults.append(f"{path}:{number}: stands before any name")
        elif word == "whole":
            found[-1].whole = rest
        elif word == "file":
            file, old = rest, None
        elif word == "old" and file:
            old = rest
        elif word == "new" and old:
            found[-1].pairs.append((file, old, rest))
            old = None
        else:
            faults.append(f"{path}:{number}: is no line of a wrong body")
    faults += [f"{it.place}: {it.name or 'a wrong body'} changes nothing" for it in found if not it.pairs]
    names = [it.name for it in found]
    faults += [f"{it.place}: another is called {it.name}" for at, it in enumerate(found) if it.name in names[:at]]
    return found, faults


def lost(body):
    """What a wrong body changes that is not there: each old text stands once in its file, as the pairs before it left that."""
    texts = {}
    for file, old, new in body.pairs:
        path = f"crates/{body.crate}/{file}"
        if not os.path.isfile(path):
            return [f"{body.place}: there is no {file}"]
        text = texts.get(file) or read(path)
        if text.count(old) != 1:
            return [f"{body.place}: '{old}' stands {text.count(old)} times in {file}"]
        texts[file] = text.replace(old, new, 1)
    return []


def of_crate(crate):
    """All wrong bodies of a crate that change what is there, those of its file and those that `rt ci` tries; and what of the others
    is not there or can't be read."""
    found, faults, path = [], [], f"crates/{crate}/{NAME}"
    if os.path.isfile(path):
        found, faults = parsed(crate, read(path), path)
    for edit in sorted(glob.glob(f"crates/{crate}/must-fail/*.edit")):
        more, why = parsed(crate, read(edit), edit, os.path.basename(edit).removesuffix(".edit"))
        found, faults = found + more, faults + why
    faults = faults + [fault for body in found for fault in lost(body)]
    return [body for body in found if not lost(body)], faults


class Function:
    """A function of a source file: its name, its lines from its attributes on, the path of what it stands in, and what that is."""

    def __init__(self, lines, head):
        self.indent, self.name = HEAD.match(lines[head]).groups()
        self.head, self.first, self.last = head, head, head
        while self.first and re.match(r" *(#\[|//)", lines[self.first - 1]):
            self.first -= 1
        while self.last < len(lines) and lines[self.last] != self.indent + "}":
            self.last += 1
        self.block, self.type = self.around(lines)

    def around(self, lines):
        """The line of the block that it stands in, and the type whose own method it is: "" where it stands free, None where it is
        something else, as a trait's."""
        if not self.indent:
            return "", ""
        at = self.head
        while at and not (BLOCK.match(lines[at]) and len(lines[at]) - len(lines[at].lstrip()) < len(self.indent)):
            at -= 1
        text = " ".join(it.strip() for it in lines[at : at + 12]).partition("{")[0].partition(" where ")[0]
        bare = re.sub(r"<(?:[^<>]|<(?:[^<>]|<[^<>]*>)*>)*>", "", text)
        own = re.fullmatch(r"impl (\w+)\s*", bare)
        return lines[at], own[1] if own and len(self.indent) == 4 else None

    def text(self, lines):
        return lines[self.first : self.last + 1]


def functions(lines):
    return [Function(lines, at) for at, line in enumerate(lines) if HEAD.match(line)]


def within(body, text):
    """The function whose body alone this wrong body changes, or why there is none."""
    if body.whole:
        return None, body.whole
    files = {file for file, _, _ in body.pairs}
    if len(files) > 1 or not min(files).startswith("src/"):
        return None, "it changes several files" if len(files) > 1 else "it changes no source"
    lines, hit = text.split("\n"), set()
    every = functions(lines)
    for _, old, _ in body.pairs:
        place = text.find(old)
        line = text.count("\n", 0, place)
        around = [it for it in every if it.head < line <= it.last or it.head == line]
        if place < 0 or not around:
            return None, "it changes what is no function's body" if place >= 0 else "an old text is made by an earlier pair"
        hit.add(max(around, key=lambda it: it.head))
    if len(hit) > 1:
        return None, "it changes several functions"
    found = hit.pop()
    if found.type is None:
        return None, "its function is a trait's"
    itself = rf"\b[Ss]elf(?:\.|::){found.name}\(" if found.type else rf"(?<![\w.:]){found.name}\("
    if any(re.match(r" *#\[cycle", it) for it in lines[found.first : found.head]) or re.search(itself, "\n".join(lines[found.head + 1 : found.last + 1])):
        return None, "its function calls itself"
    return found, None
