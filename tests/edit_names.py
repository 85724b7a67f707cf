"""Whether the names of a wrong body's new texts stand for something, as far as a script can see it. tests/layout asks.

A new text that names what its file neither declares nor imports is refused by the compiler, and so no contract is tried.
Looked at are, outside of comments, texts in quotes and clauses: each name that stands alone (a variable, a function, a type,
a constant) and each path. What follows a dot, the names of fields and those of macros are passed over, and so is what stands
behind the first name of a path into std or a crate of the kit."""

import functools
import os
import re

TOKEN = re.compile(
    r"""//[^\n]*|b?"(?:[^"\\]|\\.)*"|b?'(?:[^'\\]|\\.)'|'[A-Za-z_]\w*|[0-9]\w*(?:\.[0-9]\w*)?|[A-Za-z_]\w*"""
    r"""|::|=>|->|\.\.=?|==|!=|<=|>=|&&|\|\||[-+*/%^&|]=|<<|>>|\S"""
)
NAME = re.compile(r"[A-Za-z_]\w*")
FUNCTION = re.compile(r'^( *)(?:pub(?:\([a-z ]+\))? )?(?:(?:const|unsafe|extern "C") )*fn ', re.M)
ITEMS = "fn struct enum trait type const static mod union".split()
CHANGES_ITEMS = re.compile(r"\b(?:use|impl|" + "|".join(ITEMS) + r")\b")
KEYWORDS = set(
    "as break const continue crate dyn else enum extern false fn for if impl in let loop match mod move mut pub ref return self "
    "Self static struct super trait true type unsafe use where while union ghost requires ensures".split()
)
# What needs no import.
PRELUDE = set(
    "u8 u16 u32 u64 u128 usize i8 i16 i32 i64 i128 isize bool char str f32 f64 _ Some None Ok Err Option Result Vec String Box "
    "Iterator IntoIterator From Into TryFrom TryInto Copy Clone Drop Default PartialEq Eq PartialOrd Ord AsRef AsMut Fn FnMut "
    "FnOnce Send Sync Sized drop Extend DoubleEndedIterator ExactSizeIterator FromIterator ToOwned ToString".split()
)
# What a derive or a trait of std gives a type, beside what its crate declares.
GIVEN = set("default from into try_from try_into from_str clone eq ne cmp partial_cmp fmt".split())
CLOSES = {"(": ")", "[": "]", "{": "}"}
HERE = ("crate", "self", "super")


@functools.lru_cache(maxsize=None)
def read(path):
    with open(path, encoding="utf-8") as file:
        return file.read()


@functools.lru_cache(maxsize=None)
def libraries():
    """What each crate of crates.txt stands on."""
    lines = (line.partition(":") for line in read("crates.txt").split("\n") if ":" in line and not line.startswith("#"))
    return {name.split()[0]: set(rest.split()) for name, _, rest in lines}


# ---- Tokens.


def first_of(words, at, *ends):
    """The first place, from this one on, of one of these tokens, or the end."""
    return next((place for place in range(at, len(words)) if words[place] in ends), len(words))


def closing(words, at):
    """The place of the bracket that closes the one at this place, or the end."""
    depth = 0
    for place in range(at, len(words)):
        depth += (words[place] in CLOSES) - (words[place] in CLOSES.values())
        if depth == 0:
            return place
    return len(words)


def opening(words, at):
    """The place of the bracket that the one at this place closes, or -1."""
    depth = 0
    for place in range(at, -1, -1):
        depth += (words[place] in CLOSES.values()) - (words[place] in CLOSES)
        if depth == 0:
            return place
    return -1


def ghost_ends(words, at):
    """The place of the semicolon that ends the ghost item at this place, or the end."""
    while at < len(words) and words[at] != ";":
        at = closing(words, at) + 1 if words[at] in CLOSES else at + 1
    return at


def tokens(text):
    """The tokens of a code, each text in quotes as one, without comments, clauses and ghost items: they name definitions."""
    words = [word for word in TOKEN.findall(text) if not word.startswith("//")]
    kept, at = [], 0
    while at < len(words):
        if words[at] in ("requires", "ensures"):
            at = closing(words, first_of(words, at, "{")) + 1
        elif words[at] == "ghost":
            at = ghost_ends(words, at) + 1
        else:
            kept.append(words[at])
            at += 1
    return kept


def names(words):
    return {word for word in words if NAME.fullmatch(word) and word not in KEYWORDS}


def variables(words):
    return {name for name in names(words) if not name[0].isupper()}


# ---- What a text declares.


def imported(words, at):
    """The names that the `use` at this place brings in, each with its path."""
    end, found = first_of(words, at, ";"), {}

    def tree(place, path):
        while place < end and words[place] not in (",", "}"):
            if words[place] == "{":
                while place < end and words[place] != "}":
                    place = tree(place + 1, path)
            elif words[place] == "as":
                found.pop(path[-1], None)
                found[words[place + 1]] = path
                place += 1
            elif words[place] != "::":
                path = path if words[place] == "self" and path else path + [words[place]]
                if words[place + 1] != "::":
                    found[path[-1]] = path
            place += 1
        return place

    tree(at + 1, [])
    return found


def generics(words, at):
    """The parameters between the angle brackets at this place, if there are any."""
    found, depth = set(), 0
    for place in range(at, len(words)):
        word = words[place]
        depth += (word in "<([{") - (word in ">)]}") - 2 * (word == ">>")
        if depth <= 0 or words[at] != "<":
            break
        if depth == 1 and word in ("<", ","):
            found |= names(words[place + 1 : place + 3] if words[place + 1] == "const" else words[place + 1 : place + 2])
    return found


def in_scope(text):
    """What the items of a file bring into its scope: each name with the path that it stands for, or none for a parameter."""
    words, found, depth, is_impl = tokens(text), {}, 0, False
    for at, word in enumerate(words):
        depth += (word == "{") - (word == "}")
        if word in ("impl", "trait") and depth == 0:
            is_impl = True
            found.update({name: [] for name in generics(words, at + 1 if word == "impl" else at + 2) if name not in found})
        elif word == "}" and depth == 0:
            is_impl = False
        if word == "use":
            found.update(imported(words, at))
        elif word in ITEMS and NAME.fullmatch("".join(words[at + 1 : at + 2])):
            if depth == 0 or not is_impl or word in ("const", "static"):
                found[words[at + 1]] = ["crate", words[at + 1]]
            found.update({name: [] for name in generics(words, at + 2) if name not in found})
    return found


@functools.lru_cache(maxsize=None)
def scope_of(path):
    return in_scope(read(path))


def variants(words, at):
    """The variants of the `enum` at this place."""
    place = first_of(words, at, "{")
    end, found = closing(words, place), set()
    while place < end:
        if NAME.fullmatch(words[place]) and words[place - 1] in ("{", ",", "]"):
            found.add(words[place])
        place = closing(words, place) if words[place] in CLOSES and found else place
        place += 1
    return found


def declared(text):
    """Each name that a text declares or brings in, wherever it stands: items, methods, variants."""
    words, found = tokens(text), set()
    for at, word in enumerate(words):
        if word in ITEMS:
            found |= names(words[at + 1 : at + 2])
        if word == "enum":
            found |= variants(words, at)
        if word == "use":
            found |= set(imported(words, at))
    return found


@functools.lru_cache(maxsize=None)
def crate_declares(crate):
    """Each name that a crate of the repository declares, or hands on from one below."""
    found = set()
    for at, _, files in os.walk(f"crates/{crate}/src"):
        for path in (os.path.join(at, name) for name in files if name.endswith(".rt")):
            found |= declared(read(path))
            for below in re.findall(r"^pub use (\w+)::", read(path), re.M):
                found |= crate_declares(below) if below in libraries()[crate] & set(libraries()) else set()
    return found


# ---- What a function binds.


def pattern_before(words, at):
    """The pattern before the arrow of an arm, without its condition."""
    start = at
    while start > 0 and words[start - 1] not in (",", ";", "=>", *CLOSES):
        if words[start - 1] in CLOSES.values():
            opened = opening(words, start - 1)
            if words[start - 1] == "}" and not NAME.fullmatch("".join(words[max(opened - 1, 0) : opened])):
                break  # the block of the arm before
            start = opened
        else:
            start -= 1
    return words[start : first_of(words[:at], start, "if")]


def bound(words):
    """The names that patterns bind: of parameters, `let`, `for`, closures and the arms of a `match`, and items within."""
    found = set()
    for at, word in enumerate(words):
        if word == "fn":
            found |= variables(words[at : closing(words, first_of(words, at, "("))]) | generics(words, at + 2)
        elif word in ("let", "for"):
            found |= variables(words[at : first_of(words, at, "=", "in", ";")])
        elif word == "|" and words[max(at - 1, 0)] in ("(", ",", "=", "{", ";", "=>", "return", "move", "|"):
            found |= variables(words[at : first_of(words, at + 1, "|")])
        elif word == "=>":
            found |= variables(pattern_before(words, at))
        elif word == "matches":
            found |= variables(words[first_of(words, at, ",") : closing(words, first_of(words, at, "("))])
        elif word in ITEMS:
            found |= names(words[at + 1 : at + 2])
        elif word == "use":
            found |= set(imported(words, at))
    return found


def function_around(text, start, end):
    """The text of the function in which a span stands, or the span alone where it stands in none."""
    heads = list(FUNCTION.finditer(text, 0, start + 1))
    ends = text.find(f"\n{heads[-1][1]}}}\n", heads[-1].start()) if heads else -1
    return text[heads[-1].start() : max(ends, end)] if ends >= start else text[start:end]


# ---- What a new text names.


def paths(words):
    """Each name that stands alone and each path, as a list of names."""
    at = 0
    while at < len(words):
        end = at + 1
        if words[at] == "use":
            yield from imported(words, at).values()
            end = first_of(words, at, ";")
        elif words[at] == "#" and words[at + 1 : at + 2] == ["["]:
            end = closing(words, at + 1) + 1
        elif NAME.fullmatch(words[at]) and words[max(at - 1, 0)] != ".":
            while words[end : end + 1] == ["::"] and NAME.fullmatch("".join(words[end + 1 : end + 2])):
                end += 2
            path = words[at:end:2]
            is_field_or_macro = end == at + 1 and words[end : end + 1] in ([":"], ["!"])
            if not is_field_or_macro and (len(path) > 1 or path[0] not in KEYWORDS):
                yield path
        at = end


def is_there(path, crate, scope, added):
    """Whether a path leads somewhere, by its first name, and by the others where it leads into this repository."""
    own = added | crate_declares(crate) | GIVEN
    path = path[next(place for place, name in enumerate(path) if name not in ("self", "super") or place == len(path) - 1) :]
    root = scope[path[0]][:1] if path[0] in scope else [path[0]]
    if root == [] or root[0] in HERE or root[0] == "Self":
        return all(name in own for name in path[1:])
    if root[0] in libraries().get(crate, set()) & set(libraries()):
        return all(name in crate_declares(root[0]) | GIVEN for name in path[1:])
    return path[0] in scope or root[0] in PRELUDE | {"std", "core"} | libraries().get(crate, set())


def in_context(text, start, end):
    """A span, with the names and paths whole that begin or end in it."""
    while start > 0 and (text[start - 1] in ".:" or text[start - 1].isalnum() or text[start - 1] == "_"):
        start -= 1
    while end < len(text) and (text[end] in ":!" or text[end].isalnum() or text[end] == "_"):
        end += 1
    return start, end


class Edited:
    """A file's text while the pairs of a wrong body change it, with what they took away and where what they put stands."""

    def __init__(self, path):
        self.path, self.text, self.taken, self.spans = path, read(path), [], []

    def change(self, old, new):
        start = self.text.find(old)
        end, longer = start + len(old), len(new) - len(old)
        if start < 0:
            return
        self.text = self.text[:start] + new + self.text[end:]
        self.taken.append(old)
        whole, apart = (start, start + len(new)), []
        for first, last in self.spans:
            if last <= start:
                apart.append((first, last))
            elif first >= end:
                apart.append((first + longer, last + longer))
            else:
                whole = (min(first, whole[0]), max(last + longer, whole[1]))
        self.spans = apart + [whole]

    def nowhere(self, crate):
        """The names and paths in what was put that lead nowhere."""
        spans = [in_context(self.text, *span) for span in self.spans]
        news = [self.text[start:end] for start, end in spans]
        scope = in_scope(self.text) if CHANGES_ITEMS.search(" ".join(self.taken + news)) else scope_of(self.path)
        added = set().union(*map(declared, news))
        for (start, end), new in zip(spans, news):
            local = None
            for path in paths(tokens(new)):
                if len(path) == 1 and path[0] not in scope and path[0] not in PRELUDE:
                    local = local or bound(tokens(function_around(self.text, start, end))) | bound(tokens(new))
                    if path[0] not in local:
                        yield path[0]
                elif len(path) > 1 and not is_there(path, crate, scope, added):
                    yield "::".join(path)
