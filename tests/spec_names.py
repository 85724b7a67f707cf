"""What the words of contracts and definitions stand for: the definitions of crates/*/specs, the types and traits of
crates/*/src, and the names of the kit. tests/definitions asks.

A name stands for what binds it in its own text, or for what the `use` lines of its module say: with `as`, with `pub use`,
with `declared` for what stands in src, and with `TheVariants` for the variants of a type, each of which stands for the type.
The name of a field stands for nothing of its own. What of a library of the kit is named is a name alone."""

import collections
import functools
import os
import re

from edit_names import CLOSES, closing, read

MEMBER = re.compile(r"⟦<[^⟧]*>⟧\.\w+")
TOKEN = re.compile(
    r"""--[^\n]*|"(?:[^"\\]|\\.)*"|λ|[^\W\dλ][\w'×]*(?:\.[^\W\dλ][\w']*)*(?:\.\d+)?|\.?\d\w*|\.[^\W\dλ][\w']*|[()\[\]{},;]"""
    r"""|[^\s\w()\[\]{}",;]+"""
)
RUST = re.compile(r"""//[^\n]*|#!?\[[^\]]*\]|"(?:[^"\\]|\\.)*"|'[a-z_]\w*|[^\W\d]\w*(?:::[^\W\d]\w*)*|[^\s\w]""")
NAME = re.compile(r"[^\W\dλ][\w'×]*")
USE = re.compile(r"^ *(pub )?(?:ghost )?use ([A-Za-z_]\w*(?:\.[A-Za-z_]\w*)+)(?:\.\{([^}]*)\})?(?: as (\w+))?;?$", re.M)
HEAD = re.compile(r" *(?:abbrev |unfoldable )?(?:pub )?(record |data )?([^\W\dλ][\w']*)")
IMPORT = re.compile(r"^ *(?:pub )?use ([^;]*);", re.M)
KEYWORDS = set("Type record data module let in if then else elim where pub abbrev unfoldable mutual".split())
# Constructors that begin with a small letter: in a pattern every other such name is a variable.
CONSTRUCTORS = set("zero suc true false tt null no_items no_members".split())
# What is there without an import.
GIVEN = set("Unit tt ₁ self result".split())

Item = collections.namedtuple("Item", "kind crate path line name comment section text params")
Kit = collections.namedtuple("Kit", "library name")
Module = collections.namedtuple("Module", "about items constructors")


class Lost(Exception):
    """A name that stands for nothing."""


@functools.lru_cache(maxsize=None)
def is_crate(name):
    return os.path.isdir(f"crates/{name}")


def said(lines):
    """The text of comment lines, without their marks."""
    return " ".join(filter(None, (re.sub(r"^(--|//[/!]?)", "", line.strip()).strip() for line in lines)))


# ---- Where a name leads.


@functools.lru_cache(maxsize=None)
def scope_of(text):
    """What the names that `use` lines bring stand for, and what of it is handed on: the path of a module, and a name in it or None."""
    scope, handed = {}, {}
    for out, path, names, alias in USE.findall(text):
        brought = {}
        for one in filter(None, (part.strip() for part in names.replace("\n", " ").split(","))):
            name, _, other = one.partition(" as ")
            brought[(other or name).strip()] = (path, name.strip())
        brought = brought or {alias or path.split(".")[-1]: (path, None)}
        scope.update(brought)
        handed.update(brought if out else {})
    return scope, handed


def led(path, name):
    """What a name of a module is: a place and a name, or one of the kit."""
    root, *parts = path.split(".")
    if root != "Rattle":
        return Kit("the logic", name)
    crate, *parts = parts
    if not is_crate(crate):
        return Kit(crate, name)
    parts = parts[1:]
    if parts[0] in ("declared", "contracts"):
        if parts[-1] == "TheConstants":
            return declared(crate, parts[1:-1], name)
        parts = [part for part in parts[1:] if part != "TheVariants"]
        return declared(crate, parts[:-1], parts[-1])
    file = f"crates/{crate}/specs/{'/'.join(parts)}.antt"
    if not os.path.exists(file):
        handed = scope_of(read(f"crates/{crate}/specs/Lib.antt"))[1]
        if parts[0] in handed:
            return led(".".join([handed[parts[0]][0], *parts[1:]]), name)
        if len(parts) > 1:  # the constructors of a type
            return led(f"Rattle.{crate}.specs.{'.'.join(parts[:-1])}", parts[-1])
        raise Lost(f"{crate} has no {'.'.join(parts)} among its specs")
    it = module(file)
    if name in it.items:
        return file, name
    if name in it.constructors:
        return file, it.constructors[name]
    handed = scope_of(read(file))[1]
    if name in handed:
        return led(*handed[name])
    raise Lost(f"{file} has no {name}")


def declared(crate, parts, name):
    """The type, trait or constant of this name in a file of src, or in the crate where that file has none."""
    file = f"crates/{crate}/src/{'/'.join(parts)}.rt"
    places = declarations(crate).get(name, [])
    if file in places:
        return file, name
    if len(places) == 1:
        return places[0], name
    raise Lost(f"{file} has no {name}")


@functools.lru_cache(maxsize=None)
def declarations(crate):
    """The files of a crate that declare a type, a trait or a constant, by its name."""
    found = {}
    for at, _, names in sorted(os.walk(f"crates/{crate}/src")):
        for file in sorted(f"{at}/{name}" for name in names if name.endswith(".rt")):
            for name in re.findall(r"^(?:pub(?:\([a-z]+\))? )?(?:enum|struct|trait|type|const) (\w+)", read(file), re.M):
                found.setdefault(name, []).append(file)
    return found


# ---- Which names a text leaves to others.


class Reader:
    """The names of a text that nothing in it binds, each as what stands for it, in their order."""

    def __init__(self, lead, is_constructor, bound=()):
        self.lead, self.is_constructor, self.found = lead, is_constructor, {}
        self.scopes, self.pending, self.lets, self.fields = [set(bound)], [], [], []

    def bind(self, *names):
        self.scopes[-1].update(names)

    def look(self, word):
        first, *rest = word.split(".")
        if first not in KEYWORDS and first != "_" and not any(first in scope for scope in self.scopes):
            it = self.lead(first, rest)
            if it is not None:
                self.found.setdefault(it)

    def read(self, words):
        """Reads words that are no pattern."""
        at = 0
        while at < len(words):
            at = self.step(words, at)

    def step(self, words, at):
        """Reads what stands at this place, and answers the next."""
        word, behind = words[at], words[at + 1] if at + 1 < len(words) else ""
        if word == "[" and behind == "]":
            self.look("[]")
            return at + 2
        if word == "|" or (word == "[" and "↦" in words[at : closing(words, at)]):
            return self.chooses(words, at)
        if word in CLOSES:
            names = bound_names(words, at)
            self.opens(names)
            return at + 1 + len(names)
        if word in CLOSES.values():
            self.scopes.pop()
            self.bind(*self.pending.pop())
        elif word == "λ":
            return self.abstracts(words, at + 1)
        elif word == "let":
            self.lets.append(behind)
            return at + 2
        elif word == "in" and self.lets:
            self.bind(self.lets.pop())
        else:
            self.names(word, words[at - 1], behind)
        return at + 1

    def opens(self, names):
        """A bracket opens, behind whose end these names are bound."""
        self.scopes.append(set())
        self.pending.append(names)

    def names(self, word, before, behind):
        """Reads one word that stands between these two."""
        if word == "if":
            self.look("if◌then◌else◌")
        elif word == "pub":  # the field before is bound from here on
            self.bind(*self.fields)
            self.fields = [behind]
        elif not NAME.match(word):
            if not word[0].isdigit() and not (word[0] == "." and len(word) > 1):
                self.look(f"◌{word}◌")
        elif behind == ":":  # a field, or a constructor
            self.bind(*({word} - {*self.fields}))
        elif not (behind == "=" and before in ("{", ";")):
            self.look(word)

    def chooses(self, words, at):
        """Reads the pattern of a case of `elim`."""
        if words[at] == "[":
            self.opens([])
        end = words.index("↦", at)
        self.pattern([it for it in words[at + 1 : end] if it != "|"])
        return end

    def abstracts(self, words, at):
        while words[at] != ".":
            if words[at] == "(":
                end = closing(words, at)
                self.read(words[at : end + 1])
                at = end
            else:
                self.bind(words[at])
            at += 1
        return at + 1

    def pattern(self, words):
        """Reads the words of a pattern: its variables are bound, and so are all names between braces."""
        braces = 0
        for at, word in enumerate(words):
            braces += (word == "{") - (word == "}")
            if word in ("[", "∷"):
                self.look("[]" if word == "[" else "◌∷◌")
            if not NAME.match(word) or word in KEYWORDS:
                continue
            heads = at > 0 and words[at - 1] == "(" and words[at + 1] not in ("∷", ")", ",")
            if not braces and ("." in word or word in CONSTRUCTORS or heads or self.is_constructor(word)):
                self.look(word)
            else:
                self.bind(word)


def is_at(words, at, word):
    return at < len(words) and words[at] == word


def bound_names(words, at):
    """The names that the group behind this bracket binds, or none."""
    end = at + 1
    while end < len(words) and NAME.fullmatch(words[end]):
        end += 1
    return words[at + 1 : end] if end > at + 1 and is_at(words, end, ":") else []


def words_of(text):
    """The words of a text, but for its comments, its quotes, and the members of the machine's own types, as of a socket."""
    named = MEMBER.sub("", text)
    return [word for word in TOKEN.findall(named) if not word.startswith(("--", '"'))]


# ---- Definitions.


@functools.lru_cache(maxsize=None)
def module(file):
    """What stands above the imports of a module, its definitions by name, and what each constructor belongs to."""
    about, found = blocks(read(file).split("\n"))
    items, constructors = {}, {}
    crate = file.split("/")[1]
    for block in found:
        head = HEAD.match(block.code[0])
        kind, name = (head[1] or "definition").strip(), head[2]
        items[name] = Item(kind, crate, file, block.line, name, block.comment, block.section, block.code, block.params)
        if kind == "data":
            constructors.update({found: name for found in re.findall(r"^ +([^\W\d]\w*) :", "\n".join(block.code), re.M)})
    return Module(about, items, constructors)


Block = collections.namedtuple("Block", "indent line comment section params code")


def blocks(lines):
    """What a module's first comment says, and its definitions as blocks of lines."""
    found, comment, about, section, header, last, outer = [], [], [], "", [], None, {}
    for number, line in enumerate(lines, 1):
        text, indent = line.strip(), len(line) - len(line.lstrip())
        if header or text.startswith("module _"):
            outer = outer if header else {it: outer[it] for it in outer if it < indent} | {indent: (said(comment), "")}
            header.append(text)
            if text.endswith(" where"):
                at = max(outer)
                outer[at] = (outer[at][0], " ".join(header)[len("module _") : -len("where")])
                header, last, comment = [], None, []
        elif not text:
            comment = []
        elif last and not comment and indent > last.indent:
            last.code.append(line)
        elif text.startswith("-- ----"):
            runs_on = is_full(line, lines[number])
            section, comment = ("", [text.strip("- ")]) if runs_on else (text.strip("- "), [])
        elif text.startswith("--"):
            comment.append(line)
        elif re.match(r"(pub )?(use|mod)\b", text):
            about, comment = about or comment, []
        elif text in ("abbrev mutual", "unfoldable mutual"):
            last = None
        elif last and indent == last.indent and goes_on(last, text):
            last.code.extend([*comment, line])
            comment = []
        else:
            around = [outer[it] for it in sorted(outer) if it < indent]
            notes = " ".join(filter(None, (note for note, _ in around)))
            last = Block(indent, number, said(comment), (section, notes), " ".join(it for _, it in around), [line])
            found.append(last)
            comment = []
    return said(about), found


def is_full(line, behind):
    """Whether a heading goes on in the comment behind it, whose first word had no room: then it is a comment itself."""
    words = behind.strip().split(" ")
    return words[0] == "--" and len(line) + 1 + len(words[1]) > 120


def goes_on(block, text):
    """Whether a line at the indent of a block is one more of its clauses."""
    head = HEAD.match(text)
    return head is None or re.match(rf"{re.escape(HEAD.match(block.code[0])[2])}(?![\w'])", text) is not None


def leading(file, own=None):
    """What a name stands for where it is not bound: in a file's own definitions, or by its `use` lines."""
    scope = scope_of(read(file))[0]

    def lead(first, rest):
        if own and first in own.items:
            return file, first
        if own and first in own.constructors:
            return file, own.constructors[first]
        first = first.strip("◌") if first not in scope else first
        if first not in scope:
            if first in GIVEN or not NAME.match(first):
                return None
            raise Lost(f"{file}: nothing is called {first}")
        path, name = scope[first]
        try:
            return led(path, name or (rest[0] if rest else path.split(".")[-1]))
        except Lost as why:
            raise Lost(f"{file}: {why}") from None

    def is_constructor(name):
        if own and name in own.constructors:
            return True
        path, it = scope.get(name, ("", None))
        place = led(path, it) if it else None
        return name[0].isupper() if isinstance(place, Kit) else place is not None and place[1] != it

    return lead, is_constructor


@functools.lru_cache(maxsize=None)
def needs(place):
    """What the definition, type or trait at a place names, in the order of its text."""
    file, name = place
    if file.endswith(".rt"):
        return rust_needs(file, name)
    own = module(file)
    it = own.items[name]
    lead, is_constructor = leading(file, own)
    bound = Reader(lead, is_constructor)
    bound.read(words_of(it.params))
    found = {**bound.found, **named_by(lead, is_constructor, it.text, name, bound.scopes[0])}
    return [it for it in found if it != place]


def named_by(lead, is_constructor, lines, name, bound):
    """What the lines of a definition name, where these names are bound."""
    found = {}
    for head, words, rest in clauses(lines, name):
        own = within(rest)
        reader = Reader(lead, is_constructor, {*bound, *own})
        reader.pattern(head)
        reader.read(words)
        found.update(reader.found)
        for it, code in own.items():
            found.update(named_by(lead, is_constructor, code, it, reader.scopes[0]))
    return found


def clauses(lines, name):
    """The parts of a definition: of each the words of its pattern, those behind it, and the lines of its own definitions."""
    indent = len(lines[0]) - len(lines[0].lstrip())
    parts = [[lines[0][HEAD.match(lines[0]).end() :]]]
    for line in lines[1:]:
        if len(line) - len(line.lstrip()) == indent and re.match(rf" *{re.escape(name)}(?![\w'])", line):
            parts.append([line])
        else:
            parts[-1].append(line)
    for number, part in enumerate(parts):
        end = next((at for at, line in enumerate(part) if number and line.strip() == "where"), len(part))
        words, at, depth = words_of("\n".join(part[:end])), 0, 0
        while number and (words[at] != "=" or depth):
            depth += (words[at] in CLOSES) - (words[at] in CLOSES.values())
            at += 1
        yield words[1:at] if number else [], words[at + 1 :] if number else words, part[end + 1 :]


def within(lines):
    """The definitions of a clause's own, by name: their lines."""
    found, last = {}, None
    for line in filter(str.strip, lines):
        if not line.strip().startswith("--"):
            head = HEAD.match(line)
            deeper = found and len(line) - len(line.lstrip()) > len(lines[0]) - len(lines[0].lstrip())
            found.setdefault(last if deeper or not head else head[2], []).append(line)
            last = last if deeper or not head else head[2]
    return found


# ---- What is declared in src.


@functools.lru_cache(maxsize=None)
def rust_scope(file):
    """The path that each imported name of a file stands for, and those that it hands on."""
    scope = {}
    for tree in IMPORT.findall(read(file)):
        for path, name in branches(" ".join(tree.split())):
            scope[name] = path
    return scope


def branches(tree):
    """Each path of an import, with the name that it has here."""
    head, brace, rest = tree.partition("{")
    if not brace:
        path, _, alias = head.partition(" as ")
        path = path.strip().removesuffix("::self")
        return [(path, alias.strip() or path.split("::")[-1])] if path else []
    parts, depth, at = [], 0, 0
    inner = rest[: rest.rindex("}")]
    for place, letter in enumerate(inner + ","):
        depth += (letter == "{") - (letter == "}")
        if letter == "," and depth == 0:
            parts.append(inner[at:place].strip())
            at = place + 1
    return [it for part in parts for it in branches(head.strip() + part)]


def rust_place(file, path):
    """The type or trait that a path in a file of src stands for, or None where it is not one of the repository."""
    parts, crate = path.split("::"), file.split("/")[1]
    if len(parts) == 1 and file in declarations(crate).get(path, ()):
        return file, path
    parts = [*rust_scope(file).get(parts[0], parts[0]).split("::"), *parts[1:]]
    if len(parts) == 1 or not (parts[0] in ("crate", "self", "super") or is_crate(parts[0])):
        return None
    crate = parts[0] if is_crate(parts[0]) else crate
    places = declarations(crate).get(parts[-1], [])
    if len(places) > 1:
        handed = rust_scope(f"crates/{crate}/src/lib.rt").get(parts[-1], "::".join(parts)).split("::")
        of = [part for part in handed[:-1] if part not in (crate, "crate", "self", "super")]
        places = [it for it in places if it.removeprefix(f"crates/{crate}/src/").removesuffix(".rt").split("/") == of]
    return (places[0], parts[-1]) if len(places) == 1 else None


@functools.lru_cache(maxsize=None)
def rust_item(file, name):
    """A type, a trait or a constant of src; of a constant the line that names it."""
    lines = read(file).split("\n")
    mark = re.compile(rf" *(?:pub(?:\([a-z]+\))? )?(enum|struct|trait|type|const) {name}\b")
    at = next(number for number, line in enumerate(lines) if mark.match(line))
    start = at
    while start and lines[start - 1].strip().startswith(("///", "#[", "//")):
        start -= 1
    comment = [line for line in lines[start:at] if line.strip().startswith("///")]
    indent = lines[at][: len(lines[at]) - len(lines[at].lstrip())]
    end = at
    if mark.match(lines[at])[1] == "const":
        return Item("type", file.split("/")[1], file, at + 1, name, said(comment), ("", ""), lines[at : at + 1], "")
    while not lines[end].rstrip().endswith((";", "{", "}")):
        end += 1
    while lines[end].rstrip().endswith("{") or (end > at and not lines[end].startswith((f"{indent}}}", f"{indent})"))):
        end += 1
    kind = "trait" if mark.match(lines[at])[1] == "trait" else "type"
    return Item(kind, file.split("/")[1], file, at + 1, name, said(comment), ("", ""), lines[at : end + 1], "")


def rust_needs(file, name):
    """What a type's fields or its model name, or what a trait's contracts name and the traits that it names."""
    it = rust_item(file, name)
    model = re.search(rf"^impl(?:<[^\n]*>)? Model for {name}\b.*?^\}}", read(file), re.M | re.S)
    if it.kind == "trait":
        ghosts, rust = contracts("\n".join(it.text))
        rust = re.sub(r"\bfn \w+.*?(?=;|\n    ghost|\n    type|\Z)", "", rust, flags=re.S)
    elif model:
        ghosts, rust = re.findall(r"ghost Value = \{(.*?)\};", model[0], re.S), ""
    else:
        rust = "\n".join(line for line in it.text if it.text[0].startswith("pub enum") or " pub " in line or "(" in line)
        ghosts, rust = [], rust if len(it.text) > 1 else it.text[0]
    own = re.findall(r"\b(?:ghost|type) (\w+)", "\n".join(it.text)) + re.findall(r"\b([a-z_]\w*):", "\n".join(it.text))
    found = ghost_needs(file, ghosts, {*generics(it.text[0]), *own})
    for path in rust_paths(rust):
        place = rust_place(file, path)
        if place and place != (file, name):
            found.setdefault(place)
    return list(found)


def rust_paths(text):
    """The paths of types in a text of Rust."""
    words = [word for word in RUST.findall(text) if not word.startswith(("//", "#", '"', "'"))]
    return [word for word in words if re.match(r"(?:\w+::)*[A-Z]\w*$", word)]


def contracts(text):
    """What stands between the braces of a text's ghosts and clauses, and the rest of the text."""
    found, rest, at = [], "", 0
    for clause in re.finditer(r"\b(?:requires|ensures\*?|ghost)\b[^{};]*\{", text):
        if clause.start() >= at:
            depth, end = 1, clause.end()
            while depth:
                depth += (text[end] == "{") - (text[end] == "}")
                end += 1
            found.append(text[clause.end() : end - 1])
            rest, at = rest + text[at : clause.start()], end
    return found, rest + text[at:]


def generics(signature):
    """The names of the parameters of types in a signature."""
    found = re.search(r"<(.*)>", signature, re.S)
    return set(re.findall(r"\b([A-Z]\w*)(?=\s*[:,>]|$)", found[1])) if found else set()


def ghost_needs(file, texts, bound):
    """What ghost texts of a file name, where these names are bound."""
    lead, is_constructor = leading(file)
    found = {}
    for text in texts:
        names = set(re.findall(r"(?:^|[^\w.'])([a-z_]\w*)(?=\.(?:now|old|new)\b)", text))
        reader = Reader(lead, is_constructor, {*bound, *names, "Self"})
        reader.read(words_of(re.sub(r"//[^\n]*", "", text)))
        found.update(reader.found)
    return found


Theorem = collections.namedtuple("Theorem", "crate path line name comment contract needs")


def theorem(file, name):
    """A function with its contract and what that names, the traits of its parameters included."""
    text = read(file)
    found = re.search(rf"^((?: *///[^\n]*\n)*)pub fn {name}\b", text, re.M)
    if not found:
        raise Lost(f"{file} has no theorem {name}, which tests/definitions names")
    start = found.end() - len(f"pub fn {name}")
    end = re.compile(r"^\{(?:\}|$)", re.M).search(text, start).start()
    lines = text[start:end].rstrip().split("\n")
    at = next((number for number, line in enumerate(lines) if re.match(r" +(requires|ensures|//)", line)), len(lines))
    signature, contract = "\n".join(lines[:at]), "\n".join(lines[at:])
    bound = generics(signature) | set(re.findall(r"\b([a-z_]\w*):", signature))
    places = ghost_needs(file, contracts(contract)[0], bound)
    used = {word.split(".")[0] for clause in contracts(contract)[0] for word in words_of(clause)}
    for parameter, bounds in re.findall(r"\b([A-Z]\w*): ([^,>]+(?:<[^>]*>)?[^,>]*)", signature):
        for path in rust_paths(bounds) if parameter in used else ():
            place = rust_place(file, path)
            if place:
                places.setdefault(place)
    line = text[:start].count("\n") + 1
    return Theorem(file.split("/")[1], file, line, name, said(found[1].split("\n")), contract, list(places))


def item(place):
    file, name = place
    return rust_item(file, name) if file.endswith(".rt") else module(file).items[name]


def closure(places):
    """Everything that these need, and these, each once; what is needed before what needs it."""
    found = {}

    def visit(place, above):
        if place in found or place in above:
            return
        for it in needs(place) if not isinstance(place, Kit) else ():
            visit(it, above | {place})
        found.setdefault(place)

    for place in places:
        visit(place, frozenset())
    return list(found)
