"""Documents of this repository, which are Markdown, as the text of man pages (man(7)); links become their words, and pictures are left out."""

import re
import textwrap

WIDTH = 78
ESCAPES = {"\\": "\\(rs", "^": "\\(ha", "~": "\\(ti", "`": "\\(ga", "'": "\\(aq", "-": "\\-"}
SPAN = re.compile(r"``(.+?)``|`([^`]+)`|\*\*(.+?)\*\*|!\[[^\]]*\]\([^)]*\)|\[((?:[^\]`]|`[^`]*`)+)\]\(([^)]*)\)|\*(\S[^*]*)\*")
BULLET = re.compile(r"(- |\d+\. )(.*)")
HEADING = re.compile(r"(#+) (.*)")


def escaped(text, is_code=False):
    """Text in which nothing is a request; in code a quote and a hyphen are those of ASCII too."""
    known = ESCAPES if is_code else {key: ESCAPES[key] for key in "\\^~`"}
    return "".join(known.get(letter, letter if ord(letter) < 128 else f"\\[u{ord(letter):04X}]") for letter in text)


def bold(text):
    return f"\\fB{escaped(text, True)}\\fR"


def inline(text):
    """A paragraph's text with its fonts."""
    made, at = [], 0
    for found in SPAN.finditer(text):
        made.append(escaped(text[at : found.start()]))
        at = found.end()
        double, code, strong, label, target, slanted = found.groups()
        if double or code:
            made.append(bold(double.strip() if double else code))
        elif strong:
            made.append(f"\\fB{plain(strong)}\\fR")
        elif label:
            made.append(inline(label) + (f" ({escaped(target, True)})" if target.startswith("http") else ""))
        elif slanted:
            made.append(f"\\fI{escaped(slanted)}\\fR")
    return "".join(made) + escaped(text[at:])


def plain(text):
    """The same with no fonts, for what is bold as a whole."""
    return re.sub(r"\\f[BIR]", "", inline(text))


def text_line(text):
    """A line that is no request, whatever it begins with."""
    return f"\\&{text}" if text[:1] in (".", "'") else text


def text_lines(text):
    """The same of a whole paragraph, in lines of no more than a terminal has."""
    return "\n".join(text_line(line) for line in textwrap.wrap(text, WIDTH, break_long_words=False, break_on_hyphens=False))


def cells_of(row):
    return [cell.strip().replace("\\|", "|") for cell in re.split(r"(?<!\\)\|", row.strip()[1:-1])]


def blocks(lines):
    """The blocks of a document: each its kind and its lines."""
    found, at = [], 0
    while at < len(lines):
        line = lines[at]
        if not line.strip():
            at += 1
            continue
        if line.startswith("```"):
            end = next((later for later in range(at + 1, len(lines)) if lines[later].startswith("```")), len(lines))
            found.append(("code", lines[at + 1 : end]))
            at = end + 1
            continue
        kind = "code" if line.startswith("    ") else "table" if line.startswith("|") else "list" if BULLET.match(line) else "text"
        end = at + 1
        while end < len(lines) and ends_not(kind, lines[end]):
            end += 1
        taken = lines[at:end]
        if HEADING.match(line):
            kind, taken, end = "heading", [line], at + 1
        found.append((kind, [line[4:] for line in taken] if kind == "code" else taken))
        at = end
    return found


def ends_not(kind, line):
    """Whether a line goes on with a block of this kind."""
    if kind == "code":
        return line.startswith("    ")
    if kind == "table":
        return line.startswith("|")
    if not line.strip() or HEADING.match(line) or line.startswith(("```", "|")):
        return False
    return kind == "list" or not BULLET.match(line)


def listed(lines):
    made = []
    for line in lines:
        found = BULLET.match(line)
        if found:
            made.append((found[1].strip(), found[2]))
        else:
            made[-1] = (made[-1][0], f"{made[-1][1]} {line.strip()}")
    for mark, text in made:
        yield ".IP \\(bu 2" if mark == "-" else f".IP {mark} 4"
        yield text_lines(inline(text))


def tabled(lines):
    """A table: the first cell of a row is its tag, the second says what it is, and the others stand behind the names of their columns.
    Where the first cell is empty, the one above holds, and the second is tag as well."""
    heads, rows = cells_of(lines[0]), [cells_of(line) for line in lines[2:]]
    are_pairs = any(not row[0] for row in rows)
    above = ""
    for row in rows:
        above = row[0] or above
        tag, rest, names = (row[0], row[1:], heads[1:]) if not are_pairs else (f"{above} {row[1]}".strip(), row[2:], heads[2:])
        # what a status is for comes before it
        columns = sorted(zip(names, rest), key=lambda column: column[0] == "Status") if len(rest) > 1 else list(zip(names, rest))
        said = [text for _, text in columns[:1] if text]
        said += [f"{name}: {text}" if name else text for name, text in columns[1:] if text]
        yield ".TP"
        yield text_line(inline(tag) or "\\&")
        yield text_lines(inline(ended(said)) or "\\&")


def ended(sentences):
    return ". ".join(said.rstrip(".") for said in sentences) + ("." if len(sentences) > 1 else "")


def roff(lines):
    """The lines of a document without its title, as those of a man page; `##` begins a section and `###` a part of one."""
    made, is_fresh = [], True
    for kind, taken in blocks(lines):
        if kind == "heading":
            level, title = HEADING.match(taken[0]).groups()
            made.append(f".SH {quoted(title.upper())}" if len(level) <= 2 else f".SS {quoted(title)}")
            is_fresh = True
            continue
        if kind == "code":
            made += [*([] if is_fresh else [".PP"]), ".RS 4", ".nf", *(text_line(escaped(line, True)) for line in taken), ".fi", ".RE"]
        elif kind == "table":
            made += tabled(taken)
        elif kind == "list":
            made += listed(taken)
        else:
            text = inline(" ".join(line.strip() for line in taken)).strip()
            made += [*([] if is_fresh else [".PP"]), text_lines(text)] if text else []
        is_fresh = is_fresh and len(made) > 0 and made[-1].startswith((".SH", ".SS"))
    return made


def quoted(title):
    """A heading's words, as one argument."""
    return '"' + plain(title).replace('"', "\\(dq") + '"'
