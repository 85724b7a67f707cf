"""What a program says of itself with --help: its commands, and the options, arguments and texts of each."""

import re
import subprocess
from typing import NamedTuple, Optional

SECONDS = 30
OPTION = re.compile(r"(?:(-\w), |    )(--[\w-]+)(?: \[?<([^>]+)>\]?)?(?:  +(.*))?")
DEFAULT = re.compile(r"(.*?) ?\[default: ([^\]]*)\]")


class Option(NamedTuple):
    short: Optional[str]
    long: str
    value: Optional[str]  # what stands for its value, as N or FILE
    text: str
    default: Optional[str]

    def names(self):
        return [name for name in (self.short, self.long) if name]


class Command(NamedTuple):
    name: str
    about: str
    usage: str  # behind the word Usage
    arguments: list  # of pairs: what stands for it, and its text
    options: list
    after: list  # the lines behind all these
    page: list  # the lines of one whose help is a page of its own, with no usage and no options in it


class Program(NamedTuple):
    name: str
    version: str
    whole: Command
    commands: list  # of pairs: a name, and its text
    each: dict  # by name, without help


def said(program, *words):
    ran = subprocess.run([*program, *words], stdin=subprocess.DEVNULL, capture_output=True, text=True, timeout=SECONDS, check=False)
    if ran.returncode or ran.stderr:
        raise SystemExit(f"{' '.join([*program, *words])}: status {ran.returncode} {ran.stderr.strip()}")
    return ran.stdout


def option_of(line):
    found = OPTION.fullmatch(line.strip("\n")[2:])
    if not found:
        raise SystemExit(f"no option: {line}")
    short, long, value, text = found.groups()
    with_default = DEFAULT.fullmatch(text or "")
    return Option(short, long, value, with_default[1] if with_default else text or "", with_default[2] if with_default else None)


HEADING = r"[A-Z][a-z]*( [a-z]+)*:"  # of a list in a help text


def pairs_of(lines):
    """A name and its text, of lines as '  NAME  TEXT'."""
    return [tuple((line.strip() + "  ").split("  ", 1)) for line in lines]


def parts_of(text):
    """The first paragraph, the usage, the lines of each list by its head, and the lines behind them."""
    lines = text.rstrip("\n").split("\n")
    about, usage, lists, after, head = lines[0], "", {}, [], None
    for line in lines[1:]:
        if line.startswith("Usage: "):
            usage = line.removeprefix("Usage: ")
        elif re.fullmatch(HEADING, line) and not after:
            # options stand under headings where a command has many
            head = line[:-1] if line in ("Commands:", "Arguments:") else "Options"
            lists.setdefault(head, [])
        elif head and line.startswith("  "):
            lists[head].append(line)
        elif line or after:
            head = None
            after.append(line)
    return about, usage, lists, after


def command_of(name, text):
    about, usage, lists, after = parts_of(text)
    arguments = [(word.strip("<>"), text.strip()) for word, text in pairs_of(lists.get("Arguments", []))]
    return Command(name, about, usage, arguments, [option_of(line) for line in lists.get("Options", [])], after, [])


def page_of(program, name, text, others):
    """A command whose help is a page: its options are those that all others have."""
    options = [option for option in others[0].options if all(option in other.options for other in others)]
    lines = text.rstrip("\n").split("\n")
    return Command(name, lines[0], f"{program} {name} [OPTIONS]", [], options, [], lines)


def read(program):
    """Of a program, given by the words that start it."""
    name, version = said(program, "--version").split()[:2]
    text = said(program, "--help")
    commands = [(word, text.strip()) for word, text in pairs_of(parts_of(text)[2]["Commands"])]
    texts = {word: said(program, word, "--help") for word, _ in commands if word != "help"}
    plain = {word: command_of(word, text) for word, text in texts.items() if "\nUsage: " in text}
    each = {word: plain.get(word) or page_of(name, word, text, list(plain.values())) for word, text in texts.items()}
    return Program(name, version, command_of(name, text), commands, each)
