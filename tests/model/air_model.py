#!/usr/bin/env python3
"""What goes on the air once more, in plain Python: the groups that an encoder's store sends, their bits, and what a receiver shows of them.

Written from docs/PROTOCOL.md, docs/DECISIONS.md ("On the air") and the READMEs of the crates; tests/run/on_air compares the program with it,
and tests/receiver compares it with GNU Radio's receiver. The store is that of tests/model/model.py. It keeps what is left of a pass over a
name or a text, not numbers of segments; it knows a text by the characters that came, and finds groups in a string of bits.

    python3 tests/model/air_model.py answer --air N [OPTIONS] < FILE     the groups that go out after the input, a line each
    python3 tests/model/air_model.py bits < GROUPS                       the bits of groups, a line each"""

import functools
import re
import sys
from typing import NamedTuple, Optional

import model

NO_FREQUENCIES = 0xE0E0
RETURN = 0x0D
PLACES = 64
BLANKS = 8  # groups of an empty text at a start
WINDOW, TOO_MANY = 50, 35  # blocks by which a step is judged, and how many wrong ones of them lose it
GROUP_LINE = re.compile(r"[0-9A-F]{4}( [0-9A-F]{4}){3}")


# Groups, blocks and bits


class Group(NamedTuple):
    """Its four words; in a group that was heard None stands for one that didn't come."""

    first: Optional[int]
    second: Optional[int]
    third: Optional[int]
    fourth: Optional[int]

    def line(self):
        return " ".join(f"{word:04X}" for word in self)


def group_of(line):
    return Group(*(int(word, 16) for word in line.split()))


GENERATOR = (10, 8, 7, 5, 4, 3, 0)  # its powers of x
OFFSETS = {"A": 0b0011111100, "B": 0b0110011000, "C": 0b0101101000, "C'": 0b1101010000, "D": 0b0110110100}


@functools.cache
def check_of(word):
    """The remainder of the word times x^10, by long division."""
    left = word << 10
    for power in range(25, 9, -1):
        if left >> power & 1:
            for place in GENERATOR:
                left ^= 1 << power - 10 + place
    return left


def third_offset(second):
    return "C'" if second >> 11 & 1 else "C"


def block_of(word, offset):
    return word << 10 | check_of(word) ^ OFFSETS[offset]


def bits_of(group):
    """The 104 bits of a group as text, the first to go out first."""
    offsets = ("A", "B", third_offset(group.second), "D")
    return "".join(f"{block_of(word, offset):026b}" for word, offset in zip(group, offsets))


def word_in(bits, offset):
    """The word of a block that came, or None."""
    word, rest = int(bits[:16], 2), int(bits[16:], 2)
    return word if check_of(word) ^ OFFSETS[offset] == rest else None


def heard_in(bits):
    """What came of a group in 104 bits."""
    second = word_in(bits[26:52], "B")
    third = None if second is None else word_in(bits[52:78], third_offset(second))
    return Group(word_in(bits[:26], "A"), second, third, word_in(bits[78:], "D"))


def groups_in(text):
    """The groups in a stream of bits: whole ones, and once one was found what stands each 104 bits behind the last, until too many blocks
    behind a whole one are wrong."""
    # what came before the first bit counts as zeros
    bits = "0" * 103 + "".join(character for character in text if character in "01")
    due, judged = None, []
    for end in range(104, len(bits) + 1):
        if end != due and word_in(bits[end - 104 : end - 78], "A") is None:
            continue
        heard = heard_in(bits[end - 104 : end])
        if None not in heard:
            due, judged = end + 104, []
        elif end == due:
            judged += [word is None for word in heard]
            due = end + 104
            if len(judged) >= WINDOW:
                due, judged = None if sum(judged[:WINDOW]) >= TOO_MANY else due, judged[WINDOW:]
        else:
            continue
        yield heard


# What goes out


class Text(NamedTuple):
    is_new: bool  # its toggle
    transmissions: int
    characters: bytes


NO_TEXT = Text(True, 0, b"")


def texts_of(service):
    """The texts of a service that go round; an empty one where it has none."""
    return [Text(bool(head & 1), head >> 1 & 0xF, characters) for head, characters in service["texts"]] or [NO_TEXT]


def pass_over_name(name):
    return [(segment, name[2 * segment : 2 * segment + 2]) for segment in range(4)]


def pass_over_text(characters):
    """Its segments: with a return behind, filled up with spaces; where it has all 64 characters there is no room for one."""
    sent = (characters + bytes([RETURN]))[:PLACES]
    return [(place // 4, sent[place : place + 4].ljust(4)) for place in range(0, len(sent), 4)]


class Carousel:
    """Every other group is a segment of the name; between them a group of the queue, or else a segment of a text. At a start of an encoder
    that may have been on the air before, an empty text goes out first, whatever the store has."""

    def __init__(self, is_start=False):
        self.is_name_next = True
        self.name, self.name_left = None, []
        self.text, self.text_left = b"", pass_over_text(b"")
        self.place, self.passes, self.flag = 0, 0, 0
        self.empty_left, self.is_first = BLANKS if is_start else 0, is_start

    def send(self, store):
        """The next group; one of the queue is taken from there."""
        service = store.data[store.current, store.services[0]]
        is_name, self.is_name_next = self.is_name_next, not self.is_name_next
        if is_name:
            return self.send_name(service)
        if store.groups:
            (kind, bits, third, fourth), *store.groups = store.groups
            # in version B block 3 is the PI again
            third = service["pi"] if kind[0] & 1 else third
            return self.made(service, kind[0], bits[0], *(int.from_bytes(word, "big") for word in (third, fourth)))
        return self.send_text(service)

    def made(self, service, kind, last, third, fourth):
        second = kind << 11 | service["tp"] << 10 | service["pty"] << 5 | last
        return Group(int.from_bytes(service["pi"], "big"), second, third, fourth)

    def send_name(self, service):
        if service["ps"] != self.name or not self.name_left:
            self.name, self.name_left = service["ps"], pass_over_name(service["ps"])
        segment, two = self.name_left.pop(0)
        last = service["ta"] << 4 | service["ms"] << 3 | segment
        return self.made(service, 0, last, NO_FREQUENCIES, int.from_bytes(two, "big"))

    def send_text(self, service):
        if self.empty_left:
            self.empty_left, self.text_left = self.empty_left - 1, pass_over_text(b"")
        else:
            self.choose(texts_of(service))
        segment, four = self.text_left.pop(0)
        return self.made(service, 4, self.flag << 4 | segment, *(int.from_bytes(four[at : at + 2], "big") for at in (0, 2)))

    def choose(self, texts):
        """Sees to it that something of a pass is left."""
        if self.place >= len(texts) or texts[self.place].characters != self.text:
            self.begin(texts, 0)
        elif not self.text_left:
            limit = texts[self.place].transmissions
            self.passes = self.passes + 1 if limit else 0
            if limit and self.passes >= limit:
                self.begin(texts, (self.place + 1) % len(texts))
            else:
                self.text_left = pass_over_text(self.text)

    def begin(self, texts, place):
        text = texts[place]
        if text.characters != self.text:
            self.flag ^= text.is_new or self.is_first
            self.is_first = False
        self.text, self.text_left = text.characters, pass_over_text(text.characters)
        self.place, self.passes = place, 0


def sent_by(store, count):
    """So many groups of a store, from the first on."""
    carousel = Carousel()
    return [carousel.send(store) for _ in range(count)]


# What a receiver shows


class Receiver:
    def __init__(self):
        self.pi = self.tp = self.pty = self.ta = self.ms = self.name = None
        self.coming = b""
        self.flag, self.is_short, self.characters = 0, False, {}
        self.held = None

    def hear(self, group):
        """Hears a group, of which words may be missing. The first of another station is held, and counts as one that didn't come."""
        held, self.held = self.held, None
        if None in (self.pi, group.first) or group.first == self.pi:
            self.hear_own(group)
        elif held is not None and held.first == group.first:
            self.__init__()
            self.hear_own(held)
            self.hear_own(group)
        else:
            self.held, self.coming = group, b""

    def hear_own(self, group):
        if group.first is not None:
            self.pi = group.first
        if group.second is None:
            self.coming = b""
            return
        kind, last = group.second >> 11, group.second & 0x1F
        self.tp, self.pty = group.second >> 10 & 1, group.second >> 5 & 0x1F
        if kind in (0, 1):
            self.hear_name(last, group.fourth)
        if kind in (4, 5):
            self.hear_text(kind == 5, last, group)

    def hear_name(self, last, word):
        self.ta, self.ms = last >> 4 & 1, last >> 3 & 1
        place = 2 * (last & 3)
        if word is None or place not in (0, len(self.coming)):
            self.coming = b""
            return
        self.coming = self.coming[:place] + word.to_bytes(2, "big")
        if len(self.coming) == 8:
            self.name = self.coming

    def hear_text(self, is_short, last, group):
        flag, segment = last >> 4, last & 0xF
        if (flag, is_short) != (self.flag, self.is_short):
            self.flag, self.is_short, self.characters = flag, is_short, {}
        words = {2 * segment: group.fourth} if is_short else {4 * segment: group.third, 4 * segment + 2: group.fourth}
        for place, word in words.items():
            if word is not None:
                self.characters[place], self.characters[place + 1] = divmod(word, 256)

    def text(self):
        """The characters before the first return, once each of them was heard, or None."""
        shown = bytearray()
        for place in range(32 if self.is_short else PLACES):
            if place not in self.characters:
                return None
            if self.characters[place] == RETURN:
                break
            shown.append(self.characters[place])
        return bytes(shown)


# The command line


def answer(setup, text, count):
    """What `answer --air` writes: that of `answer`, and then the groups. Where a line is refused there are none."""
    answered = model.run("answer", setup, text)
    encoder = model.Encoder(setup)
    for finding in model.findings(model.stream_of(text)[0]):
        encoder.hear(finding)
    groups = [] if answered.status else sent_by(encoder.store, count)
    return answered._replace(output=answered.output + "".join(f"{group.line()}\n" for group in groups))


def run_answer(words, text):
    """The same by the words of a command line, of which two are `--air N`."""
    place = words.index("--air")
    count, words = int(words[place + 1]), words[:place] + words[place + 2 :]
    parts = [part for word in words if word != "--store" for part in word.split("=")]
    options = dict(zip(parts[::2], parts[1::2]))
    services, _ = model.services_of(options.get("--services", "01"))
    numbers = {name: int(options.get(f"--{name}", 1)) for name in ("site", "encoder", "sets")}
    return answer(model.Setup(**numbers, services=services, store="--store" in words), text, count)


def main(words):
    text = sys.stdin.buffer.read()
    if words[0] == "answer":
        ended = run_answer(words[1:], text)
        sys.stdout.write(ended.output)
        sys.stderr.write(ended.error)
        return ended.status
    sys.stdout.writelines(f"{bits_of(group_of(line))}\n" for line in text.decode().splitlines() if GROUP_LINE.fullmatch(line))
    return 0


if __name__ == "__main__":
    sys.exit(main(sys.argv[1:]))
