#!/usr/bin/env python3
"""Runs the conformance cases against an encoder, by what README.md, beside this file, says of them and by nothing else.

    tests/conformance/run.py HOST:PORT [--site N] [--encoder N] [--only NAME] [--quiet SECONDS]

NAME is a group or a case. SECONDS is how long nothing may come before a case is judged, 0.3 where it is left out. It prints TAP; the
status is 0 where all cases that count are kept, 1 where one is not, 3 where the line can't be had."""

import argparse
import os
import re
import socket
import sys

CASES = os.path.join(os.path.dirname(os.path.abspath(__file__)), "cases.txt")
FLOOD = 1 << 20


def check(data):
    register = 0xFFFF
    for bit in (byte >> place & 1 for byte in data for place in range(7, -1, -1)):
        register = (register << 1 & 0xFFFF) ^ (0x1021 if register >> 15 != bit else 0)
    return register ^ 0xFFFF


def plain(address, counter, message, length=None, turned=0):
    head = address.to_bytes(2, "big") + bytes([counter, len(message) if length is None else length]) + message
    return head + (check(head) ^ turned).to_bytes(2, "big")


def stuffed(data):
    return [bytes([0xFD, byte - 0xFD]) if byte >= 0xFD else bytes([byte]) for byte in data]


def on_the_line(data):
    return b"\xfe" + b"".join(stuffed(data)) + b"\xff"


def hexadecimal(word):
    digits, times, count = word.partition("x")
    return b"" if word == "-" else bytes.fromhex(digits) * (int(count) if times else 1)


def span(word):
    first, _, last = word.partition("..")
    return range(int(first, 16), int(last or first, 16) + 1)


def another(number):
    return number ^ 1 or 2


def sent(site, encoder, counter, message, edit):
    """The bytes of a frame with an edit, the words behind the message."""
    own, text = site * 64 + encoder, " ".join(edit)
    to = {"to all": 0, "to all encoders": site * 64, "to all sites": encoder, "to another encoder": site * 64 + another(encoder), "to another site": another(site) * 64 + encoder}
    data = plain(to.get(text, own), counter, message)
    if text == "" or text in to:
        return on_the_line(data)
    if text == "with check damaged":
        return on_the_line(plain(own, counter, message, turned=1))
    if edit[:2] == ["with", "length"]:
        return on_the_line(plain(own, counter, message, length=int(edit[2], 16)))
    parts = stuffed(data)
    if edit[:2] == ["with", "byte"]:
        parts[int(edit[2])] = hexadecimal(edit[4])
        return b"\xfe" + b"".join(parts) + b"\xff"
    return b"\xfe" + b"".join(parts[: int(edit[2])])


def cases(path):
    with open(path, encoding="ascii") as file:
        lines = [words for words in map(str.split, file) if words and not words[0].startswith("#")]
    assert lines[0] == ["format", "1"], "the file has another form"
    found = []
    for first, *rest in lines[1:]:
        if first == "case":
            found.append({"case": " ".join(rest), "profile": False, "pieces": None, "steps": []})
        elif first in ("group", "rule"):
            found[-1][first] = " ".join(rest)
        elif first == "profile":
            found[-1]["profile"] = True
        elif first == "in":
            found[-1]["pieces"] = int(rest[2])
        else:
            found[-1]["steps"].append((first, rest))
    return found


def bytes_of(case, site, encoder):
    data = b""
    for first, words in case["steps"]:
        if first == "bytes":
            data += hexadecimal(words[0])
        elif first == "send":
            data += b"".join(sent(site, encoder, counter, hexadecimal(words[1]), words[2:]) for counter in span(words[0]))
    return data


def wanted(case):
    """The replies that must come: each its counter and its code, or None for any code but 00."""
    steps = [(words[0], int(words[1], 16) if first == "reply" else None) for first, words in case["steps"] if first in ("reply", "refusal")]
    return [(counter, code) for row, code in steps for counter in span(row)]


def is_wanted(came, want):
    return isinstance(came, tuple) and came[0] == want[0] and (came[1] == want[1] or (want[1] is None and came[1] != 0))


def told(data, own):
    """What the segments of some bytes say: a reply as its counter and code, or why it is none."""
    for inside, end in re.findall(rb"\xfe([^\xfe\xff]*)(?=([\xfe\xff]))", data):
        bare = re.sub(rb"\xfd([\x00-\x02])", lambda found: bytes([0xFD + found[1][0]]), inside)
        if end == b"\xff" and inside == b"".join(stuffed(bare)) and bare == plain(own, 0, bare[4:-2]) and len(bare) == 9 and bare[4] == 0x18:
            yield bare[6], bare[5]
        else:
            yield "a segment that is no reply: FE" + inside.hex().upper()


def read_until(line, data, is_enough):
    while not is_enough(data):
        try:
            more = line.recv(4096)
        except TimeoutError:
            return data
        if not more:
            return data
        data += more
    return data


def is_joined(data, own):
    counters = [reply[0] for reply in told(data, own) if isinstance(reply, tuple)]
    return 0x81 in counters and 0xFF in counters[counters.index(0x81) :]


def run(case, host, port, site, encoder, quiet):
    """None where the case is kept, else what is wrong."""
    own, want, data = site * 64 + encoder, wanted(case), bytes_of(case, site, encoder)
    with socket.create_connection((host, port), 3) as line:
        line.setsockopt(socket.IPPROTO_TCP, socket.TCP_NODELAY, 1)
        line.sendall(b"".join(on_the_line(plain(own, counter, b"")) for counter in range(1, 256)))
        if not is_joined(read_until(line, b"", lambda data: is_joined(data, own)), own):
            return "not joined"
        line.settimeout(quiet)
        if len(read_until(line, b"", lambda left: len(left) > FLOOD)) > FLOOD:
            return "floods"
        line.settimeout(3)
        size = case["pieces"] or len(data)
        for at in range(0, len(data), size):
            line.sendall(data[at : at + size])
        came = read_until(line, b"", lambda data: data.count(b"\xff") >= len(want))
        line.settimeout(quiet)
        came = list(told(read_until(line, came, lambda data: False), own))
    is_kept = len(came) == len(want) and all(map(is_wanted, came, want))
    return None if is_kept else f"wanted {words_of(want)}, came {words_of(came)}"


def words_of(replies):
    return ", ".join(map(word_of, replies)) or "nothing"


def word_of(reply):
    if isinstance(reply, str):
        return reply
    return f"refusal {reply[0]:02X}" if reply[1] is None else "reply {:02X} {:02X}".format(*reply)


def main():
    arguments = argparse.ArgumentParser(description=__doc__, formatter_class=argparse.RawDescriptionHelpFormatter)
    arguments.add_argument("line")
    for name, kind, value in (("--site", int, 1), ("--encoder", int, 1), ("--only", str, None), ("--quiet", float, 0.3)):
        arguments.add_argument(name, type=kind, default=value)
    options = arguments.parse_args()
    host, _, port = options.line.rpartition(":")
    chosen = [case for case in cases(CASES) if options.only in (None, case["case"], case["group"])]
    print(f"TAP version 14\n1..{len(chosen)}")
    kept = profile = 0
    for number, case in enumerate(chosen, 1):
        try:
            wrong = run(case, host, int(port), options.site, options.encoder, options.quiet)
        except OSError as fault:
            print(f"Bail out! {fault}")
            return 3
        name = case["case"].replace("\\", "\\\\").replace("#", "\\#")
        notes = [("TODO " * (wrong is not None)) + "profile"] * case["profile"] + [wrong] * (wrong is not None)
        print(f"{'not ' * (wrong is not None)}ok {number} - {name}" + (" # " + ", ".join(notes) if notes else ""), flush=True)
        kept += wrong is None
        profile += wrong is not None and case["profile"]
    print(f"# {kept} kept, {len(chosen) - kept} not kept, {profile} of them profile")
    return int(kept + profile < len(chosen))


if __name__ == "__main__":
    sys.exit(main())
