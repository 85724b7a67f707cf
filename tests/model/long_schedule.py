#!/usr/bin/env python3
"""Writes the case `line-long-schedule`: 770 messages, up to eight at a time, over a bad line and takes between them, past three turns
of the counter.

The expected output comes from the small model below, which was written from docs/PROTOCOL.md and shares nothing with the
program: it knows messages by number, which are applied and acknowledged, the groups that wait, and the noise since the last
whole frame. The schedule is pseudo-random and always the same. Comments in the script say why each refusal, the first frame that is
not next and the first take that finds no group come where they come first.
"""

import os

CASE = os.path.join(os.path.dirname(os.path.abspath(__file__)), "..", "cases", "line", "line-long-schedule")
MESSAGES = 770


class Chance:
    """A linear congruential generator, so that the schedule is the same everywhere."""

    def __init__(self, seed):
        self.state = seed

    def below(self, n):
        self.state = (self.state * 1103515245 + 12345) % 2**31
        return (self.state >> 8) % n


def check(data):
    """The check of a frame, bit by bit."""
    register = 0xFFFF
    for byte in data:
        for place in range(7, -1, -1):
            top = register >> 15 ^ (byte >> place & 1)
            register = register << 1 & 0xFFFF
            if top:
                register ^= 0x1021
    return register ^ 0xFFFF


def findings(data):
    """How many segments end in these bytes, and whether one of them is a frame."""
    ended, frame, start = 0, False, None
    for place, byte in enumerate(data):
        if byte not in (0xFE, 0xFF):
            continue
        if start is not None:
            ended += 1
            if byte == 0xFF:
                frame = frame or is_frame(data[start + 1 : place])
        start = place if byte == 0xFE else None
    return ended, frame


def is_frame(stuffed):
    plain, rest = [], list(stuffed)
    while rest:
        byte = rest.pop(0)
        if byte == 0xFD:
            if not rest or rest[0] > 2:
                return False
            byte += rest.pop(0)
        plain.append(byte)
    if not 6 <= len(plain) <= 261 or plain[3] != len(plain) - 6:
        return False
    return plain[-2] * 256 + plain[-1] == check(plain[:-2])


class Line:
    """What a line should do, by numbers alone."""

    def __init__(self):
        self.sent, self.codes, self.acknowledged = [], {}, set()
        self.noise = {"encoder": b"", "server": b""}
        self.texts, self.pi, self.groups = [], 0, []

    def apply(self, message):
        """The code of one of the messages that this schedule uses, and what it does to the store."""
        if message == "0A000003404849":
            if len(self.texts) == 8:
                return 0x0B
            self.texts.append("text 0 0 4849")
        elif message == "0A000000":
            self.texts = []
        elif message.startswith("010000"):
            self.pi = int(message[6:], 16)
        elif message.startswith("24"):
            return self.queue([message[at : at + 14] for at in range(0, len(message), 14)])
        return {"99": 0x03, "0702000A": 0x04, "0700050A": 0x05, "07000020": 0x06, "0A0000": 0x07, "180001": 0x09}.get(message, 0)

    def queue(self, elements):
        """The code of a message of groups alone, all of which are queued or none."""
        groups = self.groups
        for element in elements:
            kind, mode, blocks = int(element[2:4], 16), int(element[4:6], 16), (element[6:10], element[10:])
            if kind > 0x1F or mode & 0x60 in (0x20, 0x60):
                return 0x06
            if mode & 0x60 == 0x40 and len(groups) == 32:
                return 0x0B
            groups = (groups if mode & 0x60 else []) + [f"{kind:02X} {mode & 0x1F:02X} {blocks[0]} {blocks[1]}"]
        self.groups = groups
        return 0

    def oldest(self):
        """The least number that is not acknowledged."""
        return next(number for number in range(len(self.sent) + 1) if number not in self.acknowledged)

    def submit(self, message):
        if len(self.sent) - self.oldest() == 8:
            return "refused 1 Busy"
        self.sent.append(message)
        return f"numbered {len(self.sent) - 1}"

    def frame(self, number):
        if number >= len(self.sent):
            return "refused 2 NotSent"
        if len(self.sent) - 1 - number > 126:
            return "refused 3 TooLate"
        self.noise["encoder"] = b""
        word = "kept"
        if number not in self.codes:
            if any(other not in self.codes for other in range(number)):
                return f"not next {number}"
            word, self.codes[number] = "new", self.apply(self.sent[number])
        return f"delivered {number} {word} {self.codes[number]:02X}"

    def reply(self, number):
        if number not in self.codes:
            return "refused 2 NotSent"
        if len(self.sent) - 1 - number > 126:
            return "refused 3 TooLate"
        self.noise["server"] = b""
        if number in self.acknowledged:
            return "stray"
        self.acknowledged.add(number)
        return f"acknowledged {self.codes[number]:02X}"

    def disturb(self, end, data):
        before, _ = findings(self.noise[end])
        after, frame = findings(self.noise[end] + data)
        if frame:
            return "refused 4 HoldsAFrame"
        self.noise[end] += data
        return f"noise {after - before}"

    def lose(self, end):
        self.noise[end] = b""
        return "lost"

    def take(self):
        return f"taken {self.groups.pop(0)}" if self.groups else "taken -"


KINDS = ["0A000003404849", "0A000003404849", "0A000000", "-", "99", "0702000A", "0700050A", "07000020", "0A0000", "180001"]
WHOLE = bytes.fromhex("FE004101006293FF")
WHY = {
    "Busy": "the message eight before it still waits for its reply, whichever were acknowledged since",
    "NotSent": "no message has this number yet, or none was applied under it",
    "TooLate": "more than 126 messages were numbered after it",
    "HoldsAFrame": "with the noise before it a whole frame would stand there",
    "frame that is not next": "a message before it was not applied yet",
    "take that finds none": "no group waits",
}


def schedule(chance, line):
    """Pairs of an input line and its answer."""

    def group(rule, kinds=32):
        return f"24{chance.below(kinds):02X}{rule + chance.below(32):02X}{chance.below(0x10000):04X}{chance.below(0x10000):04X}"

    def groups():
        """Most add one group or some; some stand alone, have a rule that is none or a type out of range, or are more than ever wait."""
        kind = chance.below(24)
        if kind < 4:
            return [group(0x00), group(0x20), group(0x60), group(0x40, 64)][kind]
        return "".join(group(0x40) for _ in range(1 if kind < 16 else 33 if kind == 16 else 2 + chance.below(7)))

    def message():
        last = len(line.codes) - 1
        if line.codes.get(last) == 0x0B and chance.below(2):
            return line.sent[last]  # what found no room, under a new number
        kind = chance.below(len(KINDS) + 10)
        if kind < len(KINDS):
            return KINDS[kind]
        return groups() if kind < len(KINDS) + 8 else f"010000{chance.below(0x10000):04X}"

    def cuts():
        return "".join(f" {chance.below(9)}" for _ in range(chance.below(4)))

    def old():
        return max(0, len(line.sent) - 1 - chance.below(140))

    def noise():
        kind = chance.below(6)
        if kind == 0:
            return WHOLE
        if kind < 3:
            return WHOLE[: 1 + chance.below(6)] if kind == 1 else WHOLE[2 + chance.below(4) :]
        return bytes([0xFE, 0xFF, 0xFD, 0x00, 0x41, chance.below(256)][chance.below(6)] for _ in range(1 + chance.below(9)))

    def disturb(end):
        data = noise()
        return f"noise-{end} {data.hex().upper()}", line.disturb(end, data)

    def outstanding():
        """One of the numbers from the least that is not acknowledged on; often that one."""
        held = len(line.sent) - line.oldest()
        return line.oldest() + chance.below(held) if held and chance.below(4) else min(line.oldest(), max(len(line.sent) - 1, 0))

    window = 1
    while len(line.acknowledged) < MESSAGES:
        newest, held, event = len(line.sent) - 1, len(line.sent) - line.oldest(), chance.below(16)
        # the server wants to hold more messages for some time, and fewer after it
        if chance.below(100) == 0:
            window = 1 + chance.below(8)
        # the modulator is slow for 110 messages and quick for the next
        if chance.below(80 if newest // 110 % 2 == 0 else 12) == 0:
            for _ in range(1 + chance.below(4)):
                yield "take", line.take()
        if event < 4:
            if len(line.sent) < MESSAGES and (held < window or held == 8 and chance.below(4) == 0):
                text = message()
                yield f"submit {text}", line.submit("" if text == "-" else text)
        elif event < 8:
            number = len(line.codes) if len(line.codes) <= newest and chance.below(3) == 0 else outstanding()
            yield f"frame {number}{cuts()}", line.frame(number)
        elif event < 11:
            number = outstanding()
            yield f"reply {number}{cuts()}", line.reply(number)
        elif event == 11:
            number = old()
            yield f"frame {number}{cuts()}", line.frame(number)
        elif event == 12:
            number = old()
            yield f"reply {number}{cuts()}", line.reply(number)
        elif event == 13:
            yield disturb("encoder")
        elif event == 14:
            yield disturb("server")
        else:
            end = ("encoder", "server")[chance.below(2)]
            yield f"line-lost {end}", line.lose(end)


def name_of(answer):
    if answer.startswith("not next"):
        return "frame that is not next"
    return "take that finds none" if answer == "taken -" else answer.rpartition(" ")[2]


def main():
    line, seen = Line(), set()
    script = [
        f"# {MESSAGES} messages over a bad line, one to eight at a time. The schedule goes on until each of them is acknowledged, so in",
        f"# the totals all three numbers are {MESSAGES}: none is lost, none is applied twice, and none before its turn.",
    ]
    output = []
    for event, answer in schedule(Chance(504), line):
        name = name_of(answer)
        if name in WHY and name not in seen:
            seen.add(name)
            script.append(f"# the first {name}: {WHY[name]}")
        script.append(event)
        output.append(answer)
    output.append(f"sent {len(line.sent)} applied {len(line.codes)} acknowledged {line.oldest()}")
    output.append("current 1")
    output.append(f"service 1 01 {line.pi:04X} 2020202020202020 tp 0 ta 0 ms 0 pty 00 texts {len(line.texts)}")
    output += line.texts
    output += [f"queued {group}" for group in line.groups]
    os.makedirs(CASE, exist_ok=True)
    for name, lines in (("args", ["line", "--store"]), ("stdin", script), ("stdout", output)):
        with open(os.path.join(CASE, name), "w", encoding="ascii") as file:
            file.write("".join(f"{text}\n" for text in lines))


if __name__ == "__main__":
    main()
