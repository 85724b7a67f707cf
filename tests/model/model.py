"""The protocol once more, in plain Python: what `uecp answer`, `uecp show` and `uecp line` are to write.

Written from docs/PROTOCOL.md and docs/MANUAL.md; tests/run/fuzz compares the program with it. The events of a line, but for ends that start
again, stand nearly word for word in tests/model/long_schedule.py too, so on these the two are one opinion. It is slow and
keeps no state that it could look up: it cuts a stream into segments first, then takes the stuffing out, then judges.

It also says what joining is: the frames of a pass, what an encoder answers to them, and which replies tell that it is joined. With that
tests/model/passes.py tries passes from each state of an encoder, and tests/run/joining and tests/run/restarts look at what the program does.

`python3 tests/model/model.py answer --store < FILE` is `uecp answer` by this file alone; so are `show` and `line`."""

import sys
from typing import NamedTuple

START, ESCAPE, END = 0xFE, 0xFD, 0xFF
MOST_PLAIN = 261
MOST_MESSAGE = 255
MOST_INPUT = 1_048_576
KEPT_REPLIES = 127
LATENESS = 126
WINDOW = 8
MOST_TEXTS = 8
MOST_GROUPS = 32


# Frames


class Frame(NamedTuple):
    address: int
    counter: int
    message: bytes


class Dropped(NamedTuple):
    """The fault of a segment that is no frame."""

    fault: str
    place: str = ""

    def line(self):
        return f"dropped {self.fault}{self.place}"


def check(data):
    register = 0xFFFF
    for byte in data:
        for place in (7, 6, 5, 4, 3, 2, 1, 0):
            differs = register >> 15 != byte >> place & 1
            register = register << 1 & 0xFFFF
            if differs:
                register ^= 0x1021
    return register ^ 0xFFFF


def plain_of(frame):
    body = frame.address.to_bytes(2, "big") + bytes([frame.counter, len(frame.message)]) + frame.message
    return body + check(body).to_bytes(2, "big")


def sent(plain):
    """Plain bytes as they go over the line, between the two ends of a segment."""
    stuffed = (bytes([ESCAPE, byte - ESCAPE]) if byte >= ESCAPE else bytes([byte]) for byte in plain)
    return bytes([START]) + b"".join(stuffed) + bytes([END])


def spelling(frame):
    return sent(plain_of(frame))


def segments(stream):
    """Each segment that has ended: the bytes between its FE and the FF or FE that ends it, and that byte."""
    start = None
    for place, byte in enumerate(stream):
        if byte in (START, END):
            if start is not None:
                yield stream[start + 1 : place], byte
            start = place if byte == START else None


def unstuffed(inside):
    """The plain bytes, or the fault at which reading them from the left ends."""
    plain, place = bytearray(), 0
    while place < len(inside):
        if len(plain) == MOST_PLAIN:
            return Dropped("3 TooLong")
        if inside[place] == ESCAPE:
            if inside[place + 1 : place + 2] not in (b"\x00", b"\x01", b"\x02"):
                return Dropped("2 BadStuffing", f" {place + 1}")  # the FE has place 0
            plain.append(ESCAPE + inside[place + 1])
            place += 2
        else:
            plain.append(inside[place])
            place += 1
    return bytes(plain)


def judged(inside, end):
    """What a segment is: a frame, or the first of its faults."""
    if end == START:
        return Dropped("1 Unended")
    plain = unstuffed(inside)
    if isinstance(plain, Dropped):
        return plain
    if len(plain) < 6:
        return Dropped("4 TooShort")
    if plain[3] != len(plain) - 6:
        return Dropped("5 WrongLength")
    if plain[-2] * 256 + plain[-1] != check(plain[:-2]):
        return Dropped("6 WrongCheck")
    return Frame(plain[0] * 256 + plain[1], plain[2], plain[4:-2])


def findings(stream):
    return [judged(inside, end) for inside, end in segments(stream)]


# Elements


class Element(NamedTuple):
    name: str
    fields: tuple  # its bytes, as the words of its line have them

    def line(self):
        return " ".join([self.name, *map(digits, self.fields)])


# each code's name, and how many bytes stand in each field; RadioText's length is in it
ELEMENTS = {
    0x01: ("pi", 1, 1, 2),
    0x02: ("ps", 1, 1, 8),
    0x03: ("tatp", 1, 1, 1),
    0x05: ("ms", 1, 1, 1),
    0x07: ("pty", 1, 1, 1),
    0x0A: ("rt", 1, 1),
    0x18: ("ack", 1, 1),
    0x1C: ("select", 1),
    0x24: ("group", 1, 1, 2, 2),
}
MOST_RADIOTEXT = 0x41
UNKNOWN, WRONG_LENGTH = 0x03, 0x07


def digits(data):
    return "empty" if data is None else data.hex().upper() or "-"


def element_at(message, place):
    """The element that begins at a place and the place behind it, or the code of a fault."""
    if message[place] not in ELEMENTS:
        return UNKNOWN, None
    name, *sizes = ELEMENTS[message[place]]
    fields, place = [], place + 1
    for size in sizes:
        fields.append(message[place : place + size])
        place += size
    if name == "rt" and place < len(message):
        length, place = message[place], place + 1
        if length > MOST_RADIOTEXT:
            return WRONG_LENGTH, None
        text = message[place : place + length]
        fields += [text[:1], text[1:]] if length else [None]
        place += length
    elif name == "rt":
        place += 1
    if place > len(message):
        return WRONG_LENGTH, None
    return Element(name, tuple(fields)), place


def reading(message):
    """The elements of a message, and the fault that ends them, with its place, or None."""
    elements, place = [], 0
    while place < len(message):
        element, behind = element_at(message, place)
        if behind is None:
            return elements, (element, place)
        elements.append(element)
        place = behind
    return elements, None


# The store


def rule_of(byte):
    """What bits 6 and 5 say: 0 stores alone, 2 adds."""
    return byte >> 5 & 3


class Store:
    def __init__(self, sets, services):
        self.sets, self.services, self.current, self.groups = sets, services, 1, []
        opening = {"pi": bytes(2), "ps": b" " * 8, "tp": 0, "ta": 0, "ms": 0, "pty": 0}
        self.data = {(number, service): {**opening, "texts": []} for number in range(1, sets + 1) for service in services}

    def named_sets(self, dsn):
        every = range(1, self.sets + 1)
        named = {0x00: [self.current], 0xFE: [number for number in every if number != self.current], 0xFF: every}
        return named.get(dsn, [dsn])

    def named(self, dsn, psn):
        """What the services that an element names have, in each of its data sets."""
        return [self.data[number, psn or self.services[0]] for number in self.named_sets(dsn)]

    def refusal(self, name, fields):
        """The first code that holds, or 00."""
        if name == "ack":
            return 0x09
        dsn = None if name == "group" else fields[0][0]
        psn = None if name in ("group", "select") else fields[1][0]
        rule = rule_of(fields[1][0]) if name == "group" else rule_of(fields[2][0]) if name == "rt" and fields[2] else 0
        if dsn is not None and self.sets < dsn <= 0xFD or name == "select" and dsn >= 0xFE:
            return 0x04
        if psn and psn not in self.services:
            return 0x05
        if rule in (1, 3) or name == "pty" and fields[2][0] > 0x1F or name == "group" and fields[0][0] > 0x1F:
            return 0x06
        if rule == 2 and name == "rt" and any(len(service["texts"]) == MOST_TEXTS for service in self.named(dsn, psn)):
            return 0x0B
        if rule == 2 and name == "group" and len(self.groups) == MOST_GROUPS:
            return 0x0B
        return 0x00

    def apply_element(self, element):
        name, fields = element
        code = self.refusal(name, fields)
        if code:
            return code
        if name == "select":
            self.current = fields[0][0] or self.current
        elif name == "group":
            kept = self.groups if rule_of(fields[1][0]) else []
            self.groups = kept + [(fields[0], bytes([fields[1][0] & 0x1F]), fields[2], fields[3])]
        else:
            for service in self.named(fields[0][0], fields[1][0]):
                put(service, name, *fields[2:])
        return 0x00

    def apply(self, message):
        """The code of the reply to a message; where it is not 00 the store is what it was."""
        # a service's fields and the queue are only ever exchanged for others, so no copy need go deeper
        before = {place: dict(service) for place, service in self.data.items()}, self.current, self.groups
        code = self.apply_in_turn(message)
        if code:
            self.data, self.current, self.groups = before
        return code

    def apply_in_turn(self, message):
        elements, fault = reading(message)
        for element in elements:
            code = self.apply_element(element)
            if code:
                return code
        return fault[0] if fault else 0x00

    def lines(self):
        written = [f"current {self.current}"]
        for (number, psn), service in self.data.items():
            flags = f"tp {service['tp']} ta {service['ta']} ms {service['ms']} pty {service['pty']:02X}"
            names = f"{digits(service['pi'])} {digits(service['ps'])}"
            written.append(f"service {number} {psn:02X} {names} {flags} texts {len(service['texts'])}")
            written += [f"text {head & 1} {head >> 1 & 0xF} {digits(text)}" for head, text in service["texts"]]
        return written + [f"queued {words_of(group)}" for group in self.groups]


def words_of(group):
    """A group, or a hyphen for none."""
    return " ".join(map(digits, group)) or "-"


def put(service, name, content, text=None):
    """What a service has after an element that was not refused."""
    if name in ("pi", "ps"):
        service[name] = content
    elif name == "pty":
        service["pty"] = content[0]
    elif name == "ms":
        service["ms"] = content[0] & 1
    elif name == "tatp":
        service["ta"], service["tp"] = content[0] & 1, content[0] >> 1 & 1
    elif content is None:
        service["texts"] = []
    else:
        kept = service["texts"] if rule_of(content[0]) else []
        service["texts"] = kept + [(content[0], text)]


# The encoder


class Setup(NamedTuple):
    """The options of `answer` and `line`."""

    site: int = 1
    encoder: int = 1
    sets: int = 1
    services: tuple = (1,)
    store: bool = False


ACKNOWLEDGEMENT = 0x18
REPLY_CODES = (0x00, 0x03, 0x04, 0x05, 0x06, 0x07, 0x09, 0x0B)


class Encoder:
    def __init__(self, setup):
        self.setup = setup
        self.store = Store(setup.sets, setup.services)
        self.codes = {}  # of the kept replies, by their counters, the newest last

    def next(self):
        """The only counter under which a message may be applied now."""
        return 1 + list(self.codes)[-1] % 255 if self.codes else 1

    def reply(self, counter):
        return spelling(Frame(self.setup.site * 64 + self.setup.encoder, 0, bytes([ACKNOWLEDGEMENT, self.codes[counter], counter])))

    def take(self, frame):
        """Whether a frame has a reply, new or kept, or why it has none."""
        site, encoder = frame.address >> 6, frame.address & 0x3F
        if site not in (0, self.setup.site) or encoder not in (0, self.setup.encoder):
            return "not for me"
        if frame.counter == 0:
            return "unnumbered"
        if frame.counter in self.codes:
            return "kept"
        if frame.counter != self.next():
            return "not next"
        codes = {**self.codes, frame.counter: self.store.apply(frame.message)}
        self.codes = dict(list(codes.items())[-KEPT_REPLIES:])
        return "new"

    def hear(self, finding):
        """The line of what the encoder answers."""
        if isinstance(finding, Dropped):
            return finding.line()
        what = self.take(finding)
        return f"reply {digits(self.reply(finding.counter))} {what}" if what in ("new", "kept") else what


# Joining


def counters_behind(behind):
    """The counters of a pass that goes on behind this one, or from 01 behind 00, as they are sent: so that 81 comes, and then FF. Where
    it goes on those above come twice, up to FE."""
    if behind == 0x00:
        return [*range(0x01, 0x100)]
    twice = [counter for counter in range(behind + 1, 0xFF) for _ in range(2)]
    return twice + ([0xFF] if behind < 0x81 else [0x81, 0xFF])


def goes_on_behind(behind, counters):
    """Behind which counter the next part of a pass goes on, where on one connection those replies to one behind this counter were read."""
    highest = max(counters, default=0)
    return 0 if highest in (0x00, 0xFF) else max(behind, highest)


def pass_to(address, behind=0):
    """The frames of a pass, an empty message under each counter, whole or from behind one."""
    return [Frame(address, counter, b"") for counter in counters_behind(behind)]


def counters_answered(address, found):
    """The counters that the replies of the encoder at an address answer, in their order: among what was found in a stream."""
    frames = [finding for finding in found if isinstance(finding, Frame) and finding.address == address and finding.counter == 0]
    replies = [frame.message for frame in frames if len(frame.message) == 3 and frame.message[0] == ACKNOWLEDGEMENT]
    return [counter for _, code, counter in replies if code in REPLY_CODES]


def tell_joined(counters):
    """Whether the replies that were read after one pass, by the counters that they answer, tell that the encoder is joined."""
    return 0x81 in counters and 0xFF in counters[counters.index(0x81) + 1 :]


# The line with both ends


def least_outside(numbers):
    """The least number that is not among these."""
    return min(set(range(len(numbers) + 1)).difference(numbers))


class Line:
    """Both ends by the numbers of messages alone: which were sent, which were applied and with what code, which were acknowledged."""

    def __init__(self, setup):
        self.store = Store(setup.sets, setup.services)
        self.sent, self.codes, self.acknowledged = [], {}, set()
        self.noise = {"encoder": b"", "server": b""}  # since the last whole frame, or the last loss or start of that end

    def held(self):
        """The numbers that the server holds: from the first that is not acknowledged on, acknowledged ones behind it too."""
        return range(least_outside(self.acknowledged), len(self.sent))

    def next(self):
        """The only number that the encoder may apply now."""
        return least_outside(self.codes)

    def is_late(self, number):
        return len(self.sent) - 1 - number > LATENESS

    def submit(self, message):
        if len(self.held()) == WINDOW:
            return "refused 1 Busy"
        self.sent.append(message)
        return f"numbered {len(self.sent) - 1}"

    def frame(self, number):
        if number >= len(self.sent):
            return "refused 2 NotSent"
        if self.is_late(number):
            return "refused 3 TooLate"
        self.noise["encoder"] = b""  # whatever the encoder makes of it, a whole frame came
        if number in self.codes:
            return f"delivered {number} kept {self.codes[number]:02X}"
        if number != self.next():
            return f"not next {number}"
        self.codes[number] = self.store.apply(self.sent[number])
        return f"delivered {number} new {self.codes[number]:02X}"

    def reply(self, number):
        if number not in self.codes:
            return "refused 2 NotSent"
        if self.is_late(number):
            return "refused 3 TooLate"
        self.noise["server"] = b""
        if number in self.acknowledged:
            return "stray"
        self.acknowledged.add(number)
        return f"acknowledged {self.codes[number]:02X}"

    def disturb(self, end, data):
        before, after = findings(self.noise[end]), findings(self.noise[end] + data)
        if any(isinstance(finding, Frame) for finding in after):
            return "refused 4 HoldsAFrame"
        self.noise[end] += data
        return f"noise {len(after) - len(before)}"

    def lose(self, end):
        self.noise[end] = b""
        return "lost"

    def restart(self, end):
        """An end starts again, and goes on from what it kept: of the end only what was open and its counts are gone."""
        self.noise[end] = b""
        return "restarted"

    def take(self):
        """The modulator takes the group that waits longest; no number, code or noise has a part in it."""
        waiting = self.store.groups
        self.store.groups = waiting[1:]
        return f"taken {words_of(waiting[0] if waiting else ())}"

    def replace(self):
        """The server is gone, and a new one joins the encoder: it begins at number 0, and of all that was only the store is left."""
        waiting = len(self.sent) - len(self.acknowledged)
        self.sent, self.codes, self.acknowledged = [], {}, set()
        self.noise = {"encoder": b"", "server": b""}
        return f"given up {waiting}"

    def totals(self):
        return f"sent {len(self.sent)} applied {len(self.codes)} acknowledged {least_outside(self.acknowledged)}"


# Input lines


class Refused(Exception):
    """What is wrong with an input line."""


HEX = frozenset(b"0123456789ABCDEFabcdef")
DECIMAL = frozenset(b"0123456789")


def bytes_of(word, fault):
    """The bytes that a row of an even number of hexadecimal digits spells."""
    if not HEX.issuperset(word) or len(word) % 2:
        raise Refused(fault)
    return bytes.fromhex(word.decode())


def lines_of(text):
    """The number and the content of each line that is not passed over."""
    lines = text.split(b"\n")
    for number, line in enumerate(lines, 1):
        if number < len(lines) and line.endswith(b"\r"):
            line = line[:-1]
        line = line.strip(b" ")
        if line and not line.startswith(b"#"):
            yield number, line


def number_of(word):
    if not DECIMAL.issuperset(word) or not 1 <= len(word) <= 9:
        raise Refused("not a command")
    return int(word)


def cut_of(word):
    if not word or not DECIMAL.issuperset(word) or int(word) > 65535:
        raise Refused("not a command")


def play(line, words):
    """The answer of a line to the words of an event."""
    name, *rest = [word for word in words.split(b" ") if word]
    if name == b"submit" and len(rest) == 1:
        message = b"" if rest == [b"-"] else bytes_of(rest[0], "not a command")
        if len(message) > MOST_MESSAGE:
            raise Refused("message too long")
        return line.submit(message)
    if name in (b"frame", b"reply") and rest:
        number = number_of(rest[0])
        for word in rest[1:]:
            cut_of(word)  # wherever a frame is cut, it does the same
        return line.frame(number) if name == b"frame" else line.reply(number)
    if name in (b"noise-encoder", b"noise-server") and len(rest) == 1:
        return line.disturb(name[6:].decode(), bytes_of(rest[0], "not a command"))
    if name == b"line-lost" and rest in ([b"encoder"], [b"server"]):
        return line.lose(rest[0].decode())
    if name == b"restart" and rest in ([b"encoder"], [b"server"]):
        return line.restart(rest[0].decode())
    if name == b"take" and not rest:
        return line.take()
    if name == b"replace" and rest == [b"server"]:
        return line.replace()
    raise Refused("not a command")


# The program


class Outcome(NamedTuple):
    output: str
    error: str
    status: int


def outcome(lines, error=None):
    """What a run wrote; an error is its status and its text."""
    status, text = error or (0, None)
    return Outcome("".join(f"{line}\n" for line in lines), f"uecp: {text}\n" if error else "", status)


def services_of(text):
    """The services of a list, or the name of its fault."""
    words = text.encode().split(b",")
    if not all(len(word) == 2 and HEX.issuperset(word) for word in words):
        return None, "NotAList"
    services = tuple(int(word, 16) for word in words)
    if len(services) > 8:
        return None, "ServiceCount"
    if 0 in services:
        return None, "ServiceZero"
    return (None, "ServiceTwice") if len(set(services)) < len(services) else (services, None)


def shown(finding):
    """The lines of `show` for what was found."""
    if isinstance(finding, Dropped):
        return [finding.line()]
    elements, fault = reading(finding.message)
    faults = [f"fault {fault[0]:02X} {fault[1]}"] if fault else []
    return [f"frame {finding.address:04X} {finding.counter:02X}", *(element.line() for element in elements), *faults]


def stream_of(text):
    """The bytes of all pieces up to the first line that is refused, and that refusal."""
    pieces = []
    for number, line in lines_of(text):
        try:
            pieces.append(bytes_of(line.replace(b" ", b""), "not hex"))
        except Refused as fault:
            return b"".join(pieces), (1, f"line {number}: {fault}")
    return b"".join(pieces), None


def run_show(text):
    # wherever a stream is cut into pieces, the same is found in it
    stream, error = stream_of(text)
    return outcome((line for finding in findings(stream) for line in shown(finding)), error)


def run_make_of_shown(text):
    """What `make` writes of the lines of `show` but `dropped` and `fault`: each frame, its message up to the fault."""
    frames = [finding for finding in findings(stream_of(text)[0]) if isinstance(finding, Frame)]
    faults = [reading(frame.message)[1] for frame in frames]
    kept = [frame.message[: fault[1]] if fault else frame.message for frame, fault in zip(frames, faults)]
    return outcome(digits(spelling(frame._replace(message=message))) for frame, message in zip(frames, kept))


def run_answer(setup, text):
    stream, error = stream_of(text)
    encoder = Encoder(setup)
    lines = [encoder.hear(finding) for finding in findings(stream)]
    return outcome(lines + (encoder.store.lines() if setup.store and not error else []), error)


def run_line(setup, text):
    line, lines = Line(setup), []
    for number, words in lines_of(text):
        try:
            lines.append(play(line, words))
        except Refused as fault:
            return outcome(lines, (1, f"line {number}: {fault}"))
    return outcome(lines + [line.totals()] + (line.store.lines() if setup.store else []))


def run(command, setup, text):
    if len(text) > MOST_INPUT:
        return outcome([], (3, "input too long"))
    if command == "show":
        return run_show(text)
    return run_answer(setup, text) if command == "answer" else run_line(setup, text)


def run_words(words, text):
    """The same by the words of a command line that names options with values in range."""
    command, options = words[0], {"--services": "01"}
    words = iter(words[1:])
    for word in words:
        name, sign, value = word.partition("=")
        options[name] = value if sign or name == "--store" else next(words)
    services, fault = services_of(options["--services"])
    if fault:
        return outcome([], (2, f"services: {fault}"))
    numbers = {name: int(options.get(f"--{name}", 1)) for name in ("site", "encoder", "sets")}
    return run(command, Setup(**numbers, services=services, store="--store" in options), text)


MOST = {"--site": 1023, "--encoder": 63, "--sets": 8}
OPTIONS = {"show": (), "answer": (*MOST, "--services", "--store"), "line": (*MOST, "--services", "--store")}


def are_options(command, words):
    """Whether these words name options of a command, each once, with numbers in range. Lists of services are judged later."""
    named, words = [], iter(words)
    for word in words:
        name, sign, value = word.partition("=")
        named.append(name)
        if name not in OPTIONS.get(command, ()) or name == "--store" and sign:
            return False
        value = value if sign or name == "--store" else next(words, "-")
        if name in MOST and not (value.isdecimal() and 1 <= int(value) <= MOST[name]) or value.startswith("-"):
            return False
    return command in OPTIONS and len(named) == len(set(named))


def main(words):
    if "-h" in words or "--help" in words:
        ended = Outcome(__doc__, "", 0)
    elif not are_options(words[0] if words else "", words[1:]):
        ended = outcome([], (2, "not a command line of the model"))
    else:
        ended = run_words(words, sys.stdin.buffer.read())
    sys.stdout.write(ended.output)
    sys.stderr.write(ended.error)
    return ended.status


if __name__ == "__main__":
    sys.exit(main(sys.argv[1:]))
