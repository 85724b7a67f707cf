"""Random inputs for tests/run/fuzz, by a seed: streams of bytes for `uecp answer` and `uecp show`, scripts of events for `uecp line`,
and the options of an encoder."""

import random

import model
from model import END, ESCAPE, START, Frame

MARKS = bytes([ESCAPE, START, END, 0x00, 0x01, 0x02])
KNOWN = bytes(model.ELEMENTS)
# how many frames back a repeat lies: near, about the 127 kept replies, anywhere
NEAR, EDGE = range(0, 10), range(122, 133)


def setup_of(chance):
    """The options of an encoder, in their whole range, small numbers more often."""
    services = chance.sample(range(1, 256), chance.choice([1, 1, 2, 3, 8]))
    return model.Setup(
        site=chance.choice([1, 1, 2, 1023, chance.randrange(1, 1024)]),
        encoder=chance.choice([1, 1, 2, 63, chance.randrange(1, 64)]),
        sets=chance.choice([1, 1, 2, 3, 8]),
        services=tuple(services),
        store=chance.random() < 0.9,
    )


def words_of(chance, setup):
    """The same as words of a command line; what has its default may be left out."""
    written = []
    services = ",".join(mixed(chance, f"{service:02x}") for service in setup.services)
    for name, value, default in (("site", setup.site, 1), ("encoder", setup.encoder, 1), ("sets", setup.sets, 1), ("services", services, "01")):
        if value != default or chance.random() < 0.3:
            written.append([f"--{name}={value}"] if chance.random() < 0.3 else [f"--{name}", str(value)])
    if setup.store:
        written.append(["--store"])
    chance.shuffle(written)
    return [word for words in written for word in words]


def mixed(chance, digits):
    """Digits of either case."""
    kind = chance.randrange(3)
    return digits.upper() if kind == 0 else digits if kind == 1 else "".join(chance.choice([digit.upper(), digit]) for digit in digits)


class Maker:
    """Makes elements, messages and frames for an encoder with these options."""

    def __init__(self, chance, setup):
        self.chance, self.setup = chance, setup
        self.own = setup.site * 64 + setup.encoder

    def some(self, count):
        """Bytes: letters, anything, or what has to be stuffed."""
        kind = self.chance.randrange(4)
        pick = {0: range(256), 1: MARKS}.get(kind, range(0x20, 0x7F))
        return bytes(self.chance.choice(pick) for _ in range(count))

    def named(self):
        """A data set number and a service number; most are there."""
        chance, setup = self.chance, self.setup
        numbered = [chance.randint(1, setup.sets), chance.randint(1, setup.sets), setup.sets, setup.sets + 1]
        dsn = chance.choice([0, 0, 0, 0, *numbered, 0xFE, 0xFF, chance.choice([0xFD, chance.randrange(256)])])
        psn = chance.choice([0, 0, *setup.services] * 3 + [chance.randrange(256)])
        return bytes([dsn, psn])

    def head(self):
        """The head of a text or the mode of a group; most of them add."""
        rule = self.chance.choice([0x00, 0x20, *[0x40] * 6, 0x60])
        return rule | self.chance.choice([0x00, 0x1F, 0x80, self.chance.randrange(32)])

    def type(self):
        """A programme type or a group's type; some are above the greatest, 1F."""
        return self.chance.choice([0x1F, 0x20, self.chance.choice([0xFF, self.chance.randrange(256)]), *[self.chance.randrange(32)] * 9])

    def radiotext(self):
        count = self.chance.choice([0, 1, 2, 8, 63, 64, self.chance.randrange(65)])
        return b"\x00" if self.chance.random() < 0.06 else bytes([count + 1, self.head()]) + self.some(count)

    def group(self):
        # a rule that empties the queue is rare, so that it fills
        mode = self.chance.choice([self.head(), *[0x40 | self.chance.randrange(32)] * 9])
        return bytes([self.type(), mode]) + self.some(4)

    def groups(self, count):
        """A message that adds so many groups, each another, and nothing else."""
        return b"".join(bytes([0x24, self.chance.randrange(32), 0x40]) + self.chance.randbytes(4) for _ in range(count))

    def element(self):
        code = self.chance.choice(KNOWN + b"\x0a\x0a\x24\x24")
        if code == 0x24:
            return bytes([code]) + self.group()
        if code == 0x18:
            # it ends a message, so it is rare
            return bytes([code]) + self.some(2) if self.chance.random() < 0.2 else self.element()
        if code == 0x1C:
            return bytes([code]) + self.named()[:1]
        begun = bytes([code]) + self.named()
        if code == 0x0A:
            return begun + self.radiotext()
        if code == 0x07:
            return begun + bytes([self.type()])
        return begun + self.some({0x01: 2, 0x02: 8}.get(code, 1))

    def message(self):
        """A message of at most 255 bytes: elements, whole, cut off, or with something else behind them."""
        kind, chance = self.chance.randrange(20), self.chance
        if kind == 0:
            return b""
        if kind == 1:
            return self.some(chance.choice([1, 5, 100, 255]))
        elements = b"".join(self.element() for _ in range(chance.choice([1, 1, 1, 2, 3])))
        if kind == 6:
            return self.groups(chance.choice([1, 2, 5, 16, 31, 32, 33]))
        if kind == 2:
            elements = b"".join(self.element() for _ in range(60))
        elif kind == 3:
            elements = elements[: chance.randrange(len(elements))]
        elif kind == 4:
            elements += bytes([chance.choice([code for code in range(256) if code not in KNOWN])]) + self.some(3)
        elif kind == 5:
            elements += b"\x0a" + self.named() + bytes([chance.choice([0x42, 0x43, 0xFF])]) + self.some(chance.choice([0, 70]))
        return elements[:255]

    def address(self):
        """One that reaches the encoder."""
        site, encoder = self.setup.site * 64, self.setup.encoder
        return self.chance.choice([self.own] * 6 + [site, encoder, 0])

    def other_address(self):
        """One that doesn't, often by a little."""
        site, encoder = self.setup.site, self.setup.encoder
        for _ in range(1000):
            near = (site ^ 1 << self.chance.randrange(10), encoder), (site, encoder ^ 1 << self.chance.randrange(6))
            other = self.chance.choice([*near, (self.chance.randrange(1024), self.chance.randrange(64))])
            if other[0] not in (0, site) or other[1] not in (0, encoder):
                break
        return other[0] * 64 + other[1]

    def damaged(self, data):
        """Bytes with one changed, left out or added, or two exchanged."""
        at = self.chance.randrange(len(data))
        other = bytes([self.chance.choice([data[at] ^ 1 << self.chance.randrange(8), *MARKS[:3]])])
        before, here, behind = data[:at], data[at : at + 1], data[at + 1 :]
        return before + self.chance.choice([other + behind, behind, here + other + behind, behind[:1] + here + behind[1:]])

    def ill_made(self):
        """A segment that is no frame, by one of its faults alone where that can be."""
        chance, kind = self.chance, self.chance.randrange(8)
        plain = model.plain_of(Frame(self.own, chance.randrange(256), self.message()))
        if kind == 0:
            return model.sent(self.some(chance.randrange(6)))
        if kind == 1:
            body = plain[:3] + bytes([plain[3] ^ 1 << chance.randrange(8)]) + plain[4:-2]
            return model.sent(body + model.check(body).to_bytes(2, "big"))
        if kind == 2:
            return model.sent(plain[:-2] + bytes([plain[-2] ^ chance.choice([0, 1]), plain[-1] ^ 1 << chance.randrange(8)]))
        if kind == 3:
            return model.sent(self.some(chance.choice([260, 261, 262, 263, 300, 600])))
        if kind == 4:
            # an FD, good or bad, behind so many plain bytes
            before = model.sent(self.some(chance.choice([0, 1, 258, 259, 260, 261, 262, chance.randrange(260)])))[:-1]
            return before + bytes([ESCAPE]) + chance.choice([b"", b"\x03", b"\x00", b"\xfd"]) + self.some(2) + bytes([END])
        if kind == 5:
            return bytes([START]) + self.some(chance.randrange(800))
        if kind == 6:
            return chance.choice([bytes([START]), bytes([START, START]), bytes([END]), bytes([START, END]), bytes([END, ESCAPE])])
        return model.sent(plain[: chance.randrange(1, len(plain))])


class Studio(Maker):
    """Makes a stream: frames in order, others, and what a bad line makes of them."""

    def __init__(self, chance, setup):
        super().__init__(chance, setup)
        # an encoder that has heard nothing takes no other than 01
        self.counter, self.frames = chance.choice([0] * 9 + [chance.randrange(256)]), []
        often = chance.choice([0.2, 1, 1, 4])
        self.kinds = {
            self.next: 60, self.again: 14, self.window: 2, self.ahead: 2, self.under_any_counter: 2, self.to_others: 5, self.unnumbered: 3,
            self.noise: 6 * often, self.torn: 5 * often, self.hurt: 6 * often, self.ill_made: 10 * often,
        }  # fmt: skip

    def stream(self, count):
        return b"".join(kind() for kind in self.chance.choices(list(self.kinds), self.kinds.values(), k=count))

    def numbered(self):
        """A frame under the next counter."""
        self.counter = self.counter % 255 + 1
        return model.spelling(Frame(self.address(), self.counter, self.message()))

    def next(self):
        self.frames.append(self.numbered())
        return self.frames[-1]

    def again(self):
        back = self.chance.choice(self.chance.choice([NEAR, EDGE, EDGE, range(len(self.frames) + 1)]))
        return self.frames[-1 - back] if back < len(self.frames) else b""

    def window(self):
        """Frames of up to eight messages in any order, and then all of them in theirs, as from a server that heard no reply."""
        chance, frames = self.chance, [self.numbered() for _ in range(self.chance.randint(2, model.WINDOW))]
        self.frames += frames
        return b"".join(chance.choice([frames[::-1], frames[1:], chance.sample(frames, len(frames))]) + frames)

    def ahead(self):
        """A frame that comes before its turn."""
        counter = (self.counter + self.chance.choice([1, 1, 2, 7])) % 255 + 1
        return model.spelling(Frame(self.address(), counter, self.message()))

    def under_any_counter(self):
        return model.spelling(Frame(self.address(), self.chance.randrange(256), self.message()))

    def to_others(self):
        return model.spelling(Frame(self.other_address(), self.chance.randrange(256), self.message()))

    def unnumbered(self):
        return model.spelling(Frame(self.chance.choice([self.address(), self.other_address()]), 0, self.message()))

    def noise(self):
        return self.some(self.chance.choice([1, 2, 5, 20, 100]))

    def spoilt(self, frame, got):
        """What a bad line left of a frame; often the whole frame comes after it, as from a server that heard no reply. Where it does not,
        the next message has its counter, so that it is the next."""
        if self.chance.random() < 0.5:
            self.counter -= 1
            return got
        self.frames.append(frame)
        return got + frame

    def torn(self):
        frame = self.numbered()
        at = self.chance.randrange(len(frame))
        return self.spoilt(frame, self.chance.choice([frame[:at], frame[at:]]))

    def hurt(self):
        frame = self.numbered()
        return self.spoilt(frame, self.damaged(frame))


# Input lines


class Writer:
    """Writes lines as a careless hand would: spaces, digits of either case, comments, line ends of both kinds."""

    def __init__(self, chance):
        self.chance, self.lines = chance, []
        self.rare = chance.choice([0, 0.03, 0.2])
        self.returns = chance.choice([0, 0, 0.5, 1])

    def gap(self):
        return b" " * self.chance.choice([0, 0, 0, 1, 3]) if self.chance.random() < self.rare else b""

    def end(self):
        return b"\r\n" if self.chance.random() < self.returns else b"\n"

    def put(self, line):
        while self.chance.random() < self.rare:
            any_bytes = self.chance.randbytes(self.chance.randrange(12)).replace(b"\n", b"")
            self.lines.append(self.gap() + self.chance.choice([b"", b" ", b"#", b"# FE", b"  #" + any_bytes]) + self.end())
        self.lines.append(self.gap() + line + self.gap() + self.end())

    def text(self, refused):
        """All lines; one of those that are refused may stand among them, or the last line may lack its end."""
        kind = self.chance.randrange(8)
        if kind == 0:
            at = self.chance.randrange(len(self.lines) + 1)
            self.lines.insert(at, self.chance.choice(refused) + self.chance.choice([b"\n", b"\r\n", b"\r\r\n"]))
        elif kind == 1:
            self.lines[-1] = self.lines[-1].rstrip(b"\r\n")
        elif kind == 2 and self.chance.random() < 0.3:
            self.lines[-1] = self.lines[-1].rstrip(b"\r\n") + b"\r"
        return b"".join(self.lines)


NO_PIECES = [b"F", b"FE 0", b"zz", b"FE\t00", b"\tFE", b"0xFE", b"FE # 00", b"\xef\xbb\xbfFE", b"-", b"FE\x00", b"F\xc3\x89", b"FE\rFF", b"\x0bFE", b"+1", b"FE,FF"]


def stream_text(chance, setup):
    """A stream on input lines, cut anywhere."""
    stream, writer = Studio(chance, setup).stream(chance.choice([150, 400, 800])), Writer(chance)
    sizes = chance.choice([[1], [1, 2, 3, 8], [1, 5, 20, 100], [30, 300, 3000], [len(stream)]])
    spaces = chance.choice([0, 0, 0.05, 0.5])
    place = 0
    while place < len(stream):
        size = chance.choice(sizes)
        row = mixed(chance, stream[place : place + size].hex())
        if spaces and chance.random() < 0.5:
            row = "".join(digit + " " if chance.random() < spaces else digit for digit in row)
        elif spaces:
            row = " ".join(row[at : at + 2] for at in range(0, len(row), 2))
        writer.put(row.encode())
        place += size
    return writer.text(NO_PIECES)


# Scripts of `uecp line`

NO_EVENTS = [
    *(b"-", b"FE", b"\xff", b"Submit -", b"submit", b"submit 0", b"submit 00 00", b"submit --", b"submit 0x00", b"submit -#"),
    *(b"submit " + b"00" * 256, b"submit " + b"0" * 513, b"frame", b"frame 1234567890", b"frame -1", b"frame +1", b"frame A", b"frame\t0"),
    *(b"frame 0 65536", b"frame 0 -1", b"frame 0 1A", b"frame 0 #", b"reply", b"reply 0000000000", b"reply 0 99999999999999999999"),
    *(b"noise-encoder", b"noise-encoder -", b"noise-server FE FF", b"noise-server F", b"noise-line FE"),
    *(b"line-lost", b"line-lost both", b"line-lost Server", b"line-lost server encoder"),
    *(b"restart", b"restart both", b"restart -", b"restart 0", b"restart Server", b"restart servers", b"restart server encoder", b"restart encoder #"),
    *(b"restart\tserver", b"restart server\t", b"Restart encoder", b"RESTART SERVER", b"restarted server", b"restart-server", b"restartserver", b"server restart"),
    *(b"take 1", b"take -", b"take 0", b"take now", b"take take", b"take\t", b"take #", b"Take", b"TAKE", b"taken", b"tak", b"take-group"),
]
NO_REPLACEMENTS = [
    *(b"replace", b"replace encoder", b"replace both", b"replace -", b"replace 0", b"replace Server", b"replace servers", b"replace server now"),
    *(b"replace server 0", b"replace server server", b"replace server encoder", b"replace server #", b"replace\tserver", b"replace server\t"),
    *(b"Replace server", b"REPLACE SERVER", b"replace-server", b"replaceserver", b"replaced server", b"server replace", b"re place server"),
]


class Script(Maker):
    """Makes events for a line; the model plays along, so that most of them fit where they stand. The server is replaced where there is a
    second chance, which decides when; ends go on from what they kept where there is a third."""

    def __init__(self, chance, setup, replacements=None, restarts=None):
        super().__init__(chance, setup)
        self.restarts = restarts
        self.restarting = restarts.choice([0.002, 0.01, 0.05]) if restarts else 0
        self.replacements, self.given_up = replacements, 0  # how many messages were numbered before the last replacement
        self.replacing = replacements.choice([0.0004, 0.001, 0.004]) if replacements else 0
        self.line, self.writer, self.waiting = model.Line(setup), Writer(chance), []
        self.loss = chance.choice([0.05, 0.3, 0.6])
        self.taking = 0.4  # how likely a take is
        self.window, self.turn = 1, min  # how many messages a server wants to hold, and which of several comes first

    def drift(self):
        """Now and then the modulator, the server's wishes and the order on the line change."""
        chance = self.chance
        if chance.random() < 0.03:
            # a modulator that is away for a while lets the queue fill, and one that is quick empties it
            self.taking = chance.choice([0, 0, 0.02, 0.1, 0.4, 0.98])
        if chance.random() < 0.05:
            self.window = chance.choice([1, 2, 3, 4, 5, 6, 7, model.WINDOW, model.WINDOW])
        if chance.random() < 0.05:
            self.turn = chance.choice([min, max, chance.choice])

    def event(self):
        if self.replacements and self.replacements.random() < self.replacing_now():
            self.given_up += len(self.line.sent)
            return "replace server"
        if self.restarts and self.restarts.random() < self.restarting * (4 if self.waiting else 1):
            return f"restart {self.restarts.choice(['encoder', 'server'])}"
        self.drift()
        if self.chance.random() < self.taking_now():
            return "take"
        if self.waiting:
            return self.waiting.pop(0)
        if self.chance.random() < self.loss:
            return self.disturbance()
        return self.progress()

    def progress(self):
        """What brings messages on, in the order of the time: a new one, a frame that may bring a reply, a reply that was not heard."""
        line, chance, held = self.line, self.chance, self.line.held()
        unapplied = [number for number in held if number not in line.codes]
        unheard = [number for number in held if number in line.codes and number not in line.acknowledged]
        if not held or len(held) < self.window and chance.random() < 0.5:
            return self.submission(self.next_message())
        if unapplied and (not unheard or chance.random() < 0.6):
            # only the first is applied, so it comes at least as often as all others
            return f"frame {chance.choice([unapplied[0], self.turn(unapplied)])}{self.cuts()}"
        if unheard:
            return f"reply {self.turn(unheard)}{self.cuts()}"
        return self.submission(self.next_message())

    def submission(self, message):
        return f"submit {self.row(message) or '-'}"

    def replacing_now(self):
        """How likely a replacement is: more where there was one just now, amid noise, and where all eight messages wait."""
        if not self.line.sent:
            return 0.1
        return self.replacing * (10 if self.waiting else 4 if len(self.line.held()) == model.WINDOW else 1)

    def taking_now(self):
        """How likely a take is: less where none waits, more where a message found no room."""
        if not self.line.store.groups:
            return min(self.taking, 0.15)
        return max(self.taking, 0.2) if self.found_no_room() else self.taking

    def found_no_room(self):
        """Whether the message that was applied last did not."""
        return self.line.codes.get(len(self.line.codes) - 1) == 0x0B

    def next_message(self):
        """A message; one that found no room often comes again under a new number."""
        return self.line.sent[len(self.line.codes) - 1] if self.found_no_room() and self.chance.random() < 0.5 else self.message()

    def disturbance(self):
        chance, end = self.chance, self.chance.choice(["encoder", "server"])
        kind = chance.randrange(12)
        if kind < 5:
            return f"{chance.choice(['frame', 'reply'])} {self.any_number()}{self.cuts()}"
        if kind == 5:
            # a ninth message is tried more often than one too many for the server's wishes
            return self.submission(self.message()) if len(self.line.held()) in (0, model.WINDOW) or chance.random() < 0.3 else self.progress()
        if kind < 8:
            return f"line-lost {end}"
        if kind < 10:
            return self.noise_line(end, self.some(chance.choice([1, 2, 8, 30])))
        frame = self.frame_on_line(end)
        at = chance.randrange(len(frame) + 1)
        hurt = self.damaged(frame)
        parts = chance.choice([[frame], [frame[:at]], [frame[at:]], [frame[:at], frame[at:]], [hurt], [hurt[:at], hurt[at:]], [self.ill_made()]])
        self.waiting = [self.noise_line(end, part) for part in parts if part] or ["line-lost server"]
        if chance.random() < 0.2:
            # another frame or reply comes amid the noise, often the frame of the newest message
            other = chance.choice([f"frame {max(len(self.line.sent) - 1, 0)}", f"frame {self.any_number()}", f"reply {self.any_number()}"])
            self.waiting.insert(1, other)
        return self.waiting.pop(0)

    def any_number(self):
        """The number of a message: near, about the last that may still come, anywhere, not sent yet."""
        newest, chance = len(self.line.sent) - 1, self.chance
        back = chance.choice(chance.choice([NEAR, EDGE, EDGE, range(len(self.line.sent) + 1), [-1, -300]]))
        return chance.choice([f"{max(newest - back, 0)}"] * 6 + [f"{max(newest - back, 0):09}", "999999999"])

    def cuts(self):
        count = self.chance.choice([0, 0, 1, 2, 5])
        return "".join(f" {self.chance.choice([0, 1, 2, 7, 300, 65535, '007', '0' * 30 + '8'])}" for _ in range(count))

    def row(self, data):
        return mixed(self.chance, data.hex())

    def noise_line(self, end, data):
        return f"noise-{end} {self.row(data)}"

    def frame_on_line(self, end):
        """A whole frame: one that could well come to that end, or any."""
        counter = self.chance.randrange(256)
        if end == "server":
            return model.spelling(Frame(self.own, 0, bytes([0x18, 0, counter])))
        return model.spelling(Frame(self.chance.choice([self.own, self.other_address()]), counter, self.message()))

    def text(self, messages):
        for _ in range(12 * messages):
            if self.given_up + len(self.line.sent) == messages and self.chance.random() < 0.4:
                break  # the last message may be left as it is
            event = self.event()
            model.play(self.line, event.encode())
            self.writer.put(event.replace(" ", " " * self.chance.choice([1, 1, 1, 1, 4])).encode())
        return self.writer.text(NO_EVENTS + NO_REPLACEMENTS if self.replacements else NO_EVENTS)


def script_text(chance, setup, replacements, restarts):
    """A script; the second chance decides whether it has replacements, the third whether ends go on in it from what they kept, and a script
    without them does not hang on these."""
    script = Script(chance, setup, replacements if replacements.random() < 0.4 else None, restarts if restarts.random() < 0.5 else None)
    return script.text(chance.choice([20, 20, 150, 300, 600, 800]))


def refused_texts():
    """Each line that is refused, between two that are not: with the command that reads it."""
    for command, good, refused in (("answer", b"FE FF", NO_PIECES), ("line", b"frame 0 65535", NO_EVENTS + NO_REPLACEMENTS)):
        for line in refused:
            yield command, b"\n".join([good, line, good, b""])


def chance_of(*words):
    return random.Random(" ".join(map(str, words)))
