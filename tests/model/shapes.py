"""Thirteen inputs of `uecp answer`, each as many lines as fit into 1 MiB, and each of another shape: what stations send, and
what is hard to read. Every frame is for site 1, encoder 1, and the counters go on from 01, so that every message is new but
where a retry is meant."""

import random

MOST_BYTES = 1_048_576


def check_of(data):
    register = 0xFFFF
    for byte in data:
        for place in range(7, -1, -1):
            differs = (register >> 15) != (byte >> place & 1)
            register = register << 1 & 0xFFFF
            if differs:
                register ^= 0x1021
    return register ^ 0xFFFF


def frame(counter, message):
    body = bytes([0x00, 0x41, counter, len(message)]) + bytes(message)
    plain = body + check_of(body).to_bytes(2, "big")
    stuffed = b"".join(bytes([0xFD, byte - 0xFD]) if byte >= 0xFD else bytes([byte]) for byte in plain)
    return b"\xfe" + stuffed + b"\xff"


class Server:
    """Frames of messages, each under the next counter."""

    def __init__(self):
        self.last = 0

    def frame(self, message):
        self.last = self.last % 255 + 1
        return frame(self.last, message)


def digits(data):
    return data.hex().upper()


def letters(chance, count):
    return bytes(chance.randrange(32, 127) for _ in range(count))


def radiotext(text, head=0x00, dsn=0, psn=0):
    return bytes([0x0A, dsn, psn, 1 + len(text), head]) + text


def name(text, dsn=0, psn=0):
    return bytes([0x02, dsn, psn]) + text


def lines_of(line, end="\n"):
    """The lines of numbers from 0 on, as many as fit."""
    parts, left, number = [], MOST_BYTES, 0
    while True:
        part = line(number) + end
        left -= len(part)
        if left < 0:
            return "".join(parts)
        parts.append(part)
        number += 1


def pi():
    server = Server()
    return lines_of(lambda n: digits(server.frame(bytes([1, 0, 0, n >> 8 & 255, n & 255]))))


def empty():
    server = Server()
    return lines_of(lambda n: digits(server.frame(b"")))


def texts():
    server, chance = Server(), random.Random(1)
    return lines_of(lambda n: digits(server.frame(radiotext(letters(chance, 64), n & 1))))


def stuffing():
    """Bytes of which each is sent as two."""
    server, full = Server(), b"\xff"
    message = radiotext(full * 64, dsn=0xFF) * 3 + name(full * 8, dsn=0xFF) * 4
    return lines_of(lambda n: digits(server.frame(message)))


def session():
    """A station's day: names, texts, flags and groups, and one retry in twenty."""
    server, chance, last = Server(), random.Random(2), []

    def line(number):
        if last and number % 20 == 19:
            return digits(chance.choice(last))
        kind, text = chance.randrange(10), letters(chance, chance.randrange(20, 65))
        if kind < 4:
            message = radiotext(text, chance.choice([0, 1]))
        elif kind < 7:
            message = bytes([3, 0, 0, chance.randrange(4), 7, 0, 0, chance.randrange(32), 5, 0, 0, chance.randrange(2)])
        elif kind < 9:
            message = name(text[:8]) + b"\x01\x00\x00\xc2\x01"
        else:
            message = b"\x24\x04\x03" + text[:4] + b"\x24\x04\x43" + text[4:8]
        last[:] = (last + [server.frame(message)])[-50:]
        return digits(last[-1])

    return lines_of(line)


def retries():
    server = Server()
    frames = [digits(server.frame(radiotext(b"%03d" % n, 0x40))) for n in range(127)]
    return lines_of(lambda n: frames[n % 127])


def bytewise():
    """One byte a line."""
    server, chance, left = Server(), random.Random(3), []

    def line(_):
        if not left:
            left.extend(server.frame(radiotext(letters(chance, 30))))
        return f"{left.pop(0):02X}"

    return lines_of(line)


def onepiece():
    """All in one line."""
    server, chance = Server(), random.Random(4)
    return lines_of(lambda n: digits(server.frame(radiotext(letters(chance, 30)))), "")


def spaced():
    """Spaces between bytes, comments and blank lines."""
    server, chance = Server(), random.Random(5)

    def line(number):
        if number % 5 == 4:
            return chance.choice(["", "   ", "# a remark of some length, passed over", "  #"])
        return server.frame(radiotext(letters(chance, 30))).hex(" ") + chance.choice(["", "\r", "  "])

    return lines_of(line)


def noise():
    chance, marks = random.Random(6), bytes([0xFD, 0xFE, 0xFF, 0, 1, 2])

    def byte():
        return chance.choice(marks) if chance.random() < 0.3 else chance.randrange(256)

    return lines_of(lambda n: digits(bytes(byte() for _ in range(512))))


def skipped():
    """Bytes outside any segment."""
    chance = random.Random(7)
    return lines_of(lambda n: digits(bytes(chance.randrange(254) for _ in range(512))))


def unended():
    """As much output as input can bring: each FE but the first ends a segment that is no frame."""
    return lines_of(lambda n: "FE" * 512)


def eightsets():
    """Eight data sets of eight services: messages for all sets at once, full buffers, long messages."""
    server, chance = Server(), random.Random(8)

    def line(number):
        text, service = letters(chance, 40), number % 8 + 1
        if number % 12 < 9:
            return digits(server.frame(radiotext(text, 0x40, 0xFF, service)))  # the ninth of a service finds no room
        return digits(server.frame(radiotext(b"", 0x00, 0xFF, service) + b"".join(name(text[:8], 0xFF, s) for s in range(1, 9))))

    return lines_of(line)


OPTIONS = ["--store"]
EIGHT = ["--sets", "8", "--services", "01,02,03,04,05,06,07,08", "--store"]
SHAPES = {shape.__name__: (shape, EIGHT if shape is eightsets else OPTIONS) for shape in (
    pi, empty, texts, stuffing, session, retries, bytewise, onepiece, spaced, noise, skipped, unended, eightsets
)}
