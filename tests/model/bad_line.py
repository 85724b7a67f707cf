"""A bad line over TCP between `uecp server` and `uecp encoder`, for tests/run/restarts and tests/run/kept_state.

Each direction of a connection keeps its order and brings nothing twice. It is slow, and loses its end at any byte; where that is asked
for it loses and damages bytes amid others too. It gives the messages as well whose codes and store tell which of them were applied."""

import contextlib
import functools
import random
import socket
import threading
import time

import model

LATE = 0.025  # seconds that a piece may come late: more than some servers wait
SIZES = (1, 3, 8, 13, 40, 600, 600)  # of the pieces that the line brings

judged = functools.cache(model.judged)  # the frames of a pass come often


def frames_in(stream):
    found = [judged(bytes(inside), end) for inside, end in model.segments(stream)]
    return [finding for finding in found if isinstance(finding, model.Frame)]


def messages_of(chance, run, count):
    """Messages, each another. Their codes tell what was applied before: texts and groups are added until there is no room, and emptied now and then."""
    made = []
    for number in range(count):
        mark = bytes([0x01, 0, 0]) + (run * 0x1000 + number).to_bytes(2, "big")
        kinds = {
            bytes([0x0A, 0, 0, 3, 0x40]) + chance.randbytes(2): 10,
            bytes([0x0A, 0, 0, 0]): 2,
            bytes([0x24, 0, 0x40]) + chance.randbytes(4): 6,
            bytes([0x24, 0, 0x00]) + chance.randbytes(4): 1,
            bytes([0x03, 0, 0, number % 4]): 2,
            bytes([0x99]): 1,
        }
        made.append(chance.choices(list(kinds), kinds.values())[0] + mark)
    return made


class Way(threading.Thread):
    """One direction of a connection. What it brings is what it takes, with its end lost, and with holes and damage where that is asked for.
    It tells `passed` how many bytes it brought."""

    def __init__(self, chance, passed, source, sink, is_good, has_holes):
        super().__init__(daemon=True)
        self.chance, self.passed, self.source, self.sink = chance, passed, source, sink
        self.taken, self.brought = bytearray(), bytearray()
        self.is_over = False
        self.end = chance.choice([None, None, None, chance.randrange(3000), chance.randrange(12000)])
        self.late, self.holes = chance.choice([0, 0, 0.05, 0.3]), chance.choice([0, 0.02, 0.1]) if has_holes else 0
        if is_good:
            self.end, self.late, self.holes = None, 0, 0

    def run(self):
        with contextlib.suppress(OSError):
            while data := self.source.recv(320):
                self.taken += data
                if self.chance.random() < self.late:
                    time.sleep(self.chance.random() * LATE)
                # what comes after the end is taken all the same, so that neither program meets a broken connection for it
                self.bring(self.spoilt(data) if self.chance.random() < self.holes else data)
        self.finish()

    def spoilt(self, data):
        """A piece with some bytes lost, or one changed."""
        one, other = sorted(self.chance.choices(range(len(data) + 1), k=2))
        changed = bytes([data[one - 1] ^ self.chance.randrange(1, 256)])
        return self.chance.choice([b"", data[one:], data[:one], data[:one] + data[other:], data[: max(one - 1, 0)] + changed + data[one:]])

    def bring(self, data):
        while data and not self.is_over:
            size = self.chance.choice(SIZES)
            part, data = data[:size], data[size:]
            if self.end is not None:
                part = part[: self.end - len(self.brought)]
            try:
                self.sink.sendall(part)
            except OSError:
                self.is_over = True
                return
            self.brought += part
            self.passed(len(part))
            if len(self.brought) == self.end:
                self.finish()

    def finish(self):
        self.is_over = True
        with contextlib.suppress(OSError):
            self.sink.shutdown(socket.SHUT_WR)


class Connection(threading.Thread):
    """A server's connection, led on to the encoder's socket."""

    def __init__(self, chance, passed, near, far, is_good, has_holes):
        super().__init__(daemon=True)
        self.near, self.far = near, far
        for end in (self.near, self.far):
            end.setsockopt(socket.IPPROTO_TCP, socket.TCP_NODELAY, 1)
        self.forth = Way(random.Random(chance.random()), passed, self.near, self.far, is_good, has_holes)
        self.back = Way(random.Random(chance.random()), passed, self.far, self.near, is_good, has_holes)

    def run(self):
        with self.near, self.far:
            self.forth.start()
            self.back.start()
            self.forth.join()
            self.back.join()


def is_part_in_order(some, others):
    others = iter(others)
    return all(one in others for one in some)


def check_line(connections):
    """The line kept its side: what it brought was taken, in that order."""
    for connection in connections:
        for way in (connection.forth, connection.back):
            is_kept = is_part_in_order(frames_in(way.brought), frames_in(way.taken))
            assert is_kept, "damage made a frame by chance, of which nothing is promised; take another seed"
