"""`uecp send` and the encoder at its other end: what tests/run/sending and tests/model/spooling.py share."""

import contextlib
import os
import queue
import random
import re
import signal
import socket
import string
import subprocess
import threading
import time

import model
from bad_line import Connection
from ports import free_port

MEMORY = "/dev/shm" if os.access("/dev/shm", os.W_OK) else None  # where files stand: a busy disk has no part in this
SECONDS = 120  # of one wait, however busy the machine is
NOTICE = re.compile(r"uecp: \d{4}-\d\d-\d\dT\d\d:\d\d:\d\d\.\d{3}Z (.*)\n")
ENDS = (4000, 12000)  # bytes after which a connection over a bad line ends at the latest; a pass has 2600
TRAFFIC = ("traffic none", "traffic eon", "traffic programme", "traffic announcement", "TP off", "Traffic eon", "ta off", "TA on")  # each twice, 0 to 3
MEANINGS = {0x03: "unknown element", 0x0B: "the buffer is full"}

# who is started in the background of a shell, as a gate may be, is deaf to SIGINT, and so is what it starts in turn
signal.signal(signal.SIGINT, signal.default_int_handler)


def is_listening(port):
    """Whether somebody does, by the system's own list, so that no connection is made for it."""
    wanted = f"0100007F:{port:04X} 00000000:0000 0A"
    with open("/proc/net/tcp", encoding="ascii") as table:
        return wanted in table.read()


# Lines and their messages


def spoken(chance, count, first=0):
    """Lines in words, each with the message that it makes. Their codes and the store tell which were applied, how often and in which order:
    texts and groups are added until there is no room, and emptied now and then."""
    made = []
    for number in range(first, first + count):
        text = "".join(chance.choices(string.ascii_uppercase, k=2))
        blocks = chance.randbytes(4)
        spelt = f"{blocks[:2].hex().upper()} {blocks[2:].hex().upper()}"
        kinds = {
            (f'rt "{text}" add', bytes([0x0A, 0, 0, 3, 0x41]) + text.encode()): 10,
            (f'rt "{text}" add same', bytes([0x0A, 0, 0, 3, 0x40]) + text.encode()): 2,
            ("rt clear", bytes([0x0A, 0, 0, 0])): 2,
            (f"group 0A 00 {spelt} add", bytes([0x24, 0, 0x40]) + blocks): 6,
            (f"group 0A 00 {spelt}", bytes([0x24, 0, 0x00]) + blocks): 1,
            (TRAFFIC[number % 8], bytes([0x03, 0, 0, number % 4])): 2,
            ("raw 99", bytes([0x99])): 1,
        }
        line, message = chance.choices(list(kinds), kinds.values())[0]
        made.append((f"{line}; pi {number % 0x10000:04X}", message + bytes([0x01, 0, 0]) + (number % 0x10000).to_bytes(2, "big")))
    return made


def folded(pairs):
    """The codes of messages that are applied once each and in order, and the store before each and at the end."""
    store = model.Store(1, (1,))
    codes, stores = [], [store.lines()]
    for _, message in pairs:
        codes.append(store.apply(message))
        stores.append(store.lines())
    return codes, stores


def told(number, code):
    """What is told of the message of this number, counted from 1, that was answered so."""
    return f"{number} applied" if code == 0 else f"{number} refused {code:02X} {MEANINGS[code]}"


def store_of(program, file):
    """The lines of the store in an encoder's file."""
    return state_of(program, file)[2:]


def state_of(program, file):
    """The lines of `uecp state`, once nobody has the file any more."""
    end = time.monotonic() + SECONDS
    while True:
        ran = subprocess.run([program, "state", file], capture_output=True, text=True, timeout=SECONDS, check=False)
        if ran.stderr != f"uecp: state in use: {file}\n" or time.monotonic() > end:
            break
        time.sleep(0.02)
    same((ran.returncode, ran.stderr), (0, ""))
    return ran.stdout.splitlines()


def same(got, wanted):
    if got != wanted:
        raise AssertionError(f"{got!r:.600} in place of {wanted!r:.600}")


# The ends


class Encoder:
    """An encoder at a port, which can be pulled and started again. With a file it goes on from there."""

    def __init__(self, program, file=None, port=None):
        self.program, self.file, self.port, self.child = program, file, port or free_port(), None

    def start(self):
        words = [self.program, "encoder", "--port", str(self.port), "--connections", "1000"]
        words += ["--state", self.file] if self.file else []
        self.child = subprocess.Popen(words, stdin=subprocess.DEVNULL, stdout=subprocess.DEVNULL, stderr=subprocess.DEVNULL)
        end = time.monotonic() + SECONDS
        while not is_listening(self.port):
            if self.child.poll() is not None or time.monotonic() > end:
                raise AssertionError(f"the encoder does not listen; its status is {self.child.poll()}")
            time.sleep(0.005)
        return self

    def pull(self):
        if self.child:
            self.child.kill()
            self.child.wait()
        self.child = None

    def __enter__(self):
        return self if self.child else self.start()

    def __exit__(self, *_):
        self.pull()


class Lines(threading.Thread):
    """The lines of a pipe, as they come."""

    def __init__(self, pipe):
        super().__init__(daemon=True)
        self.pipe, self.queue, self.all = pipe, queue.Queue(), []
        self.start()

    def run(self):
        for line in self.pipe:
            self.all.append(line.decode(errors="replace"))
            self.queue.put(self.all[-1])
        self.queue.put(None)

    def next(self, seconds=SECONDS):
        """The next line; None at the end, '' where none came in time."""
        try:
            return self.queue.get(timeout=seconds)
        except queue.Empty:
            return ""


class Send:
    """A `send` that is running: its input in our hands, its lines and notices as they come."""

    def __init__(self, program, port, *options):
        words = [program, "send", "--port", str(port), *options]
        self.child = subprocess.Popen(words, stdin=subprocess.PIPE, stdout=subprocess.PIPE, stderr=subprocess.PIPE)
        self.lines, self.errors = Lines(self.child.stdout), Lines(self.child.stderr)

    def __enter__(self):
        return self

    def __exit__(self, *_):
        self.child.kill()
        self.child.wait()
        with contextlib.suppress(OSError):
            self.child.stdin.close()

    def give(self, *lines):
        self.give_bytes("".join(f"{line}\n" for line in lines).encode())

    def give_bytes(self, data):
        self.child.stdin.write(data)
        self.child.stdin.flush()

    def says(self, *wanted):
        """The next lines of output are these."""
        for line in wanted:
            same(self.lines.next(), f"{line}\n")

    def says_nothing(self, seconds):
        same(self.lines.next(seconds), "")

    def notes(self, *wanted):
        """The next lines on standard error are these: a notice behind its time, or a fault."""
        for line in wanted:
            got = self.errors.next()
            found = NOTICE.fullmatch(got or "")
            same(found[1] if found else got, line if found else f"uecp: {line}\n")

    def is_new(self):
        """It begins with nothing, and joins."""
        self.says("taken 0 outstanding 0", "joined")

    def end(self):
        self.child.stdin.close()

    def ended(self, status, *notes):
        """It ends so, and says nothing more than these notes."""
        self.ended_amid_notices(status, *notes)
        same(self.errors.next(), None)

    def ended_amid_notices(self, status, *notes):
        """It ends so, with these notes and perhaps others."""
        with contextlib.suppress(OSError):
            self.end()
        same(self.lines.next(), None)
        self.notes(*notes)
        same(self.child.wait(SECONDS), status)

    def worked(self):
        """The seconds of a processor that it has taken."""
        with open(f"/proc/{self.child.pid}/stat", encoding="ascii") as status:
            user, system = status.read().rpartition(")")[2].split()[11:13]
        return (int(user) + int(system)) / os.sysconf("SC_CLK_TCK")

    def peak(self):
        """The most memory that it had, in KB."""
        with open(f"/proc/{self.child.pid}/status", encoding="ascii") as status:
            return int(re.search(r"VmHWM:\s+([0-9]+) kB", status.read())[1])


class Listening(threading.Thread):
    """Somebody who listens on 127.0.0.1 until it is left."""

    def __init__(self):
        super().__init__(daemon=True)
        self.listener = socket.create_server(("127.0.0.1", 0), backlog=100)
        self.port = self.listener.getsockname()[1]
        self.start()

    def __enter__(self):
        return self

    def __exit__(self, *_):
        with contextlib.suppress(OSError):
            self.listener.shutdown(socket.SHUT_RDWR)
        self.listener.close()


class Modelled(Listening):
    """An encoder as tests/model/model.py has it, which answers one connection after another; its store and the connection can be looked at."""

    def __init__(self):
        self.encoder, self.near = model.Encoder(model.Setup()), None
        super().__init__()

    def run(self):
        with contextlib.suppress(OSError):
            while True:
                with self.listener.accept()[0] as near, contextlib.suppress(ConnectionError):
                    self.answer(near)

    def answer(self, near):
        stream, self.near = b"", near
        while data := near.recv(4096):
            stream += data
            for found in model.findings(stream):
                if isinstance(found, model.Frame) and self.encoder.take(found) in ("new", "kept"):
                    near.sendall(self.encoder.reply(found.counter))
            # what has not ended yet
            at = stream.rfind(b"\xfe")
            stream = stream[at:] if at >= 0 and b"\xff" not in stream[at:] else b""


class Deaf(Listening):
    """Somebody who takes connections, and does on each what he is made for, which answers no message: see the functions below."""

    def __init__(self, does):
        self.does = does
        super().__init__()

    def run(self):
        with contextlib.suppress(OSError):
            while True:
                threading.Thread(target=self.hold, args=[self.listener.accept()[0]], daemon=True).start()

    def hold(self, near):
        with near, contextlib.suppress(OSError):
            self.does(near)


def reply_each(near, reply):
    """Each frame is replied to so."""
    stream = b""
    while data := near.recv(4096):
        stream += data
        found = [finding for finding in model.findings(stream) if isinstance(finding, model.Frame)]
        near.sendall(b"".join(model.spelling(reply(frame)) for frame in found))
        stream = stream[stream.rfind(b"\xff") + 1 :]


def another_address(near):
    """Replies to each frame, as by another encoder."""
    reply_each(near, lambda frame: model.Frame(frame.address + 1, 0, bytes([model.ACKNOWLEDGEMENT, 0, frame.counter])))


def other_counters(near):
    """Replies to each frame, under a counter that no message has which waits."""
    reply_each(near, lambda frame: model.Frame(frame.address, 0, bytes([model.ACKNOWLEDGEMENT, 0, 0])))


def noise(near):
    """Random bytes without end."""
    chance = random.Random("noise")
    while True:
        near.sendall(chance.randbytes(300))
        time.sleep(0.02)


def drip(near):
    """A byte each 200 ms without end."""
    while True:
        near.sendall(b"\x00")
        time.sleep(0.2)


class Moody(Modelled):
    """An encoder that answers as long as it is well, and then does something else on a connection that it has, and on others."""

    def __init__(self, does):
        self.does, self.is_well = does, True
        super().__init__()

    def drop(self):
        with contextlib.suppress(OSError):
            self.near.shutdown(socket.SHUT_RDWR)

    def answer(self, near):
        self.near = near
        with contextlib.suppress(OSError):
            if self.is_well:
                near.settimeout(0.05)
                self.answer_well(near)
            if not self.is_well:
                near.settimeout(None)
                self.does(near)

    def answer_well(self, near):
        stream = b""
        while self.is_well:
            try:
                data = near.recv(4096)
            except TimeoutError:
                continue
            if not data:
                return
            stream += data
            for found in model.findings(stream):
                if isinstance(found, model.Frame) and self.is_well and self.encoder.take(found) in ("new", "kept"):
                    near.sendall(self.encoder.reply(found.counter))
            stream = stream[stream.rfind(b"\xff") + 1 :]


class Relay(Listening):
    """A line to an encoder, which is bad for its first connections (bad_line.py), each of which ends some day, and good after them."""

    def __init__(self, name, port, bad):
        self.name_of_line, self.far_port, self.bad, self.connections = name, port, bad, []
        super().__init__()

    def run(self):
        with contextlib.suppress(OSError):
            while True:
                near = self.listener.accept()[0]
                far = socket.create_connection(("127.0.0.1", self.far_port), SECONDS)
                chance = random.Random(f"{self.name_of_line} {len(self.connections)}")
                connection = Connection(chance, lambda count: None, near, far, len(self.connections) >= self.bad, True)
                if len(self.connections) < self.bad:
                    connection.forth.end = connection.forth.end or chance.randrange(*ENDS)
                self.connections.append(connection)
                connection.run()


def place(port):
    return f"127.0.0.1 port {port}"


def connected(port):
    return f"connected to {place(port)}"


def refused(port):
    return f"no connection to {place(port)}: refused"
