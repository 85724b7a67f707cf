"""Both ends with their state files, by hand: what tests/run/state_files, tests/run/state_faults and tests/measure/state_speed share."""

import contextlib
import os
import re
import socket
import subprocess
import threading
import time

import model
from ports import free_port

ADDRESS = 0x0041
SECONDS = 120  # of one run

# what is said of a file that is refused, each behind `uecp: ` and before the file
REFUSALS = """
state in use
state is not ours
state is of a later version
state is of an earlier version
state is of the other end
state damaged
state is of another address
state is of another number of data sets
state is of other services
state out of reach
no room for the state
out of memory
state failed
""".strip().split("\n")

# and behind the file, where there is more to say
UNREACHABLE = """
no such folder
no such file
not permitted
read-only
it is a folder
it is no file
it has a second name
its log is no file, or has a second name
it has a rollback journal
it is no name of a file
it can't be opened
""".strip().split("\n")
REPLACED = "it was removed, moved or replaced"
WHY = {"state out of reach": UNREACHABLE, "state failed": ["the disk failed", REPLACED]}

# each shows in the store whether it acted twice: the texts and the groups are added to those that are there
MESSAGES = [bytes.fromhex(digits) for digits in """
010000C201 0A0000034048490100001002 240042123456780100001003 0A00000340484A0100001004 030000030100001005 2400401234567A0100001006
0A00000340484B0100001007 0A000000010000C208 0A00000340484C0100001009 020000524144494F2031200100001010
""".split()]


def line_of(text, path, why=""):
    """What is said of the state in a file."""
    return f"uecp: {text}: {path}{f': {why}' if why else ''}\n"


def refusal_in(fault):
    """The text, the file and the reason of the one line that says why a state can't be had; or None where it is none."""
    reasons = "|".join(why for whys in WHY.values() for why in whys)
    said = re.fullmatch(f"uecp: ({'|'.join(REFUSALS)}): (.*?)(?:: ({reasons}))?\n", fault)
    return said.groups("") if said and (said[3] or "") in WHY.get(said[1], [""]) else None


def failed_so(fault, path, reasons):
    """Whether this is what is said of a save that failed in the midst of a run: that it did, and then in which file, whose path ends so, and why."""
    first, *others = fault.splitlines(True) or [""]
    said = refusal_in("".join(others))
    return first == "uecp: state failed\n" and bool(said) and said[1].endswith(path) and (said[0], said[2]) in reasons


def frames_of(messages, first=0):
    """The frames of messages from this number on."""
    return [model.spelling(model.Frame(ADDRESS, 1 + number % 255, message)) for number, message in enumerate(messages, first)]


def run(words, given=b"", **how):
    """The status and both outputs of a run that ends by itself."""
    ran = subprocess.run(words, input=given, capture_output=True, timeout=SECONDS, check=False, **how)
    return ran.returncode, ran.stdout.decode(), ran.stderr.decode()


def lines_of(messages):
    return b"".join((message.hex() or "-").encode() + b"\n" for message in messages)


def contents(folder):
    """The bytes of each file of a folder."""
    found = {}
    for name in sorted(os.listdir(folder)):
        with open(os.path.join(folder, name), "rb") as file:
            found[name] = file.read()
    return found


def put(folder, files):
    """A folder with these files."""
    os.makedirs(folder, exist_ok=True)
    for name, data in files.items():
        with open(os.path.join(folder, name), "wb") as file:
            file.write(data)


@contextlib.contextmanager
def encoder(program, file, *options, **how):
    """A running encoder with this file, and its port. At the end it is killed, if it runs still."""
    port = free_port()
    words = [program, "encoder", "--port", str(port), "--state", file, *(options or ("--connections", "1000"))]
    with subprocess.Popen(words, stdout=subprocess.PIPE, stderr=subprocess.PIPE, **how) as child:
        try:
            yield child, port
        finally:
            child.kill()


def send(child, port, frames, at_once=False):
    """The replies to frames over one connection, sent each behind the reply to the one before, or all at once; and how the child ended if it
    did."""
    end, replies = time.monotonic() + SECONDS, b""
    while time.monotonic() < end and child.poll() is None:
        try:
            with socket.create_connection(("127.0.0.1", port), SECONDS) as line:
                for number, part in enumerate([b"".join(frames)] if at_once else frames):
                    line.sendall(part)
                    while not at_once and replies.count(b"\xff") <= number:
                        data = line.recv(4096)
                        if not data:
                            return replies
                        replies += data
                line.shutdown(socket.SHUT_WR)
                while data := line.recv(4096):
                    replies += data
                return replies
        except ConnectionRefusedError:
            time.sleep(0.005)
        except OSError:
            return replies
    return replies


class Peer(threading.Thread):
    """An encoder as tests/model/model.py has it, for a server: it answers what comes over one connection after another. After so many messages
    it answers nothing any more, where that is asked for. It keeps the messages that it applied but the empty ones of a pass."""

    def __init__(self, most=None):
        super().__init__(daemon=True)
        self.encoder, self.applied, self.most, self.heard = model.Encoder(model.Setup()), [], most, threading.Event()
        self.listener = socket.create_server(("127.0.0.1", 0))
        self.port = self.listener.getsockname()[1]
        self.start()

    def run(self):
        while True:
            try:
                near, _ = self.listener.accept()
            except OSError:
                return
            with near, contextlib.suppress(OSError):
                self.answer(near)

    def answer(self, near):
        stream = b""
        while data := near.recv(4096):
            stream += data
            *whole, stream = stream.split(b"\xff")
            for part in whole:
                found = model.judged(part[part.rindex(b"\xfe") + 1 :], 0xFF)
                if not found.message or self.most is None or len(self.applied) < self.most:
                    what = self.encoder.take(found)
                    if what == "new" and found.message:
                        self.applied.append(found.message)
                    if what in ("new", "kept"):
                        near.sendall(self.encoder.reply(found.counter))
                else:
                    self.heard.set()

    def end(self):
        with contextlib.suppress(OSError):
            self.listener.shutdown(socket.SHUT_RDWR)
        self.listener.close()


def server_words(program, file, port, *options):
    return [program, "server", "--port", str(port), "--state", file, *options]


def stores_of(messages):
    """The lines of the store before the first message, and after each."""
    store = model.Store(1, (1,))
    found = [store.lines()]
    for message in messages:
        store.apply(message)
        found.append(store.lines())
    return found


def codes_of(messages):
    store = model.Store(1, (1,))
    return [store.apply(message) for message in messages]
