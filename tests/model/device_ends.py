"""`uecp encoder` as a device, and frames and replies at its other end: what tests/run/devices and tests/run/air share."""

import contextlib
import re
import socket
import subprocess
import tempfile
import time

import model
from live_ends import MEMORY, SECONDS
from ports import free_port

ADDRESS = 0x0041


class Device:
    """A device that is running, with its log in a file."""

    def __init__(self, program, *options, port=None, host="127.0.0.1"):
        self.port, self.host = port or free_port(), host
        self.room = tempfile.TemporaryDirectory(dir=MEMORY)
        self.log = open(f"{self.room.name}/log", "wb")
        words = [program, "encoder", "--port", str(self.port), "--forever", *options]
        self.child = subprocess.Popen(words, stdin=subprocess.DEVNULL, stdout=self.log, stderr=subprocess.PIPE)

    def __enter__(self):
        self.listens_at(self.port)
        return self

    def listens_at(self, port):
        """Waits until it does."""
        end = time.monotonic() + SECONDS
        while True:
            assert self.child.poll() is None and time.monotonic() < end, f"it doesn't listen; its status is {self.child.poll()}"
            with contextlib.suppress(OSError), open("/proc/net/tcp6" if ":" in self.host else "/proc/net/tcp", encoding="ascii") as table:
                if re.search(f":{port:04X} [0-9A-F]+:0000 0A", table.read()):
                    return
            time.sleep(0.01)

    def __exit__(self, *_):
        self.child.kill()
        self.child.wait()
        self.child.stderr.close()
        self.log.close()
        self.room.cleanup()

    def connect(self, narrow=False):
        """A connection to it; a narrow one soon has no room for what comes."""
        line = socket.socket(socket.AF_INET6 if ":" in self.host else socket.AF_INET)
        line.settimeout(SECONDS)
        if narrow:
            line.setsockopt(socket.SOL_SOCKET, socket.SO_RCVBUF, 4096)
        line.connect((self.host, self.port))
        line.setsockopt(socket.IPPROTO_TCP, socket.TCP_NODELAY, 1)
        return line

    def lines(self):
        with open(self.log.name, encoding="utf-8") as log:
            return log.read().splitlines()

    def tells(self, *wanted):
        """These lines come, one after another, perhaps with others between."""
        end = time.monotonic() + SECONDS
        while True:
            rest = iter(self.lines())
            missing = [line for line in wanted if line not in rest]
            if not missing:
                return
            assert time.monotonic() < end, f"{missing[0]!r} isn't among {self.lines()!r:.900}"
            time.sleep(0.02)

    def peak(self):
        with open(f"/proc/{self.child.pid}/status", encoding="ascii") as status:
            return int(re.search(r"VmHWM:\s+([0-9]+) kB", status.read())[1])


def frame(counter, message):
    return model.spelling(model.Frame(ADDRESS, counter, message))


def answer(line, sent, replies=1):
    """What comes for these bytes, up to so many replies."""
    line.sendall(sent)
    heard = b""
    while heard.count(b"\xff") < replies:
        piece = line.recv(4096)
        if not piece:
            break
        heard += piece
    return heard


def reply(code, counter):
    return model.spelling(model.Frame(ADDRESS, 0, bytes([0x18, code, counter])))


PI = bytes([0x01, 0, 0, 0xC2, 0x01])
MUSIC = bytes([0x05, 0, 0, 1])
