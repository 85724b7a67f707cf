"""A spool of lines that the manual's script gives to `uecp send`, while either end is killed again and again on a bad line, for
tests/run/sending: what tests/run/kept_state does to `uecp server`.

Each run of the script is killed whole, with its shell and `tail`, by the bytes that passed since its start or by the time, while it looks
at the state, starts or ends too, and is started again at once; so is the encoder. The first line of a run must say what `uecp state` said
of the file before, each message is told once at most, under its number and with the code that it has where all are applied once each
and in order, and at the end the encoder's store is that of all the lines. Each 20th line of the spool is a bad one: it is told under the
spool's number, and at the end the file of those that were passed over has each of them, and nothing else."""

import contextlib
import importlib.machinery
import importlib.util
import os
import random
import re
import signal
import subprocess
import tempfile
import threading
import time

from bad_line import check_line
from live_ends import MEMORY, NOTICE, folded, spoken, state_of, told

TOP = os.path.dirname(os.path.dirname(os.path.dirname(os.path.abspath(__file__))))
LIMITS = "--tries 100 --retry-every 1"
IN_USE = "uecp: state in use: "
SECONDS = 200  # after which no end is killed any more
LEAST_GONE_ON = 5  # runs, or nothing was tried
ALL_APPLIED, PASSED_OVER, SOME_REFUSED, STOPPED = 0, 1, 4, 3
BAD_EACH = 20  # which line of the spool is a bad one


def bad_line(number):
    """The bad line of this number, and what is told of it."""
    return f"pi C2O{number}", f"line {number}, column 4: expected four hexadecimal digits"


def spool_lines(lines):
    """The lines of a spool: these, with bad ones between; and the numbers of those."""
    spool, bad = [], []
    for line in lines:
        if len(spool) % BAD_EACH == BAD_EACH - 1:
            bad.append(len(spool) + 1)
            spool.append(bad_line(bad[-1])[0])
        spool.append(line)
    return spool, bad


def script(name):
    """A script of tests/run, whose name doesn't end as a module's does."""
    loader = importlib.machinery.SourceFileLoader(name, f"{TOP}/tests/run/{name}")
    found = importlib.util.module_from_spec(importlib.util.spec_from_loader(name, loader))
    loader.exec_module(found)
    return found


kept_state = script("kept_state")


def spool_script():
    """The script of the manual that gives the lines of a spool behind those that were taken."""
    with open(f"{TOP}/docs/MANUAL.md", encoding="utf-8") as manual:
        blocks = re.findall(r"```sh\n(.*?)```", manual.read(), re.DOTALL)
    (found,) = (block for block in blocks if "spool" in block and "uecp send" in block)
    return found


def kill_group(child):
    """Kills a child with its children; it may have ended just now, and been waited for."""
    with contextlib.suppress(ProcessLookupError):
        os.killpg(child.pid, signal.SIGKILL)


class Group(kept_state.End):
    """An end whose child has children: all of them are killed together."""

    def start(self, words, **how):
        return super().start(words, start_new_session=True, **how)

    def kill(self, child):
        with self.lock:
            if self.left and child is self.child and child.poll() is None:
                kill_group(child)

    def stop(self):
        if self.child and self.child.poll() is None:
            kill_group(self.child)


class Spool(kept_state.Seed):
    """Both ends and the line of one seed. What it calls the server is the script."""

    def __init__(self, program, number, folder, sizes):
        super().__init__(program, number, folder, sizes)
        self.folder, self.went_on, self.pairs = folder, 0, spoken(self.chance, sizes.messages)
        self.messages = [message for _, message in self.pairs]
        self.codes, self.stores = folded(self.pairs)
        self.files["server"] = f"{folder}/studio.db"
        self.server = Group(random.Random(f"server {number}"), sizes.kills, self.bytes_due)
        os.symlink(program, f"{folder}/uecp")
        with open(f"{folder}/spool", "w", encoding="utf-8") as spool:
            lines, self.bad = spool_lines(line for line, _ in self.pairs)
            spool.write("".join(f"{line}\n" for line in lines))
        port = self.listener.getsockname()[1]
        options = f"--port {port} {LIMITS} --timeout {sizes.timeout} --window {self.window()}"
        self.script = spool_script().replace("--port 4000", options)
        assert options in self.script
        with open(f"{folder}/run", "w", encoding="utf-8") as run:
            run.write(self.script)
        os.chmod(f"{folder}/run", 0o755)

    def fault(self, text):
        self.server.stop()
        super().fault(text)

    def state(self, end):
        """The lines of `uecp state`; what was killed may not be gone yet, or not have made its file."""
        return state_of(self.program, self.files[end]) if os.path.exists(self.files[end]) else ["empty"]

    def run_server_once(self, before):
        settings = {**os.environ, "PATH": f"{self.folder}:{os.environ['PATH']}"}
        with tempfile.TemporaryFile("w+") as errors:
            start, lines = time.monotonic(), []
            how = {"stdin": subprocess.DEVNULL, "stdout": subprocess.PIPE, "stderr": errors, "text": True}
            child = self.server.start(["./run"], cwd=self.folder, env=settings, **how)
            late = threading.Timer(kept_state.RUN_SECONDS, self.server.stop)
            late.start()
            for line in child.stdout:
                if not lines:
                    self.server.ready_after = time.monotonic() - start
                lines.append(line)
                self.hear(before, lines)
            status = self.server.ended()
            late.cancel()
            child.stdout.close()
            errors.seek(0)
            said = errors.readlines()
        self.count_runs += 1
        if self.is_over:
            return status
        # the run before may not be gone yet as the script looks at the state, or as it begins
        is_early = status == STOPPED and not lines and len(said) == 1 and said[0].startswith(IN_USE)
        assert is_early or status in (ALL_APPLIED, PASSED_OVER, SOME_REFUSED, -signal.SIGKILL), f"status {status}, {lines[-1:]}, {said}"
        told_bad = [f"uecp: {bad_line(number)[1]}\n" for number in self.bad]
        assert is_early or all(NOTICE.fullmatch(line) or line in told_bad for line in said), said
        return ALL_APPLIED if status in (PASSED_OVER, SOME_REFUSED) else status

    def hear(self, before, lines):
        """Judges the newest line of a run."""
        taken, waiting = before
        line = lines[-1]
        if len(lines) == 1:
            assert line == f"taken {taken} outstanding {waiting}\n", f"uecp state had said {before}, and the run begins with {line!r}"
            self.went_on += taken > 0
            return
        self.has_joined()
        if line == "joined\n":
            assert len(lines) == 2 and taken == 0, f"joined again, with {taken} messages taken"
            return
        wanted = told(self.told + 1, self.codes[self.told])
        assert line == f"{wanted}\n", f"{line!r} in place of {wanted!r}"
        self.told += 1


    def finish(self):
        super().finish()
        assert self.went_on >= min(LEAST_GONE_ON, self.sizes.kills // 10), f"only {self.went_on} runs went on from messages that were taken"
        with open(f"{self.folder}/passed", encoding="utf-8") as passed:
            self.kept = passed.readlines()
        records = [f"{number}\t{bad_line(number)[1]}\t{bad_line(number)[0]}\n" for number in self.bad]
        assert set(self.kept) == set(records), f"{set(self.kept) ^ set(records)} of the lines that were passed over"

    def said(self):
        kept = f"{len(self.bad)} lines passed over, {len(self.kept) - len(self.bad)} of them again"
        return f"{self.count_runs} runs of the script, {self.went_on} of them behind the first message, {kept}, {super().said()}"


def try_seed(program, number, messages, kills):
    """Whether all went well, and what there is to say of it."""
    timeout = kept_state.timeout_of(program)
    sizes = kept_state.argparse.Namespace(messages=messages, kills=kills, seconds=SECONDS, timeout=timeout, runs=False)
    with tempfile.TemporaryDirectory(dir=MEMORY) as folder:
        seed = Spool(program, number, folder, sizes)
        seed.play()
        if not seed.faults:
            try:
                check_line(seed.connections)
            except AssertionError as fault:
                seed.faults.append(str(fault))
        if seed.faults:
            return False, f"FAILED {'; '.join(seed.faults)} (after {seed.server.killed} and {seed.encoder.killed} kills, {seed.told} were told)"
        return True, seed.said()
