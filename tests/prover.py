"""The kit's prover on the crates of this repository, for tests/build and tests/edits, which `rt` alone can't be asked for: crates
side by side in one clone, and a check of chosen functions of a changed copy.

It goes through what `rt` itself is made of, in the folder where `rt` lies. What differs from the commands: `rt check` where a
library below is not built begins with a pass over the sources of all libraries, eight minutes for the program; here each crate
waits until those below it stand, so nothing is left for such a pass to find. And the sum of a crate's sources, by which `rt`
knows what is built, reads each crate below once.

    tests/prover.py ci           is `rt ci`, and any other command of `rt`, with these sums"""

import copy
import importlib.machinery
import importlib.util
import os
import shutil
import signal
import sys
import tempfile
import threading

TOP = os.path.dirname(os.path.dirname(os.path.abspath(__file__)))
EACH = 7 << 29  # bytes of memory for each check: one takes 1 to 4.5 GB, and one that is killed is made again
MEASURED = 0.6  # of the memory that the kit guesses a check to take: the largest crates were measured at a third to two thirds of it


def load():
    """The modules of the kit's command: `rt`, and the library that it is written over."""
    path = shutil.which("rt")
    if not path:
        sys.exit("rt is not on the path: the Rattle kit is not installed")
    loader = importlib.machinery.SourceFileLoader("rt", os.path.realpath(path))
    found = importlib.util.module_from_spec(importlib.util.spec_from_loader("rt", loader))
    loader.exec_module(found)
    # its first call sets a signal's handler, which only the first thread may
    found.rtlib.guarded()
    return found, found.rtlib


RT, LIBRARY = load()


class Sums(threading.local):
    """The sums of crates that one call has found so far, by name."""

    found = None


def sum_once(whole, sums):
    """The kit's sum of a crate's sources and of all below it, by which it knows what is built, with each crate below read once: the
    kit's own reads one for each way that leads down to it, of the program 52,000, which takes two minutes, twice for each build."""

    def stamp(self):
        if sums.found is None:
            sums.found = {}
            try:
                return stamp(self)
            finally:
                sums.found = None
        if self.name not in sums.found:
            sums.found[self.name] = whole(self)
        return sums.found[self.name]

    return stamp


LIBRARY.Crate.stamp = sum_once(LIBRARY.Crate.stamp, Sums())


def as_measured(need):
    """The memory of a check as it was measured, for `rt ci`: by its own guess a processor or two stand idle. It has as many checks side by
    side as there are processors and memory for, and a check for which no other waits gets the processors that are idle."""

    def needed(crate):
        return int(MEASURED * need(crate))

    return needed


if hasattr(RT, "need"):
    RT.need = as_measured(RT.need)


def share_work(is_shared):
    """Whether what is proved is kept for other clones of this machine, where the kit can do that: not each letter of it does."""
    if hasattr(RT, "share_work"):
        RT.share_work(is_shared)


def link_or_copy(of, to):
    """One file more of the same bytes, by a link where the disk gives one."""
    try:
        os.link(of, to)
    except OSError:
        shutil.copy2(of, to)
    return to


def copy_crates(top, to):
    """A copy of a repository's crates, without what was made of them."""
    os.makedirs(to)
    for name in ("crates.txt", "HANDLES"):
        shutil.copy2(f"{top}/{name}", f"{to}/{name}")
    shutil.copytree(f"{top}/crates", f"{to}/crates", ignore=shutil.ignore_patterns("out"))


def processors():
    return len(os.sched_getaffinity(0))


def free():
    """The bytes of memory that are free."""
    with open("/proc/meminfo", encoding="ascii") as lines:
        return next(int(line.split()[1]) << 10 for line in lines if line.startswith("MemAvailable:"))


def lanes():
    """How many checks there is room for side by side. By itself `rt ci` takes as many as its own guess of their memory allows,
    which is two to three times what they take, and lets the largest crates, on which the others wait, wait longest."""
    return max(1, min(processors(), free() // EACH))


def crates(top=TOP):
    """All crates of crates.txt, those below before those above."""
    found = LIBRARY.crates_below(top)
    return sorted(found, key=lambda it: len(it.below()))


def line_count(crate):
    """The lines that are read of a crate: its code, definitions and proofs."""
    total = 0
    for path in LIBRARY.files_of(crate.folder):
        with open(path, "rb") as file:
            total += file.read().count(b"\n")
    return total


def prove(crate, jobs):
    """Proves a library over what was kept of it and builds it, and answers the status and what was said."""
    crate = copy.copy(crate)
    os.makedirs(f"{crate.folder}/out", exist_ok=True)
    with tempfile.TemporaryFile("a+", errors="replace") as crate.out:
        try:
            LIBRARY.stop_on_links(crate.folder)
            LIBRARY.stop_on_text(crate, "check")
            status = crate.build_rlib(["--jobs", str(jobs)], anew=False)
        except SystemExit:
            status = 2
        crate.out.seek(0)
        return status, crate.out.read()


def run(main):
    """Ends with the status of a main function; where it is interrupted, at once, and the checks at work with it."""

    def stop(*_):
        print("\nstopped; what was proved is kept", flush=True)
        # the checks end with this process, and no lane is waited for
        os._exit(130)

    signal.signal(signal.SIGINT, stop)
    sys.exit(main())


if __name__ == "__main__":
    sys.exit(RT.main(sys.argv[1:]))
