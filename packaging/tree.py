"""What a package and a tarball share: the program's version, its files below a prefix, what was proved of it, and the day of a build."""

import datetime
import hashlib
import os
import re
import shutil
import subprocess

TOP = os.path.dirname(os.path.dirname(os.path.abspath(__file__)))
NAME = "belgocsid"
DOCUMENTS = ("README.md", "CHANGELOG.md")
UNITS = ("uecp-send@.service", "uecp-send@.socket", "uecp-encoder@.service", "uecp-page.service", "uecp-page.socket", "uecp-page-feed.service")
LIBRARY = ("libuecp.a", "libuecp.so.0", "uecp.h", "uecp.pc")
PATTERN = re.compile(r"\blogic=\S.*")


def output(*words):
    """What a command says, or None where it is not there or fails."""
    try:
        ran = subprocess.run(words, cwd=TOP, capture_output=True, text=True, check=False)
    except OSError:
        return None
    return ran.stdout.strip() if ran.returncode == 0 else None


def version_of(program):
    said = output(program, "--version")
    if not said:
        raise SystemExit(f"{program} --version says nothing")
    return said.split()[1]


def moment():
    """The seconds of SOURCE_DATE_EPOCH, or of the last commit, or of now."""
    stamp = os.environ.get("SOURCE_DATE_EPOCH") or output("git", "log", "-1", "--format=%ct")
    return int(stamp) if stamp else int(datetime.datetime.now().timestamp())


def digest(path, kind="sha256"):
    with open(path, "rb") as file:
        return hashlib.file_digest(file, kind).hexdigest() if hasattr(hashlib, "file_digest") else hashlib.new(kind, file.read()).hexdigest()


def put(source, target, mode=0o644):
    os.makedirs(os.path.dirname(target), exist_ok=True)
    shutil.copyfile(source, target)
    os.chmod(target, mode)


def write(target, text):
    os.makedirs(os.path.dirname(target), exist_ok=True)
    with open(target, "w", encoding="utf-8") as file:
        file.write(text)


def has_library(folder):
    return all(os.path.isfile(os.path.join(folder, name)) for name in LIBRARY)


def tracked(folder):
    """The files of a folder of the repository, those that git knows where there is one; never what was built."""
    known = output("git", "ls-files", folder)
    if known:
        return known.split("\n")
    found = []
    for at, folders, names in os.walk(os.path.join(TOP, folder)):
        folders[:] = [name for name in folders if name not in ("out", "build", "__pycache__", "target")]
        found += [os.path.relpath(os.path.join(at, name), TOP) for name in names]
    return sorted(found)


def put_documents(to):
    """The documents with the pictures and examples that they name, so that their links hold among each other."""
    for path in [*DOCUMENTS, *tracked("docs"), *tracked("examples")]:
        put(os.path.join(TOP, path), os.path.join(to, path))
    for path in tracked("tests/conformance"):
        put(os.path.join(TOP, path), os.path.join(to, "examples/conformance", os.path.basename(path)))
    for path in tracked("packaging/units/examples"):
        put(os.path.join(TOP, path), os.path.join(to, "examples/units", os.path.basename(path)))


def put_pages(program, to):
    """Man pages and completion, as packaging/generate makes them."""
    ran = subprocess.run([os.path.join(TOP, "packaging/generate"), to, program], check=False)
    if ran.returncode:
        raise SystemExit(1)


def proved(program, log):
    """What is known here of the proof of this program, as a text."""
    lines = [f"{NAME} {version_of(program)}", f"sha256 of uecp: {digest(program)}"]
    commit = output("git", "rev-parse", "HEAD")
    if commit:
        changes = " and changes that are in no commit" if output("git", "status", "--porcelain", "-uno") else ""
        lines.append(f"sources: commit {commit}{changes}")
    lines.append(f"kit: {output('rt', 'version') or 'not on this machine'}")
    verdicts = []
    if os.path.isfile(log):
        with open(log, encoding="utf-8", errors="replace") as file:
            verdicts = [found[0] for found in map(PATTERN.search, file) if found]
    if verdicts and os.path.getmtime(log) >= os.path.getmtime(program) - 60:
        lines += ["", "The verdicts of the prover in the log of the build, the program's own last:", *verdicts]
    elif verdicts:
        lines += ["", "The log of the build is older than the program. Its last verdict of the prover, which may be of another program:", verdicts[-1]]
    else:
        lines += ["", "There was no log of the prover beside the program: nothing is known here of a proof."]
    return "\n".join(lines) + "\n"
