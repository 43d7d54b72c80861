"""What the tests of the command share: ledgers read by document 01's tables alone, the command as it is given, and the count of tests."""

import datetime
import functools
import glob
import os
import re
import subprocess
import sys
from multiprocessing.pool import ThreadPool

TOP = os.path.normpath(os.path.join(os.path.dirname(os.path.abspath(__file__)), "..", ".."))
COMMAND = [os.path.join(TOP, "target", "command", "tuulveski")]
NEW_ENDING = ".tuulveski-new"

SLOT_BYTES = 38
SLOTS_MOST = 100_000
FREE = bytes(SLOT_BYTES)


def slot(uli, date, vaccine):
    return b"\x01" + uli + date + vaccine.ljust(20)


@functools.lru_cache(maxsize=None)
def is_date(text):
    try:
        day = datetime.datetime.strptime(text.decode("ascii"), "%Y%m%d")
    except ValueError:
        return False
    return 1800 <= day.year <= 2199


def events_of(ledger):
    """The live slots of a ledger's bytes; ValueError where they are no ledger."""
    if len(ledger) % SLOT_BYTES != 0 or len(ledger) > SLOT_BYTES * SLOTS_MOST:
        raise ValueError(f"{len(ledger)} bytes are not slots")
    slots = [ledger[at : at + SLOT_BYTES] for at in range(0, len(ledger), SLOT_BYTES)]
    live = [one for one in slots if one != FREE]
    if slots[: len(live)] != live:
        raise ValueError("a live event after a free slot")
    if any(one >= other for one, other in zip(live, live[1:])):
        raise ValueError("the live events do not ascend")
    for one in live:
        if not re.fullmatch(rb"\x01[0-9]{17}[!-~]{1,20} *", one) or not is_date(one[10:18]):
            raise ValueError(f"{one!r} is no live event")
    return live


def read(path):
    with open(path, "rb") as file:
        return file.read()


def write(path, content):
    with open(path, "wb") as file:
        file.write(content)


def split_arguments(arguments, default=None):
    """What stands before `--`, and the command after it, files by their whole path."""
    if "--" not in arguments:
        return arguments, COMMAND if default is None else default
    at = arguments.index("--")
    return arguments[:at], [os.path.abspath(word) if os.path.exists(word) else word for word in arguments[at + 1 :]]


class Tests:
    """Counts what is met; a failure is a line. Of a quiet one the failures are counted alone."""

    def __init__(self, quiet=False):
        self.passed = self.failed = 0
        self.quiet = quiet

    def expect(self, name, is_met, seen=""):
        if is_met:
            self.passed += 1
            return
        self.failed += 1
        if not self.quiet:
            print(f"{name}: {seen}", flush=True)

    def end(self):
        print(f"{self.passed} passed, {self.failed} failed")
        return 1 if self.failed else 0


class Command:
    """The command under test."""

    def __init__(self, words):
        self.words = words

    def run(self, *arguments, **how):
        """Status, standard output, standard error."""
        words = [*self.words, *arguments]
        if "stdin" not in how and "input" not in how:
            how["stdin"] = subprocess.DEVNULL
        done = subprocess.run(words, stdout=how.pop("stdout", subprocess.PIPE), stderr=subprocess.PIPE, check=False, **how)
        return done.returncode, done.stdout, done.stderr.decode("utf-8", "replace")

    def has(self, name):
        return self.run(name, "--help")[0] == 0


class Build:
    """Builds the command from its sources, as they are or with edits; what is not edited is compiled once."""

    def __init__(self, folder, flags=()):
        self.folder, self.flags = folder, flags
        self.compiler = os.environ.get("CC", "cc").split()
        self.library = os.environ.get("LIBRARY", os.path.join(TOP, "target", "staticlib", "libtuulveski.a"))
        sources = sorted(glob.glob(os.path.join(TOP, "command", "*.c")))
        with ThreadPool(2) as pool:
            self.objects = dict(pool.map(lambda path: (os.path.basename(path), self.compile(path)), sources))

    def compile(self, path, own_flags=None):
        to = os.path.join(self.folder, os.path.basename(path) + ".o")
        include = ["-I" + os.path.join(TOP, "include"), "-I" + os.path.join(TOP, "command")]
        flags = ["-std=c99", "-O1", "-U_FORTIFY_SOURCE", *include, *(self.flags if own_flags is None else own_flags)]
        subprocess.run([*self.compiler, *flags, "-c", "-o", to, path], check=True)
        return to

    def link(self, name, edits=(), objects=()):
        """Edits are (file, text, other text), and the text must be there once."""
        used, edited = dict(self.objects), {}
        for source, text, other in edits:
            before = edited.get(source) or read(os.path.join(TOP, "command", source)).decode()
            if before.count(text) != 1:
                sys.exit(f"{source}: not there once: {text}")
            edited[source] = before.replace(text, other)
        for source, content in edited.items():
            path = os.path.join(self.folder, f"{name}.{source}")
            write(path, content.encode())
            used[source] = self.compile(path)
        to = os.path.join(self.folder, name)
        subprocess.run([*self.compiler, "-pthread", "-o", to, *objects, *used.values(), self.library], check=True)
        return to
