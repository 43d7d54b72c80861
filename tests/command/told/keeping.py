"""How `submit` keeps the ledger: whole, before it says so, or not at all. Each test yields its faults."""
import fcntl
import os
import resource
import subprocess
import threading
import time

from conduct import ACCEPTED, GIVEN, TWICE, differs, place
from data import BOOK, E, FILE_MOST, FREE, TODAY, X, Y, ledger_of, live_events, slot, submission
from running import read_all

DELETE = submission("IP", ("II", {4: "D"}), "IE")
WAIT_SECONDS = 20
NEXT_DAY = submission("IP", ("II", {6: "20220902"}), "IE")


def ledger_in(folder, name="ledger"):
    with open(os.path.join(folder, name), "rb") as file:
        return file.read()


def holds(folder, *events, slots=10, name="ledger"):
    """What is wrong with the ledger in a folder, read anew."""
    ledger = ledger_in(folder, name)
    if live_events(ledger) != sorted(events) or len(ledger) != 38 * slots:
        yield f"the ledger has {len(ledger)} bytes with {live_events(ledger)}, not {slots} slots with {events}"


def keeps(runner):
    """an accepted file's ledger is kept, and is the one that the next file meets"""
    with place(**{"delete.txt": DELETE}) as folder:
        yield from differs(runner.run("submit", *GIVEN, "e.txt", folder=folder), 0, "e.txt" + ACCEPTED)
        yield from holds(folder, X)
        kept = read_all(folder)
        ended = runner.run("submit", *GIVEN, "-f", "numbers", "e.txt", folder=folder)
        yield from differs(ended, 1, "6 0 0 2 0 0 0 0\n4 4 16\n6 4 16\n")
        if read_all(folder) != kept:
            yield "a refused file altered a file"
        yield from differs(runner.run("submit", *GIVEN, "-f", "json", "delete.txt", folder=folder), 0)
        yield from holds(folder)


def refused_leaves(runner):
    """whatever is not accepted leaves every file byte for byte, at every answer"""
    tries = [
        (1, {}, ["-t", "20230229"]),
        (2, {"e.txt": E.ljust(FILE_MOST + 1, b"|")}, []),
        (3, {"book": BOOK[:-1]}, []),
        (4, {"ledger": slot(*Y) + slot(*X)}, []),
        (5, {"e.txt": E[:-1]}, []),
        (6, {"e.txt": TWICE}, []),
        (7, {"ledger": slot(*Y)}, []),
    ]
    for answer, files, words in tries:
        with place(**files) as folder:
            before = read_all(folder)
            ended = runner.run("submit", *(words or GIVEN[:2]), *GIVEN[2:], "-f", "numbers", "e.txt", folder=folder)
            if not ended.out.startswith(b"%d " % answer) or ended.status == 0:
                yield f"answer {answer}: {ended}"
            if read_all(folder) != before:
                yield f"answer {answer}: a file was altered"


def makes_ledger(runner):
    """--create makes a ledger where there is none, and uses one that is there"""
    with place() as folder:
        given = ("submit", "-t", TODAY, "-b", "book", "-l", "new")
        yield from differs(runner.run(*given, "e.txt", folder=folder), 2, "", "new: No such file or directory")
        yield from differs(runner.run(*given, "--create", "3", "none.txt", folder=folder), 2, "", "none.txt: No such file")
        if os.path.exists(os.path.join(folder, "new")):
            yield "a ledger was made without a file"
        yield from differs(runner.run(*given, "--create", "3", "e.txt", folder=folder), 0, "e.txt" + ACCEPTED)
        yield from holds(folder, X, slots=3, name="new")
        yield from differs(runner.run(*given, "-c5", "e.txt", folder=folder), 1)
        yield from holds(folder, X, slots=3, name="new")
        yield from differs(runner.run("submit", *GIVEN[:4], "-l", "zero", "-c", "0", "e.txt", folder=folder), 1, None)
        yield from differs(runner.run("submit", *GIVEN[:4], "-l", "none/new", "-c", "1", "e.txt", folder=folder), 2, "", "none/new: ")


def order_matters(runner):
    """the first file that could not be done is the last that is tried; a refused one is not"""
    with place(**{"next.txt": NEXT_DAY}) as folder:
        ended = runner.run("submit", *GIVEN, "twice.txt", "e.txt", "none.txt", "next.txt", "e.txt", folder=folder)
        yield from differs(ended, 2, None, "none.txt: No such file or directory\ntuulveski: next.txt and what comes after it: not submitted\n")
        if ended.out.count(b"accepted") != 1 or ended.out.count(b"refused") != 1:
            yield f"it prints {ended.out!r}"
        yield from holds(folder, X)
        checked = runner.run("check", *GIVEN, "next.txt", "e.txt", "next.txt", folder=folder)
        submitted = runner.run("submit", *GIVEN, "next.txt", "e.txt", "next.txt", folder=folder)
        if checked != submitted:
            yield f"check says {checked}, submit {submitted}"


def keeping_fails(runner):
    """where the ledger cannot be written, nothing is told to be accepted, and the old one stands"""
    limit = {"preexec_fn": lambda: resource.setrlimit(resource.RLIMIT_FSIZE, (100, 100))}
    with place() as folder:
        before = read_all(folder)
        for form in ("words", "numbers", "json"):
            ended = runner.run("submit", *GIVEN, "-f", form, "e.txt", folder=folder, **limit)
            yield from differs(ended, 2, "", "ledger: the ledger could not be kept: ")
        if read_all(folder) != before:
            yield f"there are {sorted(read_all(folder))}, or one of them was altered"


def wait_for(condition):
    """Whether something comes true before long."""
    end = time.monotonic() + WAIT_SECONDS
    while not condition() and time.monotonic() < end:
        time.sleep(0.01)
    return condition()


def full_pipe():
    """A pipe that takes no byte more until it is read."""
    reader, writer = os.pipe()
    os.set_blocking(writer, False)
    try:
        while True:
            os.write(writer, b"." * 65536)
    except BlockingIOError:
        os.set_blocking(writer, True)
    return reader, writer


def kept_before_told(runner):
    """the ledger is kept and let go before anything is told: also where nobody reads"""
    with place() as folder:
        reader, writer = full_pipe()
        path = os.path.join(folder, "ledger")
        with subprocess.Popen([*runner.words, "submit", *GIVEN, "e.txt"], stdin=subprocess.DEVNULL, stdout=writer, cwd=folder) as process:
            os.close(writer)
            if not wait_for(lambda: live_events(ledger_in(folder)) == [X]):
                yield "the ledger is not kept while nobody reads"
            with open(path, "rb") as ledger:
                try:
                    wait_for(lambda: fcntl.flock(ledger, fcntl.LOCK_EX | fcntl.LOCK_NB) is None)
                except BlockingIOError:
                    yield "the ledger is held while nobody reads"
            if process.poll() is not None:
                yield "it ended before all was read"
            with os.fdopen(reader, "rb") as out:
                told = out.read().lstrip(b".")
        if told.decode() != "e.txt" + ACCEPTED or process.returncode != 0:
            yield f"it says {told!r}, exit status {process.returncode}"


def telling_fails(runner):
    """an answer that cannot be told is said, with what became of the ledger, and ends the run"""
    with place(**{"next.txt": NEXT_DAY}) as folder, open("/dev/full", "wb") as full:
        ended = runner.run("submit", *GIVEN, "e.txt", "next.txt", folder=folder, stdout=full)
        yield from differs(ended, 2, None, "e.txt is accepted, and the ledger is kept\ntuulveski: next.txt and what comes after it: not submitted\n")
        yield from holds(folder, X)


def held_ledger(runner):
    """a ledger that another process holds is waited for; check does not need it"""
    with place() as folder:
        with open(os.path.join(folder, "ledger"), "rb") as ledger:
            fcntl.flock(ledger, fcntl.LOCK_EX)
            yield from differs(runner.run("submit", *GIVEN, "--wait", "0", "e.txt", folder=folder), 2, "", "another process holds it")
            yield from differs(runner.run("check", *GIVEN, "e.txt", folder=folder), 0, "e.txt" + ACCEPTED)
            timer = threading.Timer(0.3, lambda: fcntl.flock(ledger, fcntl.LOCK_UN))
            timer.start()
            yield from differs(runner.run("submit", *GIVEN, "-w", "60", "e.txt", folder=folder), 0, "e.txt" + ACCEPTED)
            timer.join()
        yield from holds(folder, X)


def two_at_once(runner):
    """two processes that submit to one ledger lose nothing"""
    days = [f"202208{day:02}" for day in range(1, 21)]
    files = {f"{day}.txt": submission("IP", ("II", {6: day}), "IE") for day in days}
    with place(**files, ledger=FREE * 20) as folder:
        words = [*runner.words, "submit", *GIVEN]
        halves = [subprocess.Popen([*words, *(f"{day}.txt" for day in days[half::2])], cwd=folder, stdout=subprocess.PIPE) for half in (0, 1)]
        said = [half.communicate()[0] for half in halves]
        if any(half.returncode for half in halves) or sum(out.count(b": accepted: ") for out in said) != 20:
            yield f"they say {said}"
        yield from holds(folder, *((X[0], day, X[2]) for day in days), slots=20)


def same_as_lent(runner):
    """a file that alters no event keeps the ledger's events"""
    with place(**{"change.txt": submission("IP", ("II", {4: "C"}), "IE")}, ledger=ledger_of(X, Y, slots=10)) as folder:
        before = ledger_in(folder)
        yield from differs(runner.run("submit", *GIVEN, "change.txt", folder=folder), 0)
        if ledger_in(folder) != before:
            yield "the ledger's bytes are others"


TESTS = [keeps, refused_leaves, makes_ledger, order_matters, keeping_fails, kept_before_told, telling_fails, held_ledger, two_at_once, same_as_lent]
