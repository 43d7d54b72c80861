"""How `check` behaves beside its answers: options, several files, what cannot be read or written, names, and today's date. Each test yields
its faults."""
import datetime
import json
import os
import subprocess
import tempfile
from contextlib import contextmanager

from data import BOOK, E, FREE, TODAY, submission
from running import read_all, write_all

GIVEN = ("-t", TODAY, "-b", "book", "-l", "ledger")
TWICE = E.replace(b"|L2|", b"|L1|")
ACCEPTED = ": accepted: 1 event added, 0 changed, 0 deleted, 0 not-immunized records\n"


@contextmanager
def place(**files):
    """A folder with a book, a ledger of ten free slots and a file e.txt, and further files."""
    with tempfile.TemporaryDirectory() as folder:
        write_all(folder, **{"book": BOOK, "ledger": FREE * 10, "e.txt": E, "twice.txt": TWICE, **files})
        yield folder


def differs(ended, status, out=None, err=None):
    """What is not as expected: the exit status, all that is printed, a part of what is said."""
    if ended.status != status:
        yield f"exit status {ended.status}, not {status} ({ended.err[:200]!r})"
    if out is not None and ended.out.decode() != out:
        yield f"{ended.out[:300]!r}, not {out[:300]!r}"
    if err is None and ended.err:
        yield f"standard error has {ended.err[:200]!r}"
    if err is not None and err not in ended.err.decode():
        yield f"{ended.err[:300]!r} has not {err!r}"


def several_files(runner):
    """several files are checked in order, each with the ledger that those before it leave"""
    change = submission("IP", ("II", {4: "C"}), "IE")
    with place(**{"change.txt": change}) as folder:
        before = read_all(folder)
        ended = runner.run("check", *GIVEN, "twice.txt", "e.txt", "change.txt", "e.txt", folder=folder)
        lines = ended.out.decode().splitlines(True)
        said = [line.split(": ", 1)[1] for line in lines if line.split(":")[1].startswith(" ")]
        if said != ["refused: 1 finding\n", ACCEPTED[2:], "accepted: 0 events added, 1 changed, 0 deleted, 0 not-immunized records\n", "refused: 2 findings\n"]:
            yield f"it says {said}"
        yield from differs(ended, 1)
        numbers = runner.run("check", *GIVEN, "-f", "numbers", "twice.txt", "e.txt", folder=folder)
        yield from differs(numbers, 1, "6 0 0 1 0 0 0 0\n6 15 14\n0 0 0 0 1 0 0 0\n")
        rows = [json.loads(line) for line in runner.run("check", *GIVEN, "-f", "json", "twice.txt", "e.txt", folder=folder).out.splitlines()]
        if [(row["file"], row["answer"]) for row in rows] != [("twice.txt", 6), ("e.txt", 0)]:
            yield f"in JSON {rows}"
        if read_all(folder) != before:
            yield "check altered a file"


def unreadable_between(runner):
    """a file that cannot be read does not keep check from the others, and makes the exit status 2"""
    with place() as folder:
        ended = runner.run("check", *GIVEN, "none.txt", "e.txt", folder=folder)
        yield from differs(ended, 2, "e.txt" + ACCEPTED, "tuulveski: none.txt: No such file or directory\n")


def said_once(runner):
    """what is wrong with the book is said once, and every file has its answer"""
    with place(book=b"?") as folder:
        ended = runner.run("check", *GIVEN, "-f", "numbers", "e.txt", "e.txt", folder=folder)
        yield from differs(ended, 2, "3 0 0 0 0 0 0 0\n" * 2, "book: the code book is malformed: ")
        if ended.err.count(b"\n") != 1:
            yield f"it is said more than once: {ended.err!r}"


def standard_input(runner):
    """- is standard input: a file, a book or a ledger, once"""
    with place() as folder:
        yield from differs(runner.run("check", *GIVEN, "-", folder=folder, stdin=E), 0, "-" + ACCEPTED)
        yield from differs(runner.run("check", *GIVEN, "--", "-", folder=folder, stdin=TWICE), 1)
        yield from differs(runner.run("check", "-t", TODAY, "-b", "-", "-l", "ledger", "e.txt", folder=folder, stdin=BOOK), 0, "e.txt" + ACCEPTED)
        yield from differs(runner.run("check", "-t", TODAY, "-b", "book", "-l", "-", "e.txt", folder=folder), 1,
                           "e.txt: refused: the ledger is full: 1 more slot is needed\n")
        for words in ((*GIVEN, "-", "-"), ("-b", "-", "-l", "ledger", "-"), ("-b", "book", "-l", "-", "-")):
            yield from differs(runner.run("check", *words, folder=folder, stdin=E), 2, "", "standard input (-) can be read once only")
        yield from differs(runner.run("submit", "-b", "book", "-l", "-", "e.txt", folder=folder), 2, "", "cannot be standard input")


def help_and_version(runner):
    """help and version go to standard output"""
    for words, part in ((["--help"], "tuulveski check"), (["-h"], "tuulveski submit"), (["help"], "tuulveski ledger"), (["check", "--help"], "--format"),
                        (["submit", "-h"], "--create"), (["check", "-b", "x", "--help"], "--ledger")):
        ended = runner.run(*words)
        yield from differs(ended, 0)
        if part not in ended.out.decode():
            yield f"{words} does not name {part}"
    yield from differs(runner.run("--version"), 0, "tuulveski 0.3.0\n")


def usage_errors(runner):
    """what is not understood is said on standard error, with exit status 2"""
    tries = [
        ([], "tuulveski check"),
        (["chek"], "there is no command 'chek'"),
        (["\x1b[2Jx"], "there is no command '\\x1b[2Jx'"),
        (["check"], "check needs --book"),
        (["check", "-b", "book", "e.txt"], "check needs --ledger"),
        (["check", *GIVEN], "check needs the name of a file"),
        (["check", *GIVEN, "--"], "check needs the name of a file"),
        (["check", *GIVEN, "--colour", "e.txt"], "check has no option '--colour'"),
        (["check", *GIVEN, "--booking=x", "e.txt"], "check has no option '--booking=x'"),
        (["check", *GIVEN, "-x", "e.txt"], "check has no option '-x'"),
        (["check", *GIVEN, "--create", "5", "e.txt"], "check has no option '--create'"),
        (["check", *GIVEN, "-w", "5", "e.txt"], "check has no option '-w'"),
        (["check", *GIVEN, "-b", "book", "e.txt"], "--book is given twice"),
        (["check", "e.txt", "-l"], "--ledger needs a value"),
        (["check", *GIVEN, "--format", "xml", "e.txt"], "--format takes words, numbers or json, not 'xml'"),
        *((["check", f"--today={day}", "-b", "book", "-l", "ledger", "e.txt"], "--today takes eight digits")
          for day in ("", "2022093", "202209300", "2022-9-30", " 20220930", "+2022093", "today")),
        *((["submit", *GIVEN, "--create", slots, "e.txt"], "--create takes a number of slots from 0 to 100000")
          for slots in ("", "-1", "100001", "1e3", "99999999999999999999")),
        *((["submit", *GIVEN, "--wait", seconds, "e.txt"], "--wait takes a number of seconds") for seconds in ("", "-1", "86401", "1.5")),
    ]
    with place() as folder:
        before = read_all(folder)
        for words, part in tries:
            yield from (f"{words}: {fault}" for fault in differs(runner.run(*words, folder=folder), 2, "", part))
        if read_all(folder) != before:
            yield "a file was altered"


def ways_of_options(runner):
    """an option's value may stand in the same word, and options after files"""
    with place(**{"-e.txt": E}) as folder:
        for words in (["--today=" + TODAY, "--book=book", "--ledger=ledger", "e.txt"], ["-t" + TODAY, "-bbook", "-lledger", "-fwords", "e.txt"],
                      ["e.txt", *GIVEN], ["--ledger", "ledger", "e.txt", "--book", "book", "--today", TODAY, "--format", "words"]):
            yield from (f"{words}: {fault}" for fault in differs(runner.run("check", *words, folder=folder), 0, "e.txt" + ACCEPTED))
        yield from differs(runner.run("check", *GIVEN, "--", "-e.txt", folder=folder), 0, "-e.txt" + ACCEPTED)


def cannot_be_read(runner):
    """a missing file, a folder, and one without a right to read it, as file, book and ledger"""
    is_root = os.geteuid() == 0
    with place() as folder:
        os.mkdir(os.path.join(folder, "folder"))
        write_all(folder, closed=E)
        os.chmod(os.path.join(folder, "closed"), 0)
        for command in ("check", "submit"):
            for book, ledger, file in (("{}", "ledger", "e.txt"), ("book", "{}", "e.txt"), ("book", "ledger", "{}")):
                for name, part in (("none", "No such file or directory"), ("folder", "director" if "{}" in book + file or command == "check" else ""),
                                   ("", ""), *((("closed", "Permission denied"),) if not is_root else ())):
                    words = [command, "-t", TODAY, "-b", book.format(name), "-l", ledger.format(name), file.format(name)]
                    ended = runner.run(*words, folder=folder)
                    yield from (f"{words}: {fault}" for fault in differs(ended, 2, "", part))
        yield from differs(runner.run("submit", "-b", "book", "-l", "none", "e.txt", folder=folder), 2, "", "tuulveski ledger new LEDGER SLOTS")


def shown_names(runner):
    """a name cannot fake a line or move a terminal's cursor, and JSON has it whole"""
    names = {
        "a b.txt": "a b.txt",
        "x: accepted\nfile.txt": "x: accepted\\nfile.txt",
        "\x1b[2J\r\t\x7f.txt": "\\x1b[2J\\r\\t\\x7f.txt",
        "caf\u00e9.txt": "caf\u00e9.txt",
        "\u0085\u202e.txt": "\\xc2\\x85\\xe2\\x80\\xae.txt",
        "\udcff\udcc3.txt": "\\xff\\xc3.txt",
        "\udcc0\udcaf\udced\udca0\udc80.txt": "\\xc0\\xaf\\xed\\xa0\\x80.txt",
        'q"\\.txt': 'q"\\.txt',
    }
    with place(**{name: TWICE for name in names}) as folder:
        for name, shown in names.items():
            words = runner.run("check", *GIVEN, name, folder=folder)
            finding = f'{shown}:6:55: II 15 Lot Number "L1": the lot is already given in this block (rule 14)\n'
            yield from differs(words, 1, f"{finding}{shown}: refused: 1 finding\n")
            row = json.loads(runner.run("check", *GIVEN, "-f", "json", name, folder=folder).out.decode("utf-8"))
            if row["file"] != "".join("\ufffd" if "\udc80" <= c <= "\udcff" else c for c in name):
                yield f"in JSON {row['file']!r} for {name!r}"
            missing = runner.run("check", *GIVEN, name + "?", folder=folder)
            yield from differs(missing, 2, "", f"tuulveski: {shown}?: No such file or directory\n")


def grow_hint(runner):
    """the command that makes room is one that a shell can run"""
    with place(**{"my 'ledger": b"", "-l": b""}) as folder:
        for name, word in (("my 'ledger", "'my '\\''ledger'"), ("-l", "./-l")):
            ended = runner.run("check", "-t", TODAY, "-b", "book", "--ledger=" + name, "e.txt", folder=folder)
            yield from differs(ended, 1, f"e.txt: refused: the ledger is full: 1 more slot is needed: tuulveski ledger grow {word} 1\n")
            hint = ended.out.decode().split("needed: tuulveski ", 1)[1]
            subprocess.run(["sh", "-c", '"$@" ' + hint, "sh", *runner.words], cwd=folder, capture_output=True, check=False)
            again = runner.run("check", "-t", TODAY, "-b", "book", "--ledger=" + name, "e.txt", folder=folder)
            yield from differs(again, 0, "e.txt" + ACCEPTED)


def local_day(zone):
    """Today in a time zone that is so many hours east."""
    return (datetime.datetime.now(datetime.timezone.utc) + datetime.timedelta(hours=zone)).date()


def todays_date(runner):
    """without --today it is the system's day, by its local time"""
    for name, zone in (("UTC0", 0), ("EAST-14", 14), ("WEST12", -12)):
        for days, status in ((0, 0), (1, 1)):
            before = local_day(zone)
            day = (before + datetime.timedelta(days=days)).strftime("%Y%m%d")
            with place(**{"day.txt": submission("IP", ("II", {6: day}), "IE")}) as folder:
                ended = runner.run("check", "-b", "book", "-l", "ledger", "day.txt", folder=folder, env={**os.environ, "TZ": name})
            if local_day(zone) == before:
                yield from (f"{name}, {days} days on: {fault}" for fault in differs(ended, status))


def closed_pipe():
    """An end of a pipe that nobody reads."""
    reader, writer = os.pipe()
    os.close(reader)
    return writer


def writing_fails(runner):
    """a full disk, a closed pipe and a closed standard output are said, with exit status 2"""
    ways = [
        (lambda: {"stdout": os.open("/dev/full", os.O_WRONLY)}, "No space left on device"),
        (lambda: {"stdout": closed_pipe()}, "Broken pipe"),
        (lambda: {"stdout": None, "preexec_fn": lambda: os.close(1)}, "Bad file descriptor"),
    ]
    with place() as folder:
        for words in (["check", *GIVEN, "e.txt"], ["check", *GIVEN, "-f", "json", "twice.txt", "e.txt"], ["--help"], ["--version"], ["submit", "--help"]):
            for way, why in ways[: 2 if runner.is_emulated else 3]:
                more = way()
                ended = runner.run(*words, folder=folder, **more)
                if more["stdout"] is not None:
                    os.close(more["stdout"])
                yield from (f"{words}: {fault}" for fault in differs(ended, 2, None, f"standard output: {why}\n"))


TESTS = [several_files, unreadable_between, said_once, standard_input, help_and_version, usage_errors, ways_of_options, cannot_be_read, shown_names,
         grow_hint, todays_date, writing_fails]
