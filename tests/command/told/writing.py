"""How `write` behaves beside its refusals: what it writes of any chart, where it writes it, and what the check says of it. Each test yields
its faults."""
import os
import random
import resource
import subprocess
import sys

from charts import WIDTHS, chart_of, chart_record, file_for
from conduct import GIVEN, closed_pipe, differs, place
from data import E, FILE_MOST, ULI, X, Y
from keeping import holds
from running import read_all
from written import CHART_E

WRITE = ("write", "-p", "10", "-n", "000001")
COUNTS_E = "1 patient, 2 immunizations, 0 not-immunized records\n"
RANDOM_CHARTS = 200
SAMPLES = os.path.join(os.path.dirname(os.path.abspath(__file__)), "..", "..", "..", "samples", "charts")
CHART_MOST = 250_000_000
NUMBERS_MOST = 99_999


def file_e(runner):
    """File E's chart gives File E byte for byte, from a file and from standard input, to standard output and to a file"""
    with place(**{"e.chart": CHART_E}) as folder:
        for words in (["e.chart"], ["-"], ["--", "e.chart"], ["-o", "-", "e.chart"], ["e.chart", "-o-"]):
            ended = runner.run(*WRITE, *words, folder=folder, stdin=CHART_E if words == ["-"] else b"")
            yield from (f"{words}: {fault}" for fault in differs(ended, 0, E.decode(), COUNTS_E))
        for words in (["-o", "1", "e.chart"], ["--output=2", "e.chart"], ["e.chart", "--output", "./3"], ["-o4", "-"]):
            yield from (f"{words}: {fault}" for fault in differs(runner.run(*WRITE, *words, folder=folder, stdin=CHART_E), 0, "", COUNTS_E))
        for name in "1234":
            if read_all(folder)[name][0] != E or os.stat(os.path.join(folder, name)).st_mode & 0o7777 != 0o600:
                yield f"{name} is not File E, or others may read it"
        long = runner.run("write", "--prefix=10", "--batch", "000001", "e.chart", folder=folder)
        yield from differs(long, 0, E.decode(), COUNTS_E)


# A family before a journey: the lots stand in the order in which they were scanned, so that those of one event are apart. The second child
# has the same visit, and a vaccine that was declined.
def child(uli, *lots):
    visit = [("II", {3: uli, 6: date, 15: lot}) for date, lot in lots]
    return [("IP", {3: uli}), *(part for record in visit for part in (record, ("IE", {3: uli})))]


TRAVEL = [*child(ULI, ("20220901", "L1"), ("20220902", "M1"), ("20220901", "L2"), ("20220902", "M2"), ("20220901", "L3")),
          *child("987654321", ("20220901", "L1"), ("20220902", "M1"), ("20220901", "L2")), ("IN", {3: "987654321"}), ("IA", {3: "987654321"})]


def events_in(file):
    """The dates and lots of the II lines, each with its ULI, in their order."""
    lines = [line.split("|") for line in file.decode().splitlines()]
    return [(fields[2], fields[5], fields[14]) for fields in lines if fields[0] == "II"]


def travel_clinic(runner):
    """scattered lots of one visit are written together, and every lot is accepted; in the order given they are refused by rule 15"""
    scattered = file_for(*TRAVEL, together=False)
    with place(**{"day.chart": chart_of(*TRAVEL), "scattered.txt": scattered}) as folder:
        refused = runner.run("check", *GIVEN, "-f", "numbers", "scattered.txt", folder=folder)
        yield from differs(refused, 1, "6 0 0 4 0 0 0 0\n" + "".join(f"{line} 8 15\n" for line in (8, 10, 12, 19)))
        ended = runner.run(*WRITE, "-o", "day.txt", "day.chart", folder=folder)
        yield from differs(ended, 0, "", "2 patients, 8 immunizations, 1 not-immunized record\n")
        written = read_all(folder)["day.txt"][0]
        if sorted(events_in(written)) != sorted(events_in(scattered)) or len(events_in(written)) != 8:
            yield "a lot is lost"
        if [lot for _, _, lot in events_in(written)] != ["L1", "L2", "L3", "M1", "M2", "L1", "L2", "M1"]:
            yield f"the lots are not together: {events_in(written)}"
        for command in ("check", "submit"):
            told = "day.txt: accepted: 4 events added, 0 changed, 0 deleted, 1 not-immunized record\n"
            yield from differs(runner.run(command, *GIVEN, "day.txt", folder=folder), 0, told)
        yield from holds(folder, X, Y, ("987654321", *X[1:]), ("987654321", *Y[1:]))


def sample_chart(runner):
    """the sample chart is the one that its script makes, and gives its records with the lots together"""
    made = subprocess.run([sys.executable, os.path.join(SAMPLES, "make"), os.path.join(SAMPLES, "scanned.txt")], capture_output=True, check=False)
    with open(os.path.join(SAMPLES, "scanned.chart"), "rb") as file:
        if made.stdout != file.read():
            yield "scanned.chart is another than that of scanned.txt"
    with open(os.path.join(SAMPLES, "scanned.txt"), encoding="ascii") as file:
        lines = [line.split("|")[:-1] for line in file.read().splitlines()]
    records = [(fields[0], {n: fields[n - 1] for n in range(3, len(fields) + 1)}) for fields in lines[2:-1]]
    ended = runner.run("write", "-p", "55", "-n", "000226", "-", stdin=made.stdout)
    yield from differs(ended, 0, file_for(*records, prefix="55", batch="000226").decode(), "1 patient, 3 immunizations, 0 not-immunized records\n")


def two_patient_records(runner):
    """two IP records of one patient keep their lots apart, which breaks rule 15"""
    with place(**{"two.chart": chart_of("IP", "II", "IE", "IP", ("II", {15: "L2"}), "IE")}) as folder:
        yield from differs(runner.run(*WRITE, "-o", "two.txt", "two.chart", folder=folder), 0, "", "2 patients, 2 immunizations")
        yield from differs(runner.run("check", *GIVEN, "-f", "numbers", "two.txt", folder=folder), 1, "6 0 0 1 0 0 0 0\n7 8 15\n")


def any_text(chance, width):
    """Nothing, blanks, or a text that may have blanks at its ends and within."""
    letters = "".join(chr(code) for code in range(32, 127) if chr(code) != "|")
    text = "".join(chance.choice(letters + " " * 40) for _ in range(chance.choice((0, 1, width, chance.randint(0, width)))))
    return (" " * chance.choice((0, 0, 1, 3)) + text)[:width]


def any_record(chance, kind):
    fields = {n: any_text(chance, min(width, 30)) for n, width in enumerate(WIDTHS[kind], 3) if chance.random() < 0.5}
    if kind == "II":
        fields.update({4: chance.choice("AC "), 6: chance.choice(("20220901", " ")), 8: chance.choice(("V", " V", "V ", "W", "V W", ""))})
    return kind, fields


def any_records(chance):
    kinds = []
    for _ in range(chance.choice((0, 1, 1, 2, 5))):
        visits = [["II"] + ["IE"] * chance.randint(1, 3) for _ in range(chance.choice((0, 1, 2, 4, 9)))]
        declined = [["IN"] + ["IA"] * chance.randint(1, 3) for _ in range(chance.choice((0, 0, 1, 3)))]
        kinds += ["IP", *sum(visits + declined or [["IN", "IA"]], [])]
    return [any_record(chance, kind) for kind in kinds]


def any_chart(runner):
    """random charts, padded on either side, give exactly the file that the request describes, and the check finds its shape right"""
    chance = random.Random(3)
    for number in range(20 if runner.is_emulated else RANDOM_CHARTS):
        records = any_records(chance)
        pads = [chance.choice((str.ljust, str.rjust, str.center)) for _ in records]
        chart = b"".join(chart_record(record, pad) for record, pad in zip(records, pads))
        with place(**{"any.chart": chart}) as folder:
            ended = runner.run(*WRITE, "-o", "any.txt", "any.chart", folder=folder)
            if ended.status != 0 or read_all(folder)["any.txt"][0] != file_for(*records):
                yield f"chart {number}: another file, or {ended}"
            checked = runner.run("check", *GIVEN, "-f", "numbers", "any.txt", folder=folder)
            if not checked.out.startswith((b"0 ", b"6 ")):
                yield f"chart {number}: the check says {checked.out[:100]!r}"


def longest(runner):
    """a file of 5,000,000 bytes is written, and one of a byte more is not"""
    full = [part for _ in range(2_950) for part in (("II", {22: "x" * 1600}), "IE")]
    short = FILE_MOST - len(file_for("IP", *full, ("II", {22: "x"}), "IE")) + 1
    while short > 1600:
        full += [("II", {22: "x" * 1600}), "IE"]
        short = FILE_MOST - len(file_for("IP", *full, ("II", {22: "x"}), "IE")) + 1
    for comment, status in ((short, 0), (short + 1, 1)):
        records = ["IP", *full, ("II", {22: "x" * comment}), "IE"]
        with place(**{"long.chart": chart_of(*records)}) as folder:
            ended = runner.run(*WRITE, "-o", "long.txt", "long.chart", folder=folder)
            kept = read_all(folder).get("long.txt", (b"", 0))[0]
        if (ended.status, len(kept)) != (status, 0 if status else FILE_MOST) or (status == 0 and kept != file_for(*records)):
            yield f"{ended} with {len(kept)} bytes"


def most_records(runner):
    """99,999 records are written and have their numbers; with one more it says that the check will refuse the file"""
    for more, warned in ((0, False), (1, True)):
        records = ["IP", "IN", *[("IA", {4: "A"})] * (NUMBERS_MOST - 2 + more)]
        with place(**{"many.chart": chart_of(*records)}) as folder:
            ended = runner.run(*WRITE, "-o", "many.txt", "many.chart", folder=folder)
            yield from differs(ended, 0, "", "many.chart: has 100000 records, and the check" if warned else "1 patient, 0 immunizations, 1 not")
            if (b"rule 2" in ended.err) != warned or read_all(folder)["many.txt"][0] != file_for(*records):
                yield f"{NUMBERS_MOST + more} records: {ended.err!r}, or another file"
            checked = runner.run("check", *GIVEN, "-f", "numbers", "many.txt", folder=folder)
            if (b"100002 2 2\n" in checked.out) != warned:
                yield f"{NUMBERS_MOST + more} records: the check finds something else at the last record number"


def never_ends(runner):
    """a chart that is longer than any that can be written is refused before all of it is read"""
    with place() as folder:
        path = os.path.join(folder, "far.chart")
        with open(path, "wb") as file:
            file.truncate(CHART_MOST + 1)
        yield from differs(runner.run(*WRITE, "far.chart", folder=folder), 1, "", "refused: it has more than 250000000 bytes")
        os.truncate(path, CHART_MOST)
        yield from differs(runner.run(*WRITE, "far.chart", folder=folder), 1, "", "record 1 at byte 1: the kind of record is unknown: 0x00")


def never_over(runner):
    """a file that is there, a link to nothing and a folder stay as they are"""
    with place(**{"e.chart": CHART_E, "there.txt": b"old"}) as folder:
        os.mkdir(os.path.join(folder, "folder"))
        before = read_all(folder)
        os.symlink("nowhere", os.path.join(folder, "link"))
        for name, part in (("there.txt", "there.txt: is there already; nothing was written"), ("e.chart", "e.chart: is there already"),
                           ("link", "link: is there already"), ("folder", "folder: is there already"), ("none/out.txt", "No such file or directory"),
                           ("e.chart/out.txt", "Not a directory"), ("", "")):
            yield from (f"{name}: {fault}" for fault in differs(runner.run(*WRITE, "-o", name, "e.chart", folder=folder), 2, "", part))
        os.unlink(os.path.join(folder, "link"))
        if read_all(folder) != before:
            yield f"the folder has {sorted(os.listdir(folder))}"


def usage(runner):
    """what is not understood is said on standard error, with exit status 2, and nothing is written"""
    tries = [
        (["write"], "write needs --prefix"),
        (["write", "-p", "10", "e.chart"], "write needs --batch"),
        (["write", "-n", "1", "e.chart"], "write needs --prefix"),
        ([*WRITE], "write needs the name of a chart"),
        ([*WRITE, "e.chart", "e.chart"], "write takes one chart at a time"),
        ([*WRITE, "--replace", "e.chart"], "write has no option '--replace'"),
        ([*WRITE, "--book", "book", "e.chart"], "write has no option '--book'"),
        ([*WRITE, "-p", "11", "e.chart"], "--prefix is given twice"),
        ([*WRITE, "e.chart", "-o"], "--output needs a value"),
        ([*WRITE, "none.chart"], "none.chart: No such file or directory"),
        ([*WRITE, "\x1b[2Jx\n"], "tuulveski: \\x1b[2Jx\\n: No such file or directory\n"),
        ([*WRITE, "."], "director"),
    ]
    with place(**{"e.chart": CHART_E}) as folder:
        before = read_all(folder)
        for words, part in tries:
            yield from (f"{words}: {fault}" for fault in differs(runner.run(*words, folder=folder), 2, "", part))
        if read_all(folder) != before:
            yield "a file was altered"
    yield from (f"help: {fault}" for fault in differs(runner.run("write", "-h"), 0))


def shown_names(runner):
    """a chart's name cannot fake a line or move a terminal's cursor"""
    with place(**{"\x1b[2Jx\n": b"?"}) as folder:
        yield from differs(runner.run(*WRITE, "\x1b[2Jx\n", folder=folder), 1, "", "tuulveski: \\x1b[2Jx\\n: refused: record 1 at byte 1: ")
        yield from differs(runner.run(*WRITE, "-o", "\x1b[2Jx\n", "-", folder=folder), 2, "", "tuulveski: \\x1b[2Jx\\n: is there already")


def limited(size):
    """No file may be longer than this."""
    return lambda: resource.setrlimit(resource.RLIMIT_FSIZE, (size, size))


def cannot_be_written(runner):
    """a full disk and a reader that went away are said, with exit status 2, and no part of a file is left"""
    with place(**{"e.chart": CHART_E}) as folder:
        before = read_all(folder)
        for way, why in ((lambda: os.open("/dev/full", os.O_WRONLY), "No space left on device"), (closed_pipe, "Broken pipe")):
            out = way()
            ended = runner.run(*WRITE, "e.chart", folder=folder, stdout=out)
            os.close(out)
            yield from differs(ended, 2, None, f"standard output: {why}\n")
            if b"immunizations" in ended.err:
                yield "it is told as written"
        if not runner.is_emulated:
            ended = runner.run(*WRITE, "-o", "out.txt", "e.chart", folder=folder, preexec_fn=limited(len(E) - 1))
            yield from differs(ended, 2, "", "the new file cannot be written: File too large")
        if read_all(folder) != before:
            yield f"the folder has {sorted(os.listdir(folder))}"


def small_stack(runner):
    """many lots of one patient on a stack of 256 KB"""
    if runner.is_emulated:
        return
    records = ["IP", *(part for n in range(1_500) for part in (("II", {6: f"2022{n % 9 + 1:02}01", 15: f"L{n}"}), "IE"))]
    with place(**{"many.chart": chart_of(*records)}) as folder:
        stack = 256 * 1024
        ended = runner.run(*WRITE, "many.chart", folder=folder, preexec_fn=lambda: resource.setrlimit(resource.RLIMIT_STACK, (stack, stack)))
    if ended.status != 0 or ended.out != file_for(*records):
        yield f"exit status {ended.status}, {ended.err[:200]!r}"


TESTS = [file_e, travel_clinic, sample_chart, two_patient_records, any_chart, longest, most_records, never_ends, never_over, usage, shown_names,
         cannot_be_written, small_stack]
