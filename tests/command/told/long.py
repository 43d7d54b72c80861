"""Long files, long ledgers and many findings: all of them told, in little time and on a small stack. Each test yields its faults."""
import json
import os
import resource

from conduct import ACCEPTED, GIVEN, differs, place
from data import FILE_MOST, FREE, SLOTS_MOST, field_at, file_of, live_events, record, slot
from running import FINDING, read_all

THIRDS = 33_333  # patients of three records each: the record numbers go to 99,999
MANY = 100_000
SECONDS_MOST = 1.0


def patients(count, own=None):
    """The lines of so many patients with one immunization each; own fields of each record by its type."""
    own = own or {}
    lines = []
    for n in range(count):
        for place_of, kind in enumerate(("IP", "II", "IE"), 1):
            short = {8: "", 9: ""} if kind == "IP" else {}
            lines.append(record(kind, {2: str(3 * n + place_of), 3: f"{n:09}", **short, **own.get(kind, {})}))
    return lines


def long_file(lines, size, footer=()):
    """A file of exactly this size: the first patient's last name (IP 8) fills it up."""
    whole = [record("IV"), record("IH"), *lines, record("IF", footer)]
    short = size - len(file_of(whole))
    assert short >= 0, short
    parts = whole[2].split("|")
    parts[7] = "N" * short
    whole[2] = "|".join(parts)
    return file_of(whole)


def many_findings():
    """5,000,000 bytes with exactly 100,000 findings, and the list of them: no IP has place 9, since their places are 1, 4, 7, 10 .."""
    file = long_file(patients(THIRDS, {"IP": {2: "9"}, "II": {9: "XX"}, "IE": {4: "NONE"}}), FILE_MOST, {3: ""})
    each = [(3 * n + line, field, rule) for n in range(THIRDS) for line, field, rule in ((3, 2, 7), (4, 9, 4), (5, 4, 4))]
    findings = each + [(3 * THIRDS + 3, 3, 1)]
    assert len(findings) == MANY
    return file, findings


def processor_seconds(runner, *words, **more):
    """A run, and how much processor time it took."""
    before = resource.getrusage(resource.RUSAGE_CHILDREN)
    ended = runner.run(*words, **more)
    after = resource.getrusage(resource.RUSAGE_CHILDREN)
    return ended, after.ru_utime + after.ru_stime - before.ru_utime - before.ru_stime


def hundred_thousand_findings(runner):
    """100,000 findings of 5,000,000 bytes are all told, each in under a second of processor time"""
    file, findings = many_findings()
    numbers = "6 0 0 100000 0 0 0 0\n" + "".join(f"{line} {field} {rule}\n" for line, field, rule in findings)
    lines = file.split(b"\n")
    places = [field_at(lines[line - 1], 1, field) for line, field, _ in findings]
    with place(**{"many.txt": file}) as folder:
        runs = {form: processor_seconds(runner, "check", *GIVEN, "-f", form, "many.txt", folder=folder) for form in ("words", "numbers", "json")}
    for form, (ended, seconds) in runs.items():
        yield from (f"{form}: {fault}" for fault in differs(ended, 1))
        if seconds >= SECONDS_MOST and not runner.is_emulated:
            yield f"{form} took {seconds:.2f} s of processor time"
    if runs["numbers"][0].out.decode() != numbers:
        yield "the numbers are others"
    told = runs["words"][0].out.decode().splitlines()
    seen = [FINDING.fullmatch(line) for line in told[:-1]]
    expected = [(str(line), str(field), str(rule), str(column), text) for (line, field, rule), (column, text) in zip(findings, places)]
    if told[-1] != "many.txt: refused: 100,000 findings" or [(s["line"], s["field"], s["rule"], s["column"], s["text"]) for s in seen if s] != expected:
        yield "the words are others"
    right = [int(s["said"].split(": ")[1].split()[0]) for s in seen if s and s["rule"] == "7"]
    if right != [3 * n + 1 for n in range(THIRDS)]:
        yield "a record number that would be right is another"
    found = json.loads(runs["json"][0].out)["found"]
    if [(f["line"], f["field"], f["rule"], f["column"], f["text"]) for f in found] != [(*f, *p) for f, p in zip(findings, places)]:
        yield "the JSON is another"
    if [f["message"] for f in found] != [s["said"] for s in seen if s]:
        yield "words and JSON differ in a message"


def more_findings(runner):
    """more findings than there is room for at first are all told"""
    empty = "IE" + "|" * 5
    lines = [record("IP", {2: "1"}), record("II", {2: "2"})] + [empty] * 60_000
    file = file_of([record("IV"), record("IH"), *lines, record("IF")])
    expected = "6 0 0 240000 0 0 0 0\n" + "".join(f"{line} {field} 1\n" for line in range(5, 60_005) for field in (2, 3, 4, 5))
    with place(**{"empty.txt": file}) as folder:
        yield from differs(runner.run("check", *GIVEN, "-f", "numbers", "empty.txt", folder=folder), 1, expected)
        words = runner.run("check", *GIVEN, "empty.txt", folder=folder).out.decode()
        if words.count("\n") != 240_001 or not words.endswith("\nempty.txt: refused: 240,000 findings\n"):
            yield f"in words {words.count(chr(10))} lines"


def past_record_numbers(runner):
    """a record whose place has six digits has no right number"""
    lines = [record("IP", {2: "1"}), record("II", {2: "2"})] + [record("IE", {2: str(n if n < 99_999 else 99_998), 4: f"A{n}"}) for n in range(3, 100_003)]
    with place(**{"far.txt": file_of([record("IV"), record("IH"), *lines, record("IF")])}) as folder:
        ended = runner.run("check", *GIVEN, "far.txt", folder=folder)
    for line, due in ((100_001, "99999 would be right"), (100_002, "no record number goes as far as 100,000, so the file has to be split")):
        said = f"far.txt:{line}:4: IE 2 Record Number \"99998\": the number is not the record's place among the IP, II, IE, IN and IA records: {due} (rule 7)\n"
        if said not in ended.out.decode():
            yield f"it does not say {said}"
    if ended.out.count(b"(rule 7)") != 4:
        yield f"rule 7 is said {ended.out.count(b'(rule 7)')} times"


def long_ledger(runner):
    """files of 200,000 and of 5,000,000 bytes are submitted to a ledger of 100,000 slots"""
    small, big = long_file(patients(1_000), 200_000), long_file(patients(30_000), FILE_MOST)
    taken = [(f"{n:09}", "20100101", "OLDV") for n in range(SLOTS_MOST - 30_000)]
    added = [(f"{n:09}", "20220901", "TESTV") for n in range(30_000)]
    with place(**{"small.txt": small, "big.txt": big}, ledger=b"".join(slot(*event) for event in taken) + FREE * 30_000) as folder:
        checked = runner.run("check", *GIVEN, "small.txt", folder=folder)
        yield from differs(checked, 0, "small.txt: accepted: 1,000 events added, 0 changed, 0 deleted, 0 not-immunized records\n")
        ended = runner.run("submit", *GIVEN, "big.txt", folder=folder)
        yield from differs(ended, 0, "big.txt: accepted: 30,000 events added, 0 changed, 0 deleted, 0 not-immunized records\n")
        with open(os.path.join(folder, "ledger"), "rb") as file:
            if live_events(file.read()) != sorted(taken + added):
                yield "the ledger has other events"
        ended = runner.run("submit", *GIVEN, "e.txt", folder=folder)
        yield from differs(ended, 1, "e.txt: refused: more events would be live than a ledger can hold, 100,000\n")


def small_stack(runner):
    """a small stack (ulimit -s) does no harm"""
    if runner.is_emulated:
        return
    file, _ = many_findings()
    limit = {"preexec_fn": lambda: resource.setrlimit(resource.RLIMIT_STACK, (262_144, 262_144))}
    with place(**{"many.txt": file}) as folder:
        for form in ("words", "json"):
            ended = runner.run("check", *GIVEN, "-f", form, "many.txt", folder=folder, **limit)
            yield from differs(ended, 1)
        yield from differs(runner.run("submit", *GIVEN, "e.txt", folder=folder, **limit), 0, "e.txt" + ACCEPTED)


def little_memory(runner):
    """where there is too little memory that is said, and nothing is altered"""
    if runner.is_emulated:
        return
    file, _ = many_findings()
    with place(**{"many.txt": file}) as folder:
        for megabytes in range(4, 41, 4):
            limit = {"preexec_fn": lambda most=megabytes << 20: resource.setrlimit(resource.RLIMIT_AS, (most, most))}
            if runner.run("--version", folder=folder, **limit).status != 0:
                continue
            ended = runner.run("check", *GIVEN, "many.txt", folder=folder, **limit)
            if ended.status != 1 and not (ended.status == 2 and b"tuulveski: " in ended.err and not ended.out):
                yield f"{megabytes} MB: status {ended.status}, {ended.err[:200]!r}"


def closed_errors(runner):
    """without standard error, what goes wrong while the ledger is held is not written into the ledger"""
    if runner.is_emulated:
        return
    for megabytes in range(4, 21):

        def limit(most=megabytes << 20):
            os.close(2)
            resource.setrlimit(resource.RLIMIT_AS, (most, most))

        with place() as folder:
            before = read_all(folder)
            ended = runner.run("submit", *GIVEN, "e.txt", folder=folder, stderr=None, preexec_fn=limit)
            if ended.status != 0 and read_all(folder) != before:
                yield f"{megabytes} MB: exit status {ended.status}, and a file was altered"


TESTS = [hundred_thousand_findings, more_findings, past_record_numbers, long_ledger, small_stack, little_memory, closed_errors]
