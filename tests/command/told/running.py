"""Runs the command in a folder of its own, and holds what it did against what is expected."""
import json
import os
import re
import subprocess
import tempfile
from collections import namedtuple

from data import field_at, numbers_of

SECONDS = 120  # of one run; an emulator takes a while
FINDING = re.compile(r'(?P<file>[^:]*):(?P<line>\d+):(?P<column>\d+): (?P<record>I.) (?P<field>\d+) (?P<name>[^"]+) '
                     r'"(?P<text>.*)"(?P<cut>\.\. \([0-9,]+ bytes\))?: (?P<said>.*) \(rule (?P<rule>\d+)\)')
NAMES = ["ACCEPTED", "DATE", "LONG", "BOOK", "LEDGER", "SHAPE", "FINDINGS", "FULL"]
STATUS = [0, 2, 1, 2, 2, 1, 1, 1]

Ended = namedtuple("Ended", "status out err")


def read_all(folder):
    """Every file below a folder, by its name: the bytes, and the time of the last change."""
    files = {}
    for path, _, names in os.walk(folder):
        for name in names:
            full = os.path.join(path, name)
            with open(full, "rb") as file:
                files[os.path.relpath(full, folder)] = (file.read(), os.stat(full).st_mtime_ns)
    return files


def write_all(folder, **files):
    for name, data in files.items():
        with open(os.path.join(folder, name), "wb") as out:
            out.write(data)


class Runner:
    """The command, as words; with more than one it is run by an emulator, unless that is said not to be so."""

    def __init__(self, words, is_emulated=None):
        self.words = words
        self.is_emulated = len(words) > 1 if is_emulated is None else is_emulated

    def run(self, *arguments, folder=".", stdin=b"", **more):
        """Runs the command with these arguments; what it does and says comes back."""
        settings = {"stdout": subprocess.PIPE, "stderr": subprocess.PIPE, "cwd": folder, "timeout": SECONDS, "check": False, **more}
        if "stdin" not in more:
            settings["input"] = stdin
        ended = subprocess.run([*self.words, *arguments], **settings)
        return Ended(ended.returncode, ended.stdout, ended.stderr)


def collected(faults):
    """All faults, and as the last one what kept further ones from being found."""
    found = []
    try:
        for fault in faults:
            found.append(fault)
    except (ValueError, LookupError, OSError, TypeError, subprocess.SubprocessError) as why:
        found.append(f"{type(why).__name__}: {why}")
    return found


def transcript(ended):
    """A run as text: what was printed, what was said on standard error after `! `, and the exit status."""
    lines = ended.out.decode("utf-8", "backslashreplace").splitlines(True)
    lines += ["! " + line for line in ended.err.decode("utf-8", "backslashreplace").splitlines(True)]
    return "".join(lines) + f"exit {ended.status}\n"


def faults_of_numbers(tried, ended):
    if ended.out != numbers_of(tried):
        yield f"in numbers {ended.out[:200]!r}, not {numbers_of(tried)[:200]!r}"
    if ended.status != STATUS[tried.answer[0]]:
        yield f"in numbers exit status {ended.status}, not {STATUS[tried.answer[0]]}"


def faults_of_words(tried, ended):
    """Each finding's place, field, text and rule, against the file as Python splits it."""
    lines = ended.out.decode("ascii").splitlines()
    found = [FINDING.fullmatch(line) for line in lines[:-1]] if tried.findings else []
    if len(found) != len(tried.findings) or not all(found):
        yield f"in words {len(lines) - 1} findings, not {len(tried.findings)}"
        return
    for seen, (line, field, rule) in zip(found, tried.findings):
        column, text = field_at(tried.file, line, field)
        kind = field_at(tried.file, line, 1)[1]
        text = text.replace("\\", "\\\\").replace('"', '\\"') if len(text) <= 60 else seen["text"]
        expected = (str(line), str(column), kind, str(field), text, str(rule))
        shown = tuple(seen[part] for part in ("line", "column", "record", "field", "text", "rule"))
        if shown != expected:
            yield f"in words {shown}, not {expected}"


def faults_of_json(tried, ended):
    """The object of a file, against the same numbers and texts."""
    rows = [json.loads(line) for line in ended.out.decode("utf-8").splitlines()]
    if len(rows) != 1:
        yield f"{len(rows)} objects of JSON"
        return
    told, (number, line, cause, *counts) = rows[0], tried.answer
    numbers = [told[key] for key in ("answer", "line", "cause", "findings", "added", "changed", "deleted", "not_immunized")]
    if numbers != [number, line, cause, len(tried.findings), *counts] or (told["file"], told["name"]) != ("file.txt", NAMES[number]):
        yield f"in JSON {numbers} of {told['file']!r}, {told['name']}"
    expected = [(*finding, field_at(tried.file, finding[0], 1)[1], *field_at(tried.file, *finding[:2])) for finding in tried.findings]
    found = [tuple(f[key] for key in ("line", "field", "rule", "record", "column", "text")) for f in told["found"]]
    if found != expected:
        yield f"in JSON the findings {found[:3]}, not {expected[:3]}"
    if not all(f["message"] and f["name"] for f in told["found"]) or not told["text"]:
        yield "in JSON a finding without words"
    for key, due in (("column", 5), ("message", 5), ("missing_slots", 7)):
        if (key in told) != (number == due):
            yield f"in JSON {key} is {'missing' if number == due else 'there'}"


def differing_messages(words, as_json):
    """Whether JSON has the same messages as the words."""
    row = json.loads(as_json.out)
    lines = words.out.decode("utf-8").splitlines()
    expected = [f": {f['message']} (rule {f['rule']})" for f in row["found"]]
    if row["answer"] == 5:
        expected = [f"file.txt:{row['line']}:{row['column']}: {row['message']}"]
    if not all(line.endswith(end) for line, end in zip(lines, expected)):
        yield "JSON and words differ in a message"


def try_case(runner, tried):
    """The run of a case in words, and the faults of all three formats."""
    with tempfile.TemporaryDirectory() as folder:
        write_all(folder, **{"file.txt": tried.file, "book": tried.book, "ledger": tried.ledger})
        before = read_all(folder)
        given = ["check", "--today", tried.today, "--book", "book", "--ledger", "ledger", "--format"]
        words, numbers, as_json = (runner.run(*given, name, "file.txt", folder=folder) for name in ("words", "numbers", "json"))
        faults = [*faults_of_numbers(tried, numbers), *collected(faults_of_words(tried, words)), *collected(faults_of_json(tried, as_json))]
        if read_all(folder) != before:
            faults.append("check altered a file")
        if not (words.status == numbers.status == as_json.status and words.err == numbers.err == as_json.err):
            faults.append("the formats differ in exit status or standard error")
        if tried.answer[0] in (5, 6):
            faults += collected(differing_messages(words, as_json))
        if bool(words.err) != (STATUS[tried.answer[0]] == 2):
            faults.append(f"standard error has {words.err[:200]!r}")
        return words, faults
