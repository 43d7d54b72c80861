"""Charts with what `write` says of each: every way in which prefix, batch number or chart can be refused, and some that are written."""
import os
import tempfile
from collections import namedtuple

from charts import BYTES, chart_of, chart_record, file_for
from data import E, E_RECORDS
from running import read_all, transcript, write_all

# The file is None where the answer is not 0.
Written = namedtuple("Written", "name why chart prefix batch answer file")

WRITTEN, RECORD, ROOM = 0, 8, 9
STATUS = {WRITTEN: 0, RECORD: 1, ROOM: 1}
CHART_E = chart_of(*E_RECORDS)
USUAL = ("IP", "II", "IE", "IN", "IA")
SCATTERED = ("IP", "II", "IE", ("II", {8: "OTHER", 15: "M1"}), "IE", ("II", {15: "L2"}), "IE", "IN", "IA")


def right(name, why, *records, prefix="10", batch="000001"):
    return Written(name, why, chart_of(*records), prefix, batch, WRITTEN, file_for(*records, prefix=prefix, batch=batch))


def wrong(name, why, chart, prefix="10", batch="000001", answer=RECORD):
    return Written(name, why, chart, prefix, batch, answer, None)


def with_byte(records, number, field_byte, value):
    """The chart of records with one byte of record `number`, from 1, altered; its byte of kind is 0."""
    before = len(chart_of(*records[: number - 1]))
    chart = bytearray(chart_of(*records))
    chart[before + field_byte] = value
    return bytes(chart)


def out_of_order(*records):
    return wrong(f"place, {' '.join(records)}", f"{records[-1]} may not stand there", chart_of(*records))


LONG = chart_of("IP", *(part for _ in range(3100) for part in (("II", {22: "x" * 1600}), "IE")))

CASES = [
    right("File E", "document 01's file", *E_RECORDS),
    right("scattered lots", "lots of one event are brought behind its first", *SCATTERED),
    right("no patient", "a chart of no bytes"),
    right("other header", "prefix and batch number at their longest", *E_RECORDS, prefix="aZ9", batch="ABCdef7890"),
    wrong("prefix, empty", "the prefix has 1 to 3 letters or digits", CHART_E, prefix=""),
    wrong("prefix, long", "four digits", CHART_E, prefix="1234"),
    wrong("prefix, padded", "it is taken as it comes", CHART_E, prefix="10 "),
    wrong("prefix, other letters", "an accent", CHART_E, prefix="\u00e9"),
    wrong("batch, empty", "the batch number has 1 to 10 letters or digits", CHART_E, batch=""),
    wrong("batch, long", "eleven digits", CHART_E, batch="12345678901"),
    wrong("batch, a pipe", "neither a letter nor a digit", CHART_E, batch="1|2"),
    wrong("prefix first", "prefix, batch number and chart are wrong", b"?", prefix="-", batch="-"),
    wrong("kind 0", "zero bytes", bytes(100)),
    wrong("kind 6", "one more than there are", CHART_E + b"\x06" + b" " * 30),
    wrong("kind, a digit", "the digit 1 for the byte 1", b"1" + CHART_E[1:]),
    wrong("kind, a line end", "records on lines of their own", chart_of("IP") + b"\n" + chart_of("II", "IE")),
    wrong("kind, a submission", "File E itself, which is no chart", E),
    wrong("cut, kind alone", "an IE of one byte", CHART_E + b"\x03"),
    wrong("cut, IP", "one byte too few", chart_of("IP")[:-1]),
    wrong("cut, II", "its last byte is missing, and the next record's first is taken for it", chart_of("IP", "II")[:-1] + chart_of("IE")),
    wrong("cut, IE", "the last one", CHART_E[:-1]),
    wrong("byte, a pipe", "in the vaccine code", chart_of("IP", ("II", {8: "TE|STV"}), "IE")),
    wrong("byte, an accent", "Latin-1 in a name", chart_of(("IP", {8: "M\u00dcLLER"}), "II", "IE")),
    wrong("byte, UTF-8", "two bytes for one letter", chart_of(("IP", {16: "Orl\u00c3\u00a9ans"}), "II", "IE")),
    wrong("byte, a tab", "in the address", chart_of(("IP", {12: "12\tMAIN ST"}), "II", "IE")),
    wrong("byte, a line end", "in a comment", chart_of("IP", ("II", {22: "x" * 100 + "\n" + "y" * 100}), "IE")),
    wrong("byte, zeros for blanks", "an empty field of zero bytes", chart_of("IP", ("II", {5: "\0"}), "IE")),
    wrong("byte 127", "in the last record", chart_of("IP", "IN", ("IA", {4: "TESTA\x7f"}))),
    wrong("byte, first of a record", "after the byte of kind", with_byte(USUAL, 4, 1, 31)),
    wrong("byte, last of a record", "its last field", with_byte(USUAL, 1, BYTES["IP"] - 1, 127)),
    wrong("byte, last but one of an IN", "the first of its grade", with_byte(USUAL, 4, BYTES["IN"] - 2, ord("|"))),
    *(out_of_order(*records) for records in (
        ("II",), ("IE",), ("IN",), ("IA",), ("IP", "IP"), ("IP", "IE"), ("IP", "IA"), ("IP", "II", "IP"), ("IP", "II", "II"),
        ("IP", "II", "IN"), ("IP", "II", "IA"), ("IP", "II", "IE", "IA"), ("IP", "IN", "IP"), ("IP", "IN", "II"), ("IP", "IN", "IE"),
        ("IP", "IN", "IN"), ("IP", "IN", "IA", "II"), ("IP", "IN", "IA", "IE"))),
    *(wrong(f"end, {' '.join(records)}", "the last one asks for another", chart_of(*records))
      for records in (("IP",), ("IP", "II"), ("IP", "II", "IE", "IN"))),
    wrong("byte before place", "a wrong byte in a record that may not stand there", with_byte(("IP", "IE"), 2, 5, 0)),
    wrong("too long", "a file of more than 5,000,000 bytes", LONG, answer=ROOM),
    wrong("malformed and too long", "what is malformed comes first", LONG + chart_record("IA")),
]


def faults_of(tried, folder, ended, before):
    if ended.status != STATUS[tried.answer]:
        yield f"exit status {ended.status}, not {STATUS[tried.answer]}"
    if ended.out != (tried.file or b""):
        yield f"it writes {ended.out[:300]!r}, not {(tried.file or b'')[:300]!r}"
    if read_all(folder) != before:
        yield "a file was altered or made"
    if tried.answer != WRITTEN and (b"refused: " not in ended.err or b"; nothing was written\n" not in ended.err or ended.err.count(b"\n") != 1):
        yield f"standard error has {ended.err[:200]!r}"


def faults_of_output(tried, folder, ended, words):
    """The same with --output: the file is there exactly if it was written, and the words are the same."""
    path = os.path.join(folder, "out.txt")
    kept = read_all(folder).get("out.txt", (None, 0))[0]
    if (kept, ended.out, ended.err, ended.status) != (tried.file, b"", words.err, words.status):
        yield f"with --output {ended.status}, {ended.err[:200]!r} and {None if kept is None else kept[:200]!r}"
    if os.path.exists(path):
        os.unlink(path)


def try_written(runner, tried):
    """The run of a case, and its faults."""
    with tempfile.TemporaryDirectory() as folder:
        write_all(folder, **{"day.chart": tried.chart})
        before = read_all(folder)
        words = ["write", "--prefix", tried.prefix, "--batch", tried.batch, "day.chart"]
        ended = runner.run(*words, folder=folder)
        faults = [*faults_of(tried, folder, ended, before)]
        faults += faults_of_output(tried, folder, runner.run(*words, "--output", "out.txt", folder=folder), ended)
        if read_all(folder) != before:
            faults.append("a file is left")
        return ended, faults


def run_written(runner):
    for tried in CASES:
        ended, faults = try_written(runner, tried)
        yield tried.name, f"== {tried.name}: {tried.why}\n" + transcript(ended), faults
