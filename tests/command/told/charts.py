"""Charts for the tests of `write`, and the file that each must give: from request 3 of document 02, document 01 and the guideline's layouts
alone, without the command's code."""
import os

from data import COUNTS, USUAL

KINDS = {"IP": 1, "II": 2, "IE": 3, "IN": 4, "IA": 5}
EVENT = (3, 4, 6, 8)


def widths_of(layouts):
    """The lengths of fields 3 and up of each record of a chart, as the guideline prints them; a dosage of 8,2 has 9."""
    widths, kind = {}, ""
    for line in layouts.splitlines():
        first, *rest = line.split("\t")
        if first in COUNTS:
            kind = first
        elif first.isdigit() and int(first) >= 3 and kind in KINDS:
            widths.setdefault(kind, []).append(9 if rest[1] == "8,2" else int(rest[1]))
    return widths


with open(os.path.join(os.path.dirname(os.path.abspath(__file__)), "..", "layouts.txt"), encoding="utf-8") as file:
    WIDTHS = widths_of(file.read())
BYTES = {kind: 1 + sum(widths) for kind, widths in WIDTHS.items()}


def given(record):
    """The kind of a record, and its texts by the numbers of their fields: the usual ones, and its own."""
    kind, fields = (record, {}) if isinstance(record, str) else record
    texts = {**{n: text for n, text in USUAL[kind].items() if n > 2}, **fields}
    return kind, {n: texts.get(n, "") for n in range(3, COUNTS[kind] + 1)}


def chart_record(record, pad=str.ljust):
    kind, texts = given(record)
    padded = [pad(text, width) for text, width in zip(texts.values(), WIDTHS[kind])]
    assert [len(text) for text in padded] == WIDTHS[kind], record
    return bytes([KINDS[kind]]) + "".join(padded).encode("latin-1")


def chart_of(*records):
    return b"".join(chart_record(record) for record in records)


def split_before(records, kinds):
    """Runs of records, each starting with one of these kinds."""
    runs = []
    for record in records:
        if record[0] in kinds:
            runs.append([])
        runs[-1].append(record)
    return runs


def in_order(records):
    """The records with the lots of each event brought together, under each IP by itself."""
    for patient in split_before(records, ("IP",)):
        events = {}
        for run in split_before(patient, ("IP", "II", "IN")):
            kind, texts = run[0]
            name = tuple(texts[n].strip(" ") for n in EVENT) if kind == "II" else len(events)
            events.setdefault((kind, name), []).extend(run)
        for event in events.values():
            yield from event


def file_for(*records, prefix="10", batch="000001", together=True):
    """The submission that these records make; where they are not to be brought together, in the order given."""
    lines = ["IV|7.2|", f"IH|{prefix}|{batch}|"]
    known = [given(record) for record in records]
    for number, (kind, texts) in enumerate(in_order(known) if together else known, 1):
        lines.append("".join(text + "|" for text in (kind, str(number), *(text.strip(" ") for text in texts.values()))))
    lines.append(f"IF|{len(lines) + 1}|0|")
    return "".join(line + "\n" for line in lines).encode("latin-1")
