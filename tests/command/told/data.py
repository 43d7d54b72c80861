"""Books, ledgers and submissions for the tests of the command, written from document 01's tables alone."""
from collections import namedtuple

TODAY = "20220930"
ULI = "123456789"
FREE = bytes(38)
SLOTS_MOST, FILE_MOST, BOOK_MOST = 100_000, 5_000_000, 262_144

# A file to be checked, and what the check must answer: (answer, line, cause, added, changed, deleted, not immunized) and the findings, each
# a line, a field and a rule.
Case = namedtuple("Case", "name why file book ledger today answer findings")

COUNTS = {"IV": 2, "IH": 3, "IP": 27, "II": 22, "IE": 5, "IN": 8, "IA": 4, "IF": 3}
USUAL = {
    "IV": {2: "7.2"},
    "IH": {2: "10", 3: "000001"},
    "IP": {3: ULI, 8: "SMITH", 9: "JOHN", 25: "20150301"},
    "II": {3: ULI, 4: "A", 6: "20220901", 8: "TESTV", 9: "LA", 10: "IM", 11: "50", 12: "0.5", 13: "ML", 14: "GSK", 15: "L1"},
    "IE": {3: ULI, 4: "TESTA", 5: "1"},
    "IN": {3: ULI, 4: "A", 5: "20220901", 6: "REF", 7: "10"},
    "IA": {3: ULI, 4: "TESTA"},
    "IF": {2: "8", 3: "0"},
}
NUMBERED = ("IP", "II", "IE", "IN", "IA")


def record(kind, fields=()):
    """A line without its end: the usual fields of a record, and those that are given by their numbers."""
    texts = {1: kind, **USUAL[kind], **dict(fields)}
    return "".join(texts.get(n, "") + "|" for n in range(1, COUNTS[kind] + 1))


def lines_of(*records):
    """The lines of a submission: between IV, IH and IF the records, each a type or a type with its own fields, numbered by their places."""
    lines, place = [record("IV"), record("IH")], 0
    for given in records:
        kind, fields = (given, {}) if isinstance(given, str) else given
        place += kind in NUMBERED
        lines.append(record(kind, {**({2: str(place)} if kind in NUMBERED else {}), **fields}))
    return lines + [record("IF")]


def file_of(lines, end="\n"):
    return "".join(line + end for line in lines).encode("latin-1")


def submission(*records):
    return file_of(lines_of(*records))


# Document 01's File E: one event in two lots.
E_RECORDS = ("IP", "II", "IE", ("II", {15: "L2"}), "IE")
E = submission(*E_RECORDS)


def entry(kind, *codes, start=None, end="99999999"):
    """An entry of a book, its codes padded to their widths."""
    widths = {1: (20,), 2: (20,), 3: (2,), 4: (3,), 5: (4,), 6: (3,), 7: (20, 2), 8: (20, 20)}[kind]
    body = "".join(code.ljust(width) for code, width in zip(codes, widths))
    return (chr(kind) + body + (start or "") + end).encode("ascii")


def book_of(*entries):
    return b"".join(sorted(entries))


BOOK = book_of(
    entry(1, "TESTV", start="20000101"),
    entry(1, "OLDV", start="19900101", end="20191231"),
    entry(1, "NEWV", start="20220915"),
    entry(1, "DAYV", start="20220901", end="20220901"),
    *(entry(2, code) for code in ("TESTA", "TESTB", "TESTC")),
    entry(2, "OLDA", end="20191231"),
    *(entry(3, code) for code in ("02", "03", "50")),
    entry(3, "55", end="20190630"),
    entry(4, "GSK"),
    entry(4, "OLD", end="20220929"),
    entry(5, "ML"),
    entry(5, "UN", end="20191231"),
    entry(6, "REF"),
    entry(6, "OLR", end="20191231"),
    *(entry(7, vaccine, "50") for vaccine in ("TESTV", "NEWV", "OLDV", "DAYV")),
    entry(7, "OLDV", "55"),
    entry(7, "TESTV", "02", end="20220929"),
    *(entry(8, vaccine, "TESTA") for vaccine in ("TESTV", "NEWV", "OLDV", "DAYV")),
    entry(8, "OLDV", "OLDA"),
    entry(8, "TESTV", "TESTB", end="20191231"),
)


def slot(uli=ULI, date="20220901", vaccine="TESTV"):
    return b"\x01" + (uli + date + vaccine.ljust(20)).encode("ascii")


def ledger_of(*events, slots):
    """A ledger with these live events and so many slots in all."""
    live = sorted(slot(*event) for event in events)
    return b"".join(live) + FREE * (slots - len(live))


def live_events(ledger):
    """The events of a ledger, read anew; None where it is malformed."""
    slots = [ledger[i : i + 38] for i in range(0, len(ledger), 38)]
    live = [s for s in slots if s[:1] == b"\x01"]
    rest = slots[len(live) :]
    if len(ledger) % 38 or len(slots) > SLOTS_MOST or any(s != FREE for s in rest) or any(a >= b for a, b in zip(live, live[1:])):
        return None
    return [(s[1:10].decode(), s[10:18].decode(), s[18:].decode().rstrip(" ")) for s in live]


X = (ULI, "20220901", "TESTV")  # the event of File E
Y = (ULI, "20220902", "TESTV")


def accepted(added=0, changed=0, deleted=0, declined=0):
    return (0, 0, 0, added, changed, deleted, declined)


def answer(number, line=0, cause=0):
    return (number, line, cause, 0, 0, 0, 0)


def case(name, why, file, expected=None, findings=(), book=BOOK, ledger=None, today=TODAY):
    """A case; unless it says otherwise, with ten free slots."""
    expected = expected or answer(6)
    return Case(name, why, file, book, ledger_of(slots=10) if ledger is None else ledger, today, expected, tuple(findings))


def numbers_of(tried):
    """What document 01's program prints of a case."""
    number, line, cause, *counts = tried.answer
    rows = [(number, line, cause, len(tried.findings), *counts), *tried.findings]
    return "".join(" ".join(map(str, row)) + "\n" for row in rows).encode()


def field_at(file, line, field):
    """The column and the text of a field, by splitting."""
    texts = file.split(b"\n")[line - 1].split(b"|")
    return len(b"|".join(texts[: field - 1])) + (2 if field > 1 else 1), texts[field - 1].decode("latin-1")
