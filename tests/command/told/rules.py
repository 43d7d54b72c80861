"""Every rule broken, at every place that it has: the findings are worked out by hand from documents 01 and 02."""
from data import X, Y, case, file_of, ledger_of, lines_of, record, submission, E, E_RECORDS

OTHER = {3: "987654321"}


def all_with(kind_fields):
    """One patient with an II, an IE, an IN and an IA, with fields of their own."""
    return submission(*((kind, kind_fields.get(kind, {})) for kind in ("IP", "II", "IE", "IN", "IA")))


def emptied(kind, *numbers):
    return record(kind, {n: "" for n in numbers})


EMPTY = {"IV": (2,), "IH": (2, 3), "IP": (2, 3, 25), "II": (2, 3, 4, 6, *range(8, 16)), "IE": (2, 3, 4, 5), "IN": (2, 3, 4, 5, 6, 7),
         "IA": (2, 3, 4), "IF": (2, 3)}
WRONG = {
    "IH": {2: "ABCD", 3: "12345678901"},
    "IP": {2: "x", 3: "12345678", 25: "20230229"},
    "II": {2: "123456", 3: "12345678X", 4: "a", 5: "h", 6: "20221301", 8: "TEST V", 9: "L4", 10: "IMMM", 11: "  ", 12: ".5", 13: "ML5",
           14: "GSKX", 15: "L 1"},
    "IE": {2: "0", 3: "1234567890", 4: "A" * 21, 5: "0"},
    "IN": {2: "-1", 3: "A", 4: "X", 5: "2022-9-1", 6: "R1", 7: "12345", 8: "ABC"},
    "IA": {2: "1.0", 3: " 12345678", 4: "A B"},
    "IF": {2: "eight"},
}
ALL = ("IV", "IH", "IP", "II", "IE", "IN", "IA", "IF")


def lots(*fields):
    """One patient with an event in as many lots, each II with fields of its own."""
    records = ["IP"]
    for n, own in enumerate(fields, 1):
        records += [("II", {15: f"L{n}", **own}), "IE"]
    return submission(*records)


def sites(*pairs):
    return lots(*({9: site, 10: method} for site, method in pairs))


BLANK = {n: "" for n in range(9, 16)}
HISTORY = {5: "H", **BLANK}

CASES = [
    case("rule 1", "every mandatory field is empty", file_of([emptied(k, *EMPTY[k]) for k in ALL]),
         findings=[(line, f, 1) for line, k in enumerate(ALL, 1) for f in EMPTY[k]]),
    case("rule 2", "every field that has a form has another one", file_of([record(k, WRONG.get(k, {})) for k in ALL]),
         findings=[(line, f, 2) for line, k in enumerate(ALL, 1) for f in sorted(WRONG.get(k, {}))]),
    case("rule 2, a long text", "a lot of 300 bytes, with quotes and backslashes", lots({15: '"\\' * 150}), findings=[(4, 15, 2)]),
    case("rule 3", "the guideline's own example of a version", file_of([record("IV", {2: "01"}), *lines_of(*E_RECORDS)[1:]]), findings=[(1, 2, 3)]),
    case("rule 4", "every code that has a table is unknown", all_with(
        {"II": {8: "NOV", 9: "XX", 10: "XYZ", 11: "99", 13: "ZZ", 14: "QQQ"}, "IE": {4: "NOA"}, "IN": {6: "ZZZ"}, "IA": {4: "NOB"}}),
         findings=[(4, 8, 4), (4, 9, 4), (4, 10, 4), (4, 11, 4), (4, 13, 4), (4, 14, 4), (5, 4, 4), (6, 6, 4), (7, 4, 4)]),
    case("rule 4, case", "a code in small letters is another code", lots({8: "testv", 9: "la"}), findings=[(4, 8, 4), (4, 9, 4)]),
    case("rule 5, ended", "every code of the book had ended; OLD after the event, but before today", all_with(
        {"II": {8: "OLDV", 11: "55", 13: "UN", 14: "OLD"}, "IE": {4: "OLDA"}, "IN": {6: "OLR"}, "IA": {4: "OLDA"}}),
         findings=[(4, 8, 5), (4, 11, 5), (4, 13, 5), (4, 14, 5), (5, 4, 5), (6, 6, 5), (7, 4, 5)]),
    case("rule 5, not begun", "a vaccine that starts on 20220915, given on 20220901", lots({8: "NEWV"}), findings=[(4, 8, 5)]),
    case("rule 5, one day", "a vaccine of one day, given on that day; H would help", lots({8: "DAYV"}), findings=[(4, 8, 5)]),
    case("rule 5, H", "H helps the manufacturer that ended since, and not the dosage type that had ended before", lots({5: "H", 13: "UN", 14: "OLD"}),
         findings=[(4, 13, 5)]),
    case("rule 6", "another ULI on each record of the patient", all_with({"II": OTHER, "IE": OTHER, "IN": OTHER, "IA": OTHER}),
         findings=[(4, 3, 6), (5, 3, 6), (6, 3, 6), (7, 3, 6)]),
    case("rule 6, second patient", "each patient has the ULI of the IP above", submission(
        "IP", "II", "IE", ("IP", OTHER), ("II", OTHER), "IE", ("II", {6: "20220902"}), ("IE", OTHER)),
         findings=[(8, 3, 6), (9, 3, 6)]),
    case("rule 7", "no record has its own number; 00004 is 4", all_with(
        {"IP": {2: "7"}, "II": {2: "1"}, "IE": {2: "00004"}, "IN": {2: "3"}, "IA": {2: "99999"}}),
         findings=[(line, 2, 7) for line in range(3, 8)]),
    case("rule 8, after today", "the event and the interview are of tomorrow", all_with({"II": {6: "20221001"}, "IN": {5: "20221001"}}),
         findings=[(4, 6, 8), (6, 5, 8)]),
    case("rule 8, before birth", "the event and the interview are of the day before the birth", all_with({"II": {6: "20150228"}, "IN": {5: "20150228"}}),
         findings=[(4, 6, 8), (6, 5, 8)]),
    case("rule 8, both", "a birth date in the future: the event is after today and before it", all_with({"IP": {25: "20221231"}, "II": {6: "20221001"}}),
         findings=[(3, 25, 8), (4, 6, 8), (6, 5, 8)]),
    case("rule 8, no birth date", "an unsound birth date is rule 2 alone, and the event is still after today", all_with(
        {"IP": {25: "20151301"}, "II": {6: "20221001"}}),
         findings=[(3, 25, 2), (4, 6, 8)]),
    case("rule 9", "sites and methods that do not go together, and two that do",
         sites(("LA", "PO"), ("LA", "IN"), ("MO", "IM"), ("NO", "IM"), ("MO", "IN"), ("NO", "PO"), ("MO", "PO"), ("NO", "IN")),
         findings=[(4, 9, 9), (6, 9, 9), (8, 10, 9), (10, 10, 9), (12, 9, 9), (12, 10, 9), (14, 9, 9), (14, 10, 9)]),
    case("rule 10", "historical: a site, a method, a dosage, a dosage type alone",
         lots({**HISTORY, 9: "LA", 15: "L1"}, {**HISTORY, 10: "IM", 15: "L2"}, {**HISTORY, 12: "0.5", 15: "L3"}, {**HISTORY, 13: "ML", 15: "L4"}),
         findings=[(4, 10, 10), (6, 9, 10), (8, 13, 10), (10, 12, 10)]),
    case("rule 11", "pairs that ended, are missing, and are missing beside an unsound date", submission(
        "IP", ("II", {11: "02"}), ("IE", {4: "TESTB"}), ("II", {6: "20220902", 11: "03"}), ("IE", {4: "TESTC"}),
        ("II", {6: "20220903", 11: " 2"}), "IE", ("II", {6: "2022", 11: "3"}), "IE"),
         findings=[(4, 11, 11), (5, 4, 11), (6, 11, 11), (7, 4, 11), (8, 11, 11), (10, 6, 2), (10, 11, 11)]),
    case("rule 12", "an antigen twice in one II, with different counts", submission("IP", "II", "IE", ("IE", {5: "2"})), findings=[(6, 4, 12)]),
    case("rule 13", "P3: a count of 2 in the second lot", submission("IP", "II", "IE", ("II", {15: "L2"}), ("IE", {5: "2"})), findings=[(6, 8, 13)]),
    case("rule 13, later block", "the block that is meant begins on line 6", submission(
        "IP", ("II", {6: "20220902"}), "IE", "II", "IE", ("II", {15: "L2"}), ("IE", {5: "2"})), findings=[(8, 8, 13)]),
    case("rule 13, second patient", "the same event under another IP is another block, which begins on line 7", submission(
        "IP", "II", "IE", "IP", ("II", {15: "L2"}), "IE", ("II", {15: "L3"}), ("IE", {5: "2"})), findings=[(7, 8, 15), (9, 8, 13), (9, 8, 15)]),
    case("rule 14", "P2: lot L1 on line 6", lots({}, {15: "L1"}), findings=[(6, 15, 14)]),
    case("rule 14, no lots", "two empty lots of a historical event are the same", lots(HISTORY, HISTORY), findings=[(6, 15, 14)]),
    case("rule 15", "the event of line 4 again on line 8", submission("IP", "II", "IE", ("II", {6: "20220902"}), "IE", ("II", {15: "L2"}), "IE"),
         findings=[(8, 8, 15)]),
    case("rule 16", "P4: File E where its event is live", E, findings=[(4, 4, 16), (6, 4, 16)], ledger=ledger_of(X, slots=10)),
    case("rule 17", "a change of an event that is not live", lots({4: "C"}), findings=[(4, 4, 17)], ledger=ledger_of(Y, slots=10)),
    case("rule 18", "a delete of an event that is not live", lots({4: "D"}), findings=[(4, 4, 18)], ledger=ledger_of(Y, slots=10)),
]
