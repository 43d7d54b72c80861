"""The cases of tests/command/tools, from document 01's tables."""

from ledgers import FREE, slot
from submissions import BOOK as BOOK_E_BYTES

BOOK_E = """\
# Book E of document 01, in no order
vaccine-antigen TESTV TESTA open
vaccine-reason\tTESTV  50 open   # a comment after an entry

manufacturer GSK open
dosage-type ML 99999999
  reason 50 open
antigen TESTA open
vaccine TESTV 20000101 open
"""


# What is tried, the text, the bytes of the book.
GOOD_BOOKS = [
    ("Book E", BOOK_E, BOOK_E_BYTES),
    ("CR LF line ends", BOOK_E.replace("\n", "\r\n"), BOOK_E_BYTES),
    ("no LF at the end", BOOK_E.rstrip("\n"), BOOK_E_BYTES),
    ("an empty book", "", b""),
    ("comments alone", "# nothing\n\n   # here\n", b""),
    ("every kind once: 6", "reason-not-immunized AR 20090917\n", b"\x06AR 20090917"),
    ("codes at their widths", f"antigen {'A' * 20} open\n", b"\x02" + b"A" * 20 + b"99999999"),
    ("the lowest and highest byte", "manufacturer !~ open\n", b"\x04!~ 99999999"),
    ("a code that begins with #", "manufacturer #1 open # one\n", b"\x04#1 99999999"),
    ("a start above its end", "vaccine V 20200102 20200101\n", b"\x01V" + b" " * 19 + b"2020010220200101"),
    ("first and last year", "vaccine V 18000101 21991231\n", b"\x01V" + b" " * 19 + b"1800010121991231"),
    ("a leap day", "antigen A 20240229\n", b"\x02A" + b" " * 19 + b"20240229"),
    ("2000 has a leap day", "antigen A 20000229\n", b"\x02A" + b" " * 19 + b"20000229"),
    (
        "order by bytes: upper case first, a shorter code first",
        "antigen ab open\nantigen a open\nantigen B open\nantigen a- open\n",
        b"".join(b"\x02" + code.ljust(20) + b"99999999" for code in (b"B", b"a", b"a-", b"ab")),
    ),
    (
        "pairs by both codes",
        "vaccine-antigen B A open\nvaccine-antigen A B open\nvaccine-antigen A A open\n",
        b"".join(b"\x08" + pair[:1].ljust(20) + pair[1:].ljust(20) + b"99999999" for pair in (b"AA", b"AB", b"BA")),
    ),
    (
        "one code in two kinds",
        "antigen FLU open\nvaccine FLU 19390101 open\n",
        b"\x01FLU" + b" " * 17 + b"1939010199999999" + b"\x02FLU" + b" " * 17 + b"99999999",
    ),
    ("a comment of a million bytes", "# " + "x" * 1_000_000 + "\nreason 50 open #" + "y" * 1_000_000 + "\n", b"\x035099999999"),
    ("blanks of a million bytes", "reason" + " " * 1_000_000 + "50 open", b"\x035099999999"),
    ("a NUL in a comment", "# \0\nreason 50 open # \0\n", b"\x035099999999"),
    ("every byte of white space", "reason\t50\v\fopen\r\n", b"\x035099999999"),
]

# What is tried, the text, the number of the refused line, a part of what is said.
BAD_BOOKS = [
    ("an unknown kind", "# first\nvaccines V 20000101 open\n", 2, "no kind"),
    ("a kind by number", "2 A open\n", 1, "no kind"),
    ("a kind in upper case", "Antigen A open\n", 1, "no kind"),
    ("a word too few", "vaccine V open\n", 1, "takes 3 words"),
    ("a word too many", "antigen A 20000101 open\n", 1, "takes 2 words"),
    ("a kind alone", "\n\nreason\n", 3, "takes 2 words"),
    ("a code of 21 bytes", f"antigen {'A' * 21} open\n", 1, "1 to 20 bytes"),
    ("a manufacturer of 4 bytes", "manufacturer ABCD open\n", 1, "1 to 3 bytes"),
    ("a dosage type of 5 bytes", "dosage-type UNITS open\n", 1, "1 to 4 bytes"),
    ("a byte above 126", "antigen Caf\u00e9 open\n", 1, "33..126"),
    ("a byte below 33", "antigen A\x01 open\n", 1, "33..126"),
    ("byte 127", "antigen A\x7f open\n", 1, "33..126"),
    ("a reason of one digit", "reason 3 open\n", 1, "not two digits"),
    ("a reason of three digits", "reason 003 open\n", 1, "not two digits"),
    ("a reason of letters", "vaccine-reason V AB open\n", 1, "not two digits"),
    ("the byte after 9", "reason 5: open\n", 1, "not two digits"),
    ("the byte before 0", "reason /5 open\n", 1, "not two digits"),
    ("a start that is open", "vaccine V open open\n", 1, "start 'open' is not a date"),
    ("a start 99999999", "vaccine V 99999999 open\n", 1, "is not a date"),
    ("no such day", "antigen A 20230229\n", 1, "neither a date nor open"),
    ("1900 has no leap day", "antigen A 19000229\n", 1, "neither a date nor open"),
    ("month 13", "antigen A 20231301\n", 1, "neither a date nor open"),
    ("day 0", "antigen A 20230100\n", 1, "neither a date nor open"),
    ("before the first year", "antigen A 17991231\n", 1, "neither a date nor open"),
    ("after the last year", "antigen A 22000101\n", 1, "neither a date nor open"),
    ("a date with dashes", "antigen A 2023-01-01\n", 1, "neither a date nor open"),
    ("an end in upper case", "antigen A OPEN\n", 1, "neither a date nor open"),
    ("the same code twice", "antigen A open\nantigen B open\nantigen A 20200101\n", 3, "same codes as on line 1"),
    ("the same pair twice", "vaccine-reason V 50 open\nvaccine-reason V 50 open\n", 2, "same codes as on line 1"),
    ("a NUL in a code", "antigen A open\nantigen B\0B open\nreason 50 open\n", 2, "'B\\x00B' is not a code of 1 to 20 bytes in 33..126"),
    ("a NUL in an end", "antigen A open\0\n", 1, "end 'open\\x00' is neither a date nor open"),
    ("a NUL alone", "\0", 1, "'\\x00' is no kind of entry"),
    ("a word of a million bytes", "antigen " + "A" * 1_000_000 + " open\n", 1, "'" + "A" * 60 + "...' is not a code"),
    ("a quote in a code", "manufacturer it's open\n", 1, "'it\\'s' is not a code of 1 to 3 bytes"),
    ("bytes that are no text", b"antigen \xff\xfe open\n", 1, "'\\xff\\xfe' is not a code"),
]


def as_bytes(text):
    return text if isinstance(text, bytes) else text.encode()


GOOD_BOOKS = [(name, as_bytes(text), made) for name, text, made in GOOD_BOOKS]
BAD_BOOKS = [(name, as_bytes(text), line, said) for name, text, line, said in BAD_BOOKS]


def code(text, width=20):
    return text.ljust(width)


V = b"\x01" + code(b"V") + b"2000010199999999"
W = b"\x01" + code(b"W") + b"2000010199999999"
GSK = b"\x04GSK99999999"
PAIR = b"\x07" + code(b"V") + b"5099999999"

# What is tried, bytes that are no book, what is said.
BAD_BYTES = [
    ("a kind 0", b"\0", "entry 1, at offset 0: 0 is no kind"),
    ("a kind 9", V + b"\x09", "entry 2, at offset 37: 9 is no kind"),
    ("a kind alone", V + b"\x02", "entry 2 (antigen), at offset 37: it has 1 bytes instead of 29"),
    ("a byte too few", V + W[:-1], "entry 2 (vaccine), at offset 37: it has 36 bytes instead of 37"),
    ("not ascending", W + V, "entry 2 (vaccine), at offset 37: not above the entry before it"),
    ("the same twice", GSK + GSK, "entry 2 (manufacturer), at offset 12: not above the entry before it"),
    ("the same code with two ends", GSK + b"\x04GSK20000101", "entry 2 (manufacturer), at offset 12: not above"),
    ("kinds not ascending", GSK + V, "entry 2 (vaccine), at offset 12: not above the entry before it"),
    ("an empty code", b"\x04   99999999", "entry 1 (manufacturer), at offset 1: the code is not a padded code"),
    ("a blank within a code", b"\x04G K99999999", "at offset 1: the code is not a padded code"),
    ("a start that is open", b"\x01" + code(b"V") + b"9999999999999999", "at offset 21: the start is not a date"),
    ("an end that is no day", b"\x04GSK20230229", "at offset 4: the end is neither a date nor 99999999"),
    ("a reason of letters", b"\x03AB99999999", "entry 1 (reason), at offset 1: the code is not two digits"),
    ("a pair's second code", PAIR[:21] + b"5x99999999", "entry 1 (vaccine-reason), at offset 21: the second code is not two digits"),
    ("a pair's first code", b"\x08" + code(b"") + code(b"A") + b"99999999", "at offset 1: the first code is not a padded code"),
]

A = slot(b"123456789", b"20220901", b"TESTV")
B = slot(b"123456789", b"20220902", b"FLU")
BEFORE_A = slot(b"000000001", b"20220901", b"TESTV") + slot(b"000000002", b"20220901", b"TESTV")

# What is tried, the ledger, what is printed, what is said of its slots.
GOOD_LEDGERS = [
    ("zero slots", b"", b"", "0 live, 0 free"),
    ("free slots", FREE * 3, b"", "0 live, 3 free"),
    ("live and free", A + B + FREE, b"123456789 20220901 TESTV\n123456789 20220902 FLU\n", "2 live, 1 free"),
    ("a vaccine of 20 bytes", slot(b"000000000", b"18000101", b"V" * 20), b"000000000 18000101 %s\n" % (b"V" * 20), "1 live, 0 free"),
    ("the most slots", FREE * 100_000, b"", "0 live, 100000 free"),
]

# What is tried, the ledger, what is said.
BAD_LEDGERS = [
    ("a part of a slot", A + b"\x00", "39 bytes are not slots of 38"),
    ("too many slots", FREE * 100_001, "more than 100000 slots"),
    ("a byte too many", FREE * 100_000 + b"\x00", "more than 100000 slots"),
    ("live after free", FREE + A, "slot 2: a live event after a free slot"),
    ("not ascending", B + A, "slot 2: not above the slot before it"),
    ("the same twice", A + A, "slot 2: not above the slot before it"),
    ("another kind", b"\x02" + A[1:], "slot 1: neither a live event nor free"),
    ("a free slot with a byte", A + FREE[:-1] + b"\x01", "slot 2: neither a live event nor free"),
    ("a ULI with a letter", slot(b"12345678X", b"20220901", b"V"), "slot 1: the ULI is not nine digits"),
    ("no such day", slot(b"123456789", b"20230229", b"V"), "slot 1: the date is not a date"),
    ("no vaccine", slot(b"123456789", b"20220901", b""), "slot 1: the vaccine is not a padded code"),
    ("a blank within a vaccine", slot(b"123456789", b"20220901", b"A B"), "slot 1: the vaccine is not a padded code"),
]

# Each for `ledger new` and `ledger grow`.
BAD_SLOTS = ["100001", "-1", "1.5", "", "ten", "\u0661", "1" * 5000, " 1", "1 ", "+1", "0x10", "999999"]

LINE_A, LINE_B = b"123456789 20220901 TESTV\n", b"123456789 20220902 FLU\n"
LOW = slot(b"000000001", b"20220901", b"Z")

# What is tried, the ledger before, the text, the ledger after, what is said of its slots.
GOOD_EVENTS = [
    ("nothing", A + FREE, b"", A + FREE, "1 live, 1 free"),
    ("one", FREE, LINE_A, A, "1 live, 0 free"),
    ("in the other order", FREE * 3, LINE_B + LINE_A, A + B + FREE, "2 live, 1 free"),
    ("before and behind", A + FREE * 2, b"000000001 20220901 Z\n" + LINE_B, LOW + A + B, "3 live, 0 free"),
    ("comments and blanks", FREE * 2, b"# x\n\n  \t\r\n" + LINE_B[:-1] + b"\r\n\t" + LINE_A[:-1], A + B, "2 live, 0 free"),
    ("a comment after an event", FREE, LINE_A[:-1] + b" # seen\n", A, "1 live, 0 free"),
    ("a vaccine of 20 bytes", FREE, b"999999999 21991231 %s\n" % (b"~" * 20), slot(b"999999999", b"21991231", b"~" * 20), "1 live, 0 free"),
    ("a vaccine that begins with #", FREE, b"123456789 20220901 #1\n", slot(b"123456789", b"20220901", b"#1"), "1 live, 0 free"),
]

# What is tried, the ledger, the text, the lines that are said.
BAD_EVENTS = [
    ("two words", FREE, b"123456789 20220901\n", ["events:1: an event is three words"]),
    ("four words", FREE, b"\n123456789 20220901 A B\n", ["events:2: an event is three words"]),
    ("a ULI of eight digits", FREE, b"12345678 20220901 A\n", ["events:1: '12345678' is not a ULI of nine digits"]),
    ("a ULI of ten digits", FREE, b"1234567890 20220901 A\n", ["events:1: '1234567890' is not a ULI of nine digits"]),
    ("a ULI with a letter", FREE, b"12345678O 20220901 A\n", ["events:1: '12345678O' is not a ULI of nine digits"]),
    ("no such day", FREE, b"123456789 20230229 A\n", ["events:1: '20230229' is not a date"]),
    ("an open date", FREE, b"123456789 99999999 A\n", ["events:1: '99999999' is not a date"]),
    ("a vaccine of 21 bytes", FREE, b"123456789 20220901 AAAAAAAAAAAAAAAAAAAAA\n", ["AAA' is not a code of 1 to 20"]),
    ("a NUL", FREE * 2, b"123456789 20220901 A\0A\n" + LINE_A, ["events:1: 'A\\x00A' is not a code"]),
    ("twice in the text", FREE * 3, LINE_A + LINE_B + LINE_A, ["events:3: the same event as on line 1"]),
    ("thrice in the text", FREE * 3, LINE_A * 3, ["events:2: the same event as on line 1", "events:3: the same event as on line 1"]),
    ("live already", A + FREE * 2, LINE_B + LINE_A, ["events:2: the event is live already"]),
    ("live already, others before it", BEFORE_A + A + FREE, LINE_A, ["events:1: the event is live already"]),
    ("live already and twice", A + FREE, LINE_A * 2, ["events:1: the event is live already", "events:2: the same event as on line 1"]),
    ("every line", A + FREE, b"x\n" + LINE_A + b"y\n", ["events:1:", "events:2: the event is live", "events:3:"]),
    ("many faults", FREE, b"x\n" * 25, [f"events:{n}:" for n in range(1, 21)] + ["events: and 5 more faulty lines"]),
    ("twenty faults", FREE, b"x\n" * 20, [f"events:{n}:" for n in range(1, 21)]),
    ("no room", A + FREE, b"000000001 20220901 Z\n" + LINE_B, ["ledger: no room: 2 to import, 1 free, 1 missing"]),
    ("no slots", b"", LINE_A, ["ledger: no room: 1 to import, 0 free, 1 missing"]),
]
