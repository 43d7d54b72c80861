#!/usr/bin/env python3
"""What the program `check_file` is run on, and what it must print: one list of cases, which tests/program/run tries.

What is printed is worked out from documents 01 and 02, without the Rattle code: each case says why. usage, in the project's root:
tests/vectors/programs.py: writes the stored example of the crate check_file (its stdin, stdout and data), which is the first case"""
import os
import sys
from collections import namedtuple

sys.dont_write_bytecode = True

from make import BOOK_E, entry, file_of

CRATE = os.path.join(os.path.dirname(os.path.abspath(__file__)), "..", "..", "crates", "check_file")

# The bytes of codes.bin and ledger.bin are None where the file is missing.
Case = namedtuple("Case", "name why stdin stdout codes ledger")

IV = b"IV|7.2|"
IH = b"IH|10|000001|"
IP = b"IP|1|123456789|||||SMITH|JOHN||||||||||||||||20150301|||"
FOUR = b"II|2|123456789|A||20220901||TESTV|LA|IM|50|0.5|ML|GSK|L1||||||||"
FIVE = b"IE|3|123456789|TESTA|1|"
SIX = b"II|4|123456789|A||20220901||TESTV|LA|IM|50|0.5|ML|GSK|L2||||||||"
SEVEN = b"IE|5|123456789|TESTA|1|"
IF = b"IF|8|0|"
FILE_E = [IV, IH, IP, FOUR, FIVE, SIX, SEVEN, IF]
TODAY = b"20220930\n"
E = file_of(*FILE_E)

BOOK = b"".join(BOOK_E)
FREE = bytes(38)
X = b"\x01" + b"123456789" + b"20220901" + b"TESTV".ljust(20)  # the event of File E, live
Y = b"\x01" + b"123456789" + b"20220902" + b"TESTV".ljust(20)  # the same on the next day


def numbers(answer, line=0, cause=0, findings=0, added=0, changed=0, deleted=0, declined=0):
    return b"%d %d %d %d %d %d %d %d\n" % (answer, line, cause, findings, added, changed, deleted, declined)


def found(*findings):
    """What is printed of these findings, each a line, a field and a rule: as many as there is room for."""
    return numbers(6, findings=len(findings)) + b"".join(b"%d %d %d\n" % f for f in findings[:1000])


def with_line(n, old, new):
    """File E with a text of line n replaced."""
    lines = list(FILE_E)
    assert lines[n - 1].count(old) == 1, (n, old)
    lines[n - 1] = lines[n - 1].replace(old, new)
    return file_of(*lines)


def book_of(size):
    """Book E with as many further manufacturers and dosage types as make it this long; it is valid."""
    four, five = len(entry(4, b"AAA")), len(entry(5, b"AAAA"))
    rest = size - len(BOOK)
    fours = next(n for n in range(five) if (rest - n * four) % five == 0)
    letters = b"ABCDEFGHIJKLMNOPQRSTUVWXYZ"
    names = [bytes([a, b, c, d]) for a in letters for b in letters for c in letters for d in letters[:2]]
    more = [entry(4, b"Z" + letters[n : n + 1]) for n in range(fours)] + [entry(5, n) for n in names[: (rest - fours * four) // five]]
    book = b"".join(sorted(BOOK_E + more))
    assert len(book) == size
    return book


def ended(day, *code):
    """Book E in which the entry of a kind and code ends on a day."""
    return b"".join(entry(*code, end=day) if e == entry(*code) else e for e in BOOK_E)


def live(n):
    """The slots of n live events, none of which a file here names."""
    return b"".join(b"\x01" + b"%09d" % i + b"20200101" + b"V".ljust(20) for i in range(n))


def antigens(n, longer=0):
    """The lines and the findings of n IE lines after File E's first II that all name one antigen and have one number, so many of them longer
    by a byte: a count of 01 is a count of 1. Rule 7 at IE 2 and rule 12 at IE 4, from the second on; the first has its own number, 3."""
    lines = [FIVE.replace(b"|1|", b"|01|") if i < longer else FIVE for i in range(n)]
    return lines, [(5 + i, field, rule) for i in range(1, n) for field, rule in ((2, 7), (4, 12))]


def antigens_of(size):
    """A submission of this many bytes, with its findings."""
    rest = size - len(file_of(IV, IH, IP, FOUR, b"IF|%04d|0|" % 0))
    n, longer = divmod(rest, len(FIVE + b"\n"))
    lines, findings = antigens(n, longer)
    file = file_of(IV, IH, IP, FOUR, *lines, b"IF|%04d|0|" % (n + 5))
    assert len(file) == size
    return file, findings


CASES = []


def case(name, why, stdin, stdout, codes=BOOK, ledger=FREE):
    """A case; unless it says otherwise, with Book E and one free slot."""
    assert name not in [c.name for c in CASES], name
    CASES.append(Case(name, why, stdin, stdout, codes, ledger))


case("P2", "P2: lot L1 on line 6, with an empty ledger.bin", TODAY + with_line(6, b"|L2|", b"|L1|"), found((6, 15, 14)), ledger=b"")

# 0, ACCEPTED
case("P1", "P1: File E, with a free slot", TODAY + E, numbers(0, added=1))
case("P3-number", "P3: a count of 01 is a count of 1", TODAY + with_line(7, b"|1|", b"|01|"), numbers(0, added=1))
case("P11", "P11: one slot, live X; a file deletes X and adds Y", TODAY + file_of(
    IV, IH, IP, FOUR.replace(b"|A||", b"|D||"), FIVE, SIX.replace(b"|20220901|", b"|20220902|"), SEVEN, IF), numbers(0, added=1, deleted=1), ledger=X)
case("all-counts", "a block that adds (20220903), one that changes (X), one that deletes (Y), and two IN records", TODAY + file_of(
    IV, IH, IP, FOUR.replace(b"|20220901|", b"|20220903|"), FIVE, SIX.replace(b"|A||", b"|C||"), SEVEN,
    b"II|6|123456789|D||20220902||TESTV|LA|IM|50|0.5|ML|GSK|L3||||||||", b"IE|7|123456789|TESTA|1|",
    b"IN|8|123456789|A|20220901|REF|10||", b"IA|9|123456789|TESTA|", b"IN|10|123456789|A|20220902|REF|10||", b"IA|11|123456789|TESTA|", IF),
     numbers(0, added=1, changed=1, deleted=1, declined=2), codes=b"".join(sorted(BOOK_E + [entry(6, b"REF")])), ledger=X + Y)
case("no-patient", "no patient at all is allowed, and needs no slot and no book", TODAY + file_of(IV, IH, IF), numbers(0), codes=None, ledger=None)
case("crlf", "lines that end in CR LF", TODAY + file_of(*FILE_E, end=b"\r\n"), numbers(0, added=1))
case("one-crlf", "one line that ends in CR LF, among others that end in LF", TODAY + E.replace(b"\n", b"\r\n", 1), numbers(0, added=1))
case("retired-historical", "CR 1: a manufacturer that ended yesterday, where II 5 is H", TODAY + E.replace(b"|A||", b"|A|H|"), numbers(0, added=1),
     codes=ended(b"20220929", 4, b"GSK"))
case("retired-today", "CR 1: a manufacturer that ends today", TODAY + E, numbers(0, added=1), codes=ended(b"20220930", 4, b"GSK"))
case("last-slot", "199 live events and one free slot", TODAY + E, numbers(0, added=1), ledger=live(199) + FREE)

# 1, DATE: a first line of another form than eight digits and LF is no date
case("no-input", "nothing on standard input, and no file by name", b"", numbers(1), codes=None, ledger=None)
case("today-crlf", "CR LF after the digits of today", b"20220930\r\n" + E, numbers(1))
case("today-no-lf", "eight digits and the end of the input", b"20220930", numbers(1))
case("today-no-lf-file", "eight digits and the submission at once", b"20220930" + E, numbers(1))
case("today-seven", "seven digits", b"2022093\n" + E, numbers(1))
case("today-nine", "nine digits", b"202209300\n" + E, numbers(1))
case("today-blank", "a blank before eight digits", b" 20220930\n" + E, numbers(1))
case("today-blank-after", "a blank after eight digits", b"20220930 \n" + E, numbers(1))
case("today-letter", "a letter among the digits", b"2022O930\n" + E, numbers(1))
case("today-empty", "an empty first line", b"\n" + E, numbers(1))
case("today-missing", "the submission alone", E, numbers(1))
case("today-zeros", "bytes of 0", bytes(100), numbers(1))
case("today-20230229", "P7: 2023 has no leap day", b"20230229\n" + E, numbers(1))
case("today-20240229", "P7: 2024 has one", b"20240229\n" + E, numbers(0, added=1))
case("today-21000229", "2100 has no leap day", b"21000229\n" + E, numbers(1))
case("today-17991231", "the day before the first date", b"17991231\n" + E, numbers(1))
case("today-18000101", "the first date: all days of File E are after it (rule 8)", b"18000101\n" + E, found((3, 25, 8), (4, 6, 8), (6, 6, 8)))
case("today-21991231", "the last date", b"21991231\n" + E, numbers(0, added=1))
case("today-22000101", "the day after the last date", b"22000101\n" + E, numbers(1))
case("today-first", "no date, with a submission, a book and a ledger that are too long: the lowest number", b"20230229\n" + antigens_of(32001)[0],
     numbers(1), codes=book_of(16001), ledger=FREE * 201)
case("day-itself", "an event on the day itself is not after today", b"20220901\n" + E, numbers(0, added=1))
case("day-before", "today is the day before the event: rule 8 at each II 6", b"20220831\n" + E, found((4, 6, 8), (6, 6, 8)))

# 2, LONG
case("long-32001", "a submission of 32,001 bytes, with a malformed book and ledger", TODAY + antigens_of(32001)[0], numbers(2), codes=b"?", ledger=b"?")
case("long-32000", "a submission of 32,000 bytes", TODAY + antigens_of(32000)[0], found(*antigens_of(32000)[1]))
case("long-no-lf", "32,001 bytes without a line end: LONG comes before SHAPE", TODAY + b"?" * 32001, numbers(2))
case("long-shape", "32,000 bytes without a line end", TODAY + b"?" * 32000, numbers(5, line=1, cause=1))
case("long-70000", "70,000 bytes", TODAY + antigens_of(70000)[0], numbers(2))

# 3, BOOK
case("book-16001", "a valid codes.bin of 16,001 bytes, with a malformed ledger", TODAY + E, numbers(3), codes=book_of(16001), ledger=b"?")
case("book-16000", "a valid codes.bin of 16,000 bytes", TODAY + E, numbers(0, added=1), codes=book_of(16000))
case("book-72500", "a valid codes.bin of 72,500 bytes", TODAY + E, numbers(3), codes=b"".join(entry(2, b"A%04d" % n) for n in range(2500)))
case("book-cut", "Book E without its last byte", TODAY + E, numbers(3), codes=BOOK[:-1])
case("book-more", "Book E and a byte of no kind", TODAY + E, numbers(3), codes=BOOK + b"\x00")
case("book-order", "Book E with its first entry last", TODAY + E, numbers(3), codes=b"".join(BOOK_E[1:] + BOOK_E[:1]))
case("book-ledger", "book and ledger malformed: the lowest number", TODAY + E, numbers(3), codes=b"?", ledger=b"?")
case("book-long-ledger", "a malformed book, and a ledger that is too long", TODAY + E, numbers(3), codes=b"?", ledger=FREE * 201)
case("book-both-long", "a book and a ledger that are too long", TODAY + E, numbers(3), codes=book_of(16001), ledger=FREE * 201)

# 4, LEDGER
case("ledger-7638", "201 free slots, 7,638 bytes, with a file of no shape", TODAY + b"?", numbers(4), ledger=FREE * 201)
case("ledger-7601", "200 free slots and a byte, 7,601 bytes", TODAY + E, numbers(4), ledger=FREE * 200 + b"\x00")
case("ledger-7600", "200 free slots, 7,600 bytes", TODAY + E, numbers(0, added=1), ledger=FREE * 200)
case("ledger-7599", "200 free slots but for a byte", TODAY + E, numbers(4), ledger=(FREE * 200)[:-1])
case("ledger-70000", "1,843 free slots, 70,034 bytes", TODAY + E, numbers(4), ledger=FREE * 1843)
case("ledger-order", "a live event after a free slot", TODAY + E, numbers(4), ledger=FREE + X)
case("ledger-twice", "one event live twice", TODAY + E, numbers(4), ledger=X + X)
case("ledger-descends", "live events that descend", TODAY + E, numbers(4), ledger=Y + X)
case("ledger-dirty", "a free slot with a byte in it", TODAY + E, numbers(4), ledger=FREE[:-1] + b" ")
case("ledger-date", "a live event on no day", TODAY + E, numbers(4), ledger=X.replace(b"20220901", b"20230229"))

# 5, SHAPE
case("no-files", "no file by name, and an empty submission (P6)", TODAY, numbers(5, line=1, cause=7), codes=None, ledger=None)
case("no-lf", "P12: an IF without its LF", TODAY + E[:-1], numbers(5, line=8, cause=1))
case("cause-2", "a byte of 127 on line 2", TODAY + with_line(2, b"000001", b"00000\x7f"), numbers(5, line=2, cause=2))
case("cause-2-cr", "two CR before an LF: the first is a byte of the line", TODAY + E.replace(b"\n", b"\r\r\n", 1), numbers(5, line=1, cause=2))
case("cause-3", "line 3 does not end in a pipe", TODAY + E.replace(IP, IP + b" "), numbers(5, line=3, cause=3))
case("cause-3-empty", "an empty line after the last", TODAY + E + b"\n", numbers(5, line=9, cause=3))
case("cause-4", "a record type in lower case", TODAY + with_line(4, b"II|", b"ii|"), numbers(5, line=4, cause=4))
case("cause-5", "an IE of six fields", TODAY + with_line(5, b"|1|", b"|1||"), numbers(5, line=5, cause=5))
case("cause-6", "an II without an IE: the next II may not stand there", TODAY + file_of(IV, IH, IP, FOUR, SIX, SEVEN, IF), numbers(5, line=5, cause=6))
case("cause-6-more", "a second IF", TODAY + E + file_of(IF), numbers(5, line=9, cause=6))
case("cause-7", "no IF: one past the last of seven lines", TODAY + file_of(*FILE_E[:-1]), numbers(5, line=8, cause=7))
case("first-line", "a fault of shape on two lines: the first is reported", TODAY + with_line(2, b"IH|", b"IX|").replace(SIX, b""), numbers(5, line=2, cause=4))
case("shape-first", "a fault of shape on the last line, and a finding before it", TODAY + with_line(6, b"|L2|", b"|L1|")[:-1], numbers(5, line=8, cause=1))

# 6, FINDINGS
file_most, findings_most = antigens_of(32000)
case("most", "32,000, 16,000 and 7,600 bytes, and more findings than there is room for", TODAY + file_most, found(*findings_most), codes=book_of(16000),
     ledger=FREE * 200)
lines_1000, findings_1000 = antigens(501)
case("findings-1000", "exactly as many findings as there is room for", TODAY + file_of(IV, IH, IP, FOUR, *lines_1000, IF), found(*findings_1000))
case("findings-1001", "one finding more, on the last line (IF 2 is empty): it is counted and not printed",
     TODAY + file_of(IV, IH, IP, FOUR, *lines_1000, b"IF||0|"), found(*findings_1000, (506, 2, 1)))
case("findings-1001-first", "one finding more, on the first line (version 7.1): the last is not printed",
     TODAY + file_of(b"IV|7.1|", IH, IP, FOUR, *lines_1000, IF), found((1, 2, 3), *findings_1000))
case("findings-crlf", "P2 with lines that end in CR LF", TODAY + with_line(6, b"|L2|", b"|L1|").replace(b"\n", b"\r\n"), found((6, 15, 14)))
case("P3", "P3: count 2 on line 7", TODAY + with_line(7, b"|1|", b"|2|"), found((6, 8, 13)))
case("P4", "P4: File E again on the ledger that it left", TODAY + E, found((4, 4, 16), (6, 4, 16)), ledger=X)
case("P10", "P10: PO with LA: II 9 rule 9 only", TODAY + with_line(4, b"|IM|", b"|PO|"), found((4, 9, 9)))
case("retired", "CR 1: a manufacturer that ended yesterday, where the second II 5 is H", TODAY + with_line(6, b"|A||", b"|A|H|"), found((4, 14, 5)),
     codes=ended(b"20220929", 4, b"GSK"))
UNKNOWN = found(*[(n, f, 4) for n, fields in ((4, (8, 11, 13, 14)), (5, (4,)), (6, (8, 11, 13, 14)), (7, (4,))) for f in fields])
case("empty-book", "an empty codes.bin: every code of the book is unknown", TODAY + E, UNKNOWN, codes=b"")
case("missing-book", "a missing codes.bin is an empty one", TODAY + E, UNKNOWN, codes=None)
case("findings-first", "a finding, and no room: FINDINGS comes before FULL", TODAY + with_line(7, b"|1|", b"|2|"), found((6, 8, 13)), ledger=b"")

# 7, FULL
case("P5", "P5: File E, with zero slots", TODAY + E, numbers(7), ledger=b"")
case("missing-ledger", "a missing ledger.bin is an empty one", TODAY + E, numbers(7), ledger=None)
case("full-200", "200 live events and no free slot", TODAY + E, numbers(7), ledger=live(200))


def write(path, data):
    """Writes a file, or removes it where there is to be none."""
    if data is None:
        if os.path.exists(path):
            os.remove(path)
        return
    os.makedirs(os.path.dirname(path), exist_ok=True)
    with open(path, "wb") as out:
        out.write(data)


def main():
    stored = CASES[0]
    for name, data in (("stdin", stored.stdin), ("stdout", stored.stdout), ("data/codes.bin", stored.codes), ("data/ledger.bin", stored.ledger)):
        write(os.path.join(CRATE, name), data)


if __name__ == "__main__":
    main()
