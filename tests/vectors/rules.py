#!/usr/bin/env python3
"""Writes the vectors of the program crates/vectors_rules: files to judge (stdin) and what must be printed of them (stdout).

Each vector is a valid file with an edit, and says by hand what must be found; `document.findings` must find the same. Every (kind, field, rule)
that document 01 allows is reached. CR 1 of document 02 is tried on each kind of code and pair. usage, in the project's root:
tests/vectors/rules.py: writes them
tests/vectors/rules.py PROGRAM..: holds a batch program (tests/differential/README.md) against them, as whole checks"""
import struct
import subprocess
import sys

from document import FORM, METHODS, NUMBERED, SITES, findings, named
from make import BOOK_E, book_ok, entry, event, ledger_ok, num, part, shape, write

# The two files that the vectors edit. A # stands for the record's number, which is its place among IP, II, IE, IN and IA lines.

FILE_E = """IV|7.2|
IH|10|000001|
IP|#|123456789|||||SMITH|JOHN||||||||||||||||20150301|||
II|#|123456789|A||20220901||TESTV|LA|IM|50|0.5|ML|GSK|L1||||||||
IE|#|123456789|TESTA|1|
II|#|123456789|A||20220901||TESTV|LA|IM|50|0.5|ML|GSK|L2||||||||
IE|#|123456789|TESTA|1|
IF|8|0|
"""

# Two patients: a block of two lots with two antigens in either order, a second visit, a relaxed event, and two IN.
FILE_N = """IV|7.2|
IH|10|000001|
IP|#|123456789|||||SMITH|JOHN||||||||||||||||20150301|||
II|#|123456789|A||20220901||TESTV|LA|IM|50|0.5|ML|GSK|L1||||||||
IE|#|123456789|TESTA|1|
IE|#|123456789|TESTB|2|
II|#|123456789|A||20220901||TESTV|LA|IM|50|0.5|ML|GSK|L2||||||||
IE|#|123456789|TESTB|02|
IE|#|123456789|TESTA|01|
II|#|123456789|A||20220902||TESTV|LA|IM|50|0.5|ML|GSK|L1||||||||
IE|#|123456789|TESTA|1|
IN|#|123456789|A|20220901|REF|10||
IA|#|123456789|TESTA|
IP|#|987654321|||||SMITH|JANE||||||||||||||||20160301|||
II|#|987654321|A|H|20220901||TESTV|||||||||||||||
IE|#|987654321|TESTA|1|
IN|#|987654321|C|20220902|REF|0010|A1|
IA|#|987654321|TESTA|
IA|#|987654321|TESTB|
IF|19|0|
"""
BOOK_N = BOOK_E + [entry(1, b"TESTW"), entry(2, b"TESTB"), entry(3, b"00"), entry(3, b"02"), entry(3, b"51"), entry(6, b"REF"), entry(7, b"TESTV", b"02"),
                   entry(8, b"TESTV", b"TESTB"), entry(8, b"TESTW", b"TESTA")]
X = (b"123456789", b"20220901", b"TESTV")  # the event that File E adds


class Case:
    """What is judged: the file, the book, what is live, how many slots are free, today, for how many blocks there is room, the bytes of the
    findings area."""

    def __init__(self, lines, book, live=(), free=1, today=20220930, room=20, area=600):
        self.lines, self.book, self.live, self.free, self.today, self.room, self.area = lines, book, live, free, today, room, area

    def but(self, **changes):
        """The same case but for what is named."""
        return Case(**{**vars(self), **changes})

    @staticmethod
    def of(text, book):
        lines, place = text.encode().splitlines(), 0
        for i, line in enumerate(lines):
            if b"|#|" in line:
                place += 1
                lines[i] = line.replace(b"|#|", b"|%d|" % place)
        return Case([line.split(b"|") for line in lines], book)

    def set(self, line, field, text):
        lines = [list(fields) for fields in self.lines]
        lines[line - 1][field - 1] = text.encode()
        return self.but(lines=lines)

    def without(self, *code):
        """The book without the entry of a kind and code."""
        return self.but(book=[e for e in self.book if not e.startswith(entry(*code)[:-8])])

    def ended(self, day, *code):
        """The book in which that entry ends on a day."""
        return self.but(book=[e[:-8] + day.encode() if e.startswith(entry(*code)[:-8]) else e for e in self.book])

    def started(self, day, *code):
        return self.but(book=[e[:21] + day.encode() + e[29:] if e.startswith(entry(*code)[:21]) else e for e in self.book])

    def lend(self, *events):
        """The ledger with these events live."""
        return self.but(live=events)

    def file(self):
        return b"".join(b"|".join(fields) + b"\n" for fields in self.lines)

    def book_bytes(self):
        return b"".join(sorted(self.book))

    def ledger(self):
        return b"".join(b"\x01" + e for e in sorted(event(*e) for e in self.live)) + bytes(38 * self.free)

    def judged(self):
        return findings(self.today, self.file(), self.book_bytes(), [event(*e) for e in self.live])


E, N = Case.of(FILE_E, BOOK_E), Case.of(FILE_N, BOOK_N)


IP = "IP|#|123456789|||||SMITH|JOHN||||||||||||||||20150301|||"


def patient(*rest):
    """A file of one IP and the records given."""
    return Case.of("\n".join(["IV|7.2|", "IH|10|000001|", IP, *rest, "IF|8|0|", ""]), BOOK_N)


def ii(day="20220901", lot="L1", kind="A", vaccine="TESTV", antigens="TESTA 1", site="LA", method="IM"):
    """An II with its IE lines, each an antigen and a count."""
    parts = [f"IE|#|123456789|{a.split()[0]}|{a.split()[1]}|" for a in antigens.split(", ")]
    return "\n".join([f"II|#|123456789|{kind}||{day}||{vaccine}|{site}|{method}|50|0.5|ML|GSK|{lot}||||||||", *parts])


# (why, what is judged, what is found as line/field/rule, or None where there are more blocks than room). In File E lines 4 and 6 are II, 5 and 7 their
# IE; in File N lines 4, 7, 10 and 15 are II, 12 and 17 IN.
VECTORS = [
    ("P1: File E", E, ""),
    ("File N", N, ""),
    # IV, IH and IF
    ("no version", E.set(1, 2, ""), "1/2/1"),
    ("another version", E.set(1, 2, "7.1"), "1/2/3"),
    ("the version is a text, not a number", E.set(1, 2, "7.20"), "1/2/3"),
    ("no prefix", E.set(2, 2, ""), "2/2/1"),
    ("a prefix of four", E.set(2, 2, "1000"), "2/2/2"),
    ("a prefix of letters", E.set(2, 2, "aZ9"), ""),
    ("no batch", E.set(2, 3, ""), "2/3/1"),
    ("a batch of eleven", E.set(2, 3, "00000000001"), "2/3/2"),
    ("a batch of ten letters and digits", E.set(2, 3, "0123456zZa"), ""),
    ("no count in the footer", E.set(8, 2, ""), "8/2/1"),
    ("a count that is none", E.set(8, 2, "8a"), "8/2/2"),
    ("the footer's sums are not judged", E.set(8, 2, "9999999999"), ""),
    ("no total in the footer", E.set(8, 3, ""), "8/3/1"),
    ("any total, if there is one", E.set(8, 3, " "), ""),
    # IP
    ("no number", E.set(3, 2, ""), "3/2/1"),
    ("the number 0", E.set(3, 2, "0"), "3/2/2"),
    ("six digits", E.set(3, 2, "000001"), "3/2/2"),
    ("another number", E.set(3, 2, "2"), "3/2/7"),
    ("00001 is 1", E.set(3, 2, "00001"), ""),
    ("the patient's number is a place in the file, not among patients", N.set(14, 2, "2"), "14/2/7"),
    ("no ULI: none below is held against it", E.set(3, 3, ""), "3/3/1"),
    ("a ULI of eight digits: none below is held against it", E.set(3, 3, "12345678"), "3/3/2"),
    ("no birth", E.set(3, 25, ""), "3/25/1"),
    ("29 February of a common year", E.set(3, 25, "20150229"), "3/25/2"),
    ("born tomorrow: vaccinated before birth", E.set(3, 25, "20221001"), "3/25/8 4/6/8 6/6/8"),
    ("fields that are not listed are not judged", E.set(3, 8, "?").set(3, 27, "x"), ""),
    # II: number, ULI, type, historical, date
    ("no number", E.set(4, 2, ""), "4/2/1"),
    ("a number with a blank", E.set(4, 2, "2 "), "4/2/2"),
    ("a number given twice", E.set(6, 2, "2"), "6/2/7"),
    ("no ULI: in no block", E.set(6, 3, ""), "6/3/1"),
    ("a ULI of letters: in no block", E.set(6, 3, "12345678a"), "6/3/2"),
    ("another's ULI: a block of its own", E.set(6, 3, "123456780"), "6/3/6"),
    ("no type: in no block", E.set(6, 4, ""), "6/4/1"),
    ("type U", E.set(6, 4, "U"), "6/4/2"),
    ("type a: case counts", E.set(6, 4, "a"), "6/4/2"),
    ("P4: adds what is live", E.lend(X), "4/4/16 6/4/16"),
    ("another vaccine is live", E.lend((X[0], X[1], b"TESTW")), ""),
    ("changes what is not live", E.set(4, 4, "C").set(6, 4, "C"), "4/4/17 6/4/17"),
    ("changes what is live", E.set(4, 4, "C").set(6, 4, "C").lend(X), ""),
    ("deletes what is not live", E.set(4, 4, "D").set(6, 4, "D"), "4/4/18 6/4/18"),
    ("deletes what is live", E.set(4, 4, "D").set(6, 4, "D").lend(X), ""),
    ("historical may be empty or H", E.set(4, 5, "X"), "4/5/2"),
    ("historical h: case counts, and the event is not relaxed", E.set(4, 5, "h").set(4, 9, ""), "4/5/2 4/9/1"),
    ("no date: in no block; codes are not held against it", E.set(6, 6, ""), "6/6/1"),
    ("no such day", E.set(6, 6, "20220931"), "6/6/2"),
    ("tomorrow, in both lots", E.set(4, 6, "20221001").set(6, 6, "20221001"), "4/6/8 6/6/8"),
    ("today", E.set(4, 6, "20220930").set(6, 6, "20220930"), ""),
    ("the day before birth", E.set(4, 6, "20150228").set(6, 6, "20150228"), "4/6/8 6/6/8"),
    ("the day of birth", E.set(4, 6, "20150301").set(6, 6, "20150301"), ""),
    ("after today and before birth: one finding for both", E.but(today=20150228).set(3, 25, "20220902"), "3/25/8 4/6/8 6/6/8"),
    ("an unsound birth: only today is asked", E.set(3, 25, "x").set(4, 6, "20000101").set(6, 6, "20000101"), "3/25/2"),
    # II 8
    ("no vaccine: in no block, no pair", E.set(6, 8, ""), "6/8/1"),
    ("a vaccine with a blank", E.set(6, 8, "TEST V"), "6/8/2"),
    ("a vaccine of twenty-one", E.set(6, 8, "T" * 21), "6/8/2"),
    ("a vaccine that the book has not: a block of its own, no pair judged", E.set(6, 8, "TESTX"), "6/8/4"),
    ("case counts in a code", E.set(6, 8, "testv"), "6/8/4"),
    ("a vaccine that has ended", E.ended("20220831", 1, b"TESTV"), "4/8/5 6/8/5"),
    ("a vaccine that ends that day, before today", E.ended("20220901", 1, b"TESTV"), "4/8/5 6/8/5"),
    ("a vaccine that starts later", E.started("20220902", 1, b"TESTV"), "4/8/5 6/8/5"),
    ("a vaccine that starts that day", E.started("20220901", 1, b"TESTV"), ""),
    ("an unsound date: known is all that is asked", E.ended("20220831", 1, b"TESTV").set(6, 6, "x"), "4/8/5 6/6/2"),
    ("a date that rule 8 refuses is a date", E.ended("20220831", 1, b"TESTV").set(6, 6, "20221001"), "4/8/5 6/6/8 6/8/5"),
    ("P3: another count in the second lot", E.set(7, 5, "2"), "6/8/13"),
    ("another antigen in the second lot", N.set(11, 4, "TESTB").set(10, 6, "20220901").set(10, 15, "L3").set(7, 15, "L4"), "10/8/13"),
    ("an antigen less in the second lot", N.set(10, 6, "20220901").set(10, 15, "L3"), "10/8/13"),
    ("held against the first of the block, not the one before", patient(ii(lot="1"), ii(lot="2", antigens="TESTB 1"), ii(lot="3")), "6/8/13"),
    ("sets, not lists: an antigen given twice is once in its set", patient(ii(lot="1", antigens="TESTA 1, TESTA 1"), ii(lot="2")), "6/4/12"),
    ("an unsound count: the sets are not held against each other", E.set(7, 5, "x"), "7/5/2"),
    ("an unsound count in the first: none is held against it", E.set(5, 5, ""), "5/5/1"),
    ("the event is named again, and each lot of it is told so", patient(ii(), ii(day="20220902"), ii(lot="L2"), ii(lot="L3")), "8/8/15 10/8/15"),
    ("an II in no block ends the block", patient(ii(), ii(kind="x", lot="L2"), ii(lot="L3")), "6/4/2 8/8/15"),
    ("an II in no block names no event", patient(ii(kind="x"), ii()), "4/4/2"),
    ("another type is another block of the same event", E.set(6, 4, "C").lend(X), "4/4/16 6/8/15"),
    # II 9 and 10
    ("no site", E.set(4, 9, ""), "4/9/1"),
    ("a site of five", E.set(4, 9, "LALAL"), "4/9/2"),
    ("a site that is in no table", E.set(4, 9, "XXXX"), "4/9/4"),
    ("a site in small letters", E.set(4, 9, "la"), "4/9/4"),
    ("every site but MO and NO", patient(*[ii(lot=s, site=s) for s in map(bytes.decode, SITES) if s not in ("MO", "NO")]), ""),
    ("every method but PO and IN", patient(*[ii(lot=m, method=m) for m in map(bytes.decode, METHODS) if m not in ("PO", "IN")]), ""),
    ("P10: PO with LA", E.set(4, 10, "PO"), "4/9/9"),
    ("IN with LA", E.set(4, 10, "IN"), "4/9/9"),
    ("PO with a site in no table", E.set(4, 9, "XX").set(4, 10, "PO"), "4/9/4 4/9/9"),
    ("MO with IM", E.set(4, 9, "MO"), "4/10/9"),
    ("NO with IM", E.set(4, 9, "NO"), "4/10/9"),
    ("MO with IN: both are wrong", E.set(4, 9, "MO").set(4, 10, "IN"), "4/9/9 4/10/9"),
    ("MO with PO, NO with IN", E.set(4, 9, "MO").set(4, 10, "PO").set(6, 9, "NO").set(6, 10, "IN"), ""),
    ("PO with no site: only that it is missing", E.set(4, 9, "").set(4, 10, "PO"), "4/9/1"),
    ("PO with an unsound site", E.set(4, 9, "L1").set(4, 10, "PO"), "4/9/2"),
    ("MO with an unsound method", E.set(4, 9, "MO").set(4, 10, "P0"), "4/10/2"),
    ("no method", E.set(4, 10, ""), "4/10/1"),
    ("a method of four", E.set(4, 10, "IMIM"), "4/10/2"),
    ("a method that is in no table", E.set(4, 10, "XX"), "4/10/4"),
    # II 11
    ("no reason", E.set(4, 11, ""), "4/11/1"),
    ("P9: two blanks", E.set(4, 11, "  "), "4/11/2"),
    ("a digit and a blank", E.set(4, 11, "5 "), "4/11/2"),
    ("a reason of three digits", E.set(4, 11, "050"), "4/11/2"),
    ("a reason that the book has not", E.set(4, 11, "49"), "4/11/4"),
    ("P9: 2 and blank 2 read 02, which Book E has not", E.set(4, 11, "2").set(6, 11, " 2"), "4/11/4 6/11/4"),
    ("P9: 2 and blank 2 read 02, which Book N has", N.set(4, 11, "2").set(7, 11, " 2"), ""),
    ("a reason that has ended", E.ended("20220831", 3, b"50"), "4/11/5 6/11/5"),
    ("a known reason without its pair", N.set(4, 11, "51"), "4/11/11"),
    ("a pair that has ended", E.ended("20220831", 7, b"TESTV", b"50"), "4/11/11 6/11/11"),
    ("a pair that ends that day, before today", E.ended("20220901", 7, b"TESTV", b"50"), "4/11/11 6/11/11"),
    ("an unsound date: the pair's absence is all that is asked", E.ended("20220831", 7, b"TESTV", b"50").set(6, 6, ""), "4/11/11 6/6/1"),
    ("an unsound date and no such pair", E.without(7, b"TESTV", b"50").set(6, 6, ""), "4/11/11 6/6/1 6/11/11"),
    ("a reason that has ended and has no pair: known is not in force", E.without(7, b"TESTV", b"50").ended("20220831", 3, b"50"), "4/11/5 4/11/11 6/11/5 6/11/11"),
    ("no pair of a vaccine that is unknown", E.without(1, b"TESTV"), "4/8/4 6/8/4"),
    # II 12 to 15
    ("no dosage", E.set(4, 12, ""), "4/12/1"),
    ("P8: 0.00", E.set(4, 12, "0.00"), "4/12/2"),
    ("P8: 1000000", E.set(4, 12, "1000000"), "4/12/2"),
    ("P8: .5", E.set(4, 12, ".5"), "4/12/2"),
    ("a point and no digit", E.set(4, 12, "1."), "4/12/2"),
    ("three places", E.set(4, 12, "1.001"), "4/12/2"),
    ("P8: 0.01 and 999999.99", E.set(4, 12, "0.01").set(6, 12, "999999.99"), ""),
    ("no dosage type", E.set(4, 13, ""), "4/13/1"),
    ("a dosage type with a digit", E.set(4, 13, "M1"), "4/13/2"),
    ("a dosage type of five", E.set(4, 13, "MLMLM"), "4/13/2"),
    ("a dosage type that the book has not", E.set(4, 13, "DOSE"), "4/13/4"),
    ("a dosage type that has ended", E.ended("20220831", 5, b"ML"), "4/13/5 6/13/5"),
    ("no manufacturer", E.set(4, 14, ""), "4/14/1"),
    ("a manufacturer of four", E.set(4, 14, "GSKK"), "4/14/2"),
    ("a manufacturer that the book has not", E.set(4, 14, "GS"), "4/14/4"),
    ("a manufacturer that has ended", E.ended("20220831", 4, b"GSK"), "4/14/5 6/14/5"),
    ("no lot: the second has another", E.set(4, 15, ""), "4/15/1"),
    ("a lot with a blank", E.set(4, 15, "L 1"), "4/15/2"),
    ("a lot of twenty-one", E.set(4, 15, "L" * 21), "4/15/2"),
    ("P2: the lot again", E.set(6, 15, "L1"), "6/15/14"),
    ("an unsound lot is not held against another", E.set(4, 15, "L 1").set(6, 15, "L 1"), "4/15/2 6/15/2"),
    ("two empty lots that must not be empty: only that they are missing", E.set(4, 15, "").set(6, 15, ""), "4/15/1 6/15/1"),
    ("two empty lots of relaxed events are the same", E.set(4, 5, "H").set(6, 5, "H").set(4, 15, "").set(6, 15, ""), "6/15/14"),
    ("the same lot in another block is no matter", patient(ii(), ii(day="20220902")), ""),
    # Relaxed events: II 9 to 15 may be empty
    ("relaxed: a method without a site", N.set(15, 10, "IM"), "15/9/10"),
    ("relaxed: a site without a method", N.set(15, 9, "LA"), "15/10/10"),
    ("relaxed: PO without a site is not PO with another site", N.set(15, 10, "PO"), "15/9/10"),
    ("relaxed: NO without a method is not NO with another method", N.set(15, 9, "NO"), "15/10/10"),
    ("relaxed: a dosage type without a dosage", N.set(15, 13, "ML"), "15/12/10"),
    ("relaxed: a dosage without its type", N.set(15, 12, "0.5"), "15/13/10"),
    ("relaxed: an unsound site asks for no method", N.set(15, 9, "L1"), "15/9/2"),
    ("relaxed: what is given is judged", N.set(15, 11, "49"), "15/11/4"),
    ("relaxed by field 20", N.set(15, 5, "").set(15, 20, "x"), ""),
    ("relaxed by field 18", N.set(15, 5, "").set(15, 18, "BC"), ""),
    ("field 18 AB: not relaxed, whatever 19 says", N.set(15, 5, "").set(15, 18, "AB").set(15, 19, "x"), "15/9/1 15/10/1 15/11/1 15/12/1 15/13/1 15/14/1 15/15/1"),
    ("relaxed by field 19", N.set(15, 5, "").set(15, 19, "x"), ""),
    ("field 21 does not relax", N.set(15, 5, "").set(15, 21, "x"), "15/9/1 15/10/1 15/11/1 15/12/1 15/13/1 15/14/1 15/15/1"),
    ("relaxed is asked of each II by itself", E.set(4, 5, "H").set(6, 9, ""), "6/9/1"),
    # IE
    ("no number", E.set(5, 2, ""), "5/2/1"),
    ("number 00000", E.set(5, 2, "00000"), "5/2/2"),
    ("the number of its II", E.set(5, 2, "2"), "5/2/7"),
    ("no ULI", E.set(5, 3, ""), "5/3/1"),
    ("a ULI of ten digits", E.set(5, 3, "1234567890"), "5/3/2"),
    ("another's ULI", E.set(5, 3, "123456780"), "5/3/6"),
    ("held against its IP's, not its II's", E.set(4, 3, "123456780"), "4/3/6"),
    ("no antigen: the sets are not held against each other", E.set(5, 4, ""), "5/4/1"),
    ("an antigen with a blank", E.set(5, 4, "TEST A"), "5/4/2"),
    ("an antigen that the book has not, in both lots: no pair judged", E.set(5, 4, "TESTX").set(7, 4, "TESTX"), "5/4/4 7/4/4"),
    ("an antigen that has ended: the date is its II's", E.ended("20220831", 2, b"TESTA"), "5/4/5 7/4/5"),
    ("no such pair", E.without(8, b"TESTV", b"TESTA"), "5/4/11 7/4/11"),
    ("a pair that has ended", E.ended("20220831", 8, b"TESTV", b"TESTA"), "5/4/11 7/4/11"),
    ("an antigen of another vaccine", patient(ii(vaccine="TESTW", antigens="TESTB 1")), "4/11/11 5/4/11"),
    ("the antigen again", N.set(6, 4, "TESTA").set(6, 5, "1").set(8, 4, "TESTA").set(8, 5, "1"), "6/4/12 9/4/12"),
    ("no count", E.set(7, 5, ""), "7/5/1"),
    ("count 0", E.set(5, 5, "00"), "5/5/2"),
    ("a count of three digits", E.set(5, 5, "001"), "5/5/2"),
    # IN
    ("no number", N.set(12, 2, ""), "12/2/1"),
    ("number -1", N.set(12, 2, "-1"), "12/2/2"),
    ("another number", N.set(12, 2, "12"), "12/2/7"),
    ("no ULI", N.set(12, 3, ""), "12/3/1"),
    ("a ULI with a blank", N.set(12, 3, "12345678 "), "12/3/2"),
    ("the next patient's ULI", N.set(12, 3, "987654321"), "12/3/6"),
    ("no type", N.set(12, 4, ""), "12/4/1"),
    ("type X", N.set(12, 4, "X"), "12/4/2"),
    ("no date: its reason is not held against it, the other's is", N.set(12, 5, "").ended("20220831", 6, b"REF"), "12/5/1 17/6/5"),
    ("no such month", N.set(12, 5, "20221301"), "12/5/2"),
    ("tomorrow", N.set(12, 5, "20221001"), "12/5/8"),
    ("before birth", N.set(17, 5, "20160229"), "17/5/8"),
    ("no reason", N.set(12, 6, ""), "12/6/1"),
    ("a reason with a digit", N.set(12, 6, "RE1"), "12/6/2"),
    ("a reason of four", N.set(12, 6, "REFU"), "12/6/2"),
    ("a reason that the book has not", N.set(12, 6, "RE"), "12/6/4"),
    ("a reason that has ended between the two", N.ended("20220901", 6, b"REF"), "17/6/5"),
    ("no organization", N.set(12, 7, ""), "12/7/1"),
    ("an organization of five digits", N.set(12, 7, "00010"), "12/7/2"),
    ("a grade of three", N.set(12, 8, "A12"), "12/8/2"),
    ("what IN adds, changes and deletes is not held against the ledger", N.set(12, 4, "D").set(17, 4, "C"), ""),
    # IA
    ("no number", N.set(13, 2, ""), "13/2/1"),
    ("a number with a point", N.set(13, 2, "11."), "13/2/2"),
    ("another number", N.set(13, 2, "1"), "13/2/7"),
    ("no ULI", N.set(13, 3, ""), "13/3/1"),
    ("a ULI of one digit", N.set(13, 3, "1"), "13/3/2"),
    ("the patient's before", N.set(18, 3, "123456789"), "18/3/6"),
    ("no antigen", N.set(13, 4, ""), "13/4/1"),
    ("an antigen of twenty-one", N.set(13, 4, "A" * 21), "13/4/2"),
    ("an antigen that the book has not", N.set(13, 4, "TESTX"), "13/4/4"),
    ("an antigen that has ended: in an IE by today, in an IA by its IN's date", N.ended("20220901", 2, b"TESTB"), "6/4/5 8/4/5 19/4/5"),
    ("the antigen again is no matter in an IN", N.set(19, 4, "TESTA"), ""),
    # Errors we have seen or feared
    ("feared: joining by event across an IP record (the lot is not a second of the block; the event is named again)",
     patient(ii(), IP, ii()), "7/8/15"),
    ("feared: comparing with the previous line only, a lot", patient(ii(lot="L1"), ii(lot="L2"), ii(lot="L1")), "8/15/14"),
    ("feared: comparing with the previous line only, an antigen", patient(ii(antigens="TESTA 1, TESTB 1, TESTA 1")), "7/4/12"),
    ("feared: comparing with the previous line only, an event", patient(ii(), ii(day="20220902"), ii()), "8/8/15"),
    ("feared: comparing with the previous line only, an event across patients",
     patient(ii(), ii(day="20220902"), IP, ii(day="20220903"), ii(lot="L2")), "11/8/15"),
    ("feared: judging an add against a ledger altered by the same file, which added it (15, not 16)",
     patient(ii(), ii(day="20220902"), IP, ii(lot="L2")), "9/8/15"),
    ("feared: judging an add against a ledger altered by the same file, which deleted it",
     patient(ii(kind="D"), ii()).lend(X), "6/4/16 6/8/15"),
    ("feared: judging a change against a ledger altered by the same file, which added it", patient(ii(), ii(kind="C")), "6/4/17 6/8/15"),
    ("feared: judging a delete against a ledger altered by the same file, which added it", patient(ii(), ii(kind="D")), "6/4/18 6/8/15"),
    ("feared: comparing counts as text (P3: 1 and 01 are one count)", E.set(7, 5, "01"), ""),
    ("feared: comparing lots as numbers (1 and 01 are two lots)", E.set(4, 15, "1").set(6, 15, "01"), ""),
    ("feared: stopping at the first finding", E.set(1, 2, "7.1").set(2, 3, "").set(3, 2, "9").set(4, 9, "XX").set(4, 14, "").set(7, 5, "2").set(8, 3, ""),
     "1/2/3 2/3/1 3/2/7 4/9/4 4/14/1 6/8/13 8/3/1"),
    ("feared: stopping at the first finding of a field", E.ended("20220831", 1, b"TESTV").set(7, 5, "2"), "4/8/5 6/8/5 6/8/13"),
    ("feared: a later rule on an unsound ULI (6)", E.set(5, 3, "12345678x"), "5/3/2"),
    ("feared: a later rule on an unsound number (7)", E.set(5, 2, "x"), "5/2/2"),
    ("feared: a later rule on an unsound code (4, 11, 13)", E.set(7, 4, "TESTA "), "7/4/2"),
    ("feared: a later rule on an unsound type (16)", E.set(6, 4, "A ").lend(X), "4/4/16 6/4/2"),
    ("feared: a later rule on an unsound date (8, and 5 of its codes)", E.set(6, 6, "2023").ended("20220831", 4, b"GSK"), "4/14/5 6/6/2"),
    ("feared: FULL by order of lines, when a later delete makes the room",
     patient(ii(day="20220902"), ii(kind="D")).lend(X).but(free=0), ""),
    # The findings area, and room for the blocks
    ("an area for two findings and five bytes of a third", E.set(2, 2, "").set(2, 3, "").set(8, 2, "").but(area=17), "2/2/1 2/3/1 8/2/1"),
    ("an area for two findings", E.set(2, 2, "").set(2, 3, "").set(8, 2, "").but(area=12), "2/2/1 2/3/1 8/2/1"),
    ("an area of no bytes", E.set(2, 2, "").but(area=0), "2/2/1"),
    ("a finding past line 255", patient(*[ii(day=f"2021{m:02}{d:02}") for m in range(1, 11) for d in range(1, 14)]).set(260, 15, "").but(room=130), "260/15/1"),
    ("room for each block of File N", N.but(room=3), ""),
    ("room for one block less", N.but(room=2), None),
    ("room for one block less, and a finding", N.set(2, 2, "").but(room=2), None),
]


# CR 1 of document 02: "for an II and its IE, a code or pair whose end is before today is in force only if II 5 is H (an unsound one is not H, and
# the rules are still judged) and the old test holds too. An end on or after today is judged as before, and IN and IA records keep the old test".
# The events of File E are of 20220901, and today is 20220930.

# What ends, its entry in Book E, and what is found on the first lot and on the second where it is not in force.
RETIRED = [
    ("a vaccine", (1, b"TESTV"), "4/8/5", "6/8/5"),
    ("an antigen", (2, b"TESTA"), "5/4/5", "7/4/5"),
    ("a reason", (3, b"50"), "4/11/5", "6/11/5"),
    ("a manufacturer", (4, b"GSK"), "4/14/5", "6/14/5"),
    ("a dosage type", (5, b"ML"), "4/13/5", "6/13/5"),
    ("a pair with the reason", (7, b"TESTV", b"50"), "4/11/11", "6/11/11"),
    ("a pair with the antigen", (8, b"TESTV", b"TESTA"), "5/4/11", "7/4/11"),
]
# The same where all of them end.
FIRST, SECOND = "4/8/5 4/11/5 4/11/11 4/13/5 4/14/5 5/4/5 5/4/11", "6/8/5 6/11/5 6/11/11 6/13/5 6/14/5 7/4/5 7/4/11"


def flagged(case, first, second):
    """File E with an II 5 on each lot."""
    return case.set(4, 5, first).set(6, 5, second)


def all_end(day, first="", second="", kind="A"):
    """File E with an II 5 on each lot and a type, and a book in which every entry ends on a day."""
    case = flagged(E.but(book=[e[:-8] + day.encode() for e in E.book]), first, second)
    return case if kind == "A" else case.set(4, 4, kind).set(6, 4, kind).lend(X)


def one_ends(what, code, first, second):
    """File E with a book in which one entry ended yesterday."""
    case = E.ended("20220929", *code)
    return [(f"CR 1: {what} that ended yesterday, with H on the first lot", flagged(case, "H", ""), second),
            (f"CR 1: {what} that ended yesterday, with X on the first lot and H on the second", flagged(case, "X", "H"), f"4/5/2 {first}")]


H = flagged(E, "H", "H")
VECTORS += [vector for row in RETIRED for vector in one_ends(*row)] + [
    ("CR 1: all ended yesterday", all_end("20220929"), f"{FIRST} {SECOND}"),
    ("CR 1: all ended yesterday, H", all_end("20220929", "H", "H"), ""),
    ("CR 1: all end today, with H and without", all_end("20220930", "H", ""), ""),
    ("CR 1: all end tomorrow, with H and without", all_end("20221001", "", "H"), ""),
    ("CR 1: all ended on the day of the event", all_end("20220901"), f"{FIRST} {SECOND}"),
    ("CR 1: all ended on the day of the event, H", all_end("20220901", "H", "H"), ""),
    ("CR 1: all end on the day of the event, which is today", all_end("20220901").but(today=20220901), ""),
    ("CR 1: all ended before the day of the event, with H and without", all_end("20220831", "H", ""), f"{FIRST} {SECOND}"),
    ("CR 1: all ended yesterday, an unsound II 5 is not H", all_end("20220929", "h", "HH"), f"4/5/2 {FIRST} 6/5/2 {SECOND}"),
    ("CR 1: all end today, an unsound II 5", all_end("20220930", " ", "H "), "4/5/2 6/5/2"),
    ("CR 1: all ended yesterday, relaxed by field 20 is not H", all_end("20220929", "", "H").set(4, 20, "x"), FIRST),
    ("CR 1: all ended yesterday, an unsound date", all_end("20220929").set(4, 6, "20220931"), f"4/6/2 {SECOND}"),
    ("CR 1: all ended yesterday, an unsound date and no such pair", all_end("20220929", "", "H").set(4, 6, "").without(7, b"TESTV", b"50"),
     "4/6/1 4/11/11 6/11/11"),
    ("CR 1: all ended yesterday, an unknown vaccine is rule 4 alone", all_end("20220929", "H", "H").without(1, b"TESTV"), "4/8/4 6/8/4"),
    ("CR 1: all ended yesterday, a change", all_end("20220929", "H", "", kind="C"), SECOND),
    ("CR 1: all ended yesterday, a delete", all_end("20220929", "", "H", kind="D"), FIRST),
    ("CR 1: a vaccine that starts since, H", H.started("20220902", 1, b"TESTV"), "4/8/5 6/8/5"),
    ("CR 1: a vaccine that started and ended since, H", H.ended("20220929", 1, b"TESTV").started("20220902", 1, b"TESTV"), "4/8/5 6/8/5"),
    ("CR 1: a vaccine that started that day and ended since, H", H.ended("20220929", 1, b"TESTV").started("20220901", 1, b"TESTV"), ""),
    ("CR 1: a date after the end, which is today, H", H.ended("20220930", 4, b"GSK").set(6, 6, "20221001"), "6/6/8 6/14/5"),
    ("CR 1: an antigen that ended yesterday, of IE lines and of IA lines, one II being H", N.ended("20220929", 2, b"TESTA"), "5/4/5 9/4/5 11/4/5"),
    ("CR 1: an antigen that ended on its IN's day", N.ended("20220902", 2, b"TESTB"), "6/4/5 8/4/5"),
    ("CR 1: a reason that ended on the day of one IN and after the other's", N.ended("20220902", 6, b"REF"), ""),
]


# What document 01 allows: the rules placed at each field, with rules 1 and 2 for each form but that IV 2 has rule 3 for 2, that any text is an
# IF 3, and that II 5 and IN 8 may be empty.
PLACED = {(k, 2): {7} for k in NUMBERED} | {(k, 3): {6} for k in NUMBERED if k != "IP"} | {
    ("IP", 25): {8}, ("II", 4): {16, 17, 18}, ("II", 6): {8}, ("II", 8): {4, 5, 13, 15}, ("II", 9): {4, 9, 10}, ("II", 10): {4, 9, 10},
    ("II", 11): {4, 5, 11}, ("II", 12): {10}, ("II", 13): {4, 5, 10}, ("II", 14): {4, 5}, ("II", 15): {14}, ("IE", 4): {4, 5, 11, 12},
    ("IN", 5): {8}, ("IN", 6): {4, 5}, ("IA", 4): {4, 5}}
NEVER = {("IV", 2, 2), ("IF", 3, 2), ("II", 5, 1), ("IN", 8, 1)}
ALLOWED = {(k, f, r) for k in FORM for f in FORM[k] for r in {1, 2} | PLACED.get((k, f), set())} - NEVER | {("IV", 2, 3)}


def said_of(case, found, blocks, declined):
    """What the program prints: the numbers, the findings that fit, and that the area's other bytes stay; where there are more blocks than
    room, no numbers, and the findings of all rules but 15."""
    many = len(blocks) > case.room
    due = [place for place in found if not many or place[2] != 15]
    head = b"too-many " if many else b"done " + num(len(blocks)) + num(len(found)) + num(declined)
    return head + b"".join(b"\n%d %d %d " % place for place in due[:case.area // 6]) + b"\nkept"


def cases():
    assert [(len(blocks), declined) for _, blocks, declined in (E.judged(), N.judged())] == [(1, 0), (3, 2)]
    written, reached = [], set()
    for why, case, places in VECTORS:
        file, book, ledger = case.file(), case.book_bytes(), case.ledger()
        assert shape(file) == num(0) and book_ok(book) and ledger_ok(ledger), why
        found, blocks, declined = case.judged()
        if places is None:
            assert len(blocks) > case.room, why
        else:
            assert found == [tuple(map(int, place.split("/"))) for place in places.split()], (why, found)
            reached |= {(case.lines[n - 1][0].decode(), f, r) for n, f, r in found}
        numbers = struct.pack("<III", case.today, case.room, case.area)
        written.append((part(file) + part(part(numbers) + part(book) + part(ledger)), said_of(case, found, blocks, declined)))
    assert reached == ALLOWED and len(ALLOWED) == 110, (ALLOWED - reached, reached - ALLOWED)
    return written


# The vectors as whole checks, for a batch program


def fnv_1a(data):
    h = 0xCBF29CE484222325
    for b in data:
        h = (h ^ b) * 0x100000001B3 % 2**64
    return h


def verdict(case):
    """The eight numbers, and the ledger and the findings area after."""
    found, blocks, declined = case.judged()
    of_kind = {k: [event(*named(b[0])) for b in blocks if b[0][4] == k] for k in (b"A", b"C", b"D")}
    if found:
        kept = b"".join(struct.pack("<BIB", r, n, f) for n, f, r in found[:case.area // 6])
        return [6, 0, 0, len(found), 0, 0, 0, 0], case.ledger(), kept + b"\xee" * (case.area - len(kept))
    after = sorted({event(*e) for e in case.live} - set(of_kind[b"D"]) | set(of_kind[b"A"]))
    ledger = b"".join(b"\x01" + e for e in after)
    return [0, 0, 0, 0, *map(len, of_kind.values()), declined], ledger + bytes(len(case.ledger()) - len(ledger)), b"\xee" * case.area


def against(command):
    whole = [(why, case.but(free=200 if case.free else 0)) for why, case, _ in VECTORS]
    stream = b"".join(struct.pack("<I", c.today) + part(c.file()) + part(c.book_bytes()) + part(c.ledger()) + struct.pack("<I", c.area) for _, c in whole)
    printed = subprocess.run(command, input=stream, stdout=subprocess.PIPE, check=True).stdout.decode().splitlines()
    failed = len(whole) != len(printed)
    for (why, case), line in zip(whole, printed):
        numbers, ledger, area = verdict(case)
        words = line.split()
        if [int(w) for w in words[:8]] != numbers or [int(w, 16) for w in words[8:10]] != [fnv_1a(ledger), fnv_1a(area)]:
            print("differs:", why, line, numbers)
            failed = True
    print(f"{len(whole)} vectors,", "not all" if failed else "all", "as they must be")
    return failed


if __name__ == "__main__":
    if sys.argv[1:]:
        sys.exit(against(sys.argv[1:]))
    write("vectors_rules", cases())
