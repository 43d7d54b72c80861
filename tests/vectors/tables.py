#!/usr/bin/env python3
"""Holds a batch program (tests/differential/README.md) against Tables 14 and 15 of the guideline, the sites and the methods, as
document 01 lists them. Asked, as a site and as a method: every text of at most three letters, capital and small, so each code
also in small letters and cut by a letter; and each code lengthened by a letter, before, within and behind.

Each text stands in an II of its own, on a day of its own. usage, in the project's root:
tests/vectors/tables.py PROGRAM..
tests/vectors/tables.py --self-test PROGRAM..: wrong tables, which must be reported"""
import datetime
import itertools
import string
import struct
import subprocess
import sys
from collections import namedtuple

sys.dont_write_bytecode = True

from document import METHODS, SITES
from make import BOOK_E, entry, part
from rules import fnv_1a

LETTERS = string.ascii_letters.encode()
UNSOUND = b"0"
TODAY = 20220930
LAST = datetime.date(2022, 9, 30)
ENOUGH = 20  # differing texts of a file that are reported
MOST = 49_000  # II of a file: each has an IE, and their numbers have at most five digits
HEAD = b"IV|7.2|\nIH|10|000001|\nIP|1|123456789|||||SMITH|JOHN||||||||||||||||18000101|||\n"
BEFORE = HEAD.count(b"\n")


def texts(codes):
    short = {bytes(t) for n in range(4) for t in itertools.product(LETTERS, repeat=n)}
    longer = {code[:at] + bytes([b]) + code[at:] for code in codes for at in range(len(code) + 1) for b in LETTERS}
    every = short | longer
    assert all({code, code.lower(), code[1:], code[:-1], b"X" + code, code + b"x"} <= every for code in codes)
    return sorted(every)


def site_finding(text, codes):
    """The field and rule that a site breaks beside method IM, or none."""
    if text == b"":
        return 9, 1
    if text == UNSOUND:
        return 9, 2
    if text not in codes:
        return 9, 4
    return (10, 9) if text in (b"MO", b"NO") else None


def method_finding(text, codes):
    """The field and rule that a method breaks beside site LA, or none."""
    if text == b"":
        return 10, 1
    if text == UNSOUND or len(text) > 3:
        return 10, 2
    if text not in codes:
        return 10, 4
    return (9, 9) if text in (b"PO", b"IN") else None


# A table: its codes, the site and method that ask for a text, and what is then found.
Table = namedtuple("Table", "name codes pair finding")
TABLES = (Table("site", SITES, lambda t: (t, b"IM"), site_finding), Table("method", METHODS, lambda t: (b"LA", t), method_finding))
BOOK = b"".join(sorted([entry(1, b"TESTV", start=b"18000101"), *BOOK_E[1:]]))


def file(pairs):
    """A file with an II for each site and method."""
    lines = [HEAD]
    for i, (site, method) in enumerate(pairs):
        day = (LAST - datetime.timedelta(i)).strftime("%Y%m%d").encode()
        lines.append(b"II|%d|123456789|A||%s||TESTV|%s|%s|50|0.5|ML|GSK|L1||||||||\n" % (2 * i + 2, day, site, method))
        lines.append(b"IE|%d|123456789|TESTA|1|\n" % (2 * i + 3))
    return b"".join(lines) + b"IF|1|0|\n"


def case(table, asked):
    """What a batch program reads, and what it must print before its last word, which is of fields. A last II breaks a rule in any case, so
    that there are findings."""
    asked = asked + [UNSOUND]
    found = [(BEFORE + 2 * i + 1, *broken) for i, t in enumerate(asked) if (broken := table.finding(t, table.codes))]
    area = b"".join(struct.pack("<BIB", rule, line, field) for line, field, rule in found)
    read = struct.pack("<I", TODAY) + part(file(map(table.pair, asked))) + part(BOOK) + part(b"") + struct.pack("<I", len(area))
    return read, f"6 0 0 {len(found)} 0 0 0 0 {fnv_1a(b''):016x} {fnv_1a(area):016x}"


def wrong(command, table, asked):
    """The texts of which something else is said than must be, some of them where they are many; all that are asked, where each half of them
    alone is right."""
    read, must = case(table, asked)
    if subprocess.run(command, input=read, stdout=subprocess.PIPE, check=True).stdout.decode().rpartition(" ")[0] == must:
        return []
    if len(asked) == 1:
        return asked
    half = len(asked) // 2
    found = wrong(command, table, asked[:half])
    if len(found) < ENOUGH:
        found = found + wrong(command, table, asked[half:])
    return found or asked


def self_test(command):
    """Each table with a code less and with one more: the texts that are then reported must be these two."""
    asked = [(table, [*table.codes, b"XX"]) for table in TABLES]
    said = [wrong(command, table._replace(codes=every[1:]), every) == [every[0], b"XX"] for table, every in asked]
    print(f"{sum(said)} wrong tables reported, {len(said) - sum(said)} not")
    return not all(said)


def main(command):
    if command[:1] == ["--self-test"]:
        return self_test(command[1:])
    counts, failed = [], False
    for table in TABLES:
        every = texts(table.codes)
        counts.append(f"{len(every)} texts as a {table.name}")
        for at in range(0, len(every), MOST):
            for text in wrong(command, table, every[at:at + MOST])[:ENOUGH]:
                print(f"differs: {text.decode()!r} as a {table.name}")
                failed = True
    print(", ".join(counts) + ":", "not all" if failed else "all", "as they must be")
    return failed


if __name__ == "__main__":
    sys.exit(main(sys.argv[1:]))
