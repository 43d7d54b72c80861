#!/usr/bin/env python3
"""Writes the vectors of the programs crates/vectors_*: what each reads (stdin) and must print (stdout).

The expected values are worked out here from document 01, without the Rattle code. usage: tests/vectors/make.py (in the project's root)"""
import calendar
import os
import struct

TOP = os.path.join(os.path.dirname(os.path.abspath(__file__)), "..", "..", "crates")


def part(data):
    return struct.pack("<I", len(data)) + data


def write(crate, cases):
    folder = os.path.join(TOP, crate)
    with open(os.path.join(folder, "stdin"), "wb") as out:
        out.write(b"".join(c for c, _ in cases))
    with open(os.path.join(folder, "stdout"), "wb") as out:
        out.write(b"".join(e + b"\n" for _, e in cases))


def yes(b):
    return b"yes " if b else b"no "


def num(n):
    return b"%d " % n


# House records


def is_day(n):
    y, m, d = n // 10000, n // 100 % 100, n % 100
    if not (1800 <= y <= 2199 and 1 <= m <= 12 and d >= 1):
        return False
    return d <= calendar.monthrange(y, m)[1]


def is_date(t):
    return len(t) == 8 and all(48 <= b <= 57 for b in t) and is_day(int(t))


def is_end(t):
    return is_date(t) or t == b"99999999"


def is_padded(t):
    code = t.rstrip(b" ")
    return len(code) >= 1 and all(33 <= b <= 126 for b in code)


def order(a, b):
    return 1 if a < b else 2 if a == b else 3


def pad(w, t):
    return t[:w] + b" " * (w - len(t))


def house_cases():
    def case(op, a, b=b"", c=b""):
        return part(bytes([op])) + part(a) + part(b) + part(c)

    cases = []
    dates = [b"20240229", b"20230229", b"19000228", b"19000229", b"20000229", b"21000229", b"18000101", b"17991231", b"21991231",
             b"22000101", b"20221301", b"20220001", b"20220100", b"20220132", b"20220431", b"20220430", b"99999999", b"", b"2022093",
             b"202209300", b"2022093x", b" 2022093", b"20220930", b"00000000", b"20221130", b"20221131", b"2022/930"]
    for t in dates:
        d, e = is_date(t), is_end(t)
        out = num(int(t) if d else 0) + num(int(t) if e else 0) + yes(e)
        out += num(int(t)) + yes(True) if d else yes(False)
        cases.append((case(1, t), out))
    texts = [b"", b" ", b"A", b"A ", b" A", b"A B", b"AB  ", b"\x7f", b"!~ ", b"12", b"1a", b"0123456789", b"A\x00", b"\x20\x21", b"9" * 40]
    for t in texts:
        digits = all(48 <= b <= 57 for b in t)
        cases.append((case(2, t), yes(is_padded(t)) + yes(digits)))
    pairs = [(b"", b""), (b"", b"A"), (b"A", b""), (b"A", b"B"), (b"B", b"A"), (b"A", b"AB"), (b"AB", b"A"), (b"AB", b"AB"), (b"\xff", b"\x00"),
             (b"A  ", b"A"), (b"AB ", b"AB"), (b"AB", b"ABC"), (b"TESTV", b"TESTW"), (b"a", b"A"), (b"01", b"1")]
    for a, b in pairs:
        out = num(order(a, b)) + yes(a == b) + yes(a < b) + num(order(a, pad(len(a), b)))
        cases.append((case(3, a, b), out))
    keys = [(b"123456789", b"20220901", b"TESTV"), (b"", b"", b""), (b"1", b"2", b"3"), (b"1234567890", b"202209011", b"V" * 21), (b"9" * 9, b"8" * 8, b"V" * 20)]
    for u, d, v in keys:
        cases.append((case(4, u, d, v), b"[" + pad(9, u) + pad(8, d) + pad(20, v) + b"] "))
    return cases


# Lines, fields and shape

COUNT = {b"IV": 2, b"IH": 3, b"IP": 27, b"II": 22, b"IE": 5, b"IN": 8, b"IA": 4, b"IF": 3}
AFTER = {None: [b"IV"], b"IV": [b"IH"], b"IH": [b"IP", b"IF"], b"IP": [b"II", b"IN"], b"II": [b"IE"],
         b"IE": [b"IE", b"II", b"IN", b"IP", b"IF"], b"IN": [b"IA"], b"IA": [b"IA", b"IN", b"IP", b"IF"], b"IF": []}


def split_lines(file):
    """The start, the text and whether an LF ends it, of each line."""
    lines, at = [], 0
    while at < len(file):
        lf = file.find(b"\n", at)
        if lf < 0:
            lines.append((at, file[at:], False))
            break
        text = file[at:lf]
        lines.append((at, text[:-1] if text.endswith(b"\r") else text, True))
        at = lf + 1
    return lines


def cause(text, ended, before):
    kind = text.split(b"|")[0]
    if not ended:
        return 1
    if any(b < 32 or b > 126 for b in text):
        return 2
    if not text.endswith(b"|"):
        return 3
    if kind not in COUNT:
        return 4
    if text.count(b"|") != COUNT[kind]:
        return 5
    if kind not in AFTER[before]:
        return 6
    return 0


def shape(file):
    before, lines = None, split_lines(file)
    for n, (_, text, ended) in enumerate(lines, 1):
        c = cause(text, ended, before)
        if c:
            return num(n) + num(c)
        before = text.split(b"|")[0]
    return num(0) if before == b"IF" else num(len(lines) + 1) + num(7)


def field(file, n, f):
    lines = split_lines(file)
    if not 1 <= n <= len(lines):
        return yes(False) + num(0) + b"[] "
    at, text, _ = lines[n - 1]
    fields = text.split(b"|")[:-1]
    if not 1 <= f <= len(fields):
        return yes(False) + num(0) + b"[] "
    start = at + sum(len(x) + 1 for x in fields[:f - 1])
    return yes(True) + num(start) + b"[" + fields[f - 1] + b"] "


IV, IH, IF = b"IV|7.2|", b"IH|10|000001|", b"IF|8|0|"
IP = b"IP|1|123456789|||||SMITH|JOHN||||||||||||||||20150301|||"
II = b"II|2|123456789|A||20220901||TESTV|LA|IM|50|0.5|ML|GSK|L1||||||||"
IE, IN, IA = b"IE|3|123456789|TESTA|1|", b"IN|4|123456789|A|20220901|REF|10||", b"IA|5|123456789|TESTA|"


def file_of(*lines, end=b"\n"):
    return b"".join(l + end for l in lines)


def lines_cases():
    good = [file_of(IV, IH, IF), file_of(IV, IH, IP, II, IE, IF), file_of(IV, IH, IP, IN, IA, IF), file_of(IV, IH, IP, II, IE, IE, II, IE, IN, IA, IA, IN, IA, IP, IN, IA, IF),
            file_of(IV, IH, IP, II, IE, IF, end=b"\r\n")]
    bad = [b"", b"\n", b"\r\n", b"\r", IV, IV + b"\n", file_of(IV, IH), file_of(IV, IH, IP, II, IE), file_of(IV, IH) + IF, file_of(IV, IH) + IF + b"\r",
           file_of(IV, IH, IP, II, IF), file_of(IV, IH, IP, IF), file_of(IV, IH, IP, IN, IF), file_of(IV, IH, IP, IN, IE, IF), file_of(IV, IH, IP, II, IA, IF),
           file_of(IV, IH, IP, IN, IA, II, IE, IF), file_of(IV, IH, II, IE, IF), file_of(IH, IV, IF), file_of(IV, IV, IH, IF), file_of(IV, IH, IF, IF), file_of(IV, IH, IF) + b"x",
           file_of(IV, IH, IF) + b"\n", file_of(IV, b"", IH, IF), file_of(IV, IH + b"x", IF), file_of(IV, b"IX|1|", IF), file_of(IV, b"I|1|2|", IF), file_of(IV, b"IHH|1|2|", IF),
           file_of(IV, b"ih|10|1|", IF), file_of(IV, b"IH|10|", IF), file_of(IV, b"IH|10|1|2|", IF), file_of(b"IV|7\x1f2|", IH, IF), file_of(b"IV|7\x7f2|", IH, IF), file_of(b"IV|7~ 2|", IH, IF),
           file_of(b"IV|7.2|\r", IH, IF, end=b"\n"), file_of(b"IV|7.2|\r", IH, IF, end=b"\r\n"), b"|\n", b"||||\n", b"IV|7.2", b"IV|7.2\n", b"IV|7\t2\n", b"\x00" * 5, b"\xff|\n",
           file_of(IV, IH, IP[:-1], IF), file_of(IV, IH, IP + b"|", IF), file_of(IV, IH, IP, II, IE + b"|", IF)]
    asks = [(1, 1), (1, 2), (1, 3), (2, 3), (3, 25), (3, 27), (3, 28), (4, 5), (4, 15), (0, 1), (1, 0), (0, 0), (9, 1), (255, 255)]
    extra = b"".join(bytes(a) for a in asks)
    cases = [(part(f) + part(extra), shape(f) + b"".join(field(f, n, k) for n, k in asks)) for f in good + bad]
    cases.append((part(good[1]) + part(b"\x01"), shape(good[1])))
    return cases


# The code book

WIDTH = {1: (20, 0, 8), 2: (20, 0, 0), 3: (2, 0, 0), 4: (3, 0, 0), 5: (4, 0, 0), 6: (3, 0, 0), 7: (20, 2, 0), 8: (20, 20, 0)}


def entry(kind, a, b=b"", start=b"20000101", end=b"99999999"):
    first, second, dated = WIDTH[kind]
    return bytes([kind]) + pad(first, a) + pad(second, b) + (start if dated else b"") + end


def read_entries(book):
    """What a reader says of each entry, and the entries as (place, kind, code, start, end)."""
    said, entries, at = b"", [], 0
    while at < len(book):
        kind = book[at]
        if kind not in WIDTH:
            return said + b"stop ", entries, False
        first, second, dated = WIDTH[kind]
        size = first + second + dated + 8
        body = book[at + 1:at + 1 + size]
        if len(body) < size:
            return said + b"stop ", entries, False
        said += num(kind) + num(at + 1)
        w = first + second
        entries.append((at, kind, body[:w], body[w:w + dated], body[w + dated:]))
        at += 1 + size
    return said + b"end ", entries, True


def two_digits(t):
    return len(t) == 2 and all(48 <= b <= 57 for b in t)


def book_ok(book):
    _, entries, whole = read_entries(book)
    if len(book) > 262144 or not whole:
        return False
    for _, kind, code, start, end in entries:
        first = WIDTH[kind][0]
        a, b = code[:first], code[first:]
        if not (two_digits(a) if kind == 3 else is_padded(a)):
            return False
        if kind == 7 and not two_digits(b) or kind == 8 and not is_padded(b):
            return False
        if kind == 1 and not is_date(start) or not is_end(end):
            return False
    keys = [(kind, code) for _, kind, code, _, _ in entries]
    return all(x < y for x, y in zip(keys, keys[1:]))


def standing(book, kind, a, b, day, until=0):
    """What the book says of a code on a day, where its end is not to be before another."""
    _, entries, _ = read_entries(book)
    for at, k, code, start, end in entries:
        first, second, _ = WIDTH[k]
        if k == kind and len(a) <= first and len(b) <= second and code == pad(first, a) + pad(second, b):
            holds = (k != 1 or int(start) <= day) and day <= int(end) and not int(end) < until
            return num(at) + (b"in-force " if holds else b"out-of-force ")
    return b"absent unknown "


BOOK_E = [entry(1, b"TESTV"), entry(2, b"TESTA"), entry(3, b"50"), entry(4, b"GSK"), entry(5, b"ML"), entry(7, b"TESTV", b"50"), entry(8, b"TESTV", b"TESTA")]


def book_cases():
    def case(book, asks=()):
        asked = b"".join(part(bytes([k]) + struct.pack("<II", d, until[0] if until else 0)) + part(a) + part(b) for k, a, b, d, *until in asks)
        said, _, _ = read_entries(book)
        if not book_ok(book):
            return part(book) + part(asked), said + b"malformed "
        return part(book) + part(asked), said + b"valid " + b"".join(standing(book, *q) for q in asks)

    e = b"".join(BOOK_E)
    asks = [(1, b"TESTV", b"", 20220901), (1, b"TESTV", b"", 19991231), (1, b"TESTV", b"", 20000101), (1, b"TESTW", b"", 20220901), (1, b"testv", b"", 20220901), (2, b"TESTA", b"", 20220901),
            (3, b"50", b"", 20220901), (3, b"51", b"", 20220901), (4, b"GSK", b"", 20220901), (4, b"GS", b"", 20220901), (5, b"ML", b"", 20220901), (6, b"REF", b"", 20220901),
            (7, b"TESTV", b"50", 20220901), (7, b"TESTV", b"51", 20220901), (8, b"TESTV", b"TESTA", 20220901), (8, b"TESTA", b"TESTV", 20220901), (0, b"TESTV", b"", 20220901), (9, b"TESTV", b"", 20220901)]
    many = b"".join(entry(2, b"A%04d" % i, end=b"2022%02d%02d" % (i % 12 + 1, i % 28 + 1)) for i in range(0, 300, 3))
    asks_many = [(2, b"A%04d" % i, b"", 20220615) for i in (0, 1, 2, 3, 150, 151, 294, 297, 298, 299)]
    cases = [case(b""), case(b"", asks[:3]), case(e, asks), case(many, asks_many), case(b"".join(entry(k, b"50" if k == 3 else b"X", b"50" if k == 7 else b"Y" if k == 8 else b"") for k in WIDTH), asks)]
    dated = entry(1, b"V", start=b"20220101", end=b"20220131") + entry(4, b"G", end=b"20220131")
    cases.append(case(dated, [(k, c, b"", d) for d in (20211231, 20220101, 20220131, 20220201) for k, c in ((1, b"V"), (4, b"G"))]))
    cases.append(case(entry(1, b"V", start=b"20220201", end=b"20220131"), [(1, b"V", b"", d) for d in (20220131, 20220201)]))
    last = (20220130, 20220131, 20220201, 99999999)
    pair = entry(8, b"V", b"A", end=b"20220131")
    cases.append(case(dated + entry(5, b"O") + pair, [(k, c, b, d, u) for d in (20211231, 20220115, 20220131, 20220201) for u in last for k, c, b in ((1, b"V", b""), (4, b"G", b""), (5, b"O", b""), (8, b"V", b"A"))]))
    for i in range(len(BOOK_E)):
        swapped = BOOK_E[:]
        if i:
            swapped[i - 1], swapped[i] = swapped[i], swapped[i - 1]
            cases.append(case(b"".join(swapped)))
        cases.append(case(b"".join(BOOK_E[:i] + [BOOK_E[i]] * 2 + BOOK_E[i + 1:])))
        cases.append(case(b"".join(BOOK_E[:i] + [BOOK_E[i][:-1]])))
        cases.append(case(b"".join(BOOK_E[:i]) + BOOK_E[i][:1]))
    for broken in (bytes([0]) + BOOK_E[0][1:], bytes([9]) + BOOK_E[0][1:], entry(1, b""), entry(1, b" A"), entry(1, b"A B"), entry(1, b"A\x7f"), entry(3, b"5 "), entry(3, b"x1"), entry(4, b""), entry(5, b" M"),
                   entry(7, b"V", b"5"), entry(7, b"", b"50"), entry(8, b"V", b""), entry(1, b"V", start=b"20220230"), entry(1, b"V", start=b"99999999"), entry(2, b"A", end=b"20220230"), entry(2, b"A", end=b"99999998"),
                   entry(2, b"A", end=b"00000000"), entry(4, b"B") + entry(4, b"A"), entry(2, b"A") + entry(1, b"B"), entry(8, b"A", b"B") + entry(8, b"A", b"A"), entry(4, b"A!") + entry(4, b"A")):
        cases.append(case(broken, asks[:1]))
    cases.append(case(entry(4, b"A") + entry(4, b"A!"), [(4, b"A", b"", 20220901), (4, b"A!", b"", 20220901)]))
    return cases


# The ledger


def slots(ledger):
    return [ledger[i:i + 38] for i in range(0, len(ledger), 38)]


def event_ok(key):
    return all(48 <= b <= 57 for b in key[:9]) and is_date(key[9:17]) and is_padded(key[17:])


def ledger_ok(ledger):
    if len(ledger) % 38 or len(ledger) // 38 > 100000:
        return False
    live = [s for s in slots(ledger) if s[0] == 1]
    ordered = all(a < b for a, b in zip(live, live[1:])) and slots(ledger)[:len(live)] == live
    free = slots(ledger)[len(live):]
    return ordered and all(event_ok(s[1:]) for s in live) and all(s == bytes(38) for s in free)


def event_at(file, at):
    line = file[at:].split(b"\n")[0]
    fields = line.split(b"|")[:-1] + [b""] * 8
    return pad(9, fields[2]) + pad(8, fields[5]) + pad(20, fields[7])


def live_in(ledger):
    return [s[1:] for s in slots(ledger) if s[0] == 1]


def event(uli, day, vaccine=b"TESTV"):
    return pad(9, uli) + pad(8, day) + pad(20, vaccine)


def ii(uli, day, vaccine=b"TESTV"):
    return b"II|2|" + uli + b"|A||" + day + b"||" + vaccine + b"|LA|IM|50|0.5|ML|GSK|L1||||||||"


def updated(lent, live, adds, deletes):
    """What an update leaves, whatever the order of its slots: a walk along those to delete, and a merge from the end."""
    kept, deletes = [], list(deletes)
    for slot in slots(lent)[:live]:
        while deletes and deletes[0] < slot:
            deletes.pop(0)
        if not deletes or deletes[0] != slot:
            kept.append(slot)
    adds = list(adds) if len(kept) + len(adds) <= len(slots(lent)) else []
    last = []
    while adds:
        last.append(kept.pop() if kept and not kept[-1] < adds[-1] else adds.pop())
    left = b"".join(kept + last[::-1])
    return left + bytes(len(lent) - len(left))


def apart(events):
    """No two of the events are the same."""
    events = list(events)
    return len(set(events)) == len(events)


def ledger_cases():
    names = [(b"000000001", b"20220901"), (b"000000001", b"20220902"), (b"000000002", b"20220901"), (b"123456789", b"20220901"), (b"123456789", b"20220902"), (b"999999999", b"21991231")]
    file = b"".join(ii(u, d) + b"\n" for u, d in names) + ii(b"123456789", b"20220901", b"TESTW") + b"\n"
    starts = [i for i in range(len(file)) if i == 0 or file[i - 1:i] == b"\n"]
    ev = [event_at(file, p) for p in starts]
    assert ev[0] == event(*names[0]) and ev[6] == event(b"123456789", b"20220901", b"TESTW")

    def ledger(*events):
        return b"".join(b"\x01" + e for e in events) + bytes(38 * (3 - len(events)))

    def case(lent, adds=(), deletes=()):
        asked = part(file) + part(b"".join(struct.pack("<I", starts[i]) for i in adds)) + part(b"".join(struct.pack("<I", starts[i]) for i in deletes))
        ok = ledger_ok(lent)
        out = b"sound " + num(len(live_in(lent))) if ok else b"malformed "
        if len(lent) == 114:
            assert ok or not adds and not deletes
            live = live_in(lent) if ok else []
            out += b"".join(yes(ev[i] in live) for i in adds)
            places = ([starts[i] for i in adds] + [0] * 4)[:4]
            out += yes(apart(event_at(file, p) for p in places)) + b"".join(num(p) for p in sorted(places, key=lambda p: event_at(file, p)))
            after = sorted([e for e in live if e not in [ev[i] for i in deletes]] + [ev[i] for i in adds])
            rising = lambda ps: all(ev[a] < ev[b] for a, b in zip(ps, ps[1:]))
            fit = rising(adds) and rising(deletes) and len(after) <= 3
            if ok:
                left = updated(lent, len(live), [b"\x01" + ev[i] for i in adds], [b"\x01" + ev[i] for i in deletes])
                assert not fit or left == ledger(*after)
                out += b"[" + left + b"] "
            else:
                out = None
        return part(lent) + part(asked), out

    cases = [case(ledger()), case(ledger(), [3]), case(ledger(), [0, 3, 4]), case(ledger(), [0, 1, 2, 3]), case(ledger(ev[3]), [0]), case(ledger(ev[0]), [3]), case(ledger(ev[0], ev[3]), [1], [0]),
             case(ledger(ev[0], ev[2], ev[3]), [1], [2]), case(ledger(ev[0], ev[2], ev[3]), [1]), case(ledger(ev[0], ev[2], ev[3]), [], [0, 2, 3]), case(ledger(ev[0], ev[2], ev[3]), [1, 4, 5], [0, 2, 3]),
             case(ledger(ev[0], ev[2], ev[3]), [], [1]), case(ledger(), [4, 3]), case(ledger(), [3, 3]), case(ledger(ev[0], ev[3]), [], [3, 0]), case(ledger(ev[3]), [6], [3]), case(ledger(ev[3], ev[6]), [5], [3, 6]),
             case(ledger(ev[5]), [0, 1], []), case(ledger(ev[0], ev[1], ev[2]), [3, 4, 5], [0, 1, 2]), case(ledger(), [6, 3, 5])]
    for lent in (b"", bytes(38), bytes(76), b"\x01" + ev[0], bytes(37), bytes(39), bytes(37) + b"\x01", b"\x02" + ev[0], bytes(38) + b"\x01" + ev[0], b"\x01" + ev[1] + b"\x01" + ev[0], (b"\x01" + ev[0]) * 2,
                 b"\x01" + event(b"12345678x", b"20220901"), b"\x01" + event(b"123456789", b"20220230"), b"\x01" + event(b"123456789", b"20220901", b""), b"\x01" + event(b"123456789", b"20220901", b"A B"),
                 b"\x01" + event(b"123456789", b"17991231"), b"\x01" + event(b"123456789", b"20220901", b"V" * 20), b"\x01" + event(b"123456789", b"20220901", b"\x7f"), b"\x01" + event(b"000000000", b"18000101", b"!")):
        cases.append(case(lent))
    return cases


# The largest sizes, and one more

PLACES_MOST = 96154  # no file of 5,000,000 bytes has more blocks (docs/PROMISES.md, events)


def letters(i):
    return bytes(65 + i // 26 ** k % 26 for k in (3, 2, 1, 0))


def bounds_cases():
    """One input with two books, a file and three places in it; a line of what is printed for each size."""
    types = [entry(5, letters(i)) for i in range(20165)]
    most, more = entry(4, b"GSK") + b"".join(types[:-1]), b"".join(types)
    assert (len(most), len(more)) == (262144, 262145) and book_ok(b"".join(types[:-1]))
    out = []
    for n in (100000, 100001):
        out.append(b"ledger " + num(38 * n) + (b"sound 0 " if ledger_ok(bytes(38 * n)) else b"malformed "))
    for book in (most, more):
        out.append(b"book " + num(len(book)) + (b"valid " if book_ok(book) else b"malformed "))
    lines = [ii(b"123456789", d) + b"\n" for d in (b"20220903", b"20220901", b"20220902")]
    file, three = b"".join(lines), [0, len(lines[0]), len(lines[0] + lines[1])]
    event_of = {p: event_at(file, p) for p in three}
    for n in (PLACES_MOST, PLACES_MOST + 1):
        places, can = [three[i % 3] for i in range(n)], n <= PLACES_MOST
        after = sorted(places, key=event_of.get) if can else places
        changes = sum(a != b for a, b in zip(after, after[1:]))
        out.append(b"sort " + num(n) + yes(can and apart(event_of[p] for p in places)) + num(changes) + num(after[0]) + num(after[-1]))
    return [(part(most) + part(more) + part(file) + part(struct.pack("<III", *three)), b"\n".join(out))]


if __name__ == "__main__":
    write("vectors_house", house_cases())
    write("vectors_lines", lines_cases())
    write("vectors_book", book_cases())
    write("vectors_ledger", ledger_cases())
    write("vectors_bounds", bounds_cases())
