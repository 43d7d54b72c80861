"""Document 01's forms and rules with CR 1 of document 02, written from the documents alone: what a file that has the right shape breaks.

How document 01 is read where it leaves a choice: docs/DECISIONS.md, R1 to R12."""
import re

from make import WIDTH, event, is_date, pad, read_entries, split_lines

# Forms of fields


def of(pattern, more=lambda t: True):
    return lambda t: re.fullmatch(pattern, t, re.DOTALL) is not None and more(t)


def at_least_1(t):
    return int(t) >= 1


NUMBER, ULI, KIND, CODE = of(rb"[0-9]{1,5}", at_least_1), of(rb"[0-9]{9}"), of(rb"[ACD]"), of(rb"[!-~]{1,20}")
FORM = {
    "IV": {2: of(rb"7\.2")},
    "IH": {2: of(rb"[A-Za-z0-9]{1,3}"), 3: of(rb"[A-Za-z0-9]{1,10}")},
    "IF": {2: of(rb"[0-9]{1,10}"), 3: of(rb".+")},
    "IP": {2: NUMBER, 3: ULI, 25: is_date},
    "II": {2: NUMBER, 3: ULI, 4: KIND, 5: of(rb"H"), 6: is_date, 8: CODE, 9: of(rb"[A-Za-z]{1,4}"), 10: of(rb"[A-Za-z]{1,3}"),
           11: of(rb"[0-9]{1,2}| [0-9]"), 12: of(rb"[0-9]{1,6}(\.[0-9]{1,2})?", lambda t: float(t) > 0), 13: of(rb"[A-Za-z]{1,4}"),
           14: of(rb"[A-Za-z]{1,3}"), 15: of(rb"[A-Za-z0-9-]{1,20}")},
    "IE": {2: NUMBER, 3: ULI, 4: CODE, 5: of(rb"[0-9]{1,2}", at_least_1)},
    "IN": {2: NUMBER, 3: ULI, 4: KIND, 5: is_date, 6: of(rb"[A-Za-z]{1,3}"), 7: of(rb"[0-9]{1,4}"), 8: of(rb"[A-Za-z0-9]{1,2}")},
    "IA": {2: NUMBER, 3: ULI, 4: CODE},
}
SITES = b"LA LAF LAL LAU LDG LG LL LLL LLU LVG MO MS NO OTH RA RAF RAL RAU RDG RG RL RLL RLU RVG VE WO UNK".split()
METHODS = b"G ID IM IN INF IV PO SC OTH UNK".split()
# The book's kind of each code; a site and a method have lists of their own.
BOOK_KIND = {("II", 8): 1, ("II", 11): 3, ("II", 13): 5, ("II", 14): 4, ("IE", 4): 2, ("IN", 6): 6, ("IA", 4): 2}
OPEN_LIST = {("II", 9): SITES, ("II", 10): METHODS}
NUMBERED = ("IP", "II", "IE", "IN", "IA")


class Line:
    """A record in its place: its own number and place, its IP, and its II or IN (itself, or the one an IE or IA belongs to)."""

    def __init__(self, number, text):
        self.number, self.fields = number, text.split(b"|")[:-1]
        self.kind = self.fields[0].decode()
        self.place, self.ip, self.head, self.parts, self.block = 0, None, self, [], None

    def __getitem__(self, f):
        return self.fields[f - 1]

    def relaxed(self):
        return self.kind == "II" and (self[5] == b"H" or self[20] != b"" or self[18] not in (b"", b"AB") or self[18] == b"" and self[19] != b"")

    def optional(self, f):
        return (self.kind, f) in (("II", 5), ("IN", 8)) or self.relaxed() and 9 <= f <= 15

    def sound(self, f):
        return self.optional(f) if self[f] == b"" else FORM[self.kind][f](self[f])

    def given(self, f):
        return self[f] != b"" and self.sound(f)

    def date(self):
        """The number of the record's date, if it is sound."""
        f = 25 if self.head.kind == "IP" else 6 if self.head.kind == "II" else 5
        return int(self.head[f]) if self.head.sound(f) else None


def records(file):
    lines, place, ip, head = [], 0, None, None
    for n, (_, text, _) in enumerate(split_lines(file), 1):
        line = Line(n, text)
        if line.kind in NUMBERED:
            place += 1
            line.place = place
        if line.kind == "IP":
            ip = line
        elif line.kind in ("II", "IN"):
            head = line
        elif line.kind in ("IE", "IA"):
            line.head = head
            head.parts.append(line)
        line.ip = ip
        lines.append(line)
    return lines


NAMES = (3, 4, 6, 8)


def blocks(lines):
    """The blocks in order, each a list of II; and on each II its block, or none."""
    found, last = [], None
    for line in lines:
        if line.kind == "II":
            if not all(line.sound(f) for f in NAMES):
                line.block = None
            elif last and last.block and last.ip is line.ip and all(last[f] == line[f] for f in NAMES):
                line.block = last.block
                line.block.append(line)
            else:
                line.block = [line]
                found.append(line.block)
            last = line
    return found


def named(ii):
    return ii[3], ii[6], ii[8]


class Book:
    def __init__(self, book):
        self.entries = {(kind, code): (int(start or 0), int(end)) for _, kind, code, start, end in read_entries(book)[1]}

    def key(self, kind, a, b=b""):
        return kind, pad(WIDTH[kind][0], a) + pad(WIDTH[kind][1], b)

    def known(self, *code):
        return self.key(*code) in self.entries

    def in_force(self, record, today, *code):
        """Whether a code or pair is in force for an II or IN with a sound date, and its IE or IA. CR 1: for an II, one whose end is before
        today only if II 5 is H."""
        start, end = self.entries[self.key(*code)]
        return start <= record.date() <= end and (record.kind == "IN" or record[5] == b"H" or end >= today)


def code_of(line, f):
    """A field's code; a reason is read as two digits."""
    return line[f].replace(b" ", b"0").rjust(2, b"0") if (line.kind, f) == ("II", 11) else line[f]


def in_book(line, f, book):
    """Whether a field has a code of the book that the book knows."""
    return line.given(f) and book.known(BOOK_KIND[line.kind, f], code_of(line, f))


def pair_broken(line, f, kind, today, book):
    ii = line.head
    if not (in_book(line, f, book) and in_book(ii, 8, book)):
        return False
    pair = kind, ii[8], code_of(line, f)
    return not book.known(*pair) or ii.date() is not None and not book.in_force(ii, today, *pair)


def antigens(ii):
    """The set of antigens with their counts, if all of these fields are sound."""
    return {(e[4], int(e[5])) for e in ii.parts} if all(e.sound(4) and e.sound(5) for e in ii.parts) else None


def broken(line, f, today, book, live, all_blocks):
    """The rules that are broken at a field."""
    kind, text = line.kind, line[f]
    if not line.sound(f):
        return [1 if text == b"" else 3 if kind == "IV" else 2]
    rules = []
    if text != b"":
        if (kind, f) in OPEN_LIST and text not in OPEN_LIST[kind, f]:
            rules.append(4)
        if (kind, f) in BOOK_KIND:
            code = BOOK_KIND[kind, f], code_of(line, f)
            if not book.known(*code):
                rules.append(4)
            elif line.date() is not None and not book.in_force(line.head, today, *code):
                rules.append(5)
    if f == 3 and kind in ("II", "IE", "IN", "IA") and line.ip.sound(3) and text != line.ip[3]:
        rules.append(6)
    if f == 2 and kind in NUMBERED and int(text) != line.place:
        rules.append(7)
    if (kind, f) in (("IP", 25), ("II", 6), ("IN", 5)):
        if int(text) > today or kind != "IP" and line.ip.sound(25) and int(text) < int(line.ip[25]):
            rules.append(8)
    if kind == "II" and f in (9, 10) and line.given(9) and line.given(10):
        site, method = line[9], line[10]
        if f == 9 and (method == b"PO" and site != b"MO" or method == b"IN" and site != b"NO"):
            rules.append(9)
        if f == 10 and (site == b"MO" and method != b"PO" or site == b"NO" and method != b"IN"):
            rules.append(9)
    if kind == "II" and f in (9, 10, 12, 13) and line.relaxed() and text == b"" and line.given({9: 10, 10: 9, 12: 13, 13: 12}[f]):
        rules.append(10)
    if (kind, f) == ("II", 11) and pair_broken(line, f, 7, today, book) or (kind, f) == ("IE", 4) and pair_broken(line, f, 8, today, book):
        rules.append(11)
    if (kind, f) == ("IE", 4) and text in [e[4] for e in line.head.parts if e.number < line.number]:
        rules.append(12)
    if kind == "II" and line.block:
        first, earlier = line.block[0], [ii for ii in line.block if ii.number < line.number]
        if f == 8 and antigens(line) is not None and antigens(first) is not None and antigens(line) != antigens(first):
            rules.append(13)
        if f == 15 and text in [ii[15] for ii in earlier if ii.sound(15)]:
            rules.append(14)
        if f == 8 and any(named(b[0]) == named(line) for b in all_blocks if b[0].number < first.number):
            rules.append(15)
        if f == 4:
            is_live = event(*named(line)) in live
            rules += [16] if text == b"A" and is_live else [17] if text == b"C" and not is_live else [18] if text == b"D" and not is_live else []
    return rules


def findings(today, file, book, live):
    """Every broken rule as (line, field, rule), in that order; the blocks; how many IN records there are."""
    lines = records(file)
    all_blocks = blocks(lines)
    book = Book(book)
    found = [(line.number, f, r) for line in lines for f in sorted(FORM[line.kind]) for r in broken(line, f, today, book, live, all_blocks)]
    return found, all_blocks, sum(line.kind == "IN" for line in lines)
