"""Every answer: what is wrong with the file, the book, the ledger or today is worked out by hand from document 01."""
from data import BOOK, BOOK_MOST, E, FILE_MOST, FREE, SLOTS_MOST, X, Y, accepted, answer, case, entry, ledger_of, slot, submission

ADD_TWO = submission("IP", ("II", {6: "20220902"}), "IE", ("II", {6: "20220903"}), "IE")
MIXED = submission("IP", ("II", {6: "20220903"}), "IE", ("II", {4: "C"}), "IE", ("II", {4: "D", 6: "20220902"}), "IE",
                   "IN", "IA", ("IN", {5: "20220902"}), "IA")
EXCHANGE = submission("IP", ("II", {4: "D"}), "IE", ("II", {6: "20220902"}), "IE", ("II", {6: "20220903"}), "IE")


def live(count):
    """So many live events that no file here names."""
    return b"".join(slot(f"{n:09}", "20200101", "V") for n in range(count))


CASES = [
    case("answer 0", "P1: File E", E, accepted(added=1)),
    case("answer 0, all counts", "one block adds, one changes, one deletes, and two IN records", MIXED, accepted(1, 1, 1, 2), ledger=ledger_of(X, Y, slots=2)),
    case("answer 0, nothing", "no patient at all, an empty book and a ledger without slots", submission(), accepted(), book=b"", ledger=b""),
    case("answer 0, one record", "one IN record", submission("IP", "IN", "IA"), accepted(declined=1)),
    case("answer 0, CR LF", "lines that end in CR LF", E.replace(b"\n", b"\r\n"), accepted(added=1)),
    case("answer 0, H", "request 1: H, and a manufacturer that ended since", submission("IP", ("II", {5: "H", 14: "OLD"}), "IE"), accepted(added=1)),
    case("answer 0, one day", "a vaccine of one day, given on that day, with H", submission("IP", ("II", {5: "H", 8: "DAYV"}), "IE"), accepted(added=1)),
    case("answer 1", "P7: 2023 has no leap day", E, answer(1), today="20230229"),
    case("answer 1, zeros", "eight zeros", E, answer(1), today="00000000"),
    case("answer 2", "one byte more than 5,000,000", E.ljust(FILE_MOST + 1, b"|"), answer(2)),
    case("answer 3", "a book that is no book", E, answer(3), book=b"?"),
    case("answer 3, order", "entries that do not ascend", E, answer(3), book=entry(2, "B") + entry(2, "A")),
    case("answer 3, day", "an end that is no date", E, answer(3), book=entry(2, "A", end="20230229")),
    case("answer 3, long", "one entry more than 262,144 bytes hold", E, answer(3), book=BOOK + b"\x09" * (BOOK_MOST + 1 - len(BOOK))),
    case("answer 4", "a slot and a byte", E, answer(4), ledger=FREE + b"\0"),
    case("answer 4, order", "live events that do not ascend", E, answer(4), ledger=slot(*Y) + slot(*X)),
    case("answer 4, long", "100,001 slots", E, answer(4), ledger=FREE * (SLOTS_MOST + 1)),
    case("answer 5", "an empty line between records", E.replace(b"\n", b"\n\n", 1), answer(5, 2, 3)),
    case("answer 6", "P2: lot L1 on line 6", E.replace(b"|L2|", b"|L1|"), findings=[(6, 15, 14)]),
    case("answer 7", "P5: zero slots", E, answer(7), ledger=b""),
    case("answer 7, two", "two events more, and one slot, which is taken", ADD_TWO, answer(7), ledger=slot(*X)),
    case("answer 7, exchange", "one slot, live X; a file deletes X and adds two", EXCHANGE, answer(7), ledger=slot(*X)),
    case("answer 7, no ledger", "100,000 live events and one more", E, answer(7), ledger=live(SLOTS_MOST)),
    case("answer 0, last slot", "99,999 live events and one more", E, accepted(added=1), ledger=live(SLOTS_MOST - 1) + FREE),
]
