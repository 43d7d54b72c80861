"""Every cause of a fault of shape: line and cause are worked out by hand from document 01."""
from data import E, E_RECORDS, answer, case, file_of, lines_of, record

LINES = lines_of(*E_RECORDS)
NAME = LINES[2].index("SMITH")


def shape(name, why, file, line):
    """A case whose name begins with its cause."""
    return case(name, why, file, expected=answer(5, line, int(name.split()[1].rstrip(","))))


def with_line(n, line):
    return file_of([*LINES[: n - 1], line, *LINES[n:]])


def with_byte(byte):
    """A byte before the patient's last name, which is IP 8."""
    return with_line(3, LINES[2][:NAME] + byte + LINES[2][NAME:])


def kinds(*names):
    """Records of these types, with nothing wrong but perhaps their order."""
    return file_of([record(kind) for kind in names])


CASES = [
    shape("cause 1", "P12: an IF without its LF", E[:-1], 8),
    shape("cause 1, CR", "lines that end in CR alone are one line without an end", E.replace(b"\n", b"\r"), 1),
    shape("cause 1, end mark", "a byte 26 after the last line, as old systems write it", E + b"\x1a", 9),
    shape("cause 1, letters", "a last line with letters in UTF-8 and Latin-1", E + b"IF|\xc3\x89\xc9|", 9),
    shape("cause 2, letter", "a letter in UTF-8", with_byte("\xc3\x89"), 3),
    shape("cause 2, Latin-1", "a letter in Latin-1", with_byte("\xc9"), 3),
    shape("cause 2, tab", "a tab", with_byte("\t"), 3),
    shape("cause 2, escape", "a byte that a terminal takes for a command", with_byte("\x1b"), 3),
    shape("cause 2, 127", "the byte after the last one that is printable", with_byte("\x7f"), 3),
    shape("cause 2, 0", "a byte of 0", with_byte("\0"), 3),
    shape("cause 2, CR CR", "two CR before the LF", E.replace(b"\n", b"\r\r\n"), 1),
    shape("cause 2, mark", "a byte order mark before the first record", b"\xef\xbb\xbf" + E, 1),
    shape("cause 2, later mark", "a byte order mark before a later record is none", with_line(2, "\xef\xbb\xbf" + LINES[1]), 2),
    shape("cause 2, UTF-16", "a file in UTF-16", E.decode("ascii").encode("utf-16"), 1),
    shape("cause 2, last field", "a letter in the last field of a record", with_line(8, "IF|8|\xc9|"), 8),
    shape("cause 3, empty", "an empty line", with_line(2, ""), 2),
    shape("cause 3, CR LF", "an empty line that ends in CR LF", E.replace(b"\n", b"\r\n").replace(LINES[1].encode(), b""), 2),
    shape("cause 3, last, CR LF", "the last field without its pipe, before CR LF", E.replace(b"|\n", b"\r\n"), 1),
    shape("cause 3, blank", "a line of a blank", with_line(2, " "), 2),
    shape("cause 3, last", "the last field without its pipe", with_line(8, "IF|8|0"), 8),
    shape("cause 3, long", "a long line without a pipe", with_line(2, "IH" * 500), 2),
    shape("cause 4", "a type that the guideline does not have", with_line(2, "IX|10|000001|"), 2),
    shape("cause 4, case", "a type in small letters", with_line(1, "iv|7.2|"), 1),
    shape("cause 4, empty", "no type at all", with_line(1, "|7.2|"), 1),
    shape("cause 4, long", "a type of 100 bytes, with a quote and a backslash", with_line(4, '"\\' * 50 + "|"), 4),
    shape("cause 5, few", "an IP of 25 fields, as the guideline's samples print it", with_line(3, "IP" + "|" * 25), 3),
    shape("cause 5, many", "an IF of 5 fields", with_line(8, "IF|8|0|1|2|"), 8),
    shape("cause 5, one", "a type alone", with_line(1, "IV|"), 1),
    shape("cause 6, start", "no IV", kinds("IH", "IF"), 1),
    shape("cause 6, IV IV", "a second IV", kinds("IV", "IV"), 2),
    shape("cause 6, IH II", "an immunization without a patient", kinds("IV", "IH", "II", "IE", "IF"), 3),
    shape("cause 6, IP IF", "a patient with nothing", kinds("IV", "IH", "IP", "IF"), 4),
    shape("cause 6, II II", "an immunization without its antigens", kinds("IV", "IH", "IP", "II", "II"), 5),
    shape("cause 6, IE IA", "an antigen not administered after an antigen count", kinds("IV", "IH", "IP", "II", "IE", "IA"), 6),
    shape("cause 6, IN IF", "a not-immunized record without its antigens", kinds("IV", "IH", "IP", "IN", "IF"), 5),
    shape("cause 6, IA II", "an immunization after the not-immunized records", kinds("IV", "IH", "IP", "IN", "IA", "II"), 6),
    shape("cause 6, IF IP", "a patient after the footer", kinds("IV", "IH", "IF", "IP"), 4),
    shape("cause 7, empty", "P6: an empty file", b"", 1),
    *(shape(f"cause 7, {'IV IH IP II IE IN IA'.split()[n - 1]}", "a file that was cut", kinds(*names), n + 1 if n < 6 else len(names) + 1)
      for n, names in enumerate([("IV",), ("IV", "IH"), ("IV", "IH", "IP"), ("IV", "IH", "IP", "II"), ("IV", "IH", "IP", "II", "IE"),
                                 ("IV", "IH", "IP", "IN"), ("IV", "IH", "IP", "IN", "IA")], 1)),
]
