"""Small submissions for the tests of the command, and the charts that give them: one new event each, by document 01's File E and Book E."""

TODAY = "20220930"

BOOK = (
    b"\x01TESTV" + b" " * 15 + b"2000010199999999"
    b"\x02TESTA" + b" " * 15 + b"99999999"
    b"\x035099999999"
    b"\x04GSK99999999"
    b"\x05ML  99999999"
    b"\x07TESTV" + b" " * 15 + b"5099999999"
    b"\x08TESTV" + b" " * 15 + b"TESTA" + b" " * 15 + b"99999999"
)


def submission(uli, date):
    """Adds the event of this ULI, this date and the vaccine TESTV."""
    return b"".join(
        line + b"\n"
        for line in (
            b"IV|7.2|",
            b"IH|10|000001|",
            b"IP|1|" + uli + b"|||||SMITH|JOHN||||||||||||||||20150301|||",
            b"II|2|" + uli + b"|A||" + date + b"||TESTV|LA|IM|50|0.5|ML|GSK|L1||||||||",
            b"IE|3|" + uli + b"|TESTA|1|",
            b"IF|6|0|",
        )
    )


def chart(uli, date):
    """The chart records of that submission: kind, then the fields from field 3 on in their printed lengths."""
    return b"".join((
        b"\x01" + uli + b" " * 36 + b"SMITH".ljust(50) + b"JOHN".ljust(50) + b" " * 281 + b"20150301" + b" " * 2,
        b"\x02" + uli + b"A " + date + b" " + b"TESTV".ljust(15) + b"LA".ljust(4) + b"IM".ljust(3) + b"50" + b"0.5".ljust(9) + b"ML".ljust(4)
        + b"GSK" + b"L1".ljust(20) + b" " * 1619,
        b"\x03" + uli + b"TESTA".ljust(15) + b"1 ",
    ))
