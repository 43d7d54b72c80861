"""The guideline's samples, as printed and as mended: in numbers as the files beside them have it, in words as tests/command/expected has it."""
import os
import tempfile
from glob import glob

from data import FREE, TODAY, entry
from running import transcript, write_all

KINDS = {"vaccine": 1, "antigen": 2, "reason": 3, "manufacturer": 4, "dosage-type": 5, "reason-not-immunized": 6, "vaccine-reason": 7, "vaccine-antigen": 8}


def book_of_text(path):
    """The book that a text of codes makes."""
    entries = []
    with open(path, encoding="ascii") as text:
        for words in (line.split() for line in text if line.strip() and not line.startswith("#")):
            kind, *codes, end = words
            start = codes.pop() if kind == "vaccine" else None
            entries.append(entry(KINDS[kind], *codes, start=start, end="99999999" if end == "open" else end))
    return b"".join(sorted(entries))


def run_samples(runner, top):
    """Each sample's name, with its run in words and its faults."""
    with tempfile.TemporaryDirectory() as folder:
        write_all(folder, book=book_of_text(os.path.join(top, "samples", "codes.txt")), ledger=FREE * 100)
        given = ["check", "-t", TODAY, "-b", os.path.join(folder, "book"), "-l", os.path.join(folder, "ledger")]
        for path in sorted(glob(os.path.join(top, "samples", "*", "*.txt"))):
            name = os.path.relpath(path, top)
            words, numbers = runner.run(*given, name, folder=top), runner.run(*given, "-f", "numbers", name, folder=top)
            with open(path.removesuffix(".txt") + ".out", "rb") as file:
                expected = file.read()
            faults = [] if numbers.out == expected else [f"in numbers {numbers.out!r}, not {expected!r}"]
            yield name, f"== {name}\n" + transcript(words), faults
