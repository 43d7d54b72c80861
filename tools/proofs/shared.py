"""What the tools of this folder share: what `rt check` prints of proof files that are missing, and those files in the short form."""

import contextlib
import os
import re
import subprocess
import sys

INVARIANTS, ANSWERS = "Invariants.antt", "Answers.antt"


class Refused(Exception):
    """Why a file cannot be written."""


def end(tool, message):
    """Ends a tool with a message."""
    print(f"{tool}: {message}", file=sys.stderr)
    sys.exit(1)


def expect_root(tool):
    if not os.path.exists("crates.txt"):
        end(tool, "run it where crates.txt stands")


def check(crate, *words):
    """The lines that `rt check` prints in a crate's folder."""
    folder = os.path.join("crates", crate)
    if not os.path.isdir(folder):
        end("rt", f"there is no folder {folder}")
    try:
        said = subprocess.run(["rt", "check", *words], cwd=folder, capture_output=True, text=True, check=False)
    except FileNotFoundError:
        end("rt", "it is not on the path")
    return (said.stdout + said.stderr).split("\n")


def keep(name, text):
    """Writes a file for reading, in target/."""
    os.makedirs("target", exist_ok=True)
    with open(os.path.join("target", name), "w", encoding="utf-8") as out:
        out.write(text)


def printed_files(crate, log):
    """The proof files that a run of `rt check` prints the first lines of: each path with its lines."""
    files, path = {}, None
    for line in log:
        m = re.match(r"help: write (?:\./)?(proofs/\S+/(?:Invariants|Answers)\.antt) with these lines", line)
        if m:
            path = os.path.join("crates", crate, m.group(1))
            files[path] = []
        elif path and (line.startswith("    ") or line == ""):
            files[path].append(line[4:])
        else:
            path = None
    return files


def path_of(crate, fn, kind):
    return os.path.join("crates", crate, "proofs", fn, kind)


def paths_of(crate, fn):
    """The two files of a function: the invariants and measures of its loops, and the answers to its goals."""
    return [path_of(crate, fn, kind) for kind in (INVARIANTS, ANSWERS)]


def write(path, text):
    os.makedirs(os.path.dirname(path), exist_ok=True)
    with open(path, "w", encoding="utf-8") as out:
        out.write(text)


@contextlib.contextmanager
def aside(crate, fns):
    """Takes the files of functions away, so that `rt check` prints their first lines. Those of a function that got none anew come back."""
    old = {fn: {} for fn in fns}
    for fn in fns:
        for path in filter(os.path.exists, paths_of(crate, fn)):
            with open(path, encoding="utf-8") as file:
                old[fn][path] = file.read()
            keep(path.replace("/", ".") + ".old.txt", old[fn][path])
            os.remove(path)
    try:
        yield
    finally:
        for fn in fns:
            if not any(map(os.path.exists, paths_of(crate, fn))):
                for path, text in old[fn].items():
                    write(path, text)


class Plan:
    """How the goals of a function are answered: by a ruleset of a file of laws, but for those that have a term of their own."""

    def __init__(self, fn, ruleset, module):
        self.fn, self.ruleset, self.module = fn, ruleset, module
        self.inv = self.measure = None
        self.uses, self.at = [], {}

    def term(self, goal, printed):
        """What a goal is answered by, or a loop's invariant or measure; what rt printed, where the plan does not say."""
        if goal.startswith("invariant-"):
            return self.inv or printed
        if goal.startswith("decreases-"):
            return self.measure or printed
        return self.at.get(goal, f"search {self.ruleset}")


def goals_of(lines):
    """The goals of printed lines: each with the lines of its signature, its name as it is defined, and the printed term."""
    goals, signature = [], []
    for line in lines:
        m = re.match(r"(\S+) ([a-z]) =(.*)", line)
        if re.match(r"(abbrev )?(pub )?\S+ :", line):
            signature = [line]
        elif m and signature:
            goals.append([signature, f"{m.group(1)} {m.group(2)}", m.group(3).strip()])
            signature = []
        elif signature and line.strip():
            signature.append(line)
        elif goals and line.startswith("    "):
            goals[-1][2] = f"{goals[-1][2]} {line.strip()}".strip()
    return goals


def short_form(crate, plan, path, lines):
    """A proof file of a function, and the names of its goals, from the lines that rt check prints."""
    goals = goals_of(lines)
    uses = [line for line in lines if line.startswith("use ")]
    if not goals or not uses:
        raise Refused("the lines that rt check prints have no goals")
    of_answers = os.path.basename(path) == ANSWERS
    out = [f"use Rattle.{crate}.proofs.{plan.module}.{{{plan.ruleset}}}"] if of_answers else uses[:-1]
    out += [f"use {use}" for use in plan.uses] + uses[-1:]
    names = []
    for signature, defined, printed in goals:
        names.append(defined.split()[0])
        out += ["", *signature, f"{defined} = {plan.term(names[-1], printed)}"]
    return "\n".join(out) + "\n", names


def write_missing(crate, plans, files):
    """Writes each file that is missing and of which lines are printed; each path with its goals, and each with why it could not be."""
    wrote, failed = {}, {}
    for fn, plan in plans.items():
        for path in paths_of(crate, fn):
            if path in files and not os.path.exists(path):
                try:
                    text, wrote[path] = short_form(crate, plan, path, files[path])
                    write(path, text)
                except Refused as fault:
                    failed[path] = str(fault)
    return wrote, failed


def write_short(crate, plans):
    """Writes the files of functions, answers once their invariants are there; what was written, what could not be, and all that rt said."""
    log = check(crate)
    wrote, failed = write_missing(crate, plans, printed_files(crate, log))
    if any(path.endswith(INVARIANTS) for path in wrote):
        log += check(crate)
        more, failed = write_missing(crate, plans, printed_files(crate, log))
        wrote.update(more)
    return wrote, failed, log
