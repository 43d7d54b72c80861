"""Wrong expectations and wrong commands: each must be reported by the test that is there for it."""
import os
import shlex
import tempfile

import conduct
import keeping
import long
import outcomes
import rules
import shapes
import writing
import written
from data import E
from running import Runner, collected, transcript, try_case

RULE_14 = next(tried for tried in rules.CASES if tried.name == "rule 14")
CAUSE_5 = next(tried for tried in shapes.CASES if tried.name == "cause 5, few")
FILE_E, CHART_CUT = (next(tried for tried in written.CASES if tried.name == name) for name in ("File E", "cut, IE"))
ANSWER_0, ANSWER_7 = outcomes.CASES[0], next(tried for tried in outcomes.CASES if tried.name == "answer 7")

# What is expected wrongly, the case with it, and how the fault begins.
EXPECTATIONS = [
    ("another rule", RULE_14._replace(findings=((6, 15, 13),)), "in numbers"),
    ("another line", RULE_14._replace(findings=((4, 15, 14),)), "in numbers"),
    ("a finding too many", RULE_14._replace(findings=((6, 15, 14), (6, 15, 15))), "in numbers"),
    ("no finding", RULE_14._replace(findings=()), "in numbers"),
    ("another file", RULE_14._replace(file=E), "in numbers"),
    ("another answer", ANSWER_0._replace(answer=ANSWER_7.answer), "in numbers"),
    ("another count", ANSWER_0._replace(answer=(0, 0, 0, 2, 0, 0, 0)), "in numbers"),
    ("another cause", CAUSE_5._replace(answer=(5, 3, 4, 0, 0, 0, 0)), "in numbers"),
    ("another day", ANSWER_0._replace(today="20220831"), "in numbers"),
    ("another file of a chart", FILE_E._replace(file=E + b"x"), "it writes"),
    ("another answer of a chart", CHART_CUT._replace(answer=0), "exit status 1, not 0"),
]

# A wrong command, as a shell runs it around the right one, the test that must report it, and a part of the report.
COMMANDS = [
    ("check alters the ledger", '"$@"; s=$?; printf x >>ledger; exit $s', ANSWER_0, "check altered a file"),
    ("check leaves a file", '"$@"; s=$?; : >left; exit $s', ANSWER_0, "check altered a file"),
    ("another exit status", '"$@"; exit 3', ANSWER_0, "exit status 3"),
    ("refused with exit status 0", '"$@"; exit 0', RULE_14, "exit status 0"),
    ("words on standard error", '"$@"; s=$?; echo no >&2; exit $s', RULE_14, "standard error has"),
    ("another column", '"$@" | sed s/:55:/:54:/; exit 1', RULE_14, "in words"),
    ("another text", '"$@" | sed s/L1/L2/; exit 1', RULE_14, "in words"),
    ("another message in JSON", '"$@" | sed s/,.message.:.the/\\&e/; exit 1', RULE_14, "differ in a message"),
    ("another name in JSON", '"$@" | sed s/FINDINGS/FULL/; exit 1', RULE_14, "in JSON"),
    ("no missing slots", '"$@" | sed s/missing/needed/; exit 1', ANSWER_7, "in JSON missing_slots is missing"),
    ("one file alone", 'for last; do :; done; "$1" "$2" "$3" "$4" "$5" "$6" "$7" "$8" "$last"', conduct.several_files, "it says"),
    ("the first file that cannot be read ends it", '"$@" >out; s=$?; [ $s = 2 ] || cat out; exit $s', conduct.unreadable_between, "not 'e.txt"),
    ("it is said twice", '"$@"; s=$?; echo again >&2; exit $s', conduct.said_once, "more than once"),
    ("a name as it is", '"$@" | sed "s/\\\\\\\\x1b/\\x1b/g"; exit 1', conduct.shown_names, "not"),
    ("another time zone", 'TZ=UTC0 "$@"', conduct.todays_date, "days on"),
    ("a full disk is not said", '"$@" 2>/dev/null', conduct.writing_fails, "has not"),
    ("a full disk has exit status 0", '"$@"; exit 0', conduct.writing_fails, "exit status 0"),
    ("usage with exit status 0", '"$@"; exit 0', conduct.usage_errors, "exit status 0"),
    ("usage on standard output", '"$@" 2>&1', conduct.usage_errors, "not ''"),
    ("another version", '"$@" | sed s/0.3.0/0.1.0/', conduct.help_and_version, "not 'tuulveski 0.3.0"),
    ("nothing is kept", 'c=$1; shift 2; "$c" check "$@"', keeping.keeps, "the ledger has"),
    ("a refused file clears the ledger", '"$@"; s=$?; [ $s = 0 ] || : >ledger; exit $s', keeping.keeps, "altered"),
    ("a refusal touches the ledger", '"$@"; s=$?; touch ledger; exit $s', keeping.refused_leaves, "a file was altered"),
    ("accepted is told first", 'echo "e.txt: accepted: 1 event added, 0 changed, 0 deleted, 0 not-immunized records"; "$@" >/dev/null',
     keeping.kept_before_told, "not kept while nobody reads"),
    ("accepted is told where nothing is kept", '"$@"; s=$?; echo accepted; exit $s', keeping.keeping_fails, "not ''"),
    ("it goes on after a failure", '"$@"; s=$?; [ $# = 13 ] && "$1" submit -b "$6" -l "$8" "${12}"; exit $s', keeping.order_matters, "it prints"),
    ("the ledger is not waited for", 'for w; do shift; [ "$w" = 60 ] && w=0; set -- "$@" "$w"; done; "$@"', keeping.held_ledger, "exit status 2"),
    ("a chart's lot is lost", '"$@" | grep -v "L2"', FILE_E, "it writes"),
    ("a chart's refusal has exit status 0", '"$@"; exit 0', CHART_CUT, "exit status 0"),
    ("a refused chart makes a file", '"$@"; s=$?; [ $s != 1 ] || : >out.txt; exit $s', CHART_CUT, "a file was"),
    ("the chart is written over", '"$@"; s=$?; : >day.chart; exit $s', FILE_E, "a file was"),
    ("a refusal without words", '"$@" 2>/dev/null', CHART_CUT, "standard error has"),
    ("a file is written over", 'rm -f there.txt; "$@"', writing.never_over, "exit status 0"),
    ("others may read what is written", '"$@"; s=$?; chmod 644 1 2>/dev/null; exit $s', writing.file_e, "others may read it"),
    ("lots stay apart", '"$@"; s=$?; [ ! -e day.txt ] || cp scattered.txt day.txt; exit $s', writing.travel_clinic, "not together"),
    ("numbers past 99,999 are not told", '"$@" 2>&1 >/dev/null | grep -v "rule 2" >&2; exit 0', writing.most_records, "has not"),
    ("half of a file is left", '"$@"; s=$?; [ $s != 2 ] || : >.out.txt.new; exit $s', writing.cannot_be_written, "the folder has"),
    ("any other chart", '"$@"; s=$?; [ ! -e any.txt ] || sed -i s/W/V/ any.txt; exit $s', writing.any_chart, "another file"),
    ("findings are cut at 1,000", '"$@" | head -n 1000; exit 1', long.more_findings, "not"),
    ("a small stack is too small", '"$@" >out; s=$?; ulimit -s | grep -q 256 && exit 139; cat out; exit $s', long.small_stack, "exit status 139"),
]


def faults_by(runner, test):
    if callable(test):
        return collected(test(runner))
    return (written.try_written if isinstance(test, written.Written) else try_case)(runner, test)[1]


def is_tried(runner, test):
    """Under an emulator there is no small stack."""
    return not (runner.is_emulated and test is long.small_stack)


def wrong_commands(runner):
    """Each wrong command's name, with the faults that are found and the part of them that must be."""
    with tempfile.TemporaryDirectory() as folder:
        right = os.path.join(folder, "right")
        with open(right, "w", encoding="utf-8") as script:
            script.write(f'#!/bin/sh\nexec {shlex.join(runner.words)} "$@"\n')
        os.chmod(right, 0o755)
        for name, script, test, part in (command for command in COMMANDS if is_tried(runner, command[2])):
            yield name, faults_by(Runner(["sh", "-c", script, "sh", right], is_emulated=runner.is_emulated), test), part


def self_test(runner, differences, read_expected):
    keeping.WAIT_SECONDS = 1
    tries = [(name, faults_by(runner, tried), part) for name, tried, part in EXPECTATIONS]
    tries += list(wrong_commands(runner))
    words = transcript(try_case(runner, RULE_14)[0])
    tries.append(("another word expected", differences(words, words.replace("already", "also")), "it says"))
    tries.append(("nothing expected", differences(words, ""), "it says"))
    long.SECONDS_MOST = 0.0
    if not runner.is_emulated:
        tries.append(("no time at all", list(long.hundred_thousand_findings(runner)), "of processor time"))
    tries.append(("expected words that are there", [] if any(words in text for text in read_expected("rules")) else ["none"], None))
    failed = 0
    for name, faults, part in tries:
        is_right = not faults if part is None else any(part in fault for fault in faults)
        if not is_right:
            failed += 1
            print(f"{name}: {faults or 'is not reported'}")
    return len(tries), failed
