"""`tests/run` with programs of a few lines, right ones and wrong ones: what it reports, in both forms, and how it ends."""

import json
import pathlib
import re
import subprocess
import sys
import tempfile

from tests.looking import TOP, Skipped, holds, same

RUN = str(TOP / "tests/run")
BUILT = TOP / "crates/eid/out/eid"

# Cases that a program of three lines meets: the lines of each case.txt. All have the file note.txt.
NOTE = "first\nsecond\n"
CASES = {
    "a-file-is-made": ("words: make note.txt made.txt", "leaves: made.txt note.txt"),
    "a-file-is-shown": ("words: show note.txt", "prints: note.txt"),
    "words-of-no-command": ("words: fly", "status: 1"),
}
RIGHT = 'case $1 in\nshow) cat "$2" ;;\nmake) cat "$2" > "$3" ;;\n*) exit 1 ;;\nesac'
MADE, SHOWN, NO_COMMAND = CASES
# Programs, and what they are told of each case that they fail: the message, what was expected and what came.
FIRST_LINE, SECOND_LINE = "line 1 of what it printed", "line 2 of what it printed"
PROGRAMS = {
    "a right one": (RIGHT, {}),
    "one that does nothing": (
        "exit 0",
        {
            MADE: ("the file made.txt is gone", None, None),
            SHOWN: (FIRST_LINE, "'first'", "''"),
            NO_COMMAND: ("it ended with 0, not 1", None, None),
        },
    ),
    "one that prints a byte otherwise": (
        RIGHT.replace('cat "$2" ;;', 'tr c k < "$2" ;;'),
        {SHOWN: (SECOND_LINE, "'second'", "'sekond'")},
    ),
    "one that prints a line less": (
        RIGHT.replace('cat "$2" ;;', 'head -n 1 "$2" ;;'),
        {SHOWN: (SECOND_LINE, "'second'", "''")},
    ),
    "one that prints a byte more": (
        RIGHT.replace("show)", "show) printf x;"),
        {SHOWN: (FIRST_LINE, "'first'", "'xfirst'")},
    ),
    "one that prints bytes of no text": (
        RIGHT.replace("show)", "show) printf '\\377\\n';"),
        {SHOWN: (FIRST_LINE, "'first'", "'\ufffd'")},
    ),
    "one that writes a byte otherwise": (
        RIGHT.replace('cat "$2" >', 'tr d k < "$2" >'),
        {MADE: ("byte 11 of the file made.txt", "640a", "6b0a")},
    ),
    "one that ends with another status": (
        RIGHT.replace("exit 1", "exit 3"),
        {NO_COMMAND: ("it ended with 3, not 1", None, None)},
    ),
    "one that is killed": (RIGHT.replace("exit 1", "kill -9 $$"), {NO_COMMAND: ("it ended with -9, not 1", None, None)}),
    "one that changes its input": (
        RIGHT.replace("exit 1", "rm note.txt; exit 1"),
        {NO_COMMAND: ("the file note.txt is gone", None, None)},
    ),
    "one that leaves a file": (
        RIGHT.replace("show)", "show) echo > other;"),
        {SHOWN: ("the file other came", None, None)},
    ),
    "one that complains": (
        RIGHT.replace("show)", "show) echo hm >&2;"),
        {SHOWN: ("it wrote to standard error: b'hm\\n'", None, None)},
    ),
}


def write_cases(folder):
    for name, lines in CASES.items():
        case = folder / name
        case.mkdir()
        (case / "case.txt").write_text("\n".join(["shows: a thing", *lines]) + "\n")
        (case / "note.txt").write_text(NOTE)


def write_program(path, script):
    path.write_text(f"#!/bin/sh\n{script}\n")
    path.chmod(0o755)
    return path


def ran(*words):
    """The status of tests/run, what it prints, and what it complains."""
    done = subprocess.run([sys.executable, RUN, *map(str, words)], stdout=subprocess.PIPE, stderr=subprocess.PIPE)
    return done.returncode, done.stdout.decode(), done.stderr.decode()


# ---- the two forms


class NoTap(Exception):
    """A text is not what the Test Anything Protocol, version 13, has as one; the text says where."""


RESULT = re.compile(r"(ok|not ok) ([1-9][0-9]*) - ([^#]+)")


def read_tap(text):
    """The results of a text: the name of each with its diagnostic, or None where it passed."""
    lines = text.split("\n")
    if lines.pop() != "" or lines[:1] != ["TAP version 13"]:
        raise NoTap("no version at its front, or no end of the last line")
    plan = re.fullmatch(r"1\.\.([0-9]+)", lines[1])
    if not plan:
        raise NoTap(f"no plan: {lines[1]}")
    results, at = {}, 2
    while at < len(lines):
        found = RESULT.fullmatch(lines[at])
        at += 1
        if not found:
            if not lines[at - 1].startswith("# "):
                raise NoTap(f"line {at}: {lines[at - 1]}")
            continue
        if int(found[2]) != len(results) + 1 or found[3] in results:
            raise NoTap(f"line {at} has another number, or the name of an earlier one")
        results[found[3]] = None
        if found[1] == "not ok":
            results[found[3]], at = read_diagnostic(lines, at)
    if len(results) != int(plan[1]):
        raise NoTap(f"{len(results)} results, and {plan[1]} were planned")
    return results


def read_diagnostic(lines, at):
    """The keys of a diagnostic, and where the lines go on."""
    if lines[at] != "  ---":
        raise NoTap(f"line {at + 1} begins no diagnostic: {lines[at]}")
    end = lines.index("  ...", at)
    rows = [re.fullmatch(r"  ([a-z]+): (.+)", line) for line in lines[at + 1 : end]]
    return {row[1]: json.loads(row[2]) for row in rows}, end + 1


def lines_of(failures, again):
    """What is printed without --tap."""
    out = []
    for case, (message, expected, got) in failures.items():
        out += [f"FAILED {case}", f"  eid {CASES[case][0][len('words: '):]}", f"  {message}"]
        out += [f"    expected {expected}", f"    got      {got}"] if expected else []
        out += [f"  again: {again} {case}"]
    return "\n".join([*out, f"{len(CASES) - len(failures)} passed, {len(failures)} failed", ""])


def told(message, expected, got, **more):
    rows = {"message": message, "expected": expected, "got": got, **more}
    return {key: value for key, value in rows.items() if value is not None}


def test_programs():
    with tempfile.TemporaryDirectory() as scratch:
        folder = pathlib.Path(scratch)
        cases = folder / "cases"
        cases.mkdir()
        write_cases(cases)
        for name, (script, failures) in PROGRAMS.items():
            program = write_program(folder / "program", script)
            again = f"{RUN} --program {program} --cases {cases}"
            status, printed, complaint = ran("--program", program, "--cases", cases)
            yield f"{name}, status", same((1 if failures else 0, ""), (status, complaint))
            yield f"{name}, lines", same(lines_of(failures, again), printed)
            status, printed, complaint = ran("--tap", "--program", program, "--cases", cases)
            yield f"{name}, status with --tap", same((1 if failures else 0, ""), (status, complaint))
            expected = {case: None for case in CASES}
            for case, why in failures.items():
                expected[case] = told(*why, words=CASES[case][0][len("words: ") :], again=f"{again} {case}")
            yield f"{name}, --tap", same(expected, read_tap(printed))


# Lines of a case.txt that is none, and what is told.
NO_CASES = {
    "words: show note.txt": "case.txt has not one line `shows`",
    "shows: a thing": "no line `words`",
    "shows: a thing\nprints: note.txt": "`prints` stands below no line `words`",
    "shows: a thing\nfly: x": "line 2 of case.txt is none: fly: x",
}


def test_cases_that_are_none():
    for text, message in NO_CASES.items():
        with tempfile.TemporaryDirectory() as scratch:
            folder = pathlib.Path(scratch)
            (folder / "cases/a-case").mkdir(parents=True)
            (folder / "cases/a-case/case.txt").write_text(text + "\n")
            program = write_program(folder / "program", RIGHT)
            status, printed, _ = ran("--program", program, "--cases", folder / "cases")
            yield text, same((1, "FAILED a-case", f"  {message}"), (status, *printed.split("\n")[:2]))


def test_nothing_is_run():
    with tempfile.TemporaryDirectory() as scratch:
        program = pathlib.Path(scratch) / "program"
        yield "no program", same((2, "", f"no program at {program}\n"), ran("--program", program))
        program.write_text("")
        yield "a file that is no program", same((2, "", f"no program at {program}\n"), ran("--program", program))
        write_program(program, RIGHT)
        status, printed, complaint = ran("--program", program, "no-case")
        yield "no case", same((2, "", f"no case no-case in {TOP / 'tests'}\n"), (status, printed, complaint))


# ---- the cases of the repository


def test_a_program_that_does_nothing_fails_each_case():
    """But for a script of nothing, of which nothing comes."""
    with tempfile.TemporaryDirectory() as scratch:
        program = write_program(pathlib.Path(scratch) / "program", "exit 0")
        status, printed, _ = ran("--tap", "--program", program)
    passed = [name for name, why in read_tap(printed).items() if why is None]
    yield "the cases that pass", same(["an-empty-script-prints-nothing"], passed)
    yield "status", same(1, status)


# Some cases, whose outputs all have a digit 9.
DIGITS = ("a-community-is-a-prefix", "each-refusal-has-its-rule-and-status", "a-session-verifies-the-age")


def test_a_digit_otherwise_is_seen():
    if not BUILT.exists():
        raise Skipped("the program is not built: no output of it is changed")
    with tempfile.TemporaryDirectory() as scratch:
        program = write_program(pathlib.Path(scratch) / "program", f'"{BUILT}" "$@" | tr 9 8')
        status, printed, _ = ran("--tap", "--program", program, *DIGITS)
    yield "status", same(1, status)
    for name, why in read_tap(printed).items():
        seen = why is not None and why["expected"].replace("9", "8") == why["got"]
        yield name, holds(seen, f"{why}")
