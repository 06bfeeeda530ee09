#!/usr/bin/env python3
"""check.py [PROGRAM ..]: runs the cases through a program (without one: station.py).

A case is a script of crates/cases/data. Most have statements written by hand from the rules: a
line '#> TEXT' states what the last line printed for the call above it is, '#> .. TEXT' what it
ends with. The whole output of a case stands in crates/cases/stdout, below the line 'script NAME'.
Both are compared.
"""

import glob
import os
import re
import subprocess
import sys

HERE = os.path.dirname(os.path.abspath(__file__))
CASES = os.path.join(os.path.dirname(HERE), "crates", "cases")


def cases():
    """The paths of all cases."""
    return sorted(glob.glob(os.path.join(CASES, "data", "*.txt")))


def contents(path):
    """What stands in a file."""
    with open(path) as file:
        return file.read()


def expected_outputs():
    """What must be printed for each case, by its file's name."""
    parts = re.split(r"(?m)^script (.+)\n", contents(os.path.join(CASES, "stdout")))
    return dict(zip(parts[1::2], parts[2::2]))


def printed_lines(words, next_line, number):
    """How many lines the item of a script line prints; next_line is what was printed next."""
    if words[0] == "octets":
        return len(words) - 1
    if words[0] in ("memory", "station"):
        return 1 if next_line.startswith("line %d:" % number) else 0
    return 1


def statements(text, lines):
    """The statements of a case: (line number, what is stated, what was printed)."""
    at = 0
    for number, line in enumerate(text.splitlines(), start=1):
        if line.startswith("#> "):
            yield number, line[3:], lines[at - 1] if 0 < at <= len(lines) else "(nothing)"
        elif line.strip() and not line.startswith("#"):
            at += printed_lines(line.split(), lines[at] if at < len(lines) else "", number)


def holds(stated, printed):
    """Does a statement hold of the line printed?"""
    return printed.endswith(stated[3:]) if stated.startswith(".. ") else printed == stated


def faults_of(path, output):
    """What is wrong with the output of a case; and how many statements it has."""
    all_statements = list(statements(contents(path), output.splitlines()))
    faults = ["line %d: stated '%s', printed '%s'" % statement
              for statement in all_statements if not holds(*statement[1:])]
    if expected_outputs().get(os.path.basename(path)) != output:
        faults.append("the output is not the expected one")
    return faults, len(all_statements)


def main():
    """Runs every case and says which fail."""
    program = sys.argv[1:] or [sys.executable, os.path.join(HERE, "station.py")]
    failed = count = 0
    for path in cases():
        run = subprocess.run(program, input=contents(path), capture_output=True, text=True)
        faults, stated = faults_of(path, run.stdout)
        if run.returncode or run.stderr:
            faults.append("the program failed: " + run.stderr[-500:])
        count += stated
        failed += bool(faults)
        print("%s %s" % ("FAIL" if faults else "ok  ", os.path.basename(path)))
        for fault in faults[:6]:
            print("     " + fault)
    print("%d cases, %d statements, %d cases failed" % (len(cases()), count, failed))
    return 1 if failed else 0


if __name__ == "__main__":
    sys.exit(main())
