#!/usr/bin/env python3
"""expected.py: prints what the program `cases` must print in the gate, by the other implementation.

The gate runs it with the arguments in crates/cases/args, the scripts of crates/cases/data, and
compares what it prints with the file crates/cases/stdout. That file is made here, by station.py
and not by the program:

    compare/expected.py >crates/cases/stdout

The console's default task, crates/console/stdin, has its own: `expected.py task >crates/console/stdout`.
"""

import io
import os
import sys

HERE = os.path.dirname(os.path.abspath(__file__))
CRATES = os.path.join(os.path.dirname(HERE), "crates")
sys.path.insert(0, HERE)
sys.dont_write_bytecode = True

import station      # noqa: E402


def contents(*path):
    """What stands in a file of the crates."""
    with open(os.path.join(CRATES, *path)) as file:
        return file.read()


def answers(text):
    """What the other implementation prints for a script."""
    out = io.StringIO()
    station.run(text.splitlines(), out)
    return out.getvalue()


def task():
    """What the console must print for its default task."""
    return answers(contents("console", "stdin"))


def expected():
    """What the cases must print: each script under its name."""
    return "".join("script %s\n%s" % (name, answers(contents("cases", "data", name)))
                   for name in contents("cases", "args").split())


if __name__ == "__main__":
    sys.stdout.write(task() if sys.argv[1:] == ["task"] else expected())
