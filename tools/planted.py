#!/usr/bin/env python3
"""Writes the table of docs/PLANTED.md, and the count above it, from the must-fail edits of all crates.

usage: python3 tools/planted.py      (at the top of the repository)
"""

import glob
import os
import re

# Refused at the function's proof file and not at its code (docs/PLANTED.md says what that is worth).
AT_PROOF = {
    "cover/index_halved",
    "memory/read_after_another_place",
    "memory/row_read_constant",
    "memory/row_write_forgets",
    "memory/words_read_unhalved",
    "memory/words_write_constant",
}
PAGE = "docs/PLANTED.md"
HEAD = "| crate | bug | file | instead of | stands | refused by |\n|---|---|---|---|---|---|\n"


def contents(path):
    with open(path, encoding="utf-8") as file:
        return file.read()


def code(text):
    return "`" + text.strip().replace("|", "\\|") + "`" if text.strip() else "nothing"


def function_at(text, old):
    """The function whose text holds the line."""
    return re.findall(r"\bfn (\w+)", text[:text.index(old) + len(old)])[-1]


def row(path):
    crate, name = path.split("/")[1], os.path.basename(path)[:-len(".edit")]
    lines = re.findall(r"(?m)^(file|old|new):[ ]?(.*)$", contents(path))
    fields = dict(lines[:3])
    more = sum(1 for kind, _ in lines if kind == "old") - 1
    text = contents(os.path.join("crates", crate, fields["file"]))
    told = "contract of `%s`" % function_at(text, fields["old"])
    if "%s/%s" % (crate, name) in AT_PROOF:
        told += ", at its proof"
    bug = name.replace("_", " ") + (" (%d more lines like it)" % more if more else "")
    return "| %s | %s | %s | %s | %s | %s |\n" % (crate, bug, fields["file"], code(fields["old"]), code(fields["new"]), told)


def main():
    edits = sorted(glob.glob("crates/*/must-fail/*.edit"))
    above = contents(PAGE).split(HEAD)[0]
    above = re.sub(r"in the gate, \d+ of them", "in the gate, %d of them" % len(edits), above)
    with open(PAGE, "w", encoding="utf-8") as file:
        file.write(above + HEAD + "".join(row(path) for path in edits))


if __name__ == "__main__":
    main()
