#!/usr/bin/env bash
# Counts in crates/*/src the lines at which a place of the design pass may stand (docs/DESIGN-PASS.md): the points and what is looked for.
# usage: tools/places.sh [-v]      (at the top of the repository; -v prints the lines too)
set -euo pipefail
verbose=${1:-}

look() {
    local point=$1 what=$2 pattern=$3
    local lines
    lines=$(grep -nE "$pattern" crates/*/src/*.rt | grep -vE '^[^:]*:[0-9]+: *//' || true)
    printf '%s  %-62s %4d\n' "$point" "$what" "$(printf '%s' "$lines" | grep -c '' || true)"
    [ "$verbose" != -v ] || printf '%s\n' "$lines"
}

look 1 'enums' '^ *(pub(\([a-z]+\))? )?enum '
look 1 'flags in structs' '^ +(pub(\(crate\))? )?[a-z_]+: bool,'
look 1 'numbers told of a kind, a refusal or none' 'fn (number|taken|channel|ended|sent|seen|astray|judged|refused)\b|radix: u32|first: 1, last: 0'
look 2 'functions, to be read by like names and bodies' '^ *(pub(\([a-z]+\))? )?(unsafe )?(extern "C" )?fn '
look 3 'indices and counts by hand' 'for [a-z_]+ in 0\.\.|\bwhile |\bloop \{|\bnext \+= |\bnext = next'
look 3 'loops over elements' '^ +for [^0]* in [^0]*\{$'
look 4 'tests that answer true or false by hand' '=> (true|false),$|fn (is_master|same_side|is_write)\('
look 4 'conversions by hand' '256 \* |65536 \* |=> Some\([a-z]+ as u(8|16)\)|as u(16|32|64)\b|(reads|writes|active) as u8|=> [0-9]+,$|256 \+ '
look 4 'values of zeros by hand' '^ +[a-z_]+: (0|false),$|Channel \{ service: None \}'
look 4 'impls of Display, From, Error' '^impl (fmt::Display|From|Error|PartialEq|Ord)'
look 6 'lists with a length or a list beside them' 'count: usize|length: u8,|Vec<(Item|Entry)>|pub [a-z]+: \[[A-Z][a-z]+; 8\]'
look 7 'switches on a step, tables of functions' '\bdyn |: fn\(|match (call|operation|accesses|writes|target|position)\b|match \(self\.position'
python3 - "$verbose" <<'PY'
import collections, glob, re, sys
clauses = collections.defaultdict(list)
for path in sorted(glob.glob("crates/*/src/*.rt")):
    for number, line in enumerate(open(path, encoding="utf-8"), 1):
        clause = re.match(r"\s*(?:requires|ensures)\*?\s*\w*\s*\{(.*)\}\s*$", line)
        if clause:
            clauses[path.split("/")[1], clause.group(1).strip()].append("%s:%d" % (path, number))
often = {clause: places for clause, places in clauses.items() if len(places) >= 3}
print("5  %-62s %4d" % ("clauses that stand in three contracts of a crate, or more", len(often)))
if sys.argv[1] == "-v":
    for (crate, clause), places in often.items():
        print("%s: %s: %s" % (crate, clause, " ".join(places)))
PY
printf '8  %-62s %4d\n' 'files of answers and invariants' "$(git ls-files 'crates/*/Answers.antt' 'crates/*/Invariants.antt' | wc -l)"
printf '8  %-62s %4d\n' 'lines of proofs' "$(git ls-files -z 'crates/*/proofs/*.antt' | xargs -0 cat | wc -l)"
