#!/usr/bin/env bash
# How long `gas` takes of a straight program of 2^19 statements, the whole command, beside `sha256sum` of its text and
# beside the same of half as many. It needs python3, and stands outside the gate.
. "$(dirname "${BASH_SOURCE[0]}")/common.sh"
python3 - "$folder" <<'P'
import sys
HEAD = "type felt64 = felt64;\n\nlibfunc s = store_temp<felt64>;\n\n"
MAIN = "\nmain@0([0]: felt64) -> (felt64);\n"
for name, count in (("straight", 2**19), ("straight_half", 2**18)):
    with open(f"{sys.argv[1]}/{name}", "w") as out:
        out.write(HEAD + "s([0]) -> ([0]);\n" * (count - 1) + "return([0]);\n" + MAIN)
P

data=$here/crates/sierra_cli/data
"$here/sierra" gas "$data/row1.sierra" >/dev/null
program=$here/crates/sierra_cli/out/sierra_cli

# Each statement but the last needs 100 more than the one behind it, and main's call 100 more than the first.
[ "$("$program" gas "$folder/straight" | sed -n 1,2p)" = "entry 52428900
0 need 52428800" ] || { echo "not the plan" >&2; exit 1; }

whole=$(least "$program" gas "$folder/straight")
half=$(least "$program" gas "$folder/straight_half")
report "gas of a straight program of 524288 statements" "$whole" "$folder/straight" 15
echo "twice the statements: $(ratio "$whole" "$half") times the time (goal: at most 2.2)"
