#!/usr/bin/env bash
# How long the checks of a program take that `run` makes before it looks at the input: of a straight program of 2^19
# statements and of one of 2^16 statements that branches and joins, and of those of half as many. Reading the text is left
# out, as `show` takes it, which prints the text besides. Then how long `gas` takes of a statement with 100,000 arguments,
# and of one with half as many. It needs python3, and stands outside the gate.
. "$(dirname "${BASH_SOURCE[0]}")/common.sh"
write_programs "$folder"

data=$here/crates/sierra_cli/data
"$here/sierra" show "$data/row1.sierra" >/dev/null
program=$here/crates/sierra_cli/out/sierra_cli

# The program passes the checks, and is then of no form that is built.
passes() {
  local status=0
  "$program" run "$1" "$data/row1.input" >/dev/null || status=$?
  [ "$status" = 9 ] || { echo "status $status" >&2; exit 1; }
}

# The time of the checks of a program, in microseconds.
checks() { echo $(($(least passes "$folder/$1") - $(least "$program" show "$folder/$1"))); }

for name in straight joining; do
  whole=$(checks "$name")
  half=$(checks "${name}_half")
  sum=$(least sha256sum "$folder/$name")
  echo "the checks of the program $name: $whole us, $(ratio "$whole" "$sum") times sha256sum of $(stat -c %s "$folder/$name") bytes"
  echo "twice the statements: $(ratio "$whole" "$half") times the time (goal: at most 2.2)"
done

# The arguments of a return are taken, and then refused where they lie.
refused() {
  local status=0
  "$program" gas "$1" >/dev/null || status=$?
  [ "$status" = 11 ] || { echo "status $status" >&2; exit 1; }
}
whole=$(least refused "$folder/arguments")
half=$(least refused "$folder/arguments_half")
echo "a statement of 100000 arguments: $whole us; twice as many: $(ratio "$whole" "$half") times the time (goal: at most 2.2)"
