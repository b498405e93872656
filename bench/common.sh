# What the scripts of this folder share: they measure programs beside `sha256sum` of the same bytes. Sourced, not run.
# A program is written by its script and proved in a copy of the crates, since the gate takes no source in this folder.
set -eu
here=$(cd "$(dirname "${BASH_SOURCE[0]}")/.." && pwd)
folder=$(mktemp -d)
trap 'rm -rf "$folder"' EXIT

# The least time of a command in microseconds, of nine runs.
least() {
  local begin end
  for _ in 1 2 3 4 5 6 7 8 9; do
    begin=$(date +%s%N)
    "$@" >/dev/null
    end=$(date +%s%N)
    echo $(((end - begin) / 1000))
  done | sort -n | head -n 1
}

# The least of the times that a command prints, in microseconds, of nine runs.
least_printed() {
  for _ in 1 2 3 4 5 6 7 8 9; do "$@"; done | sort -n | head -n 1
}

ratio() { awk "BEGIN { printf \"%.2f\", $1 / $2 }"; }

# report WHAT TIME FILE GOAL: a time beside that of `sha256sum` of the file.
report() {
  local sum
  sum=$(least sha256sum "$3")
  echo "$1: $2 us, sha256sum of $(stat -c %s "$3") bytes: $sum us, ratio: $(ratio "$2" "$sum") (goal: at most $4)"
}

# The crates of the repository that these stand on, and these.
below() {
  local name
  for name in "$@"; do
    [ ! -d "$here/crates/$name" ] || echo "$name"
    below $(sed -n "s/^$name://p" "$here/crates.txt")
  done
}

# build DEP..: proves and builds the program on standard input, which uses these crates, as $program. It goes on from
# the proofs that the checkout keeps. What the script has put into $folder/repository/crates/measured stays.
build() {
  local name root=$folder/repository crate=$folder/repository/crates/measured
  mkdir -p "$crate/src"
  cat >"$crate/src/main.rt"
  for name in $(below "$@" | sort -u); do
    cp -a "$here/crates/$name" "$root/crates"
    grep "^$name:" "$here/crates.txt" >>"$root/crates.txt"
  done
  echo "measured: $*" >>"$root/crates.txt"
  program=$crate/out/measured
  echo "proving and building the program .." >&2
  (cd "$crate" && rt run >"$folder/log" 2>&1 </dev/null) || true
  [ -x "$program" ] || { cat "$folder/log" >&2; exit 1; }
}

# make_run FILE: the run file of a million steps over three segments, the code, the stack and the range-check cells:
#   [ap + 0] = [ap + -2] + 1, ap++;  [ap + 0] = [[ap + -1] + 0], ap++;  jmp rel -3;
# which goes through the range-check cells.
make_run() {
  python3 - "$1" <<'P'
import array, sys
P, STACK, CHECKS, STEPS = 2**64 - 2**32 + 1, 2**32, 2**33, 1_000_000
rounds = -(-STEPS // 3)
code = [0x482480017FFE8000, 1, 0x480080007FFF8000, 0x010780017FFF7FFF, P - 3]
cells, states = array.array("Q"), array.array("Q")
for i, word in enumerate(code):
    cells.extend((i, word))
cells.extend((STACK, CHECKS - 1, STACK + 1, 0))
for i in range(rounds):
    cells.extend((STACK + 2 + 2 * i, CHECKS + i, STACK + 3 + 2 * i, i % 2**16))
for i in range(rounds):
    cells.extend((CHECKS + i, i % 2**16))
fp = STACK + 2
for step in range(STEPS + 1):
    turn, place = divmod(step, 3)
    states.extend(((0, 2, 3)[place], fp + 2 * turn + place, fp))
with open(sys.argv[1], "wb") as out:
    out.write(b"SIERRUN1")
    array.array("Q", (CHECKS, len(cells) // 2)).tofile(out)
    cells.tofile(out)
    array.array("Q", (STEPS,)).tofile(out)
    states.tofile(out)
P
}

# write_programs FOLDER: a straight program of 2^19 statements, one of 2^16 that branches and joins, and one whose only
# statement has 100,000 arguments, and those of half as many: straight, straight_half, joining, joining_half, arguments,
# arguments_half.
write_programs() {
  python3 - "$1" <<'P'
import sys
NAMES = {"p": "dup", "z": "felt64_is_zero", "u": "unwrap_non_zero", "d": "drop", "s": "store_temp", "b": "branch_align", "j": "jump"}
GIVEN = {"p", "u", "d", "s"}
HEAD = "type felt64 = felt64;\ntype NonZero<felt64> = NonZero<felt64>;\n\n" + "".join(f"libfunc {i} = {name}{'<felt64>' if i in GIVEN else ''};\n" for i, name in NAMES.items()) + "\n"
MAIN = "\nmain@0([0]: felt64) -> (felt64);\n"

def straight(count):
    return ["s([0]) -> ([0]);"] * (count - 1) + ["return([0]);"]

def joining(count):
    lines = []
    for base in range(0, count, 8):
        lines += ["p([0]) -> ([0], [1]);", f"z([1]) {{ fallthrough() {base + 4}([1]) }};", "b() -> ();", f"j() {{ {base + 7}() }};",
                  "b() -> ();", "u([1]) -> ([1]);", "d([1]) -> ();", "s([0]) -> ([0]);"]
    return lines[:-1] + ["return([0]);"]

for name, count in (("arguments", 100000), ("arguments_half", 50000)):
    with open(f"{sys.argv[1]}/{name}", "w") as out:
        out.write("type f = felt64;\nreturn(" + ", ".join(f"[{i}]" for i in range(count)) + ");\nmain@0("
                  + ", ".join(f"[{i}]: f" for i in range(count)) + ") -> (" + ", ".join(["f"] * count) + ");\n")
for name, lines in (("straight", straight(2**19)), ("straight_half", straight(2**18)), ("joining", joining(2**16)), ("joining_half", joining(2**15))):
    with open(f"{sys.argv[1]}/{name}", "w") as out:
        out.write(HEAD + "\n".join(lines) + "\n" + MAIN)
P
}
