#!/usr/bin/env bash
# How long `eval` takes, the whole command, beside `sha256sum` of 2^24 bytes: of a loop over felts that its gas ends after ten
# million statements, of a hundred thousand nested calls and of twice as many, of an array of 2^20 elements that is read,
# emptied from its beginning and filled at its end, and of half as many, and of an array of 2^15 elements that are added up by
# index, and of half as many. It needs python3, and stands outside the gate.
. "$(dirname "${BASH_SOURCE[0]}")/common.sh"
python3 - "$folder" <<'P'
import sys
HEAD = """type RC = RangeCheck; type Gas = GasBuiltin; type felt64 = felt64; type Felts = Array<felt64>; type BoxF = Box<felt64>; type NZ = NonZero<felt64>;
type u32 = u32; type Seen = Snapshot<Felts>;
libfunc disable = disable_ap_tracking; libfunc align = branch_align; libfunc jump = jump; libfunc withdraw = withdraw_gas;
libfunc storeR = store_temp<RC>; libfunc storeG = store_temp<Gas>; libfunc store = store_temp<felt64>; libfunc storeA = store_temp<Felts>;
libfunc one = felt64_const<1>; libfunc add = felt64_add; libfunc sub = felt64_sub; libfunc dup = dup<felt64>; libfunc drop = drop<felt64>;
libfunc zero = felt64_is_zero; libfunc dropN = drop<NZ>; libfunc unwrap = unwrap_non_zero<felt64>;
libfunc new = array_new<felt64>; libfunc pop = array_pop_front<felt64>; libfunc append = array_append<felt64>; libfunc unbox = unbox<felt64>; libfunc dropA = drop<Felts>;
"""
def write(name, lines, functions):
    with open(f"{sys.argv[1]}/{name}", "w") as out:
        out.write(HEAD + "\n".join(lines) + "\n" + functions + "\n")

write("loop", ["disable() -> ();", "storeR([0]) -> ([0]);", "storeG([1]) -> ([1]);", "store([2]) -> ([2]);",
    "withdraw([0], [1]) { fallthrough([0], [1]) 12([0], [1]) };", "align() -> ();", "one() -> ([3]);", "add([2], [3]) -> ([2]);",
    "storeR([0]) -> ([0]);", "storeG([1]) -> ([1]);", "store([2]) -> ([2]);", "jump() { 4() };",
    "align() -> ();", "storeR([0]) -> ([0]);", "storeG([1]) -> ([1]);", "store([2]) -> ([2]);", "return([0], [1], [2]);"],
    "main@0([0]: RC, [1]: Gas, [2]: felt64) -> (RC, Gas, felt64);")
write("nested", ["libfunc call = function_call<user@down>;", "disable() -> ();", "withdraw([0], [1]) { fallthrough([0], [1]) 10([0], [1]) };", "align() -> ();",
    "one() -> ([3]);", "add([2], [3]) -> ([2]);", "storeR([0]) -> ([0]);", "storeG([1]) -> ([1]);", "store([2]) -> ([2]);",
    "call([0], [1], [2]) -> ([0], [1], [2]);", "return([0], [1], [2]);",
    "align() -> ();", "storeR([0]) -> ([0]);", "storeG([1]) -> ([1]);", "store([2]) -> ([2]);", "return([0], [1], [2]);",
    "storeR([0]) -> ([0]);", "storeG([1]) -> ([1]);", "store([2]) -> ([2]);", "call([0], [1], [2]) -> ([0], [1], [2]);", "return([0], [1], [2]);"],
    "main@15([0]: RC, [1]: Gas, [2]: felt64) -> (RC, Gas, felt64);\ndown@0([0]: RC, [1]: Gas, [2]: felt64) -> (RC, Gas, felt64);")
END = ["align() -> ();", "dropA([2]) -> ();", "storeR([0]) -> ([0]);", "storeG([1]) -> ([1]);", "storeA([3]) -> ([3]);", "return([0], [1], [3]);"]
write("array", ["disable() -> ();", "new() -> ([3]);", "storeR([0]) -> ([0]);", "storeG([1]) -> ([1]);", "storeA([2]) -> ([2]);", "storeA([3]) -> ([3]);",
    "withdraw([0], [1]) { fallthrough([0], [1]) 18([0], [1]) };", "align() -> ();",
    "pop([2]) { fallthrough([2], [4]) 24([2]) };", "align() -> ();", "unbox([4]) -> ([4]);", "store([4]) -> ([4]);", "append([3], [4]) -> ([3]);",
    "storeR([0]) -> ([0]);", "storeG([1]) -> ([1]);", "storeA([2]) -> ([2]);", "storeA([3]) -> ([3]);", "jump() { 6() };",
    *END, *END],
    "main@0([0]: RC, [1]: Gas, [2]: Felts) -> (RC, Gas, Felts);")
LAST = ["align() -> ();", "dropS([5]) -> ();", "drop32([3]) -> ();", "storeR([0]) -> ([0]);", "storeG([1]) -> ([1]);", "store([4]) -> ([4]);", "return([0], [1], [4]);"]
KEPT = ["storeR([0]) -> ([0]);", "storeG([1]) -> ([1]);", "storeS([5]) -> ([5]);", "store32([3]) -> ([3]);", "store([4]) -> ([4]);"]
write("indexed", ["libfunc take = snapshot_take<Felts>; libfunc storeS = store_temp<Seen>; libfunc dupS = dup<Seen>; libfunc dropS = drop<Seen>;",
    "libfunc first = u32_const<0>; libfunc next = u32_const<1>; libfunc none = felt64_const<0>; libfunc add32 = u32_overflowing_add;",
    "libfunc store32 = store_temp<u32>; libfunc dup32 = dup<u32>; libfunc drop32 = drop<u32>; libfunc get = array_get<felt64>;",
    "disable() -> ();", "take([2]) -> ([2], [5]);", "dropA([2]) -> ();", "first() -> ([3]);", "none() -> ([4]);", *KEPT,
    "withdraw([0], [1]) { fallthrough([0], [1]) 38([0], [1]) };", "align() -> ();", "storeR([0]) -> ([0]);", "dupS([5]) -> ([5], [6]);", "dup32([3]) -> ([3], [7]);",
    "get([0], [6], [7]) { fallthrough([0], [6]) 45([0]) };", "align() -> ();", "storeR([0]) -> ([0]);", "unbox([6]) -> ([6]);", "store([6]) -> ([6]);", "add([4], [6]) -> ([4]);",
    "next() -> ([7]);", "store32([7]) -> ([7]);", "add32([0], [3], [7]) { fallthrough([0], [3]) 31([0], [3]) };", "align() -> ();", *KEPT, "jump() { 10() };",
    *LAST, *LAST, *LAST],
    "main@0([0]: RC, [1]: Gas, [2]: Felts) -> (RC, Gas, felt64);")
for name, count in (("array", 2**20), ("array_half", 2**19), ("indexed", 2**15), ("indexed_half", 2**14)):
    with open(f"{sys.argv[1]}/{name}.input", "w") as out:
        out.write("gas 4294967295\n[" + ", ".join(str(7 * i) for i in range(count)) + "]\n")
with open(f"{sys.argv[1]}/bytes", "wb") as out:
    out.write(bytes(2**24))
P

data=$here/crates/sierra_cli/data
"$here/sierra" gas "$data/row1.sierra" >/dev/null
program=$here/crates/sierra_cli/out/sierra_cli

# What a program needs to begin, and what its `withdraw_gas` takes.
entry() { "$program" gas "$1" | sed -n 's/^entry //p'; }
amount() { "$program" gas "$1" | sed -n 's/.* amount //p'; }

# input FILE GAS VALUE: an input.
input() { printf 'gas %s\n%s\n' "$2" "$3" >"$1"; }

# Each round of the loop has eight statements, and takes the amount.
rounds=1250000
input "$folder/loop.input" $(($(entry "$folder/loop") + rounds * $(amount "$folder/loop"))) 0
[ "$("$program" eval "$folder/loop" "$folder/loop.input" | sed -n 1p)" = "value $rounds" ] || { echo "not the value" >&2; exit 1; }
report "a loop over felts of ten million statements" "$(least "$program" eval "$folder/loop" "$folder/loop.input")" "$folder/bytes" 5

for calls in 100000 200000; do
  input "$folder/nested.$calls" $(($(entry "$folder/nested") + calls * $(amount "$folder/nested"))) 0
  [ "$("$program" eval "$folder/nested" "$folder/nested.$calls" | sed -n 1p)" = "value $calls" ] || { echo "not the value" >&2; exit 1; }
done
half=$(least "$program" eval "$folder/nested" "$folder/nested.100000")
whole=$(least "$program" eval "$folder/nested" "$folder/nested.200000")
echo "100000 nested calls: $half us; twice as many: $(ratio "$whole" "$half") times the time (goal: at most 2.2)"

[ "$("$program" eval "$folder/array" "$folder/array.input" | sed -n 1p)" = "value $(sed -n 2p "$folder/array.input")" ] || { echo "not the value" >&2; exit 1; }
whole=$(least "$program" eval "$folder/array" "$folder/array.input")
half=$(least "$program" eval "$folder/array" "$folder/array_half.input")
echo "an array of 1048576 elements: $whole us; twice as many: $(ratio "$whole" "$half") times the time (goal: at most 2.2)"

sum=$((7 * 32768 * 32767 / 2))
[ "$("$program" eval "$folder/indexed" "$folder/indexed.input" | sed -n 1p)" = "value $sum" ] || { echo "not the value" >&2; exit 1; }
whole=$(least "$program" eval "$folder/indexed" "$folder/indexed.input")
half=$(least "$program" eval "$folder/indexed" "$folder/indexed_half.input")
echo "an array of 32768 elements that are read by index: $whole us; twice as many: $(ratio "$whole" "$half") times the time (goal: at most 2.2)"
