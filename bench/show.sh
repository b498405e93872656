#!/usr/bin/env bash
# How long `show` takes, and how much memory, for a program of just below 2^24 bytes and for one of half the size, beside
# `sha256sum` of the text. It needs python3 and GNU time, and stands outside the gate.
. "$(dirname "${BASH_SOURCE[0]}")/common.sh"
python3 - "$folder" <<'P'
import sys
declarations = "type felt64 = felt64;\n\nlibfunc felt64_add = felt64_add;\n\n"
for name, size in (("half", 2**23), ("whole", 2**24)):
    parts, length, number = [declarations], len(declarations), 0
    while True:
        part = f"felt64_add([{number}], [{number + 1}]) -> ([{number + 2}]);\n"
        if length + len(part) > size - 64:
            break
        parts.append(part)
        length += len(part)
        number += 1
    parts.append("\nmain@0([0]: felt64) -> (felt64);\n")
    with open(f"{sys.argv[1]}/{name}", "w") as out:
        out.write("".join(parts))
P

data=$here/crates/sierra_cli/data
"$here/sierra" show "$data/row1.sierra" >/dev/null
program=$here/crates/sierra_cli/out/sierra_cli
for name in half whole; do
  "$program" show "$folder/$name" | cmp - "$folder/$name"
done
half=$(least "$program" show "$folder/half")
whole=$(least "$program" show "$folder/whole")
report "show" "$whole" "$folder/whole" 20
echo "twice the text: $(ratio "$whole" "$half") times the time (goal: at most 2.2)"
if [ -x /usr/bin/time ]; then
  bytes=$(stat -c %s "$folder/whole")
  /usr/bin/time -v "$program" show "$folder/whole" 2>&1 >/dev/null |
    awk -v bytes="$bytes" '/Maximum resident/ { printf "peak: %d KiB, %.2f times the text (goal: at most 12)\n", $NF, $NF * 1024 / bytes }'
fi
