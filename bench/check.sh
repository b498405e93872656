#!/usr/bin/env bash
# How long `check` takes, and how much memory, for a run file of add seven with further cells to just below 2^24 bytes.
# It prints the time of `check` and of `sha256sum` of the same file, each the least of a few runs, and the peak
# resident memory of `check`. It needs python3 and GNU time, and stands outside the gate.
. "$(dirname "${BASH_SOURCE[0]}")/common.sh"
data=$here/crates/sierra_cli/data

python3 - "$folder/padded.run" <<'P'
import struct, sys
cells = list(enumerate([0x1104800180018000, 4, 0x010780017fff7fff, 0, 0x482680017ffd8000, 7, 0x208b7fff7fff7ffe]))
cells += [(2**32, 5), (2**32 + 1, 2**32 + 1), (2**32 + 2, 2), (2**32 + 3, 12)]
more = (2**24 - 1 - 32 - 96 - 16 * len(cells)) // 16
cells += [(3 * 2**32 + i, 0) for i in range(more)]
states = [(0, 2**32 + 1, 2**32 + 1), (4, 2**32 + 3, 2**32 + 3), (6, 2**32 + 4, 2**32 + 3), (2, 2**32 + 4, 2**32 + 1)]
with open(sys.argv[1], "wb") as out:
    out.write(b"SIERRUN1" + struct.pack("<QQ", 2 * 2**32, len(cells)))
    out.write(b"".join(struct.pack("<QQ", *cell) for cell in cells))
    out.write(struct.pack("<Q", len(states) - 1))
    out.write(b"".join(struct.pack("<QQQ", *state) for state in states))
P

"$here/sierra" check "$data/row1.sierra" "$data/row1.input" "$data/row1.run" >/dev/null
program=$here/crates/sierra_cli/out/sierra_cli
echo "file: $(stat -c %s "$folder/padded.run") bytes"
"$program" check "$data/row1.sierra" "$data/row1.input" "$folder/padded.run"
check=$(least "$program" check "$data/row1.sierra" "$data/row1.input" "$folder/padded.run")
sum=$(least sha256sum "$folder/padded.run")
echo "check: $check us, sha256sum: $sum us, ratio: $(ratio "$check" "$sum")"
if [ -x /usr/bin/time ]; then
  /usr/bin/time -v "$program" check "$data/row1.sierra" "$data/row1.input" "$folder/padded.run" 2>&1 >/dev/null |
    awk '/Maximum resident/ { printf "peak: %d KiB, %.2f times the file\n", $NF, $NF * 1024 / 16777200 }'
fi
