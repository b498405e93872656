#!/usr/bin/env bash
# How long assembling 16 MiB and 32 MiB of CASM text takes, beside `sha256sum` of the text. It needs python3 and the
# command rt, and stands outside the gate.
. "$(dirname "${BASH_SOURCE[0]}")/common.sh"
python3 - "$folder" <<'P'
import sys
lines = b"""[ap + 0] = [ap + -1] + [fp + -3], ap++; // a sum
[fp + 1] = [ap + -2] * -18446744069414584320;
[ap + 0] = [[fp + -3] + 12], ap++;
jmp rel 5 if [ap + -1] != 0;
jmp abs [ap + 3];
call rel -17;
ap += 1234567;
ret;
"""
text = lines * (2**25 // len(lines) + 1)
for name, size in (("once", 2**24), ("twice", 2**25)):
    front = text[:size]
    front = front[: front.rindex(b";") + 1]
    with open(f"{sys.argv[1]}/{name}", "wb") as out:
        out.write(front + b" " * (size - len(front)))
P
build casm_text anyhow <<'E'
//! Assembles a text.
#![tactic(auto)]

use anyhow::{Context, Result};
use casm_text::assemble;
use std::env;
use std::fs;

fn main(rt: HostRuntime) -> Result<()> {
    let name = env::args(&rt)?.nth(1).context("a file is wanted")?;
    let text = fs::read(&rt, name.as_str())?;
    let code = assemble(rt.alloc(), &text)?;
    println!(rt; "{} instructions", code.instrs().len())?;
    Ok(())
}
E
"$program" "$folder/once"
once=$(least "$program" "$folder/once")
twice=$(least "$program" "$folder/twice")
report "16 MiB of CASM text" "$once" "$folder/once" 15
report "32 MiB of CASM text" "$twice" "$folder/twice" 15
echo "twice the text: $(ratio "$twice" "$once") times the time (goal: at most 2.2)"
