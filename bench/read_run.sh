#!/usr/bin/env bash
# How long the reader of run files takes for a run of a million steps, fed to it by pieces of 64 KiB, beside
# `sha256sum` of the file. It needs python3 and the command rt, and stands outside the gate.
. "$(dirname "${BASH_SOURCE[0]}")/common.sh"
make_run "$folder/run"
mkdir -p "$folder/repository/crates/measured/proofs/main"
cat >"$folder/repository/crates/measured/proofs/main/Invariants.antt" <<'E'
use Rattle.std.proofs.Common.{◌≡◌, ◌≤◌, ◌*◌, length}
use Rattle.run_file.specs.Feeding.{taken}
use Rattle.measured.proofs.main.Given as goal

abbrev pub invariant-loop-round : goal.invariant-loop-round
invariant-loop-round l = record { fed : taken l.reader ≤ 65536 * l.round; room : length l.piece.items ≡ 65536 }
E
build run_file anyhow <<'E'
//! Reads a run file piece by piece.
#![tactic(auto)]

use anyhow::{Context, Result};
use run_file::Reader;
use std::env;
use std::fs;
use std::io::Read;

fn main(rt: HostRuntime) -> Result<()> {
    let name = env::args(&rt)?.nth(1).context("a file is wanted")?;
    let mut file = fs::open(&rt, name.as_str())?;
    let mut piece = vec![in rt.alloc(); 0u8; 65536]?;
    let mut reader = Reader::new(rt.alloc());
    for round in 0..1u64 << 40 {
        let count = file.read(&mut piece)?;
        if count == 0 {
            break;
        }
        reader.feed(&piece[..count])?;
    }
    let run = reader.finish()?;
    println!(rt; "{} states", run.states.as_slice().len())?;
    Ok(())
}
E
[ "$("$program" "$folder/run")" = "1000001 states" ]
report "a run file of 1000001 states, by pieces" "$(least "$program" "$folder/run")" "$folder/run" 4
