#!/usr/bin/env bash
# How long a million steps of the machine over three segments take, beside `sha256sum` of the run's file. It needs
# python3 and the command rt, and stands outside the gate.
. "$(dirname "${BASH_SOURCE[0]}")/common.sh"
make_run "$folder/run"
build run_file ro_machine anyhow <<'E'
//! Makes the steps of a run, and prints how many microseconds they took.
#![tactic(auto)]

use anyhow::{Context, Result, ensure};
use ro_machine::{Memory, State, StepFault, step};
use run_file::read;
use std::env;
use std::fs;
use std::time::Instant;

fn main(rt: HostRuntime) -> Result<()> {
    let name = env::args(&rt)?.nth(1).context("a file is wanted")?;
    let bytes = fs::read(&rt, name.as_str())?;
    let run = read(rt.alloc(), &bytes)?;
    let states = run.states.as_slice();
    let first = states.first().context("no state")?;
    let begin = Instant::now(&rt)?;
    let last = after(&run.memory, *first, states.len())?;
    let took = begin.elapsed(&rt)?;
    ensure!(states.last() == Some(&last), "the run ends otherwise");
    println!(rt; "{}", took.as_micros())?;
    Ok(())
}

/// The last of so many states.
fn after(memory: &Memory, first: State, count: usize) -> Result<State, StepFault> {
    let mut state = first;
    for _ in 1..count {
        state = step(memory, state)?;
    }
    Ok(state)
}
E
report "a million steps" "$(least_printed "$program" "$folder/run")" "$folder/run" 3
