#!/usr/bin/env bash
# How long the linear check and the places take by themselves, in one program: of a straight program of 2^19 statements and of
# one of 2^16 statements that branches and joins. It needs python3 and the command rt, and stands outside the gate.
. "$(dirname "${BASH_SOURCE[0]}")/common.sh"
write_programs "$folder"
build sierra_text type_table libfunc_registry linear_check ap_refs sierra_types anyhow <<'E'
//! Prints how many microseconds the linear check of the program on standard input takes, and how many its places.
#![tactic(auto)]

ghost use Rattle.std.specs.Prelude.{◌≤◌, ◌^◌, length};
ghost use Rattle.libfunc_registry.specs.Signature.{HasSignatures};
ghost use Rattle.type_table.specs.Table.{HasTypes};

use anyhow::{Result, bail};
use ap_refs::places;
use libfunc_registry::{Sig, signatures};
use linear_check::annotate;
use sierra_text::read;
use sierra_types::Program;
use std::io;
use std::time::Instant;
use type_table::{Types, table};

fn main(rt: HostRuntime) -> Result<()> {
    let text = io::read_to_string(rt.alloc(), rt.stdin())?;
    let Ok(program) = read(rt.alloc(), text.as_bytes()) else {
        bail!("no program");
    };
    with_program(&rt, &program)
}

fn with_program(rt: &HostRuntime, program: &Program) -> Result<()>
    requires { length program.now.statements ≤ 2 ^ 20 }
{
    let Ok(types) = table(rt.alloc(), program) else {
        bail!("no types");
    };
    with_types(rt, program, &types)
}

fn with_types(rt: &HostRuntime, program: &Program, types: &Types) -> Result<()>
    requires few { length program.now.statements ≤ 2 ^ 20 }
    requires types { HasTypes program.now types.now }
{
    let Ok(sigs) = signatures(rt.alloc(), types, program.libfuncs.items()) else {
        bail!("no signatures");
    };
    measure(rt, program, types, sigs.items())
}

fn measure(rt: &HostRuntime, program: &Program, types: &Types, sigs: &[Sig]) -> Result<()>
    requires few { length program.now.statements ≤ 2 ^ 20 }
    requires types { HasTypes program.now types.now }
    requires signatures { HasSignatures types.now program.now.libfuncs sigs.now }
{
    let begin = Instant::now(rt)?;
    let Ok(envs) = annotate(rt.alloc(), program, types, sigs) else {
        bail!("no typed variables");
    };
    let linear = begin.elapsed(rt)?;
    let begin = Instant::now(rt)?;
    let Ok(_places) = places(rt.alloc(), program, types, sigs, &envs) else {
        bail!("no places");
    };
    let placed = begin.elapsed(rt)?;
    println!(rt; "{} {}", linear.as_micros(), placed.as_micros())?;
    Ok(())
}
E
for name in straight joining; do
  times=$(for _ in 1 2 3 4 5 6 7 8 9; do "$program" <"$folder/$name"; done)
  linear=$(echo "$times" | cut -d' ' -f1 | sort -n | head -n 1)
  placed=$(echo "$times" | cut -d' ' -f2 | sort -n | head -n 1)
  echo "the program $name: linear check $linear us, places $placed us, both $(ratio $((linear + placed)) "$linear") times the first (goal: at most 2)"
done
