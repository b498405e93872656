#!/usr/bin/env bash
# How long emitting the code of a fragment of a hundred thousand pieces takes, and of one of twice as many. It needs the
# command rt, and stands outside the gate.
. "$(dirname "${BASH_SOURCE[0]}")/common.sh"
crate=$folder/repository/crates/measured
mkdir -p "$crate/specs" "$crate/proofs/fragment" "$crate/proofs/emitted"
cat >"$crate/specs/Lib.antt" <<'E'
pub mod Long
E
cat >"$crate/specs/Long.antt" <<'E'
-- Many jumps and an Exit.
use Rattle.std.specs.Prelude.{ℕ, List, [], ◌∷◌, ◌++◌, replicate}
use Rattle.casm_word.specs.Encoding.{fp_cell}
use Rattle.casm_word.specs.Offset.{minus}
use Rattle.frag_code.specs.declared.piece.Piece.{Piece}
use Rattle.frag_code.specs.declared.piece.Piece.TheVariants as piece

-- so many jumps to a position, and an Exit
abbrev pub jumps : ℕ → ℕ → List Piece
jumps count to = replicate count (piece.IfNonZero (fp_cell (minus 3)) to) ++ piece.Exit 0 ∷ []
E
cat >"$crate/proofs/Lib.antt" <<'E'
pub mod Jumps
E
cat >"$crate/proofs/Jumps.antt" <<'E'
-- Many jumps and an Exit are a fragment.
use Rattle.std.proofs.Common.{◌≡◌, ℕ, zero, suc, ◌+◌, nat_lt, nat_le, Bool, ◌&&◌, List, [], length, IsTrue, refl, sym, subst, arith}
use Rattle.std.specs.List.{All}
use Rattle.std.proofs.lemmas.Bool.{and_from, lt-ltb, le-leb}
use Rattle.std.proofs.lemmas.Int.{ints}
use Rattle.std.proofs.lemmas.List.Elements.{All-cons, All-nil, All-append, All-replicate}
use Rattle.frag_code.specs.declared.piece.Piece.{Piece}
use Rattle.frag_code.specs.declared.piece.Piece.TheVariants as piece
use Rattle.frag_code.specs.Form.{shape, has_jump, IsPieceNear, IsWellFormed}
use Rattle.measured.specs.Long.{jumps}

long : (k to : ℕ) → length (jumps k to) ≡ k + 1
long zero to = refl
long (suc k) to = let rest = long k to in omega (arith, rest)

shaped : (j : Bool) (k i to : ℕ) → i + k ≡ to → IsTrue (shape j i (jumps k to))
shaped j zero i to is = refl
shaped j (suc k) i to is =
    let rest = long k to in
    let ahead = and_from (nat_lt i to) (nat_le to (i + length (jumps k to))) (lt-ltb i to (omega arith)) (le-leb to (i + length (jumps k to)) (omega (arith, rest))) in
    and_from (nat_lt i to && nat_le to (i + length (jumps k to))) (shape j (i + 1) (jumps k to)) ahead (shaped j k (i + 1) to (omega (arith, is)))

near : (k to : ℕ) → All IsPieceNear (jumps k to)
near k to = All-append IsPieceNear _ _ (All-replicate IsPieceNear k _ (omega (arith, ints))) (All-cons IsPieceNear (piece.Exit 0) [] tt (All-nil IsPieceNear))

pub well_formed : (f : List Piece) (count : ℕ) → f ≡ jumps count count → IsWellFormed f
well_formed f count is = subst IsWellFormed (sym is) (record { shaped = shaped (has_jump (jumps count count)) count 0 count (omega arith); near = near count count })
E
cat >"$crate/proofs/fragment/Invariants.antt" <<'E'
use Rattle.std.proofs.Common.{◌≡◌, replicate}
use Rattle.casm_word.specs.Encoding.{fp_cell}
use Rattle.casm_word.specs.Offset.{minus}
use Rattle.frag_code.specs.declared.piece.Piece.TheVariants as piece
use Rattle.measured.proofs.fragment.Given as goal

abbrev pub invariant-loop : goal.invariant-loop
invariant-loop l = l.f ≡ replicate l.counter (piece.IfNonZero (fp_cell (minus 3)) l.count)
E
cat >"$crate/proofs/emitted/Answers.antt" <<'E'
use Rattle.measured.proofs.Jumps.{well_formed}
use Rattle.measured.proofs.emitted.Goals as goal

pub emit-requires-clause-well_formed : goal.emit-requires-clause-well_formed
emit-requires-clause-well_formed c = well_formed _ _ c.requires.jumps
E
build frag_code casm_word anyhow <<'E'
//! Emits a fragment of so many jumps to its one Exit, and prints how many microseconds that took.
#![tactic(auto)]

ghost use Rattle.std.specs.Prelude.{◌≡◌, ◌++◌, ◌≤◌, ◌∷◌, [], IfOk};
ghost use Rattle.measured.specs.Long.{jumps};

use anyhow::{Context, Result, ensure};
use casm_word::CellRef;
use frag_code::{Emitted, Frag, Piece, emit};
use std::alloc::{AllocError, Global};
use std::env;
use std::time::Instant;

fn main(rt: HostRuntime) -> Result<()> {
    let count: u32 = env::args(&rt)?.nth(1).context("a number is wanted")?.parse()?;
    ensure!(count <= 1_000_000, "too many pieces");
    let f = fragment(rt.alloc(), count)?;
    let begin = Instant::now(&rt)?;
    let emitted = emitted(rt.alloc(), &f, count)?;
    let took = begin.elapsed(&rt)?;
    ensure!(emitted.code.instrs().len() == count as usize + 1, "the code has another length");
    println!(rt; "{}", took.as_micros())?;
    Ok(())
}

/// So many jumps to the Exit behind them.
fn fragment(alloc: Global, count: u32) -> Result<Frag, AllocError>
    ensures { IfOk result (λ f. f ≡ jumps count count) }
{
    let mut f = Frag::new(alloc);
    for _ in 0..count {
        f.push(Piece::IfNonZero(CellRef::fp(-3), count))?;
    }
    f.push(Piece::Exit(0))?;
    Ok(f)
}

fn emitted(alloc: Global, f: &Frag, count: u32) -> Result<Emitted, AllocError>
    requires jumps { f.now ≡ jumps count count }
    requires few { count ≤ 1000000 }
{
    emit(alloc, f, 0, &[0])
}
E
once=$(least_printed "$program" 100000)
twice=$(least_printed "$program" 200000)
echo "a fragment of 100000 pieces: $once us; of 200000: $twice us, ratio: $(ratio "$twice" "$once") (goal: at most 2.2)"
