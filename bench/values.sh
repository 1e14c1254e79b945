#!/bin/sh
# Times `needs`, `values` and `value` of the proved build over grids of 1,000, 10,000 and 100,000 cells, 250 columns by 4, 40 and 400
# rows, whose rows are formulas of depth three. Wants the kit's `rt`. The proved program is made in a folder of its own, which is removed
# at the end; from nothing its proof takes many minutes. The argument is the number of turns.
set -eu
top=$(cd "$(dirname "$0")/.." && pwd)
turns=${1:-7}
. "$top/bench/crates.sh"
names='aso_memory aso_num aso_tree aso_outline aso_calc'
gather $names
echo "times: $names sqlite_items indexmap thiserror anyhow" >>"$work/crates.txt"
mkdir -p "$work/crates/times/src" "$work/crates/times/proofs/are_long"
cat >"$work/crates/times/src/main.rt" <<'EOP'
//! Times the values of a grid.
#![tactic(auto)]

ghost use Rattle.std.specs.Prelude.{◌≡◌, ℕ, true, Some, IfOk, length, slice_get};
ghost use Rattle.aso_calc.specs.Needs.{AreDistinct};
ghost use Rattle.aso_outline.specs.declared.draft.Tuple.{Tuple as Coordinates};

use anyhow::{Result, anyhow};
use aso_calc::{StoredValues, needs, value, values};
use aso_num::{List, Text, Val};
use aso_outline::{
    Aggregate, Draft, DraftDim, DraftHier, DraftMember, Expr, Extra, Op, Outline, Tuple,
};
use sqlite_items::Boxed;
use std::alloc::Global;
use std::time::Instant;

const COLUMNS: u32 = 250;

fn member(
    alloc: Global,
    name: String,
    parent: u32,
    formula: Option<Expr>,
) -> Result<DraftMember> {
    Ok(DraftMember {
        name: Text::of(name),
        parent,
        shared: false,
        label_only: false,
        op: Op::Plus,
        solve: None,
        formula,
        carries: List::of(Vec::new(alloc)),
    })
}

fn cell(alloc: Global, name: String) -> Result<Expr> {
    Ok(Expr::Cell(List::of(vec![in alloc; Text::of(name)]?)))
}

fn binary(alloc: Global, op: Op, left: Expr, right: Expr) -> Result<Expr> {
    Ok(Expr::Bin {
        op,
        left: Boxed::new(alloc, left)?,
        right: Boxed::new(alloc, right)?,
    })
}

fn dim(
    alloc: Global,
    name: &str,
    dynamic: bool,
    members: Vec<DraftMember>,
) -> Result<DraftDim> {
    let tree = DraftHier {
        dynamic,
        members: List::of(members),
    };
    Ok(DraftDim {
        name: Text::of(String::from_str(alloc, name)?),
        aggregate: Aggregate::All,
        hiers: List::of(vec![in alloc; tree]?),
    })
}

/// Each column is a leaf.
fn columns(alloc: Global) -> Result<DraftDim> {
    let mut members = Vec::new(alloc);
    members.push(member(alloc, String::from_str(alloc, "x")?, u32::MAX, None)?)?;
    for column in 0..COLUMNS {
        members.push(member(alloc, format!(in alloc; "x{column}")?, 0, None)?)?;
    }
    dim(alloc, "x", false, members)
}

/// A rate by ten, of a ratio less a.
fn by_ten(alloc: Global, row: u32) -> Result<DraftMember> {
    let less = cell(alloc, format!(in alloc; "less{row}")?)?;
    let formula = binary(alloc, Op::Over, less, Expr::Num(100_000))?;
    member(alloc, format!(in alloc; "rate{row}")?, 0, Some(formula))
}

fn less_a(alloc: Global, row: u32) -> Result<DraftMember> {
    let ratio = cell(alloc, format!(in alloc; "ratio{row}")?)?;
    let a = cell(alloc, String::from_str(alloc, "a")?)?;
    let formula = binary(alloc, Op::Minus, ratio, a)?;
    member(alloc, format!(in alloc; "less{row}")?, 0, Some(formula))
}

fn a_by_b(alloc: Global, row: u32) -> Result<DraftMember> {
    let a = cell(alloc, String::from_str(alloc, "a")?)?;
    let b = cell(alloc, String::from_str(alloc, "b")?)?;
    let formula = binary(alloc, Op::Over, a, b)?;
    member(alloc, format!(in alloc; "ratio{row}")?, 0, Some(formula))
}

fn push_row(alloc: Global, row: u32, members: &mut Vec<DraftMember>) -> Result<()> {
    members.push(by_ten(alloc, row)?)?;
    members.push(less_a(alloc, row)?)?;
    members.push(a_by_b(alloc, row)?)?;
    Ok(())
}

fn push_leaf(
    alloc: Global,
    name: &str,
    parent: u32,
    members: &mut Vec<DraftMember>,
) -> Result<()> {
    members.push(member(alloc, String::from_str(alloc, name)?, parent, None)?)?;
    Ok(())
}

/// Two leaves, and for each row three members, each of which names the one behind it.
fn rows(alloc: Global, count: u32) -> Result<DraftDim> {
    let mut members = Vec::new(alloc);
    push_leaf(alloc, "m", u32::MAX, &mut members)?;
    push_leaf(alloc, "a", 0, &mut members)?;
    push_leaf(alloc, "b", 0, &mut members)?;
    for row in 0..count {
        push_row(alloc, row, &mut members)?;
    }
    dim(alloc, "m", true, members)
}

fn outline_of(alloc: Global, count: u32) -> Result<Outline> {
    let mut dims = Vec::new(alloc);
    dims.push(columns(alloc)?)?;
    dims.push(rows(alloc, count)?)?;
    let draft = Draft {
        app: Text::of(String::from_str(alloc, "Sample")?),
        db: Text::of(String::from_str(alloc, "Grid")?),
        dims: List::of(dims),
        attrs: List::of(Vec::new(alloc)),
    };
    match Outline::verify(alloc, draft) {
        Ok(outline) => Ok(outline),
        Err(_) => Err(anyhow!("no outline")),
    }
}

/// The columns are the members behind the first. The rows begin behind the columns, their root, a and b.
fn cells(alloc: Global, count: u32) -> Result<Vec<Tuple>> {
    let mut all = Vec::new(alloc);
    for row in 0..count {
        for column in 0..COLUMNS {
            let first = column.wrapping_add(1);
            let second = row.wrapping_mul(3).wrapping_add(COLUMNS + 4);
            all.push(Tuple {
                base: List::of(vec![in alloc; first, second]?),
                attrs: List::of(Vec::new(alloc)),
            })?;
        }
    }
    Ok(all)
}

fn are_long(outline: &Outline, asked: &[Tuple]) -> bool
    ensures { result ≡ true → (k : ℕ) (t : Coordinates) → slice_get asked.now k ≡ Some t → length t.base ≡ length outline.now.dims }
{
    let dims = outline.dims() as usize;
    for tuple in asked {
        if tuple.base.items().len() != dims {
            return false;
        }
    }
    true
}

fn time_needs(
    rt: &HostRuntime,
    outline: &Outline,
    extra: &Extra,
    asked: &[Tuple],
) -> Result<Vec<Tuple>>
    requires { (k : ℕ) (t : Coordinates) → slice_get asked.now k ≡ Some t → length t.base ≡ length outline.now.dims }
    ensures { IfOk result (λ v. AreDistinct v.items) }
{
    let start = Instant::now(rt)?;
    let found = needs(rt.alloc(), outline, extra, asked)?;
    let spent = start.elapsed(rt)?.as_micros();
    println!(rt; "needs {} {spent} {}", asked.len(), found.len())?;
    Ok(found)
}

fn numbers(alloc: Global, count: usize) -> Result<Vec<Val>> {
    let mut all = Vec::new(alloc);
    let mut next = 0u32;
    for _ in 0..count {
        all.push(Val::Num(10_000 + i128::from(next % 1000)))?;
        next = next.wrapping_add(1);
    }
    Ok(all)
}

fn stored_of(alloc: Global, found: Vec<Tuple>) -> Result<StoredValues>
    requires { AreDistinct found.items }
{
    let all = numbers(alloc, found.len())?;
    if all.len() != found.len() {
        return Err(anyhow!("a value lacks"));
    }
    Ok(StoredValues::new(alloc, found, all)?)
}

fn time_values(
    rt: &HostRuntime,
    outline: &Outline,
    extra: &Extra,
    asked: &[Tuple],
    stored: &StoredValues,
) -> Result<()>
    requires { (k : ℕ) (t : Coordinates) → slice_get asked.now k ≡ Some t → length t.base ≡ length outline.now.dims }
{
    let start = Instant::now(rt)?;
    let Ok(all) = values(rt.alloc(), outline, extra, asked, stored) else {
        return Err(anyhow!("no values"));
    };
    let spent = start.elapsed(rt)?.as_micros();
    println!(rt; "values {} {spent} {}", asked.len(), all.len())?;
    Ok(())
}

fn alone(
    alloc: Global,
    outline: &Outline,
    extra: &Extra,
    asked: &[Tuple],
    stored: &StoredValues,
) -> u32 {
    let mut some = 0u32;
    for tuple in asked {
        if tuple.base.items().len() == outline.dims() as usize {
            if let Ok(Val::Num(_)) = value(alloc, outline, extra, tuple, stored) {
                some = some.wrapping_add(1);
            }
        }
    }
    some
}

fn time_alone(
    rt: &HostRuntime,
    outline: &Outline,
    extra: &Extra,
    asked: &[Tuple],
    stored: &StoredValues,
) -> Result<()> {
    let start = Instant::now(rt)?;
    let some = alone(rt.alloc(), outline, extra, asked, stored);
    let spent = start.elapsed(rt)?.as_micros();
    println!(rt; "alone {} {spent} {some}", asked.len())?;
    Ok(())
}

fn time(rt: &HostRuntime, count: u32) -> Result<()> {
    let alloc = rt.alloc();
    let outline = outline_of(alloc, count)?;
    let extra = Extra::new(alloc);
    let asked = cells(alloc, count)?;
    if !are_long(&outline, asked.as_slice()) {
        return Err(anyhow!("a member lacks"));
    }
    let found = time_needs(rt, &outline, &extra, asked.as_slice())?;
    let stored = stored_of(alloc, found)?;
    time_values(rt, &outline, &extra, asked.as_slice(), &stored)?;
    time_alone(rt, &outline, &extra, asked.as_slice(), &stored)
}

fn main(rt: HostRuntime) -> Result<()> {
    time(&rt, 4)?;
    time(&rt, 40)?;
    time(&rt, 400)
}
EOP
cat >"$work/crates/times/proofs/are_long/Invariants.antt" <<'EOP'
use Rattle.std.proofs.Common.{◌≡◌, ◌<◌, ℕ, Some, length}
use Rattle.std.specs.Prelude.{slice_get}
use Rattle.aso_outline.specs.declared.draft.Tuple.{Tuple}
use Rattle.times.proofs.are_long.Given as goal

abbrev pub invariant-loop-tuple : goal.invariant-loop-tuple
invariant-loop-tuple l = (k : ℕ) (t : Tuple) → k < l.tuple-index → slice_get l.asked k ≡ Some t → length t.base ≡ length l.outline.dims
EOP
: >"$work/crates/times/proofs/Lib.antt"
cd "$work"
(cd crates/times && rt run) >build.log 2>&1 || { tail -40 build.log >&2; exit 1; }
for turn in $(seq "$turns"); do
    crates/times/out/times
done >times.txt
# the median of each call at each number of cells, and what that is a cell; the numbers of results must not differ from turn to turn
awk '
    { n = ++count[$1, $2]; all[$1, $2, n] = $3
      if (n == 1) { line[++lines] = $1 " " $2; found[$1, $2] = $4 } else if (found[$1, $2] != $4) { print "the turns do not agree"; failed = 1 } }
    function median(call, cells,   n, i, j, t, v) {
        n = count[call, cells]; for (i = 1; i <= n; i++) v[i] = all[call, cells, i]
        for (i = 1; i <= n; i++) for (j = i + 1; j <= n; j++) if (v[j] < v[i]) { t = v[i]; v[i] = v[j]; v[j] = t }
        return v[int((n + 1) / 2)]
    }
    END { if (failed || lines == 0) exit 1
          print "call cells milliseconds microseconds_a_cell results"
          for (k = 1; k <= lines; k++) { split(line[k], key, " "); m = median(key[1], key[2])
              printf "%s %d %.1f %.2f %d\n", key[1], key[2], m / 1000, m / key[2], found[key[1], key[2]] } }
' times.txt
