#!/bin/sh
# Times `Outline::verify` of the proved build over drafts of a million members: a flat one, a deep one, one with 10,000 formulas in
# chains of the greatest rank, and one that is refused, whose first half leads to the circles of its second half. Beside it, in turn,
# bench/outline.rs copies the names alone into a hash map. Wants the kit's `rt` and a `rustc`. The proved program is made in a folder of
# its own, which is removed at the end; from nothing its proof takes many minutes.
set -eu
top=$(cd "$(dirname "$0")/.." && pwd)
turns=${1:-5}
. "$top/bench/crates.sh"
names='aso_memory aso_num aso_tree aso_outline'
gather $names
echo "times: $names sqlite_items indexmap thiserror anyhow" >>"$work/crates.txt"
mkdir -p "$work/crates/times/src"
cat >"$work/crates/times/src/main.rt" <<'EOP'
//! Times the verification of outlines.
#![tactic(auto)]

use anyhow::Result;
use aso_memory::NoMemory;
use aso_num::{List, Text};
use aso_outline::{
    Aggregate, Draft, DraftDim, DraftHier, DraftMember, Expr, Op, Outline, OutlineFault,
};
use std::alloc::Global;
use std::time::Instant;

/// How the members of the great dimension stand: all under the root; each 31st under the root and each other one under the member
/// before it; as formulas of which each 63rd is a number and each other names the member before it; or as formulas of which the first
/// half name the next, and the others are pairs that name each other.
#[derive(Clone, Copy, Debug, PartialEq, Eq)]
enum Shape {
    Flat,
    Deep,
    Chained,
    Circled,
}

fn member(alloc: Global, name: String, parent: u32, formula: Option<Expr>) -> DraftMember {
    DraftMember {
        name: Text::of(name),
        parent,
        shared: false,
        label_only: false,
        op: Op::Plus,
        solve: None,
        formula,
        carries: List::of(Vec::new(alloc)),
    }
}

/// A formula that names a member of the great dimension.
fn named(alloc: Global, number: u32) -> Result<Expr, NoMemory> {
    let mut names = Vec::new(alloc);
    names.push(Text::of(format!(in alloc; "m{number}")?))?;
    Ok(Expr::Cell(List::of(names)))
}

/// The member before it, or at the head of a chain a number.
fn chained(alloc: Global, number: u32) -> Result<Option<Expr>, NoMemory> {
    if number > 10_000 {
        return Ok(None);
    }
    if number % 63 == 1 || number == 0 {
        return Ok(Some(Expr::Num(10000)));
    }
    Ok(Some(named(alloc, number - 1)?))
}

/// The next member, or the other of a pair. The last two have no formula.
fn circled(alloc: Global, number: u32, count: u32) -> Result<Option<Expr>, NoMemory> {
    if count.saturating_sub(number) < 3 {
        return Ok(None);
    }
    if number < count / 2 || number % 2 == 0 {
        return Ok(Some(named(alloc, number.saturating_add(1))?));
    }
    Ok(Some(named(alloc, number.saturating_sub(1))?))
}

fn formula(alloc: Global, shape: Shape, number: u32, count: u32) -> Result<Option<Expr>, NoMemory> {
    match shape {
        Shape::Chained => chained(alloc, number),
        Shape::Circled => circled(alloc, number, count),
        _ => Ok(None),
    }
}

fn parent(shape: Shape, number: u32) -> u32 {
    if shape == Shape::Deep && number > 0 && number % 31 != 1 {
        number - 1
    } else {
        0
    }
}

/// A dimension of so many members below its root.
fn dim(alloc: Global, name: &str, shape: Shape, count: u32) -> Result<DraftDim, NoMemory> {
    let mut members = Vec::new(alloc);
    members.push(member(alloc, String::from_str(alloc, name)?, u32::MAX, None))?;
    for number in 1..count {
        let formula = formula(alloc, shape, number, count)?;
        let name = format!(in alloc; "{name}{number}")?;
        members.push(member(alloc, name, parent(shape, number), formula))?;
    }
    let tree = DraftHier {
        dynamic: shape == Shape::Chained || shape == Shape::Circled,
        members: List::of(members),
    };
    Ok(DraftDim {
        name: Text::of(String::from_str(alloc, name)?),
        aggregate: Aggregate::Bottom,
        hiers: List::of(vec![in alloc; tree]?),
    })
}

fn draft(alloc: Global, shape: Shape, count: u32) -> Result<Draft, NoMemory> {
    let mut dims = Vec::new(alloc);
    dims.push(dim(alloc, "y", Shape::Flat, 13)?)?;
    dims.push(dim(alloc, "m", shape, count)?)?;
    Ok(Draft {
        app: Text::of(String::from_str(alloc, "Sample")?),
        db: Text::of(String::from_str(alloc, "Large")?),
        dims: List::of(dims),
        attrs: List::of(Vec::new(alloc)),
    })
}

fn greatest_rank(outline: &Outline) -> u32 {
    let mut most = 0;
    for m in 0..outline.members() {
        let rank = outline.rank(m);
        if most < rank {
            most = rank;
        }
    }
    most
}

fn time(rt: &HostRuntime, name: &str, shape: Shape, count: u32) -> Result<()> {
    let alloc = rt.alloc();
    let draft = draft(alloc, shape, count)?;
    let start = Instant::now(rt)?;
    let outline = Outline::verify(alloc, draft)?;
    let taken = start.elapsed(rt)?.as_millis();
    println!(rt; "{name} {} {} {taken}", outline.members(), greatest_rank(&outline))?;
    Ok(())
}

fn time_refusal(rt: &HostRuntime, name: &str, shape: Shape, count: u32) -> Result<()> {
    let alloc = rt.alloc();
    let draft = draft(alloc, shape, count)?;
    let start = Instant::now(rt)?;
    let answer = Outline::verify(alloc, draft);
    let taken = start.elapsed(rt)?.as_millis();
    if let Err(OutlineFault::Refused { rule, member }) = answer {
        println!(rt; "{name} {} {rule}:{member} {taken}", count.saturating_add(13))?;
    }
    Ok(())
}

fn main(rt: HostRuntime) -> Result<()> {
    time(&rt, "flat", Shape::Flat, 1_000_000)?;
    time(&rt, "deep", Shape::Deep, 1_000_000)?;
    time(&rt, "chained", Shape::Chained, 1_000_000)?;
    time_refusal(&rt, "circled", Shape::Circled, 1_000_000)
}
EOP
(cd "$work/crates/times" && rt run) >"$work/build.log" 2>&1 || { tail -20 "$work/build.log" >&2; exit 1; }
rustc -O -o "$work/plain" "$top/bench/outline.rs"
for turn in $(seq "$turns"); do
    "$work/crates/times/out/times"
    "$work/plain"
done >"$work/times.txt"
median() {
    grep "^$1 " "$work/times.txt" | sort -k4n | sed -n "$(((turns + 1) / 2))p"
}
names=$(median names | cut -d ' ' -f 4)
echo "draft members greatest_rank (or broken rule:member) milliseconds (the median) ratio_to_names"
for name in names flat deep chained circled; do
    median "$name" | awk -v names="$names" '{ printf "%s %.2f\n", $0, $4 / names }'
done
