#!/bin/sh
# Times the calls on keys of the proved build beside bench/keys.rs, which does the same in plain Rust, in turn on this machine.
# Wants the kit's `rt` and a `rustc`. The proved program is made in a folder of its own, which is removed at the end; from
# nothing its proof takes many minutes.
set -eu
top=$(cd "$(dirname "$0")/.." && pwd)
turns=${1:-7}
. "$top/bench/crates.sh"
names='aso_memory aso_num aso_tree aso_outline aso_words aso_keys'
gather $names
echo "times: $names sqlite_items indexmap thiserror anyhow" >>"$work/crates.txt"
mkdir -p "$work/crates/times/src"
cat >"$work/crates/times/src/main.rt" <<'EOP'
//! Times the calls on keys.
#![tactic(auto)]

ghost use Rattle.std.specs.Prelude.{ℕ, ◌*◌, ◌≤◌, IfOk};
ghost use Rattle.aso_keys.specs.Axes.{bits_of, AreCoarser};
ghost use Rattle.aso_keys.specs.Views.{IsView};

use anyhow::{Result, anyhow};
use aso_keys::{Layout, View, is_coarser, view_of};
use aso_memory::NoMemory;
use aso_num::{List, Text};
use aso_outline::{Aggregate, Draft, DraftDim, DraftHier, DraftMember, Op, Outline};
use aso_words::Words;
use std::alloc::Global;
use std::time::Instant;

fn member(alloc: Global, name: String, parent: u32) -> DraftMember {
    DraftMember {
        name: Text::of(name),
        parent,
        shared: false,
        label_only: false,
        op: Op::Plus,
        solve: None,
        formula: None,
        carries: List::of(Vec::new(alloc)),
    }
}

/// Ten groups of twelve leaves. The first seven dimensions offer their levels to views.
fn dim(alloc: Global, number: u32) -> Result<DraftDim, NoMemory> {
    let mut members = Vec::new(alloc);
    members.push(member(alloc, format!(in alloc; "d{number}")?, u32::MAX))?;
    for group in 0..10u32 {
        members.push(member(alloc, format!(in alloc; "d{number}g{group}")?, 0))?;
        for leaf in 0..12u32 {
            let name = format!(in alloc; "d{number}g{group}m{leaf}")?;
            members.push(member(alloc, name, group * 13 + 1))?;
        }
    }
    let tree = DraftHier {
        dynamic: false,
        members: List::of(members),
    };
    Ok(DraftDim {
        name: Text::of(format!(in alloc; "d{number}")?),
        aggregate: if number < 7 {
            Aggregate::All
        } else {
            Aggregate::Bottom
        },
        hiers: List::of(vec![in alloc; tree]?),
    })
}

fn draft(alloc: Global, count: u32) -> Result<Draft, NoMemory> {
    let mut dims = Vec::new(alloc);
    for number in 0..count {
        dims.push(dim(alloc, number)?)?;
    }
    Ok(Draft {
        app: Text::of(String::from_str(alloc, "Sample")?),
        db: Text::of(String::from_str(alloc, "Keys")?),
        dims: List::of(dims),
        attrs: List::of(Vec::new(alloc)),
    })
}

fn lists(alloc: Global, count: usize) -> Result<Vec<u32>, NoMemory> {
    let mut all = Vec::new(alloc);
    let mut seed = 1u64;
    for _ in 0..count {
        seed = seed
            .wrapping_mul(6364136223846793005)
            .wrapping_add(1442695040888963407);
        all.push(((seed >> 33) % 120) as u32)?;
    }
    Ok(all)
}

fn write_all<const W: usize>(
    layout: &Layout,
    lists: &[u32],
    keys: &mut Vec<Words<W>>,
) -> Result<(), NoMemory>
    requires some { 1 ≤ W }
    requires few { W ≤ 4 }
    requires wide { bits_of layout.now ≤ 64 * W }
{
    let dims = layout.dims();
    keys.clear();
    if dims > 0 {
        for classes in lists.chunks_exact(dims) {
            if layout.are_classes(classes) {
                keys.push(layout.key_of(classes))?;
            }
        }
    }
    Ok(())
}

fn added(total: u64, classes: &[u32]) -> u64 {
    let mut total = total;
    for class in classes {
        total = total.wrapping_add(u64::from(*class));
    }
    total
}

fn read_all<const W: usize>(layout: &Layout, keys: &[Words<W>], before: u64) -> u64
    requires some { 1 ≤ W }
    requires few { W ≤ 4 }
    requires wide { bits_of layout.now ≤ 64 * W }
{
    let mut total = before;
    for key in keys {
        let mut into = [0u32; 16];
        if layout.dims() == 16 {
            layout.classes_of(key, &mut into);
        } else if layout.dims() == 8 {
            layout.classes_of(key, &mut into[..8]);
        }
        total = added(total, &into);
    }
    total
}

fn sum<const W: usize>(key: &Words<W>) -> u64
    requires { 1 ≤ W }
{
    let words = key.words();
    words[0] ^ words[W - 1].rotate_left(1)
}

fn roll_all<const W: usize>(fine: &Layout, coarse: &Layout, keys: &[Words<W>], before: u64) -> u64
    requires some { 1 ≤ W }
    requires few { W ≤ 4 }
    requires wide { bits_of fine.now ≤ 64 * W }
    requires wide_to { bits_of coarse.now ≤ 64 * W }
    requires coarser { AreCoarser coarse.now fine.now }
{
    let mut total = before;
    for key in keys {
        if let Some(key) = fine.roll(key, coarse) {
            total = total.wrapping_mul(3) ^ sum(&key);
        }
    }
    total
}

fn report(rt: &HostRuntime, words: usize, call: &str, start: &Instant, total: u64) -> Result<()> {
    let spent = start.elapsed(rt)?.as_nanos();
    println!(rt; "{words} {call} {spent} {total}")?;
    Ok(())
}

fn time_writing<const W: usize>(
    rt: &HostRuntime,
    fine: &Layout,
    lists: &[u32],
    rounds: u32,
) -> Result<Vec<Words<W>>>
    requires some { 1 ≤ W }
    requires few { W ≤ 4 }
    requires wide { bits_of fine.now ≤ 64 * W }
{
    let mut keys = Vec::new(rt.alloc());
    write_all(fine, lists, &mut keys)?;
    let start = Instant::now(rt)?;
    for _ in 0..rounds {
        write_all(fine, lists, &mut keys)?;
    }
    report(rt, W, "write", &start, 0)?;
    Ok(keys)
}

fn time_reading<const W: usize>(
    rt: &HostRuntime,
    fine: &Layout,
    keys: &[Words<W>],
    rounds: u32,
) -> Result<()>
    requires some { 1 ≤ W }
    requires few { W ≤ 4 }
    requires wide { bits_of fine.now ≤ 64 * W }
{
    let mut total = 0u64;
    let start = Instant::now(rt)?;
    for _ in 0..rounds {
        total = read_all(fine, keys, total);
    }
    report(rt, W, "read", &start, total)
}

fn time_rolling<const W: usize>(
    rt: &HostRuntime,
    fine: &Layout,
    coarse: &Layout,
    keys: &[Words<W>],
    rounds: u32,
) -> Result<()>
    requires some { 1 ≤ W }
    requires few { W ≤ 4 }
    requires wide { bits_of fine.now ≤ 64 * W }
    requires wide_to { bits_of coarse.now ≤ 64 * W }
    requires coarser { AreCoarser coarse.now fine.now }
{
    let mut total = 0u64;
    let start = Instant::now(rt)?;
    for _ in 0..rounds {
        total = roll_all(fine, coarse, keys, total);
    }
    report(rt, W, "roll", &start, total)
}

fn time_all<const W: usize>(
    rt: &HostRuntime,
    fine: &Layout,
    coarse: &Layout,
    dims: usize,
    rounds: u32,
) -> Result<()>
    requires some { 1 ≤ W }
    requires few { W ≤ 4 }
    requires dims { dims ≤ 16 }
    requires wide { bits_of fine.now ≤ 64 * W }
    requires wide_to { bits_of coarse.now ≤ 64 * W }
    requires coarser { AreCoarser coarse.now fine.now }
{
    let lists = lists(rt.alloc(), 65536 * dims)?;
    let keys = time_writing::<W>(rt, fine, &lists, rounds)?;
    time_reading::<W>(rt, fine, &keys, rounds)?;
    time_rolling::<W>(rt, fine, coarse, &keys, rounds)
}

fn outline(alloc: Global, dims: u32) -> Result<Outline> {
    Ok(Outline::verify(alloc, draft(alloc, dims)?)?)
}

fn view(alloc: Global, outline: &Outline, number: u32) -> Result<View>
    ensures { IfOk result (λ v. IsView outline.now v.choices) }
{
    match view_of(alloc, outline, number)? {
        Some(view) => Ok(view),
        None => Err(anyhow!("no view {number}")),
    }
}

fn times<const W: usize>(rt: &HostRuntime, dims: u32, rounds: u32) -> Result<()>
    requires some { 1 ≤ W }
    requires few { W ≤ 4 }
    requires dims { dims ≤ 16 }
{
    let alloc = rt.alloc();
    let outline = outline(alloc, dims)?;
    let base = view(alloc, &outline, 0)?;
    // level 1 of each of seven dimensions of three choices: 1 + 3 + 9 + .. + 729
    let up = view(alloc, &outline, 1093)?;
    let fine = Layout::new(alloc, &outline, &base)?;
    let coarse = Layout::new(alloc, &outline, &up)?;
    let fit = fine.bits() as usize <= 64 * W && coarse.bits() as usize <= 64 * W;
    if fit && is_coarser(&up, &base) {
        fine.keeps_coarser(&outline, &base, &coarse, &up);
        time_all::<W>(rt, &fine, &coarse, dims as usize, rounds)?;
    }
    Ok(())
}

fn main(rt: HostRuntime) -> Result<()> {
    times::<1>(&rt, 8, 40)?;
    times::<2>(&rt, 16, 20)
}
EOP
(cd "$work/crates/times" && rt run) >"$work/build.log" 2>&1 || { tail -20 "$work/build.log" >&2; exit 1; }
rustc -O -o "$work/plain" "$top/bench/keys.rs"
for turn in $(seq "$turns"); do
    "$work/crates/times/out/times" | sed 's/^/proved /'
    "$work/plain" | sed 's/^/plain /'
done >"$work/times.txt"
# words, what is done, nanoseconds a key of each (the median), their ratio
echo 'words call proved_ns plain_ns ratio'
awk '
    { key = $2 " " $3; rows[key] = 1; ns = $4 / (65536 * ($2 == 1 ? 40 : 20)); n = ++count[$1, key]; all[$1, key, n] = ns
      if (key in sums && sums[key] "" != $5 "") { print "the two do not agree at " key; failed = 1 } sums[key] = $5 }
    function median(who, key,   n, i, j, t, v) {
        n = count[who, key]; for (i = 1; i <= n; i++) v[i] = all[who, key, i]
        for (i = 1; i <= n; i++) for (j = i + 1; j <= n; j++) if (v[j] < v[i]) { t = v[i]; v[i] = v[j]; v[j] = t }
        return v[int((n + 1) / 2)]
    }
    END { if (failed) exit 1
          for (key in rows) { p = median("proved", key); q = median("plain", key); printf "%s %.1f %.1f %.2f\n", key, p, q, p / q } }
' "$work/times.txt" >"$work/table.txt" || { cat "$work/table.txt" >&2; exit 1; }
sort "$work/table.txt"
