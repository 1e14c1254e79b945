#!/bin/sh
# Times the writing and reading of cell files by the proved build beside bench/cellfile.rs, which does the same in plain Rust, and
# beside `sqlite3`, which stores the same rows in a table, in turn on this machine. Wants the kit's `rt`, a `rustc` and the shell
# `sqlite3`. The proved program is made in a folder of its own, which is removed at the end; from nothing its proof takes many
# minutes.
set -eu
top=$(cd "$(dirname "$0")/.." && pwd)
turns=${1:-7}
. "$top/bench/crates.sh"
names='aso_memory aso_bytes aso_words aso_runs aso_disk aso_cellfile'
gather $names
echo "times: $names thiserror anyhow" >>"$work/crates.txt"
mkdir -p "$work/crates/times/src" "$work/crates/times/proofs/written" "$work/crates/times/proofs/main"
cat >"$work/crates/times/src/main.rt" <<'EOP'
//! Times the writing and reading of cell files.
#![tactic(auto)]

ghost use Rattle.std.specs.Prelude.{◌≡◌, ◌<◌, ◌≤◌, ◌^◌, IfSome};
ghost use Rattle.aso_disk.specs.Shelf.{HasNoFile};
ghost use Rattle.aso_disk.specs.MemShelf.{files_of};

use anyhow::{Result, anyhow};
use aso_cellfile::{CellFile, Steps, Writer};
use aso_disk::{MemShelf, Shelf};
use aso_runs::{Cell, Run, fold_last};
use aso_words::Words;
use std::alloc::Global;
use std::marker::Brand;
use std::sync::ledger::{Blank, Ledger};
use std::time::Instant;

fn draw(x: &mut u64, n: u64) -> u64
    requires { 0 < n }
    ensures { result < n }
{
    *x = x
        .wrapping_mul(6364136223846793005)
        .wrapping_add(1442695040888963407);
    (*x >> 33) % n
}

/// Records drawn as those of the sample cube; of each key the last one.
fn cells(alloc: Global, count: u32) -> Result<Run<1>> {
    let mut records = Vec::new(alloc);
    let mut x = 1u64;
    for _ in 0..count {
        let mut key = draw(&mut x, 24);
        key = key * 64 + draw(&mut x, 50);
        key = key * 256 + draw(&mut x, 200);
        key = key * 1024 + draw(&mut x, 1000);
        key = key * 8 + draw(&mut x, 8);
        let amount = i128::from(draw(&mut x, 2_000_001)) - 1_000_000;
        records.push(Cell {
            key: Words::from_words([key]),
            amount,
        })?;
    }
    Ok(fold_last(records)?)
}

fn within(key: &Words<1>, most: &Words<1>) -> Option<Words<1>>
    ensures { IfSome result (λ k. k ≤ most.now) }
{
    if *key > *most { None } else { Some(*key) }
}

fn written(
    alloc: Global,
    shelf: &mut MemShelf,
    cells: &[Cell<1>],
    most: &Words<1>,
) -> Result<CellFile<MemShelf, 1>>
    requires most { most.now < 2 ^ 32 }
    requires absent { HasNoFile (files_of shelf.old 7) }
{
    let mut writer = Writer::<MemShelf, 1>::new(alloc, shelf, 7, 32)?;
    for cell in cells {
        let Some(key) = within(&cell.key, most) else {
            return Err(anyhow!("a key of more than 32 bits"));
        };
        let amount = cell.amount;
        writer.add(shelf, Cell { key, amount })?;
    }
    Ok(writer.finish(shelf)?)
}

fn added(total: u64, cells: &[Cell<1>]) -> u64 {
    let mut total = total;
    for cell in cells {
        let words = cell.key.words();
        let low = (cell.amount % (1i128 << 64) + (1i128 << 64)) % (1i128 << 64);
        total = total.rotate_left(5) ^ words[0] ^ low as u64;
    }
    total
}

fn summed(alloc: Global, shelf: &mut MemShelf, size: u64) -> Result<u64> {
    let Some(sealed) = shelf.find(7)? else {
        return Err(anyhow!("no sealed file"));
    };
    if shelf.size(&sealed) != size {
        return Err(anyhow!("a file of another size"));
    }
    let mut bytes = vec![in alloc; 0u8; size as usize]?;
    shelf.read(&sealed, 0, &mut bytes)?;
    let mut total = 0u64;
    for byte in &bytes {
        total = total.rotate_left(5) ^ u64::from(*byte);
    }
    Ok(total)
}

fn read_blocks<L: Ledger>(
    shelf: &mut MemShelf,
    file: &CellFile<MemShelf, 1>,
    steps: &mut Steps<L>,
) -> Result<u64> {
    let mut total = 0u64;
    for n in 0..file.blocks() {
        let cells = file.block(shelf, n, steps)?;
        total = added(total, &cells);
    }
    Ok(total)
}

fn report(rt: &HostRuntime, call: &str, start: &Instant, cells: u64, total: u64) -> Result<()> {
    let spent = start.elapsed(rt)?.as_nanos();
    println!(rt; "{call} {spent} {cells} {total}")?;
    Ok(())
}

fn time_reading<L: Ledger>(
    rt: &HostRuntime,
    shelf: &mut MemShelf,
    file: &CellFile<MemShelf, 1>,
    steps: &mut Steps<L>,
) -> Result<()> {
    let start = Instant::now(rt)?;
    let total = read_blocks(shelf, file, steps)?;
    report(rt, "blocks", &start, file.cells(), total)?;
    let mut into = Run::empty(rt.alloc());
    let start = Instant::now(rt)?;
    file.scan(shelf, Words::zero(), None, &mut into, steps)?;
    report(rt, "scan", &start, file.cells(), into.cells().len() as u64)?;
    if added(0, into.cells()) != total {
        return Err(anyhow!("a scan of other cells"));
    }
    Ok(())
}

fn times<L: Ledger>(rt: &HostRuntime, blank: Blank, cells: &[Cell<1>]) -> Result<()>
    requires name { blank.name ≡ L.name }
    requires parts { blank.parts ≡ L.parts }
    requires some { 0 < blank.parts }
{
    let alloc = rt.alloc();
    let most = Words::from_words([0xffff_ffff]);
    let mut shelf = MemShelf::new(alloc, Vec::new(alloc));
    let start = Instant::now(rt)?;
    let file = written(alloc, &mut shelf, cells, &most)?;
    report(rt, "write", &start, file.cells(), file.size())?;
    let total = summed(alloc, &mut shelf, file.size())?;
    println!(rt; "bytes 0 0 {total}")?;
    let mut steps = Steps::<L>::new(blank);
    time_reading(rt, &mut shelf, &file, &mut steps)
}

fn main(rt: HostRuntime) -> Result<()> {
    let cells = cells(rt.alloc(), 2_000_000)?;
    times::<Brand>(&rt, Blank::new(1), cells.cells())
}
EOP
cat >"$work/crates/times/proofs/Lib.antt" <<'EOP'
EOP
cat >"$work/crates/times/proofs/written/Invariants.antt" <<'EOP'
use Rattle.std.proofs.Common.{◌≡◌}
use Rattle.aso_runs.specs.Runs.{Entries}
use Rattle.aso_cellfile.specs.Making.{Writes}
use Rattle.times.proofs.written.Given as goal

abbrev pub invariant-loop-cell : goal.invariant-loop-cell
invariant-loop-cell l = (l.writer.bits ≡ 32) × ((cells : Entries) × Writes 1 l.writer cells)
EOP
cat >"$work/crates/times/proofs/written/Answers.antt" <<'EOP'
use Rattle.std.proofs.Common.{◌∙◌}
use Rattle.times.proofs.written.Goals as goal

pub loop-cell-preserved : goal.loop-cell-preserved
loop-cell-preserved c =
    let k = c.loop-cell.invariant.1 in
    let cells = k.0 in
    (c.add.ensures.bits ∙ c.loop-cell.invariant.0, (_, c.in_ok-add.ensures.added cells k.1))
EOP
cat >"$work/crates/times/proofs/main/Invariants.antt" <<'EOP'
use Rattle.times.proofs.main.Given as goal

abbrev pub ghosts-times : goal.ghosts-times
ghosts-times a = record { name = a.blank.name; parts = a.blank.parts }
EOP
(cd "$work/crates/times" && rt run) >"$work/build.log" 2>&1 || { tail -40 "$work/build.log" >&2; exit 1; }
rustc -O -o "$work/plain" "$top/bench/cellfile.rs"
"$work/plain" rows >"$work/rows.csv"
# The rows go to a table of their own first, so that what is timed is one ordered copy into a table whose key is the row's number,
# with neither journal nor sync, and one pass over that.
cat >"$work/store.sql" <<'EOP'
PRAGMA journal_mode = OFF;
PRAGMA synchronous = OFF;
ATTACH 'rows.db' AS source;
CREATE TABLE cells (key INTEGER PRIMARY KEY, amount INTEGER NOT NULL);
.timer on
INSERT INTO cells SELECT key, amount FROM source.cells ORDER BY key;
SELECT count(*), sum(key), sum(amount) FROM cells;
EOP
cd "$work"
sqlite3 rows.db 'CREATE TABLE cells (key INTEGER PRIMARY KEY, amount INTEGER NOT NULL);' '.import --csv rows.csv cells'
for turn in $(seq "$turns"); do
    crates/times/out/times | sed 's/^/proved /'
    ./plain | sed 's/^/plain /'
    rm -f store.db
    sqlite3 store.db <store.sql | awk -v size=0 '/^Run Time: real/ { n++; print "sqlite", n == 1 ? "write" : "scan", $4 * 1e9, 0, 0 }'
done >times.txt
stat -c '%s' store.db >size.txt
# what is done, nanoseconds a cell of each (the median), and the proved build's time against the two others'; then bytes a cell
awk -v sqlite_size="$(cat size.txt)" '
    { key = $2; if ($1 == "proved" && key == "write") { cells = $4; size = $5 }
      n = ++count[$1, key]; all[$1, key, n] = $3
      if ($1 != "sqlite") { if (key in sums && sums[key] "" != $5 "") { print "the two do not agree at " key; failed = 1 } sums[key] = $5 } }
    function median(who, key,   n, i, j, t, v) {
        n = count[who, key]; for (i = 1; i <= n; i++) v[i] = all[who, key, i]
        for (i = 1; i <= n; i++) for (j = i + 1; j <= n; j++) if (v[j] < v[i]) { t = v[i]; v[i] = v[j]; v[j] = t }
        return v[int((n + 1) / 2)]
    }
    END { if (failed) exit 1
          print "call proved_ns plain_ns sqlite_ns proved/plain proved/sqlite"
          split("write blocks scan", calls, " ")
          for (i = 1; i <= 3; i++) { key = calls[i]; p = median("proved", key); q = median("plain", key)
              if ((("sqlite", key, 1) in all)) { s = median("sqlite", key); printf "%s %.1f %.1f %.1f %.2f %.2f\n", key, p / cells, q / cells, s / cells, p / q, p / s }
              else printf "%s %.1f %.1f - %.2f -\n", key, p / cells, q / cells, p / q }
          printf "cells %d, bytes a cell %.2f, in sqlite %.2f, ratio %.2f\n", cells, size / cells, sqlite_size / cells, size / sqlite_size }
' times.txt
