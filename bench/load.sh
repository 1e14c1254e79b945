#!/bin/sh
# Times a load of retail data by the proved build (`aso_load::load`, `Buffer::put`, `Buffer::cells`) beside Python's `csv` with a dict and
# beside the `.import` of the shell `sqlite3`, over one file, in turn on this machine. Wants the kit's `rt`, `python3` and `sqlite3`. The
# proved program is made in a folder of its own, which is removed at the end; from nothing its proof takes many minutes.
set -eu
top=$(cd "$(dirname "$0")/.." && pwd)
turns=${1:-7}
rows=${2:-200000}
. "$top/bench/crates.sh"
names='aso_memory aso_num aso_tree aso_outline aso_words aso_runs aso_keys aso_rules aso_load aso_buffer'
gather $names
echo "times: $names sqlite_items serde_json csv indexmap thiserror anyhow" >>"$work/crates.txt"
mkdir -p "$work/crates/times/src"
cat >"$work/crates/times/src/main.rt" <<'EOP'
//! Times the load of a data file into a buffer.
#![tactic(auto)]

ghost use Rattle.std.specs.Prelude.{◌≡◌, ◌*◌, ◌≤◌, IfOk};
ghost use Rattle.aso_keys.specs.Axes.{bits_of};
ghost use Rattle.aso_keys.specs.Layouts.{IsLayout};
ghost use Rattle.aso_keys.specs.Views.{IsBase, IsView};

use anyhow::{Result, anyhow};
use aso_buffer::{Buffer, Kind};
use aso_keys::{Layout, View, view_of};
use aso_load::load;
use aso_num::{List, Text};
use aso_outline::{Aggregate, Draft, DraftDim, DraftHier, DraftMember, Op, Outline};
use aso_rules::{Rules, read};
use std::alloc::Global;
use std::fs;
use std::time::Instant;

fn member(alloc: Global, name: String, parent: u32, label_only: bool) -> Result<DraftMember> {
    Ok(DraftMember {
        name: Text::of(name),
        parent,
        shared: false,
        label_only,
        op: Op::Plus,
        solve: None,
        formula: None,
        carries: List::of(Vec::new(alloc)),
    })
}

fn named(alloc: Global, name: &str, members: Vec<DraftMember>, dynamic: bool) -> Result<DraftDim> {
    let tree = DraftHier {
        dynamic,
        members: List::of(members),
    };
    Ok(DraftDim {
        name: Text::of(String::from_str(alloc, name)?),
        aggregate: Aggregate::All,
        hiers: List::of(vec![in alloc; tree]?),
    })
}

/// A dimension of so many parents, each with so many parents, each with so many leaves, which are numbered from 0.
fn deep(
    alloc: Global,
    name: &str,
    high: &str,
    low: &str,
    leaf: &str,
    counts: (u16, u16, u16),
) -> Result<DraftDim> {
    let mut members = Vec::new(alloc);
    members.push(member(alloc, String::from_str(alloc, name)?, u32::MAX, false)?)?;
    let mut at = 1u32;
    let mut leaves = 0u32;
    for a in 0..counts.0 {
        members.push(member(alloc, format!(in alloc; "{high} {a}")?, 0, false)?)?;
        let above = at;
        at = at.wrapping_add(1);
        for b in 0..counts.1 {
            members.push(member(alloc, format!(in alloc; "{low} {a} {b}")?, above, false)?)?;
            let parent = at;
            at = at.wrapping_add(1);
            for _ in 0..counts.2 {
                members.push(member(alloc, format!(in alloc; "{leaf} {leaves}")?, parent, false)?)?;
                at = at.wrapping_add(1);
                leaves = leaves.wrapping_add(1);
            }
        }
    }
    named(alloc, name, members, false)
}

/// A dimension of leaves under its own member, which are numbered from 0.
fn flat(alloc: Global, name: &str, leaf: &str, count: u16) -> Result<DraftDim> {
    let mut members = Vec::new(alloc);
    members.push(member(alloc, String::from_str(alloc, name)?, u32::MAX, false)?)?;
    for n in 0..count {
        members.push(member(alloc, format!(in alloc; "{leaf} {n}")?, 0, false)?)?;
    }
    named(alloc, name, members, false)
}

/// A dimension that is label only over these leaves.
fn labels(alloc: Global, name: &str, leaves: &[&str], dynamic: bool) -> Result<DraftDim> {
    let mut members = Vec::new(alloc);
    members.push(member(alloc, String::from_str(alloc, name)?, u32::MAX, true)?)?;
    for leaf in leaves {
        members.push(member(alloc, String::from_str(alloc, leaf)?, 0, false)?)?;
    }
    named(alloc, name, members, dynamic)
}

fn retail(alloc: Global) -> Result<Outline> {
    let mut dims = Vec::new(alloc);
    dims.push(deep(alloc, "Time", "Year", "Quarter", "Month", (2, 4, 3))?)?;
    let product = deep(alloc, "Product", "Department", "Class", "Men's Shoes,", (40, 15, 60))?;
    dims.push(product)?;
    dims.push(deep(alloc, "Store", "Region", "State", "Store no.", (10, 5, 60))?)?;
    dims.push(flat(alloc, "Segment", "Segment no.", 8)?)?;
    dims.push(flat(alloc, "Promotion", "Promotion no.", 16)?)?;
    dims.push(labels(alloc, "Scenario", ["Actual", "Budget"].as_slice(), false)?)?;
    let measures = ["Sales", "Cost", "Units", "Returns"];
    dims.push(labels(alloc, "Measures", measures.as_slice(), true)?)?;
    let draft = Draft {
        app: Text::of(String::from_str(alloc, "Retail")?),
        db: Text::of(String::from_str(alloc, "Main")?),
        dims: List::of(dims),
        attrs: List::of(Vec::new(alloc)),
    };
    match Outline::verify(alloc, draft) {
        Ok(outline) => Ok(outline),
        Err(_) => Err(anyhow!("no outline")),
    }
}

fn base(alloc: Global, outline: &Outline) -> Result<View>
    ensures view { IfOk result (λ v. IsView outline.now v.choices) }
    ensures base { IfOk result (λ v. IsBase v.choices) }
{
    match view_of(alloc, outline, 0)? {
        Some(view) => Ok(view),
        None => Err(anyhow!("no view")),
    }
}

fn time(
    rt: &HostRuntime,
    outline: &Outline,
    rules: &Rules,
    view: &View,
    layout: &Layout,
) -> Result<()>
    requires bits { bits_of layout.now ≤ 64 * 1 }
    requires base { IsBase view.now.choices }
    requires own { IsLayout outline.now view.now.choices layout.now }
{
    let alloc = rt.alloc();
    let start = Instant::now(rt)?;
    let Ok(bytes) = fs::read(rt, "rows.csv") else {
        println!(rt; "no rows.csv here")?;
        return Ok(());
    };
    let loaded = load(alloc, outline, rules, &bytes)?;
    let load_spent = start.elapsed(rt)?.as_nanos();
    let mut buffer = Buffer::new(alloc, Kind::Sum);
    buffer.put(loaded.amounts.items())?;
    let put_spent = start.elapsed(rt)?.as_nanos();
    buffer.keeps_keys(outline, view, layout);
    let Ok(run) = buffer.cells::<1>(alloc, layout) else {
        return Err(anyhow!("out of range"));
    };
    let spent = start.elapsed(rt)?.as_nanos();
    let mut total = 0i128;
    for cell in run.cells() {
        total = total.wrapping_add(cell.amount);
    }
    let cells = run.cells().len();
    println!(rt; "load {load_spent} {cells} {total}")?;
    println!(rt; "put {put_spent} {cells} {total}")?;
    println!(rt; "all {spent} {cells} {total}")?;
    Ok(())
}

fn main(rt: HostRuntime) -> Result<()> {
    let alloc = rt.alloc();
    let outline = retail(alloc)?;
    let text =
        b"{\"header_records\":1,\"columns\":[{\"dimension\":\"Time\"},{\"dimension\":\"Product\"},{\"dimension\":\"Store\"},{\"dimension\":\"Segment\"},{\"dimension\":\"Promotion\"},{\"data\":[\"Sales\"]}],\"fixed\":[\"Actual\"]}";
    let Ok(rules) = read(alloc, &outline, text) else {
        return Err(anyhow!("no rules"));
    };
    let view = base(alloc, &outline)?;
    let layout = Layout::new(alloc, &outline, &view)?;
    if layout.bits() > 64 {
        return Err(anyhow!("keys of more than one word"));
    }
    time(&rt, &outline, &rules, &view, &layout)
}
EOP
cat >"$work/rows.py" <<'EOF'
import csv, random, sys
random.seed(1)
rows = csv.writer(open("rows.csv", "w", newline=""), lineterminator="\n")
rows.writerow(["Time", "Product", "Store", "Segment", "Promotion", "Sales"])
for _ in range(int(sys.argv[1])):
    rows.writerow([
        "Month %d" % random.randrange(24), "Men's Shoes, %d" % random.randrange(36000), "Store no. %d" % random.randrange(3000),
        "Segment no. %d" % random.randrange(8), "Promotion no. %d" % random.randrange(16), "1.25"])
EOF
cat >"$work/load.py" <<'EOF'
import csv, time
start = time.perf_counter_ns()
cells = {}
with open("rows.csv", newline="") as file:
    rows = csv.reader(file)
    next(rows)
    for row in rows:
        key = tuple(row[:5])
        cells[key] = cells.get(key, 0) + round(float(row[5]) * 10000)
spent = time.perf_counter_ns() - start
print("python all", spent, len(cells), sum(cells.values()))
EOF
cd "$work"
python3 rows.py "$rows"
(cd crates/times && rt run) >build.log 2>&1 || { tail -40 build.log >&2; exit 1; }
for turn in $(seq "$turns"); do
    crates/times/out/times | sed 's/^/proved /'
    python3 load.py
    rm -f store.db
    start=$(date +%s%N)
    sqlite3 store.db 'PRAGMA journal_mode = OFF;' 'PRAGMA synchronous = OFF;' '.import --csv rows.csv loaded' >/dev/null
    end=$(date +%s%N)
    echo "sqlite all $((end - start)) 0 0"
done >times.txt
# rows a second of each (by the median time), and the proved build's time against the two others'; then the parts of its time
awk -v rows="$rows" '
    { n = ++count[$1, $2]; all[$1, $2, n] = $3
      if ($1 != "sqlite") { if (sums != "" && sums != $4 " " $5) { print "the two do not agree"; failed = 1 } sums = $4 " " $5 } }
    function median(who, key,   n, i, j, t, v) {
        n = count[who, key]; for (i = 1; i <= n; i++) v[i] = all[who, key, i]
        for (i = 1; i <= n; i++) for (j = i + 1; j <= n; j++) if (v[j] < v[i]) { t = v[i]; v[i] = v[j]; v[j] = t }
        return v[int((n + 1) / 2)]
    }
    END { if (count["proved", "all"] != count["python", "all"]) { print "the proved build has not run"; failed = 1 }
          if (failed) exit 1
          p = median("proved", "all"); y = median("python", "all"); s = median("sqlite", "all")
          print "rows_a_second proved python sqlite proved/python proved/sqlite"
          printf "load %.0f %.0f %.0f %.2f %.2f\n", rows * 1e9 / p, rows * 1e9 / y, rows * 1e9 / s, p / y, p / s
          l = median("proved", "load"); q = median("proved", "put")
          printf "of the proved time: load %.0f%%, put %.0f%%, cells %.0f%%\n", 100 * l / p, 100 * (q - l) / p, 100 * (p - q) / p
          print "cells and units: " sums }
' times.txt
