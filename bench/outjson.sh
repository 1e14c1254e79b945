#!/bin/sh
# Times `aso_outjson::read` of the proved build, verification and look-ups included, on an outline in JSON with 40,000 members: a stored
# hierarchy of three levels under its root and a dynamic one with 956 formulas. Beside it, in turn, Python's `json.loads` reads the same
# text and does nothing else. Wants the kit's `rt` and `python3`. The proved program is made in a folder of its own, which is removed at
# the end; from nothing its proof takes many minutes.
set -eu
top=$(cd "$(dirname "$0")/.." && pwd)
turns=${1:-7}
. "$top/bench/crates.sh"
names='aso_memory aso_num aso_tree aso_outline aso_token aso_formula aso_rules aso_outjson'
gather $names
echo "times: $names sqlite_items serde_json indexmap thiserror anyhow" >>"$work/crates.txt"
mkdir -p "$work/crates/times/src"
cat >"$work/crates/times/src/main.rt" <<'EOP'
//! Times the reading of an outline in JSON.
#![tactic(auto)]

use anyhow::{Result, anyhow};
use aso_outjson::read;
use std::fs;
use std::time::Instant;

fn main(rt: HostRuntime) -> Result<()> {
    let Ok(text) = fs::read(&rt, "outline.json") else {
        println!(rt; "no outline.json here")?;
        return Ok(());
    };
    let start = Instant::now(&rt)?;
    let Ok(outline) = read(rt.alloc(), &text) else {
        return Err(anyhow!("no outline"));
    };
    let spent = start.elapsed(&rt)?.as_nanos();
    println!(rt; "{spent} {}", outline.members())?;
    Ok(())
}
EOP
cat >"$work/outline.py" <<'EOF'
import json
def member(name, children):
    return {"name": name, "children": children}
def dim(name, kind, root):
    return {"name": name, "hierarchies": [{"kind": kind, "root": root}]}
departments = [
    member("Department %d" % d, [
        member("Class %d %d" % (d, c), [{"name": "Product no. %d" % (950 * d + 38 * c + p)} for p in range(38)]) for c in range(25)])
    for d in range(40)]
# chains of 60, in which each names the one before it
formulas = [{"name": "f%d" % n, "formula": "([a] - [b]) / [a] * 100" if n % 60 == 0 else "[f%d] + [a] * %d" % (n - 1, n)} for n in range(956)]
dims = [dim("Product", "stored", member("Product", departments)), dim("m", "dynamic", member("m", [{"name": "a"}, {"name": "b"}] + formulas))]
open("outline.json", "w").write(json.dumps({"app": "Sample", "db": "Wide", "dimensions": dims}))
EOF
cat >"$work/loads.py" <<'EOF'
import json, time
text = open("outline.json", "rb").read()
start = time.perf_counter_ns()
read = json.loads(text)
spent = time.perf_counter_ns() - start
def members(root):
    return 1 + sum(map(members, root.get("children", [])))
print("python", spent, sum(members(h["root"]) for d in read["dimensions"] for h in d["hierarchies"]))
EOF
cd "$work"
python3 outline.py
(cd crates/times && rt run) >build.log 2>&1 || { tail -40 build.log >&2; exit 1; }
for turn in $(seq "$turns"); do
    crates/times/out/times | sed 's/^/proved /'
    python3 loads.py
done >times.txt
awk -v bytes="$(wc -c <outline.json)" '
    { n = ++count[$1]; all[$1, n] = $2
      if (members != "" && members != $3) { print "the two do not agree"; failed = 1 } members = $3 }
    function median(who,   n, i, j, t, v) {
        n = count[who]; for (i = 1; i <= n; i++) v[i] = all[who, i]
        for (i = 1; i <= n; i++) for (j = i + 1; j <= n; j++) if (v[j] < v[i]) { t = v[i]; v[i] = v[j]; v[j] = t }
        return v[int((n + 1) / 2)]
    }
    END { if (count["proved"] != count["python"]) { print "the proved build has not run"; failed = 1 }
          if (failed) exit 1
          p = median("proved"); y = median("python")
          print "members bytes milliseconds_proved milliseconds_python ratio"
          printf "%d %d %.1f %.1f %.2f\n", members, bytes, p / 1e6, y / 1e6, p / y }
' times.txt
