#!/bin/sh
# Times `aso run` of the proved build on a query of 100,000 cells over a store of 1,000 cells: 250 products on columns, 400 stores on rows. Beside it, in turn, Python
# reads the same amounts into a dict and writes the same text, which has to agree byte for byte. Both times are those of the whole program, its start and its files
# included. Wants `python3`. Where no proved program stands, it times the one that `tools/quick-build` makes, and says that this one is not proved.
set -eu
top=$(cd "$(dirname "$0")/.." && pwd)
turns=${1:-7}
aso=${2:-$("$top/tools/program")}
work=$(mktemp -d)
trap 'rm -rf "$work"' EXIT
cd "$work"
cat >make.py <<'EOP'
import random
random.seed(1)
cells = random.sample([(p, s) for p in range(250) for s in range(400)], 1000)
with open("wide.outline", "w") as out:
    out.write("dim Product\n" + "".join(".p%d\n" % p for p in range(250)) + "dim Store\n" + "".join(".s%d\n" % s for s in range(400)))
with open("load.script", "w") as out:
    out.writelines("alter database Sample.Basic add cell ([p%d],[s%d]) %d.5;\n" % (p, s, p + s) for p, s in cells)
with open("cells.txt", "w") as out:
    out.writelines("%d %d %d\n" % (p, s, (p + s) * 10000 + 5000) for p, s in cells)
with open("query.script", "w") as out:
    out.write("select {Product.children} on columns, {Store.children} on rows from Sample.Basic;\n")
EOP
cat >grid.py <<'EOP'
cells = {}
with open("cells.txt") as lines:
    for line in lines:
        p, s, units = map(int, line.split())
        cells[p, s] = cells.get((p, s), 0) + units
def shown(units):
    return "#Missing" if units is None else "%d.%04d" % divmod(units, 10000)
print("GRID 1 commit 1000 rows 400 columns 250")
print("\t" + "\t".join("p%d" % p for p in range(250)))
for s in range(400):
    print("s%d\t" % s + "\t".join(shown(cells.get((p, s))) for p in range(250)))
print("END 1")
EOP
cat >times.py <<'EOP'
import statistics, subprocess, sys, time
turns, aso = int(sys.argv[1]), sys.argv[2]
def timed(words):
    start = time.perf_counter()
    text = subprocess.run(words, stdout=subprocess.PIPE, check=True).stdout
    return time.perf_counter() - start, text
proved, python = [], []
for turn in range(turns):
    one, grid = timed([aso, "run", "store", "query.script"])
    other, wanted = timed([sys.executable, "grid.py"])
    if grid != wanted:
        sys.exit("the two do not agree")
    proved.append(one)
    python.append(other)
p, y = statistics.median(proved), statistics.median(python)
print("cells 100000 milliseconds_aso %.0f milliseconds_python %.0f ratio %.2f" % (1000 * p, 1000 * y, p / y))
EOP
python3 make.py
"$aso" create store wide.outline
"$aso" run store load.script | tail -1
python3 times.py "$turns" "$aso"
