#!/bin/sh
# generated_recording, through the shipped program, outside the gate: wants python3. For three seeds the files that `emit` writes
# are measured by `analyse`, and its rows counted and folded: that is the summary that `generate` prints, which is also compared
# with one that is worked out apart from the program (generated_summary.py).
set -e
home=$(cd "$(dirname "$0")/.." && pwd)
work=$(mktemp -d)
trap 'rm -rf "$work"' EXIT
for seed in 0 1 18446744073709551615; do
    "$home/pqa" emit cfg $seed >"$work/a.cfg"
    "$home/pqa" emit dat $seed >"$work/a.dat"
    "$home/pqa" analyse --udin 230000 "$work/a.cfg" "$work/a.dat" >"$work/a.csv"
    "$home/pqa" generate $seed >"$work/summary"
    python3 - $seed "$work/a.csv" >"$work/counted" <<'PYTHON'
import csv, sys

rows = list(csv.DictReader(open(sys.argv[2])))
print(f"seed {sys.argv[1]}\nsamples 722400")
for kind in "freq", "basic", "short", "ten", "two", "dip", "swell", "interruption":
    mark = "open" if kind in ("dip", "swell", "interruption") else "flagged"
    marks = [row["mark"] for row in rows if row["kind"] == kind]
    print(kind, len(marks), mark, marks.count(mark))
fold = 0
for row in rows:
    fold = (31 * fold + int(row["value"]) + int(row["end"])) % 2**64
print("fold", fold)
PYTHON
    cmp "$work/summary" "$work/counted"
    python3 "$home/scripts/generated_summary.py" $seed | cmp "$work/summary" -
    echo "ok      generated_recording, seed $seed"
done
