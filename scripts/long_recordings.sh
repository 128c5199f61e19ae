#!/bin/sh
# Two long recordings through the shipped program, outside the gate: wants python3 and half a gigabyte for files. What their
# reports must say is worked out by hand.
#
# ten_minutes_at_1199_hz: a sine at a rate that divides no tick, from a second before noon on: 3,269 items, all clear.
# two_hours: 140 minutes of three channels from 09:55 on, squares of 32 samples at 1600 Hz; ten cycles of the first channel are
# lower at 11:05. Thirteen ten-minute records a channel, from 10:00 to 12:00, of which that of 11:00 is flagged; one two-hour
# record a channel, of 10:00, flagged; one dip.
set -e
home=$(cd "$(dirname "$0")/.." && pwd)
work=$(mktemp -d)
trap 'rm -rf "$work"' EXIT
python3 - "$work" <<'PYTHON'
import struct, sys

SINE = [0, 2588, 5000, 7071, 8660, 9659, 10000, 9659, 8660, 7071, 5000, 2588]
SINE += [-count for count in SINE]
LOW = range(6_720_000, 6_720_320)

def square(i):
    sign = 1 if i % 32 < 16 else -1
    return sign * (6000 if i in LOW else 7000), sign * 7000, sign * 7000

def write(name, rate, first, n, counts):
    count = len(counts(0))
    lines = "".join(f"{k + 1},U{p},{p},,V,0.0325,0,0,-32767,32767,1,1,P\n" for k, p in enumerate("ABC"[:count]))
    path = f"{sys.argv[1]}/{name}"
    with open(path + ".cfg", "w") as cfg:
        cfg.write(f"demo,pqa,1999\n{count},{count}A,0D\n{lines}50\n1\n{rate},{n}\n{first}\n{first}\nBINARY\n1\n")
    form = "<II" + "h" * count
    with open(path + ".dat", "wb") as dat:
        for start in range(0, n, 100_000):
            dat.write(b"".join(struct.pack(form, i + 1, 0, *counts(i)) for i in range(start, min(start + 100_000, n))))

write("ten_minutes_at_1199_hz", 1199, "01/03/2024,11:59:59.000000", 721_798, lambda i: (SINE[i % 24],))
write("two_hours", 1600, "01/03/2024,09:55:00.000000", 13_440_000, square)
PYTHON
for name in ten_minutes_at_1199_hz two_hours; do
    "$home/pqa" intervals --udin 230000 "$work/$name.cfg" "$work/$name.dat" >"$work/$name.csv"
done
python3 - "$work" <<'PYTHON'
import collections, sys

def rows_of(name):
    return [line.rstrip("\n").split(",") for line in open(f"{sys.argv[1]}/{name}.csv")][1:]

def count(rows):
    return dict(collections.Counter(row[0] for row in rows))

rows = rows_of("ten_minutes_at_1199_hz")
assert count(rows) == {"basic": 5 + 2998 + 4, "short": 201, "freq": 60, "ten": 1}, count(rows)
assert all(row[9] == "clear" for row in rows)
assert all(row[7] == "49958333" for row in rows if row[0] == "freq")
ten = "ten,1,1200,720720,2024-03-01T12:00:00.000834028Z,2024-03-01T12:10:00.100917431Z,2024-03-01T12:00:00.000000000Z,229805362,2998,clear"
assert ten.split(",") in rows
print(f"ok      ten_minutes_at_1199_hz, {len(rows)} rows")

rows = rows_of("two_hours")
hours = [f"2024-03-01T{10 + k // 6:02}:{k % 6 * 10:02}:00.000000000Z" for k in range(13)]
for channel in "123":
    tens, twos = ([row for row in rows if row[:2] == [kind, channel]] for kind in ("ten", "two"))
    assert [row[6] for row in tens] == hours, tens
    assert [row[6] for row in tens if row[9] == "flagged"] == ["2024-03-01T11:00:00.000000000Z"], tens
    assert [(row[6], row[8], row[9]) for row in twos] == [(hours[0], "12", "flagged")], twos
events = [row[:4] + row[7:] for row in rows if row[0] in ("dip", "swell", "interruption")]
assert events == [["dip", "1", "6720000", "6720336", "195000000", "0", "closed"]], events
print(f"ok      two_hours, {len(rows)} rows")
PYTHON
