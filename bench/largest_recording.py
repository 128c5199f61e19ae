#!/usr/bin/env python3
"""Writes two recordings of ten million samples into a folder, a noisy sine at 1200 samples a second from a second
after noon on: largest.cfg and largest.dat, with a dip each ten minutes; dips.cfg and dips.dat, with a dip each four cycles."""
import struct
import sys

CYCLE = [0, 2588, 5000, 7071, 8660, 9659, 10000, 9659, 8660, 7071, 5000, 2588]
CYCLE += [-count for count in CYCLE]
SAMPLES = 10_000_000
LINES = [
    "demo,pqa,1999", "1,1A,0D", "1,UA,A,,V,0.0325,0,0,-32767,32767,1,1,P", "50", "1", f"1200,{SAMPLES}",
    "01/03/2024,12:00:01.000000", "01/03/2024,12:00:01.000000", "BINARY", "1",
]


def count(i, dips_each):
    size = 7000 if i % dips_each < 48 else 10_000
    return CYCLE[i % 24] * size // 10_000 + i * 7919 % 41 - 20


folder = sys.argv[1]
for name, dips_each in [("largest", 720_000), ("dips", 96)]:
    with open(f"{folder}/{name}.cfg", "w", newline="") as cfg:
        cfg.write("".join(line + "\n" for line in LINES))
    with open(f"{folder}/{name}.dat", "wb") as dat:
        for start in range(0, SAMPLES, 100_000):
            records = (struct.pack("<IIh", i + 1, 0, count(i, dips_each)) for i in range(start, start + 100_000))
            dat.write(b"".join(records))
