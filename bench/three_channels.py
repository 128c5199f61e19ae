#!/usr/bin/env python3
"""Writes a recording of 188 MB into a folder: three channels of voltage, 13,440,000 records of 14 bytes, as three.cfg and
three.dat, and a cfg of as many samples whose dat is empty, as none.cfg and none.dat."""
import struct
import sys

CYCLE = [0, 2588, 5000, 7071, 8660, 9659, 10000, 9659, 8660, 7071, 5000, 2588]
CYCLE += [-count for count in CYCLE]
SAMPLES = 13_440_000
LINES = [
    "demo,pqa,1999", "3,3A,0D",
    "1,UA,A,,V,0.0325,0,0,-32767,32767,1,1,P",
    "2,UB,B,,V,0.032500000001,0.000000000007,0,-32767,32767,1,1,P",
    "3,UC,C,,V,-0.0325,0.000000012345,0,-32767,32767,1,1,P",
    "50", "1", f"1600,{SAMPLES}", "01/03/2024,09:55:00.000000", "01/03/2024,09:55:00.000000", "BINARY", "1",
]


def record(i):
    counts = [CYCLE[(i + 8 * phase) % 24] + i * 7919 % (41 + phase) - 20 for phase in range(3)]
    return struct.pack("<IIhhh", i + 1, 0, *counts)


folder = sys.argv[1]
for name in ("three", "none"):
    with open(f"{folder}/{name}.cfg", "w", newline="") as cfg:
        cfg.write("".join(line + "\n" for line in LINES))
open(f"{folder}/none.dat", "wb").close()
with open(f"{folder}/three.dat", "wb") as dat:
    for start in range(0, SAMPLES, 100_000):
        dat.write(b"".join(record(i) for i in range(start, min(start + 100_000, SAMPLES))))
