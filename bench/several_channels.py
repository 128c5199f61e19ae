#!/usr/bin/env python3
"""Writes two recordings of several channels of voltage into a folder, noisy sines at 1600 samples a second from 9:55 on,
each with a dip of one channel or another each minute: three.cfg and three.dat, three channels of 13,440,000 samples;
sixteen.cfg and sixteen.dat, sixteen channels of 2,000,000."""
import math
import struct
import sys

CYCLE = [round(10_000 * math.sin(math.pi * k / 16)) for k in range(32)]
DIPS_EACH, DIP = 96_000, 64
# after so many records sine and noise begin anew
PERIOD = 32 * 41


def counts(i, channels, low):
    noise = i * 7919 % 41 - 20
    sines = [CYCLE[(i + 32 * c // channels) % 32] for c in range(channels)]
    return [(7 * x // 10 if c == low else x) + noise for c, x in enumerate(sines)]


def write(folder, name, channels, samples):
    lines = ["demo,pqa,1999", f"{channels},{channels}A,0D"]
    lines += [f"{c + 1},U{c + 1},,,V,0.0325,0,0,-32767,32767,1,1,P" for c in range(channels)]
    lines += ["50", "1", f"1600,{samples}", "01/03/2024,09:55:00.000000", "01/03/2024,09:55:00.000000", "BINARY", "1"]
    with open(f"{folder}/{name}.cfg", "w", newline="") as cfg:
        cfg.write("".join(line + "\n" for line in lines))
    shape = f"<{channels}h"
    usual = [bytes(4) + struct.pack(shape, *counts(i, channels, -1)) for i in range(PERIOD)]

    def record(i):
        if i % DIPS_EACH < DIP:
            said = bytes(4) + struct.pack(shape, *counts(i, channels, i // DIPS_EACH % channels))
        else:
            said = usual[i % PERIOD]
        return struct.pack("<I", i + 1) + said

    with open(f"{folder}/{name}.dat", "wb") as dat:
        for start in range(0, samples, 100_000):
            dat.write(b"".join(record(i) for i in range(start, min(start + 100_000, samples))))


write(sys.argv[1], "three", 3, 13_440_000)
write(sys.argv[1], "sixteen", 16, 2_000_000)
