#!/usr/bin/env python3
"""How far records are off where the phase of a signal jumps: sines of 230 V at 4800 samples a second whose phase jumps 2 s after
the start by each multiple of ten degrees, with and without an interruption of 0.2 s, measured by `pqa intervals`. Outside the
gate: a few minutes. Prints a line for each line frequency: how long cycle boundaries lay beside the crossings of the signal, and
how far records marked clear were off the true 230 V at most, of those that begin after the jump and of those that hold it."""
import array
import math
import os
import subprocess
import sys
import tempfile

PQA = os.path.join(os.path.dirname(os.path.dirname(os.path.realpath(__file__))), "pqa")
RATE, SECONDS, JUMP, VOLTS, VOLTS_A_COUNT = 4800, 22, 2.003, 230, 0.0325


def phases(hertz, radians, interruption):
    """Returns the phase of each sample, or None where the channel is interrupted."""
    end = JUMP + interruption
    for place in range(RATE * SECONDS):
        time = place / RATE
        if JUMP <= time < end:
            yield None
        else:
            yield 2 * math.pi * hertz * time - 0.3 + (radians if time >= end else 0)


def measure(folder, phases_of_samples):
    """Returns the basic records of a signal: start, end, value in volts, mark."""
    size = VOLTS * math.sqrt(2) / VOLTS_A_COUNT
    counts = array.array("h", (0 if it is None else round(size * math.sin(it)) for it in phases_of_samples))
    raw = bytearray(10 * len(counts))
    for at in range(2):
        raw[8 + at :: 10] = counts.tobytes()[at::2]
    for at in range(4):
        raw[at::10] = bytes((place + 1) >> 8 * at & 255 for place in range(len(counts)))
    with open(f"{folder}/jump.dat", "wb") as it:
        it.write(raw)
    lines = ["demo,pqa,1999", "1,1A,0D", f"1,UA,A,,V,{VOLTS_A_COUNT},0,0,-32767,32767,1,1,P", "50", "1"]
    lines += [f"{RATE},{len(counts)}", *["01/03/2024,12:00:01.000000"] * 2, "BINARY", "1", ""]
    with open(f"{folder}/jump.cfg", "w", encoding="ascii") as it:
        it.write("\n".join(lines))
    words = [PQA, "intervals", "--udin", str(1000 * VOLTS), f"{folder}/jump.cfg", f"{folder}/jump.dat"]
    rows = [it.split(",") for it in subprocess.run(words, stdout=subprocess.PIPE, check=True, text=True).stdout.split()[1:]]
    return [(int(it[2]), int(it[3]), int(it[7]) / 1e6, it[9]) for it in rows if it[0] == "basic"]


def is_beside(phase, hertz):
    """Whether a phase is further than a sample and a half from a zero crossing."""
    of_half = phase / math.pi % 1
    return min(of_half, 1 - of_half) * RATE / (2 * hertz) > 1.5


def study(folder, hertz, degrees, interruption):
    """Returns how long boundaries lay beside crossings, and by which share records were off after the jump and at it."""
    signal = [*phases(hertz, math.radians(degrees), interruption)]
    after, seconds, off_after, off_at = (JUMP + interruption) * RATE, 0, 0, 0
    for start, end, value, mark in measure(folder, signal):
        off = abs(value / VOLTS - 1)
        if start >= after and is_beside(signal[start], hertz):
            seconds = end / RATE - JUMP - interruption
        if mark == "clear" and start >= after:
            off_after = max(off_after, off)
        elif mark == "clear" and end > JUMP * RATE:
            off_at = max(off_at, off)
    return seconds, off_after, off_at


with tempfile.TemporaryDirectory() as folder:
    for hertz in (49.5, 49.9, 49.95, 50, 50.05, 50.1, 50.5):
        for interruption in (0, 0.2):
            found = [study(folder, hertz, degrees, interruption) for degrees in range(-180, 180, 10)]
            seconds, off_after, off_at = map(max, zip(*found))
            lost = sum(it[0] > 0 for it in found)
            print(
                f"{hertz} Hz, interrupted for {interruption} s: {lost} of {len(found)} jumps put boundaries beside crossings, for"
                f" {seconds:.1f} s at most; clear records off by {off_after:.2%} after the jump, by {off_at:.2%} at it"
            )
            sys.stdout.flush()
