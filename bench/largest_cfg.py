#!/usr/bin/env python3
"""Writes a cfg of 999 analogue and 999 status channels and just under 1,048,576 bytes as many.cfg into a folder."""
import sys

folder = sys.argv[1]
lines = ["many , pqa ,2013", "1998,999A,999D"]
lines += [f"{n}, U{n:0>420} ,A,,kV,1.525879E-02,-0.5,0,-32767,32767,400,1,P" for n in range(1, 1000)]
lines += [f"{n}, S{n:0>520} ,,,0" for n in range(1, 1000)]
lines += ["50.00", "1", "4800.000,9600", "01/03/2024,06:30:01.000000", "01/03/2024,06:30:01.500000"]
lines += ["binary", "1.0", "-5h30,x", "b,3"]
text = "".join(line + "\r\n" for line in lines)
assert 1_000_000 < len(text) <= 1_048_576, len(text)
with open(f"{folder}/many.cfg", "w", newline="") as cfg:
    cfg.write(text)
