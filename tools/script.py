#!/usr/bin/env python3
"""Writes a script of a million lines for timing: a bench day, and a hundred flights of one-second legs that are all flown."""
import sys

LINES, FLIGHTS = 1000000, 100

out = ["bench 45000 0"]
for n in range(LINES):
    if n % (LINES // FLIGHTS) == 0:
        out += ["start 50000000 10000000", "leg 1 10000 3000 250 1"]
    else:
        out.append(f"leg {1 + n % 2} {20000 + n % 7000} {3500 + n % 900} 280 1")
sys.stdout.write("\n".join(out[:LINES]) + "\n")
