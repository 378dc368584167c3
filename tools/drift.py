#!/usr/bin/env python3
"""Replays random chains of calls through `fuelsheet` and holds its masses against an exact book of its own.

The book is kept as a pair of fractions that enclose it, rounded outward to 2^-64 mg at each leg, since exact
fractions double in length with each cruise leg. Prints the worst drift in mg for each second of accepted legs,
and the worst error of a single leg by phase. Usage: drift.py FUELSHEET AIRCRAFT.opf [CHAINS [CALLS [SEED]]]
"""
import random
import re
import subprocess
import sys
import tempfile
from fractions import Fraction as F
from math import ceil, floor
import os

NUMBER = re.compile(r"(-?)\.(\d{5})E([+-])(\d\d)$")


def number(text):
    sign, digits, way, exponent = NUMBER.match(text).groups()
    power = int(exponent) * (1 if way == "+" else -1) - 5
    return (-1 if sign else 1) * int(digits) * F(10) ** power


class Aircraft:
    def __init__(self, path):
        lines = [l.rstrip("\r") for l in open(path, encoding="ascii").read().split("\n")]
        data = [l[2:].split("/")[0].split() for l in lines if l.startswith("CD")]
        self.jet = data[0][3] == "Jet"
        self.reference, self.minimum, self.maximum = (number(x) for x in data[1][:3])
        self.ceiling = number(data[2][2])
        self.wing = number(data[3][1])
        self.rows = {f[1]: tuple(number(x) for x in f[-4:-1]) for f in data[4:9]}
        self.gear = number(data[12][2])
        self.ctc = [number(x) for x in data[15][:5]]
        self.low, self.high, self.level, self.approach, self.landing = (number(x) for x in data[16][:5])
        self.cf1, self.cf2 = (number(x) for x in data[18][:2])
        self.cf3, self.cf4 = (number(x) for x in data[19][:2])
        self.cruise = number(data[20][0])

    def configuration(self, phase, h, c):
        if phase == 1:
            return "TO" if h <= 400 else "IC" if h <= 2000 else "CR"
        if phase == 2 or h >= 8000 or c >= F(13, 10) * self.rows["CR"][0] + 10:
            return "CR"
        return "LD" if h < 3000 and c < F(13, 10) * self.rows["AP"][0] + 10 else "AP"

    def standard_thrust(self, h, v):
        c1, c2, c3 = self.ctc[:3]
        if self.jet:
            return c1 * max(F(0), 1 - F(h) / c2 + c3 * h * h)
        return max(F(0), c1 / v * max(F(0), 1 - F(h) / c2) + c3)

    def nominal(self, v, thrust):
        if self.jet:
            eta = self.cf1 * (1 + v / self.cf2)
        else:
            eta = self.cf1 * max(F(0), 1 - v / self.cf2) * v / 1000
        return eta * thrust / 1000  # kg/min for N

    def burn(self, phase, h, v, c, t, density, deviation, mass):
        """kg burned in t seconds at an exact mass in kg"""
        name = self.configuration(phase, h, c)
        speed = v * F(1852, 3600)
        force = density * speed * speed / 2 * self.wing
        stall, cd0, cd2 = self.rows[name]
        if name == "LD":
            cd0 += self.gear
        weight = mass * F(980665, 100000)
        drag = cd0 * force + cd2 * weight * weight / force
        loss = min(max(self.ctc[4] * (deviation - self.ctc[3]), F(0)), F(4, 10))
        available = self.standard_thrust(h, v) * (1 - loss)
        idle = self.cf3 * max(F(0), 1 - F(h) / self.cf4)
        if phase == 1:
            flow = self.nominal(v, available)
        elif phase == 2:
            flow = self.nominal(v, min(drag, F(95, 100) * available)) * self.cruise
        else:
            factor = {"AP": self.approach, "LD": self.landing}.get(name, self.high if h > self.level else self.low)
            flow = idle if name == "CR" else max(self.nominal(v, factor * available), idle)
        return flow * t / 60


def outward(low, high):
    unit = 2**64
    return F(floor(low * unit), unit), F(ceil(high * unit), unit)


def chain(rng, aircraft, calls):
    density, deviation = rng.randint(5000, 150000), rng.randint(-5000, 5000)
    low, high = int(aircraft.minimum * 10**6), int(aircraft.maximum * 10**6)
    zero = rng.randint(low, high)
    fuel = rng.randint(0, min(high - zero, 10**9))
    script = [f"bench {density} {deviation}", f"start {zero} {fuel} {rng.randint(0, 2 * fuel + 1)}"]
    steady = None
    for _ in range(calls):
        kind = rng.random()
        if kind < 0.04:
            script.append(f"uplift {rng.randint(1, 10**6)}")
        elif kind < 0.08:
            script.append(f"jettison {rng.randint(1, 10**5)}")
        elif kind < 0.10:
            script.append("touchdown")
        else:
            if steady is None or rng.random() < 0.1:
                steady = (rng.randint(0, int(aircraft.ceiling)), rng.randint(1200, 5200), rng.randint(90, 350))
            h, v, c = steady
            script.append(f"leg {rng.choice((1, 1, 2, 2, 2, 2, 3))} {h} {v} {c} {rng.choice((1, 1, 1, 7, 60))}")
    return script


def replay(program, path, aircraft, script, worst):
    with tempfile.TemporaryDirectory() as where:
        os.symlink(os.path.abspath(path), where + "/aircraft.opf")
        out = subprocess.run([program], cwd=where, input="\n".join(script) + "\n", capture_output=True, text=True, check=True).stdout.split("\n")
    low = high = None
    seconds = flown = 0
    before = None
    for line, answer in zip(script, out):
        words, said = line.split(), answer.split()
        if said[0] == "no":
            continue
        if words[0] == "bench":
            density, deviation = F(int(words[1]), 10**5), F(int(words[2]), 100)
            continue
        mass = int(said[-3])
        if words[0] == "start":
            low = high = F(mass)
            zero, reserve = int(words[1]) * 1000, int(words[3]) * 1000
        elif words[0] == "uplift":
            low, high = low + int(words[1]) * 1000, high + int(words[1]) * 1000
        elif words[0] == "jettison":
            low, high = low - int(words[1]) * 1000, high - int(words[1]) * 1000
        elif words[0] == "leg":
            phase, h, v, c, t = (int(x) for x in words[1:])
            at = lambda m: aircraft.burn(phase, h, F(v, 10), c, t, density, deviation, m / 10**6) * 10**6
            worst["leg"][phase] = max(worst["leg"].get(phase, 0), abs(int(said[5]) - at(F(before))) / t)
            low, high = outward(low - at(low), high - at(high))
            seconds += t
            flown += 1
        before = mass
        drift = max(abs(mass - low), abs(mass - high))
        tolerance = 100 * seconds
        assert drift <= tolerance, (line, answer, float(drift), seconds)
        mark = said[-1] == "1"
        assert (low - zero < reserve + tolerance) if mark else (high - zero >= reserve - tolerance), (line, answer)
        if seconds:
            worst["chain"] = max(worst["chain"], drift / seconds)
    worst["flown"] += flown
    worst["seconds"] += seconds


def main():
    program, path = os.path.abspath(sys.argv[1]), sys.argv[2]
    chains, calls, seed = (int(sys.argv[i]) if len(sys.argv) > i else d for i, d in ((3, 20), (4, 2000), (5, 1)))
    rng, aircraft = random.Random(seed), Aircraft(path)
    worst = {"leg": {}, "chain": F(0), "flown": 0, "seconds": 0}
    for _ in range(chains):
        replay(program, path, aircraft, chain(rng, aircraft, calls), worst)
    print(f"legs flown {worst['flown']}, seconds {worst['seconds']}")
    print(f"worst drift of a chain {float(worst['chain']):.3f} mg/s")
    for phase, name in ((1, "climb"), (2, "cruise"), (3, "descent")):
        print(f"worst error of one leg in {name} {float(worst['leg'].get(phase, 0)):.3f} mg/s")


main()
