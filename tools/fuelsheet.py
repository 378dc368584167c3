#!/usr/bin/env python3
"""A fuel sheet in plain Python, written from the rules and not from the proved code.

usage: fuelsheet.py AIRCRAFT.opf < SCRIPT        (the aircraft file must be good)

The expected answers of this project's own scripts were made with it.
"""
import re
import sys
from decimal import Decimal

# Standard densities at every 1,000 ft are worked out here from the formulas of the standard atmosphere.
from decimal import getcontext
getcontext().prec = 40


def standard_table():
    g, r, t0, p0, lapse = Decimal("9.80665"), Decimal("287.05287"), Decimal("288.15"), Decimal(101325), Decimal("-0.0065")
    power = -g / (lapse * r)
    trop = t0 + lapse * 11000
    ptrop = p0 * (trop / t0) ** power
    table = []
    for level in range(61):
        h = Decimal(level * 1000) * Decimal("0.3048")
        if h <= 11000:
            t = t0 + lapse * h
            p = p0 * (t / t0) ** power
        else:
            t = trop
            p = ptrop * (-g / (r * trop) * (h - 11000)).exp()
        table.append(int((p / (r * t) * 100000).to_integral_value("ROUND_HALF_UP")))
    return table


TABLE = standard_table()


def standard(h):
    k = h // 1000
    if k == 60:
        return TABLE[60], 0
    return TABLE[k] + (TABLE[k + 1] - TABLE[k]) * (h - 1000 * k) // 1000, 0


def number(field):
    m = re.fullmatch(r"(-?)\.(\d{5})E([+-]\d\d)", field)
    return Decimal(m[1] + m[2]).scaleb(int(m[3]) - 5)


def aircraft(path):
    text = open(path, newline="").read()
    data = [line[2:].split("/")[0].split() for line in text.split("\n") if line[:2] == "CD"]
    data = [[f.rstrip("\r") for f in d] for d in data]
    whole = lambda x, decimals: int(number(x).scaleb(decimals))
    a = {"jet": data[0][3] == "Jet"}
    a["ref"], a["min"], a["max"] = (whole(x, 6) for x in data[1][:3])
    a["ceiling"] = whole(data[2][2], 0)
    a["wing"] = whole(data[3][1], 3)
    for d in data[4:9]:
        a[d[1]] = (whole(d[-4], 3), whole(d[-3], 8), whole(d[-2], 8))
    a["gear"] = whole(data[12][2], 8)
    t = data[15]
    a["ctc"] = [0, whole(t[0], 3), whole(t[1], 0), whole(t[2], 16 if a["jet"] else 3), whole(t[3], 4), whole(t[4], 8)]
    d = data[16]
    a["low"], a["high"], a["level"] = whole(d[0], 8), whole(d[1], 8), whole(d[2], 0)
    a["desc_AP"], a["desc_LD"] = whole(d[3], 8), whole(d[4], 8)
    a["cf"] = [0, whole(data[18][0], 8), whole(data[18][1], 2), whole(data[19][0], 6), whole(data[19][1], 0)]
    a["cfcr"] = whole(data[20][0], 5)
    return a


class No(Exception):
    pass


def refuse(test, n):
    if test:
        raise No(n)


def standard_thrust(a, h, v):
    _, c1, c2, c3, _, _ = a["ctc"]
    k = 10**9 - 10**9 * h // c2 + (c3 * h * h // 10**7 if a["jet"] else 0)
    k = max(0, k)
    return c1 * k // 10**9 if a["jet"] else max(0, 10 * c1 // v * k // 10**9 + c3)


def nominal(a, v, thrust):
    _, c1, c2, _, _ = a["cf"]
    eta = c1 * (c2 + 10 * v) // c2 if a["jet"] else c1 * max(0, c2 - 10 * v) // c2 * v // 10**4
    refuse(eta > 400_000_000, 23)
    return eta * thrust // 10**8


def configuration(a, phase, h, c):
    if phase == 1:
        return "TO" if h <= 400 else "IC" if h <= 2000 else "CR"
    if phase == 2 or h >= 8000 or 10000 * c >= 13 * a["CR"][0] + 100000:
        return "CR"
    return "LD" if h < 3000 and 10000 * c < 13 * a["AP"][0] + 100000 else "AP"


def leg(a, day, mass, phase, h, v, c, t):
    rho, dev = day(h)
    conf = configuration(a, phase, h, c)
    _, cd0, cd2 = a[conf]
    cd0 += a["gear"] if conf == "LD" else 0
    force = rho * v * v * 214369 // 16200000 * a["wing"] // 10**6
    weight = mass // 1000 * 980665 // 10**6
    refuse(10 * weight > 3 * force, 22)
    drag = cd0 * force // 10**8 + cd2 * (10 * weight * weight // force) // 10**7
    e = min(4 * 10**8, max(0, a["ctc"][5] * (100 * dev - a["ctc"][4]) // 10**3))
    thrust = standard_thrust(a, h, v) * (10**9 - e) // 10**9
    idle = a["cf"][3] * max(0, a["cf"][4] - h) // a["cf"][4]
    limited = 0
    if phase == 1:
        flow = nominal(a, v, thrust)
    elif phase == 2:
        top = 95 * thrust // 100
        limited, thrust = int(drag > top), min(drag, top)
        flow = nominal(a, v, thrust) * a["cfcr"] // 10**5
    else:
        factor = (a["high"] if h > a["level"] else a["low"]) if conf == "CR" else a["desc_" + conf]
        thrust = factor * thrust // 10**8
        flow = idle if conf == "CR" else max(nominal(a, v, thrust), idle)
    return conf, thrust, drag, flow, flow * t // 60, limited


class Sheet:
    def __init__(self, a):
        self.a, self.day, self.flying = a, None, None

    def figures(self):
        zero, fuel, reserve, _, _ = self.flying
        return f"{zero + fuel} {fuel} {int(fuel < reserve)}"

    def line(self, line):
        try:
            return self.take(line)
        except No as n:
            return f"no {n}"

    def take(self, line):
        n = "([0-9]{1,10})"
        if m := re.fullmatch(f"bench {n} (-?[0-9]{{1,10}})|standard", line):
            refuse(self.flying, 26)
            if m[1] is None:
                self.day = standard
                return line
            density, dev = int(m[1]), int(m[2])
            refuse(not (5000 <= density <= 150000 and -5000 <= dev <= 5000), 11)
            self.day = lambda h: (density, dev)
            return line
        if m := re.fullmatch(f"start {n} {n}(?: {n})?", line):
            refuse(self.day is None, 26)
            zero, fuel, reserve = int(m[1]), int(m[2]), int(m[3] or 0)
            refuse(max(zero, fuel, reserve) > 10**9, 13)
            refuse(zero < self.a["min"], 14)
            refuse(zero + fuel > self.a["max"], 24)
            self.flying = [zero * 1000, fuel * 1000, reserve * 1000, 0, False]
            return "start " + self.figures()
        if m := re.fullmatch(f"leg {n} {n} {n} {n} {n}", line):
            refuse(self.flying is None, 26)
            return self.leg(*map(int, m.groups()))
        if m := re.fullmatch(f"(uplift|jettison) {n}", line):
            refuse(self.flying is None, 26)
            return self.fuel(m[1], int(m[2]))
        refuse(line != "touchdown" or self.flying is None, 26)
        refuse(not self.flying[4], 16)
        self.flying[4] = False
        return "touchdown " + self.figures()

    def leg(self, phase, h, v, c, t):
        zero, fuel, _, seconds, airborne = self.flying
        refuse(phase not in (1, 2, 3), 15)
        refuse(not airborne and phase != 1, 16)
        refuse(h > self.a["ceiling"], 17)
        refuse(not 300 <= v <= 7000, 18)
        refuse(not 20 <= c <= 500, 19)
        refuse(not 1 <= t <= 60, 20)
        refuse(seconds + t > 10**6, 21)
        flown = leg(self.a, self.day, zero + fuel, phase, h, v, c, t)
        refuse(flown[4] > fuel, 25)
        self.flying[1] -= flown[4]
        self.flying[3] += t
        self.flying[4] = True
        return " ".join(["leg", *map(str, flown), self.figures()])

    def fuel(self, word, grams):
        zero, fuel, _, _, airborne = self.flying
        refuse(not 1 <= grams <= 10**9, 13)
        refuse(airborne == (word == "uplift"), 16)
        if word == "uplift":
            refuse(zero + fuel + grams * 1000 > self.a["max"] * 1000, 24)
            self.flying[1] += grams * 1000
        else:
            refuse(grams * 1000 > fuel, 25)
            self.flying[1] -= grams * 1000
        return f"{word} {self.figures()}"


def lines(text):
    parts = text.split(b"\n")
    last = parts.pop()
    ended = [p[:-1] if p.endswith(b"\r") else p for p in parts]
    return ended + ([last] if last else [])


def main():
    sheet = Sheet(aircraft(sys.argv[1]))
    for line in lines(sys.stdin.buffer.read()):
        print(sheet.line(line.decode("latin-1")))


main()
