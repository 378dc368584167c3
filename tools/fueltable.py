#!/usr/bin/env python3
"""The fuel table worked out apart from the engine, in Python's whole numbers.

Writes what the program `fueltable` must print:
    cd crates/fueltable && python3 ../../tools/fueltable.py data/aircraft.opf < stdin > stdout
"""
import sys
from decimal import Decimal, ROUND_HALF_EVEN
from fractions import Fraction

from densities import density

# Units per unit of the file: masses in g, S in 0.001 m², stall speeds in 0.001 kt, coefficients in 10⁻⁸, thrust in mN,
# flow in mg/min, the cruise factor in 10⁻⁵.
CONFIGURATIONS = ("CR", "IC", "TO", "AP", "LD")
COLUMNS = ("cruise low", "cruise nominal", "cruise high", "climb", "descent")
CLIMB, CRUISE, DESCENT = 1, 2, 3
TABLE = [int(density(feet).quantize(Decimal(1), ROUND_HALF_EVEN)) for feet in range(0, 60001, 1000)]


class Refused(Exception):
    """A call that the flight refuses, by its number."""


def scaled(word, unit):
    """A number of the file as a whole count of its unit."""
    count = Fraction(Decimal(word)) * unit
    assert count.denominator == 1
    return int(count)


class Aircraft:
    """The coefficients of a well-formed file of a jet."""

    def __init__(self, text):
        rows = [line[2:].split("/")[0].split() for line in text.splitlines() if line.startswith("CD")]
        assert len(rows) == 22 and rows[0][3] == "Jet"
        self.reference, self.minimum, self.maximum = (scaled(w, 10**6) for w in rows[1][:3])
        self.ceiling = scaled(rows[2][2], 1)
        self.wing = scaled(rows[3][1], 1000)
        self.stall, self.cd0, self.cd2 = {}, {}, {}
        for row in rows[4:9]:
            self.stall[row[1]] = scaled(row[-4], 1000)
            self.cd0[row[1]] = scaled(row[-3], 10**8)
            self.cd2[row[1]] = scaled(row[-2], 10**8)
        assert sorted(self.stall) == sorted(CONFIGURATIONS)
        self.gear = scaled(rows[12][2], 10**8)
        self.ctc1, self.ctc2, self.ctc3 = (scaled(w, u) for w, u in zip(rows[15], (1000, 1, 10**16)))
        self.ctc4, self.ctc5 = scaled(rows[15][3], 10**4), scaled(rows[15][4], 10**8)
        self.low, self.high = (scaled(w, 10**8) for w in rows[16][:2])
        self.level = scaled(rows[16][2], 1)
        self.approach, self.landing = (scaled(w, 10**8) for w in rows[16][3:5])
        self.cf1, self.cf2 = scaled(rows[18][0], 10**8), scaled(rows[18][1], 100)
        self.cf3, self.cf4 = scaled(rows[19][0], 10**6), scaled(rows[19][1], 1)
        self.cfcr = scaled(rows[20][0], 10**5)


def air(altitude):
    """Density on the standard day, in 10⁻⁵ kg/m³."""
    below, feet = divmod(altitude, 1000)
    return TABLE[below] if feet == 0 else TABLE[below] + (TABLE[below + 1] - TABLE[below]) * feet // 1000


def climb_thrust(a, altitude):
    """In mN, at standard temperature, less what a low temperature limit takes off it."""
    k = max(0, 10**9 - 10**9 * altitude // a.ctc2 + a.ctc3 * altitude * altitude // 10**7)
    e = min(max(a.ctc5 * -a.ctc4 // 1000, 0), 4 * 10**8)
    return a.ctc1 * k // 10**9 * (10**9 - e) // 10**9


def nominal(a, speed, thrust):
    """In mg/min."""
    consumption = a.cf1 * (a.cf2 + 10 * speed) // a.cf2
    if consumption > 400000000:
        raise Refused(23)
    return consumption * thrust // 10**8


def idle(a, altitude):
    """In mg/min."""
    return a.cf3 * max(0, a.cf4 - altitude) // a.cf4


def configuration(a, phase, altitude, calibrated):
    if phase == CLIMB:
        return "TO" if altitude <= 400 else "IC" if altitude <= 2000 else "CR"
    if phase == CRUISE or altitude >= 8000 or 10000 * calibrated >= 13 * a.stall["CR"] + 100000:
        return "CR"
    return "LD" if altitude < 3000 and 10000 * calibrated < 13 * a.stall["AP"] + 100000 else "AP"


def drag(a, flaps, altitude, speed, mass):
    """In mN, at a mass in grams."""
    pressure = air(altitude) * speed * speed * 214369 // 16200000
    area = pressure * a.wing // 10**6
    weight = mass * 980665 // 10**6
    if 10 * weight > 3 * area:
        raise Refused(22)
    cd0 = a.cd0[flaps] + (a.gear if flaps == "LD" else 0)
    return cd0 * area // 10**8 + a.cd2[flaps] * (10 * weight * weight // area) // 10**7


def descent_factor(a, flaps, altitude):
    if flaps == "CR":
        return a.high if altitude > a.level else a.low
    return a.approach if flaps == "AP" else a.landing


def leg(a, phase, altitude, speed, calibrated, mass):
    """Configuration and flow in mg/min, at a mass in mg."""
    for number, bad in ((17, altitude > a.ceiling), (18, not 300 <= speed <= 7000), (19, not 20 <= calibrated <= 500)):
        if bad:
            raise Refused(number)
    flaps = configuration(a, phase, altitude, calibrated)
    against = drag(a, flaps, altitude, speed, mass // 1000)
    thrust = climb_thrust(a, altitude)
    if phase == CLIMB:
        return flaps, nominal(a, speed, thrust)
    if phase == CRUISE:
        return flaps, nominal(a, speed, min(against, 95 * thrust // 100)) * a.cfcr // 10**5
    if flaps == "CR":
        return flaps, idle(a, altitude)
    thrust = descent_factor(a, flaps, altitude) * thrust // 10**8
    return flaps, max(nominal(a, speed, thrust), idle(a, altitude))


def masses(a):
    """In grams, for each column."""
    return a.minimum * 12 // 10, a.reference, a.maximum, a.reference, a.reference


def flown(a, column, row, speed):
    """The leg of a column, one second of climb behind the start."""
    start = masses(a)[column]
    if max(start, a.minimum) > a.maximum:
        raise Refused(24)
    mass = max(start, a.minimum) * 1000
    altitude, calibrated = row[0] * 100, row[8] // 10
    climb = leg(a, CLIMB, altitude, row[5], calibrated, mass)
    spent = climb[1] // 60
    if spent > mass - a.minimum * 1000:
        raise Refused(25)
    if column == 3:
        return climb
    last = leg(a, DESCENT if column == 4 else CRUISE, altitude, speed, calibrated, mass - spent)
    if last[1] // 60 > mass - spent - a.minimum * 1000:
        raise Refused(25)
    return last


def figure(word):
    """A figure in tenths, or None."""
    return None if word == "-" else scaled(word, 10)


def kilograms(grams, width=0):
    return f"{grams // 1000:>{width}}.{grams % 1000:03}"


def main():
    a = Aircraft(open(sys.argv[1]).read())
    low, reference, high = (m // 1000 for m in masses(a)[:3])
    print(f"masses in kg: low {low}, nominal {reference}, high {high}")
    print("speeds in kt, flows in kg/min")
    print(" level  phase           speed      computed  printed   apart")
    compared, near, worst = 0, 0, (0, 0, COLUMNS[0])
    for line in sys.stdin:
        if line.startswith("#"):
            continue
        level, *rest = line.split()
        row = [int(level)] + [figure(word) for word in rest]
        assert len(row) == 10
        for column, name in enumerate(COLUMNS):
            speed = row[(1, 1, 1, 5, 7)[column]]
            printed = row[(2, 3, 4, 6, 9)[column]]
            if speed is None:
                continue
            text = f"FL{row[0]:>4}  {name:<14}  {speed // 10:>3}.{speed % 10}"
            try:
                flaps, flow = flown(a, column, row, speed)
            except Refused as refusal:
                print(f"{text}  no {refusal}")
                continue
            grams = flow // 1000
            text += f"  {flaps}  {kilograms(grams, 4)}"
            if printed is not None:
                apart = grams - printed * 100
                text += f"  {printed // 10:>5}.{printed % 10}  {'-' if apart < 0 else '+'}{kilograms(abs(apart))}"
                compared += 1
                near += abs(apart) <= 200
                if abs(apart) >= worst[0]:
                    worst = (abs(apart), row[0], name)
            print(text)
    if compared == 0:
        print("compared 0")
        return
    print(f"compared {compared}, within 0.200 of the printed flow {near}")
    print(f"worst difference {kilograms(worst[0])}, at FL {worst[1]} in {worst[2]}")


if __name__ == "__main__":
    main()
