#!/usr/bin/env python3
"""Standard air densities at each 1,000 ft to 60,000 ft, from the formulas of the standard atmosphere.

Writes what the program `densities` must print when no entry of its table differs:
    python3 tools/densities.py > crates/densities/stdout
"""
from decimal import Decimal, ROUND_HALF_EVEN, getcontext

getcontext().prec = 60

T0 = Decimal("288.15")         # K, temperature at sea level
P0 = Decimal("101325")         # Pa, pressure at sea level
G = Decimal("9.80665")         # m/s²
R = Decimal("287.05287")       # m²/(K·s²)
LAPSE = Decimal("-0.0065")     # K/m, up to the tropopause
TROPOPAUSE = Decimal("11000")  # m
FOOT = Decimal("0.3048")       # m


def density(feet):
    """Density in 10⁻⁵ kg/m³, unrounded."""
    height = feet * FOOT
    below = min(height, TROPOPAUSE)
    temperature = T0 + LAPSE * below
    pressure = P0 * (temperature / T0) ** (-G / (LAPSE * R))
    pressure *= (-G / (R * temperature) * (height - below)).exp()
    return pressure / (R * temperature) * 100000


def main():
    for feet in range(0, 60001, 1000):
        nearest = density(feet).quantize(Decimal(1), ROUND_HALF_EVEN)
        print(feet, nearest, nearest)
    print("differences: 0")


if __name__ == "__main__":
    main()
