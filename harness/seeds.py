#!/usr/bin/env python3
"""Prints crates/seeds/src/lib.rt: for each of 512 ranges of x from 1 to 4 a parabola near 1/sqrt(x), at the Chebyshev places, in whole numbers.

Range i has the values whose exponent's last binary digit is that of i / 256 (1: x from 1 to 2, 0: x from 2 to 4) and whose leading eight digits are i % 256. The
parabola is in the distance t from the range's lower end, in parts of 2^23. The guess in parts of 2^64 is word - t * slope + t * t / 2^10 * bend, where the slope
is the word's last 32 digits and the bend its last 11; the word's others are rounded so that the guess is hardly ever above the value.
"""
from decimal import Decimal, getcontext

getcontext().prec = 60
PLACES = [(1 - c) / 2 for c in (Decimal(3).sqrt() / 2, Decimal(0), -Decimal(3).sqrt() / 2)]


def whole(x):
    return int(x.to_integral_value(rounding="ROUND_FLOOR"))


def word(i):
    least = Decimal(2 - i // 256)
    width = least / 256
    start = least + width * (i % 256)
    u, y = PLACES, [1 / (start + width * u).sqrt() for u in PLACES]
    first, second = (y[1] - y[0]) / (u[1] - u[0]), (y[2] - y[1]) / (u[2] - u[1])
    bend = whole((second - first) / (u[2] - u[0]) * 2**28 + Decimal("0.5"))
    slope = whole(bend * 2**13 - (y[2] - y[0]) / (u[2] - u[0]) * 2**41)
    slope = ((slope - bend + 2**10) >> 11 << 11) + bend
    room = []
    for k in range(65):
        t = min(2**23 - 1, k << 17)
        room.append(whole(2**64 / (start + width * t / 2**23).sqrt()) + t * slope - (t * t >> 10) * bend)
    return ((min(room) - slope + 2**31) >> 32 << 32) + slope


def main():
    print("// Guesses at 1/√x for x from 1 to 4, one parabola for each of 512 ranges (written by harness/seeds.py). Nothing has to hold of these numbers: whoever takes a")
    print("// guess tests what comes of it. The match becomes a table in the program's constant data.")
    print("#![tactic(auto)]")
    print("\n// The parabola of range i, from its lower end: 2^32 times the value there, in parts of 2^32, and the slope, in parts of 2^41; the last 11 digits are also the")
    print("// bend, in parts of 2^28.")
    print("pub fn word(i: u64) -> u64 {\n    match i {")
    for i in range(512):
        print("        %s => %d," % (i if i < 511 else "_", word(i)))
    print("    }\n}")


if __name__ == "__main__":
    main()
