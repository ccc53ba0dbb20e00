#!/usr/bin/env python3
"""Reads a curve's text at a parameter, without the library: the order of operations of docs/ARCHIVE.md in plain double arithmetic.

  examples/read.py CURVE WORD..    the point at each parameter, a line of three words each
"""
import struct
import sys


def double(word):
    return struct.unpack(">d", bytes.fromhex(word))[0]


def word(x):
    return struct.pack(">d", x).hex()


def parts(text):
    """Degree, flat knots and poles of a curve's text."""
    lines = text.split("\n")[:-1]
    middle = lines.index("x y z")
    runs = [line.split(" ") for line in lines[3:middle]]
    degree = int(runs[0][1]) - 1
    flat = [double(knot) for knot, count in runs for _ in range(int(count))]
    poles = [[double(w) for w in line.split(" ")] for line in lines[middle + 1:]]
    if len(flat) != len(poles) + degree + 1:
        sys.exit("knots and poles do not fit: a line is missing")
    return degree, flat, poles


def basis(degree, flat, span, u):
    """The values of the degree + 1 basis functions on the span."""
    values = [1.0]
    for j in range(1, degree + 1):
        below = [u - flat[span + 1 - k] for k in range(1, j + 1)]
        above = [flat[span + k] - u for k in range(1, j + 1)]
        rising, row = 0.0, []
        for r in range(j):
            share = values[r] * (1.0 / (above[r] + below[j - r - 1]))
            row.append(rising + above[r] * share)
            rising = below[j - r - 1] * share
        values = row + [rising]
    return values


def read(degree, flat, poles, u):
    """The point at u."""
    first, last = flat[degree], flat[len(flat) - 1 - degree]
    u = first if u < first else u
    u = last if last < u else u
    spans = range(degree, len(flat) - 1 - degree)
    span = max(s for s in spans if flat[s] <= u and flat[s] < flat[s + 1])
    point = [0.0, 0.0, 0.0]
    for a, value in enumerate(basis(degree, flat, span, u)):
        point = [x + value * c for x, c in zip(point, poles[span - degree + a])]
    return point


if __name__ == "__main__":
    curve = parts(open(sys.argv[1], encoding="ascii").read())
    for parameter in sys.argv[2:]:
        print(*(word(x) for x in read(*curve, double(parameter))))
