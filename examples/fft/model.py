#!/usr/bin/env python3
"""The transform from its recursion: of the points with even numbers and of those with odd ones, E and O, and then
X[k] = E[k] + w^k O[k] and X[k + n/2] = E[k] - w^k O[k], where w^k = cos(2 pi k / n) - i sin(2 pi k / n).

    model.py table > sensors.csv    60 frames: tones, a step, an impulse, noise
    model.py > sim.txt              what the actuators take over sensors.csv
    model.py error                  how far this is from the transform in floating point, at most"""
import cmath
import csv
import math
import os
import sys

POINTS, ONE = 16, 1 << 14
FOLDER = os.path.dirname(os.path.abspath(__file__))


def toward_zero(a, b):
    """The quotient as a processor gives it: the part after the point is cut off."""
    return abs(a) // b * (1 if a >= 0 else -1)


def rounded(x):
    return math.floor(x + 0.5) if x >= 0 else -math.floor(-x + 0.5)


def times(k, n, point):
    """A point times w^k, in whole numbers."""
    cos, sin = (rounded(ONE * f(2 * math.pi * k / n)) for f in (math.cos, math.sin))
    real, imaginary = point
    return toward_zero(cos * real + sin * imaginary, ONE), toward_zero(cos * imaginary - sin * real, ONE)


def transform(points):
    n = len(points)
    if n == 1:
        return points
    even, odd = transform(points[::2]), transform(points[1::2])
    turned = [times(k, n, it) for k, it in enumerate(odd)]
    above = [(a + c, b + d) for (a, b), (c, d) in zip(even, turned)]
    below = [(a - c, b - d) for (a, b), (c, d) in zip(even, turned)]
    return above + below


def frames(count):
    state = 1
    for k in range(count):
        if k % 6 == 4:
            yield [10000 if j == k % POINTS else 0 for j in range(POINTS)]
        elif k % 6 == 5:
            noise = []
            for _ in range(POINTS):
                state = state * 1103515245 + 12345 & 0x7FFFFFFF
                noise.append(state % 20001 - 10000)
            yield noise
        else:
            yield [rounded(10000 * math.cos(2 * math.pi * j * (k % 9) / POINTS + k)) for j in range(POINTS)]


def sensed():
    with open(f"{FOLDER}/sensors.csv", newline="", encoding="ascii") as it:
        return [[int(row[f"x.{j}"]) for j in range(POINTS)] for row in csv.DictReader(it)]


def error():
    worst = 0.0
    for frame in sensed():
        for k, (real, imaginary) in enumerate(transform([(x, 0) for x in frame])):
            exact = sum(x * cmath.exp(-2j * math.pi * j * k / POINTS) for j, x in enumerate(frame))
            worst = max(worst, abs(exact - complex(real, imaginary)))
    print(f"at most {worst:.1f} of 160000")


def main(words):
    if words == ["table"]:
        print("k," + ",".join(f"x.{j}" for j in range(POINTS)))
        for k, frame in enumerate(frames(60)):
            print(f"{k}," + ",".join(map(str, frame)))
    elif words == ["error"]:
        error()
    else:
        for k, frame in enumerate(sensed()):
            made = transform([(x, 0) for x in frame])
            print(f"{k} re " + " ".join(str(real) for real, _ in made))
            print(f"{k} im " + " ".join(str(imaginary) for _, imaginary in made))


main(sys.argv[1:])
