#!/usr/bin/env python3
"""The equaliser from its equations: y = w.x, e = d - y, w <- w + mu e x, in whole numbers.

    model.py table > sensors.csv    a training sequence of 200 symbols through a channel with an echo
    model.py > sim.txt              what the actuators take over sensors.csv"""
import csv
import os
import sys

TAPS, ONE, STEP = 8, 4096, 15625
FOLDER = os.path.dirname(os.path.abspath(__file__))


def toward_zero(a, b):
    """The quotient as a processor gives it: the part after the point is cut off."""
    return abs(a) // b * (1 if a >= 0 else -1)


def symbols(count):
    """Symbols of 1000 and -1000, by a shift register of nine bits."""
    state = 0b101010101
    for _ in range(count):
        yield 1000 if state & 1 else -1000
        bit = (state ^ state >> 4) & 1
        state = state >> 1 | bit << 8


def table(count):
    """What comes out of a channel with the impulse response 0.9, 0.4, -0.2, and the symbol sent three before."""
    sent = list(symbols(count))
    late = lambda k, n: sent[k - n] if k >= n else 0
    print("k,x.0,d.0")
    for k in range(count):
        heard = toward_zero(9 * late(k, 0) + 4 * late(k, 1) - 2 * late(k, 2), 10)
        print(f"{k},{heard},{late(k, 3)}")


def equalise(rows):
    window, weights = [0] * TAPS, [0, 0, 0, ONE, 0, 0, 0, 0]
    for x, d in rows:
        window = [x, *window[:-1]]
        y = toward_zero(sum(w * s for w, s in zip(weights, window)), ONE)
        e = d - y
        weights = [w + toward_zero(e * s, STEP) for w, s in zip(weights, window)]
        yield y, e


def main(words):
    if words == ["table"]:
        return table(200)
    with open(f"{FOLDER}/sensors.csv", newline="", encoding="ascii") as it:
        rows = [(int(row["x.0"]), int(row["d.0"])) for row in csv.DictReader(it)]
    for k, (y, e) in enumerate(equalise(rows)):
        print(f"{k} y {y}\n{k} r {e}")


main(sys.argv[1:])
