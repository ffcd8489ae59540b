#!/usr/bin/env python3
"""The radar from its equations: correlation with the code, power, and a threshold over the mean around.

    model.py table > sensors.csv    100 pulses: one target that comes nearer, one that stands, clutter, noise
    model.py > sim.txt              what the actuators take over sensors.csv
    model.py show                   the targets, a line a pulse"""
import csv
import os
import sys

RANGES, CODE = 64, [1, 1, 1, 1, 1, -1, -1, 1, 1, -1, 1, -1, 1]
FOLDER = os.path.dirname(os.path.abspath(__file__))


def echoes(count):
    noise = 5
    for k in range(count):
        row = [0] * RANGES
        for where, strength in ((50 - k // 3, 40), (12, 25), (30, 12)):
            for i, sign in enumerate(CODE):
                if 0 <= where + i < RANGES:
                    row[where + i] += sign * strength
        for j in range(RANGES):
            noise = noise * 1103515245 + 12345 & 0x7FFFFFFF
            row[j] += noise // 1000 % 21 - 10
        yield row


def compressed(row):
    return [sum(sign * row[j + i] for i, sign in enumerate(CODE) if j + i < RANGES) for j in range(RANGES)]


def targets(powers):
    """Where the power is above four times the mean of six ranges on each side, and above the noise."""
    for j, power in enumerate(powers):
        around = [powers[j + i] for i in range(-8, 9) if abs(i) > 2 and 0 <= j + i < RANGES]
        yield 1 if power > max(4 * (sum(around) // 12), 600) else 0


def detected(rows):
    """The pipeline is two reactions long: at first its stages work on nothing."""
    for k in range(len(rows)):
        row = rows[k - 2] if k >= 2 else [0] * RANGES
        yield list(targets([it * it // 100 for it in compressed(row)]))


def main(words):
    if words == ["table"]:
        print("k," + ",".join(f"echo.{j}" for j in range(RANGES)))
        for k, row in enumerate(echoes(100)):
            print(f"{k}," + ",".join(map(str, row)))
        return
    with open(f"{FOLDER}/sensors.csv", newline="", encoding="ascii") as it:
        rows = [[int(row[f"echo.{j}"]) for j in range(RANGES)] for row in csv.DictReader(it)]
    for k, found in enumerate(detected(rows)):
        if words == ["show"]:
            print("".join(" #"[it] for it in found))
        else:
            print(f"{k} targets {' '.join(map(str, found))}\n{k} count {sum(found)}")


main(sys.argv[1:])
