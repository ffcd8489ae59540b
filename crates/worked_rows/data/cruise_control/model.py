#!/usr/bin/env python3
"""The cruise control from its rules. It writes what the throttle takes over sensors.csv: model.py > sim.txt"""
import csv
import os

FOLDER = os.path.dirname(os.path.abspath(__file__))


def throttles(rows):
    total = 0
    for speed, target in rows:
        error = target - speed
        total = max(-500, min(500, total + int(error / 10)))
        yield max(0, min(1000, 4 * error + total))


with open(f"{FOLDER}/sensors.csv", newline="", encoding="ascii") as it:
    table = [(int(row["speed.0"]), int(row["target.0"])) for row in csv.DictReader(it)]
for k, throttle in enumerate(throttles(table)):
    print(f"{k} throttle {throttle}")
