#!/usr/bin/env python3
"""The engine control from its rules, task by task.

    model.py table > sensors.csv    400 reactions: cold start, idling, a drive, a broken pedal sensor, home again
    model.py > sim.txt              what the actuators take over sensors.csv"""
import csv
import os
import sys

FOLDER = os.path.dirname(os.path.abspath(__file__))
COLUMNS = ["crank.0", "pedal.0", "lambda.0", "coolant.0"]


def toward_zero(a, b):
    """The quotient as a processor gives it: the part after the point is cut off."""
    return abs(a) // b * (1 if a >= 0 else -1)


def within(low, x, high):
    return max(low, min(high, x))


class Engine:
    def __init__(self):
        self.trim, self.warm, self.valve, self.rich = 0, 20, 300, 0

    def mixture_task(self, exhaust):
        self.trim = within(-250, self.trim + toward_zero(exhaust - 1000, 10), 250)

    def warming_task(self, coolant):
        self.warm = toward_zero(7 * self.warm + coolant, 8)
        self.rich = 2 * max(0, 80 - self.warm)

    def react(self, k, speed, pedal, exhaust, coolant):
        if k % 2 == 0:
            self.mixture_task(exhaust)
        if k % 8 == 0:
            self.warming_task(coolant)
        if not 0 <= pedal <= 1000 or speed > 9000:
            return 0 if speed > 3000 else 2500, 80, 1
        if pedal < 20:
            self.valve = within(100, self.valve + toward_zero(850 - speed, 10), 700)
            time = toward_zero((1200 + 2 * self.valve) * (1000 + self.rich), 1000)
            return time, within(50, 100 + toward_zero(850 - speed, 10), 150), 0
        time = toward_zero((1500 + 8 * pedal) * (1000 + self.trim + self.rich), 1000)
        return time, within(50, 100 + toward_zero(speed, 25) - toward_zero(pedal, 10), 350), 0


def trip(count):
    """The speed follows the fuel and the load, the mixture the fuel; the pedal's wire breaks for a while."""
    engine, speed, exhaust = Engine(), 600, 1000
    for k in range(count):
        pedal = 0 if k < 80 or k >= 350 else min(900, 15 * (k - 80)) if k < 200 else 400
        if 250 <= k < 290:
            pedal = -1 if k % 3 else 1023
        coolant = min(90, -5 + k // 3)
        yield speed, pedal, exhaust, coolant
        time, _, _ = engine.react(k, speed, pedal, exhaust, coolant)
        speed = within(400, speed + toward_zero(time - 1500 - toward_zero(speed, 2), 20), 7000)
        exhaust = within(800, 1000 + toward_zero(toward_zero(k * 37, 5) % 120 - 50 - engine.trim, 1), 1200)


def main(words):
    if words == ["table"]:
        print("k," + ",".join(COLUMNS))
        for k, row in enumerate(trip(400)):
            print(",".join(map(str, [k, *row])))
        return
    engine = Engine()
    with open(f"{FOLDER}/sensors.csv", newline="", encoding="ascii") as it:
        for k, row in enumerate(csv.DictReader(it)):
            time, angle, lamp = engine.react(k, *(int(row[name]) for name in COLUMNS))
            print(f"{k} injector {time}\n{k} coil {angle}\n{k} lamp {lamp}")


main(sys.argv[1:])
