#!/usr/bin/env python3
"""The controller from its equations, and a quadrotor to try it on.

    model.py table > sensors.csv    500 reactions, five seconds: a climb, a roll, a pitch, and a gust of wind,
                                    flown in closed loop with the controller below
    model.py > sim.txt              what the actuators take over sensors.csv"""
import csv
import os
import sys

FOLDER = os.path.dirname(os.path.abspath(__file__))
ROLL, PITCH, YAW = range(3)
COLUMNS = [f"gyro.{j}" for j in range(3)] + ["gravity.0", "gravity.1"] + [f"stick.{j}" for j in range(3)] + ["throttle.0"]


def toward_zero(a, b):
    """The quotient as a processor gives it: the part after the point is cut off."""
    return abs(a) // b * (1 if a >= 0 else -1)


def within(bound, x):
    return max(-bound, min(bound, x))


class Controller:
    def __init__(self):
        self.angle, self.sum = [0, 0, 0], [0, 0, 0]

    def react(self, rates, gravity, wanted, throttle):
        power = []
        for axis in (ROLL, PITCH, YAW):
            moved = self.angle[axis] + toward_zero(rates[axis], 100)
            self.angle[axis] = moved if axis == YAW else toward_zero(98 * moved + 2 * gravity[axis], 100)
            error = wanted[axis] - self.angle[axis]
            demand = 10 * error + self.sum[axis] - 5 * rates[axis]
            power.append(within(200, toward_zero(demand, 100)))
            if abs(demand) <= 20000:
                self.sum[axis] = within(3000, self.sum[axis] + toward_zero(error, 10))
        roll, pitch, yaw = power
        mixed = [roll + pitch - yaw, -roll + pitch + yaw, -roll - pitch - yaw, roll - pitch + yaw]
        return [max(0, min(1000, throttle + it)) for it in mixed], list(self.angle)


class Quadrotor:
    """A body that turns by the difference of its motors; gravity is measured with noise, in integers."""

    def __init__(self):
        self.angle, self.rate, self.noise = [0, 0, 0], [0, 0, 0], 7

    def move(self, motors, gust):
        a, b, c, d = motors
        turn = [(a + d - b - c) * 8 + gust, (a + b - c - d) * 8, (b + d - a - c) * 4]
        self.rate = [rate + toward_zero(it, 20) - toward_zero(rate, 50) for rate, it in zip(self.rate, turn)]
        self.angle = [angle + toward_zero(rate, 100) for angle, rate in zip(self.angle, self.rate)]

    def felt(self):
        found = []
        for axis in (ROLL, PITCH):
            self.noise = self.noise * 1103515245 + 12345 & 0x7FFFFFFF
            found.append(self.angle[axis] + self.noise // 1000 % 401 - 200)
        return found


def flight(count):
    body, pilot = Quadrotor(), Controller()
    for k in range(count):
        wanted = [1000 if 100 <= k < 200 else 0, -800 if 200 <= k < 300 else 0, 4500 if k >= 350 else 0]
        throttle = min(500, 5 * k)
        row = body.rate, body.felt(), wanted, throttle
        yield row
        motors, _ = pilot.react(*row)
        body.move(motors, 4000 if 300 <= k < 320 else 0)


def main(words):
    if words == ["table"]:
        print("k," + ",".join(COLUMNS))
        for k, (rates, gravity, wanted, throttle) in enumerate(flight(500)):
            print(",".join(map(str, [k, *rates, *gravity, *wanted, throttle])))
        return
    pilot = Controller()
    with open(f"{FOLDER}/sensors.csv", newline="", encoding="ascii") as it:
        for k, row in enumerate(csv.DictReader(it)):
            values = [int(row[name]) for name in COLUMNS]
            motors, angles = pilot.react(values[:3], values[3:5], values[5:8], values[8])
            print(f"{k} motors {' '.join(map(str, motors))}\n{k} attitude {' '.join(map(str, angles))}")


main(sys.argv[1:])
