#!/usr/bin/env python3
"""The edges of an image from the two Sobel masks, over the whole image at once.

    model.py table > sensors.csv    an image of 64 rows: a disc, a square, a ramp of grey
    model.py > sim.txt              what the actuators take over sensors.csv
    model.py show                   the image of the edges, as text"""
import csv
import os
import sys

SIZE, STEEP = 64, 250
ACROSS = [[-1, 0, 1], [-2, 0, 2], [-1, 0, 1]]
DOWN = [[-1, -2, -1], [0, 0, 0], [1, 2, 1]]
FOLDER = os.path.dirname(os.path.abspath(__file__))


def brightness(row, column):
    if (row - 20) ** 2 + (column - 22) ** 2 <= 13 ** 2:
        return 220
    if 36 <= row < 56 and 34 <= column < 58:
        return 20
    return 60 + column


def image():
    with open(f"{FOLDER}/sensors.csv", newline="", encoding="ascii") as it:
        return [[int(row[f"camera.{column}"]) for column in range(SIZE)] for row in csv.DictReader(it)]


def masked(mask, pixels, row, column):
    """The sum over the mask whose middle is this pixel; above the image all is dark."""
    at = lambda r, c: pixels[r][c] if r >= 0 else 0
    return sum(mask[r][c] * at(row - 1 + r, column - 1 + c) for r in range(3) for c in range(3))


def edges(pixels):
    """Row k is that of the pixels of row k - 1, which has all its neighbours when row k has arrived."""
    for newest in range(len(pixels)):
        found = [0] * SIZE
        for column in range(1, SIZE - 1):
            steepness = sum(abs(masked(mask, pixels, newest - 1, column)) for mask in (ACROSS, DOWN))
            found[column] = 1 if steepness > STEEP else 0
        yield found


def main(words):
    if words == ["table"]:
        print("k," + ",".join(f"camera.{column}" for column in range(SIZE)))
        for row in range(SIZE):
            print(f"{row}," + ",".join(str(brightness(row, column)) for column in range(SIZE)))
        return
    for k, found in enumerate(edges(image())):
        if words == ["show"]:
            print("".join(" #"[it] for it in found))
        else:
            print(f"{k} edges {' '.join(map(str, found))}\n{k} count {sum(found)}")


main(sys.argv[1:])
