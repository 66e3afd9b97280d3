#!/usr/bin/env python3
"""Writes the lines of the benchmark into a folder.

    lines.py FOLDER
"""
import os
import random
import sys

sys.path.insert(0, os.path.join(os.path.dirname(os.path.abspath(__file__)), "..", "trials"))
from cases import build, table


def letters(E, **of):
    return "".join(next((l for l, es in of.items() if e in es), "-") for e in range(E)).encode()


def counter(E, capacity, **of):
    return b"C" + bytes([capacity]) + letters(E, **of)


def stock(request, answer):
    return b"I" + bytes([0, request, 255, answer, 255])


def eight():
    """eight low walks of 4,000 states and a high walk of 4,096, with 64 events"""
    events = [("H", 0, "c")] * 8
    for j in range(1, 9):
        events += [("R", j, "c"), ("A", j, "u")] + [("L", j, "c")] * 5
    E = len(events)
    base = lambda j: 8 + 7 * (j - 1)
    bodies = [counter(E, 3, u=[0, 2], d=[1, 3]), counter(E, 3, u=[4, 6], d=[5, 7])]
    for j in range(1, 9):
        b = base(j)
        bodies += [counter(E, 199, u=[b + 2], d=[b + 3]), counter(E, 9, u=[b + 4], d=[b + 5], s=[b + 6]), stock(b, b + 1)]
    return build(8, events, bodies)


def ring(marked):
    """a low walk of 4,095 states that one event leads through in a scrambled order"""
    events = [("H", 0, "c"), ("R", 1, "c"), ("A", 1, "u"), ("L", 1, "c")]

    def scrambled(n, seed):
        order = list(range(1, n))
        random.Random(seed).shuffle(order)
        order = [0] + order
        moves = {(order[i], 3): order[(i + 1) % n] for i in range(n)}
        marks = "".join("m" if marked and s == order[n - 1] else "-" for s in range(n))
        return table(4, 0, "---+", marks, moves)

    one = table(4, 0, "----", "m", {})
    face = table(4, 0, "-++-", "m" if marked else "-", {(0, 1): 0, (0, 2): 0})
    return build(1, events, [one, one, scrambled(63, 1), scrambled(65, 2), face])


def main():
    folder = sys.argv[1]
    for name, f in (("eight", eight()), ("ring", ring(True)), ("no-goal", ring(False))):
        with open(os.path.join(folder, name + ".line"), "wb") as out:
            out.write(f)


if __name__ == "__main__":
    main()
