#!/usr/bin/env python3
"""Writes the line files of the trials, and the output that the rules ask for (by oracle.py), into crates/line_trials.

    line_cases.py
"""
import os
import sys

here = os.path.dirname(os.path.abspath(__file__))
sys.path.insert(0, here)
import oracle
import sketches
from cases import reading, small_line

crate = os.path.join(here, "..", "crates", "line_trials")


def piled():
    """lines whose components are piled in code: those of src/piles.rt"""
    small = oracle.read(small_line())
    yield "piled-small", small
    for name, gens in (("piled-short", small.gens[:4]), ("piled-long", small.gens + small.gens[4:])):
        yield name, oracle.Line(small.n, small.E, small.kind, small.owner, small.unc, gens)
    yield "piled-stores", oracle.read(sketches.stores().file())


def files():
    yield from sorted(reading().items())
    for name, sketch in list(sketches.passing()) + list(sketches.failing()):
        yield name, sketch.file()
    yield from sketches.mutants()
    yield from sketches.by_chance()


def main():
    data = os.path.join(crate, "data")
    for old in os.listdir(data):
        os.remove(os.path.join(data, old))
    with open(os.path.join(crate, "args"), "w") as args, open(os.path.join(crate, "stdout"), "w") as out:

        def told(name, said):
            out.writelines(f"{name}: {line}\n" for line in said)

        for name, line in piled():
            told(name, oracle.trial_of(line))
        for name, f in files():
            with open(os.path.join(data, name), "wb") as to:
                to.write(f)
            args.write(name + "\n")
            told(name, oracle.trial(f))


if __name__ == "__main__":
    main()
