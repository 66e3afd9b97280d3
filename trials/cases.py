#!/usr/bin/env python3
"""Writes the line files of the trials, and the output that the rules ask for (by oracle.py), into crates/trials.

    cases.py
"""
import os
import sys

here = os.path.dirname(os.path.abspath(__file__))
sys.path.insert(0, here)
import oracle
from sketches import build, table

crate = os.path.join(here, "..", "crates", "trials")


def small_line():
    return open(os.path.join(here, "..", "examples", "small.line"), "rb").read()


def edited(f, *edits):
    f = bytearray(f)
    for place, byte in edits:
        f[place] = byte if isinstance(byte, int) else ord(byte)
    return bytes(f)


def largest():
    """a line file of 60,000 bytes, with eight levels and 64 events"""
    n, E = 8, 64
    events = [("H", 0, "c")] * 8 + [e for j in range(1, 9) for e in [("R", j, "c"), ("A", j, "u")] + [("L", j, "u")] * 5]

    def full(count):
        return table(E, 0, "-" * E, "m" + "-" * (count - 1), {})

    # a counter has 2 + 64 bytes, a table of k states 67 + 65 k
    bodies = [full(1) for _ in range(26)]
    size = len(build(n, events, bodies))
    k = 0
    while size < 60000:
        grow = min(199, (60000 - size) // 65)
        if grow == 0:
            break
        bodies[k] = full(1 + grow)
        size += 65 * grow
        k += 1
    # a table's 132 bytes give way to a counter's 66 or a stock's 6, and the rest is filled by tables again
    return n, events, bodies, size


def exactly(total):
    n, events, bodies, size = largest()
    E = 64
    counter = b"C\x01" + b"-" * E
    stock = b"I\x00\xff\xff\xff\xff"
    for c in range(26):
        for s in range(26):
            trial = list(bodies)
            for i in range(c):
                trial[25 - i] = counter
            for i in range(s):
                if 25 - c - i > 8:
                    trial[25 - c - i] = stock
            k = len(build(n, events, trial))
            grow = total - k
            if grow >= 0 and grow % 65 == 0 and grow // 65 <= 199 and trial[8][0:1] == b"T":
                trial[8] = table(E, 0, "-" * E, "m" + "-" * (grow // 65), {})
                if len(build(n, events, trial)) == total:
                    return build(n, events, trial)
    raise SystemExit("no file of that size")


def reading():
    small = small_line()
    cases = {"small": small, "packing": open(os.path.join(here, "..", "examples", "packing.line"), "rb").read()}
    for length in (0, 1, 2, 3, 10, 26, 27, 112):
        cases[f"first-{length}"] = small[:length]
    cases["spare"] = small + b"\x00"
    singles = [
        (0, 2), (1, 0), (1, 9), (2, 0), (2, 65), (2, 3), (2, 5), (1, 2),
        (4, 28), (6, 13), (8, 40), (9, 200), (24, 0), (26, 7), (26, 5),
        (27, "X"), (28, 1), (29, "d"), (30, "h"), (31, 0), (31, 2), (32, 0), (38, "U"),
        (30, "L"), (33, "L"),
        (39, "t"), (40, 0), (40, 201), (40, 2), (40, 4), (41, 3), (42, "*"), (46, "M"), (49, 3), (52, 0), (60, 254),
        (61, "C"), (62, 2), (69, 0), (73, "I"), (74, 0), (80, "-"), (90, 255),
        (107, "T"), (107, "C"), (107, "J"), (108, 1), (109, 4), (109, 255), (111, 1), (111, 3), (112, 2), (112, 254),
    ]
    for place, byte in singles:
        cases[f"byte-{place}-{byte if isinstance(byte, int) else ord(byte)}"] = edited(small, (place, byte))
    counter = b"C\x03--ud"
    for name, body in (("counter", counter), ("counter-short", counter[:-1]), ("counter-spare", counter + b"-"), ("counter-letter", b"C\x03--ux"), ("counter-capacity", b"C\xc8--ud"), ("counter-none", b"C\x00--ud"), ("empty-body", b""), ("letter-only", b"T"), ("stock-short", b"I\x00\x01\xff\x02")):
        cases[name] = build(1, [("H", 0, "c"), ("R", 1, "c"), ("A", 1, "u"), ("L", 1, "u")], [small[39:61], small[61:73], body, small[95:107], small[107:]])
    big = exactly(60000)
    cases["largest"] = big
    cases["too-long"] = big + b"\x00"
    return cases


def main():
    data = os.path.join(crate, "data")
    for old in os.listdir(data):
        os.remove(os.path.join(data, old))
    cases = reading()
    with open(os.path.join(crate, "args"), "w") as args, open(os.path.join(crate, "stdout"), "w") as out:
        for name in sorted(cases):
            with open(os.path.join(data, name), "wb") as f:
                f.write(cases[name])
            try:
                line = oracle.read(cases[name])
                verdict = f"read {line.n} {line.E}"
            except oracle.Fault as fault:
                verdict = str(fault)
            args.write(name + "\n")
            out.write(f"{name}: {verdict}\n")


if __name__ == "__main__":
    main()
