"""Lines for the trials, from one level to eight, with all ten points and without one of them."""
import oracle


def table(E, initial, letters, marks, moves):
    n = len(marks)
    targets = [255] * (n * E)
    for (s, e), t in moves.items():
        targets[s * E + e] = t
    return b"T" + bytes([n, initial]) + letters.encode() + marks.encode() + bytes(targets)


def build(n, events, bodies):
    rows = [b"".join(k.encode() + bytes([o]) + c.encode() for k, o, c in events)] + bodies
    out, at = bytes([1, n, len(events)]), 3 + 4 * len(rows)
    for r in rows:
        out += at.to_bytes(2, "big") + len(r).to_bytes(2, "big")
        at += len(r)
    return out + b"".join(rows)


class Chance(oracle.Chance):
    def __init__(self, seed):
        super().__init__()
        self.x ^= seed * 0x2545F4914F6CDD1D & oracle.WORD

    def shuffled(self, xs):
        xs = list(xs)
        for i in range(len(xs) - 1, 0, -1):
            j = self.below(i + 1)
            xs[i], xs[j] = xs[j], xs[i]
        return xs


class Sketch:
    """a line whose events have names; `seed` tells the order in which they are numbered (0: as they are declared)"""

    def __init__(self, n, seed=0):
        self.n, self.seed, self.events, self.parts = n, seed, {}, {}

    def event(self, name, kind, owner, control="c"):
        self.events[name] = (kind, owner, control)

    def control(self, name, control):
        kind, owner, _ = self.events[name]
        self.events[name] = (kind, owner, control)

    def alphabet(self, j):
        return [e for e, (k, o, _) in self.events.items() if (k != "L" if j == 0 else o == j)]

    # components: a table {(state, event): target} with its marked states, a counter, a stock

    def table(self, c, count, marked, moves, initial=0, knows=()):
        self.parts[c] = ["T", count, initial, set(marked), dict(moves), set(knows)]

    def idle(self, c):
        self.table(c, 1, [0], {})

    def counter(self, c, capacity, up=(), down=(), stay=()):
        self.parts[c] = ["C", capacity, {**{e: "u" for e in up}, **{e: "d" for e in down}, **{e: "s" for e in stay}}]

    def stock(self, c, forth, back):
        self.parts[c] = ["I", (list(forth) + [None, None])[:2] + (list(back) + [None, None])[:2]]

    def body(self, c, number):
        E, part = len(number), self.parts[c]
        if part[0] == "T":
            _, count, initial, marked, moves, knows = part
            known = {e for _, e in moves} | knows
            letters = "".join("+" if e in known else "-" for e in number)
            marks = "".join("m" if s in marked else "-" for s in range(count))
            return table(E, initial, letters, marks, {(s, number[e]): t for (s, e), t in moves.items()})
        if part[0] == "C":
            return b"C" + bytes([part[1]]) + "".join(part[2].get(e, "-") for e in number).encode()
        return b"I\0" + bytes(255 if e is None else number[e] for e in part[1])

    def file(self):
        names = Chance(self.seed).shuffled(self.events) if self.seed else list(self.events)
        number = {e: k for k, e in enumerate(names)}
        return build(self.n, [self.events[e] for e in names], [self.body(c, number) for c in range(2 + 3 * self.n)])


# ---- low levels; each takes its sketch and its number ----


def ring(s, j, steps=1):
    """a request, some steps, an answer"""
    s.event(f"r{j}", "R", j)
    s.event(f"a{j}", "A", j, "u")
    for k in range(steps):
        s.event(f"l{j}.{k}", "L", j, "u" if k % 2 else "c")
    moves = {(0, f"r{j}"): 1, (steps + 1, f"a{j}"): 0}
    moves.update({(1 + k, f"l{j}.{k}"): 2 + k for k in range(steps)})
    s.table(3 * j - 1, steps + 2, [0], moves)
    s.idle(3 * j)
    s.stock(3 * j + 1, [f"r{j}"], [f"a{j}"])


def grader(s, j, tries=1):
    """a request, then good or bad, as the level finds; bad only after so many tries"""
    for name, kind, control in (("r", "R", "c"), ("good", "A", "u"), ("bad", "A", "u"), ("fits", "L", "u"), ("spoilt", "L", "u"), ("again", "L", "c")):
        s.event(f"{name}{j}", kind, j, control)
    good, bad = tries + 2, tries + 3
    moves = {(0, f"r{j}"): 1, (good, f"good{j}"): 0, (bad, f"bad{j}"): 0, (tries + 1, f"spoilt{j}"): bad}
    for k in range(1, tries + 2):
        moves[k, f"fits{j}"] = good
        if k <= tries:
            moves[k, f"again{j}"] = k + 1
    s.table(3 * j - 1, tries + 4, [0], moves)
    s.idle(3 * j)
    s.stock(3 * j + 1, [f"r{j}"], [f"good{j}", f"bad{j}"])


def buffer(s, j, steps=2, capacity=5):
    """steps between request and answer; at each, parts may be put by, which the supervisor counts; at rest they are taken away"""
    s.event(f"put{j}", "L", j, "c")
    s.event(f"r{j}", "R", j)
    for k in range(steps):
        s.event(f"l{j}.{k}", "L", j, "u")
    s.event(f"take{j}", "L", j, "c")
    s.event(f"a{j}", "A", j, "u")
    moves = {(0, f"r{j}"): 1, (steps + 1, f"a{j}"): 0, (0, f"take{j}"): 0}
    for k in range(steps):
        moves[1 + k, f"l{j}.{k}"] = 2 + k
        moves[1 + k, f"put{j}"] = 1 + k
    s.table(3 * j - 1, steps + 2, [0], moves)
    s.counter(3 * j, capacity, up=[f"put{j}"], down=[f"take{j}"])
    s.stock(3 * j + 1, [f"r{j}"], [f"a{j}"])


def oven(s, j, heats=3):
    """two requests, bake and toast, and three answers; the interface is a table of four states, the supervisor holds the heat"""
    for name, kind, control in (("bake", "R", "c"), ("toast", "R", "c"), ("baked", "A", "u"), ("toasted", "A", "u"), ("burnt", "A", "u"), ("warm", "L", "c"), ("cool", "L", "u"), ("done", "L", "c"), ("scorch", "L", "u")):
        s.event(f"{name}{j}", kind, j, control)
    # plant: 0 cold, 1 baking, 2 toasting, 3 baked, 4 toasted, 5 burnt
    moves = {
        (0, f"bake{j}"): 1, (0, f"toast{j}"): 2, (1, f"done{j}"): 3, (2, f"done{j}"): 4, (2, f"scorch{j}"): 5,
        (3, f"baked{j}"): 0, (4, f"toasted{j}"): 0, (5, f"burnt{j}"): 0, (1, f"warm{j}"): 1, (2, f"warm{j}"): 2, (0, f"cool{j}"): 0, (3, f"cool{j}"): 3,
    }
    s.table(3 * j - 1, 6, [0], moves)
    heat = {(k, f"warm{j}"): k + 1 for k in range(heats)}
    heat.update({(k, f"cool{j}"): max(0, k - 1) for k in range(heats + 1)})
    s.table(3 * j, heats + 1, [0], heat)
    face = {(0, f"bake{j}"): 1, (0, f"toast{j}"): 2, (1, f"baked{j}"): 0, (2, f"toasted{j}"): 0, (2, f"burnt{j}"): 3, (3, f"toast{j}"): 2}
    s.table(3 * j + 1, 4, [0, 3], face)


def sorter(s, j, steps=2):
    """a request, then one of three answers; which of them can still come is settled by low events, some steps before they come"""
    for name, kind, control in (("r", "R", "c"), ("good", "A", "u"), ("bad", "A", "u"), ("worse", "A", "u"), ("pass", "L", "u"), ("fail", "L", "u"), ("step", "L", "c"), ("quick", "L", "c")):
        s.event(f"{name}{j}", kind, j, control)
    # 0 at rest, 1 asked, then from 2 on to good, and after these from `low` on to bad or worse; the last two lead to worse alone
    low = 2 + steps + 1
    moves = {(0, f"r{j}"): 1, (1, f"pass{j}"): 2, (1, f"fail{j}"): low}
    for k in range(steps):
        moves[2 + k, f"step{j}"] = 3 + k
        moves[low + k, f"step{j}"] = low + k + 1
    end = low + steps
    moves.update({(low - 1, f"good{j}"): 0, (end, f"bad{j}"): 0, (end, f"worse{j}"): 0})
    moves.update({(low, f"quick{j}"): end + 1, (end + 1, f"step{j}"): end + 2, (end + 2, f"worse{j}"): 0})
    s.table(3 * j - 1, end + 3, [0], moves)
    s.idle(3 * j)
    s.table(3 * j + 1, 2, [0], {(0, f"r{j}"): 1, (1, f"good{j}"): 0, (1, f"bad{j}"): 0, (1, f"worse{j}"): 0})


def answers(s, j):
    return [e for e, (k, o, _) in s.events.items() if k == "A" and o == j]


def requests(s, j):
    return [e for e, (k, o, _) in s.events.items() if k == "R" and o == j]


# ---- high levels ----


def free_high(s, most=None):
    """every request at any time, or so many outstanding at most"""
    if most is None:
        s.idle(0)
    else:
        s.counter(0, s.n, up=[r for j in range(1, s.n + 1) for r in requests(s, j)], down=[a for j in range(1, s.n + 1) for a in answers(s, j)])
    s.idle(1)
    if most is not None and most < s.n:
        limit(s, most)


def limit(s, most):
    """the high supervisor counts what is outstanding"""
    s.counter(1, most, up=[r for j in range(1, s.n + 1) for r in requests(s, j)], down=[a for j in range(1, s.n + 1) for a in answers(s, j)])


def limited_high(s, most):
    s.idle(0)
    limit(s, most)


def recipe(s, levels):
    """the levels one after the other, each after a start; a spoilt part goes back to the level's beginning"""
    s.event("start", "H", 0)
    s.event("drop", "H", 0, "u")
    moves, at = {(0, "start"): 1, (0, "drop"): 0}, 1
    for j in levels:
        r, *more = requests(s, j)
        for q in [r] + more:
            moves[at, q] = at + 1
        moves[at, "drop"] = at
        for a in answers(s, j):
            moves[at + 1, a] = at if a.startswith(("bad", "burnt", "worse")) else at + 2
        at += 2
    moves[at, "start"] = 0
    moves[at, "drop"] = 0
    s.table(0, at + 1, [0], moves)
    s.idle(1)


# ---- passing lines ----


def cycle(s, c, *events):
    s.table(c, 3, [0], {(k, e): (k + 1) % 3 for k, e in enumerate(events)})


def stores():
    """the line of two levels that is piled in code"""
    s = Sketch(2)
    for name, kind, owner, control in (("in", "H", 0, "c"), ("r1", "R", 1, "c"), ("a1", "A", 1, "u"), ("r2", "R", 2, "c"), ("a2", "A", 2, "u"), ("work", "L", 1, "u"), ("put", "L", 2, "c"), ("take", "L", 2, "c")):
        s.event(name, kind, owner, control)
    s.counter(0, 2, up=["in"], down=["r1"])
    cycle(s, 1, "r1", "a1", "r2")
    cycle(s, 2, "r1", "work", "a1")
    s.stock(3, [], [])
    s.stock(4, ["r1"], ["a1"])
    cycle(s, 5, "r2", "put", "a2")
    s.counter(6, 3, up=["put"], down=["take"])
    s.stock(7, ["r2"], ["a2"])
    return s


def line(n, low, high, seed=0):
    s = Sketch(n, seed)
    for j in range(1, n + 1):
        low(s, j)
    high(s)
    return s


def passing():
    yield "ring", line(1, ring, lambda s: recipe(s, [1]))
    yield "ring-long", line(1, lambda s, j: ring(s, j, 55), lambda s: recipe(s, [1]), 3)
    yield "ring-two", line(2, lambda s, j: ring(s, j, j), lambda s: recipe(s, [1, 2]), 4)
    yield "ring-three", line(3, lambda s, j: ring(s, j, 4 - j), lambda s: free_high(s), 5)
    yield "grader", line(1, grader, lambda s: recipe(s, [1]), 6)
    yield "grader-twice", line(2, lambda s, j: grader(s, j, j), lambda s: recipe(s, [2, 1, 2]), 7)
    yield "grader-free", line(3, lambda s, j: grader(s, j, 2), lambda s: free_high(s, 2), 8)
    yield "oven", line(1, oven, lambda s: recipe(s, [1]), 9)
    yield "oven-two", line(2, lambda s, j: oven(s, j, 3 * j), lambda s: recipe(s, [1, 2]), 10)
    yield "sorter", line(1, sorter, lambda s: recipe(s, [1]), 27)
    yield "sorter-two", line(2, lambda s, j: sorter(s, j, 1 + j), lambda s: recipe(s, [2, 1]), 28)
    yield "sorter-free", line(3, lambda s, j: sorter(s, j, j), lambda s: free_high(s, 2), 29)
    yield "sorter-eight", line(8, lambda s, j: sorter(s, j, 3) if j > 6 else ring(s, j, 1), lambda s: recipe(s, [8, 2, 7]), 30)
    yield "buffer", line(1, buffer, lambda s: recipe(s, [1]), 11)
    yield "buffer-two", line(2, lambda s, j: buffer(s, j, 2 + j, 4), lambda s: free_high(s, 1), 12)
    yield "buffer-4096", line(1, lambda s, j: buffer(s, j, 14, 127), lambda s: recipe(s, [1]), 13)
    yield "buffer-4000", line(2, lambda s, j: buffer(s, j, 8, 199) if j == 2 else grader(s, j, 3), lambda s: recipe(s, [1, 2]), 14)
    yield "mixed-three", line(3, lambda s, j: (ring, grader, oven)[j - 1](s, j), lambda s: recipe(s, [1, 2, 3]), 15)
    yield "mixed-four", line(4, lambda s, j: (ring, grader, buffer, oven)[j - 1](s, j), lambda s: free_high(s, 2), 16)
    yield "mixed-five", line(5, lambda s, j: (grader, ring, oven, ring, buffer)[j - 1](s, j), lambda s: recipe(s, [5, 3, 1, 2, 4]), 17)
    yield "six", line(6, lambda s, j: buffer(s, j, j, 3 * j) if j % 2 else ring(s, j, j), lambda s: free_high(s, 3), 18)
    yield "seven", line(7, lambda s, j: ring(s, j, j), lambda s: recipe(s, [7, 6, 5, 4, 3, 2, 1]), 19)
    yield "eight", line(8, lambda s, j: ring(s, j, 1 + j % 3), lambda s: free_high(s), 20)
    yield "eight-grades", line(8, lambda s, j: grader(s, j, 1 + j % 3), lambda s: recipe(s, [1, 8, 4]), 21)
    yield "eight-large", line(8, lambda s, j: buffer(s, j, 4, 199 - 3 * j), lambda s: limited_high(s, 15), 22)
    yield "high-4000", high_large()
    s = line(2, lambda s, j: ring(s, j, 2), lambda s: recipe(s, [2, 1]), 23)
    s.control("r1", "u")
    s.control("r2", "u")
    yield "uncontrollable-requests", s
    yield "unreached", unreached()
    yield "begins-later", begins_later()


def high_large():
    """a high walk of 4,000 states, with long ways through it"""
    s = Sketch(1, 26)
    s.event("tick", "H", 0)
    s.event("tock", "H", 0)
    grader(s, 1, 2)
    s.event("turn", "H", 0, "u")
    s.counter(0, 199, up=["tick"], down=["tock"], stay=["good1"])
    turns = {(k, "turn"): (k + 1) % 10 for k in range(10)}
    turns.update({(k, "r1"): k for k in range(4)})
    turns.update({(k, "good1"): 0 for k in range(10)})
    s.table(1, 10, [0, 7], turns)
    return s


def unreached():
    """states that would break points, if they were reached"""
    s = line(3, lambda s, j: oven(s, j, 2), lambda s: recipe(s, [3, 1, 2]), 24)
    for j in (1, 2, 3):
        plant, supervisor, face = (s.parts[c] for c in (3 * j - 1, 3 * j, 3 * j + 1))
        plant[1] += 1
        plant[4][6, f"scorch{j}"] = 6
        supervisor[1] += 1
        supervisor[4][3, f"warm{j}"] = 0
        face[1] += 1
        face[4][4, f"bake{j}"] = 4
        face[4][4, f"baked{j}"] = 4
    return s


def begins_later():
    """initial states other than 0, and more than one marked state"""
    s = Sketch(2, 25)
    for j in (1, 2):
        s.event(f"r{j}", "R", j)
        s.event(f"a{j}", "A", j)
        s.event(f"b{j}", "A", j, "u")
        s.event(f"l{j}", "L", j, "u")
        s.event(f"m{j}", "L", j)
        s.table(3 * j - 1, 5, [3, 4], {(3, f"r{j}"): 1, (4, f"r{j}"): 2, (1, f"l{j}"): 0, (2, f"l{j}"): 0, (2, f"m{j}"): 1, (0, f"a{j}"): 3, (0, f"b{j}"): 4, (4, f"m{j}"): 3, (3, f"m{j}"): 3}, 3)
        s.table(3 * j, 3, [0, 1], {(0, f"m{j}"): 1, (1, f"m{j}"): 2, (2, f"m{j}"): 0}, 1)
        s.table(3 * j + 1, 3, [2], {(2, f"r{j}"): 1, (1, f"a{j}"): 2, (1, f"b{j}"): 2}, 2)
    s.event("go", "H", 0, "u")
    s.event("stop", "H", 0)
    s.table(0, 3, [1], {(2, "go"): 0, (0, "go"): 1, (1, "stop"): 2}, 2)
    s.table(1, 2, [1], {(0, "stop"): 1, (1, "stop"): 0, (0, "go"): 0, (1, "go"): 1}, 1)
    return s


# ---- lines that lack a point ----


def changed(s, *changes):
    for change in changes:
        change(s)
    return s


def without(c, state, event):
    """the component has no move there, and still knows the event"""

    def change(s):
        del s.parts[c][4][state, event]
        s.parts[c][5].add(event)

    return change


def move(c, state, event, target):
    def change(s):
        s.parts[c][4][state, event] = target

    return change


def grown(c, more=1):
    def change(s):
        s.parts[c][1] += more

    return change


def extra(name, kind, owner, control="c"):
    return lambda s: s.event(name, kind, owner, control)


def marks(c, *states):
    def change(s):
        s.parts[c][3] = set(states)

    return change


def letter(c, event, to):
    def change(s):
        s.parts[c][2][event] = to

    return change


def failing():
    two = lambda seed, **k: line(2, lambda s, j: grader(s, j, j), lambda s: recipe(s, [2, 1, 2]), seed)
    ovens = lambda seed: line(3, lambda s, j: oven(s, j, 2 + j), lambda s: recipe(s, [1, 3, 2]), seed)
    large = lambda seed: line(2, lambda s, j: buffer(s, j, 8, 199) if j == 2 else grader(s, j, 3), lambda s: recipe(s, [1, 2]), seed)
    eight = lambda seed: line(8, lambda s, j: buffer(s, j, 1, j - 5) if j >= 7 else ring(s, j, 1), lambda s: limited_high(s, 3), seed)
    free = lambda seed: line(4, lambda s, j: (ring, grader, buffer, oven)[j - 1](s, j), lambda s: free_high(s, 3), seed)
    # 1: an interface that lacks an answer, one that knows a low event, a plant and a supervisor that know another level's event
    yield "1-face-lacks", changed(two(31), lambda s: s.stock(7, ["r2"], ["good2"]))
    yield "1-face-knows", changed(ovens(32), move(10, 0, "warm3", 0))
    yield "1-plant-knows", changed(free(33), move(11, 0, "again2", 0))
    yield "1-supervisor-knows", changed(eight(34), letter(24, "put7", "s"))
    yield "1-high-knows", changed(eight(35), letter(1, "take8", "s"))
    # 2: not marked at first, an answer at rest, a request to rest, a request at work, an answer to work
    yield "2-begins-at-work", changed(ovens(41), lambda s: s.parts[7].__setitem__(2, 1))
    yield "2-answer-at-rest", changed(ovens(42), move(10, 3, "baked3", 2))
    yield "2-request-to-rest", changed(ovens(43), move(10, 0, "toast3", 3))
    yield "2-request-at-work", changed(ovens(44), move(7, 2, "bake2", 1))
    yield "2-answer-to-work", changed(ovens(45), move(10, 2, "burnt3", 1))
    yield "2-stock-reversed", changed(eight(46), lambda s: s.stock(25, ["a8"], ["r8"]))
    # 3: an answer that the high plant or the high supervisor does not take
    yield "3-plant", changed(two(51), without(0, 6, "bad2"))
    yield "3-supervisor", changed(free(52), lambda s: s.table(1, 2, [0], {(0, "toast4"): 1, (1, "burnt4"): 0, (0, "toasted4"): 0}))
    yield "3-first-level", changed(ovens(53), without(0, 2, "burnt1"))
    yield "3-counted", changed(eight(54), lambda s: s.counter(1, 3, up=["r1", "a1"], down=["r2", "a2"]))
    # 4: a request that plant or supervisor does not take
    yield "4-plant", changed(ovens(61), without(8, 0, "toast3"))
    yield "4-counted", changed(large(62), letter(6, "r2", "u"))
    yield "4-supervisor", changed(ovens(63), move(9, 0, "bake3", 1))
    yield "4-after-an-answer", changed(two(64), grown(5), move(5, 5, "bad2", 6), lambda s: s.parts[5][3].add(6))
    # 5: an answer to which no word of low events leads
    yield "5-never-bad", changed(two(71), without(5, 3, "spoilt2"))
    yield "5-full", changed(large(72), letter(6, "l2.6", "u"))
    yield "5-one-of-three", changed(ovens(73), without(8, 2, "scorch3"))
    yield "5-supervisor", changed(ovens(74), lambda s: s.parts[6][4].update({(4, "toast2"): 4, (3, "toast2"): 3, (2, "toast2"): 2, (1, "toast2"): 1, (0, "toast2"): 0, (0, "done2"): 0, (1, "done2"): 1, (3, "done2"): 3}))
    # 6: at rest, and no low event that ends the work
    yield "6-never-taken", changed(large(81), without(5, 0, "take2"))
    yield "6-no-cooling", changed(ovens(82), lambda s: s.parts[9][4].update({(5, "cool3"): 5}))
    yield "6-unmarked", changed(eight(83), marks(23, 1))
    yield "6-after-bad", changed(two(84), grown(5), move(5, 5, "bad2", 6), move(5, 6, "r2", 1))
    # 7: at work, and no word that ends it
    yield "7-jam", changed(two(91), extra("jam", "L", 2, "u"), grown(5), move(5, 2, "jam", 6))
    jammed = line(2, lambda s, j: buffer(s, j, 8, 180) if j == 2 else grader(s, j, 3), lambda s: recipe(s, [1, 2]), 92)
    yield "7-jam-large", changed(jammed, extra("jam", "L", 2, "u"), grown(5), move(5, 8, "jam", 10))
    yield "7-by-the-answer", changed(eight(94), letter(21, "a7", "d"))
    yield "7-cooking-for-ever", changed(ovens(93), extra("stay", "L", 3), grown(8, 2), move(8, 2, "stay", 6), move(8, 6, "stay", 7), move(8, 7, "stay", 6))
    # 8: no word of the high level to rest
    yield "8-jam", changed(ovens(101), extra("jam", "H", 0, "u"), grown(0), move(0, 5, "jam", 8))
    yield "8-unmarked", changed(two(102), marks(0, 3), lambda s: s.table(1, 2, [1], {(0, "drop"): 0, (1, "drop"): 1}))
    yield "8-counted", changed(eight(103), extra("tick", "H", 0, "u"), lambda s: s.counter(0, 2, up=["tick"]))
    yield "8-large", changed(line(7, lambda s, j: ring(s, j, 2), lambda s: recipe(s, [1, 2, 3, 4, 5, 6, 7]), 104), extra("jam", "H", 0, "u"), grown(0), move(0, 13, "jam", 16))
    yield "8-supervisor", held(105)
    # 9: an uncontrollable event of the plant that its level forbids
    yield "9-full", changed(large(111), lambda s: s.control("put2", "u"))
    yield "9-warm", changed(ovens(112), lambda s: s.control("warm3", "u"))
    yield "9-answer-at-rest", changed(free(113), extra("late", "A", 4, "u"), move(11, 0, "late", 0), lambda s: s.parts[13][4].update({(1, "late"): 0}), move(11, 3, "late", 0))
    yield "9-eighth", changed(eight(114), lambda s: s.control("take8", "u"))
    # 10: an uncontrollable event of the high plant that its supervisor forbids
    yield "10-drop", changed(two(121), lambda s: s.table(1, 2, [0], {(0, "r1"): 1, (1, "r1"): 1, (1, "good1"): 0, (1, "bad1"): 1, (0, "drop"): 0}))
    yield "10-request", changed(eight(122), lambda s: s.control("r8", "u"))
    yield "10-counted", changed(free(123), extra("tick", "H", 0, "u"), extra("tock", "H", 0), lambda s: s.counter(1, 20, up=["tick"], down=["tock"]))
    # walks above 4,096 states: at the first level, at a later one, at the high one, one in each of two
    yield "12-first", line(1, lambda s, j: buffer(s, j, 39, 49), lambda s: recipe(s, [1]), 131)
    yield "12-third", line(4, lambda s, j: buffer(s, j, 5 * j, 199) if j >= 3 else ring(s, j), lambda s: free_high(s, 1), 132)
    yield "12-high", line(8, lambda s, j: ring(s, j, 1), lambda s: limited_high(s, 16), 133)
    yield "12-before-1", changed(line(2, lambda s, j: buffer(s, j, 5 * j, 199), lambda s: recipe(s, [1, 2]), 134), letter(6, "put1", "s"))


def held(seed):
    """a high plant that turns, and a high supervisor that stops it for ever at its state 40"""
    s = Sketch(3, seed)
    for j in (1, 2, 3):
        ring(s, j, j)
    s.event("tick", "H", 0)
    s.event("jam", "H", 0)
    s.table(0, 60, [0], {**{(k, "tick"): (k + 1) % 60 for k in range(60)}, (40, "jam"): 40})
    s.table(1, 2, [0], {(0, "tick"): 0, (0, "jam"): 1})
    return s


# ---- lines with a few parts changed by chance ----


def mutant(base, chance):
    """the line with a move, a mark, a letter or a control letter changed"""
    for _ in range(1 + chance.below(2)):
        c = chance.below(2 + 3 * base.n)
        part, level = base.parts[c], (c + 1) // 3
        own = base.alphabet(level)
        if c >= 2 and c % 3 == 1:
            own = [e for e in own if base.events[e][0] in "RA"]
        how = chance.below(6)
        if part[0] == "T":
            count, moves = part[1], part[4]
            keys = sorted(moves)
            if how == 0 and keys:
                part[5].update(e for _, e in keys)
                del moves[keys[chance.below(len(keys))]]
            elif how <= 2 and keys:
                moves[keys[chance.below(len(keys))]] = chance.below(count)
            elif how == 3:
                moves[chance.below(count), own[chance.below(len(own))]] = chance.below(count)
            elif how == 4:
                part[3] = part[3] ^ {chance.below(count)}
            else:
                name = own[chance.below(len(own))]
                base.control(name, "c" if base.events[name][2] == "u" else "u")
        elif part[0] == "C":
            part[2][own[chance.below(len(own))]] = "uds-"[chance.below(4)]
        else:
            name = own[chance.below(len(own))]
            base.control(name, "c" if base.events[name][2] == "u" else "u")
    return base


def rating(fields):
    """mutants are kept for a fault above level 1, at a high code, by a high event"""
    _, _, point, level, _, place, event = fields
    return (level > 1) + (place != 255 and place > 30) + (event != 255 and event > 5)


def mutants(each=6, tries=100):
    """for each point (0: none) the best-rated mutant of up to `each` lines"""
    bases = ["ring-two", "ring-three", "grader-twice", "grader-free", "oven-two", "buffer-two", "mixed-three", "mixed-four", "mixed-five", "seven", "sorter-two", "sorter-free", "uncontrollable-requests", "unreached", "begins-later"]
    kept = {point: [] for point in range(0, 11)}
    for b, name in enumerate(bases):
        for t in range(tries):
            s = mutant(dict(passing())[name], Chance(1000 * b + t + 1))
            f = s.file()
            try:
                oracle.check(oracle.read(f))
                kept[0].append(((f != dict(passing())[name].file()), -t, name, f))
            except oracle.Fault as fault:
                if fault.fields[0] == 14:
                    kept[fault.fields[2]].append((rating(fault.fields), -t, name, f))
    for point, found in kept.items():
        found.sort(key=lambda m: m[:2], reverse=True)
        seen = {}
        for rate, _, name, f in found:
            if name not in seen and len(seen) < each:
                seen[name] = f
        for name, f in seen.items():
            yield f"chance-{point}-{name}", f


# ---- lines made by chance ----


def sparse(s, c, events, states, chance, tenths):
    """a table in which so many tenths of the moves exist"""
    moves = {(x, e): chance.below(states) for x in range(states) for e in events if chance.below(10) < tenths}
    marked = {x for x in range(states) if x == 0 or chance.below(2)}
    s.table(c, states, marked, moves, 0, [e for e in events if chance.below(6) == 0])


def chance_interface(s, j, chance):
    asks, replies = requests(s, j), answers(s, j)
    if chance.below(12) == 0:
        return sparse(s, 3 * j + 1, asks + replies, 1 + chance.below(3), chance, 5)
    rest = [0, 2][: 1 + chance.below(2)]
    moves = {(x, r): 1 for x in rest for r in asks if chance.below(4)}
    moves.update({(1, a): rest[chance.below(len(rest))] for a in replies if chance.below(4)})
    s.table(3 * j + 1, len(rest) + 1, rest, moves, 0, asks + replies)


def chance_level(s, j, chance):
    asks, replies = requests(s, j), answers(s, j)
    lows = [e for e in s.alphabet(j) if s.events[e][0] == "L"]
    states, moves = 2 + chance.below(4), {}
    for x in range(states):
        rests = x == 0 or chance.below(6) == 0
        moves.update({(x, r): 1 + chance.below(states - 1) for r in asks if rests})
        moves.update({(x, a): 0 for a in replies if x > 0 and chance.below(5) < 3})
        moves.update({(x, l): x if rests else 1 + chance.below(states - 1) for l in lows if chance.below(3)})
    s.table(3 * j - 1, states, [x for x in range(states) if x == 0 or chance.below(6) == 0], moves)
    how = chance.below(4)
    if how == 0 and lows:
        s.counter(3 * j, 1 + chance.below(3), up=lows[:1], down=lows[1:2], stay=lows[2:])
    elif how == 1 and lows:
        sparse(s, 3 * j, lows, 1 + chance.below(3), chance, 8)
    else:
        s.idle(3 * j)


def chance_high(s, chance):
    alphabet = s.alphabet(0)
    own = [e for e in alphabet if s.events[e][0] == "H"]
    states = 1 + chance.below(4)
    if chance.below(3) == 0:
        sparse(s, 0, [e for e in alphabet if chance.below(2)], states, chance, 8)
    else:
        s.table(0, states, [0], {(x, e): chance.below(states) for x in range(states) for e in alphabet if e not in own or chance.below(2)})
    how = chance.below(4)
    if how == 0 and own:
        s.counter(1, 1 + chance.below(3), up=own[:1], down=own[1:2])
    elif how == 1:
        sparse(s, 1, [e for e in alphabet if chance.below(3) == 0], 1 + chance.below(3), chance, 9)
    else:
        s.idle(1)


def chance_line(seed):
    """a line of one to three levels in which nearly all is left to chance"""
    chance = Chance(seed)
    s = Sketch(1 + chance.below(3), 1 + chance.below(50))
    for j in range(1, s.n + 1):
        for kind, least, most in (("R", 1, 2), ("A", 1, 2), ("L", 0, 3)):
            for k in range(least + chance.below(most - least + 1)):
                s.event(f"{kind}{j}.{k}", kind, j, "u" if chance.below(2 if kind == "A" else 4) == 0 else "c")
    for k in range(chance.below(3)):
        s.event(f"H{k}", "H", 0, "u" if chance.below(4) == 0 else "c")
    for j in range(1, s.n + 1):
        chance_interface(s, j, chance)
        chance_level(s, j, chance)
    chance_high(s, chance)
    return s


def by_chance(passed=16, each=3, tries=3000):
    """lines made by chance: some that pass, in more than a handful of joint states, and for each point some that fail"""
    left = {0: passed, **{point: each for point in range(1, 11)}}
    for seed in range(1, tries):
        f = chance_line(seed).file()
        line = oracle.read(f)
        try:
            oracle.check(line)
            point = 0
        except oracle.Fault as fault:
            point = fault.fields[2]
        if left[point] > 0 and (point or len(line.gens) > 5 and oracle.states(line) >= 20):
            left[point] -= 1
            yield f"odd-{point}-{seed}", f
