#!/usr/bin/env python3
"""Spells the repository's own definitions and lemmas as today's Rattle does.

Run once, at the top, after the kit's port.py. A name in camel case becomes one in snake case
(rowState: row_state), and a dash in a constructor or in a field of a record becomes an underscore
(answers-accepted: answers_accepted). Lemmas keep the dash that joins two names.
Names of Rust code, texts and files stay as they are.
"""
import re
import sys
from pathlib import Path

TOKEN = re.compile(r"[A-Za-z_][A-Za-z0-9_'₀-₉]*(?:-[A-Za-z0-9_'₀-₉*+]+)*")
# names that would fall together with another, and get a name of their own
OWN = {
    "unmarkedStart": "unmarked_start_line",
    "lostAnswer": "lost_answer_line",
    "unmarkedPlant": "unmarked_plant_line",
    "restByRequest": "rest_by_request_line",
    "wrongAnswer": "wrong_answer_line",
    "strayEvent": "stray_event_line",
    "tooLarge": "too_large_line",
    "goesOn": "continues",
}
# lemmas that the kit's script left under the new name of their function
LEMMAS = {
    "crates/makes/proofs/Plain.antt": {"target_fits": "target-in_range", "column_fits": "column-in_range"},
    "*": {"first_off": "first_off-is"},
}
# made by Rattle from the code's names
MADE = re.compile(r"^(returns|in|then|else|if|loop|invariant|decreases|overflow|bounds|not|ensures|requires)-")


def snake(name):
    name = re.sub(r"([a-z0-9])([A-Z])", lambda m: m.group(1) + "_" + m.group(2).lower(), name)
    return name


def camel(name):
    return re.match(r"^[a-z]", name) and re.search(r"[a-z0-9][A-Z]", name)


def defined(text):
    """Names that a file of definitions or lemmas declares, and those of them that are fields or constructors."""
    names, members = set(), set()
    block = None
    for line in text.split("\n"):
        head = re.match(r"^(\s*)(?:abbrev |unfoldable )*(?:pub )?(record|data)\b", line)
        if head:
            block = len(head.group(1))
            continue
        if line.strip() and block is not None and len(line) - len(line.lstrip()) <= block:
            block = None
        found = re.match(r"^\s*(?:abbrev |unfoldable )*(?:pub )?(?:abbrev |unfoldable )*([A-Za-z_][^\s:(){}]*(?: [A-Za-z_][^\s:(){}]*)*) :(?: |$)", line)
        if found:
            for name in found.group(1).split():
                names.add(name)
                if block is not None:
                    members.add(name)
    return names, members


def main():
    files = sorted(Path("crates").glob("*/specs/**/*.antt")) + sorted(Path("crates").glob("*/proofs/**/*.antt"))
    sources = sorted(Path("crates").glob("*/src/**/*.rt"))
    edits = sorted(Path("crates").glob("*/must-fail/*.edit"))
    names, members, tokens = set(), set(), set()
    for f in files:
        text = f.read_text()
        tokens |= set(TOKEN.findall(text))
        if f.name in ("Answers.antt", "Invariants.antt"):
            n, m = defined(text)
            n = {x for x in n if not MADE.match(x)}
        else:
            n, m = defined(text)
        names |= n
        members |= m
    change = {}
    for name in sorted(names):
        new = OWN.get(name)
        if new is None:
            new = name
            if camel(new) and not MADE.match(new):
                new = snake(new)
            if name in members and not MADE.match(name):
                new = new.replace("-", "_")
        if new != name:
            change[name] = new
    taken = {}
    for old, new in change.items():
        if new in names or new in taken:
            print(f"falls together: {old} -> {new}", file=sys.stderr)
        taken[new] = old
    if "--list" in sys.argv:
        for old, new in change.items():
            print(old, new)
        return

    for f in files:
        text = f.read_text()
        own = LEMMAS.get(str(f), {}) | LEMMAS["*"]
        new = TOKEN.sub(lambda m: own.get(m.group(0), m.group(0)), text)
        if new != text:
            f.write_text(new)

    def respell(text):
        return TOKEN.sub(lambda m: change.get(m.group(0), m.group(0)), text)

    for f in files:
        text = f.read_text()
        new = respell(text)
        if new != text:
            f.write_text(new)
    for f in sources:
        text = f.read_text()
        # only ghost lines and clauses
        out, depth = [], 0
        for line in text.split("\n"):
            ghost = re.match(r"^\s*(ghost |requires|ensures)", line)
            if ghost or depth > 0:
                depth += line.count("{") - line.count("}")
                line = respell(line)
            out.append(line)
        new = "\n".join(out)
        if new != text:
            f.write_text(new)
    for f in edits:
        text = f.read_text()
        if "file: specs/" in text:
            new = respell(text)
            if new != text:
                f.write_text(new)


main()
