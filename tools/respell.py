#!/usr/bin/env python3
"""Respells the names that specs/ and proofs/ define: `stepOf` is `step_of`, a record's field `first-draw` is `first_draw`.

    tools/respell.py FOLDER

Run once, after the toolchain's port.py. Types, modules and facts begin with a capital and stay. In src/ only clauses and `ghost use` lines
have such names; literals stay. A lemma keeps its dashes. Five names that would fall together with others get names of their own.
"""
import glob
import os
import re
import sys

CAMEL = re.compile(r"(?<![A-Za-z0-9_'])[a-z][a-z0-9_]*[A-Z][A-Za-z0-9_']*")

# Fields of records of specs/, with dashes.
FIELDS = """surface-count slot-count merit-tolerance gradient-tolerance relative-step some-slot some-operand number-1 number-3 number-5 number-19 number-0
flat-weighted first-draw flat-radius below-bound least-curvature above-bound edge-short edge-enough parabola-short parabola-enough sag-fails no-successor
within-limits minus-clamped minus-flat minus-itself thickness-follows conic-follows semi-diameter-follows follower-there follower-absent disabled-absent
conic-minus thickness-minus semi-diameter-minus thickness-plus one-turn not-converged""".split()

# file, name, its new name: else two would have one name.
APART = [
    ("crates/jobs/specs/RecordLaws.antt", "operand_known", "operand_kind-below"),
    ("crates/runs/specs/DamageCauses.antt", "no_kind", "no_such_kind"),
    ("crates/runs/specs/ShorterLaws.antt", "same_end", "end-same"),
    ("crates/runs/specs/ShorterLoops.antt", "same_end", "end-same"),
    ("crates/bench/specs/Dealings.antt", "next-place", "place-next"),
]


def snake(name):
    if name.startswith("getD"):
        return "get_or" + name[4:]
    name = re.sub(r"([a-z0-9])([A-Z])", r"\1_\2", name)
    name = re.sub(r"([A-Z])([A-Z][a-z])", r"\1_\2", name)
    return name.lower()


def respelled(text):
    parts = re.split(r'(b?"(?:[^"\\\n]|\\.)*")', text)
    for i in range(0, len(parts), 2):
        parts[i] = CAMEL.sub(lambda m: snake(m.group(0)), parts[i])
    return "".join(parts)


def whole(name):
    return re.compile(r"(?<![\w'-])" + re.escape(name) + r"(?![\w'-])")


def main():
    top = sys.argv[1]
    os.chdir(top)
    fields = [(whole(f), f.replace("-", "_")) for f in FIELDS]
    for path in sorted(glob.glob("crates/**/*", recursive=True)):
        if not path.endswith((".antt", ".rt")):
            continue
        old = open(path).read()
        new = old
        base = re.sub(r"Zed\d+q", "", path)
        for where, name, other in APART:
            if base == where:
                new = whole(name).sub(other, new)
        new = respelled(new)
        if path.endswith(".antt"):
            for pattern, field in fields:
                new = pattern.sub(field, new)
        if new != old:
            open(path, "w").write(new)


main()
