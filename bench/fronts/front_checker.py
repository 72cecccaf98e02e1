#!/usr/bin/env python3
"""Reads and judges certificates of fronts, in Python's fractions.

    python3 bench/fronts/front_checker.py MODEL CERT

prints what `symphony check MODEL CERT` is to print, for certificates of both kinds, and

    python3 bench/fronts/front_checker.py FILE.rows

tells which rows of such a file, whose words are `check MODEL CERT`, want something else.

A certificate of a front is a text of these lines:

    front 1                     the first line
    outcome V1 V2               for each outcome, whole, in least form and with the constants,
    point [NAME V]..            with its point
    tree least1                 the trees: `least1`, `least2`, and `gap I` for the gap between outcomes I and I+1,
    cut ROW hi|lo LITERAL..     with the cuts
    split .., leaf ..           and the nodes of each, as in a `cert 1`
    end

Let f1 and f2 be the objectives in least form without constants, i1 the first outcome's f1 and i2 the last one's f2. Then least1 makes f1
small and has to reach i1, least2 makes f2 small and has to reach i2. The gap between p and q has the weights a = p2 - i2 and b = q1 - i1. It
makes a new integer column Z small, which is 0 to a*b, has the new rows G1: a*f1 - Z <= a*i1 and G2: b*f2 - Z <= b*i2, and has to reach a*b. A
new name gets as many underscores as make it free.

The judging goes in this order: both objectives are whole (9); outcome by outcome its point (1, 2), its values, and that V1 rises and V2
falls (8); the trees are those and the numbers of the gaps have room (10); the cuts of all trees (1, 5); the nodes of all trees (1, 6, 7).
Nodes are counted through all trees.

It shares nothing with the program; trees, cuts and points are judged by certificate_checker.py.
"""
import os
import re
import sys
from fractions import Fraction
from functools import lru_cache

sys.path.insert(0, os.path.join(os.path.dirname(os.path.abspath(__file__)), "..", "rows"))

import certificate_checker as plain  # noqa: E402
from certificate_checker import Faulty, Judge, NoRoom, code_or, number, plus, total  # noqa: E402
from mps_reader import LARGEST, Column, Fault, Model, Row, read  # noqa: E402

OF_PLAIN_ONES = ["cert", "claim", "ray"]
OF_BOTH = ["point", "cut", "split", "leaf", "end"]


# ---- the text


def whole_or_code(word):
    value = number(word)
    if isinstance(value, int):
        return value
    return value if value.denominator == 1 else 3


def tree_name(words):
    if words in (["least1"], ["least2"]):
        return words[0], 0
    if len(words) != 2 or words[0] != "gap":
        raise Faulty(3)
    if not re.fullmatch(r"0|[1-9][0-9]*", words[1]):
        raise Faulty(4)
    if int(words[1]) >= 2**64:
        raise Faulty(5)
    return "gap", int(words[1])


def statement(line):
    """What a line says by itself, or its code."""
    words = [word for word in re.split(r"[ \t]+", line) if word]
    if line == "" or line[0] in " \t" or not words:
        raise Faulty(2)
    kind, rest = words[0], words[1:]
    if kind in OF_BOTH:
        return plain.statement(line)
    if kind not in OF_PLAIN_ONES + ["front", "outcome", "tree"]:
        raise Faulty(2)
    if line[-1] in " \t":
        raise Faulty(3)
    if kind in OF_PLAIN_ONES:
        return "foreign", None
    if kind == "front" and rest == ["1"]:
        return kind, None
    if kind == "outcome" and len(rest) == 2:
        return kind, tuple(int(value) for value in code_or([whole_or_code(word) for word in rest]))
    if kind == "tree":
        return kind, tree_name(rest)
    raise Faulty(3)


class StatedOutcome:
    def __init__(self, values):
        self.values, self.point = values, None


class StatedTree:
    def __init__(self, name):
        self.name, self.cuts, self.nodes = name, [], []

    def due(self):
        """How many trees are still due."""
        return 1 + sum(1 if node[0] == "split" else -1 for node in self.nodes)


class StatedFront:
    def __init__(self):
        self.outcomes, self.trees, self.ended = [], [], False

    def lacks_point(self):
        return bool(self.outcomes) and self.outcomes[-1].point is None

    def tree_code(self):
        """The code of what stands behind a tree's end."""
        if not self.outcomes or self.lacks_point():
            return 6
        if not self.trees:
            return None
        last = self.trees[-1]
        return 6 if not last.nodes else 7 if last.due() != 0 else None

    def place_code(self, kind):
        """The code of a line by what stands before it."""
        if kind == "outcome":
            return 6 if self.lacks_point() or self.trees else None
        if kind == "point":
            return None if self.lacks_point() else 6
        if kind in ("tree", "end"):
            return self.tree_code()
        if kind == "cut":
            return None if self.trees and not self.trees[-1].nodes else 6
        if kind == "node":
            return 6 if not self.trees else 7 if self.trees[-1].due() == 0 else None
        return 6

    def take(self, kind, value):
        if kind == "outcome":
            self.outcomes.append(StatedOutcome(value))
        elif kind == "point":
            self.outcomes[-1].point = value
        elif kind == "tree":
            self.trees.append(StatedTree(value))
        elif kind == "cut":
            self.trees[-1].cuts.append(value)
        elif kind == "node":
            self.trees[-1].nodes.append(value)
        else:
            self.ended = True


def front_certificate(lines):
    """What the lines behind the first one state, or (line, code)."""
    stated = StatedFront()
    for place, line in enumerate(lines[1:], 2):
        if stated.ended:
            return place, 8
        try:
            kind, value = statement(line)
        except Faulty as fault:
            return place, fault.args[0]
        code = stated.place_code(kind)
        if code is not None:
            return place, code
        stated.take(kind, value)
    if not stated.ended:
        return len(lines) + 1, stated.place_code("end") or 8
    return stated


def certificate(text):
    """What a text of either kind states, or (line, code)."""
    lines = text.split("\n")
    if lines[-1] == "":
        lines.pop()
    if lines and lines[0] != "" and lines[0][0] not in " \t" and lines[0][-1] not in " \t" and re.split(r"[ \t]+", lines[0]) == ["front", "1"]:
        return front_certificate(lines)
    return plain.certificate(text)


# ---- inner models


def least_form(model):
    """The model in least form, with constants 0."""
    sign = 1 if model.sense == "MIN" else -1
    columns = [Column(c.name, c.integer, c.low, c.high, sign * c.cost, sign * c.cost2, c.entries) for c in model.columns]
    return Model("MIN", model.names, [Fraction(0), Fraction(0)], model.rows, columns)


def with_costs(model, costs):
    columns = [Column(c.name, c.integer, c.low, c.high, cost, c.cost2, c.entries) for c, cost in zip(model.columns, costs)]
    return Model("MIN", model.names, [Fraction(0), Fraction(0)], model.rows, columns)


def free_name(base, taken):
    while base in taken:
        base += b"_"
    return base


class Gap:
    """The numbers of a gap, of outcomes without constants."""

    def __init__(self, before, behind, least):
        self.a, self.b, self.least = before[1] - least[1], behind[0] - least[0], least
        self.width = self.a * self.b

    def has_room(self, bare):
        numbers = [self.a, self.b, self.width, self.a * self.least[0], self.b * self.least[1]]
        numbers += [self.a * c.cost for c in bare.columns] + [self.b * c.cost2 for c in bare.columns]
        return all(abs(number_) <= LARGEST for number_ in numbers)

    def model(self, bare):
        taken = [row.name for row in bare.rows] + list(bare.names)
        first, second = free_name(b"G1", taken), free_name(b"G2", taken)
        z = free_name(b"Z", [c.name for c in bare.columns])
        rows = bare.rows + [Row(first, None, self.a * self.least[0]), Row(second, None, self.b * self.least[1])]
        columns = []
        for c in bare.columns:
            added = [(first, self.a * c.cost), (second, self.b * c.cost2)]
            columns.append(Column(c.name, c.integer, c.low, c.high, Fraction(0), c.cost2, c.entries + [pair for pair in added if pair[1] != 0]))
        one = Fraction(1)
        columns.append(Column(z, True, Fraction(0), self.width, one, Fraction(0), [(first, -one), (second, -one)]))
        return Model("MIN", bare.names, [Fraction(0), Fraction(0)], rows, columns)


# ---- judging


class Claimed:
    """What a tree's judge knows of the certificate: the target, its cuts and its nodes."""

    def __init__(self, target, tree):
        self.claim, self.cuts, self.nodes = ("optimal", target), tree.cuts, tree.nodes


class TreeJudge(Judge):
    """A judge of a tree that stands by itself."""

    def __init__(self, model, stated):
        super().__init__(model, stated)
        self.table = [dict(column.entries) for column in model.columns]

    def entry(self, row, place):
        return self.table[place].get(self.model.rows[row].name, Fraction(0))

    def cuts_break(self):
        for cut in self.stated.cuts:
            found = self.cut(*cut)
            if isinstance(found, int):
                return found
            self.cuts.append(found)
        return None


class Break(Exception):
    """Why what stands before the nodes breaks."""


class FrontJudge:
    def __init__(self, model, stated):
        self.model, self.stated, self.bare = model, stated, least_form(model)
        sign = 1 if model.sense == "MIN" else -1
        self.constants = [sign * constant for constant in model.constants]
        self.points = Judge(model, None)

    def objectives(self):
        for which in (0, 1):
            for column in self.model.columns:
                cost = (column.cost, column.cost2)[which]
                if cost != 0 and (not column.integer or cost.denominator != 1):
                    raise Break(9)
            if self.constants[which].denominator != 1:
                raise Break(9)

    def value(self, which, x):
        terms = [((c.cost, c.cost2)[which], x[j], f"value col {self.points.names[j]}") for j, c in enumerate(self.bare.columns)]
        return plus(total(Fraction(0), terms), self.constants[which], "value")

    def outcomes(self):
        before = None
        for outcome in self.stated.outcomes:
            x = self.points.point(outcome.point)
            if x is None:
                raise Break(1)
            if not self.points.feasible(x):
                raise Break(2)
            for which in (0, 1):
                if self.value(which, x) != outcome.values[which]:
                    raise Break(8)
            if before is not None and not (before[0] < outcome.values[0] and before[1] > outcome.values[1]):
                raise Break(8)
            before = outcome.values

    def parts(self):
        """The judges of the trees, each with its inner model."""
        bare = [tuple(value - constant for value, constant in zip(o.values, self.constants)) for o in self.stated.outcomes]
        names = [("least1", 0), ("least2", 0)] + [("gap", k) for k in range(1, len(bare))]
        if [tree.name for tree in self.stated.trees] != names:
            raise Break(10)
        least = bare[0][0], bare[-1][1]
        gaps = [Gap(p, q, least) for p, q in zip(bare, bare[1:])]
        if not all(gap.has_room(self.bare) for gap in gaps):
            raise Break(10)
        models = [(self.bare, least[0]), (with_costs(self.bare, [c.cost2 for c in self.bare.columns]), least[1])]
        models += [(gap.model(self.bare), gap.width) for gap in gaps]
        return [TreeJudge(model, Claimed(Fraction(target), tree)) for (model, target), tree in zip(models, self.stated.trees)]

    def judges(self):
        self.objectives()
        self.outcomes()
        judges = self.parts()
        for judge in judges:
            why = judge.cuts_break()
            if why is not None:
                raise Break(why)
        return judges

    def verdict(self):
        node = 0
        try:
            for judge in self.judges():
                for one, path in judge.visits(judge.stated.nodes, []):
                    node += 1
                    why = judge.closes(one, path)
                    if why is not None:
                        return f"rejected {node} {why}"
        except Break as why:
            return f"rejected 0 {why.args[0]}"
        except NoRoom as step:
            return f"wide {node} {step.args[0]}"
        return f"accepted frontier {len(self.stated.outcomes)}"


@lru_cache(maxsize=4)
def meant(model):
    return read(model)


def reply(model, text):
    """What `check` prints of a model's bytes and a certificate's text."""
    try:
        model = meant(model)
    except Fault as fault:
        return f"error 30 mps line {fault.line} code {fault.code}"
    stated = certificate(text)
    if isinstance(stated, tuple):
        return f"error 32 cert line {stated[0]} code {stated[1]}"
    return (FrontJudge if isinstance(stated, StatedFront) else Judge)(model, stated).verdict()


def main(words):
    if len(words) == 2:
        print(reply(open(words[0], "rb").read(), open(words[1], "rb").read().decode("latin-1")))
        return
    count, differ = 0, 0
    for name, files, said, wanted in plain.rows_of(words[0]):
        count += 1
        there = said[1] in files and said[2] in files
        got = reply(files[said[1]].encode("latin-1"), files[said[2]]) if there else "error 20 store"
        if got != wanted:
            differ += 1
            print(f"{name}: wanted {wanted}, and here it is {got}")
    print(f"{count} rows, {differ} differ")


if __name__ == "__main__":
    main(sys.argv[1:])
