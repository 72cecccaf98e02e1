#!/usr/bin/env python3
"""Certificates of fronts: for the models of front_models.py the text that shows which outcomes no other one dominates.

    python3 bench/fronts/front_certificates.py SEED

prints the certificate of the model of a seed: a `front 1`, or a `cert 1` where the model has no feasible point.

The trees are those of a plain branch and bound. At each node a relaxation is made as small as it can be, by exact dual simplex with the
least place first, and its multipliers are the leaf's. Some splits are drawn, and cuts are those covers that a search through small sets of
columns finds. It shares nothing with the program, nor with the checker beside it.
"""
import sys
from fractions import Fraction
from itertools import combinations
from math import ceil, floor
from random import Random

from front_models import drawn_model, front, points

MOST_CUTS = 2


class Unreached(Exception):
    """A point of whole numbers below the target."""


class Row:
    """A row or a cut of a relaxation. The key is what stands before its multiplier in a line."""

    def __init__(self, key, low, high, entries):
        self.key, self.low, self.high, self.entries = key, low, high, entries


class Inner:
    """A model with one objective, to be made small: names, which columns are integer, bounds, costs, rows, and its target."""

    def __init__(self, names, integer, bounds, costs, rows, target):
        self.names, self.integer, self.bounds, self.costs, self.rows, self.target = names, integer, bounds, costs, rows, target


# ---- inner models


def free(name, taken):
    while name in taken:
        name += "_"
    return name


def plain_rows(model):
    return [Row(f"row {row.name}", row.low, row.high, row.entries) for row in model.rows]


def least_costs(model, which):
    return [model.least() * column.costs[which] for column in model.columns]


def least_inner(model, which, target):
    return Inner(
        [column.name for column in model.columns],
        [column.integer for column in model.columns],
        [(column.low, column.high) for column in model.columns],
        least_costs(model, which),
        plain_rows(model),
        target,
    )


def gap_inner(model, before, behind, least):
    """The inner model between two outcomes; all outcomes without constants."""
    a, b = before[1] - least[1], behind[0] - least[0]
    inner = least_inner(model, 0, a * b)
    z = len(inner.names)
    row_names = [row.name for row in model.rows] + model.names
    for base, weight, which in [("G1", a, 0), ("G2", b, 1)]:
        entries = {place: weight * cost for place, cost in enumerate(least_costs(model, which)) if cost != 0}
        inner.rows.append(Row(f"row {free(base, row_names)}", None, weight * least[which], {**entries, z: Fraction(-1)}))
    inner.names.append(free("Z", inner.names))
    inner.integer.append(True)
    inner.bounds.append((Fraction(0), a * b))
    inner.costs = [Fraction(0)] * z + [Fraction(1)]
    return inner


def inner_models(model, outcomes):
    """The names of the trees with their inner models, for outcomes in least form with constants."""
    constants = model.least_constants()
    bare = [(first - constants[0], second - constants[1]) for first, second in outcomes]
    least = bare[0][0], bare[-1][1]
    parts = [("least1", least_inner(model, 0, least[0])), ("least2", least_inner(model, 1, least[1]))]
    return parts + [(f"gap {k}", gap_inner(model, p, q, least)) for k, (p, q) in enumerate(zip(bare, bare[1:]), 1)]


# ---- relaxations


class Table:
    """The columns, then the rows' activities; each basic one is a sum over those that aren't."""

    def __init__(self, costs, bounds, rows):
        columns = len(costs)
        self.sides = list(bounds) + [(row.low, row.high) for row in rows]
        self.basic = {columns + i: {j: row.entries.get(j, Fraction(0)) for j in range(columns)} for i, row in enumerate(rows)}
        self.reduced = dict(enumerate(costs))
        self.stands = {}
        for j, cost in self.reduced.items():
            low, high = bounds[j]
            self.stands[j] = 0 if (cost > 0 or cost == 0 and low is not None) else 1 if high is not None else None

    def value(self, k):
        side = None if self.stands[k] is None else self.sides[k][self.stands[k]]
        return Fraction(0) if side is None else side

    def number(self, k):
        """The number at the point of the table."""
        return sum((t * self.value(other) for other, t in self.basic[k].items()), Fraction(0)) if k in self.basic else self.value(k)

    def leaving(self):
        """The first basic one that is outside, and whether it is below."""
        for r in sorted(self.basic):
            low, high = self.sides[r]
            value = self.number(r)
            if low is not None and value < low:
                return r, True
            if high is not None and value > high:
                return r, False
        return None

    def entering(self, r, below):
        best = None
        for k in sorted(self.basic[r]):
            t = self.basic[r][k] if below else -self.basic[r][k]
            may = t != 0 and (self.stands[k] is None or (t > 0) == (self.stands[k] == 0))
            if may and (best is None or abs(self.reduced[k] / t) < best[0]):
                best = abs(self.reduced[k] / t), k
        return None if best is None else best[1]

    def pivot(self, r, s, below):
        row = self.basic.pop(r)
        pivot = row.pop(s)
        new = {k: -t / pivot for k, t in row.items()}
        new[r] = 1 / pivot
        for other in list(self.basic):
            self.basic[other] = self.without(self.basic[other], s, new)
        self.reduced = self.without(self.reduced, s, new)
        self.basic[s] = new
        del self.stands[s]
        self.stands[r] = 0 if below else 1

    @staticmethod
    def without(line, s, new):
        line = dict(line)
        t = line.pop(s)
        for k, number in new.items():
            line[k] = line.get(k, Fraction(0)) + t * number
        return line


def relaxed(costs, bounds, rows):
    """('least', multipliers, point) or ('none', Farkas multipliers, None), by the place of the row."""
    table, columns = Table(costs, bounds, rows), len(costs)
    while True:
        found = table.leaving()
        if found is None:
            multipliers = {k - columns: d for k, d in table.reduced.items() if k >= columns and d != 0}
            return "least", multipliers, [table.number(j) for j in range(columns)]
        r, below = found
        s = table.entering(r, below)
        if s is None:
            farkas = {k - columns: -t for k, t in table.basic[r].items() if k >= columns and t != 0}
            if r >= columns:
                farkas[r - columns] = Fraction(1)
            return "none", farkas if below else {i: -y for i, y in farkas.items()}, None
        table.pivot(r, s, below)


def number_of(costs, bounds, rows, multipliers):
    """The number that no point of the region is below, None where a side or a bound that it needs isn't there."""
    rest, total = list(costs), Fraction(0)
    for i, y in multipliers.items():
        side = rows[i].low if y > 0 else rows[i].high
        if y != 0 and side is None:
            return None
        total += y * side if y != 0 else 0
        for j, a in rows[i].entries.items():
            rest[j] -= y * a
    for j, e in enumerate(rest):
        side = bounds[j][0] if e > 0 else bounds[j][1]
        if e != 0 and side is None:
            return None
        total += e * side if e != 0 else 0
    return total


# ---- covers


def least_of(a, low, high):
    side = low if a > 0 else high
    return Fraction(0) if a == 0 else None if side is None else a * side


def is_cover(inner, row, sign, literals):
    side = row.high if sign > 0 else row.low
    if side is None:
        return False
    total = Fraction(0)
    for j, (low, high) in enumerate(inner.bounds):
        a = sign * row.entries.get(j, Fraction(0))
        part = (a if literals[j] else Fraction(0)) if j in literals else least_of(a, low, high)
        if part is None:
            return False
        total += part
    return total > sign * side


def covers(inner):
    """Lines of cuts with their rows: of sets of up to three columns of 0 and 1."""
    binary = [j for j, bounds in enumerate(inner.bounds) if inner.integer[j] and bounds == (0, 1)]
    for row in inner.rows:
        for sign, word in [(1, "hi"), (-1, "lo")]:
            for count in (1, 2, 3):
                for columns in combinations(binary, count):
                    literals = {j: sign * row.entries.get(j, Fraction(0)) > 0 for j in columns}
                    if is_cover(inner, row, sign, literals):
                        minus = len([1 for plus in literals.values() if not plus])
                        words = [("+" if literals[j] else "-") + inner.names[j] for j in columns]
                        entries = {j: Fraction(1 if plus else -1) for j, plus in literals.items()}
                        line = " ".join(["cut", row.key[4:], word] + words)
                        yield line, Row(None, None, Fraction(count - 1 - minus), entries)


# ---- trees


def whole_bounds(inner):
    """The bounds, rounded where the column is integer."""
    return [(Fraction(ceil(low)), Fraction(floor(high))) if whole else (low, high) for whole, (low, high) in zip(inner.integer, inner.bounds)]


class Tree:
    """The lines of a tree. Where `stubborn` holds, a point below the target gets a leaf that doesn't close."""

    def __init__(self, draw, inner, style, stubborn=False):
        self.draw, self.inner, self.style, self.stubborn = draw, inner, style, stubborn
        found = list(covers(inner)) if style != "points" else []
        draw.shuffle(found)
        found = found[: draw.choice([0, MOST_CUTS, MOST_CUTS])]
        self.cuts = [line for line, _ in found]
        self.rows = inner.rows + [Row(f"cut {k}", row.low, row.high, row.entries) for k, (_, row) in enumerate(found, 1)]
        self.nodes = self.below(whole_bounds(inner), 0)

    def lines(self, name):
        return [f"tree {name}"] + self.cuts + self.nodes

    def reaches(self, number):
        return self.inner.target is not None and number is not None and ceil(number) >= self.inner.target

    def leaf(self, kind, multipliers):
        pairs = list(multipliers.items())
        if pairs and self.draw.random() < 0.1:
            pairs += [(i, Fraction(0)) for i in range(len(self.rows)) if i not in multipliers][:1]
        self.draw.shuffle(pairs)
        return [f"leaf {kind}" + "".join(f" {self.rows[i].key} {y}" for i, y in pairs)]

    def children(self, bounds, j, v, depth):
        low, high = bounds[j]
        left, right = list(bounds), list(bounds)
        left[j], right[j] = (low, min(high, Fraction(v))), (max(low, Fraction(v + 1)), high)
        return [f"split {self.inner.names[j]} {v}"] + self.below(left, depth + 1) + self.below(right, depth + 1)

    def drawn_split(self, bounds, depth):
        """A column and a number, or None."""
        open_ = [j for j, (low, high) in enumerate(bounds) if self.inner.integer[j] and low < high]
        outside = self.draw.random() < 0.02
        if outside and depth < 4:
            j = self.draw.choice([j for j, whole in enumerate(self.inner.integer) if whole])
            return j, int(bounds[j][1]) + self.draw.randint(0, 2)
        if not open_ or self.draw.random() > {"points": 0.9, "drawn": 0.3, "short": 0}[self.style] or depth > 4:
            return None
        j = self.draw.choice(open_[:-1] or open_)
        return j, self.draw.randint(int(bounds[j][0]), int(bounds[j][1]) - 1)

    def below(self, bounds, depth):
        if any(low is not None and high is not None and low > high for low, high in bounds):
            return ["leaf empty"]
        if self.reaches(number_of(self.inner.costs, bounds, self.rows, {})) and self.draw.random() < 0.8:
            return ["leaf bound"]
        split = self.drawn_split(bounds, depth)
        if split is not None:
            return self.children(bounds, *split, depth)
        kind, multipliers, numbers = relaxed(self.inner.costs, bounds, self.rows)
        if kind == "none":
            assert number_of([Fraction(0)] * len(bounds), bounds, self.rows, multipliers) > 0
            return self.leaf("farkas", multipliers)
        if self.reaches(number_of(self.inner.costs, bounds, self.rows, multipliers)):
            return self.leaf("bound", multipliers)
        for j, number in enumerate(numbers):
            if self.inner.integer[j] and number.denominator != 1:
                return self.children(bounds, j, floor(number), depth)
        if not self.stubborn:
            raise Unreached(numbers)
        return self.leaf("bound", multipliers)


def drawn_style(draw, bounds):
    count = 1
    for low, high in bounds:
        count *= 1 if low is None or high is None else floor(high) - ceil(low) + 1
    return draw.choice(["short", "drawn", "points"] if count <= 16 else ["short", "short", "drawn"])


# ---- certificates


class Certificate:
    """A front's certificate in its parts: outcomes with the words of their points, and trees as lists of lines."""

    def __init__(self, outcomes, trees):
        self.outcomes, self.trees = outcomes, trees

    def lines(self):
        lines = ["front 1"]
        for first, second, point in self.outcomes:
            lines += [f"outcome {first} {second}", " ".join(["point"] + point)]
        return lines + [line for tree in self.trees for line in tree] + ["end"]


def point_words(draw, model, point):
    pairs = [(column.name, number) for column, number in zip(model.columns, point) if number != 0 or draw.random() < 0.05]
    if draw.random() < 0.2:
        draw.shuffle(pairs)
    return [word for name, number in pairs for word in (name, str(number))]


def certificate_of(draw, model, found, outcomes, stubborn=False):
    """The certificate that says these outcomes of the points that were found are the front."""
    stated = []
    for outcome in outcomes:
        point = draw.choice([point for point in found if model.least_outcome(point) == outcome])
        stated.append((*outcome, point_words(draw, model, point)))
    trees = []
    for name, inner in inner_models(model, outcomes):
        style = drawn_style(draw, inner.bounds[: len(model.columns)])
        trees.append(Tree(draw, inner, style, stubborn).lines(name))
    return Certificate(stated, trees)


def emptiness(draw, model):
    """The lines of the certificate that a model has no feasible point."""
    inner = least_inner(model, 0, None)
    tree = Tree(draw, inner, drawn_style(draw, inner.bounds))
    return ["cert 1", "claim infeasible"] + tree.cuts + tree.nodes + ["end"]


def front_of(model, found):
    return front([model.least_outcome(point) for point in found])


def made(seed, model=None):
    """The model, its points, its front and the lines of its certificate."""
    draw = Random(f"certificate {seed}")
    model = model or drawn_model(seed)
    found = points(model)
    outcomes = front_of(model, found)
    lines = certificate_of(draw, model, found, outcomes).lines() if found else emptiness(draw, model)
    return model, found, outcomes, lines


if __name__ == "__main__":
    print("\n".join(made(int(sys.argv[1]))[3]))
