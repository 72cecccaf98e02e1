#!/usr/bin/env python3
"""Random small models for `mcsolve`: more kinds of them than front_models.py has, and what is to be told of each, by enumeration.

    python3 bench/fronts/sweep_models.py SEED

prints the model of a seed, and the first thing that keeps an objective from being whole, or the outcomes of its front in least form.

A model has none to five integer columns of small boxes and up to two continuous ones. For each choice of the integer columns Fourier and
Motzkin's elimination says whether the continuous ones have numbers with it.
"""
import sys
from fractions import Fraction
from itertools import product
from random import Random

from front_models import MOST_POINTS, Column, Model, Row, drawn_model, drawn_row, front, mps_text, points_of_boxes

KINDS = [
    "plain", "continuous", "two continuous", "taken", "binary", "constants", "one", "empty", "fractions", "ties", "equal", "ranges",
    "negative", "chain", "chain", "not whole", "continuous cost", "no columns", "no whole number", "fixed", "knapsack", "choice", "far",
]  # fmt: skip
PLACES = {"plain": 0, "continuous": 2, "taken": 3, "binary": 4, "constants": 5, "one": 6, "empty": 7, "fractions": 10}
KINDS_THERE = 12


def column(name, low, high, first, second, integer=True):
    limits = [side if side is None else Fraction(side) for side in (low, high)]
    return Column(name, integer, *limits, [Fraction(first), Fraction(second)])


def drawn_sense(draw):
    return draw.choice(["MIN", "MIN", "MAX"])


def drawn_constants(draw):
    return [Fraction(draw.choice([0, 0, 5, -8, 31])) for _ in (1, 2)]


def made(draw, rows, columns):
    return Model(drawn_sense(draw), ["C", "D"], drawn_constants(draw), rows, columns)


def start_of(draw, columns):
    return [draw.choice(c.whole_numbers()) if c.integer else Fraction(draw.randint(0, 4), 2) for c in columns]


def rows_of(draw, columns, count, special="plain"):
    start = start_of(draw, columns)
    return [drawn_row(draw, name, columns, start, special) for name in ["A", "B", "E", "F"][:count]]


# ---- kinds


def two_continuous(draw):
    columns = [column(name, 0, draw.randint(1, 3), draw.randint(-4, 4), draw.randint(-4, 4)) for name in "XYW"[: draw.randint(1, 3)]]
    for name, sides in [("R", (0, None)), ("S", draw.choice([(0, 2), (None, None), (-1, Fraction(7, 2))]))]:
        columns.insert(draw.randint(0, len(columns)), column(name, *sides, 0, 0, False))
    return made(draw, rows_of(draw, columns, draw.randint(2, 4)), columns)


def ties(draw):
    """Columns with the same costs, so that many points have one outcome, and costs of 0 in one objective."""
    pairs = [draw.choice([(1, -1), (2, -1), (0, 1), (1, 0), (1, -2)]) for _ in (1, 2)]
    columns = [column(name, 0, draw.randint(1, 2), *pairs[place % 2]) for place, name in enumerate("XYWU")]
    return made(draw, rows_of(draw, columns, draw.randint(1, 2)), columns)


def equal(draw):
    columns = [column(name, 0, draw.randint(1, 4), draw.randint(-5, 5), draw.randint(-5, 5)) for name in "XYWU"]
    start = start_of(draw, columns)
    entries = {place: Fraction(draw.choice([1, 1, 2, -1, 3])) for place in range(len(columns))}
    side = sum(number * start[place] for place, number in entries.items())
    return made(draw, [Row("A", side, side, entries)], columns)


def ranges(draw):
    columns = [column(name, draw.randint(-2, 0), draw.randint(1, 3), draw.randint(-5, 5), draw.randint(-5, 5)) for name in "XYWU"]
    start = start_of(draw, columns)
    rows = []
    for name in "AB"[: draw.randint(1, 2)]:
        entries = {place: Fraction(draw.choice([1, 2, -1, 3])) for place in range(len(columns))}
        middle = sum(number * start[place] for place, number in entries.items())
        rows.append(Row(name, middle - draw.choice([0, 1, Fraction(1, 2)]), middle + draw.choice([1, Fraction(3, 2)]), entries))
    return made(draw, rows, columns)


def negative(draw):
    columns = [column(name, draw.randint(-5, -2), draw.randint(-2, 2), draw.randint(-6, 6), draw.randint(-6, 6)) for name in "XYW"]
    return made(draw, rows_of(draw, columns, draw.randint(0, 3)), columns)


def chain(draw):
    """What is good for one objective is bad for the other, so that there are many outcomes."""
    columns = [column(name, 0, draw.randint(1, 3), draw.randint(1, 9), -draw.randint(1, 9)) for name in "XYWUV"]
    while points_of_boxes(columns) > MOST_POINTS:
        columns.pop()
    return made(draw, rows_of(draw, columns, draw.randint(0, 2)), columns)


def not_whole(draw):
    columns = [column(name, 0, 2, draw.randint(-5, 5), draw.randint(-5, 5)) for name in "XYW"]
    model = made(draw, rows_of(draw, columns, draw.randint(0, 2)), columns)
    for which in draw.choice([[0], [1], [1], [0, 1]]):
        if draw.random() < 0.3:
            model.constants[which] = Fraction(draw.choice([1, -5]), 2)
        else:
            draw.choice(columns).costs[which] += Fraction(1, draw.choice([2, 3, 7]))
    return model


def continuous_cost(draw):
    columns = [column(name, 0, 2, draw.randint(-5, 5), draw.randint(-5, 5)) for name in "XY"]
    costs = draw.choice([(2, 0), (0, 3), (-1, 1), (Fraction(1, 2), 0)])
    columns.insert(draw.randint(0, 2), column("R", 0, 4, *costs, False))
    return made(draw, rows_of(draw, columns, draw.randint(0, 2)), columns)


def no_columns(draw):
    row = draw.choice([[], [Row("A", None, Fraction(draw.choice([0, 2, -1])), {})], [Row("A", Fraction(draw.choice([0, -3, 1])), None, {})]])
    columns = draw.choice([[], [column("X", 0, 2, draw.randint(-2, 2), draw.randint(-2, 2))], [column("R", 0, 1, 0, 0, False)]])
    return made(draw, row, columns)


def no_whole_number(draw):
    columns = [column("X", 0, 2, 3, -1), column("Y", Fraction(1, 3), Fraction(2, 3), 1, 1)]
    return made(draw, rows_of(draw, [columns[0]], draw.randint(0, 1)), columns)


def fixed(draw):
    columns = []
    for name in "XYWU":
        low = draw.randint(-2, 2)
        columns.append(column(name, low, low + draw.choice([0, 0, 2]), draw.randint(-4, 4), draw.randint(-4, 4)))
    return made(draw, [], columns)


def knapsack(draw):
    """Gains to be made large under a budget, or costs to be kept small above a need, both with two goals."""
    high = draw.random() < 0.5
    columns = [column(name, 0, 1, draw.randint(1, 9), draw.randint(1, 9)) for name in "XYWUVTS"]
    entries = {place: Fraction(draw.randint(1, 9)) for place in range(len(columns))}
    half = Fraction(sum(entries.values()) // 2)
    model = made(draw, [Row("A", None, half, entries) if high else Row("A", half, None, entries)], columns)
    model.sense = "MAX" if high else "MIN"
    return model


def choice(draw):
    """One of several things, each with its outcome: unsupported ones, weakly dominated ones and equal ones are frequent."""
    columns = [column(name, 0, 1, draw.randint(0, 6), draw.randint(0, 6)) for name in ["X", "Y", "W", "U", "V", "T"]]
    one = Fraction(1)
    return made(draw, [Row("A", one, one, {place: one for place in range(len(columns))})], columns)


def far(draw):
    """Outcomes that lie far from each other: gaps with large weights."""
    model = choice(draw)
    for chosen in model.columns:
        chosen.costs = [cost * draw.choice([1, 10**6, 10**9]) + draw.randint(0, 3) for cost in chosen.costs]
    return model


def drawn(seed):
    """The kind and the model of a seed. Kinds go round with the seed."""
    kind = KINDS[seed % len(KINDS)]
    if kind in PLACES:
        return kind, drawn_model(seed // len(KINDS) * KINDS_THERE + PLACES[kind])
    return kind, globals()[kind.replace(" ", "_")](Random(f"sweep {seed}"))


# ---- what is so


def eliminated(lines, place):
    """Inequalities `sum of entries <= side` that say whether one variable has a number, without that variable."""
    above = [line for line in lines if line[0].get(place, 0) > 0]
    below = [line for line in lines if line[0].get(place, 0) < 0]
    rest = [line for line in lines if line[0].get(place, 0) == 0]
    for (up, up_side), (down, down_side) in product(above, below):
        s, t = -down[place], up[place]
        names = set(up) | set(down)
        entries = {name: s * up.get(name, 0) + t * down.get(name, 0) for name in names if name != place}
        rest.append((entries, s * up_side + t * down_side))
    return rest


def is_met(model, choice):
    """Whether the continuous columns have numbers with a choice of the integer ones (by place)."""
    lines = []
    sums = [(row.entries, row.low, row.high) for row in model.rows]
    free = [place for place, c in enumerate(model.columns) if not c.integer]
    sums += [({place: Fraction(1)}, model.columns[place].low, model.columns[place].high) for place in free]
    for entries, low, high in sums:
        done = sum((a * choice[place] for place, a in entries.items() if place in choice), Fraction(0))
        left = {place: a for place, a in entries.items() if place not in choice}
        if high is not None:
            lines.append((left, high - done))
        if low is not None:
            lines.append(({place: -a for place, a in left.items()}, done - low))
    for place in free:
        lines = eliminated(lines, place)
    return all(side >= 0 for _, side in lines)


def choices(model):
    """The choices of the integer columns that a feasible point has, by place."""
    places = [place for place, c in enumerate(model.columns) if c.integer]
    for numbers in product(*[model.columns[place].whole_numbers() for place in places]):
        choice = dict(zip(places, numbers))
        if is_met(model, choice):
            yield choice


def not_whole_at(model):
    """What keeps the objectives from being whole, as `error 12` names it, or None."""
    for which in (0, 1):
        for c in model.columns:
            if c.costs[which] != 0 and (not c.integer or c.costs[which].denominator != 1):
                return which + 1, c.name
        if model.constants[which].denominator != 1:
            return which + 1, "constant"
    return None


def bare_outcomes(model):
    """The outcomes of all feasible points, in least form without the constants, of a model whose objectives are whole."""
    costs = [(place, [model.least() * cost for cost in c.costs]) for place, c in enumerate(model.columns) if c.integer]
    return {tuple(int(sum(pair[which] * choice[place] for place, pair in costs)) for which in (0, 1)) for choice in choices(model)}


def in_own_sense(model, bare):
    """Outcomes with the constants, by rising first value as they are printed."""
    return sorted(tuple(int(model.least() * value + constant) for value, constant in zip(pair, model.constants)) for pair in bare)


def best_first(model):
    """The best value of the first objective where the continuous columns have no cost in it, None where no point is feasible."""
    values = [
        model.constants[0] + sum(c.costs[0] * choice[place] for place, c in enumerate(model.columns) if c.integer)
        for choice in choices(model)
    ]
    return None if not values else min(values) if model.sense == "MIN" else max(values)


def main(words):
    kind, model = drawn(int(words[0]))
    sys.stdout.write(f"* {kind}\n" + mps_text(model))
    if not_whole_at(model) is not None:
        print("* error 12 not whole %d %s" % not_whole_at(model))
        return
    for first, second in front(bare_outcomes(model)):
        print(f"* {first} {second}")


if __name__ == "__main__":
    main(sys.argv[1:])
