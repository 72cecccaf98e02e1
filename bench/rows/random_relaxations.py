#!/usr/bin/env python3
"""Writes rows of random relaxations with their exact optima, for `crates/worked_rows`.

    python3 bench/rows/random_relaxations.py COUNT SEED > crates/worked_rows/data/relaxations/random.rows

and the line `ok relaxations/random.rows: NAME` of each goes into `crates/worked_rows/stdout`. Another COUNT or SEED gives other rows.

It shares nothing with the solver. A least value is found by plain enumeration: of all columns and row sums it tries each
choice of as many as there are columns, lets each of these be its low side, its high side, or 0 where it has none, solves
those equations by elimination in Python's fractions, and keeps the points within all sides. A relaxation that has a least
value has it at such a point (V. Chvatal, Linear Programming, 1983, chapter 8). Costs are drawn so that no value falls for
ever: a column that has no low side has no cost above 0 in least form, and one that has no high side none below 0. So the
slack basis can be begun at, but where a column without bounds is in a row: it may not leave 0 there, though costs that are a
little perturbed ask it to. The line `from` with no list begins at a first basis in every case.

Columns have one bound, two, two equal ones, or none; some are integer, with bounds that are not whole, and then a region may
narrow them. Rows have one side, two, or two equal ones, and mostly hold at some point within the bounds.
"""
import sys
from fractions import Fraction
from itertools import combinations, product
from math import ceil, floor
from random import Random


def draw_number(random, least, most):
    """A whole number, or sometimes one and a half, or a third of one."""
    return Fraction(random.randint(least, most), random.choice([1, 1, 1, 2, 3]))


def draw_column(random):
    """A column's bounds, whether it is integer, its cost in least form, and a number within the bounds."""
    low = draw_number(random, -6, 6)
    width = draw_number(random, 0, 8)
    kind = random.choice(["low", "high", "both", "both", "both", "fixed", "free", "integer", "integer"])
    size = random.randint(0, 9)
    sign = random.choice([1, -1])
    if kind == "low":
        return low, None, False, size, low + width
    if kind == "high":
        return None, low, False, -size, low - width
    if kind == "fixed":
        return low, low, False, sign * size, low
    if kind == "free":
        return None, None, False, 0, low
    at = low + width * random.choice([0, Fraction(1, 2), 1])
    return low, low + width + 1, kind == "integer", sign * size, at


def draw_row(random, point):
    """A row's sides and coefficients. Mostly the sides hold at the point."""
    coefficients = [random.choice([0, 1]) * draw_number(random, -5, 5) for _ in point]
    activity = sum(a * x for a, x in zip(coefficients, point))
    low = activity - draw_number(random, -1, 4)
    width = draw_number(random, 0, 9)
    return random.choice([(low, None), (None, low + width), (low, low + width), (low, low)]) + (coefficients,)


def draw_changes(random, columns):
    """Bound changes of integer columns."""
    changes = []
    for place, (low, high, integer, _, _) in enumerate(columns):
        if integer and random.random() < 0.6:
            at = random.randint(ceil(low) - 1, floor(high) + 1)
            changes.append((place, *random.choice([(at, None), (None, at), (at, at + 1)])))
    return changes


def bounds_in(columns, changes):
    """The columns' bounds in the region: whole for integer columns, and narrowed by the changes."""
    bounds = [
        [ceil(low), floor(high)] if integer else [low, high] for low, high, integer, _, _ in columns
    ]
    for place, low, high in changes:
        if low is not None:
            bounds[place][0] = max(bounds[place][0], low)
        if high is not None:
            bounds[place][1] = min(bounds[place][1], high)
    return bounds


def solution(equations):
    """The one solution of as many equations as unknowns, if there is just one."""
    rows = [[Fraction(x) for x in (*left, right)] for left, right in equations]
    size = len(rows)
    for k in range(size):
        at = next((i for i in range(k, size) if rows[i][k] != 0), None)
        if at is None:
            return None
        rows[k], rows[at] = rows[at], rows[k]
        rows[k] = [x / rows[k][k] for x in rows[k]]
        for i in range(size):
            if i != k and rows[i][k] != 0:
                rows[i] = [x - rows[i][k] * y for x, y in zip(rows[i], rows[k])]
    return [row[size] for row in rows]


def is_within(limits, point):
    for low, high, coefficients in limits:
        total = sum(a * x for a, x in zip(coefficients, point))
        if (low is not None and total < low) or (high is not None and high < total):
            return False
    return True


def standings(limit):
    """Where a variable may stand that is not basic."""
    sides = [side for side in limit[:2] if side is not None]
    return sorted(set(sides)) or [0]


def least_value(bounds, costs, rows):
    """The least sum of cost times number within all sides, or None where no point is."""
    size = len(bounds)
    limits = [(*sides, [int(j == k) for j in range(size)]) for k, sides in enumerate(bounds)] + rows
    least = None
    for chosen in combinations(limits, size):
        for numbers in product(*map(standings, chosen)):
            point = solution([(limit[2], number) for limit, number in zip(chosen, numbers)])
            if point is None or not is_within(limits, point):
                continue
            value = sum(cost * x for cost, x in zip(costs, point))
            least = value if least is None else min(least, value)
    return least


def spelled(low, high):
    return f"{'' if low is None else low}..{'' if high is None else high}"


def answer(columns, rows, changes, sense, constant):
    """What is answered: from the slack basis, and twice from a first one, no solution or the best value in the model's sense."""
    bounds = bounds_in(columns, changes)
    free = [place for place, column in enumerate(columns) if column[0] is None and column[1] is None]
    is_slack_lawful = all(row[2][place] == 0 for row in rows for place in free)
    if any(low is not None and high is not None and high < low for low, high in bounds):
        return ["empty region"] * 3
    least = least_value(bounds, [column[3] for column in columns], rows)
    if least is None:
        end, steps = "infeasible", "infeasible after {0..200}"
    else:
        end, steps = f"optimal {constant + sense * least}", "optimal after {0..200}"
    return [end if is_slack_lawful else "no state", end, steps]


def write_row(random, number):
    columns = [draw_column(random) for _ in range(random.randint(1, 5))]
    rows = [draw_row(random, [column[4] for column in columns]) for _ in range(random.randint(1, 5))]
    changes = draw_changes(random, columns)
    sense, constant = random.choice([1, -1]), random.choice([0, 0, 1, Fraction(-7, 2)])
    print(f"\nrow {number}")
    print("script")
    print(f"| {'min' if sense == 1 else 'max'}" + (f" constant {constant}" if constant else ""))
    for place, (low, high, integer, cost, _) in enumerate(columns):
        kind = "integer" if integer else "real"
        print(f"| column x{place} {kind} {spelled(low, high)} cost {sense * cost}")
    for place, (low, high, coefficients) in enumerate(rows):
        entries = "".join(f" x{k} {a}" for k, a in enumerate(coefficients) if a != 0)
        print(f"| row R{place} {spelled(low, high)}{entries}")
    if changes:
        print("| region" + "".join(f" x{k} {spelled(low, high)}" for k, low, high in changes))
    print("| solve 1000\n| from\n| solve 1000\n| steps 1000\nreplies")
    for line in answer(columns, rows, changes, sense, constant):
        print(f"| {line}")


def main():
    count, seed = int(sys.argv[1]), int(sys.argv[2])
    random = Random(seed)
    print("# Random relaxations and their best values, by an enumeration of all bases.")
    print(f"# Written by: python3 bench/rows/random_relaxations.py {count} {seed}")
    for number in range(1, count + 1):
        write_row(random, number)


main()
