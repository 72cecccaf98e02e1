#!/usr/bin/env python3
"""Random small models with two objectives: their MPS texts, their feasible points, and their fronts by enumeration.

    python3 bench/fronts/front_models.py SEED

prints the model of a seed and the outcomes of its front in least form.

It shares nothing with the program and nothing with the readers of MPS beside it. A model has two to five integer columns of small boxes, and
sometimes a continuous column without costs, of which each choice of the others leaves an interval.
"""
import sys
from fractions import Fraction
from itertools import product
from math import ceil, floor
from random import Random

MOST_POINTS = 400
SPECIAL = ["plain", "plain", "continuous", "taken", "binary", "constants", "one", "empty", "continuous", "binary", "fractions", "plain"]


class Row:
    """A row's name, its sides (None where there is none) and its coefficients by the place of the column."""

    def __init__(self, name, low, high, entries):
        self.name, self.low, self.high, self.entries = name, low, high, entries


class Column:
    def __init__(self, name, integer, low, high, costs):
        self.name, self.integer, self.low, self.high, self.costs = name, integer, low, high, costs

    def whole_numbers(self):
        return range(ceil(self.low), floor(self.high) + 1)


class Model:
    def __init__(self, sense, names, constants, rows, columns):
        self.sense, self.names, self.constants, self.rows, self.columns = sense, names, constants, rows, columns

    def least(self):
        """1, or -1 where the objectives are maximized."""
        return 1 if self.sense == "MIN" else -1

    def least_outcome(self, point):
        """The two values of a point in least form."""
        return tuple(
            self.least() * (self.constants[which] + sum(column.costs[which] * number for column, number in zip(self.columns, point)))
            for which in (0, 1)
        )

    def least_constants(self):
        return tuple(self.least() * constant for constant in self.constants)


# ---- drawing


def drawn_costs(draw):
    first, second = [draw.choice([0, 0] + list(range(-5, 6))) for _ in (1, 2)]
    if first * second > 0 and draw.random() < 0.7:
        second = -second
    return [Fraction(first), Fraction(second)]


def drawn_box(draw, special):
    if special == "binary" or draw.random() < 0.3:
        return Fraction(0), Fraction(1)
    low = Fraction(draw.choice([0, 0, 0, -2, -1, 1]))
    high = low + draw.randint(0 if draw.random() < 0.1 else 1, 4)
    if special == "fractions" and draw.random() < 0.5:
        return low - Fraction(1, 2), high + Fraction(1, 3)
    return low, high


def drawn_columns(draw, special):
    names = ["X", "Y", "W", "U", "V"]
    if special == "taken":
        names = ["Z", "Z_", "X", "G1", "Y"]
    columns = []
    for name in names[: draw.randint(2, 5)]:
        low, high = drawn_box(draw, special)
        columns.append(Column(name, True, low, high, drawn_costs(draw)))
    while points_of_boxes(columns) > MOST_POINTS:
        columns.pop()
    if special == "continuous":
        low, high = draw.choice([(Fraction(0), None), (None, None), (None, Fraction(3)), (Fraction(-1), Fraction(5, 2))])
        columns.insert(draw.randint(0, len(columns)), Column("R", False, low, high, [Fraction(0), Fraction(0)]))
    return columns


def points_of_boxes(columns):
    count = 1
    for column in columns:
        count *= len(column.whole_numbers())
    return count


def drawn_coefficient(draw, special):
    if special == "binary":
        return Fraction(draw.choice([0, 1, 2, 3, 4, 5, -2]))
    number = Fraction(draw.choice([0, 0, 1, 1, 2, 3, -1, -2, -3]))
    return number / draw.choice([1, 2, 3]) if special == "fractions" else number


def drawn_row(draw, name, columns, start, special):
    """A row that the start meets, but in what is to be empty."""
    entries = {place: drawn_coefficient(draw, special) for place in range(len(columns))}
    entries = {place: number for place, number in entries.items() if number != 0}
    middle = sum((number * start[place] for place, number in entries.items()), Fraction(0))
    kind = draw.choice("LLLLGGGER")
    if special == "empty":
        middle += draw.choice([-3, -1, 0, 2]) + (Fraction(1, 2) if kind == "E" else 0)
    low, high = middle - draw.randint(0, 2), middle + draw.randint(0, 2)
    if kind in "LG":
        return Row(name, low if kind == "G" else None, high if kind == "L" else None, entries)
    return Row(name, middle, middle, entries) if kind == "E" else Row(name, low, high, entries)


def drawn_model(seed):
    """The model of a seed. What is special of it goes round with the seed."""
    draw = Random(f"front {seed}")
    special = SPECIAL[seed % len(SPECIAL)]
    columns = drawn_columns(draw, special)
    names, row_names = ["C", "D"], ["A", "B", "E", "F"]
    if special == "taken":
        names, row_names = [draw.choice(["C", "G1_"]), draw.choice(["D", "G2"])], ["G1", "Z", "G2_", "A"]
    count = {"empty": 3, "one": 0, "binary": draw.randint(1, 3)}.get(special, draw.randint(0, 3))
    start = [draw.choice(column.whole_numbers()) if column.integer else Fraction(1, 2) for column in columns]
    rows = [drawn_row(draw, name, columns, start, special) for name in row_names[:count]]
    if special == "one":
        for column in columns:
            column.costs[1] = column.costs[0] * draw.choice([0, 1, 2])
    constants = [Fraction(draw.choice([0, 0, 3, -7, 20])) for _ in (1, 2)]
    if special == "constants":
        constants = [Fraction(draw.choice([1, -4, 9, 100])) for _ in (1, 2)]
    return Model(draw.choice(["MIN", "MIN", "MAX"]), names, constants, rows, columns)


# ---- text


def limit_lines(draw, column):
    """The lines of BOUNDS of a column."""
    name = column.name
    if column.integer and (column.low, column.high) == (0, 1) and draw.random() < 0.7:
        return [f" BV {name}"]
    if column.low == column.high and column.low is not None:
        return [f" FX {name} {column.low}"]
    if column.low is None and column.high is None:
        return [f" FR {name}"]
    low = f" MI {name}" if column.low is None else f" {draw.choice(['LO', 'LI']) if column.integer else 'LO'} {name} {column.low}"
    return [low] + ([] if column.high is None else [f" UP {name} {column.high}"])


def column_lines(model, place):
    column = model.columns[place]
    pairs = [(name, cost) for name, cost in zip(model.names, column.costs) if cost != 0]
    pairs += [(row.name, row.entries[place]) for row in model.rows if place in row.entries]
    lines = [f" {column.name} {name} {number}" for name, number in pairs] or [f" {column.name} {model.names[0]} 0"]
    if column.integer:
        return [" M 'MARKER' 'INTORG'"] + lines + [" M 'MARKER' 'INTEND'"]
    return lines


def row_kind(row):
    if row.low is None or row.high is None:
        return "L" if row.low is None else "G"
    return "E" if row.low == row.high else "L"


def mps_text(model):
    draw = Random(repr([(c.name, c.low, c.high) for c in model.columns]))
    lines = ["NAME", "OBJSENSE " + model.sense, "ROWS"]
    lines += [f" N {name}" for name in model.names] + [f" {row_kind(row)} {row.name}" for row in model.rows]
    lines.append("COLUMNS")
    for place in range(len(model.columns)):
        lines += column_lines(model, place)
    lines.append("RHS")
    lines += [f" {name} {-constant}" for name, constant in zip(model.names, model.constants) if constant != 0]
    lines += [f" {row.name} {row.low if row.high is None else row.high}" for row in model.rows]
    lines.append("RANGES")
    lines += [f" {row.name} {row.high - row.low}" for row in model.rows if None not in (row.low, row.high) and row.low != row.high]
    lines.append("BOUNDS")
    for column in model.columns:
        lines += limit_lines(draw, column)
    return "".join(line + "\n" for line in lines + ["ENDATA"])


# ---- points


def within(model, numbers, continuous):
    """A number of the continuous column with which the point is feasible, None where there is none. Without such a column, 0."""
    low, high = (None, None) if continuous is None else (model.columns[continuous].low, model.columns[continuous].high)
    for row in model.rows:
        rest = sum((a * numbers[place] for place, a in row.entries.items() if place != continuous), Fraction(0))
        a = row.entries.get(continuous, Fraction(0))
        sides = [None if side is None else side - rest for side in (row.low, row.high)]
        if a == 0:
            if sides[0] is not None and sides[0] > 0 or sides[1] is not None and sides[1] < 0:
                return None
            continue
        below, above = [None if side is None else side / a for side in (sides if a > 0 else sides[::-1])]
        low = below if low is None or below is not None and below > low else low
        high = above if high is None or above is not None and above < high else high
    if low is not None and high is not None and low > high:
        return None
    return low if low is not None else high if high is not None else Fraction(0)


def points(model):
    """The feasible points, with one number of the continuous column for each choice of the others that has one."""
    continuous = next((place for place, column in enumerate(model.columns) if not column.integer), None)
    boxes = [column.whole_numbers() if column.integer else [0] for column in model.columns]
    found = []
    for choice in product(*boxes):
        numbers = [Fraction(number) for number in choice]
        rest = within(model, numbers, continuous)
        if rest is not None:
            if continuous is not None:
                numbers[continuous] = rest
            found.append(tuple(numbers))
    return found


def front(outcomes):
    """The outcomes that no other one dominates, by rising first value, in least form."""
    kept, best = [], None
    for first, second in sorted(set(outcomes)):
        if best is None or second < best:
            kept.append((first, second))
            best = second
    return kept


def main(words):
    model = drawn_model(int(words[0]))
    sys.stdout.write(mps_text(model))
    for first, second in front([model.least_outcome(point) for point in points(model)]):
        print(f"* {first} {second}")


if __name__ == "__main__":
    main(sys.argv[1:])
