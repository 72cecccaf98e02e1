#!/usr/bin/env python3
"""Writes rows of random models with what bounds at other sides and costs are answered, for `crates/script_rows`.

    python3 bench/rows/random_bounds.py COUNT SEED > crates/script_rows/data/random-bounds.rows

and the line `ok random-bounds.rows: NAME` of each goes into `crates/script_rows/stdout`.

It shares nothing with the solver: its search is that of `random_searches.py` beside it, and a bound is worked out as docs/MANUAL.md says,
leaf by leaf in Python's fractions, with the cuts that derive at the changed model. Each row asks for bounds before any search, after a search that may have stopped, and after one
that went to its end; every third model is one whose objective is made large. Each bound is held against a search of the changed model:
no lower one is above its best value, and no upper one below.
"""
import itertools
import sys
from copy import copy
from fractions import Fraction
from math import ceil
from random import Random

from random_searches import Model, Search, draw_limits, draw_model, draw_number

MOST_RESULTS = 60


def with_sides(model, sides):
    """The model with other numbers in the place of the sides that the named rows have."""
    rows = []
    for place, (name, low, high) in enumerate(model.rows):
        v = sides.get(place)
        rows.append((name, low, high) if v is None else (name, None if low is None else v, None if high is None else v))
    return Model(model.columns, rows, model.constant)


def with_costs(model, costs):
    columns = [copy(column) for column in model.columns]
    for place, v in costs.items():
        columns[place].cost = v
    return Model(columns, model.rows, model.constant)


def leaves(leaf):
    """The leaves in preorder."""
    return list(itertools.chain.from_iterable(map(leaves, leaf.children))) if leaf.children else [leaf]


def lower_bound(search, model):
    """The least number of the leaves at the model, but for those that have no point there; or what stands in its place.

    A cut of the search that doesn't derive at the model is left out, whatever multiplier it has.
    """
    form, numbers = model.with_cuts(search.cuts), []
    dead = {model.own_rows + k for k, cut in enumerate(search.cuts) if not model.holds(cut)}
    counting = lambda multipliers: {place: y for place, y in multipliers.items() if place not in dead}
    for leaf in leaves(search.root):
        if model.is_empty(leaf.path):
            continue
        if leaf.farkas and (form.proved(leaf.path, counting(leaf.farkas), costs=False) or 0) > 0:
            continue
        numbers.append(form.proved(leaf.path, counting(leaf.multipliers)))
    if not numbers:
        return "infeasible"
    if None in numbers:
        return None
    return Fraction(ceil(min(numbers))) if model.is_whole() else min(numbers)


def upper_bound(search, model):
    """The least value of the kept points that are feasible at the model."""
    return min((model.value(point) for point in search.points if model.is_feasible(point)), default=None)


def is_right(word, bound, model):
    """Is the bound one of the best value of the model, which is searched for that?"""
    search = Search(model, MOST_RESULTS)
    first_line = search.answer()[0][0]
    if word.startswith("ub"):
        return bound is None or not first_line.startswith("optimal") or search.least() <= bound
    if bound == "infeasible":
        return first_line.startswith(("infeasible", "stopped")) and not search.points
    return bound is None or search.least() is None or bound <= search.least()


class Asking:
    """The lines of a script with what they are answered, in the sense of the model's file."""

    def __init__(self, model, is_max, text):
        self.model, self.sign, self.text = model, -1 if is_max else 1, text
        self.script, self.replies = ["load T"], ["ok"]

    def told(self, number):
        return "none" if number is None else number if number == "infeasible" else str(self.sign * number)

    def ask(self, word, pairs, search):
        """A bound at other sides or costs, in least form."""
        of_rows = word.endswith("rhs")
        names = [row[0] for row in self.model.rows] if of_rows else [column.name for column in self.model.columns]
        model = (with_sides if of_rows else with_costs)(self.model, pairs)
        bound = (lower_bound if word.startswith("lb") else upper_bound)(search, model)
        assert is_right(word, bound, model)
        sign = 1 if of_rows else self.sign
        self.script.append(" ".join([word, *(f"{names[place]} {sign * v}" for place, v in pairs.items())]))
        self.replies.append(f"bound {self.told(bound)}")

    def solve(self, limits):
        """Places results up to the limits; the search that is left, or None where the objective has no end."""
        search = Search(self.model, **dict(limits))
        lines = search.answer()[0]
        if lines[0].startswith("unbounded"):
            return None
        self.script.append(" ".join(["solve", *(f"{word} {limit}" for word, limit in limits)]))
        self.replies += [self.in_own_sense(lines[0]), *lines[1:]]
        return search

    def in_own_sense(self, line):
        words = line.split()
        for place, word in enumerate(words[:-1]):
            if word in ("optimal", "bound", "best") and words[place + 1] != "none":
                words[place + 1] = str(self.sign * Fraction(words[place + 1]))
        return " ".join(words)


def in_max(model, text):
    """The file of the model with the negative objective, which is to be made large."""
    lines = ["OBJSENSE MAX"]
    for line in text:
        words = line.split()
        if len(words) == 3 and words[1] == "C":
            line = f" {words[0]} C {-Fraction(words[2])}"
        elif len(words) == 2 and words[0] == "C" and line != " N C":
            line = f" C {-Fraction(words[1])}"
        lines.append(line)
    return lines


def standing_numbers(word, model):
    if word.endswith("rhs"):
        return [row[1] if row[1] is not None else row[2] for row in model.rows]
    return [column.cost for column in model.columns]


def draw_pairs(random, word, model):
    """Other numbers of some rows or columns, near those that stand; in any order."""
    standing = standing_numbers(word, model)
    steps = [0, 0, 0, 1, -1, 2, -2, Fraction(1, 2), Fraction(-1, 2)] if word.endswith("rhs") else [0, 0, 0, 1, -1, 3, -3, Fraction(1, 3)]
    if not standing:
        return None
    places = random.sample(range(len(standing)), random.randint(1, len(standing)))
    far = [draw_number(random, 60, [1])] if random.random() < 0.1 else []
    return {place: far[0] if far else standing[place] + random.choice(steps) for place in places}


def draw_asking(random):
    """A model that is searched to its end in not too many results, and the script over it."""
    while True:
        model, text = draw_model(random)
        is_max = random.random() < 0.34
        asking = Asking(model, is_max, in_max(model, text) if is_max else text)
        whole = Search(model, MOST_RESULTS)
        first_line = whole.answer()[0][0]
        if first_line.startswith(("stopped", "unbounded")) or whole.placed < 3 and random.random() < 0.9:
            continue
        words = ["lbrhs", "lbobj", "ubrhs", "ubobj"]
        ask(random, asking, words, Search(model))
        for limits in [draw_limits(random, whole.placed), []]:
            search = asking.solve(limits)
            ask(random, asking, words * 2, search)
        ask_as_it_stands(asking, words, search)
        return asking


def ask(random, asking, words, search):
    for word in words:
        pairs = draw_pairs(random, word, asking.model)
        if pairs is not None:
            asking.ask(word, pairs, search)


def ask_as_it_stands(asking, words, search):
    """After a search that went to its end each bound at the numbers that stand is the best value."""
    for word in words:
        pairs = dict(enumerate(standing_numbers(word, asking.model)))
        if pairs:
            asking.ask(word, pairs, search)
            best = search.least()
            assert asking.replies[-1] == f"bound {asking.told(best)}" or best is None


def main():
    count, seed = int(sys.argv[1]), int(sys.argv[2])
    random = Random(seed)
    print("# Bounds of random models at other sides and costs, by a program with exact fractions.")
    print(f"# Written by: python3 bench/rows/random_bounds.py {count} {seed}")
    for number in range(1, count + 1):
        asking = draw_asking(random)
        print(f"\nrow {number}")
        print("\n".join(["file T", *(f"| {line}" for line in asking.text), "script", *(f"| {line}" for line in asking.script)]))
        print("\n".join(["replies", *(f"| {line}" for line in asking.replies), "status 0"]))


if __name__ == "__main__":
    main()
