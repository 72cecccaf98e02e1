"""A second judge of certificates of fronts, for texts without fault, in numbers that have all the room that they need.

It stands on what makes the certificates (the models as they were drawn, their inner models, the numbers of leaves), and shares nothing
with front_checker.py, whose verdicts it is held against: `verdict(model, text)` is `accepted frontier K` or `rejected NODE WHY`.
"""
from fractions import Fraction
from math import ceil

from front_certificates import Row, inner_models, is_cover, number_of, whole_bounds

LARGEST = 2**127 - 1


class Rejected(Exception):
    """The node and why."""


def named(words):
    return list(zip(words[0::2], [spelled(word) for word in words[1::2]]))


def spelled(word):
    return Fraction(word.replace("d", "e").replace("D", "e"))


def parts_of(text):
    """The words of the outcomes with those of their points, and the trees: their names, cuts and nodes."""
    outcomes, trees = [], []
    for line in text.split("\n"):
        words = line.split()
        if words[:1] == ["outcome"]:
            outcomes.append([tuple(spelled(word) for word in words[1:]), None])
        elif words[:1] == ["point"]:
            outcomes[-1][1] = named(words[1:])
        elif words[:1] == ["tree"]:
            trees.append((" ".join(words[1:]), [], []))
        elif words[:1] == ["cut"]:
            trees[-1][1].append(words[1:])
        elif words and words[0] in ("split", "leaf"):
            trees[-1][2].append(words)
    return outcomes, trees


def judge_objectives(model):
    whole = [column.costs[which] == 0 or column.integer and column.costs[which].denominator == 1 for column in model.columns for which in (0, 1)]
    if not all(whole) or any(constant.denominator != 1 for constant in model.constants):
        raise Rejected(0, 9)


def is_inside(low, high, number):
    return (low is None or low <= number) and (high is None or number <= high)


def judge_outcomes(model, outcomes):
    columns = [column.name for column in model.columns]
    for k, (values, pairs) in enumerate(outcomes):
        if len(dict(pairs)) < len(pairs) or any(name not in columns for name, _ in pairs):
            raise Rejected(0, 1)
        point = [dict(pairs).get(name, Fraction(0)) for name in columns]
        fits = all(is_inside(c.low, c.high, number) and not (c.integer and number.denominator != 1) for c, number in zip(model.columns, point))
        sums = [(row, sum((a * point[j] for j, a in row.entries.items()), Fraction(0))) for row in model.rows]
        if not fits or not all(is_inside(row.low, row.high, activity) for row, activity in sums):
            raise Rejected(0, 2)
        if model.least_outcome(point) != values:
            raise Rejected(0, 8)
        if k > 0 and not (outcomes[k - 1][0][0] < values[0] and outcomes[k - 1][0][1] > values[1]):
            raise Rejected(0, 8)


def have_room(inner, model):
    """Whether the numbers of a gap have room."""
    numbers = [inner.target]
    for row in inner.rows[len(model.rows) :]:
        numbers += [row.high] + list(row.entries.values())
    return all(abs(number) <= LARGEST for number in numbers)


def cut_row(inner, words, k):
    """The row of a cut."""
    rows = {row.key[4:]: row for row in inner.rows}
    columns = [word[1:] for word in words[2:]]
    if words[0] not in rows or len(set(columns)) < len(columns) or any(name not in inner.names for name in columns):
        raise Rejected(0, 1)
    places = [inner.names.index(name) for name in columns]
    binary = all(inner.integer[j] and inner.bounds[j] == (0, 1) for j in places)
    literals = {j: word[0] == "+" for j, word in zip(places, words[2:])}
    sign = 1 if words[1] == "hi" else -1
    if places != sorted(places) or not binary or not is_cover(inner, rows[words[0]], sign, literals):
        raise Rejected(0, 5)
    minus = len([1 for plus in literals.values() if not plus])
    return Row(f"cut {k}", None, Fraction(len(literals) - 1 - minus), {j: Fraction(1 if plus else -1) for j, plus in literals.items()})


class Nodes:
    """The nodes of a tree, judged one by one."""

    def __init__(self, inner, cuts, nodes, before):
        self.inner, self.rows, self.nodes, self.number = inner, inner.rows + cuts, iter(nodes), before
        self.judge(whole_bounds(inner))

    def judge(self, bounds):
        words = next(self.nodes)
        self.number += 1
        if words[0] == "leaf":
            if not self.closes(words[1], words[2:], bounds):
                raise Rejected(self.number, 7)
            return
        if words[1] not in self.inner.names:
            raise Rejected(self.number, 1)
        j, v = self.inner.names.index(words[1]), spelled(words[2])
        if not self.inner.integer[j]:
            raise Rejected(self.number, 6)
        low, high = bounds[j]
        self.judge(bounds[:j] + [(low, min(high, v))] + bounds[j + 1 :])
        self.judge(bounds[:j] + [(max(low, v + 1), high)] + bounds[j + 1 :])

    def closes(self, kind, words, bounds):
        if kind == "empty":
            return any(low is not None and high is not None and low > high for low, high in bounds)
        keys = [f"{key} {name}" for key, name in zip(words[0::3], words[1::3])]
        places = {row.key: place for place, row in enumerate(self.rows)}
        if len(set(keys)) < len(keys) or any(key not in places for key in keys):
            raise Rejected(self.number, 1)
        multipliers = {places[key]: spelled(word) for key, word in zip(keys, words[2::3])}
        costs = self.inner.costs if kind == "bound" else [Fraction(0)] * len(bounds)
        number = number_of(costs, bounds, self.rows, multipliers)
        if number is None:
            return False
        return number > 0 if kind == "farkas" else ceil(number) >= self.inner.target


def judge(model, text):
    outcomes, trees = parts_of(text)
    judge_objectives(model)
    judge_outcomes(model, outcomes)
    inners = inner_models(model, [values for values, _ in outcomes])
    if [name for name, _ in inners] != [name for name, _, _ in trees] or not all(have_room(inner, model) for name, inner in inners if name[:3] == "gap"):
        raise Rejected(0, 10)
    cuts = [[cut_row(inner, words, k) for k, words in enumerate(lines, 1)] for (_, inner), (_, lines, _) in zip(inners, trees)]
    number = 0
    for (_, inner), rows, (_, _, nodes) in zip(inners, cuts, trees):
        number = Nodes(inner, rows, nodes, number).number
    return f"accepted frontier {len(outcomes)}"


def verdict(model, text):
    try:
        return judge(model, text)
    except Rejected as why:
        return f"rejected {why.args[0]} {why.args[1]}"
