#!/usr/bin/env python3
"""Changes certificates of fronts, and the models that they are of: some changes leave a certificate true, most don't.

Each change below takes a Case and gives a changed one, or None where the case has nothing to change so. `changes(case)` gives as many as
are asked for, by turns. What a change is answered is judged elsewhere: by front_checker.py, and by all points of the model.
"""
from copy import deepcopy
from fractions import Fraction
from random import Random

from front_certificates import Tree, Unreached, certificate_of, drawn_style, gap_inner, made
from front_models import mps_text

LARGEST = 2**127 - 1
NUMBERS = ["0", "1", "-1", "2", "1/2", "-7/3", "1e38", "1e39", "x", "1/0", "-", "1e-39", "4e37"]
NUMBERS += [str(LARGEST), str(-LARGEST), str(LARGEST + 1), f"1/{LARGEST}"]

LINES = [
    "claim optimal 0", "ray X 1", "cert 1", "front 1", "front 2", "tree", "tree least3", "outcome 1", "outcome 1 2 3", "leaf", "leaf x", "cut A hi",
    "cut A up +X", "split X", "end", "end 1", "outcomes 1 2", "", " leaf bound", "leaf bound ", "ray", "point", "tree gap", "leaf bound row A",
    "leaf bound cut 01 1", "claim ", "outcome x 1/2", "outcome 1e40 x", "tree least1", "leaf empty", "cut Q hi +X", "claim optimal x", "cert 2",
]
TREES = [
    "gap 0", "gap 0", "gap 1", "gap 2", "least1", "least2", "gap 99", "gap 18446744073709551615", "gap 18446744073709551616", "gap 01", "gap +1",
    "gap x", "gap", "least", "gap 1 2", "gap 1/1", "gap -1", "gap 1.0",
]


class Case:
    """A model and the lines of a certificate. The end is what stands behind the last line."""

    def __init__(self, draw, model, found, outcomes, lines):
        self.draw, self.model, self.found, self.outcomes, self.lines, self.end = draw, model, found, outcomes, lines, "\n"

    def with_lines(self, lines):
        case = Case(self.draw, self.model, self.found, self.outcomes, list(lines))
        return case if case.lines != self.lines else None

    def with_model(self, model, lines=None):
        return Case(self.draw, model, None, None, list(lines or self.lines))

    def text(self):
        return "\n".join(self.lines) + self.end

    def is_front(self):
        return self.lines[0] == "front 1"

    # where the parts of a front's certificate stand
    def trees(self):
        """The lines of each tree."""
        starts = [place for place, line in enumerate(self.lines) if line.startswith("tree")]
        return [self.lines[start:stop] for start, stop in zip(starts, starts[1:] + [len(self.lines) - 1])]

    def stated(self):
        """The lines of each outcome."""
        return [self.lines[place : place + 2] for place, line in enumerate(self.lines) if line.startswith("outcome")]

    def with_parts(self, stated, trees):
        return self.with_lines(["front 1"] + [line for part in stated + trees for line in part] + ["end"])


def replaced(lines, place, *new):
    return lines[:place] + list(new) + lines[place + 1 :]


def some_line(case, *words):
    places = [place for place, line in enumerate(case.lines) if line.split()[:1] and line.split()[0] in words]
    return case.draw.choice(places) if places else None


def is_number(word):
    try:
        Fraction(word)
        return True
    except (ValueError, ZeroDivisionError):
        return False


# ---- texts


def number_changed(case):
    place = case.draw.randrange(len(case.lines))
    words = case.lines[place].split()
    numbers = [at for at, word in enumerate(words) if at > 0 and is_number(word)]
    if not numbers or place == 0 and case.draw.random() < 0.8:
        return None
    at = case.draw.choice(numbers)
    old = Fraction(words[at])
    near = [old + 1, old - 1, -old, old * 2, old + Fraction(1, 2), old - Fraction(1, 3), old / 2]
    words[at] = case.draw.choice(NUMBERS) if case.draw.random() < 0.4 else str(case.draw.choice(near))
    return case.with_lines(replaced(case.lines, place, " ".join(words)))


def number_spelled_otherwise(case):
    place = case.draw.randrange(1, len(case.lines))
    words = case.lines[place].split()
    numbers = [at for at, word in enumerate(words) if at > 0 and is_number(word) and "/" not in word]
    if not numbers:
        return None
    at = case.draw.choice(numbers)
    words[at] = case.draw.choice([words[at] + ".0", words[at] + "0e-1", words[at] + "/1", f"{2 * int(words[at])}/2", words[at] + "D0"])
    return case.with_lines(replaced(case.lines, place, " ".join(words)))


def line_dropped(case):
    place = case.draw.randrange(len(case.lines))
    return case.with_lines(case.lines[:place] + case.lines[place + 1 :])


def line_doubled(case):
    place = case.draw.randrange(len(case.lines))
    return case.with_lines(replaced(case.lines, place, case.lines[place], case.lines[place]))


def lines_swapped(case):
    first = case.draw.randrange(len(case.lines))
    second = min(first + 1, len(case.lines) - 1) if case.draw.random() < 0.5 else case.draw.randrange(len(case.lines))
    lines = list(case.lines)
    lines[first], lines[second] = lines[second], lines[first]
    return case.with_lines(lines)


def line_of_another_kind(case):
    place = case.draw.randrange(1, len(case.lines) + 1)
    return case.with_lines(case.lines[:place] + [case.draw.choice(LINES)] + case.lines[place:])


def word_dropped_or_doubled(case):
    place = case.draw.randrange(len(case.lines))
    words = case.lines[place].split()
    at = case.draw.randrange(len(words))
    new = words[:at] + words[at + 1 :] if case.draw.random() < 0.5 else words[: at + 1] + words[at:]
    return case.with_lines(replaced(case.lines, place, " ".join(new)))


def blanks_changed(case):
    place = case.draw.randrange(len(case.lines))
    line = case.lines[place]
    new = case.draw.choice([line + " ", " " + line, line.replace(" ", "  "), line.replace(" ", "\t"), line + "\r", "\t" + line, line + "\t"])
    return case.with_lines(replaced(case.lines, place, new))


def end_changed(case):
    lines = case.lines if case.draw.random() < 0.5 else case.lines[: case.draw.randrange(len(case.lines))]
    changed = Case(case.draw, case.model, case.found, case.outcomes, list(lines))
    changed.end = case.draw.choice(["", "", "\n\n", "\r\n", "\n\n\n", "\nx\n", " \n"])
    return changed


def name_changed(case):
    place = some_line(case, "point", "leaf", "split", "cut")
    if place is None:
        return None
    words = case.lines[place].split()
    names = [column.name for column in case.model.columns] + [row.name for row in case.model.rows] + ["Z", "G1", "G2", "Q", "G1_", "Z_"]
    known = [at for at, word in enumerate(words) if at > 0 and (word in names or word[1:] in names)]
    if not known:
        return None
    at = case.draw.choice(known)
    sign = "" if words[at] in names else words[at][0]
    words[at] = sign + case.draw.choice(names)
    return case.with_lines(replaced(case.lines, place, " ".join(words)))


# ---- nodes


def leaf_of_another_kind(case):
    place = some_line(case, "leaf")
    if place is None:
        return None
    words = case.lines[place].split()
    kind = case.draw.choice(["bound", "farkas", "empty"])
    return case.with_lines(replaced(case.lines, place, " ".join(["leaf", kind] + ([] if kind == "empty" else words[2:]))))


def multipliers_changed(case):
    places = [place for place, line in enumerate(case.lines) if line.startswith("leaf") and len(line.split()) > 2]
    if not places:
        return None
    place = case.draw.choice(places)
    words = case.lines[place].split()
    triples = [words[at : at + 3] for at in range(2, len(words), 3)]
    at = case.draw.randrange(len(triples))
    how = case.draw.choice(["dropped", "doubled", "turned", "all", "cut", "least"])
    if how == "dropped":
        triples.pop(at)
    elif how == "doubled":
        triples.append(list(triples[at]))
    elif how == "cut":
        cut = case.draw.choice(["0", "1", "2", "3", "18446744073709551615", "18446744073709551616", "01", "-1"])
        triples.append(["cut", cut, case.draw.choice(["-1", "0", "1"])])
    else:
        for triple in triples if how == "all" else [triples[at]]:
            y = Fraction(triple[2])
            triple[2] = str(-y if how == "turned" else y * Fraction(3, 4) if how == "all" else y * Fraction(LARGEST, 5 * 10**37 + 1))
    return case.with_lines(replaced(case.lines, place, " ".join(words[:2] + [word for triple in triples for word in triple])))


def split_changed(case):
    place = some_line(case, "split")
    if place is None:
        return None
    words = case.lines[place].split()
    if case.draw.random() < 0.5:
        near = str(int(words[2]) + case.draw.choice([-2, -1, 1, 2, 7]))
        words[2] = case.draw.choice([near, near, "1/2", str(LARGEST), str(LARGEST - 1), str(-LARGEST), str(LARGEST + 1)])
    else:
        continuous = [column.name for column in case.model.columns if not column.integer]
        words[1] = case.draw.choice([column.name for column in case.model.columns] + 2 * continuous + ["Z", "Z_", "Q"])
    return case.with_lines(replaced(case.lines, place, " ".join(words)))


def stop_of(lines, start):
    """Where the tree of nodes that begins at a line ends."""
    due, place = 1, start
    while due > 0:
        due += 1 if lines[place].startswith("split") else -1
        place += 1
    return place


def children_turned(case):
    place = some_line(case, "split")
    if place is None:
        return None
    middle = stop_of(case.lines, place + 1)
    stop = stop_of(case.lines, middle)
    return case.with_lines(case.lines[: place + 1] + case.lines[middle:stop] + case.lines[place + 1 : middle] + case.lines[stop:])


def subtree_is_a_leaf(case):
    place = some_line(case, "split")
    if place is None:
        return None
    leaf = case.draw.choice(["leaf bound", "leaf bound", "leaf farkas", "leaf empty", "leaf bound row G1 -1", "leaf bound row G2 -1/2"])
    return case.with_lines(case.lines[:place] + [leaf] + case.lines[stop_of(case.lines, place) :])


def leaf_is_split(case):
    place = some_line(case, "leaf")
    if place is None:
        return None
    continuous = [column.name for column in case.model.columns if not column.integer]
    column = case.draw.choice([column.name for column in case.model.columns] + 5 * continuous + ["Z"])
    split = f"split {column} {case.draw.randint(-1, 3)}"
    return case.with_lines(replaced(case.lines, place, split, case.lines[place], case.lines[place]))


# ---- outcomes


def outcomes_out_of_order(case):
    stated = case.stated()
    if len(stated) < 2:
        return None
    if case.draw.random() < 0.3:
        return case.with_parts(stated[::-1], case.trees())
    first = case.draw.randrange(len(stated) - 1)
    stated[first], stated[first + 1] = stated[first + 1], stated[first]
    return case.with_parts(stated, case.trees())


def outcome_twice(case):
    if not case.is_front():
        return None
    stated, trees = case.stated(), case.trees()
    at = case.draw.randrange(len(stated))
    stated.insert(at, stated[at])
    if case.draw.random() < 0.5:
        trees.append([f"tree gap {len(stated) - 1}", "leaf bound"])
    return case.with_parts(stated, trees)


def numbered(trees):
    """The trees with the gaps numbered anew."""
    return trees[:2] + [[f"tree gap {k}"] + tree[1:] for k, tree in enumerate(trees[2:], 1)]


def outcome_missing(case):
    if not case.is_front():
        return None
    stated, trees = case.stated(), case.trees()
    at = case.draw.randrange(len(stated))
    stated.pop(at)
    if case.draw.random() < 0.8 and len(trees) > 2:
        trees.pop(min(len(trees) - 1, 2 + max(0, at - case.draw.randint(0, 1))))
        trees = numbered(trees)
    return case.with_parts(stated, trees)


def another_point(case):
    """The point of another outcome, or one that isn't feasible, or one of the same outcome."""
    if not case.is_front():
        return None
    stated = case.stated()
    at = case.draw.randrange(len(stated))
    point = case.draw.choice(case.found) if case.draw.random() < 0.6 else [Fraction(case.draw.randint(-1, 4)) for _ in case.model.columns]
    words = [word for column, value in zip(case.model.columns, point) if value != 0 for word in (column.name, str(value))]
    outcome = case.model.least_outcome(point) if case.draw.random() < 0.5 else None
    stated[at] = [f"outcome {outcome[0]} {outcome[1]}" if outcome else stated[at][0], " ".join(["point"] + words)]
    return case.with_parts(stated, case.trees())


def values_of_another_form(case):
    """Without the constants, with the constants twice, or in the model's own sense."""
    if not case.is_front():
        return None
    constants = case.model.least_constants()
    how = case.draw.choice([lambda v, c: v - c, lambda v, c: v + c, lambda v, c: -v, lambda v, c: v - 2 * c])
    stated = []
    for line, point in case.stated():
        values = [how(Fraction(word), constant) for word, constant in zip(line.split()[1:], constants)]
        stated.append([f"outcome {values[0]} {values[1]}", point])
    return case.with_parts(stated, case.trees())


def drawn_chain(case):
    """Outcomes that rise and fall strictly, of some points."""
    chain = []
    every = sorted({case.model.least_outcome(point) for point in case.found})
    for outcome in every:
        if case.draw.random() < case.draw.choice([0.5, 0.8, 0.95]) and (not chain or outcome[1] < chain[-1][1]):
            chain.append(outcome)
    return chain


def false_front(case):
    """Other outcomes, each with its own trees: where a point is below a target a leaf is left that doesn't close."""
    if not case.is_front():
        return None
    chain = drawn_chain(case)
    if not chain or chain == case.outcomes:
        return None
    return case.with_lines(certificate_of(case.draw, case.model, case.found, chain, True).lines())


def is_weak(one, other):
    return other != one and (other[0] == one[0] or other[1] == one[1]) and other[0] >= one[0] and other[1] >= one[1]


def weakly_dominated(case):
    """An outcome is replaced by one with the same first or second value that it dominates, or such a one stands beside it."""
    if not case.is_front():
        return None
    every = {case.model.least_outcome(point) for point in case.found}
    weak = [(k, other) for k, one in enumerate(case.outcomes) for other in every if is_weak(one, other)]
    if not weak:
        return None
    k, other = case.draw.choice(sorted(weak))
    outcomes = case.outcomes[:k] + [other] + case.outcomes[k + case.draw.choice([0, 1, 1, 1]) :]
    return case.with_lines(certificate_of(case.draw, case.model, case.found, outcomes, True).lines())


def drawn_outcomes(case):
    """A front of a model without points, or outcomes of no point."""
    if case.is_front() and case.draw.random() < 0.7:
        return None
    lines = ["front 1"]
    for k in range(case.draw.randint(0, 3)):
        lines += [f"outcome {case.draw.randint(-5, 5)} {case.draw.randint(-5, 5)}", f"point {case.model.columns[0].name} {case.draw.randint(0, 3)}"]
    lines += ["tree least1", "leaf bound", "tree least2", "leaf bound", "tree gap 1", "leaf bound"][: case.draw.choice([0, 2, 4, 6])]
    return case.with_lines(lines + ["end"])


# ---- trees


def tree_missing(case):
    if not case.is_front():
        return None
    trees = case.trees()
    trees.pop(case.draw.randrange(len(trees)))
    trees = numbered(trees) if case.draw.random() < 0.3 else [] if case.draw.random() < 0.2 else trees
    return case.with_parts(case.stated(), trees)


def trees_in_another_order(case):
    if not case.is_front():
        return None
    trees = case.trees()
    first, second = case.draw.sample(range(len(trees)), 2)
    trees[first], trees[second] = trees[second], trees[first]
    return case.with_parts(case.stated(), trees)


def tree_named_otherwise(case):
    if not case.is_front():
        return None
    trees = case.trees()
    at = case.draw.randrange(len(trees))
    trees[at] = [f"tree {case.draw.choice(TREES)}"] + trees[at][1:]
    return case.with_parts(case.stated(), trees)


def tree_of_another(case):
    """The lines behind the name of a tree are those of another one; or a tree too many."""
    if not case.is_front():
        return None
    trees = case.trees()
    first, second = case.draw.sample(range(len(trees)), 2)
    if case.draw.random() < 0.2:
        return case.with_parts(case.stated(), trees + [trees[first]])
    if case.draw.random() < 0.5:
        trees[first], trees[second] = [trees[first][0]] + trees[second][1:], [trees[second][0]] + trees[first][1:]
    else:
        trees[first] = [trees[first][0]] + trees[second][1:]
    return case.with_parts(case.stated(), trees)


def tree_of_another_gap(case):
    """A gap's tree is made with other weights: turned round, from another outcome, or of other least values."""
    if not case.is_front() or len(case.outcomes) < 2:
        return None
    trees = case.trees()
    k = case.draw.randrange(len(case.outcomes) - 1)
    bare = [tuple(v - c for v, c in zip(outcome, case.model.least_constants())) for outcome in case.outcomes]
    least = bare[0][0], bare[-1][1]
    p, q = bare[k], bare[k + 1]
    how = case.draw.choice(["near", "turned", "far", "least"])
    if how == "near":
        p, q = (p[0], p[1] - 1), (q[0] - 1, q[1])
    elif how == "turned":
        p, q = (p[0], least[1] + q[0] - least[0]), (least[0] + p[1] - least[1], q[1])
    elif how == "far":
        q = bare[-1]
    else:
        least = least[0] - 1, least[1] - 1
    if p[1] <= least[1] or q[0] <= least[0]:
        return None
    inner = gap_inner(case.model, p, q, least)
    trees[k + 2] = Tree(case.draw, inner, drawn_style(case.draw, inner.bounds[:-1]), True).lines(f"gap {k + 1}")
    return case.with_parts(case.stated(), trees)


def gap_not_searched(case):
    if not case.is_front() or len(case.outcomes) < 2:
        return None
    trees = case.trees()
    k = case.draw.randrange(2, len(trees))
    trees[k] = [trees[k][0], case.draw.choice(["leaf bound", "leaf farkas", "leaf empty", "leaf bound row G1 -1", "leaf bound row G1 -1/2 row G2 -1/2"])]
    return case.with_parts(case.stated(), trees)


def cuts_moved(case):
    """The cuts of a tree go to another one, or one goes away, or one comes that isn't valid."""
    if not case.is_front():
        return None
    trees = case.trees()
    holders = [at for at, tree in enumerate(trees) if any(line.startswith("cut") for line in tree)]
    how = case.draw.choice(["move", "drop", "add", "turn", "add"])
    if how == "add":
        at = case.draw.randrange(len(trees))
        columns = [column.name for column in case.model.columns] + ["Z"]
        rows = [row.name for row in case.model.rows] + ["G1", "G2"]
        literals = [case.draw.choice("+-") + name for name in columns if case.draw.random() < 0.5] or ["+X"]
        trees[at] = [trees[at][0], f"cut {case.draw.choice(rows)} {case.draw.choice(['hi', 'lo'])} {' '.join(literals)}"] + trees[at][1:]
        return case.with_parts(case.stated(), trees)
    if not holders:
        return None
    at = case.draw.choice(holders)
    cuts = [line for line in trees[at] if line.startswith("cut")]
    if how == "turn":
        k = trees[at].index(case.draw.choice(cuts))
        words = trees[at][k].split()
        new = words[:3] + words[:2:-1] if len(words) > 4 and case.draw.random() < 0.5 else words[:2] + ["lo" if words[2] == "hi" else "hi"] + words[3:]
        trees[at] = replaced(trees[at], k, " ".join(new))
        return case.with_parts(case.stated(), trees)
    moved = cuts if how == "move" else cuts[:1]
    trees[at] = [line for line in trees[at] if line not in moved]
    if how == "move":
        other = case.draw.choice([place for place in range(len(trees)) if place != at])
        trees[other] = trees[other][:1] + cuts + trees[other][1:]
    return case.with_parts(case.stated(), trees)


# ---- models


def objective_not_whole(case):
    model = deepcopy(case.model)
    which = case.draw.choice([0, 1])
    how = case.draw.choice(["cost", "constant", "continuous"])
    if how == "cost":
        case.draw.choice(model.columns).costs[which] += Fraction(1, 2)
    elif how == "constant":
        model.constants[which] += Fraction(1, 3)
    elif any(not column.integer for column in model.columns):
        case.draw.choice([column for column in model.columns if not column.integer]).costs[which] = Fraction(1)
    else:
        case.draw.choice(model.columns).integer = False
    return case.with_model(model)


def model_changed(case):
    model = deepcopy(case.model)
    how = case.draw.choice(["constant", "sense", "side", "bound", "cost", "row"])
    if how == "constant":
        model.constants[case.draw.choice([0, 1])] += case.draw.choice([-1, 1])
    elif how == "sense":
        model.sense = "MIN" if model.sense == "MAX" else "MAX"
    elif how == "bound":
        column = case.draw.choice([column for column in model.columns if column.integer])
        column.low, column.high = column.low - case.draw.choice([0, 1]), column.high + case.draw.choice([0, 1])
    elif how == "cost":
        case.draw.choice([column for column in model.columns if column.integer]).costs[case.draw.choice([0, 1])] += case.draw.choice([-1, 1])
    elif not model.rows:
        return None
    elif how == "row":
        model.rows.pop()
    else:
        row = case.draw.choice(model.rows)
        row.low, row.high = None if row.low is None else row.low - 1, None if row.high is None else row.high + 1
    return case.with_model(model)


def wide_objectives(case):
    """The costs of the objectives times large numbers, with the certificate that belongs to them."""
    if not case.is_front() or len(case.outcomes) > 6:
        return None
    model = deepcopy(case.model)
    for which in (0, 1):
        factor = 2 ** case.draw.choice([0, 40, 60, 62, 63, 64, 80, 110, 122, 124]) + case.draw.choice([0, 1])
        model.constants[which] *= case.draw.choice([0, 1, factor])
        for column in model.columns:
            column.costs[which] *= factor
    numbers = [number for column in model.columns for number in column.costs] + model.constants
    if any(abs(number) > LARGEST for number in numbers):
        return None
    return case.with_model(model, made(case.draw.random(), model)[3])


def within_room(line):
    return " ".join(["outcome"] + [str(max(-LARGEST, min(LARGEST, int(word)))) for word in line.split()[1:]])


def wide_constants(case):
    if not case.is_front():
        return None
    model = deepcopy(case.model)
    model.constants[case.draw.choice([0, 1])] = Fraction(case.draw.choice([-1, 1]) * (LARGEST - case.draw.choice([0, 1, 20])))
    lines = made(case.draw.random(), model)[3]
    return case.with_model(model, [within_room(line) if line.startswith("outcome") else line for line in lines])


def wide_row(case):
    """A row times a large number, and the multipliers as they stand; sometimes with a cut of the row."""
    rows = [place for place, row in enumerate(case.model.rows) if row.entries]
    if not rows:
        return None
    model = deepcopy(case.model)
    row = model.rows[case.draw.choice(rows)]
    factor = Fraction(case.draw.choice([10**37, 2**125, 2**124 + 1]), case.draw.choice([1, 1, 3, 2**61 - 1]))
    row.low, row.high = [None if side is None else side * factor for side in (row.low, row.high)]
    row.entries = {place: number * factor for place, number in row.entries.items()}
    numbers = [number for number in list(row.entries.values()) + [row.low, row.high] if number is not None]
    if any(max(abs(number.numerator), number.denominator) > LARGEST for number in numbers):
        return None
    trees = [place for place, line in enumerate(case.lines) if line.startswith("tree")]
    binary = [column.name for column in model.columns if column.integer and (column.low, column.high) == (0, 1)]
    if not trees or not binary or case.draw.random() < 0.5:
        return case.with_model(model)
    place = case.draw.choice(trees)
    cut = " ".join(["cut", row.name, "lo" if row.high is None else "hi"] + ["+" + name for name in binary])
    return case.with_model(model, replaced(case.lines, place, case.lines[place], cut))


CHANGES = [
    number_changed, line_dropped, lines_swapped, line_doubled, false_front, multipliers_changed, outcomes_out_of_order, outcome_twice, outcome_missing,
    tree_missing, trees_in_another_order, tree_named_otherwise, tree_of_another, tree_of_another_gap, gap_not_searched, cuts_moved, leaf_of_another_kind,
    split_changed, children_turned, subtree_is_a_leaf, leaf_is_split, another_point, values_of_another_form, weakly_dominated, drawn_outcomes,
    objective_not_whole, model_changed, wide_objectives, wide_constants, wide_row, line_of_another_kind, word_dropped_or_doubled, blanks_changed,
    end_changed, name_changed, number_spelled_otherwise, number_changed, multipliers_changed, false_front, tree_of_another_gap,
]


def changes(case, start, count):
    """So many changed cases with the names of their changes, by turns from the one at the start."""
    given, turn = 0, start
    while given < count:
        change = CHANGES[turn % len(CHANGES)]
        turn += 1
        try:
            changed = change(case)
        except Unreached:
            changed = None
        if changed is not None:
            given += 1
            yield change.__name__, changed


def cut_off(case):
    """The certificate cut off behind each of its lines, the last ones with the line feed and without."""
    for count in range(len(case.lines)):
        changed = Case(case.draw, case.model, case.found, case.outcomes, case.lines[:count])
        changed.end = "\n" if count % 2 == 0 and count > 0 else ""
        yield "cut_off", changed


def cut_at_bytes(case):
    """The certificate cut off behind each of its bytes."""
    text = case.text()
    for count in range(len(text)):
        changed = Case(case.draw, case.model, case.found, case.outcomes, text[:count].split("\n"))
        changed.end = ""
        yield "cut_at_bytes", changed


def drawn_case(seed):
    return Case(Random(f"change {seed}"), *made(seed))


def texts(case):
    return mps_text(case.model), case.text()
