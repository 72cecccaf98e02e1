#!/usr/bin/env python3
"""Rows of sweeps of a front, part by part: crates/worked_rows/data/fronts.

    python3 bench/fronts/scripted_sweeps.py FOLDER

writes `random-sweeps.rows`, `made-sweeps.rows` and `wrong-certificates.rows` into the folder, and tells how many sweeps each wants.

A sweep solves inner models of a model in least form without constants, one after the other. Let i1 and i2 be the least first and second values:

    least1               least f1
    left                 least f2 with a row G1: f1 <= i1                  the first outcome
    least2               least f2
    right                least f1 with a row G1: f2 <= i2                  the last outcome, if it is another one
    gap P1 P2 Q1 Q2      a = P2 - i2, b = Q1 - i1; least Z, a column of whole numbers from 0 to a*b, with rows G1: a*f1 - Z <= a*i1 and
                         G2: b*f2 - Z <= b*i2; the gap with the least P1 first. It is empty where the least Z is a*b, else its point is pulled
    pull R1 R2           least f1 + f2 with rows G1: f1 <= R1 and G2: f2 <= R2         one more outcome

New names have as many underscores as make them free. Here each inner model is solved by going through all points of the model; one of its
best points is drawn, and a tree that proves it is that of front_certificates.py; certificate_checker.py has to accept it for the inner
model, whose numbers may have 127 bits. So it is known what a sweep answers that is told these answers: the whole front with its
certificate, or what is found where it stops, or where a number of a part has no room. It shares nothing with the program.
"""
import os
import sys
from fractions import Fraction
from random import Random

sys.path.insert(0, os.path.join(os.path.dirname(os.path.abspath(__file__)), "..", "rows"))

import certificate_checker as checker  # noqa: E402
import mps_reader as plain  # noqa: E402
from front_certificates import Row, Tree, drawn_style, emptiness, free, gap_inner, least_inner  # noqa: E402
from front_models import Column, Model, drawn_model, points  # noqa: E402
from front_models import Row as ModelRow  # noqa: E402
from sweep_models import drawn  # noqa: E402

LARGEST = 2**127 - 1
CAUSES = ["nodes", "tree", "pivots", "wide"]
MOST_SOLVES = 16


def fits(number):
    return abs(number) <= LARGEST


# ---- inner models


def bare_outcome(model, point):
    """The two values of a point in least form without constants."""
    return tuple(sum((model.least() * c.costs[which] * x for c, x in zip(model.columns, point)), Fraction(0)) for which in (0, 1))


def added_row(model, inner, base, which, side, taken=()):
    costs = [model.least() * column.costs[which] for column in model.columns]
    names = [row.name for row in model.rows] + model.names + list(taken)
    entries = {place: cost for place, cost in enumerate(costs) if cost != 0}
    inner.rows.append(Row(f"row {free(base, names)}", None, side, entries))


def left_inner(model, i1):
    inner = least_inner(model, 1, None)
    added_row(model, inner, "G1", 0, i1)
    return inner


def right_inner(model, i2):
    inner = least_inner(model, 0, None)
    added_row(model, inner, "G1", 1, i2)
    return inner


def pull_inner(model, outcome):
    inner = least_inner(model, 0, None)
    inner.costs = [model.least() * (column.costs[0] + column.costs[1]) for column in model.columns]
    added_row(model, inner, "G1", 0, outcome[0])
    added_row(model, inner, "G2", 1, outcome[1])
    return inner


def plain_model(inner):
    """An inner model as the checker has models."""
    rows = [plain.Row(row.key[4:].encode(), row.low, row.high) for row in inner.rows]
    columns = []
    for place, name in enumerate(inner.names):
        entries = [(row.key[4:].encode(), row.entries[place]) for row in inner.rows if row.entries.get(place, 0) != 0]
        low, high = inner.bounds[place]
        columns.append(plain.Column(name.encode(), inner.integer[place], low, high, inner.costs[place], Fraction(0), entries))
    return plain.Model("MIN", [b"cost", b"cost2"], [Fraction(0), Fraction(0)], rows, columns)


def judged(inner, lines):
    """What the checker says of the lines of a certificate."""
    stated = checker.certificate("".join(line + "\n" for line in lines))
    if isinstance(stated, tuple):
        return "faulty"
    return checker.Judge(plain_model(inner), stated).verdict()


# ---- sweeps


class Solve:
    """A solve that a sweep asks for: its part, the outcomes that are found before, and what is answered."""

    def __init__(self, part, inner, value, lines, results, found):
        self.part, self.inner, self.value, self.lines, self.results, self.found = part, inner, value, lines, results, found


class Sweep:
    """All solves of a sweep, and its end: `complete`, `infeasible`, or a part and the place of a number without room."""

    def __init__(self, model, draw, constants=None):
        self.model, self.draw = model, draw
        self.constants = [int(c) for c in (model.least_constants() if constants is None else constants)]
        self.points, self.solves, self.found, self.trees = points(model), [], [], []
        self.end = self.swept()

    def total(self):
        return sum(solve.results for solve in self.solves)

    # the values of a point where each step has room, with the constants too
    def outcome(self, point):
        values = []
        for which in (0, 1):
            terms = [(self.model.least() * c.costs[which], x, "") for c, x in zip(self.model.columns, point)]
            try:
                value = checker.total(Fraction(0), terms)
            except checker.NoRoom:
                return None
            if not fits(value + self.constants[which]):
                return None
            values.append(int(value))
        return tuple(values)

    def proved(self, part, inner, head):
        """A tree with whose nodes behind these lines the checker accepts, though numbers are great."""
        for _ in range(100):
            tree = Tree(self.draw, inner, drawn_style(self.draw, inner.bounds[: len(self.model.columns)]))
            lines = head + tree.cuts + tree.nodes + ["end"]
            told = judged(inner, lines)
            if told.startswith("accepted optimal "):
                return tree, lines
            assert told.startswith("wide "), (part, told, lines)
        raise SystemExit(f"no certificate of {part}")

    def solve(self, part, inner, number):
        """Asks for a solve. `number` is the objective of an outcome, None for one outside. A best point is drawn."""
        found = [(number(bare_outcome(self.model, point)), point) for point in self.points]
        found = [(value, point) for value, point in found if value is not None]
        least = min(value for value, _ in found)
        point = self.draw.choice([point for value, point in found if value == least])
        inner.target = Fraction(least)
        shown = list(point) + [inner.target] * (len(inner.names) - len(point))
        words = [word for name, x in zip(inner.names, shown) if x != 0 or self.draw.random() < 0.1 for word in (name, str(x))]
        tree, lines = self.proved(part, inner, ["cert 1", f"claim optimal {least}", " ".join(["point"] + words)])
        self.add(part, inner, inner.target, lines)
        return point, least, tree

    def add(self, part, inner, value, lines):
        found = [outcome for outcome, _ in self.found]
        self.solves.append(Solve(part, inner, value, lines, self.draw.choice([0, 0, 1, 1, 2, 3, 7]), found))

    def swept(self):
        model = self.model
        if not self.points:
            lines = emptiness(self.draw, model)
            assert judged(least_inner(model, 0, None), lines) == "accepted infeasible", lines
            self.add("least1", least_inner(model, 0, None), None, lines)
            return "infeasible"
        point, _, tree = self.solve("least1", least_inner(model, 0, None), lambda o: o[0])
        outcome = self.outcome(point)
        if outcome is None:
            return "least1", "value"
        self.i1 = outcome[0]
        self.trees.append(("least1", tree))
        return self.swept_from_left()

    def swept_from_left(self):
        model, i1 = self.model, self.i1
        point, _, _ = self.solve("left", left_inner(model, i1), lambda o: o[1] if o[0] <= i1 else None)
        outcome = self.outcome(point)
        if outcome is None:
            return "left", "value"
        self.found.append((outcome, point))
        point, _, tree = self.solve("least2", least_inner(model, 1, None), lambda o: o[1])
        outcome = self.outcome(point)
        if outcome is None:
            return "least2", "value"
        i2 = self.i2 = outcome[1]
        self.trees.append(("least2", tree))
        point, _, _ = self.solve("right", right_inner(model, i2), lambda o: o[0] if o[1] <= i2 else None)
        outcome = self.outcome(point)
        if outcome is None:
            return "right", "value"
        if outcome[0] != self.found[0][0][0]:
            self.found.append((outcome, point))
        return self.swept_gaps()

    def swept_gaps(self):
        place = 0
        while place + 1 < len(self.found):
            p, q = self.found[place][0], self.found[place + 1][0]
            part = f"gap {p[0]} {p[1]} {q[0]} {q[1]}"
            wide = self.wide_place(p, q)
            if wide is not None:
                return part, wide
            a, b = p[1] - self.i2, q[0] - self.i1
            inner = gap_inner(self.model, p, q, (self.i1, self.i2))
            point, least, tree = self.solve(part, inner, lambda o: self.gap_number(o, a, b))
            if least == a * b:
                place += 1
                self.trees.append((f"gap {place}", tree))
                continue
            outcome = self.outcome(point)
            if outcome is None:
                return part, "value"
            end = self.pulled(place, outcome)
            if end is not None:
                return end
        return "complete"

    def gap_number(self, o, a, b):
        number = max(Fraction(0), a * (o[0] - self.i1), b * (o[1] - self.i2))
        return number if number <= a * b else None

    def wide_place(self, p, q):
        a, b = p[1] - self.i2, q[0] - self.i1
        if not (fits(a) and fits(b) and fits(a * b)):
            return "width"
        for column in self.model.columns:
            if not (fits(a * column.costs[0]) and fits(b * column.costs[1])):
                return f"col {column.name}"
        return None if fits(a * self.i1) and fits(b * self.i2) else "side"

    def pulled(self, place, r):
        part = f"pull {r[0]} {r[1]}"
        for column in self.model.columns:
            if not fits(column.costs[0] + column.costs[1]):
                return part, f"col {column.name}"
        number = lambda o: o[0] + o[1] if o[0] <= r[0] and o[1] <= r[1] else None  # noqa: E731
        point, _, _ = self.solve(part, pull_inner(self.model, r), number)
        outcome = self.outcome(point)
        if outcome is None:
            return part, "value"
        self.found.insert(place + 1, (outcome, point))
        return None


# ---- what is answered


def with_constants(sweep, outcomes):
    return [tuple(value + constant for value, constant in zip(outcome, sweep.constants)) for outcome in outcomes]


def outcome_lines(sweep, kind, outcomes):
    return [f"frontier {kind} {len(outcomes)}"] + [f"f {v1} {v2}" for v1, v2 in with_constants(sweep, outcomes)]


def rest(left):
    return [f"left {left}", "the model stays"]


def ended(sweep, nodes, left=0):
    """What is answered where no solve stops, and so many solves stand behind those that are needed."""
    before = 0
    for place, solve in enumerate(sweep.solves, 1):
        before += solve.results
        if before > nodes:
            return no_memory(sweep, place)
    if sweep.end == "infeasible":
        return [f"infeasible nodes {sweep.total()}"] + sweep.solves[0].lines + rest(left)
    found = [outcome for outcome, _ in sweep.found]
    if sweep.end != "complete":
        return outcome_lines(sweep, "part", found) + ["stopped scale %s %s" % sweep.end, "end"] + rest(left)
    lines = outcome_lines(sweep, "complete", found) + ["end", "front 1"]
    for (outcome, point), (v1, v2) in zip(sweep.found, with_constants(sweep, found)):
        words = [word for column, x in zip(sweep.model.columns, point) for word in (column.name, str(x))]
        lines += [f"outcome {v1} {v2}", " ".join(["point"] + words)]
    for name, tree in sweep.trees:
        lines += tree.lines(name)
    return lines + ["end"] + rest(left)


def no_memory(sweep, used):
    return ["no memory", f"left {len(sweep.solves) - used}"]


def shown(number):
    return "none" if number is None else str(number)


class Cause:
    """A cause of a stop, as a heading says it and as it is answered, with its place."""

    def __init__(self, draw, model, kind):
        self.kind, self.words, self.place = kind, kind, []
        if kind in ("nodes", "tree"):
            return
        rows = [place for place in range(len(model.rows)) if draw.random() < 0.6]
        columns = [column.name for column in model.columns if draw.random() < 0.4]
        high = [column.name for column in model.columns if column.name not in columns and draw.random() < 0.5]
        named = [f"row {model.rows[place].name}" for place in rows] + [f"col {name}" for name in columns]
        self.place = ["path", " ".join(["basis"] + named), " ".join(["high"] + [f"col {name}" for name in high])]
        self.basis = " basis " + " ".join([f"row#{place}" for place in rows] + columns) + (" high " + " ".join(high) if high else "")
        if kind == "wide":
            name = draw.choice(model.columns).name
            self.words += f" {name}"
            self.place.append(f"at value col {name}")

    def heading(self, more=""):
        return self.words + more + (self.basis if self.place else "")


def stopped(sweep, place, cause, results, bound, best, left):
    """What is answered where the solve at a place, from 1, stops after so many results of its own."""
    solve, before = sweep.solves[place - 1], sum(solve.results for solve in sweep.solves[: place - 1])
    line = f"stopped {cause.kind} {before + results} bound {shown(bound)} best {shown(best)} of {solve.part}"
    return outcome_lines(sweep, "part", solve.found) + [line] + cause.place + ["end"] + rest(left)


# ---- rows


def heading(word, lines):
    return word + "\n" + "".join(f"| {line}".rstrip(" ") + "\n" if line == "" else f"| {line}\n" for line in lines)


def side(number):
    return "" if number is None else str(number)


def model_lines(model):
    lines = [f"{model.sense.lower()} constant {model.constants[0]} constant2 {model.constants[1]}"]
    lines += [f"row {row.name} {side(row.low)}..{side(row.high)}" for row in model.rows]
    for place, column in enumerate(model.columns):
        kind = "integer" if column.integer else "real"
        words = [f"column {column.name} {kind} {side(column.low)}..{side(column.high)} cost {column.costs[0]} cost2 {column.costs[1]}"]
        words += [f"{row.name} {row.entries[place]}" for row in model.rows if row.entries.get(place, 0) != 0]
        lines.append(" ".join(words))
    return lines


class File:
    """A file of rows, and how many sweeps they want."""

    def __init__(self, folder, name, head):
        self.name, self.path, self.count, self.rows = name, os.path.join(folder, name), 0, []
        self.parts = [f"# {line}\n" for line in head + ["Written by: python3 bench/fronts/scripted_sweeps.py"]]

    def row(self, name, model, solves):
        """A row begins, with its model and its solves, each with its count of results and its lines."""
        self.rows.append(name)
        self.parts.append(f"\nrow {name}\n" + heading("model", model_lines(model)))
        self.parts += [heading(f"solve {results}", lines) for results, lines in solves]

    def front(self, sweep, nodes, more, wanted):
        self.count += 1
        self.parts.append(heading(f"front nodes {nodes} constants {sweep.constants[0]} {sweep.constants[1]}{more}", wanted))

    def close(self):
        with open(self.path, "w") as file:
            file.write("".join(self.parts))
        print(f"{self.name}: {len(self.rows)} rows, {self.count} sweeps")


def begin(file, name, sweep):
    file.row(name, sweep.model, [(solve.results, solve.lines) for solve in sweep.solves])


def ends(file, sweep):
    """The whole sweep with more results than it needs, with exactly as many, and with one less."""
    total = sweep.total()
    for nodes in [total + 1000, total] + ([total - 1] if total > 0 else []):
        file.front(sweep, nodes, "", ended(sweep, nodes))


def drawn_bound(draw, value):
    """A bound that holds, None where there is none."""
    if draw.random() < 0.2:
        return None
    if value is None:
        return Fraction(draw.randint(-9, 9))
    bound = value - draw.choice([0, 1, 2, 5, Fraction(1, 2)])
    return bound if fits(bound.numerator) else value


def stops(file, sweep, draw):
    """A stop at each solve in turn: of a solver around the script, and of the script."""
    total = sweep.total()
    for place, solve in enumerate(sweep.solves, 1):
        left = len(sweep.solves) - place
        cause = Cause(draw, sweep.model, CAUSES[(place + draw.randint(0, 3)) % 4])
        file.front(sweep, total, f" stop {place} {cause.heading()}", stopped(sweep, place, cause, 0, None, None, left + 1))
        cause = Cause(draw, sweep.model, CAUSES[(place + draw.randint(0, 3)) % 4])
        bound, best = drawn_bound(draw, solve.value), draw.choice([solve.value, solve.value, None])
        results = draw.choice([0, 1, 4])
        nodes = sum(solve.results for solve in sweep.solves[: place - 1]) + results + draw.choice([0, 0, 5])
        told = (f" bound {bound}" if bound is not None else "") + (f" best {best}" if best is not None else "")
        words = f" solve {place} {results} {cause.heading(told)}"
        file.front(sweep, nodes, words, stopped(sweep, place, cause, results, bound, best, left))
    behind = len(sweep.solves) + 1
    file.front(sweep, total, f" stop {behind} nodes", ended(sweep, total))


def false_stops(file, sweep, draw):
    """Stops that would break the law: a bound or a best value that isn't so, and more results than remain."""
    places = [place for place, solve in enumerate(sweep.solves, 1) if solve.value is not None]
    for place in draw.sample(places, min(2, len(places))):
        value = sweep.solves[place - 1].value
        before = sum(solve.results for solve in sweep.solves[: place - 1])
        for nodes, results, told in [
            (before + 9, 1, f"bound {value + draw.choice([1, Fraction(1, 3)])} best {value}"),
            (before + 9, 1, f"best {value + draw.choice([1, -1])}"),
            (before + 3, 4, f"bound {value} best {value}"),
        ]:
            file.front(sweep, nodes, f" solve {place} {results} tree {told}", no_memory(sweep, place))


# ---- random models


def named(model):
    model.names = ["cost", "cost2"]
    return model


def is_short(model):
    """Whether a sweep of the model has few solves."""
    outcomes = {bare_outcome(model, point) for point in points(model)}
    kept, best = 0, None
    for first, second in sorted(outcomes):
        if best is None or second < best:
            kept, best = kept + 1, second
    return 4 + 3 * (kept - 1) <= MOST_SOLVES


def random_rows(folder):
    file = File(folder, "random-sweeps.rows", ["Sweeps of random small models: to their end, and to a stop at each part in turn."])
    models = [(f"model {seed}", named(drawn_model(seed))) for seed in range(36)]
    for seed in range(200):
        kind, model = drawn(seed)
        if kind in ("chain", "negative", "ranges", "equal", "ties", "knapsack") and len(models) < 52:
            models.append((f"{kind} {seed}", named(model)))
    for place, (name, model) in enumerate(models):
        if not is_short(model):
            continue
        draw = Random(f"scripted {name}")
        sweep = Sweep(model, draw)
        begin(file, name, sweep)
        ends(file, sweep)
        stops(file, sweep, draw)
        if place % 3 == 0:
            false_stops(file, sweep, draw)
    file.close()
    return file


# ---- models that were made for a place


def column(name, low, high, cost, cost2, integer=True):
    return Column(name, integer, Fraction(low), Fraction(high), [Fraction(cost), Fraction(cost2)])


def made(columns, rows=()):
    return Model("MIN", ["cost", "cost2"], [Fraction(0), Fraction(0)], list(rows), columns)


def wide_models():
    """Names, models and constants: a number of each kind without room, and the part where it is met."""
    far, half, tall = 10**25, 2**126, 3 * 2**125
    yield "the width of a gap", made([column("X", 0, 1, far, -far)]), (0, 0), "gap", "width"
    yield "a weight of a gap", made([column("W", 1, 1, 0, tall), column("X", 0, 1, 1, -tall), column("Y", 0, 1, 1, -tall)]), (0, 0), "gap", "width"
    yield "the other weight of a gap", made([column("W", 1, 1, -tall, 0), column("X", 0, 1, tall, -1), column("Y", 0, 1, tall, -1)]), (0, 0), "gap", "width"
    yield "the weight times a first cost", made([column("X", 0, 1, 4, -4), column("V", 0, 0, half, 0), column("W", 0, 0, half, half)]), (0, 0), "gap", "col V"
    yield "the weight times a second cost", made([column("X", 0, 1, 4, -4), column("V", 0, 0, 1, -half)]), (0, 0), "gap", "col V"
    yield "the first side of a gap", made([column("W", 2**60, 2**60, 2**60, 0), column("X", 0, 1, 1, -256)]), (0, 0), "gap", "side"
    yield "the second side of a gap", made([column("X", 0, 1, 256, -1), column("W", 2**60, 2**60, 0, -(2**60))]), (0, 0), "gap", "side"
    yield "width before columns and sides", made([column("W", 2**60, 2**60, 2**60, 0), column("V", 0, 0, half, 0), column("X", 0, 1, far, -far)]), (0, 0), "gap", "width"
    yield "columns before sides", made([column("W", 2**60, 2**60, 2**60, 0), column("V", 0, 0, half, 0), column("X", 0, 1, 1, -256)]), (0, 0), "gap", "col V"
    yield "a second gap", made([column("X", 0, 1, 0, 0), column("V", 0, 0, half, 0)] + choice_columns(), [one_of_three()]), (0, 0), "gap", "col V"
    yield "the second value with its constant", made([column("X", 5, 5, 0, 1)]), (0, LARGEST - 3), "least1", "value"
    yield "the first value with its constant", made([column("X", 5, 5, -1, 1)]), (4 - LARGEST, 0), "least1", "value"
    yield "the sum that has room by one", made([column("X", 3, 3, -1, 1)]), (3 - LARGEST, LARGEST - 3), None, None
    yield "the first outcome with its constant", made([column("X", 0, 5, 0, -1)]), (0, 3 - LARGEST), "left", "value"
    yield "the last outcome's second value", made([column("X", 0, 5, 1, -1)]), (0, 3 - LARGEST), "least2", "value"
    yield "the least second value's first value", made([column("X", 0, 5, 1, -1)]), (LARGEST - 3, 0), "least2", "value"
    equal = ModelRow("A", Fraction(0), Fraction(0), {0: Fraction(1), 1: Fraction(-1)})
    yield "a step of a value", made([column("X", 0, 2, half, -1), column("Y", 0, 2, 1 - half, 0)], [equal]), (0, 0), "least2", "value"
    yield "a step of the second value", made([column("X", 2, 2, 1, half), column("Y", 2, 2, 1, -half)]), (0, 0), "least1", "value"


def choice_columns():
    return [column("T", 0, 1, 0, 8), column("U", 0, 1, 1, 1), column("S", 0, 1, 4, 0)]


def one_of_three():
    return ModelRow("A", Fraction(1), Fraction(1), {2: Fraction(1), 3: Fraction(1), 4: Fraction(1)})


def sweep_to(model, constants, part, place, draw):
    """A sweep that ends there, some of whose points are drawn."""
    for _ in range(200):
        sweep = Sweep(model, draw, constants)
        if part is None and sweep.end == "complete":
            return sweep
        if part is not None and sweep.end not in ("complete", "infeasible") and sweep.end[0].startswith(part) and sweep.end[1] == place:
            return sweep
    raise SystemExit(f"no sweep to {part} {place}: {sweep.end}")


def not_whole_models():
    x, y, r = column("X", 0, 2, 1, -1), column("Y", 0, 2, -1, 1), column("R", 0, 2, 0, 0, False)
    yield "a fraction in the first objective", [x, column("V", 0, 1, Fraction(1, 2), 3), y], "1 V"
    yield "a fraction in the second objective", [x, column("V", 0, 1, 3, Fraction(5, 3)), y], "2 V"
    yield "the first objective before the second", [column("U", 0, 1, 1, Fraction(1, 2)), x, column("V", 0, 1, Fraction(1, 7), 1)], "1 V"
    yield "the first column of two", [x, column("U", 0, 1, Fraction(1, 2), 0), column("V", 0, 1, Fraction(1, 2), 0)], "1 U"
    yield "a continuous column with a cost", [x, r, column("V", 0, 1, 0, 2, False)], "2 V"
    yield "a continuous column with a cost before a fraction", [column("V", 0, 1, -1, 0, False), column("U", 0, 1, Fraction(1, 2), 0)], "1 V"


def made_rows(folder):
    file = File(folder, "made-sweeps.rows", ["Sweeps that end at a number without room, at each place where one can, and of objectives that aren't whole."])
    for name, model, constants, part, place in wide_models():
        draw = Random(f"made {name}")
        sweep = sweep_to(model, constants, part, place, draw)
        begin(file, name, sweep)
        ends(file, sweep)
        stops(file, sweep, draw)
    for name, columns, told in not_whole_models():
        model = made(columns)
        lines = ["cert 1", "claim infeasible", "leaf empty", "end"]
        file.row(name, model, [(1, lines), (0, lines)])
        sweep = Sweep(made([column("X", 0, 1, 0, 0)]), Random(name))
        file.front(sweep, 10, "", [f"not whole {told}"] + rest(2))
        file.front(sweep, 0, " stop 1 nodes", [f"not whole {told}"] + rest(2))
    file.close()
    return file


# ---- certificates that aren't accepted


def without_multipliers(line):
    return "leaf bound" if line.startswith("leaf bound ") else "leaf farkas" if line.startswith("leaf farkas ") else line


def changed(draw, solve, others):
    """Certificates made of a solve's, with what was changed."""
    lines, value = solve.lines, solve.value
    yield "another claim", [line.replace("claim optimal", "claim infeasible") if line.startswith("claim") else line for line in lines if not line.startswith("point")]
    if value is not None:
        yield "a smaller value", [f"claim optimal {value - 1}" if line.startswith("claim") else line for line in lines]
        yield "a greater value", [f"claim optimal {value + 1}" if line.startswith("claim") else line for line in lines]
        yield "another point", [draw.choice(others) if line.startswith("point") else line for line in lines]
    yield "no multipliers", [without_multipliers(line) for line in lines]
    head = [line for line in lines if line.split()[0] in ("cert", "claim", "point")]
    yield "an empty leaf", head + ["leaf empty", "end"]
    yield "no end", lines[:-1]
    yield "no tree", head + ["end"]


def wrong_rows(folder):
    head = ["Certificates that aren't accepted for the inner model as it stands: want of memory is told at each solve in turn, and where the", "script has no more solves."]
    file = File(folder, "wrong-certificates.rows", head)
    models = [named(drawn_model(seed)) for seed in range(300)]
    models = [model for model in models if is_short(model) and len(points(model)) > 2][:9]
    for number, model in enumerate(models, 1):
        draw = Random(f"wrong {number}")
        sweep = Sweep(model, draw)
        if sweep.end != "complete" or len(sweep.solves) > 11:
            continue
        wrong_at_each(file, f"model {number}", sweep, draw)
    file.close()
    return file


def wrong_at_each(file, name, sweep, draw):
    good = [(solve.results, solve.lines) for solve in sweep.solves]
    others = [line for solve in sweep.solves for line in solve.lines if line.startswith("point")] + ["point"]
    for place, solve in enumerate(sweep.solves):
        cases = list(changed(draw, solve, others))
        if place > 0:
            cases.append(("the certificate of the part before", sweep.solves[place - 1].lines))
        cases = [(what, lines) for what, lines in cases if not judged(solve.inner, lines).startswith("accepted")]
        for what, lines in draw.sample(cases, min(2, len(cases))):
            file.row(f"{name}, solve {place + 1}, {what}", sweep.model, good[:place] + [(0, lines)] + good[place + 1 : place + 2])
            file.front(sweep, sweep.total() + 5, "", ["no memory", f"left {min(1, len(good) - place - 1)}"])
    file.row(f"{name}, no last solve", sweep.model, good[:-1])
    file.front(sweep, sweep.total(), "", ["no memory", "left 0"])
    behind = sweep.solves[-1]
    file.row(f"{name}, two more solves", sweep.model, good + [(1, behind.lines), (2, ["no certificate"])])
    file.front(sweep, sweep.total(), "", ended(sweep, sweep.total(), 2))


def main(words):
    if len(words) != 1:
        print(__doc__)
        return 2
    files = [made_rows(words[0]), random_rows(words[0]), wrong_rows(words[0])]
    print(f"{sum(file.count for file in files)} sweeps")
    return 0


if __name__ == "__main__":
    sys.exit(main(sys.argv[1:]))
