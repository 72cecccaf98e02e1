#!/usr/bin/env python3
"""Writes rows of random models that are searched, edited and searched on, for `crates/script_rows`.

    python3 bench/rows/random_edits.py COUNT SEED > crates/script_rows/data/random-edits.rows

and the line `ok random-edits.rows: NAME` of each goes into `crates/script_rows/stdout`.

It shares nothing with the solver. Relaxations and covers are those of `random_searches.py` beside it; the search that is kept through
edits stands here, worked out as docs/MANUAL.md says. Its lists hold rows, columns and cuts themselves and not their places, so an edit
moves none of them. Each model has a few columns with two bounds, most of them 0 and 1. Between searches that may stop a row makes one to
three edits of any kind. It wants each answer, and the certificate of the last one that is held, byte for byte, and has the program check
that one over the model that it writes.
"""
import sys
from fractions import Fraction
from math import ceil, floor
from random import Random

import random_searches
from random_searches import ALL, MOST_CUTS, ROUNDS, Relaxation, State

MOST_RESULTS = 150


class Column:
    def __init__(self, name, integer, low, high, cost):
        self.name, self.integer, self.low, self.high, self.cost = name, integer, Fraction(low), Fraction(high), Fraction(cost)
        self.entries = {}


class Row:
    def __init__(self, name, low, high):
        self.name, self.low, self.high = name, low, high


class Cut:
    """The cut of a cover of a row's side (1 its lower one, 2 its upper one): literals (column, is it the column itself)."""

    def __init__(self, row, side, literals):
        self.row, self.side, self.literals = row, side, literals
        self.high = Fraction(len(literals) - 1 - sum(1 for _, plus in literals if not plus))

    def is_row_of(self, other):
        return set(self.literals) == set(other.literals)

    def words(self):
        literals = (("+" if plus else "-") + column.name for column, plus in self.literals)
        return " ".join([self.row.name, "hi" if self.side == 2 else "lo", *literals])


class Node:
    """A leaf, or a split: (column, number, left child, right child)."""

    def __init__(self, number, multipliers, basis):
        self.number, self.multipliers, self.basis = number, multipliers, basis
        self.farkas, self.is_open, self.split = None, True, None


class Stop(Exception):
    pass


class Kept:
    """A model, and the search that is kept with it: a tree, points, and cuts."""

    def __init__(self, columns, rows):
        self.columns, self.rows = columns, rows
        self.begin()

    def begin(self):
        self.cuts, self.points, self.last = [], [], 1
        self.root = Node(1, {}, ([], []))
        self.judge()

    # ---- the model

    def model(self, cuts=()):
        columns = []
        for column in self.columns:
            entries = {place: column.entries[row] for place, row in enumerate(self.rows) if row in column.entries}
            for k, cut in enumerate(cuts):
                entries |= {len(self.rows) + k: Fraction(1 if plus else -1) for other, plus in cut.literals if other is column}
            columns.append(random_searches.Column(column.name, column.integer, column.low, column.high, column.cost, entries))
        rows = [(row.name, row.low, row.high) for row in self.rows] + [(None, None, cut.high) for cut in cuts]
        return random_searches.Model(columns, rows, Fraction(0), len(cuts))

    def counts(self, cut):
        """Does the cut's row forbid, in the model as it stands, that the literals are 1 all together?"""
        side, chosen = cut.row.high if cut.side == 2 else cut.row.low, dict(cut.literals)
        if side is None or not all(column.integer and (column.low, column.high) == (0, 1) for column in chosen):
            return False
        sign, total = 1 if cut.side == 2 else -1, Fraction(0)
        for column in self.columns:
            entry = sign * column.entries.get(cut.row, Fraction(0))
            if column in chosen:
                total += entry if chosen[column] else 0
            else:
                total += entry * (column.low if entry > 0 else column.high)
        return total > sign * side

    def value(self, point):
        return sum((column.cost * x for column, x in zip(self.columns, point)), Fraction(0))

    def numbers(self, point):
        return [f"{column.name} {x}" for column, x in zip(self.columns, point) if x != 0]

    def is_feasible(self, point):
        return self.model().is_feasible(point)

    def least(self):
        return min(map(self.value, self.points), default=None)

    # ---- the tree

    def leaves(self):
        """The leaves with their paths of bound changes (column, is it an upper bound, number), the oldest first."""
        found = []

        def walk(node, path):
            if node.split is None:
                found.append((node, path))
                return
            column, at, left, right = node.split
            walk(left, [*path, (column, True, Fraction(at))])
            walk(right, [*path, (column, False, Fraction(at + 1))])

        walk(self.root, [])
        return sorted(found, key=lambda pair: pair[0].number)

    def places(self, path):
        return [(self.columns.index(column), is_upper, v) for column, is_upper, v in path]

    def is_empty(self, path):
        return self.model().is_empty(self.places(path))

    def proved(self, path, multipliers, costs=True):
        """What multipliers prove of the region, those of cuts that count no more being 0: a number, or None."""
        cuts = [key for key in multipliers if isinstance(key, Cut) and self.counts(key)]
        place = {key: k for k, key in enumerate(self.rows + cuts)}
        counting = {place[key]: y for key, y in multipliers.items() if key in place}
        return self.model(cuts).proved(self.places(path), counting, costs)

    def is_no_better(self, number):
        least = self.least()
        if number is None or least is None:
            return False
        return number >= least or (self.model().is_whole() and ceil(number) >= least)

    def is_refuted(self, leaf, path):
        return bool(leaf.farkas) and (self.proved(path, leaf.farkas, costs=False) or 0) > 0

    def closes(self, leaf, path):
        return self.is_empty(path) or self.is_refuted(leaf, path) or self.is_no_better(self.proved(path, leaf.multipliers))

    def judge(self):
        for leaf, path in self.leaves():
            leaf.is_open = not self.closes(leaf, path)

    def next(self):
        """The open leaf with the least number, and of equals the oldest; one without a number comes first. With its path and number."""
        numbered = [(leaf, path, self.proved(path, leaf.multipliers)) for leaf, path in self.leaves() if leaf.is_open]
        without = [entry for entry in numbered if entry[2] is None]
        return without[0] if without else min(numbered, key=lambda entry: entry[2], default=None)

    # ---- the search

    def known(self):
        number, least = self.next()[2], self.least()
        if number is not None and self.model().is_whole():
            number = ceil(number)
        told = lambda x: "none" if x is None else x
        return f"bound {told(number)} best {told(least)}"

    def search_on(self, nodes=ALL, pivots=ALL):
        """Works open leaves up to the limits. The lines of the answer, and those of its certificate where one is held."""
        placed = 0
        try:
            while self.next() is not None:
                if placed == nodes:
                    raise Stop([f"stopped nodes {placed} {self.known()}"])
                self.work(*self.next()[:2], pivots, placed)
                placed += 1
                if placed > MOST_RESULTS:
                    return None
        except Stop as stop:
            return stop.args[0], None
        if not self.points:
            return [f"infeasible nodes {placed}"], self.certificate(None)
        best = min(self.points, key=self.value)
        lines = [f"optimal {self.least()} nodes {placed}", *(f"x {number}" for number in self.numbers(best)), "end"]
        return lines, self.certificate(best)

    def stop_in_moves(self, state, path, cuts, placed):
        place = "".join(f" {'<=' if up else '>='} {column.name} {v}" for column, up, v in path)
        lists = ["".join(f" {state.relaxation.model.word(v)}" for v in variables) for variables in state.lists()]
        block = [f"cut {k} {cut.words()}" for k, cut in enumerate(cuts, 1)]
        block += [f"path{place}", f"basis{lists[0]}", f"high{lists[1]}", "end"]
        raise Stop([f"stopped pivots {placed} {self.known()}", *block])

    def work(self, leaf, path, pivots, placed):
        """Places the result of a leaf, after rounds with new cuts."""
        cuts, further, made = [cut for cut in self.cuts if self.counts(cut)][:MOST_CUTS], None, 0
        root = State(Relaxation(self.model()))
        assert root.stand_as_wanted()
        first = root.lists()
        while True:
            variables = [*self.columns, *self.rows, *cuts]
            activities = range(len(self.columns) + len(self.rows), len(variables))
            state = State(Relaxation(self.model(cuts), self.places(path)))
            basic, high = further or ([variables.index(v) if v in variables else -1 for v in those] for those in leaf.basis)
            if -1 in basic or not (state.bring_in(basic) and state.stand(high)):
                assert state.bring_in(first[0] + list(activities)) and state.stand(first[1])
            end = state.solve(pivots)
            basis = tuple([variables[v] for v in those] for those in state.lists())
            if end == "pivots":
                leaf.basis = basis
                self.stop_in_moves(state, path, cuts, placed)
            if end != "optimal":
                break
            point = state.point()
            split = next((j for j, c in enumerate(self.columns) if c.integer and point[j].denominator != 1), None)
            if split is None or made == ROUNDS or not self.add_covers(cuts, point):
                break
            basic, high = state.lists()
            further = basic + list(range(len(variables), len(variables) + len(cuts) - len(activities))), high
            made += 1
        named = lambda numbers: {variables[len(self.columns) + place]: y for place, y in numbers.items()}
        leaf.multipliers, leaf.basis = named(state.multipliers()), basis
        if end != "optimal":
            leaf.farkas, leaf.is_open = named(end), False
            assert self.is_refuted(leaf, path)
            return
        assert self.proved(path, leaf.multipliers) == self.value(point)
        if split is None:
            # the leaf keeps the Farkas multipliers that it had
            assert self.is_feasible(point)
            self.points.append(point)
            self.judge()
            assert not leaf.is_open
        elif self.is_no_better(self.value(point)):
            leaf.farkas, leaf.is_open = None, False
        else:
            self.split(leaf, path, self.columns[split], floor(point[split]))

    def add_covers(self, cuts, point):
        """Adds the covers whose row no cut of the relaxation has, and answers whether there was one."""
        before = len(cuts)
        for cover in self.model().covers(point):
            cut = Cut(self.rows[cover.row], cover.side, [(self.columns[place], plus) for place, plus in cover.literals])
            assert self.counts(cut)
            if len(cuts) < MOST_CUTS and not any(cut.is_row_of(other) for other in cuts):
                cuts.append(cut)
                self.cuts.append(cut)
        return len(cuts) > before

    def split(self, leaf, path, column, at):
        children = [Node(self.last + k, leaf.multipliers, leaf.basis) for k in (1, 2)]
        self.last += 2
        leaf.split = column, at, *children
        for child, change in zip(children, [(column, True, Fraction(at)), (column, False, Fraction(at + 1))]):
            child.is_open = not self.closes(child, [*path, change])

    # ---- its certificate

    def certificate(self, best):
        told = []

        def walk(node, path):
            if node.split is not None:
                column, at, left, right = node.split
                told.append((f"split {column.name} {at}", {}))
                walk(left, [*path, (column, True, Fraction(at))])
                walk(right, [*path, (column, False, Fraction(at + 1))])
            elif self.is_empty(path):
                told.append(("leaf empty", {}))
            else:
                told.append(("leaf farkas", node.farkas) if self.is_refuted(node, path) else ("leaf bound", node.multipliers))

        walk(self.root, [])
        named = {key for _, multipliers in told for key in multipliers if isinstance(key, Cut) and self.counts(key)}
        used = [cut for cut in self.cuts if cut in named]
        word = lambda key: f"row {key.name}" if isinstance(key, Row) else f"cut {used.index(key) + 1}"
        lines = ["cert 1", "claim infeasible"]
        if best is not None:
            lines = ["cert 1", f"claim optimal {self.value(best)}", " ".join(["point", *self.numbers(best)])]
        lines += [f"cut {cut.words()}" for cut in used]
        for line, multipliers in told:
            counting = [f" {word(key)} {y}" for key, y in multipliers.items() if isinstance(key, Row) or key in used]
            lines.append(line + "".join(counting))
        return [*lines, "end"]

    # ---- edits

    def each_node(self, change):
        """Puts what the change makes of it in the place of each node, children first."""

        def walk(node):
            if node.split is not None:
                column, at, left, right = node.split
                node.split = column, at, walk(left), walk(right)
            return change(node)

        self.root = walk(self.root)

    def forget(self, thing):
        """Takes a row or a column, and the cuts of it, out of every list."""
        of_it = lambda cut: cut.row is thing or thing in dict(cut.literals)
        is_gone = lambda key: key is thing or (isinstance(key, Cut) and of_it(key))
        left = lambda multipliers: {key: y for key, y in multipliers.items() if not is_gone(key)}
        self.cuts = [cut for cut in self.cuts if not of_it(cut)]

        def change(node):
            node.multipliers, node.farkas = left(node.multipliers), left(node.farkas or {})
            node.basis = tuple([key for key in those if not is_gone(key)] for those in node.basis)
            return node

        self.each_node(change)

    def follow(self):
        self.points = [point for point in self.points if self.is_feasible(point)]
        self.judge()

    def delete_row(self, row):
        self.forget(row)
        self.rows.remove(row)
        for column in self.columns:
            column.entries.pop(row, None)

    def delete_column(self, column):
        """A split on it gives way to the side where it may be 0, and each point loses its number."""
        place = self.columns.index(column)

        def side_of(node):
            if node.split is None or node.split[0] is not column:
                return node
            return node.split[2] if node.split[1] >= 0 else node.split[3]

        self.each_node(side_of)
        self.forget(column)
        self.columns.remove(column)
        self.points = [point[:place] + point[place + 1 :] for point in self.points]

    def add_column(self, column):
        """Each point gets the number nearest to 0 that the column may have."""
        self.columns.append(column)
        self.points = [[*point, min(max(Fraction(0), column.low), column.high)] for point in self.points]

    def make_continuous(self, column):
        """Each split on it becomes one open leaf with the split's lists, the leftmost one the oldest."""
        column.integer = False

        def merged(node):
            if node.split is None:
                return node
            if node.split[0] is column:
                self.last += 1
                return Node(self.last, node.multipliers, node.basis)
            other, at, left, right = node.split
            node.split = other, at, merged(left), merged(right)
            return node

        self.root = merged(self.root)


class Drawing:
    """A script over a model, edit by edit and search by search, with its replies."""

    def __init__(self, random):
        self.random, self.named = random, 0
        self.kept = Kept(*draw_model(random))
        self.text = text_of(self.kept)
        self.script, self.replies, self.status = ["load T"], ["ok"], 0
        self.certificate = self.last_certificate = None

    def fresh(self, letter):
        self.named += 1
        return f"{letter}{self.named}"

    def number(self):
        return Fraction(self.random.randint(-9, 9), self.random.choice([1, 1, 1, 1, 2]))

    def search(self, word, limits):
        """Makes a search. False: it places too many results."""
        if word == "solve":
            self.kept.begin()
        answer = self.kept.search_on(**dict(limits))
        if answer is None:
            return False
        lines, self.last_certificate = answer
        self.script += [" ".join([word, *(f"{name} {limit}" for name, limit in limits)]), "cert F"]
        self.replies += [*lines, "ok" if self.last_certificate else "error 13 no finished answer"]
        if self.last_certificate:
            self.certificate = self.last_certificate
        else:
            self.status = 1
        return True

    def edit(self):
        draws = [self.cost, self.side, self.side, self.side, self.bounds, self.bounds, self.add_row, self.replace_row]
        draws += [self.delete_row, self.delete_column, self.add_column, self.kind, self.kind]
        line = None
        while line is None:
            line = self.random.choice(draws)()
        self.kept.follow()
        self.script.append(f"edit {line}")
        self.replies.append("ok")

    def cost(self):
        column = self.random.choice(self.kept.columns)
        column.cost = self.number()
        return f"cost {column.name} {column.cost}"

    def side(self):
        row, step = self.random.choice(self.kept.rows), self.random.choice([-3, -2, -1, Fraction(1, 2), 1, 2, 4])
        if row.low is not None and row.high is not None:
            row.low = row.high = row.high + step
            return f"row {row.name} both {row.high}"
        if row.high is not None:
            row.high += step
            return f"row {row.name} hi {row.high}"
        row.low += step
        return f"row {row.name} lo {row.low}"

    def bounds(self):
        column = self.random.choice(self.kept.columns)
        half, third = Fraction(1, 2), Fraction(1, 3)
        pairs = [(0, 1), (0, 1), (0, 1), (0, 2), (1, 1), (0, 0), (half, 3 * half), (-1, 1), (third, 2 * third)]
        column.low, column.high = map(Fraction, self.random.choice(pairs))
        return f"bounds {column.name} {column.low} {column.high}"

    def sides_and_entries(self, row):
        """Draws them, and tells them."""
        row.low, row.high = None, Fraction(self.random.randint(0, 12))
        if self.random.random() < 0.3:
            row.low, row.high = Fraction(-self.random.randint(0, 6)), None
        line = " ".join("none" if side is None else str(side) for side in (row.low, row.high))
        for column in self.kept.columns:
            column.entries.pop(row, None)
            entry = Fraction(self.random.randint(1, 9)) if self.random.random() < 0.7 else self.number()
            if entry != 0 and self.random.random() < 0.7:
                column.entries[row] = entry
                line += f" {column.name} {entry}"
        return line

    def add_row(self):
        if len(self.kept.rows) > 5:
            return None
        row = Row(self.fresh("N"), None, None)
        self.kept.rows.append(row)
        return f"addrow {row.name} {self.sides_and_entries(row)}"

    def replace_row(self):
        row = self.random.choice(self.kept.rows)
        return f"replacerow {row.name} {self.sides_and_entries(row)}"

    def delete_row(self):
        if len(self.kept.rows) < 2:
            return None
        row = self.random.choice(self.kept.rows)
        self.kept.delete_row(row)
        return f"delrow {row.name}"

    def delete_column(self):
        if len(self.kept.columns) < 4:
            return None
        column = self.random.choice(self.kept.columns)
        self.kept.delete_column(column)
        return f"delcol {column.name}"

    def add_column(self):
        if len(self.kept.columns) > 6:
            return None
        low, high = self.random.choice([(0, 1), (0, 1), (0, 2), (1, 2), (-2, -1)])
        column = Column(self.fresh("Y"), self.random.random() < 0.85, low, high, self.number())
        line = f"addcol {column.name} {'int' if column.integer else 'cont'} {low} {high} {column.cost} 0"
        for row in self.kept.rows:
            entry = self.number()
            if entry != 0 and self.random.random() < 0.7:
                column.entries[row] = entry
                line += f" {row.name} {entry}"
        self.kept.add_column(column)
        return line

    def kind(self):
        column = self.random.choice(self.kept.columns)
        if column.integer:
            self.kept.make_continuous(column)
            return f"kind {column.name} cont"
        column.integer = True
        return f"kind {column.name} int"

    def limits(self):
        drawn = []
        if self.random.random() < 0.35:
            drawn.append(("nodes", self.random.choice([0, 1, 2, 3, 5])))
        if self.random.random() < 0.2:
            drawn.append(("pivots", self.random.choice([0, 1, 2, 3, 4])))
        return drawn


def draw_model(random):
    """Columns and rows; most rows forbid that all columns are 1."""
    bounds = [(0, 1)] * 7 + [(0, 2), (-1, 1)]
    columns = [Column(f"X{j}", True, *random.choice(bounds), random.randint(-9, 9)) for j in range(random.randint(3, 6))]
    rows = []
    for i in range(random.randint(1, 4)):
        row, kind, near, most = Row(f"R{i}", None, None), random.choice("LLLLGE"), Fraction(0), Fraction(0)
        for column in columns:
            if random.random() < 0.85:
                entry = Fraction(random.randint(1, 9)) * (1 if random.random() < 0.75 else -1)
                column.entries[row] = entry
                near += entry * random.randint(int(column.low), int(column.high))
                most += entry * (column.high if entry > 0 else column.low)
        side = random.choice([near, Fraction(int(most * 2 / 3)), Fraction(int(most / 2))])
        side += random.choice([0, 0, 1, -1, Fraction(1, 2)])
        row.low = None if kind == "L" else near - 1 if kind == "G" else side
        row.high = None if kind == "G" else side
        rows.append(row)
    return columns, rows


def text_of(kept):
    """The file of the model, whose columns are integer."""
    kind = lambda row: "G" if row.high is None else "L" if row.low is None else "E"
    lines = ["ROWS", " N C", *(f" {kind(row)} {row.name}" for row in kept.rows), "COLUMNS", " M 'MARKER' 'INTORG'"]
    for column in kept.columns:
        lines.append(f" {column.name} C {column.cost}")
        lines += [f" {column.name} {row.name} {entry}" for row, entry in column.entries.items()]
    lines += [" M 'MARKER' 'INTEND'", "RHS"]
    lines += [f" {row.name} {row.low if row.high is None else row.high}" for row in kept.rows] + ["BOUNDS"]
    for column in kept.columns:
        lines += [f" LI {column.name} {column.low}", f" UI {column.name} {column.high}"]
    return [*lines, "ENDATA"]


def draw_row(random):
    """A script in which cuts are found, mostly. None: it places too many results."""
    drawing, has_cuts = Drawing(random), False
    if not drawing.search("solve", drawing.limits()):
        return None
    for _ in range(random.randint(3, 7)):
        for _ in range(random.choice([1, 1, 1, 2, 3])):
            drawing.edit()
        if not drawing.search("solve" if random.random() < 0.07 else "warm", drawing.limits()):
            return None
        has_cuts = has_cuts or bool(drawing.kept.cuts)
    return drawing if has_cuts or random.random() < 0.2 else None


def write_row(random, number):
    drawing = None
    while drawing is None:
        drawing = draw_row(random)
    print(f"\nrow {number}")
    print("\n".join(["file T", *(f"| {line}" for line in drawing.text)]))
    print("\n".join(["script", *(f"| {line}" for line in drawing.script), "| write W"]))
    print("\n".join(["replies", *(f"| {line}" for line in drawing.replies), "| ok", f"status {drawing.status}"]))
    if drawing.certificate is None:
        print("lacks F")
        return
    print("\n".join(["keeps F", *(f"| {line}" for line in drawing.certificate)]))
    if drawing.last_certificate is not None:
        claim = drawing.certificate[1].removeprefix("claim ")
        print(f"words check W F\nscript\nreplies\n| accepted {claim}\nstatus 0")


def main():
    count, seed = int(sys.argv[1]), int(sys.argv[2])
    random = Random(seed)
    print("# Random models searched, edited and searched on, by a program with exact fractions.")
    print(f"# Written by: python3 bench/rows/random_edits.py {count} {seed}")
    for number in range(1, count + 1):
        write_row(random, number)


if __name__ == "__main__":
    main()
