#!/usr/bin/env python3
"""Writes rows of random events on managers of small searches, for `crates/worked_rows`.

    python3 bench/rows/random_events.py COUNT SEED > crates/worked_rows/data/managers/random-events.rows

and the line `ok managers/random-events.rows: NAME` of each goes into `crates/worked_rows/stdout`. `bench/events` tries many more.

It shares nothing with the solver. The search is that of `random_edits.py` beside it, which is kept through edits; what workers hold, and how results are taken that come in any
order, stands here as docs/TREE_ROWS.md says. Leaves are handed out, worked, and worked for by workers that do not hold them; results come late, twice, and
forged: for leaves that are gone, with lists that name what is not there or prove nothing, with points that are not feasible; workers are lost; and between
all this the model is edited, the tree cut down, and cuts are added, some of which do not derive.
"""
import sys
from fractions import Fraction
from math import floor
from random import Random

from random_edits import Column, Cut, Drawing, Kept, Node, Row
from random_searches import Relaxation, State


class Result:
    """What a worker hands in: `close`, `keep`, or `split` of a column at a number. Lists hold rows, columns and cuts themselves."""

    def __init__(self, kind, multipliers=(), farkas=(), basis=((), ()), point=None, split=None):
        self.kind, self.multipliers, self.farkas, self.basis = kind, list(multipliers), list(farkas), tuple(map(list, basis))
        self.point, self.split = point, split


class Managed(Kept):
    """A search with what each worker holds: the number of a leaf, or None."""

    def __init__(self, columns, rows, workers):
        super().__init__(columns, rows)
        self.held = [None] * workers

    # ---- leaves

    def open_leaf(self, number):
        return next(((leaf, path) for leaf, path in self.leaves() if leaf.number == number and leaf.is_open), None)

    def next_free(self):
        """The open leaf that goes first of those that nobody holds, with its path."""
        free = [(leaf, path, self.proved(path, leaf.multipliers)) for leaf, path in self.leaves() if leaf.is_open and leaf.number not in self.held]
        without = [entry for entry in free if entry[2] is None]
        return without[0][:2] if without else min(free, key=lambda entry: entry[2], default=(None, None))[:2]

    def let_go(self):
        """A leaf that isn't open is held by nobody."""
        self.held = [number if number is not None and self.open_leaf(number) else None for number in self.held]

    def nodes(self):
        def count(node):
            return 1 if node.split is None else 1 + count(node.split[2]) + count(node.split[3])

        return count(self.root)

    # ---- events

    def give(self, worker):
        leaf, path = self.next_free()
        if self.held[worker] is not None or leaf is None:
            return None
        self.held[worker] = leaf.number
        return leaf, path

    def is_listed(self, variables, without_columns):
        known = [*self.rows, *self.cuts] + ([] if without_columns else list(self.columns))
        return len(set(map(id, variables))) == len(variables) and all(any(v is other for other in known) for v in variables)

    def is_refused(self, path, result):
        lists = [([v for v, _ in result.multipliers], True), ([v for v, _ in result.farkas], True), (result.basis[0], False), (result.basis[1], False)]
        if not all(self.is_listed(*entry) for entry in lists):
            return True
        if result.split is not None:
            column, at = result.split
            if column not in self.columns or not column.integer:
                return True
            low, high = self.model().bounds(self.places(path))[self.columns.index(column)]
            return not low <= at < high
        return result.point is not None and not (len(result.point) == len(self.columns) and self.is_feasible(result.point))

    def take(self, worker, number, result):
        taken = self.taken(number, result)
        self.held[worker] = None
        self.let_go()
        return taken

    def taken(self, number, result):
        found = self.open_leaf(number)
        if found is None:
            return "stale"
        leaf, path = found
        if self.is_refused(path, result):
            return "refused"
        if result.kind == "split":
            leaf.multipliers, leaf.basis = dict(result.multipliers), result.basis
            self.split(leaf, path, *result.split)
            return "split"
        if result.kind == "keep":
            leaf.basis = result.basis
            if result.point is not None:
                self.points.append(result.point)
            self.judge()
            return "kept"
        before = leaf.multipliers, leaf.farkas, leaf.basis
        leaf.multipliers, leaf.basis = dict(result.multipliers), result.basis
        if result.point is None:
            leaf.farkas = dict(result.farkas)
        else:
            self.points.append(result.point)
        if not self.closes(leaf, path):
            leaf.multipliers, leaf.farkas, leaf.basis = before
            if result.point is not None:
                self.points.pop()
            return "reopened"
        self.judge()
        return "closed"

    def trim(self, depth):
        """Each split at the depth becomes one leaf with the split's lists, the leftmost one the oldest."""

        def trimmed(node, at):
            if node.split is None:
                return node
            if at == depth:
                self.last += 1
                return Node(self.last, node.multipliers, node.basis)
            column, v, left, right = node.split
            node.split = column, v, trimmed(left, at + 1), trimmed(right, at + 1)
            return node

        self.root = trimmed(self.root, 0)
        self.judge()

    # ---- the work on a leaf

    def worked(self, leaf, path):
        """What a worker without cuts makes of the leaf."""
        variables = [*self.columns, *self.rows]
        state = State(Relaxation(self.model(), self.places(path)))
        assert state.stand_as_wanted()
        end = state.solve(200)
        if end == "pivots":
            return Result("keep")
        basis = tuple([variables[v] for v in those] for those in state.lists())
        named = lambda numbers: [(variables[len(self.columns) + place], y) for place, y in numbers.items()]
        if end != "optimal":
            return Result("close", named(state.multipliers()), named(end), basis)
        point = state.point()
        place = next((j for j, c in enumerate(self.columns) if c.integer and point[j].denominator != 1), None)
        if place is None:
            return Result("close", named(state.multipliers()), (), basis, point)
        if self.is_no_better(self.value(point)):
            return Result("close", named(state.multipliers()), (), basis)
        return Result("split", named(state.multipliers()), (), basis, None, (self.columns[place], floor(point[place])))


class Events(Drawing):
    """A list of events with their answers."""

    def __init__(self, random):
        super().__init__(random)
        self.kept = Managed(self.kept.columns, self.kept.rows, random.choice([1, 2, 2, 3, 3, 5]))
        self.text = model_text(self.kept)
        self.calls, self.old = [f"manager {len(self.kept.held)}"], []

    def call(self, line, answer="ok"):
        self.calls.append(line if answer == "ok" else f"{line} -> {answer}")

    # ---- words

    def word(self, variable):
        """The name of a row or a column, the place of a cut; of one that is gone a place that nothing has."""
        if isinstance(variable, Cut):
            return f"cut#{self.kept.cuts.index(variable) if variable in self.kept.cuts else 99}"
        if isinstance(variable, Row):
            return variable.name if variable in self.kept.rows else "row#99"
        return variable.name if variable in self.kept.columns else "column#99"

    def words(self, result):
        told = result.kind
        if result.split is not None:
            told += f" {self.word(result.split[0])} at {result.split[1]}"
        for key, numbers in (("multipliers", result.multipliers), ("farkas", result.farkas)):
            if numbers:
                told += f" {key}" + "".join(f" {self.word(v)} {y}" for v, y in numbers)
        if result.basis != ([], []):
            told += " basis" + "".join(f" {self.word(v)}" for v in result.basis[0])
            told += " high" + "".join(f" {self.word(v)}" for v in result.basis[1]) if result.basis[1] else ""
        if result.point is not None:
            told += " numbers" + "".join(f" {x}" for x in result.point)
        return told

    # ---- events

    def worker(self):
        return self.random.randrange(len(self.kept.held))

    def number(self):
        return Fraction(self.random.randint(-9, 9), self.random.choice([1, 1, 1, 1, 2]))

    def event(self):
        draws = [self.give] * 9 + [self.hand_in] * 8 + [self.hand_in_for_another] * 3 + [self.repeat] * 3 + [self.forge] * 5
        draws += [self.lose] * 2 + [self.edited] * 2 + [self.trim] + [self.cut] * 2
        self.random.choice(draws)()
        self.call("held", " ".join("none" if number is None else str(number) for number in self.kept.held))
        if self.random.random() < 0.3:
            self.look()

    def look(self):
        leaf = self.kept.next_free()[0]
        self.call("next", "none" if leaf is None else str(leaf.number))
        first, least = self.kept.next(), self.kept.least()
        opened = sum(leaf.is_open for leaf, _ in self.kept.leaves())
        told = f"nodes {self.kept.nodes()} open {opened} points {len(self.kept.points)}"
        told += f" next {first[0].number}" if first else ""
        told += "" if least is None else f" target {least}"
        self.call("stands", told)
        self.call("finished", "no" if first else "yes")

    def give(self):
        worker = self.worker()
        given = self.kept.give(worker)
        if given is None:
            self.call(f"give {worker}", "none")
            return
        leaf, path = given
        region = "".join(f" {column.name} {'..' + str(v) if up else str(v) + '..'}" for column, up, v in path)
        least = self.kept.least()
        self.call(f"give {worker}", f"job {leaf.number}{region} target {'none' if least is None else least}")
        self.old.append((leaf.number, self.kept.worked(leaf, path)))

    def take(self, worker, number, result):
        line = f"take {worker} {number} {self.words(result)}"
        self.call(line, self.kept.take(worker, number, result))
        self.old.append((number, result))

    def hand_in(self):
        """The work on what a worker holds."""
        holding = [worker for worker, number in enumerate(self.kept.held) if number is not None]
        if not holding:
            self.give()
            return
        worker = self.random.choice(holding)
        number = self.kept.held[worker]
        self.take(worker, number, self.kept.worked(*self.kept.open_leaf(number)))

    def hand_in_for_another(self):
        """The work on an open leaf, whoever holds it."""
        opened = [(leaf, path) for leaf, path in self.kept.leaves() if leaf.is_open]
        if opened:
            leaf, path = self.random.choice(opened)
            self.take(self.worker(), leaf.number, self.kept.worked(leaf, path))

    def repeat(self):
        """A result that was made before, for its leaf or for another one."""
        if self.old:
            number, result = self.random.choice(self.old)
            if self.random.random() < 0.2:
                number = self.random.choice(self.old)[0]
            self.take(self.worker(), number, result)

    def multipliers(self):
        known = [*self.kept.rows, *self.kept.cuts]
        chosen = self.random.sample(known, self.random.randint(0, len(known)))
        numbers = [(v, self.number()) for v in chosen]
        numbers = [(v, y) for v, y in numbers if y != 0]
        if numbers and self.random.random() < 0.1:
            numbers.append(self.random.choice(numbers))
        if self.random.random() < 0.07:
            numbers.append((self.random.choice(self.kept.columns), Fraction(1)))
        if self.random.random() < 0.07:
            numbers.append((Row("gone", None, None), Fraction(1)))
        return numbers

    def point(self):
        point = [Fraction(self.random.randint(floor(c.low), floor(c.high) + 1)) for c in self.kept.columns]
        if self.random.random() < 0.1:
            point.pop()
        elif self.random.random() < 0.1:
            point.append(Fraction(0))
        return point

    def forge(self):
        """A result that nobody has worked for."""
        random, kept = self.random, self.kept
        leaves = [leaf.number for leaf, _ in kept.leaves()]
        number = random.choice([*leaves, *leaves, *leaves, random.randint(1, kept.last + 2)])
        basis = random.sample([*kept.columns, *kept.rows], len(kept.rows)), []
        if random.random() < 0.1 and basis[0]:
            basis = basis[0] + basis[0][:1], []
        kind = random.choice(["close", "close", "point", "keep", "keep point", "split", "split"])
        if kind == "close":
            result = Result("close", self.multipliers(), self.multipliers() if random.random() < 0.4 else (), basis)
        elif kind == "point":
            result = Result("close", self.multipliers(), (), basis, self.point())
        elif kind == "keep":
            result = Result("keep", (), (), basis)
        elif kind == "keep point":
            result = Result("keep", (), (), basis, self.point())
        else:
            column = random.choice(kept.columns)
            result = Result("split", self.multipliers(), (), basis, None, (column, random.randint(floor(column.low) - 1, floor(column.high) + 1)))
        self.take(self.worker(), number, result)

    def lose(self):
        worker = self.worker()
        self.kept.held[worker] = None
        self.call(f"lose {worker}")

    def edited(self):
        self.edit()
        self.kept.let_go()
        self.call(f"edit {edit_call(self.script[-1].removeprefix('edit '))}")

    def trim(self):
        depth = self.random.choice([0, 1, 1, 2, 2, 3])
        self.kept.trim(depth)
        self.kept.let_go()
        self.call(f"trim {depth}")

    def cut(self):
        random, kept = self.random, self.kept
        choices = [column for column in kept.columns if column.integer and (column.low, column.high) == (0, 1)]
        if not choices or len(kept.cuts) > 8:
            return
        chosen = [column for column in choices if random.random() < 0.7] or choices[:1]
        row, side = random.choice(kept.rows), random.choice([1, 2, 2])
        cut = Cut(row, side, [(column, column.entries.get(row, 0) * (1 if side == 2 else -1) >= 0 or random.random() < 0.1) for column in chosen])
        literals = "".join(f" {'' if plus else '-'}{column.name}" for column, plus in cut.literals)
        self.call(f"cut {row.name} {'hi' if side == 2 else 'lo'}{literals}", str(len(kept.cuts)))
        kept.cuts.append(cut)


def span(low, high):
    return f"{'' if low in (None, 'none') else low}..{'' if high in (None, 'none') else high}"


def edit_call(line):
    """The words of a script's edit as `model_texts` has them."""
    words = line.split()
    kind, name, rest = words[0], words[1], words[2:]
    if kind == "row":
        low, high = {"both": (rest[1], rest[1]), "hi": ("kept", rest[1]), "lo": (rest[1], "kept")}[rest[0]]
        return f"sides {name} {low} {high}"
    if kind == "bounds":
        return f"bounds {name} {span(*rest)}"
    if kind in ("addrow", "replacerow"):
        return " ".join(["row" if kind == "addrow" else "replace", name, span(*rest[:2]), *rest[2:]])
    if kind in ("delrow", "delcol"):
        return f"delete {'row' if kind == 'delrow' else 'column'} {name}"
    if kind == "addcol":
        return " ".join(["column", name, "integer" if rest[0] == "int" else "real", span(*rest[1:3]), "cost", rest[3], *rest[5:]])
    if kind == "kind":
        return f"kind {name} {'integer' if rest[0] == 'int' else 'real'}"
    return line


def model_text(kept):
    lines = [f"row {row.name} {span(row.low, row.high)}" for row in kept.rows]
    for column in kept.columns:
        entries = "".join(f" {row.name} {column.entries[row]}" for row in kept.rows if column.entries.get(row))
        lines.append(f"column {column.name} integer {span(column.low, column.high)} cost {column.cost}{entries}")
    return lines


def write_row(random, number):
    events = Events(random)
    for _ in range(random.randint(15, 60)):
        events.event()
    events.look()
    print(f"\nrow {number}")
    print("\n".join(["model", *(f"| {line}" for line in events.text), *events.calls]))


def main():
    count, seed = int(sys.argv[1]), int(sys.argv[2])
    random = Random(seed)
    print("# Random events on managers of small searches, by a program with exact fractions.")
    print(f"# Written by: python3 bench/rows/random_events.py {count} {seed}")
    for number in range(1, count + 1):
        write_row(random, number)


if __name__ == "__main__":
    main()
