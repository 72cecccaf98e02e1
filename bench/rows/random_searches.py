#!/usr/bin/env python3
"""Writes rows of random models with what scripts over them are answered, for `crates/script_rows`.

    python3 bench/rows/random_searches.py COUNT SEED > crates/script_rows/data/random.rows

and the line `ok random.rows: NAME` of each goes into `crates/script_rows/stdout`. Another COUNT or SEED gives other rows.

It shares nothing with the solver. It searches by the rules of docs/MANUAL.md and docs/DEFINITIONS.md in Python's fractions, which
have no width, with tables made anew by plain elimination and in the plainest way throughout. Where it answers it looks whether
the answer is right: a leaf's number is the value of its relaxation, and each closed leaf is closed by its own number. Of each cut
it looks whether a point that it knows to be feasible breaks it.

Each row solves a model to the end and with three limits, in any order, wants each stop with its block, writes the certificate of
an answer that is held, wants it byte for byte, and has the program check it.
"""
import sys
from fractions import Fraction
from math import ceil, floor
from random import Random

ALL = 2**64 - 1
MOST_RESULTS = 60
ROUNDS, MOST_COVERS, MOST_CUTS = 5, 20, 200


class Column:
    def __init__(self, name, integer, low, high, cost, entries):
        self.name, self.integer, self.low, self.high, self.cost, self.entries = name, integer, low, high, cost, entries


class Cut:
    """A cover of a row's side (1 its lower one, 2 its upper one): literals (place, is it the column itself)."""

    def __init__(self, row, side, literals):
        self.row, self.side, self.literals = row, side, literals
        self.high = Fraction(len(literals) - 1 - sum(1 for _, plus in literals if not plus))
        self.entries = {place: Fraction(1 if plus else -1) for place, plus in literals}

    def is_row_of(self, other):
        return self.entries == other.entries and self.high == other.high

    def sum_at(self, point):
        return sum(point[place] if plus else 1 - point[place] for place, plus in self.literals)

    def words(self, model):
        literals = (("+" if plus else "-") + model.columns[place].name for place, plus in self.literals)
        return " ".join([model.rows[self.row][0], "hi" if self.side == 2 else "lo", *literals])


class Model:
    """Columns, rows as (name, low, high), and the objective's constant. The last rows may be those of cuts."""

    def __init__(self, columns, rows, constant, cuts=0):
        self.columns, self.rows, self.constant = columns, rows, constant
        self.size = len(columns) + len(rows)
        self.own_rows = len(rows) - cuts

    def word(self, variable):
        place = variable - len(self.columns)
        if place < 0:
            return f"col {self.columns[variable].name}"
        return f"row {self.rows[place][0]}" if place < self.own_rows else f"cut {place - self.own_rows + 1}"

    def with_cuts(self, cuts):
        columns = []
        for place, c in enumerate(self.columns):
            more = {len(self.rows) + k: cut.entries[place] for k, cut in enumerate(cuts) if place in cut.entries}
            columns.append(Column(c.name, c.integer, c.low, c.high, c.cost, c.entries | more))
        return Model(columns, self.rows + [(None, None, cut.high) for cut in cuts], self.constant, len(cuts))

    def holds(self, cut):
        """Does the side of the row forbid that the literals are 1 all together?"""
        chosen, total = dict(cut.literals), Fraction(0)
        sign = 1 if cut.side == 2 else -1
        for place, column in enumerate(self.columns):
            entry = sign * column.entries.get(cut.row, Fraction(0))
            if place in chosen:
                total += entry if chosen[place] else 0
            elif entry != 0:
                least = column.low if entry > 0 else column.high
                if least is None:
                    return False
                total += entry * least
        return bool(chosen) and total > sign * self.rows[cut.row][cut.side]

    def covers(self, point):
        """The greedy covers that a point breaks: of each row, and its upper side before the lower one."""
        found = []
        for row in range(self.own_rows):
            for side in (2, 1):
                if self.rows[row][side] is None or len(found) == MOST_COVERS:
                    continue
                gaps, is_plus = [], {}
                for place, column in enumerate(self.columns):
                    entry = column.entries.get(row, Fraction(0)) * (1 if side == 2 else -1)
                    if entry != 0 and column.integer and (column.low, column.high) == (0, 1):
                        is_plus[place] = entry > 0
                        gaps.append((1 - point[place] if entry > 0 else point[place], place))
                cover = lambda places: Cut(row, side, [(place, is_plus[place]) for place in sorted(places)])
                taken = []
                for _, place in sorted(gaps):
                    if self.holds(cover(taken)):
                        break
                    taken.append(place)
                if not self.holds(cover(taken)):
                    continue
                for place in list(taken):
                    rest = [other for other in taken if other != place]
                    if self.holds(cover(rest)):
                        taken = rest
                if cover(taken).sum_at(point) > len(taken) - 1:
                    found.append(cover(taken))
        return found

    def value(self, point):
        return self.constant + sum(column.cost * x for column, x in zip(self.columns, point))

    def numbers(self, point):
        """The numbers that are not 0, behind the names of their columns."""
        return [f"{column.name} {x}" for column, x in zip(self.columns, point) if x != 0]

    def sums(self, point):
        return [sum(c.entries.get(place, 0) * x for c, x in zip(self.columns, point)) for place in range(len(self.rows))]

    def is_feasible(self, point):
        sides = [(column.low, column.high) for column in self.columns] + [row[1:] for row in self.rows]
        numbers = [*point, *self.sums(point)]
        within = all((low is None or low <= x) and (high is None or x <= high) for (low, high), x in zip(sides, numbers))
        return within and all(not column.integer or x.denominator == 1 for column, x in zip(self.columns, point))

    def is_ray(self, direction):
        """Is no integer column moved, no bound and no side passed however far one goes, and does the objective fall?"""
        sides = [(column.low, column.high) for column in self.columns] + [row[1:] for row in self.rows]
        numbers = [*direction, *self.sums(direction)]
        kept = all((low is None or x >= 0) and (high is None or x <= 0) for (low, high), x in zip(sides, numbers))
        still = all(not column.integer or x == 0 for column, x in zip(self.columns, direction))
        return kept and still and sum(column.cost * x for column, x in zip(self.columns, direction)) < 0

    def is_whole(self):
        """Is the objective whole at each point whose integer columns are?"""
        costs = all(c.cost == 0 or (c.integer and c.cost.denominator == 1) for c in self.columns)
        return costs and self.constant.denominator == 1

    def bounds(self, path):
        """The columns' bounds in the region of the bound changes (place, is it an upper bound, number)."""
        bounds = []
        for place, column in enumerate(self.columns):
            low, high = column.low, column.high
            if column.integer:
                low, high = Fraction(ceil(low)), Fraction(floor(high))
                low = max([low] + [v for at, is_upper, v in path if at == place and not is_upper])
                high = min([high] + [v for at, is_upper, v in path if at == place and is_upper])
            bounds.append((low, high))
        return bounds

    def is_empty(self, path):
        return any(low is not None and high is not None and high < low for low, high in self.bounds(path))

    def proved(self, path, multipliers, costs=True):
        """What multipliers of rows prove of the region: a number that no value is below, or None."""
        total = self.constant if costs else Fraction(0)
        for place, y in multipliers.items():
            side = self.rows[place][1 if y > 0 else 2]
            if side is None:
                return None
            total += y * side
        for column, (low, high) in zip(self.columns, self.bounds(path)):
            left = (column.cost if costs else 0) - sum(y * column.entries.get(i, 0) for i, y in multipliers.items())
            bound = low if left > 0 else high
            if left != 0 and bound is None:
                return None
            total += left * bound if left != 0 else 0
        return total


class Relaxation:
    """Sides, costs, and the signs of the perturbation, of the columns and then of the rows' activities."""

    def __init__(self, model, path=(), directions=False, own_costs=True):
        self.model = model
        sides = [(column.low, column.high) for column in model.columns] + [row[1:] for row in model.rows]
        self.signs = [1 if low is not None else -1 if high is not None else 0 for low, high in sides]
        self.order = list(range(model.size))
        self.sides = model.bounds(path) + [row[1:] for row in model.rows]
        if directions:
            free = [v for v in self.order if sides[v] == (None, None)]
            self.signs = [1 if v in free else sign for v, sign in enumerate(self.signs)]
            self.order = [v for v in self.order if v not in free] + free
            self.sides = [(None if low is None else 0, None if high is None else 0) for low, high in sides]
            for place, column in enumerate(model.columns):
                low, high = self.sides[place]
                if not column.integer:
                    self.sides[place] = (-1 if low is None else 0, 1 if high is None else 0)
        self.costs = [column.cost if own_costs else 0 for column in model.columns] + [0] * len(model.rows)


class State:
    """A basis with its table, and where the nonbasic variables stand."""

    def __init__(self, relaxation):
        self.relaxation = relaxation
        columns, rows = relaxation.model.columns, relaxation.model.rows
        self.basic = [len(columns) + place for place in range(len(rows))]
        self.stands = {}
        self.make_table()

    def make_table(self):
        """Each basic variable by the nonbasic ones: solves activity - sum of coefficient * column = 0 for the basic ones."""
        model = self.relaxation.model
        columns = len(model.columns)
        lines = []
        for place in range(len(model.rows)):
            line = [-column.entries.get(place, Fraction(0)) for column in model.columns]
            line += [Fraction(int(i == place)) for i in range(len(model.rows))]
            lines.append(line)
        for k, variable in enumerate(self.basic):
            at = next(i for i in range(k, len(lines)) if lines[i][variable] != 0)
            lines[k], lines[at] = lines[at], lines[k]
            lines[k] = [x / lines[k][variable] for x in lines[k]]
            for i in range(len(lines)):
                if i != k and lines[i][variable] != 0:
                    lines[i] = [x - lines[i][variable] * y for x, y in zip(lines[i], lines[k])]
        self.nonbasic = [v for v in range(columns + len(lines)) if v not in self.basic]
        self.table = {b: {k: -line[k] for k in self.nonbasic} for b, line in zip(self.basic, lines)}

    def exchange(self, leaving, entering):
        self.basic = sorted([v for v in self.basic if v != leaving] + [entering])
        self.make_table()

    def perturbed_cost(self, k):
        """The reduced cost of a nonbasic variable, and behind it its parts by the perturbation's order."""
        relaxation, table = self.relaxation, self.table
        parts = [relaxation.costs[k] + sum(relaxation.costs[b] * table[b][k] for b in self.basic)]
        for v in relaxation.order:
            entry = 1 if v == k else table[v][k] if v in table else 0
            parts.append(relaxation.signs[v] * entry)
        return parts

    def wanted(self, k):
        """Where the perturbed cost wants a nonbasic variable, or None where it has no such side."""
        first = next((part for part in self.perturbed_cost(k) if part != 0), 0)
        low, high = self.relaxation.sides[k]
        if first == 0:
            return "free" if low is None and high is None else None
        side = low if first > 0 else high
        return None if side is None else "low" if first > 0 else "high"

    def stand(self, high):
        """Lets the nonbasic variables stand as a list says. Does their perturbed cost want it so?"""
        for k in self.nonbasic:
            sides = self.relaxation.sides[k]
            self.stands[k] = "high" if k in high else "free" if sides == (None, None) else "low"
        return all(self.wanted(k) == self.stands[k] for k in self.nonbasic)

    def stand_as_wanted(self):
        self.stands = {k: self.wanted(k) for k in self.nonbasic}
        return None not in self.stands.values()

    def bring_in(self, wanted):
        """Exchanges until the wanted variables are basic, if they are a basis."""
        if len(wanted) != len(self.basic):
            return False
        while True:
            entering = next((v for v in wanted if v not in self.basic), None)
            if entering is None:
                return True
            leaving = next((b for b in self.basic if b not in wanted and self.table[b][entering] != 0), None)
            if leaving is None:
                return False
            self.exchange(leaving, entering)

    def number(self, v):
        if v in self.table:
            return sum(entry * self.number(k) for k, entry in self.table[v].items())
        low, high = self.relaxation.sides[v]
        return {"low": low, "high": high, "free": 0}[self.stands[v]]

    def point(self):
        return [self.number(v) for v in range(len(self.relaxation.model.columns))]

    def outside(self):
        """The first basic variable outside its sides, and the side."""
        for b in self.basic:
            low, high = self.relaxation.sides[b]
            if low is not None and self.number(b) < low:
                return b, "low"
            if high is not None and high < self.number(b):
                return b, "high"
        return None

    def entering(self, leaving, side):
        """The variable that may enter and has the least perturbed cost by entry; the first of equals."""
        best = None
        for k in self.nonbasic:
            entry = self.table[leaving][k]
            back = entry if side == "low" else -entry
            moves = {"free": entry != 0, "low": back > 0, "high": back < 0}[self.stands[k]]
            if moves:
                ratio = [part / entry for part in self.perturbed_cost(k)]
                first = next((part for part in ratio if part != 0), 1)
                ratio = [abs(part) if part == 0 else part * (1 if first > 0 else -1) for part in ratio]
                if best is None or ratio < best[0]:
                    best = ratio, k
        return None if best is None else best[1]

    def lists(self):
        return list(self.basic), [k for k in self.nonbasic if self.stands[k] == "high"]

    def solve(self, pivots):
        """`optimal`, `pivots`, or the multipliers by which nothing is feasible."""
        moves = 0
        while True:
            found = self.outside()
            if found is None:
                return "optimal"
            if moves == pivots:
                return "pivots"
            leaving, side = found
            entering = self.entering(leaving, side)
            if entering is None:
                return self.farkas(leaving, side)
            self.exchange(leaving, entering)
            del self.stands[entering]
            self.stands[leaving] = side
            moves += 1

    def of_rows(self, numbers):
        columns = len(self.relaxation.model.columns)
        return {v - columns: x for v, x in sorted(numbers.items()) if v >= columns and x != 0}

    def farkas(self, leaving, side):
        sign = 1 if side == "low" else -1
        return self.of_rows({leaving: sign} | {k: -sign * entry for k, entry in self.table[leaving].items()})

    def multipliers(self):
        return self.of_rows({k: self.perturbed_cost(k)[0] for k in self.nonbasic})


class Stop(Exception):
    """A search that ends before no leaf is open: its lines, and those of the certificate where one is held."""

    def __init__(self, lines, certificate=None):
        super().__init__()
        self.lines, self.certificate = lines, certificate


class Leaf:
    def __init__(self, path, multipliers, basis):
        self.path, self.multipliers, self.basis, self.farkas = path, multipliers, basis, None
        self.is_open = True
        self.children = None


class Search:
    def __init__(self, model, nodes=ALL, pivots=ALL):
        self.model, self.nodes, self.pivots = model, nodes, pivots
        self.cuts, self.form = [], model
        self.root = Leaf((), {}, ([], []))
        self.leaves, self.points, self.placed = [self.root], [], 0

    def least(self):
        return min(map(self.model.value, self.points), default=None)

    def closes(self, leaf):
        model = self.model
        if model.is_empty(leaf.path):
            return True
        if leaf.farkas and (self.form.proved(leaf.path, leaf.farkas, costs=False) or 0) > 0:
            return True
        return self.is_no_better(self.form.proved(leaf.path, leaf.multipliers))

    def is_no_better(self, number):
        least = self.least()
        if number is None or least is None:
            return False
        return number >= least or (self.model.is_whole() and ceil(number) >= least)

    def judge(self):
        for leaf in self.leaves:
            leaf.is_open = not self.closes(leaf)

    def next(self):
        """The open leaf with the least number, and of equals the oldest; one without a number comes first."""
        numbered = [(self.form.proved(leaf.path, leaf.multipliers), leaf) for leaf in self.leaves if leaf.is_open]
        without = [leaf for number, leaf in numbered if number is None]
        return without[0] if without else min(numbered, key=lambda pair: pair[0], default=(None, None))[1]

    def known(self):
        leaf = self.next()
        number = self.form.proved(leaf.path, leaf.multipliers)
        if number is not None and self.model.is_whole():
            number = ceil(number)
        told = lambda x: "none" if x is None else x
        return f"{self.placed} bound {told(number)} best {told(self.least())}"

    def stop_in_moves(self, path, basis, cuts=()):
        place = " ray"
        if path is not None:
            place = "".join(f" {'<=' if up else '>='} {self.model.columns[at].name} {v}" for at, up, v in path)
        lists = ["".join(f" {self.form.word(v)}" for v in variables) for variables in basis]
        block = [f"cut {k} {cut.words(self.model)}" for k, cut in enumerate(cuts, 1)]
        block += [f"path{place}", f"basis{lists[0]}", f"high{lists[1]}", "end"]
        raise Stop([f"stopped pivots {self.known()}", *block])

    def direction(self, own_costs):
        """The direction along which the costs fall for ever, if there is one. And the basis in which the ray phase ends."""
        state = State(Relaxation(self.model, directions=True, own_costs=own_costs))
        assert state.stand_as_wanted()
        end = state.solve(self.pivots)
        if end == "pivots":
            self.stop_in_moves(None, state.lists())
        assert end == "optimal"
        basic, high = state.lists()
        sides = Relaxation(self.model).sides
        point = state.point()
        falls = sum(cost * x for cost, x in zip(state.relaxation.costs, point)) < 0
        return point if falls else None, (basic, [v for v in high if sides[v] != (None, None)])

    def begin(self):
        """The ray along which the objective falls for ever, if it does. And the basis for leaves whose own doesn't serve."""
        state = State(Relaxation(self.model))
        if state.stand_as_wanted():
            return None, state.lists()
        ray, basis = self.direction(own_costs=True)
        if ray is not None:
            assert self.model.is_ray(ray)
            basis = self.direction(own_costs=False)[1]
        return ray, basis

    def work(self, leaf, ray, first):
        """Places the result of a leaf, after rounds with new cuts."""
        model, begin, made = self.model, leaf.basis, 0
        while True:
            activities = [model.size + k for k in range(len(self.cuts))]
            state = State(Relaxation(self.form, leaf.path, own_costs=ray is None))
            if not (state.bring_in(begin[0]) and state.stand(begin[1])):
                assert state.bring_in(first[0] + activities) and state.stand(first[1])
            end = state.solve(self.pivots)
            if end == "pivots":
                self.stop_in_moves(leaf.path, state.lists(), self.cuts)
            if end != "optimal":
                break
            point = state.point()
            split = next((j for j, c in enumerate(model.columns) if c.integer and point[j].denominator != 1), None)
            if split is None or made == ROUNDS or not self.add_covers(point):
                break
            basic, high = state.lists()
            begin = basic + [model.size + k for k in range(len(activities), len(self.cuts))], high
            made += 1
        self.placed += 1
        leaf.multipliers, leaf.basis = state.multipliers(), state.lists()
        if end != "optimal":
            leaf.farkas = end
            assert self.form.proved(leaf.path, end, costs=False) > 0
            leaf.is_open = False
            return
        assert ray is not None or self.form.proved(leaf.path, leaf.multipliers) == model.value(point)
        if split is None:
            assert all(cut.sum_at(point) <= len(cut.literals) - 1 for cut in self.cuts)
            if ray is not None:
                assert model.is_feasible(point)
                lines = [" ".join([word, *model.numbers(x)]) for word, x in [("point", point), ("ray", ray)]]
                raise Stop([f"unbounded nodes {self.placed}"], ["cert 1", "claim unbounded", *lines, "end"])
            self.points.append(point)
            self.judge()
            assert not leaf.is_open
        elif self.is_no_better(model.value(point)):
            leaf.is_open = False
        else:
            self.split(leaf, split, floor(point[split]))

    def add_covers(self, point):
        """Adds the covers whose row isn't there, and answers whether there was one."""
        before = len(self.cuts)
        for cover in self.model.covers(point):
            if len(self.cuts) < MOST_CUTS and not any(cover.is_row_of(cut) for cut in self.cuts):
                self.cuts.append(cover)
        self.form = self.model.with_cuts(self.cuts)
        return len(self.cuts) > before

    def split(self, leaf, place, at):
        changes = [(place, True, Fraction(at)), (place, False, Fraction(at + 1))]
        leaf.children = [Leaf((*leaf.path, change), leaf.multipliers, leaf.basis) for change in changes]
        leaf.changed = place, at
        self.leaves = [other for other in self.leaves if other is not leaf] + leaf.children
        self.judge()

    def answer(self):
        """The lines of the answer, and those of the certificate where one is held."""
        try:
            self.judge()
            if self.next() is not None:
                ray, first = self.begin()
            while self.next() is not None:
                if self.placed == self.nodes:
                    raise Stop([f"stopped nodes {self.known()}"])
                self.work(self.next(), ray, first)
        except Stop as stop:
            return stop.lines, stop.certificate
        if not self.points:
            return [f"infeasible nodes {self.placed}"], ["cert 1", "claim infeasible", *self.told_tree(), "end"]
        best = min(self.points, key=self.model.value)
        numbers = self.model.numbers(best)
        lines = [f"optimal {self.least()} nodes {self.placed}", *(f"x {number}" for number in numbers), "end"]
        claim = ["cert 1", f"claim optimal {self.least()}", " ".join(["point", *numbers])]
        return lines, [*claim, *self.told_tree(), "end"]

    def told_tree(self):
        """The cuts that a leaf's line names, and the nodes."""
        named = {i for leaf in self.leaves for i in self.reason(leaf)[1] if i >= self.model.own_rows}
        used = [k for k in range(len(self.cuts)) if self.model.own_rows + k in named]
        return [f"cut {self.cuts[k].words(self.model)}" for k in used] + self.told(self.root, used)

    def reason(self, leaf):
        if self.model.is_empty(leaf.path):
            return "leaf empty", {}
        return ("leaf farkas", leaf.farkas) if leaf.farkas else ("leaf bound", leaf.multipliers)

    def told(self, leaf, used):
        if leaf.children:
            place, at = leaf.changed
            lines = [f"split {self.model.columns[place].name} {at}"]
            return lines + self.told(leaf.children[0], used) + self.told(leaf.children[1], used)
        word, multipliers = self.reason(leaf)
        for i, y in multipliers.items():
            word += f" row {self.model.rows[i][0]} {y}" if i < self.model.own_rows else f" cut {used.index(i - self.model.own_rows) + 1} {y}"
        return [word]


def draw_number(random, size, denominators):
    return Fraction(random.randint(-size, size), random.choice(denominators))


def draw_column(random, name, integer, is_often_free, is_choice):
    """A column without cost and entries, the lines of its bounds, and a number within them, or near them."""
    if is_choice:
        return Column(name, True, Fraction(0), Fraction(1), None, {}), [f"BV {name}"], random.randint(0, 1)
    if integer:
        low = random.randint(-3, 2)
        high = low + random.choice([0, 1, 1, 1, 2, 2, 2, 3, 3, 3] if random.random() < 0.98 else [-1])
        low = Fraction(low) + random.choice([0, 0, 0, 0, 0, Fraction(1, 2)])
        lines = [f"LI {name} {low}", f"UI {name} {high}"]
        near = random.randint(ceil(low), max(ceil(low), high))
        return Column(name, True, low, Fraction(high), None, {}), lines, near
    kind = random.choice(["free", "free", "both"] if is_often_free else ["low", "low", "high", "fixed", "both"])
    number = random.randint(1, 4)
    if kind == "free":
        return Column(name, False, None, None, None, {}), [f"LO {name} -Inf"], number - 2
    if kind == "high":
        return Column(name, False, None, Fraction(-number), None, {}), [f"UP {name} {-number}"], -number - 1
    if kind == "fixed":
        return Column(name, False, Fraction(number), Fraction(number), None, {}), [f"FX {name} {number}"], number
    if kind == "both":
        return Column(name, False, Fraction(0), Fraction(number), None, {}), [f"UP {name} {number}"], number - 1
    return Column(name, False, Fraction(0), None, None, {}), [], number


def draw_model(random):
    """A model, and the lines of its file."""
    size, denominators = random.choice([(3, [1]), (9, [1]), (9, [1, 1, 1, 2, 3])])
    share_of_integers, is_often_free = random.choice([0, 0.5, 0.5, 1, 1]), random.choice([True, False, False])
    share_of_choices = random.choice([0, 0, 0.9, 1])
    share_of_entries = random.choice([0.5, 0.9])
    rows = [(f"R{i}", random.choice("LLGGE")) for i in range(random.choice([0, 1, 1, 2, 2, 3, 3, 4]))]
    columns, near, data, bounds = [], [], [], []
    for j in range(random.choice([4, 5, 6]) if share_of_choices else random.choice([0, 1, 2, 2, 3, 3, 4, 5])):
        is_choice = random.random() < share_of_choices
        drawn = draw_column(random, f"X{j}", is_choice or random.random() < share_of_integers, is_often_free, is_choice)
        column = drawn[0]
        bounds += drawn[1]
        near.append(drawn[2])
        column.cost = draw_number(random, size, denominators)
        entries = {i: draw_number(random, size, denominators) for i in range(len(rows)) if random.random() < share_of_entries}
        column.entries = {i: entry for i, entry in entries.items() if entry != 0}
        lines = [f"{column.name} C {column.cost}"]
        lines += [f"{column.name} {rows[i][0]} {entry}" for i, entry in column.entries.items()]
        data += ["M 'MARKER' 'INTORG'", *lines, "M 'MARKER' 'INTEND'"] if column.integer else lines
        columns.append(column)
    sides = []
    for i in range(len(rows)):
        side = sum((column.entries.get(i, 0) * x for column, x in zip(columns, near)), Fraction(0))
        sides.append(side + random.choice([0, 0, 0, -1, 1, Fraction(1, 2), Fraction(-1, 2)]))
    constant = random.choice([0, 0, 1]) * draw_number(random, size, denominators)
    text = ["ROWS", " N C", *(f" {kind} {name}" for name, kind in rows), "COLUMNS", *(f" {line}" for line in data), "RHS"]
    text += [f" {name} {side}" for (name, _), side in zip(rows, sides)] + [f" C {-constant}"]
    text += ["BOUNDS", *(f" {line}" for line in bounds), "ENDATA"]
    model_rows = [
        (name, side if kind in "GE" else None, side if kind in "LE" else None) for (name, kind), side in zip(rows, sides)
    ]
    return Model(columns, model_rows, Fraction(constant)), text


def draw_limits(random, placed):
    """The limits of a solve: near what it needs, or at their ends."""
    limits = []
    if random.random() < 0.7:
        limits.append(("nodes", random.choice([0, 1, max(placed - 1, 0), placed, random.randint(0, placed + 1), ALL])))
    if random.random() < 0.7:
        limits.append(("pivots", random.choice([0, 1, 2, 3, ALL])))
    random.shuffle(limits)
    return limits


def draw_small_model(random):
    """A model that is searched to its end in not too many results, mostly in more than one, its text, and how many."""
    while True:
        model, text = draw_model(random)
        first_line = Search(model, MOST_RESULTS).answer()[0][0]
        if first_line.startswith("stopped"):
            continue
        placed = int(first_line.split()[-1])
        if placed > 1 or random.random() < 0.15:
            return model, text, placed


def write_row(random, number):
    model, text, placed = draw_small_model(random)
    solves = [[]] + [draw_limits(random, placed) for _ in range(3)]
    random.shuffle(solves)
    script, replies, status, kept = ["load T"], ["ok"], 0, None
    for limits in solves:
        lines, certificate = Search(model, **dict(limits)).answer()
        script += [" ".join(["solve", *(f"{word} {limit}" for word, limit in limits)]), "cert F"]
        replies += [*lines, "ok" if certificate else "error 13 no finished answer"]
        status, kept = (status, certificate) if certificate else (1, kept)
    print(f"\nrow {number}")
    print("\n".join(["file T", *(f"| {line}" for line in text), "script", *(f"| {line}" for line in script)]))
    print("\n".join(["replies", *(f"| {line}" for line in replies), f"status {status}"]))
    if kept is None:
        print("lacks F")
        return
    print("\n".join(["keeps F", *(f"| {line}" for line in kept), "words check T F", "script", "replies"]))
    print(f"| accepted {kept[1].removeprefix('claim ')}\nstatus 0")


def main():
    count, seed = int(sys.argv[1]), int(sys.argv[2])
    random = Random(seed)
    print("# Random models searched to their end and up to limits, by a program with exact fractions.")
    print(f"# Written by: python3 bench/rows/random_searches.py {count} {seed}")
    for number in range(1, count + 1):
        write_row(random, number)


if __name__ == "__main__":
    main()
