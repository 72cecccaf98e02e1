#!/usr/bin/env python3
"""Runs random scripts with gaps and judges each reply by looking at every point of the model.

    python3 bench/rows/gap_scripts.py PROGRAM COUNT SEED

A model has a few integer columns, so that all their points can be looked at, at times a continuous one, either sense, and costs that are whole
or fractions. A script solves it with gaps (whole, fractions, 0, near what parts the bound from the optimum, near 2^62 and 2^127), limits on
results and workers, goes on with gaps, edits between, saves and restores, and writes the certificate of what is held.

Of `within G V` the point has to be feasible with the value V, and no feasible point may be better by more than G; G isn't 0 and has a difference
with V. The same `warm` once more places nothing, and any larger gap that rounds alike is enough too. A stop with a gap may not show a bound that
the gap reaches. What is optimal, infeasible or unbounded is so, and a bound passes no optimum. A certificate is there exactly where an answer is
held; the program's `check` and, but for rays, `certificate_checker.py` accept it, over the model as it stands here. It prints what it counted, and each script
that fails, with its seed.

It shares nothing with the program. Not a test: its figures stand in docs/TESTING.md.
"""
import os
import subprocess
import sys
import tempfile
from collections import Counter
from fractions import Fraction
from math import ceil, floor, lcm
from random import Random

import certificate_checker
from mps_reader import LARGEST, NOT_NUMBER, WIDE, number_of, sum_has_room

MOST_POINTS = 3000


class Column:
    def __init__(self, name, integer, low, high, cost, entries):
        self.name, self.integer, self.low, self.high, self.cost, self.entries = name, integer, low, high, cost, entries


class Model:
    """Columns, of which at most one is continuous; rows [name, low, high]; sense 1 (least) or -1; the objective's constant."""

    def __init__(self, columns, rows, sense, constant):
        self.columns, self.rows, self.sense, self.constant = columns, rows, sense, constant

    def copy(self):
        columns = [Column(c.name, c.integer, c.low, c.high, c.cost, dict(c.entries)) for c in self.columns]
        return Model(columns, [list(row) for row in self.rows], self.sense, self.constant)

    def text(self):
        lines = ["NAME T", "OBJSENSE " + ("MIN" if self.sense == 1 else "MAX"), "ROWS", " N C"]
        for name, low, high in self.rows:
            lines.append(f" {'G' if high is None else 'E' if low == high else 'L'} {name}")
        lines.append("COLUMNS")
        for column in self.columns:
            lines += [" M 'MARKER' 'INTORG'"] * column.integer
            numbers = [("C", column.cost), *sorted(column.entries.items())]
            lines += [f" {column.name} {row} {x}" for row, x in numbers if x != 0] or [f" {column.name} C 0"]
            lines += [" M 'MARKER' 'INTEND'"] * column.integer
        lines.append("RHS")
        lines += [f" RHS C {-self.constant}"] * (self.constant != 0)
        lines += [f" RHS {name} {low if high is None else high}" for name, low, high in self.rows]
        lines.append("RANGES")
        lines += [f" RNG {name} {high - low}" for name, low, high in self.rows if None not in (low, high) and low != high]
        lines.append("BOUNDS")
        for column in self.columns:
            lines.append(f" LO BND {column.name} {column.low}" if column.low is not None else f" MI BND {column.name}")
            lines.append(f" UP BND {column.name} {column.high}" if column.high is not None else f" PL BND {column.name}")
        return "\n".join([*lines, "ENDATA", ""])

    def value(self, point):
        return self.constant + sum(column.cost * x for column, x in zip(self.columns, point))

    def is_whole(self):
        return self.constant.denominator == 1 and all(c.cost == 0 or c.integer and c.cost.denominator == 1 for c in self.columns)

    def is_feasible(self, point):
        for column, x in zip(self.columns, point):
            if column.low is not None and x < column.low or column.high is not None and x > column.high or column.integer and x.denominator != 1:
                return False
        for name, low, high in self.rows:
            total = sum(column.entries.get(name, 0) * x for column, x in zip(self.columns, point))
            if low is not None and total < low or high is not None and total > high:
                return False
        return True

    def best(self):
        """The least value in least form, None where nothing is feasible, or `ray` where it falls for ever."""
        whole = [column for column in self.columns if column.integer]
        more = next((column for column in self.columns if not column.integer), None)
        # whole numbers throughout: each row, and the costs, times their common denominator
        lines = [(0, None, None, None)]
        scales = [lcm(1, *(column.cost.denominator for column in whole), self.constant.denominator)]
        for name, low, high in self.rows:
            numbers = [Fraction(column.entries.get(name, 0)) for column in whole] + [Fraction(side) for side in (low, high) if side is not None]
            scale = lcm(1, *(number.denominator for number in numbers))
            scales.append(scale)
            lines.append((Fraction(more.entries.get(name, 0)) * scale if more else 0, *(None if side is None else int(side * scale) for side in (low, high)), None))
        starts = [int(self.constant * scales[0])] + [0] * len(self.rows)
        steps = [[int(column.cost * scales[0]), *(int(column.entries.get(row[0], 0) * scale) for row, scale in zip(self.rows, scales[1:]))] for column in whole]
        best, ray = None, False

        def judge(sums):
            nonlocal best, ray
            low, high = (more.low, more.high) if more else (None, None)
            for total, (entry, least, most, _) in zip(sums[1:], lines[1:]):
                if entry == 0:
                    if least is not None and total < least or most is not None and total > most:
                        return
                    continue
                for side, upper in ((least, False), (most, True)):
                    if side is not None:
                        limit = (side - total) / entry
                        if (entry > 0) == upper:
                            high = limit if high is None else min(high, limit)
                        else:
                            low = limit if low is None else max(low, limit)
            if low is not None and high is not None and low > high:
                return
            value = self.sense * Fraction(sums[0], scales[0])
            if more:
                cost = self.sense * more.cost
                end = low if cost > 0 else high
                if cost != 0 and end is None:
                    ray = True
                    return
                value += cost * end if cost != 0 else 0
            best = value if best is None else min(best, value)

        def walk(place, sums):
            if place == len(whole):
                judge(sums)
                return
            column = whole[place]
            for x in range(ceil(column.low), floor(column.high) + 1):
                walk(place + 1, [total + step * x for total, step in zip(sums, steps[place])])

        walk(0, starts)
        return "ray" if ray else best

    def points(self):
        count = 1
        for column in self.columns:
            count *= floor(column.high) - ceil(column.low) + 1 if column.integer else 1
        return count


# ---- what is drawn


def draw_number(random, most, fractions):
    number = Fraction(random.randint(-most, most))
    return number / random.choice([1, 2, 3, 4]) if fractions and random.random() < 0.5 else number


def draw_column(random, name, rows, style):
    integer = style["more"] is None or random.random() < 0.8
    low = Fraction(random.choice([0, 0, 0, -1, 1]))
    high = low + random.choice([1, 1, 1, 2, 3])
    if not integer:
        style["more"] = None
        low, high = random.choice([(Fraction(0), Fraction(3)), (Fraction(-1), Fraction(5, 2)), (Fraction(0), None), (None, Fraction(4))])
    cost = draw_number(random, style["cost"], style["fractions"])
    entries = {row[0]: draw_number(random, 6, style["fractions"]) for row in rows if random.random() < 0.8}
    return Column(name, integer, low, high, cost, {row: x for row, x in entries.items() if x != 0})


def draw_packing(random):
    """Columns of 0 and 1, or up to 2, and rows that leave about half of them room: a search has some leaves."""
    fractions = random.random() < 0.3
    sense, most = random.choice([1, -1]), random.choice([9, 30, 100])
    rows = [[f"R{k}", None, None] for k in range(random.randint(2, 5))]
    columns = []
    for k in range(random.randint(6, 11)):
        cost = -sense * Fraction(random.randint(1, most), random.choice([1, 1, 2, 3]) if fractions else 1)
        entries = {row[0]: Fraction(random.randint(1, 9)) for row in rows if random.random() < 0.85}
        columns.append(Column(f"X{k}", True, Fraction(0), Fraction(2 if k < 1 and random.random() < 0.3 else 1), cost, entries))
    for row in rows:
        row[2] = Fraction(floor(sum(column.entries.get(row[0], 0) for column in columns) * Fraction(random.randint(3, 6), 10)))
    if random.random() < 0.25:
        columns.append(Column("Z", False, Fraction(0), Fraction(5, 2), -sense * Fraction(random.randint(1, 9), 2), {row[0]: Fraction(random.randint(1, 5)) for row in rows}))
    return Model(columns, rows, sense, Fraction(random.choice([0, 0, 0, 7, -100])))


def draw_model(random):
    if random.random() < 0.65:
        return draw_packing(random)
    fractions = random.random() < 0.4
    style = {"more": random.choice([None, None, True]), "fractions": fractions, "cost": random.choice([9, 9, 30, 1000])}
    rows = [[f"R{k}", None, None] for k in range(random.randint(1, 4))]
    columns = []
    for k in range(random.randint(2, 8)):
        columns.append(draw_column(random, f"X{k}", rows, style))
    for row in rows:
        total = sum(column.entries.get(row[0], 0) for column in columns)
        side = Fraction(floor(total * Fraction(random.choice([1, 2, 3]), 2))) + random.randint(-1, 3)
        row[1], row[2] = random.choice([(None, side), (None, side), (side - 3, None), (side - random.randint(1, 6), side)])
    scale = random.choice([1, 1, 1, 1, 1, 1, 2**55, 2**110])
    constant = draw_number(random, 20, fractions) if random.random() < 0.3 else Fraction(0)
    model = Model(columns, rows, random.choice([1, -1]), constant)
    for column in columns:
        column.cost *= scale
    return model


def draw_gap(random, model, spread):
    """A gap as it is spelled."""
    whole = [0, 1, 1, 2, 3, 5, 10, 100, 10**6]
    near = [spread, spread / 2, spread * 3 / 4, Fraction(ceil(spread)), Fraction(floor(spread)), spread + Fraction(1, 3)]
    huge = [2**62 - 1, 2**62, 2**62 + 1, 2**63, 2**64, 2**126, 2**127 - 1, 2**127 - 10, Fraction(2**127 - 1, 2), Fraction(2**127 - 1, 2**127 - 2)]
    kind = random.random()
    gap = random.choice(near) if kind < 0.5 else random.choice(whole) if kind < 0.75 else Fraction(random.randint(0, 60), random.randint(1, 9)) if kind < 0.87 else random.choice(huge)
    gap = Fraction(gap)
    if gap.numerator > LARGEST or gap.denominator > LARGEST:
        gap = Fraction(1)
    if gap.denominator in (2, 4, 8) and gap < 1000 and random.random() < 0.4:
        return f"{float(gap)}"
    if gap == 0 and random.random() < 0.3:
        return random.choice(["-0", "0.0", "0/7"]) if random.random() < 0.5 else "0"
    return str(gap)


def draw_options(random, model, spread, chance):
    options = []
    if random.random() < chance:
        options.append(f"gap {draw_gap(random, model, spread)}")
    if random.random() < 0.35:
        options.append(f"nodes {random.choice([0, 1, 1, 2, 3, 4, 6, 10])}")
    if random.random() < 0.15:
        options.append(f"workers {random.randint(1, 4)} seed {random.randint(0, 99)}")
    random.shuffle(options)
    return " ".join(options)


def shown(x):
    return "none" if x is None else str(x)


def draw_edit(random, model, style):
    """The words of an edit, and the model behind it."""
    new = model.copy()
    kind = random.choice(["cost", "cost", "row", "row", "bounds", "addrow", "delrow", "addcol", "delcol", "replacerow"])
    if kind == "cost":
        column = random.choice(new.columns)
        column.cost = draw_number(random, style["cost"], style["fractions"])
        return f"edit cost {column.name} {column.cost}", new
    if kind == "row":
        row = random.choice(new.rows)
        place = random.choice([k for k in (1, 2) if row[k] is not None])
        row[place] += random.choice([-2, -1, 1, 2, 3]) if row[1] != row[2] else 0
        if None not in row[1:] and row[1] > row[2]:
            return None
        return f"edit row {row[0]} {('lo', 'hi')[place - 1]} {row[place]}", new
    if kind == "bounds":
        column = random.choice([column for column in new.columns if column.integer] or new.columns)
        if column.low is None or column.high is None:
            return None
        column.low, column.high = column.low + random.choice([0, 0, -1, 1]), column.high + random.choice([0, -1, 1])
        if column.low > column.high:
            return None
        return f"edit bounds {column.name} {column.low} {column.high}", new
    if kind in ("addrow", "replacerow"):
        name = f"R{random.randint(10, 99)}" if kind == "addrow" else random.choice(new.rows)[0]
        if kind == "addrow" and name in [row[0] for row in new.rows]:
            return None
        chosen = [column for column in new.columns if random.random() < 0.6]
        numbers = {column.name: draw_number(random, 5, False) or Fraction(1) for column in chosen}
        side = Fraction(random.randint(0, 12))
        row = [name, None, side] if random.random() < 0.7 else [name, -side, None]
        for column in new.columns:
            column.entries.pop(name, None)
            if column.name in numbers:
                column.entries[name] = numbers[column.name]
        if kind == "addrow":
            new.rows.append(row)
        else:
            new.rows[[old[0] for old in new.rows].index(name)] = row
        return " ".join(["edit", kind, name, shown(row[1]), shown(row[2]), *(f"{column} {x}" for column, x in numbers.items())]), new
    if kind == "delrow":
        if len(new.rows) < 2:
            return None
        row = new.rows.pop(random.randrange(len(new.rows)))
        for column in new.columns:
            column.entries.pop(row[0], None)
        return f"edit delrow {row[0]}", new
    if kind == "addcol":
        name = f"X{random.randint(10, 99)}"
        if name in [column.name for column in new.columns]:
            return None
        column = draw_column(random, name, new.rows, {"more": None, "fractions": style["fractions"], "cost": style["cost"]})
        new.columns.append(column)
        return " ".join(["edit addcol", name, "int", str(column.low), str(column.high), str(column.cost), "0", *(f"{row} {x}" for row, x in column.entries.items())]), new
    if len(new.columns) < 2:
        return None
    column = new.columns.pop(random.randrange(len(new.columns)))
    return f"edit delcol {column.name}", new


def draw_script(random):
    """The model's text, and the steps: (words, the model behind it)."""
    while True:
        model = draw_model(random)
        if model.points() <= MOST_POINTS:
            break
    style = {"more": None, "fractions": not model.is_whole(), "cost": max(9, min(1000, max(abs(int(column.cost)) for column in model.columns)))}
    best = model.best()
    spread = Fraction(random.randint(1, 12), random.randint(1, 3)) if not isinstance(best, Fraction) or best == 0 else abs(best) * Fraction(random.choice([1, 2, 3, 5, 10, 20]), 100)
    steps, saved, first = [("load T", model)], None, model

    def say(words, behind=None):
        nonlocal model
        model = behind or model
        steps.append((words, model))

    def options(chance):
        return draw_options(random, model, spread, chance)

    say(("solve " + options(0.7)).strip())
    for _ in range(random.randint(2, 9)):
        kind = random.random()
        if kind < 0.2:
            say(f"cert F{len(steps)}")
        elif kind < 0.45:
            words = ("warm " + options(0.85)).strip()
            say(words)
            if random.random() < 0.5:
                say(words)
        elif kind < 0.55:
            say(("solve " + options(0.7)).strip())
        elif kind < 0.85:
            edit = draw_edit(random, model, style)
            if edit is not None and edit[1].points() <= MOST_POINTS:
                say(*edit)
                if random.random() < 0.7:
                    say(("warm " + options(0.9)).strip())
        elif kind < 0.9:
            say("save S")
            saved = model.copy()
        elif kind < 0.95 and saved is not None:
            say("restore S", saved.copy())
            say(("warm " + options(0.9)).strip())
        else:
            say(random.choice(["trim", "solve gap -1", "warm gap x", "warm gap 1e60", "solve gap", "solve gap 1 gap 1", "mcsolve gap 1", "warm gap -1/3 nodes 2", "solve gap 2/0"]))
        if random.random() < 0.4:
            say(f"cert F{len(steps)}")
    return first, steps


# ---- how it is judged


class Wrong(Exception):
    pass


def must(holds, what):
    if not holds:
        raise Wrong(what)


def option(words, name):
    return words[words.index(name) + 1] if name in words[:-1] else None


def gap_of(words):
    spelled = option(words, "gap")
    return None if spelled is None else number_of(spelled.encode())


def is_refused(words):
    """The refusal of the options, if there is one."""
    if words[0] == "mcsolve" or words.count("gap") > 1 or words[-1] == "gap":
        return "error 03 arguments"
    gap = gap_of(words)
    if gap is not None and (gap in (NOT_NUMBER, WIDE) or gap < 0):
        return f"error 07 number {option(words, 'gap')}"
    return None


class Run:
    def __init__(self, model, lines, counts):
        self.model, self.lines, self.counts = model, lines, counts
        self.held, self.last, self.certificates = None, None, []
        self.optima = {}

    def take(self):
        must(self.lines, "no more lines")
        return self.lines.pop(0)

    def best(self):
        text = self.model.text()
        if text not in self.optima:
            self.optima[text] = self.model.best()
        return self.optima[text]

    def point(self):
        point = {}
        while True:
            words = self.take().split()
            if words == ["end"]:
                return [point.get(column.name, Fraction(0)) for column in self.model.columns]
            must(words[0] == "x" and words[1] not in point, "a line of a point")
            point[words[1]] = Fraction(words[2])

    def reaches(self, bound, best, gap):
        """Does a bound, rounded up where the objective is whole, show that nothing is better than the best by more than the gap? None: it may."""
        if bound is None or best is None or not sum_has_room(best, -gap):
            return False
        target = best - gap
        if not self.model.is_whole():
            return bound >= target
        if target.denominator == 1:
            return bound >= target
        return True if bound - 1 >= target else None if bound >= target else False

    def answer(self, words):
        refused = is_refused(words)
        line = self.take()
        if refused is not None:
            must(line == refused, f"wanted {refused}")
            self.counts["refused"] += 1
            return
        told, gap, best, sense = line.split(), gap_of(words), self.best(), self.model.sense
        limit = option(words, "nodes")
        self.counts[" ".join(told[: 1 + (told[0] == "stopped")]) + (" with a gap" if gap is not None else "")] += 1
        again, self.last = self.last, None
        if told[0] in ("optimal", "within"):
            value = Fraction(told[-3])
            results = int(told[-1])
            point = self.point()
            must(self.model.is_feasible(point) and self.model.value(point) == value, "the point")
            must(best != "ray" and best is not None, "there is an optimum")
            if told[0] == "optimal":
                must(sense * value == best, "the optimum")
            else:
                must(gap is not None and gap > 0 and told[1] == str(gap), "the gap")
                must(sum_has_room(sense * value, -gap), "a difference without room")
                must(sense * value - gap <= best, "no point better by more than the gap")
                self.counts["within of no optimum"] += sense * value != best
                self.counts["within a gap near 2^62 or more"] += gap > 2**61
                self.last = (words, value, point, gap)
        elif told[0] == "infeasible":
            results = int(told[-1])
            must(best is None, "nothing is feasible")
        elif told[0] == "unbounded":
            results = int(told[-1])
            must(best == "ray", "there is a ray")
        else:
            must(told[0] == "stopped" and told[1] in ("nodes", "wide"), "an answer")
            results = int(told[2])
            must(told[1] == "wide" or limit is not None and results == int(limit), "a stop at its limit")
            while told[1] == "wide" and self.take() != "end":
                pass
            low, high = (None if word == "none" else sense * Fraction(word) for word in (told[4], told[6]))
            must(low is None or best is None or told[1] == "wide" or best != "ray" and low <= best, "a bound that passes no optimum")
            must(high is None or best is not None and (best == "ray" or high >= best), "a value that is there")
            if gap is not None and best != "ray" and told[1] == "nodes":
                must(self.reaches(low, high, gap) is not True, "a stop where the gap was reached")
                self.counts["stops with a gap, exactly"] += 1
        must(limit is None or results <= int(limit), "no more results than the limit")
        if again is not None and words[0] == "warm" and gap is not None and self.is_alike(again, gap):
            must(told[0] == "within" and results == 0 and (value, point) == again[1:3], "within once more")
            self.counts["once more"] += 1
        self.held = None if told[0] == "stopped" else told

    def is_alike(self, again, gap):
        """Is a gap at least the one before, and is its target rounded alike and not wide?"""
        least = self.model.sense * again[1]
        if gap < again[3] or not sum_has_room(least, -gap):
            return False
        return gap == again[3] or not self.model.is_whole() or gap.denominator == 1

    def step(self, words, model):
        kind = words[0]
        if kind in ("solve", "warm", "mcsolve"):
            self.answer(words)
            return
        line = self.take()
        if kind == "cert":
            must(line == ("ok" if self.held else "error 13 no finished answer"), "a certificate where an answer is held")
            if self.held:
                self.certificates.append((words[1], self.model.text(), self.held))
            return
        must(line == "ok", "ok")
        self.model = model
        if kind != "save":
            self.held = self.last = None


def judge(program, seed, counts):
    first, steps = draw_script(Random(seed))
    with tempfile.TemporaryDirectory() as folder:
        def run(*words, script=""):
            return subprocess.run([program, *words], cwd=folder, input=script.encode(), capture_output=True, timeout=120).stdout.decode()

        open(f"{folder}/T", "w").write(first.text())
        script = "".join(words + "\n" for words, _ in steps)
        replies = run("run", script=script)
        going = Run(first, replies.splitlines(), counts)
        at = None
        try:
            for at, model in steps:
                going.step(at.split(), model)
            must(not going.lines, "no line more")
            for name, text, held in going.certificates:
                at = f"check {name}"
                certificate = open(f"{folder}/{name}", newline="").read()
                open(f"{folder}/M", "w").write(text)
                wanted = {"within": f"accepted within {' '.join(held[1:3])}", "optimal": f"accepted optimal {held[1]}"}.get(held[0], f"accepted {held[0]}")
                must(run("check", "M", name) == wanted + "\n", f"the program's check: {wanted}")
                must(held[0] == "unbounded" or certificate_checker.reply(text.encode(), certificate) == wanted, f"the other check: {wanted}")
                counts["certificates of " + held[0]] += 1
        except Wrong as wrong:
            print(f"script {seed}: {at}: {wrong}\n{first.text()}{script}--\n{replies}", flush=True)
            return False
        except subprocess.TimeoutExpired:
            print(f"script {seed}: out of time", flush=True)
            return False
    return True


def main():
    program, count, seed = os.path.abspath(sys.argv[1]), int(sys.argv[2]), int(sys.argv[3])
    counts, bad = Counter(), 0
    for number in range(seed, seed + count):
        bad += not judge(program, number, counts)
    for what, times in sorted(counts.items()):
        print(f"{times} {what}")
    print(f"{count} scripts, {bad} fail")


if __name__ == "__main__":
    main()
