#!/usr/bin/env python3
"""Writes rows of random models that are searched with a gap, for `crates/script_rows`.

    python3 bench/rows/random_gaps.py COUNT SEED > crates/script_rows/data/random-gaps.rows

and the line `ok random-gaps.rows: NAME` of each goes into `crates/script_rows/stdout`. Another COUNT or SEED gives other rows.

It stands beside `random_searches.py` and takes its searches. Before each turn, and before a stop at the limit on results, it asks every
leaf, open or closed, whether it closes against the best value less the gap. Where it answers that they all do it looks whether the
answer is right: the optimum, by a search to the end, is no better than that.

Each row solves a model with a gap, and again up to a limit on results; goes on with a gap, once more with the same gap, and then to the end.
It wants the certificates of the two searches with a gap byte for byte, and has the program check them.
"""
import sys
from fractions import Fraction
from math import ceil
from random import Random

from random_searches import ALL, Search, Stop, draw_small_model


class GapSearch(Search):
    def __init__(self, model, optimum):
        super().__init__(model)
        self.optimum = optimum

    def reaches(self, leaf, target):
        model = self.model
        if model.is_empty(leaf.path):
            return True
        if leaf.farkas and (self.form.proved(leaf.path, leaf.farkas, costs=False) or 0) > 0:
            return True
        number = self.form.proved(leaf.path, leaf.multipliers)
        if number is None:
            return False
        return number >= target or (model.is_whole() and target.denominator == 1 and ceil(number) >= target)

    def is_within(self, gap):
        return gap is not None and bool(self.points) and all(self.reaches(leaf, self.least() - gap) for leaf in self.leaves)

    def best_lines(self, first_line):
        numbers = self.model.numbers(min(self.points, key=self.model.value))
        return [first_line, *(f"x {number}" for number in numbers), "end"], " ".join(["point", *numbers])

    def search(self, nodes, gap):
        """The lines of the answer with this limit and this gap, and those of the certificate where one is held."""
        self.nodes, self.placed = nodes, 0
        try:
            self.judge()
            ray = None
            if self.next() is not None:
                ray, first = self.begin()
                if ray is not None and self.points:
                    raise Stop(["unbounded nodes 0"])
            while self.next() is not None:
                if ray is None and self.is_within(gap):
                    assert self.least() - gap <= self.optimum
                    lines, point = self.best_lines(f"within {gap} {self.least()} nodes {self.placed}")
                    return lines, ["cert 1", f"claim within {gap} {self.least()}", point, *self.told_tree(), "end"]
                if self.placed == self.nodes:
                    raise Stop([f"stopped nodes {self.known()}"])
                self.work(self.next(), ray, first)
        except Stop as stop:
            return stop.lines, stop.certificate
        if not self.points:
            return [f"infeasible nodes {self.placed}"], ["cert 1", "claim infeasible", *self.told_tree(), "end"]
        assert self.least() == self.optimum
        lines, point = self.best_lines(f"optimal {self.least()} nodes {self.placed}")
        return lines, ["cert 1", f"claim optimal {self.least()}", point, *self.told_tree(), "end"]


def draw_gap(random, spread):
    """A gap near what parts the first number from the optimum, as a fraction and as it is spelled."""
    gap = random.choice([Fraction(0), Fraction(1, 2), Fraction(1), Fraction(2), Fraction(5), Fraction(100), spread, spread / 2, spread * 3 / 4, Fraction(ceil(spread))])
    spelled = f"{float(gap)}" if gap.denominator in (2, 4, 8) and random.random() < 0.5 else str(gap)
    return gap, spelled


def spread_of(model, optimum):
    """What parts the number of the root, once it is worked, from the optimum."""
    search = Search(model, nodes=1)
    search.answer()
    number = search.form.proved((), search.root.multipliers)
    return Fraction(1) if number is None or optimum is None else max(Fraction(0), optimum - number)


def draw_options(random, nodes, spelled):
    options = ([f"nodes {nodes}"] if nodes != ALL else []) + ([f"gap {spelled}"] if spelled is not None else [])
    random.shuffle(options)
    return options


def is_unbounded(model):
    return Search(model).answer()[0][0].startswith("unbounded")


def draw_row(random):
    """The lines of a row below its name, and whether something in it is within a gap."""
    while True:
        model, text, placed = draw_small_model(random)
        if placed > 2 and not is_unbounded(model):
            break
    whole = Search(model)
    whole.answer()
    optimum = whole.least()
    spread = spread_of(model, optimum)
    script, replies, status, kept = ["load T"], ["ok"], 0, {}

    def command(word, search, nodes, gap, spelled):
        lines, certificate = search.search(nodes, gap)
        script.append(" ".join([word, *draw_options(random, nodes, spelled)]))
        replies.extend(lines)
        return certificate

    def certify(name, certificate):
        nonlocal status
        script.append(f"cert {name}")
        replies.append("ok" if certificate else "error 13 no finished answer")
        status = status if certificate else 1
        if certificate:
            kept[name] = certificate

    first = GapSearch(model, optimum)
    certify("F", command("solve", first, random.choice([ALL, ALL, random.randint(0, placed)]), *draw_gap(random, spread)))
    second = GapSearch(model, optimum)
    command("solve", second, random.randint(0, placed - 1), None, None)
    gap = draw_gap(random, spread)
    certify("H", command("warm", second, random.choice([ALL, random.randint(0, placed)]), *gap))
    command("warm", second, random.choice([ALL, 0]), *gap)
    command("warm", second, ALL, None, None)
    lines = ["file T", *(f"| {line}" for line in text), "script", *(f"| {line}" for line in script)]
    lines += ["replies", *(f"| {line}" for line in replies), f"status {status}"]
    for name in "FH":
        lines += [f"keeps {name}", *(f"| {line}" for line in kept[name])] if name in kept else [f"lacks {name}"]
    for name in kept:
        lines += [f"words check T {name}", "script", "replies", f"| accepted {kept[name][1].removeprefix('claim ')}", "status 0"]
    return lines, any(line.startswith("within") for line in replies)


def write_row(random, number):
    """Most rows have something that is within a gap."""
    lines, some = draw_row(random)
    while not some and random.random() < 0.9:
        lines, some = draw_row(random)
    print(f"\nrow {number}")
    print("\n".join(lines))


def main():
    count, seed = int(sys.argv[1]), int(sys.argv[2])
    random = Random(seed)
    print("# Random models searched with a gap, by a program with exact fractions.")
    print(f"# Written by: python3 bench/rows/random_gaps.py {count} {seed}")
    for number in range(1, count + 1):
        write_row(random, number)


if __name__ == "__main__":
    main()
