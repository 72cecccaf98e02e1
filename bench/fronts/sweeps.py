#!/usr/bin/env python3
"""Runs `mcsolve` over random small models, and holds every reply and certificate against enumeration.

    python3 bench/fronts/sweeps.py PROGRAM [COUNT [FIRST]]

PROGRAM is a built `symphony`; COUNT models (2,000 where it isn't said) of the seeds from FIRST (0) on are those of sweep_models.py. For each
model:

- `mcsolve` has to list the outcomes that no other dominates, in the model's own sense and in order, or to say `infeasible`, or what isn't
  whole. `cert` then writes a certificate, which front_checker.py, second_judge.py (where it knows the model) and `check` have to accept, and
  whose outcomes have to be these in least form.
- The search that is kept stays: `save` leaves the same file before and behind an `mcsolve`, and `solve` before and `warm` behind it are
  answered as without it, after a finished search and after a stop.
- `mcsolve` behind an edit speaks of the edited model.
- `mcsolve nodes N` for N from 0 on: each `frontier part` lists outcomes of the front, has N in its stop line, names a part that comes with
  these outcomes, with a bound that the part's optimum isn't below and a best number that a point of the part has; what a smaller N lists, a
  greater one lists too; and from some N on the reply is the one without a limit. So with `mcsolve pivots P`.
- `cert` behind a `frontier part` is `error 13`; behind an `error 12` what was held is held.

Before these come a model with as many rows and columns as there may be, and models with numbers for which a gap has no room: each place of
`stopped scale`.

It prints each difference with the model's seed, and ends with status 1 where there was one.
"""
import os
import re
import subprocess
import sys
import tempfile
from collections import Counter
from fractions import Fraction
from math import ceil, floor

import second_judge
from front_checker import certificate, reply
from front_models import Model, Row, front, mps_text
from sweep_models import bare_outcomes, best_first, column, drawn, in_own_sense, not_whole_at

NODES = list(range(0, 12)) + [14, 17, 21, 26, 33, 45, 70, 110, 200, 400, 1000, 100000]
PIVOTS = [0, 1, 2, 3, 4, 6, 9, 50, 1000]
WITH_END = re.compile(r"optimal |stopped (pivots|wide) |frontier ")


class Wrong(Exception):
    """What differs."""


def want(holds, what, *told):
    if not holds:
        raise Wrong(what + (": " + " | ".join(map(str, told)) if told else ""))


# ---- running


def run(program, folder, lines):
    """The replies to the lines of a script, each a list of lines."""
    done = subprocess.run([program, "run"], input="".join(line + "\n" for line in lines), capture_output=True, text=True, cwd=folder)
    want(done.stderr == "", "standard error", done.stderr[:300])
    replies, left = [], done.stdout.split("\n")[:-1]
    while left:
        count = left.index("end") + 1 if WITH_END.match(left[0]) else 1
        replies.append(left[:count])
        left = left[count:]
    want(len(replies) == len(lines), "count of replies", len(lines), done.stdout[-300:])
    return replies


def contents(folder, name):
    path = os.path.join(folder, name)
    return open(path, encoding="latin-1").read() if os.path.exists(path) else None


# ---- what is true of a part


class Truth:
    """The outcomes of a model in least form without constants, and what is told of them."""

    def __init__(self, model):
        self.model, self.not_whole = model, not_whole_at(model)
        self.outcomes = set() if self.not_whole else bare_outcomes(model)
        self.front = front(self.outcomes)
        self.shown = in_own_sense(model, self.front)

    def complete(self):
        return [f"frontier complete {len(self.shown)}"] + [f"f {first} {second}" for first, second in self.shown] + ["end"]

    def bare(self, shown):
        """An outcome as it was printed, in least form without constants."""
        return tuple(self.model.least() * (int(word) - constant) for word, constant in zip(shown, self.model.constants))

    def objective(self, part):
        """The objective of a part as a function of outcomes, None of those that are not in it."""
        name, numbers = part[0], part[1:]
        first, second = (self.front[0][0], self.front[-1][1]) if self.front else (None, None)
        if name == "least1":
            return lambda o: o[0]
        if name == "least2":
            return lambda o: o[1]
        if name == "left":
            return lambda o: o[1] if o[0] <= first else None
        if name == "right":
            return lambda o: o[0] if o[1] <= second else None
        if name == "pull":
            return lambda o: o[0] + o[1] if o[0] <= numbers[0] and o[1] <= numbers[1] else None
        a, b = numbers[1] - second, numbers[2] - first
        return lambda o: self.gap_number(o, a, b, first, second)

    @staticmethod
    def gap_number(o, a, b, first, second):
        number = max(0, a * (o[0] - first), b * (o[1] - second))
        return number if number <= a * b else None

    def numbers(self, part):
        """What the points of a part have at least as its objective."""
        told = [self.objective(part)(outcome) for outcome in self.outcomes]
        return [number for number in told if number is not None]



def has_gap(found, p, q):
    return p in found and found.index(p) + 1 < len(found) and found[found.index(p) + 1] == q


def part_of(words):
    """A part's name and numbers."""
    counts = {"least1": 0, "left": 0, "least2": 0, "right": 0, "gap": 4, "pull": 2}
    want(words and words[0] in counts and len(words) == 1 + counts[words[0]], "form of a part", words)
    want(all(re.fullmatch(r"0|-?[1-9][0-9]*", word) for word in words[1:]), "numbers of a part", words)
    return [words[0]] + [int(word) for word in words[1:]]


def judge_part(truth, found, part):
    """Whether a part comes where these outcomes (without constants, in least form) stand."""
    name = part[0]
    if name in ("least1", "left"):
        want(found == [], "outcomes before a part", part, found)
    elif name in ("least2", "right"):
        want(found == truth.front[:1], "outcomes before a part", part, found)
    else:
        want(len(found) >= 2 and found[0] == truth.front[0] and found[-1] == truth.front[-1], "outcomes before a part", part, found)
        if name == "gap":
            judge_gap(truth, found, tuple(part[1:3]), tuple(part[3:5]))
        else:
            judge_pull(truth, found, tuple(part[1:3]))


def judge_gap(truth, found, p, q):
    want(has_gap(found, p, q), "a gap of neighbours", p, q, found)
    done = found[: found.index(p) + 1]
    want(done == truth.front[: len(done)], "gaps at the left are empty", p, q, found)


def judge_pull(truth, found, r):
    want(r in truth.outcomes, "a pulled point's outcome", r)
    inside = [(p, q) for p, q in zip(found, found[1:]) if r[0] < q[0] and r[1] < p[1]]
    want(inside, "a pulled point stands in a gap", r, found)
    p, q = inside[0]
    judge_gap(truth, found, p, q)
    part = ["gap", *p, *q]
    want(truth.objective(part)(r) == min(truth.numbers(part)), "a pulled point is the gap's best", r, part)


def judge_stop(truth, found, words, kind, limit):
    """A stop line `stopped KIND N bound B best V of PART`."""
    want(words[0] == "stopped" and words[1] in (kind, "wide") and words[3] == "bound" and words[5] == "best" and words[7] == "of", "form of a stop line", words)
    if words[1] == "nodes":
        want(words[2] == str(limit), "results of a stop line", words, limit)
    part = part_of(words[8:])
    judge_part(truth, found, part)
    numbers = truth.numbers(part)
    if words[4] != "none" and numbers:
        want(int(words[4]) <= min(numbers), "bound of a stop line", words, min(numbers))
    if kind == "nodes" and limit == 0:
        want(words[4] in root_bounds(truth.model) and part == ["least1"], "bound of the root", words, root_bounds(truth.model))
    if words[6] != "none":
        want(numbers and int(words[6]) >= min(numbers), "best of a stop line", words, min(numbers, default=None))
        want(part[0] in ("gap",) or int(words[6]) in numbers, "best of a stop line", words)
    return part


def root_bounds(model):
    """What the root's number may be shown as: of the bounds as they are, rounded up, or of whole bounds."""
    costs = [(model.least() * c.costs[0], c) for c in model.columns if c.costs[0] != 0]
    plain = sum((min(cost * c.low, cost * c.high) for cost, c in costs), Fraction(0))
    whole = sum(min(cost * ceil(c.low), cost * floor(c.high)) for cost, c in costs)
    return [str(ceil(plain)), str(whole)]


def free(name, taken):
    while name in taken:
        name += "_"
    return name


def inner_names(model, part):
    """The names of the rows and columns of a part's model."""
    added = {"left": ["G1"], "right": ["G1"], "gap": ["G1", "G2"], "pull": ["G1", "G2"]}.get(part, [])
    rows, columns = [row.name for row in model.rows], [c.name for c in model.columns]
    taken = rows + model.names
    return rows + [free(name, taken) for name in added], columns + ([free("Z", columns)] if part == "gap" else [])


def judge_place(model, part, lines):
    """A place block without its `end`."""
    words = [line.split(" ") for line in lines]
    heads = [line[0] for line in words]
    cuts = heads.count("cut")
    want(heads[cuts:] in (["path", "basis", "high"], ["path", "basis", "high", "at"]) and heads[:cuts] == ["cut"] * cuts, "order of a place", lines)
    rows, columns = inner_names(model, part)
    basis, high = words[cuts + 1][1:], words[cuts + 2][1:]
    named = list(zip(basis[0::2], basis[1::2])) + list(zip(high[0::2], high[1::2]))
    there = {"row": rows, "col": columns, "cut": [str(k + 1) for k in range(cuts)]}
    want(all(kind in there and name in there[kind] for kind, name in named), "names of a place", lines, rows, columns)
    want(len(set(named)) == len(named) and len(basis) == 2 * (len(rows) + cuts), "variables of a place", lines, rows, columns)
    want(all(name in columns for name in words[cuts][2::3]), "path of a place", lines)


def judge_some(truth, told, kind, limit):
    """A reply of `mcsolve` with a limit. The outcomes that it lists, and whether it ended for another cause than that limit."""
    if truth.not_whole is not None:
        want(told == ["error 12 not whole %d %s" % truth.not_whole], "reply", told)
        return [], True
    if not truth.front and re.fullmatch(r"infeasible nodes (0|[1-9][0-9]*)", told[0]):
        want(kind != "nodes" or int(told[0].split()[2]) <= limit, "results", told)
        return [], True
    if told[0].startswith("frontier complete"):
        want(truth.front and told == truth.complete(), "frontier", told, truth.complete())
        return truth.front, True
    shown = [line.split(" ")[1:] for line in told if line.startswith("f ")]
    want(told[0] == f"frontier part {len(shown)}" and told[-1] == "end", "form of a part's reply", told)
    want(told[1 : len(shown) + 1] == [" ".join(["f"] + words) for words in shown], "form of outcomes", told)
    firsts = [int(words[0]) for words in shown]
    want(all(a < b for a, b in zip(firsts, firsts[1:])), "order of outcomes", told)
    found = sorted(truth.bare(words) for words in shown)
    want(all(outcome in truth.front for outcome in found), "outcomes of a part", told, truth.complete())
    rest = told[len(shown) + 1 : -1]
    want(rest, "a stop line", told)
    words = rest[0].split(" ")
    part = judge_stop(truth, found, words, kind, limit)
    if words[1] == "nodes":
        want(len(rest) == 1, "lines behind a stop line", told)
    else:
        judge_place(truth.model, part[0], rest[1:])
    return found, words[1] == "wide"


def judge_series(truth, replies, kind, limits):
    before, whole = [], False
    for limit, told in zip(limits, replies):
        found, ended = judge_some(truth, told, kind, limit)
        want(set(before) <= set(found), "outcomes of a smaller limit", limit, told)
        want(ended or not whole or kind == "pivots", "a stop behind an end", limit, told)
        before, whole = found, whole or ended
    want(ended, "no end at the greatest limit", replies[-1])


# ---- certificates


def judge_certificate(program, folder, truth, name):
    model, text = contents(folder, "M"), contents(folder, name)
    wanted = f"accepted frontier {len(truth.front)}" if truth.front else "accepted infeasible"
    want(text is not None, "no certificate", name)
    told = reply(model.encode("latin-1"), text)
    want(told == wanted, "the checker beside it", told, text)
    if truth.front:
        stated = [outcome.values for outcome in certificate(text).outcomes]
        constants = [int(constant) for constant in truth.model.least_constants()]
        want(stated == [tuple(v + c for v, c in zip(pair, constants)) for pair in truth.front], "outcomes of the certificate", stated)
        want(second_judge.verdict(truth.model, text) == wanted, "the second judge", second_judge.verdict(truth.model, text), text)
    done = subprocess.run([program, "check", "M", name], capture_output=True, text=True, cwd=folder)
    want((done.stdout, done.returncode) == (wanted + "\n", 0), "check", done.stdout, done.returncode)


# ---- one model


def edit_of(model, seed):
    """A line that changes the costs, and the model behind it."""
    columns = [place for place, c in enumerate(model.columns) if c.integer]
    if not columns:
        return None, model
    chosen, which = model.columns[columns[seed % len(columns)]], seed // 7 % 2
    value = seed % 5 - 2
    line = f"edit cost{'2' if which else ''} {chosen.name} {value}"
    changed = Model(model.sense, model.names, model.constants, model.rows, list(model.columns))
    place = model.columns.index(chosen)
    costs = list(chosen.costs)
    costs[which] = type(costs[which])(value)
    changed.columns[place] = type(chosen)(chosen.name, chosen.integer, chosen.low, chosen.high, costs)
    return line, changed


def first_search(model, seed):
    return "solve" if seed % 3 else f"solve nodes {seed % 4}"


def plain_script(search):
    return ["load M", search, "save S1", "warm", "cert G1"]


def full_script(search, edit):
    lines = ["load M", search, "save S2", "mcsolve", "cert F", "save S3", "warm", "cert G2", "mcsolve", "cert F2", "save S4", "warm", "cert G3"]
    return lines + ([edit, "mcsolve", "cert F3"] if edit else [])


def judge_whole(truth, told, may_be_wide):
    """A reply without a limit. Only where numbers are great may a step lack room."""
    _, ended = judge_some(truth, told, "none", None)
    want(ended and (may_be_wide or not told[0].startswith("frontier part")), "reply", told, truth.complete())


def judge_held(truth, shown, told, search, before):
    """What `cert` is answered behind `mcsolve`: where an objective isn't whole what was held is held."""
    held = before if truth.not_whole is not None else not shown[0].startswith("frontier part")
    want(told == ["ok"] if held else told == ["error 13 no finished answer"], "cert", told, search)


def value_judged(model, told):
    """The reply of a search to its end: its value, where the first objective has no cost on a continuous column."""
    if all(c.integer or c.costs[0] == 0 for c in model.columns):
        best = best_first(model)
        want(told[0].startswith("infeasible" if best is None else f"optimal {best} nodes "), "value of a search", told, best)


def judge_kept(folder, plain, full, finished):
    """The search that is kept, with `mcsolve` and without."""
    want(full[:2] == plain[:2] and full[2] == ["ok"], "replies before", plain[:2], full[:3])
    want(contents(folder, "S1") == contents(folder, "S2") == contents(folder, "S3"), "the kept search")
    want(full[6] == plain[3], "warm behind mcsolve", full[6], plain[3])
    want(contents(folder, "G1") == contents(folder, "G2") == contents(folder, "G3"), "the certificate of a warm behind mcsolve")
    again = full[11]
    want(re.sub(r" nodes \d+$", "", again[0]) == re.sub(r" nodes \d+$", "", plain[3][0]) and again[1:] == plain[3][1:], "a second warm", again)
    want(not again[0].startswith(("optimal", "infeasible")) or again[0].endswith(" nodes 0"), "results of a second warm", again)
    if finished:
        want(full[6][0].endswith(" nodes 0"), "results of a warm", full[6])


def judge_limits(program, folder, truth):
    lines = ["load M"] + [f"mcsolve nodes {limit}" for limit in NODES] + ["mcsolve nodes 0", "cert P"]
    replies = run(program, folder, lines)
    judge_series(truth, replies[1 : len(NODES) + 1], "nodes", NODES)
    if replies[-2][0].startswith("frontier part"):
        want(replies[-1] == ["error 13 no finished answer"], "cert behind a part", replies[-1])
    replies = run(program, folder, ["load M"] + [f"mcsolve pivots {limit}" for limit in PIVOTS])
    judge_series(truth, replies[1:], "pivots", PIVOTS)


def count_whole(program, folder, truth):
    """All limits from 0 up to the first one with which the sweep comes to its end."""
    limits = list(range(0, 80))
    replies = run(program, folder, ["load M"] + [f"mcsolve nodes {limit}" for limit in limits])[1:]
    ended = False
    for limit, told in zip(limits, replies):
        _, here = judge_some(truth, told, "nodes", limit)
        want(here or not ended, "a stop behind an end", limit, told)
        ended = ended or here


def judge_model(program, folder, seed):
    kind, model = drawn(seed)
    with open(os.path.join(folder, "M"), "w") as file:
        file.write(mps_text(model))
    truth, search = Truth(model), first_search(model, seed)
    edit, changed = edit_of(model, seed)
    plain = run(program, folder, plain_script(search))
    full = run(program, folder, full_script(search, edit))
    finished = not plain[1][0].startswith("stopped")
    value_judged(model, plain[3])
    judge_whole(truth, full[3], kind == "far")
    want(full[8] == full[3], "a second mcsolve", full[8], full[3])
    judge_held(truth, full[3], full[4], search, finished)
    judge_kept(folder, plain, full, finished)
    if truth.not_whole is None and not full[3][0].startswith("frontier part"):
        want(contents(folder, "F") == contents(folder, "F2"), "a second certificate")
        judge_certificate(program, folder, truth, "F")
    if edit:
        want(full[13] == ["ok"], "edit", full[13])
        judge_whole(Truth(changed), full[14], kind == "far")
    judge_limits(program, folder, truth)
    if seed % 5 == 0:
        count_whole(program, folder, truth)
    return kind, full[3][0].split(" ")[:2], len(truth.front)


# ---- numbers without room


def one_of(outcomes, fixed=(), constants=(0, 0)):
    """One of several columns is 1, each with its costs, beside fixed ones."""
    columns = [column(f"X{place}", 0, 1, *costs) for place, costs in enumerate(outcomes, 1)]
    columns += [column(f"F{place}", 1, 1, *costs) for place, costs in enumerate(fixed, 1)]
    one = Fraction(1)
    row = Row("A", one, one, {place: one for place in range(len(outcomes))})
    return Model("MIN", ["C", "D"], [Fraction(constant) for constant in constants], [row], columns)


def scale_cases():
    """Models with the outcomes that are listed and the part and place that follow."""
    wide, base = 10**20, 2 * 10**37
    ends = [(0, 10), (10, 0)]
    yield one_of([(0, wide), (wide, 0)]), [(0, wide), (wide, 0)], f"gap 0 {wide} {wide} 0 width"
    yield one_of(ends + [(base, base)]), ends, "gap 0 10 10 0 col X3"
    moved = [(base, 10), (base + 10, 0)]
    yield one_of(ends, [(base // 2, 0), (base // 2, 0)]), moved, f"gap {base} 10 {base + 10} 0 side"
    yield one_of(ends, (), (0, 2**127 - 1)), [], "least1 value"
    yield one_of([(0, 1), (1, 0)], (), (2**127 - 1, 0)), [(2**127 - 1, 1)], "least2 value"


def judge_scale(program, folder, model, shown, place):
    with open(os.path.join(folder, "M"), "w") as file:
        file.write(mps_text(model))
    told = run(program, folder, ["load M", "mcsolve", "cert F"])
    wanted = [f"frontier part {len(shown)}"] + [f"f {first} {second}" for first, second in shown] + [f"stopped scale {place}", "end"]
    want(told[1] == wanted, "reply", told[1], wanted)
    want(told[2] == ["error 13 no finished answer"], "cert", told[2])


def greatest():
    """One of three is chosen, in a model of 1,000 rows and 4,000 columns: its inner models have more of both."""
    chosen = [column(f"X{place}", 0, 1, *costs) for place, costs in enumerate([(0, 3), (2, 2), (3, 0)])]
    others = [column(f"W{place}", 0, 1, 0, 0, False) for place in range(3, 4000)]
    one = Fraction(1)
    rows = [Row("R0", None, one, {0: one, 1: one, 2: one}), Row("R1", one, None, {0: one, 1: one, 2: one})]
    rows += [Row(f"R{i}", None, Fraction(4), {place: one for place in range(3, 4000) if place % 998 + 2 == i}) for i in range(2, 1000)]
    return Model("MIN", ["C", "D"], [Fraction(0), Fraction(0)], rows, chosen + others)


def judge_greatest(program, folder):
    with open(os.path.join(folder, "M"), "w") as file:
        file.write(mps_text(greatest()))
    told = run(program, folder, ["load M", "mcsolve", "cert F", "edit addrow Q none 9 X0 1", "edit addcol V cont 0 1 0 0"])
    want(told[1] == ["frontier complete 3", "f 0 3", "f 2 2", "f 3 0", "end"], "reply", told[1])
    want(told[2:] == [["ok"], ["error 08 limit 1000"], ["error 08 limit 4000"]], "replies", told[2:])
    done = subprocess.run([program, "check", "M", "F"], capture_output=True, text=True, cwd=folder)
    want(done.stdout == "accepted frontier 3\n", "check", done.stdout)


def judge_scales(program):
    differ = 0
    with tempfile.TemporaryDirectory() as folder:
        try:
            judge_greatest(program, folder)
        except (Wrong, ValueError, IndexError) as wrong:
            differ += 1
            print(f"a model of 1,000 rows and 4,000 columns: {wrong}", flush=True)
    for model, shown, place in scale_cases():
        with tempfile.TemporaryDirectory() as folder:
            try:
                judge_scale(program, folder, model, shown, place)
            except (Wrong, ValueError, IndexError) as wrong:
                differ += 1
                print(f"numbers without room ({place}): {wrong}", flush=True)
    return differ


def main(words):
    program = os.path.abspath(words[0])
    count, first = int(words[1]) if len(words) > 1 else 2000, int(words[2]) if len(words) > 2 else 0
    tally, outcomes, differ = Counter(), 0, judge_scales(program)
    for seed in range(first, first + count):
        with tempfile.TemporaryDirectory() as folder:
            try:
                kind, told, many = judge_model(program, folder, seed)
                tally[" ".join(told)] += 1
                outcomes += many
            except (Wrong, ValueError, IndexError) as wrong:
                differ += 1
                print(f"seed {seed} ({drawn(seed)[0]}): {wrong}", flush=True)
    for told, number in sorted(tally.items()):
        print(f"{number:6} {told}")
    print(f"{count} models, {outcomes} outcomes, {differ} differ")
    return 1 if differ else 0


if __name__ == "__main__":
    sys.exit(main(sys.argv[1:]))
