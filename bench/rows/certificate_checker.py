#!/usr/bin/env python3
"""Reads and judges a certificate by the rules of docs/MANUAL.md, in Python's fractions.

    python3 bench/rows/certificate_checker.py MODEL CERT

prints what `symphony check MODEL CERT` is to print, and

    python3 bench/rows/certificate_checker.py FILE.rows

tells which rows of such a file, whose words are `check MODEL CERT`, want something else.

It shares nothing with the program. A leaf's number is summed over all rows, cuts and columns, and each step is looked at with
the width that the program's fractions have. Models are read by `mps_reader.py`.
"""
import os
import re
import sys
from fractions import Fraction
from math import ceil, floor

from mps_reader import LARGEST, NOT_NUMBER, WIDE, Fault, number_of, read, sum_has_room

FOREIGN = ["front", "outcome", "tree"]


class Faulty(Exception):
    """The code of a line."""


class NoRoom(Exception):
    """A step of arithmetic without room, as it is written."""


# ---- the text


def number(field):
    value = number_of(field.encode("latin-1"))
    return value if value not in (NOT_NUMBER, WIDE) else (4 if value == NOT_NUMBER else 5)


def code_or(values):
    """The values, or the least code among them: codes are whole numbers, values are none."""
    codes = [value for value in values if isinstance(value, int)]
    if codes:
        raise Faulty(min(codes))
    return values


def pairs(words):
    """NAME V any number of times."""
    if len(words) % 2 != 0:
        raise Faulty(3)
    return list(zip(words[0::2], code_or([number(word) for word in words[1::2]])))


def cut_number(word):
    if not re.fullmatch(r"0|[1-9][0-9]*", word):
        return 4
    return ("cut", int(word)) if int(word) < 2**64 else 5


def multipliers(words):
    if len(words) % 3 != 0 or any(word not in ("row", "cut") for word in words[0::3]):
        raise Faulty(3)
    names = [("row", name) if key == "row" else cut_number(name) for key, name in zip(words[0::3], words[1::3])]
    values = [number(word) for word in words[2::3]]
    code_or(names + values)
    return list(zip(names, values))


def literal(word):
    if len(word) < 2 or word[0] not in "+-":
        raise Faulty(3)
    return word[1:], word[0] == "+"


def statement(line):
    """What a line says by itself, or its code."""
    words = [word for word in re.split(r"[ \t]+", line) if word]
    if line == "" or line[0] in " \t" or not words:
        raise Faulty(2)
    kind, rest = words[0], words[1:]
    if kind not in ["cert", "claim", "point", "ray", "cut", "split", "leaf", "end"] + FOREIGN:
        raise Faulty(2)
    if line[-1] in " \t":
        raise Faulty(3)
    if kind in FOREIGN:
        return kind, None
    if kind == "cert" and rest == ["1"] or kind == "end" and rest == []:
        return kind, None
    if kind == "claim" and rest in (["infeasible"], ["unbounded"]):
        return kind, (rest[0], None)
    if kind == "claim" and len(rest) == 2 and rest[0] == "optimal":
        return kind, ("optimal", code_or([number(rest[1])])[0])
    if kind == "claim" and len(rest) == 3 and rest[0] == "within":
        numbers = [number(word) for word in rest[1:]]
        below = [3] if isinstance(numbers[0], Fraction) and numbers[0] < 0 else []
        return kind, ("within", tuple(code_or(numbers + below)))
    if kind in ("point", "ray"):
        return kind, pairs(rest)
    if kind == "cut" and len(rest) >= 3 and rest[1] in ("hi", "lo"):
        return kind, (rest[0], rest[1], [literal(word) for word in rest[2:]])
    if kind == "split" and len(rest) == 2:
        value = code_or([number(rest[1])])[0]
        if value.denominator != 1:
            raise Faulty(3)
        if value == 2**127 - 1:
            raise Faulty(5)
        return "node", ("split", rest[0], int(value))
    if kind == "leaf" and rest == ["empty"]:
        return "node", ("empty",)
    if kind == "leaf" and rest and rest[0] in ("bound", "farkas"):
        return "node", (rest[0], multipliers(rest[1:]))
    raise Faulty(3)


class Stated:
    def __init__(self):
        self.claim, self.point, self.ray, self.cuts, self.nodes, self.ended = None, None, None, [], [], False

    def due(self):
        """How many trees are still due."""
        return 1 + sum(1 if node[0] == "split" else -1 for node in self.nodes)

    def lacks_point(self):
        return self.claim is not None and self.claim[0] != "infeasible" and self.point is None

    def lacks_ray(self):
        return self.claim is not None and self.claim[0] == "unbounded" and self.ray is None

    def place_code(self, kind):
        """The code of a line by what stands before it."""
        if self.ended:
            return 8
        lacks = self.claim is None or self.lacks_point() or self.lacks_ray()
        rays = self.claim is not None and self.claim[0] == "unbounded"
        if kind == "claim":
            return None if self.claim is None else 6
        if kind == "point":
            return None if self.lacks_point() else 6
        if kind == "ray":
            return None if not self.lacks_point() and self.lacks_ray() else 6
        if kind == "cut":
            return 6 if lacks or rays or self.nodes else None
        if kind == "node":
            return 6 if lacks or rays else 7 if self.due() == 0 else None
        if kind == "end":
            return 6 if lacks else None if rays else 6 if not self.nodes else 7 if self.due() != 0 else None
        return 6

    def take(self, kind, value):
        if kind in ("claim", "point", "ray"):
            setattr(self, kind, value)
        elif kind == "cut":
            self.cuts.append(value)
        elif kind == "node":
            self.nodes.append(value)
        else:
            self.ended = True


def certificate(text):
    """What the text states, or (line, code)."""
    lines = text.split("\n")
    if lines[-1] == "":
        lines.pop()
    stated = Stated()
    for place, line in enumerate(lines, 1):
        try:
            kind, value = statement(line)
            own = None
        except Faulty as fault:
            kind, value, own = None, None, fault.args[0]
        if place == 1:
            if kind != "cert":
                return place, 1
            continue
        code = 8 if stated.ended else own if own is not None else stated.place_code(kind)
        if code is not None:
            return place, code
        stated.take(kind, value)
    if not lines:
        return 1, 1
    if not stated.ended:
        return len(lines) + 1, stated.place_code("end") or 8
    return stated


# ---- sums, step by step


def product(a, b, step):
    if any(abs(part) > LARGEST for part in [(a * b).numerator, (a * b).denominator]):
        raise NoRoom(step)
    return a * b


def plus(a, b, step):
    if not sum_has_room(a, b):
        raise NoRoom(step)
    return a + b


def total(start, terms):
    """The start and the terms (factor, factor, step) whose factors aren't 0."""
    for a, b, step in terms:
        if a != 0 and b != 0:
            start = plus(start, product(a, b, step), step)
    return start


# ---- judging


class Judge:
    def __init__(self, model, stated):
        self.model, self.stated = model, stated
        self.rows = [row.name.decode("latin-1") for row in model.rows]
        self.names = [column.name.decode("latin-1") for column in model.columns]
        self.least = 1 if model.sense == "MIN" else -1
        self.cuts = []

    def entry(self, row, place):
        return dict(self.model.columns[place].entries).get(self.model.rows[row].name, Fraction(0))

    # numbers beside names, as a point
    def point(self, named):
        names = [name for name, _ in named]
        if len(set(names)) != len(names) or not set(names) <= set(self.names):
            return None
        return [dict(named).get(name, Fraction(0)) for name in self.names]

    def feasible(self, x):
        for column, value in zip(self.model.columns, x):
            if column.low is not None and value < column.low or column.high is not None and value > column.high:
                return False
            if column.integer and value.denominator != 1:
                return False
        for row, name in enumerate(self.rows):
            side = self.model.rows[row]
            activity = total(Fraction(0), [(self.entry(row, j), x[j], f"act row {name} col {self.names[j]}") for j in range(len(x))])
            if side.low is not None and activity < side.low or side.high is not None and activity > side.high:
                return False
        return True

    def cut(self, row, side, literals):
        """The cut's terms and side, or why it breaks."""
        names = [name for name, _ in literals]
        if row not in self.rows or len(set(names)) != len(names) or not set(names) <= set(self.names):
            return 1
        places = [self.names.index(name) for name in names]
        columns = [self.model.columns[place] for place in places]
        if places != sorted(places) or any(not c.integer or c.low != 0 or c.high != 1 for c in columns):
            return 5
        place = self.rows.index(row)
        sign = 1 if side == "hi" else -1
        limit = self.model.rows[place].high if side == "hi" else self.model.rows[place].low
        if limit is None:
            return 5
        plus_of = dict(zip(places, [sign_ for _, sign_ in literals]))
        terms = []
        for j, column in enumerate(self.model.columns):
            a = sign * self.entry(place, j)
            if j in plus_of:
                bound = Fraction(1) if plus_of[j] else Fraction(0)
            elif a == 0:
                bound = Fraction(0)
            else:
                bound = column.low if a > 0 else column.high
            if bound is None:
                return 5
            terms.append((a, bound, f"cover row {row} col {self.names[j]}"))
        if total(Fraction(0), terms) <= sign * limit:
            return 5
        minus = len([1 for _, is_plus in literals if not is_plus])
        coefficients = {place: Fraction(1 if is_plus else -1) for place, is_plus in plus_of.items()}
        return coefficients, Fraction(len(literals) - 1 - minus)

    def bounds(self, path):
        found = []
        for j, column in enumerate(self.model.columns):
            low, high = column.low, column.high
            if column.integer:
                low, high = Fraction(ceil(low)), Fraction(floor(high))
            for place, side, v in path:
                if place == j and side == "hi" and (high is None or v < high):
                    high = Fraction(v)
                if place == j and side == "lo" and (low is None or v > low):
                    low = Fraction(v)
            found.append((low, high))
        return found

    def leaf_number(self, path, mult, with_costs):
        """The number of the multipliers in the region, or None for minus infinity."""
        y = dict(mult)
        activities = [(("row", name), self.model.rows[i].low, self.model.rows[i].high, f"row {name}") for i, name in enumerate(self.rows)]
        activities += [(("cut", k), None, high, f"cut {k}") for k, (_, high) in enumerate(self.cuts, 1)]

        def coefficient(key, j):
            return self.entry(self.rows.index(key[1]), j) if key[0] == "row" else self.cuts[key[1] - 1][0].get(j, Fraction(0))

        bounds = self.bounds(path)
        start = self.least * self.model.constants[0] if with_costs else Fraction(0)
        sides, reduced, missing = [], [], False
        for key, low, high, word in activities:
            weight = y.get(key, Fraction(0))
            side = low if weight > 0 else high
            missing = missing or weight != 0 and side is None
            sides.append((weight, side or Fraction(0), f"lag {word}"))
        for j, column in enumerate(self.model.columns):
            cost = self.least * column.cost if with_costs else Fraction(0)
            terms = [(-y.get(key, Fraction(0)), coefficient(key, j), f"lag col {self.names[j]} {word}") for key, _, _, word in activities]
            try:
                e = total(cost, terms)
            except NoRoom as step:
                reduced.append((step, None))
                continue
            side = bounds[j][0] if e > 0 else bounds[j][1]
            missing = missing or e != 0 and side is None
            reduced.append((e, side or Fraction(0)))
        if missing:
            return None
        number_ = total(start, sides)
        for j, (e, side) in enumerate(reduced):
            if isinstance(e, NoRoom):
                raise e
            number_ = total(number_, [(e, side, f"lag col {self.names[j]}")])
        return number_

    def whole_objective(self):
        return all(c.cost == 0 or c.integer and c.cost.denominator == 1 for c in self.model.columns) and self.model.constants[0].denominator == 1

    def target(self):
        """What leaves that close by their number reach: the claimed value in least form, less the gap."""
        kind, value = self.stated.claim
        return plus(self.least * value[1], -value[0], "value") if kind == "within" else self.least * value

    def closes(self, node, path):
        """Why the node breaks, or None."""
        kind, value = self.stated.claim
        if node[0] == "split":
            if node[1] not in self.names:
                return 1
            return None if self.model.columns[self.names.index(node[1])].integer else 6
        if node[0] == "empty":
            return None if any(low is not None and high is not None and low > high for low, high in self.bounds(path)) else 7
        keys = [key for key, _ in node[1]]
        there = all(key[1] in self.rows if key[0] == "row" else 1 <= key[1] <= len(self.cuts) for key in keys)
        if len(set(keys)) != len(keys) or not there:
            return 1
        if node[0] == "farkas":
            found = self.leaf_number(path, node[1], False)
            return None if found is not None and found > 0 else 7
        if kind not in ("optimal", "within"):
            return 7
        target = self.target()
        found = self.leaf_number(path, node[1], True)
        if found is None:
            return 7
        rounds = self.whole_objective() and target.denominator == 1
        return None if found >= target or rounds and ceil(found) >= target else 7

    def head(self):
        """Why what stands before the nodes breaks, or None."""
        kind, value = self.stated.claim
        if kind != "infeasible":
            x = self.point(self.stated.point)
            if x is None:
                return 1
            if not self.feasible(x):
                return 2
        if kind in ("optimal", "within"):
            terms = [(column.cost, x[j], f"value col {self.names[j]}") for j, column in enumerate(self.model.columns)]
            if total(self.model.constants[0], terms) != (value if kind == "optimal" else value[1]):
                return 3
            self.target()
        if kind == "unbounded":
            raise SystemExit("rays are not judged here")
        for cut in self.stated.cuts:
            found = self.cut(*cut)
            if isinstance(found, int):
                return found
            self.cuts.append(found)
        return None

    def visits(self, nodes, path):
        """Each node with its path, in preorder; then what is left of the nodes."""
        node, rest = nodes[0], nodes[1:]
        yield node, path
        if node[0] == "split":
            place = self.names.index(node[1]) if node[1] in self.names else None
            rest = yield from self.visits(rest, path + [(place, "hi", node[2])])
            rest = yield from self.visits(rest, path + [(place, "lo", node[2] + 1)])
        return rest

    def verdict(self):
        node = 0
        try:
            why = self.head()
            if why is not None:
                return f"rejected 0 {why}"
            for node, (one, path) in enumerate(self.visits(self.stated.nodes, []), 1):
                why = self.closes(one, path)
                if why is not None:
                    return f"rejected {node} {why}"
        except NoRoom as step:
            return f"wide {node} {step.args[0]}"
        kind, value = self.stated.claim
        numbers = [value] if kind == "optimal" else value if kind == "within" else []
        return " ".join(["accepted", kind] + [str(part) for part in numbers])


def reply(model, text):
    try:
        meant = read(model)
    except Fault as fault:
        return f"error 30 mps line {fault.line} code {fault.code}"
    stated = certificate(text)
    if isinstance(stated, tuple):
        return f"error 32 cert line {stated[0]} code {stated[1]}"
    return Judge(meant, stated).verdict()


# ---- files of rows


def plain(line):
    line = re.sub(r"\{(\d+)\*(.)\}", lambda m: int(m.group(1)) * m.group(2), line)
    if line.endswith("\\"):
        return line[:-1]
    return line.replace("\\t", "\t") + "\n"


def rows_of(path):
    """Each row's name, its files, its words and its wanted reply."""
    folder, head, files, name, words, wanted, into = os.path.dirname(path), {}, {}, None, None, None, None
    for raw in open(path, encoding="latin-1").read().split("\n"):
        if raw.startswith("|"):
            text = plain(raw[2:])
            if into == "replies":
                wanted = text.rstrip("\n")
            elif into is not None:
                files[into] = files.get(into, "") + text
            continue
        word, _, rest = raw.partition(" ")
        into = None
        if word == "row":
            if name is not None:
                yield name, files, words, wanted
            else:
                head, first_words = dict(files), words
            name, files, words, wanted = rest, dict(head), first_words, None
        elif word == "file":
            file, _, source = rest.partition(" < ")
            if source:
                files[file] = open(os.path.join(folder, source), encoding="latin-1").read()
            else:
                into = file
                files[file] = ""
        elif word == "words":
            words = rest.split()
        elif word in ("replies", "script"):
            into = word
    if name is not None:
        yield name, files, words, wanted


def main(words):
    if len(words) == 2:
        print(reply(open(words[0], "rb").read(), open(words[1], encoding="latin-1", newline="").read()))
        return
    number_, differ = 0, 0
    for name, files, said, wanted in rows_of(words[0]):
        number_ += 1
        there = said[1] in files and said[2] in files
        got = reply(files[said[1]].encode("latin-1"), files[said[2]]) if there else "error 20 store"
        if got != wanted:
            differ += 1
            print(f"{name}: wanted {wanted}, and here it is {got}")
    print(f"{number_} rows, {differ} differ")


if __name__ == "__main__":
    main(sys.argv[1:])
