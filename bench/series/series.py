"""Checks a script of edits and searches against a search of all points, in exact fractions.

    python3 bench/series/series.py examples/series/bakery.mps examples/series/script examples/series/replies

It reads the model (free MPS, integer columns with bounds, rows N, L, G and E, without RANGES), follows each `edit row ROW lo|hi|both V` and
`edit cost COL V`, and for each `solve` and `warm` looks at every point. A reply `optimal V ..` has to show a point that is
feasible and has the value V, and V has to be the best value. It shares nothing with the solver.
"""
import itertools
import sys
from fractions import Fraction


def number(word):
    if "/" in word:
        top, bottom = word.split("/")
        return Fraction(int(top), int(bottom))
    return Fraction(word)


class Model:
    def __init__(self, path):
        self.maximize = False
        self.rows, self.cols, self.objective = {}, {}, None
        section, integer = None, False
        for line in open(path):
            line = line.rstrip("\n")
            if not line.strip() or line.startswith("*"):
                continue
            words = line.split()
            if not line.startswith(" "):
                section = words[0]
                if section == "OBJSENSE" and len(words) > 1:
                    self.maximize = words[1].upper().startswith("MAX")
                continue
            if section == "OBJSENSE":
                self.maximize = words[0].upper().startswith("MAX")
            elif section == "ROWS":
                kind, name = words
                if kind == "N":
                    self.objective = name
                else:
                    self.rows[name] = {"kind": kind, "lo": None, "hi": None, "entries": {}}
                    self.side(name, Fraction(0))
            elif section == "COLUMNS":
                if words[1] == "'MARKER'":
                    integer = words[2] == "'INTORG'"
                    continue
                assert integer, "every column is integer"
                column = self.cols.setdefault(words[0], {"lo": 0, "up": None, "cost": Fraction(0)})
                for row, value in zip(words[1::2], words[2::2]):
                    if row == self.objective:
                        column["cost"] = number(value)
                    else:
                        self.rows[row]["entries"][words[0]] = number(value)
            elif section == "RHS":
                for row, value in zip(words[0::2], words[1::2]):
                    self.side(row, number(value))
            elif section == "BOUNDS":
                kind, name, value = words[0], words[-2], int(words[-1])
                self.cols[name]["up" if kind in ("UP", "UI") else "lo"] = value

    def side(self, name, value):
        row = self.rows[name]
        row["lo"] = value if row["kind"] in "GE" else None
        row["hi"] = value if row["kind"] in "LE" else None

    def feasible(self, point):
        for row in self.rows.values():
            activity = sum((a * point[c] for c, a in row["entries"].items()), Fraction(0))
            if row["lo"] is not None and activity < row["lo"]:
                return False
            if row["hi"] is not None and activity > row["hi"]:
                return False
        return all(c["lo"] <= point[n] <= c["up"] for n, c in self.cols.items())

    def value(self, point):
        return sum((c["cost"] * point[n] for n, c in self.cols.items()), Fraction(0))

    def best(self):
        """The best value of all points; whole multiples are used so that this takes seconds, not minutes."""
        names = list(self.cols)
        spans = [range(self.cols[n]["lo"], self.cols[n]["up"] + 1) for n in names]
        rows = []
        for row in self.rows.values():
            numbers = [row["entries"].get(n, Fraction(0)) for n in names]
            scale = 1
            for x in numbers + [row["lo"] or Fraction(0), row["hi"] or Fraction(0)]:
                scale = scale * x.denominator // gcd(scale, x.denominator)
            rows.append(([int(x * scale) for x in numbers],
                         None if row["lo"] is None else int(row["lo"] * scale),
                         None if row["hi"] is None else int(row["hi"] * scale)))
        scale = 1
        for n in names:
            scale = scale * self.cols[n]["cost"].denominator // gcd(scale, self.cols[n]["cost"].denominator)
        costs = [int(self.cols[n]["cost"] * scale) for n in names]
        best = None
        for point in itertools.product(*spans):
            worth = sum(c * x for c, x in zip(costs, point))
            if best is not None and (worth <= best if self.maximize else worth >= best):
                continue
            for numbers, lo, hi in rows:
                activity = sum(a * x for a, x in zip(numbers, point))
                if (lo is not None and activity < lo) or (hi is not None and activity > hi):
                    break
            else:
                best = worth
        return None if best is None else Fraction(best, scale)


def gcd(a, b):
    while b:
        a, b = b, a % b
    return a


def main(model_path, script_path, replies_path):
    model = Model(model_path)
    replies = iter(open(replies_path).read().split("\n"))
    searches, placed = 0, []
    for line in open(script_path):
        words = line.split()
        if not words or line.startswith("#"):
            continue
        if words[0] in ("solve", "warm"):
            first = next(replies).split()
            best = model.best()
            searches += 1
            if first[0] == "infeasible":
                assert best is None, (line, best)
                placed.append((words[0], int(first[2])))
                continue
            assert first[0] == "optimal" and number(first[1]) == best, (line, first, best)
            placed.append((words[0], int(first[3])))
            point = {name: Fraction(0) for name in model.cols}
            while True:
                shown = next(replies).split()
                if shown == ["end"]:
                    break
                assert shown[0] == "x" and number(shown[2]) != 0, shown
                point[shown[1]] = number(shown[2])
            assert all(x.denominator == 1 for x in point.values())
            assert model.feasible(point) and model.value(point) == best, (line, point)
            continue
        if words[0] == "edit":
            if words[1] == "row":
                row = model.rows[words[2]]
                value = None if words[4] == "none" else number(words[4])
                if words[3] in ("lo", "both"):
                    row["lo"] = value
                if words[3] in ("hi", "both"):
                    row["hi"] = value
            elif words[1] == "cost":
                model.cols[words[2]]["cost"] = number(words[3])
            else:
                raise SystemExit("no edit that is followed here: " + line)
        assert next(replies) == "ok", line
    print(searches, "searches, each with the best value of all points; results placed:", placed)


if __name__ == "__main__":
    main(*sys.argv[1:4])
