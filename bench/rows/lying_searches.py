"""Searches in files that lie: random models with random trees, states, multipliers, cuts and points, none of which need be true.

    python3 bench/rows/lying_searches.py PROGRAM SEED CASES

PROGRAM is a built `symphony`. Each file is restored, asked for a bound, ended by `warm`, saved, trimmed, ended again, and restored from the
file that was saved. The best value is found by looking at every point of the model in exact fractions. Tells the cases in which an
answer differs from it, in which the bound passes it, or in which a `warm` after `save` and `restore` places a result.
"""
import itertools
import json
import os
import random
import subprocess
import sys
import tempfile
from fractions import Fraction


def random_search(random_):
    columns, rows = random_.randint(1, 4), random_.randint(1, 3)
    cols = []
    for j in range(columns):
        entries = [[i, str(random_.choice([1, 2, 3, -1, -2, 4]))] for i in range(rows) if random_.random() < 0.8]
        cost, up = random_.choice([-5, -3, -1, 0, 1, 2, 4]), random_.choice([1, 1, 1, 2, 3])
        cols.append({"cost": str(cost), "cost2": "0", "int": True, "lo": "0", "name": f"X{j}", "rows": entries, "up": str(up)})
    sides = []
    for i in range(rows):
        lo = random_.choice([None, None, str(random_.randint(-2, 2))])
        hi = str(random_.randint(2, 6)) if lo is None or random_.random() < 0.4 else None
        sides.append({"name": f"R{i}", "lo": lo, "hi": hi})
    cuts = []
    for _ in range(random_.randint(0, 2)):
        named = sorted(random_.sample(range(columns), random_.randint(1, columns)))
        literals = [[j, random_.random() < 0.7] for j in named]
        cuts.append({"row": random_.randrange(rows), "side": random_.choice(["hi", "lo"]), "lits": literals})

    def multipliers():
        numbers = [Fraction(1, 2), 1, -1, -2, Fraction(-1, 3)]
        of_rows = [["row", i, str(random_.choice(numbers))] for i in range(rows) if random_.random() < 0.5]
        return of_rows + [["cut", k, str(random_.choice([1, -1, -2]))] for k in range(len(cuts)) if random_.random() < 0.5]

    def nodes(depth):
        if depth == 0 or random_.random() < 0.4:
            state = random_.choice(["open", "closed", "closed"])
            return [{"leaf": state, "mult": multipliers(), "farkas": multipliers(), "basis": [], "high": []}]
        split = {"split": [random_.randrange(columns), str(random_.randint(0, 2))], "mult": multipliers(), "basis": [], "high": []}
        return [split] + nodes(depth - 1) + nodes(depth - 1)

    points = [[[j, str(random_.randint(1, 2))] for j in range(columns) if random_.random() < 0.6] for _ in range(random_.randint(0, 3))]
    sense = random_.choice(["min", "max"])
    model = {"sense": sense, "obj": "C", "obj2": "OBJ2", "const": "0", "const2": "0", "rows": sides, "cols": cols}
    return {"warm": 1, "model": model, "cuts": cuts, "points": points, "nodes": nodes(3)}


def best_value(model):
    sign = 1 if model["sense"] == "min" else -1
    best = None
    for point in itertools.product(*[range(int(col["up"]) + 1) for col in model["cols"]]):
        sums = [sum(Fraction(dict(map(tuple, col["rows"])).get(i, "0")) * x for col, x in zip(model["cols"], point)) for i in range(len(model["rows"]))]
        if any(row["lo"] is not None and total < Fraction(row["lo"]) for row, total in zip(model["rows"], sums)):
            continue
        if any(row["hi"] is not None and total > Fraction(row["hi"]) for row, total in zip(model["rows"], sums)):
            continue
        value = sign * sum(Fraction(col["cost"]) * x for col, x in zip(model["cols"], point))
        best = value if best is None else min(best, value)
    return sign, best


def main(program, seed, cases):
    program, random_, wrong = os.path.abspath(program), random.Random(int(seed)), 0
    with tempfile.TemporaryDirectory() as folder:
        for case in range(int(cases)):
            search = random_search(random_)
            with open(f"{folder}/L", "w") as file:
                json.dump(search, file, separators=(",", ":"), sort_keys=True)
            sign, best = best_value(search["model"])
            wanted = "infeasible" if best is None else f"optimal {best * sign}"
            cost = search["model"]["cols"][0]["cost"]
            script = f"restore L\nlbobj X0 {cost}\nwarm\ncert C\nsave A\ntrim\nwarm\nrestore A\nwarm nodes 0\n"
            ran = subprocess.run([program, "run"], input=script.encode(), capture_output=True, cwd=folder, timeout=60)
            lines = ran.stdout.decode().split("\n")
            heads = [line for line in lines if line.startswith(("optimal", "infeasible", "stopped", "unbounded"))]
            fine = lines[0] == "ok" and [head.rsplit(" nodes", 1)[0] for head in heads] == [wanted] * 3 and heads[-1].endswith(" nodes 0")
            words = lines[1].split()
            if fine and best is not None and words[0] == "bound" and words[1] not in ("none", "wide"):
                fine = words[1] != "infeasible" and sign * Fraction(words[1]) <= best
            if not fine:
                wrong += 1
                print("differs", case, wanted, lines)
    print(f"{cases} files, {wrong} differ")


main(*sys.argv[1:])
