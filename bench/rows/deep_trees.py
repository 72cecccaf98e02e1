"""Deep trees in files: chains of splits, each the left or the right child of the one before, and what is answered to them.

    python3 bench/rows/deep_trees.py PROGRAM

PROGRAM is a built `symphony`. A search of a model with one column is ended; then a file with a chain is restored, saved as the same bytes,
trimmed and searched; up to 4,000 splits one below the other it is searched before it is trimmed too. Splits on a column that is not
integer are one leaf. Tells each case, and at the end how many went otherwise.
"""
import json
import os
import subprocess
import sys
import tempfile


def write(path, value):
    with open(path, "w") as file:
        file.write(json.dumps(value, separators=(",", ":"), sort_keys=True))


def chain(depth, side, integer):
    column = {"cost": "-1", "cost2": "0", "int": integer, "lo": "0", "name": "X", "rows": [[0, "1"]], "up": str(depth + 1)}
    model = {"sense": "min", "obj": "C", "obj2": "OBJ2", "const": "0", "const2": "0", "rows": [{"name": "A", "lo": None, "hi": "9"}], "cols": [column]}
    leaf = {"leaf": "open", "mult": [], "farkas": [], "basis": [], "high": []}
    split = lambda v: {"split": [0, str(v)], "mult": [], "basis": [], "high": []}
    if side == "left":
        nodes = [split(depth - at) for at in range(depth)] + [leaf] * (depth + 1)
    else:
        nodes = [node for at in range(depth) for node in (split(at), leaf)] + [leaf]
    return {"warm": 2, "model": model, "cuts": [], "points": [], "nodes": nodes}


MODEL = """NAME FIVE
ROWS
 N C
COLUMNS
 X C -1
BOUNDS
 UP B X 5
ENDATA
"""
FIRST = ["ok", "optimal -5 nodes 1", "x X 5", "end"]


def replies(program, folder, lines):
    done = subprocess.run([program, "run"], cwd=folder, input="\n".join(lines) + "\n", text=True, capture_output=True)
    return done.returncode, done.stdout.splitlines()


def case(program, folder, depth, side, integer):
    write(os.path.join(folder, "deep.warm"), chain(depth, side, integer))
    searched = depth <= 4000 or not integer
    lines = ["load five.mps", "solve", "restore deep.warm", "save again.warm"] + ["warm"] * searched + ["trim", "warm", "quit"]
    code, told = replies(program, folder, lines)
    read = lambda name: open(os.path.join(folder, name)).read()
    values = [word.split(" nodes ")[0] for word in told]
    best = ["optimal -9", "x X 9", "end"]
    good = code == 0 and values == ["ok", "optimal -5"] + FIRST[2:] + ["ok", "ok"] + best * searched + ["ok"] + best + ["ok"]
    return good and (not integer or read("again.warm") == read("deep.warm"))


def main():
    program, faults = os.path.abspath(sys.argv[1]), 0
    with tempfile.TemporaryDirectory() as folder:
        with open(os.path.join(folder, "five.mps"), "w") as file:
            file.write(MODEL)
        for integer in (True, False):
            for depth in (3999, 4000, 20000, 100000):
                for side in ("left", "right"):
                    good = case(program, folder, depth, side, integer)
                    faults += not good
                    kind = "an integer column" if integer else "another column"
                    print(f"{depth} splits on {kind}, {side}: {'restored' if good else 'OTHERWISE'}", flush=True)
    print(f"{faults} went otherwise")
    sys.exit(faults > 0)


main()
