"""Series of edits: going on from the kept search against solving anew.

    python3 bench/series/compare.py PROGRAM SEED [SERIES]

PROGRAM is a built `symphony`. For each of SERIES random knapsack models with some rows (20 columns of 0 or 1, 5 rows) it writes 50 edits of
one kind (sides, costs, bounds, kinds, rows, columns), each followed by a search: in one script by `warm`, in the other by `solve`. It
tells, for each kind, the results placed and the seconds of processor time of both, and stops where two values differ.
"""
import os
import random
import subprocess
import sys
import tempfile

COLUMNS, ROWS, EDITS = 20, 5, 50


def model(random_):
    lines = ["NAME SERIES", "ROWS", " N C"] + [f" L R{i}" for i in range(ROWS)] + ["COLUMNS", " M 'MARKER' 'INTORG'"]
    weights = [[random_.randint(0, 9) for _ in range(COLUMNS)] for _ in range(ROWS)]
    for j in range(COLUMNS):
        lines.append(f" X{j} C -{random_.randint(1, 20)}")
        lines += [f" X{j} R{i} {weights[i][j]}" for i in range(ROWS) if weights[i][j]]
    lines += [" M 'MARKER' 'INTEND'", "RHS"] + [f" R{i} {sum(weights[i]) // 2}" for i in range(ROWS)]
    lines += ["BOUNDS"] + [f" BV X{j}" for j in range(COLUMNS)] + ["ENDATA"]
    return "\n".join(lines) + "\n", [sum(w) // 2 for w in weights]


def edits(kind, random_, halves):
    made, kinds, extra = [], {}, 0
    for k in range(EDITS):
        i, j = random_.randrange(ROWS), random_.randrange(COLUMNS)
        if kind == "sides":
            made.append([f"edit row R{i} hi {max(1, halves[i] + random_.randint(-4, 4))}"])
        elif kind == "costs":
            made.append([f"edit cost X{j} -{random_.randint(1, 20)}"])
        elif kind == "bounds":
            made.append([f"edit bounds X{j} 0 {random_.randint(0, 2)}"])
        elif kind == "kinds":
            kinds[j] = "int" if kinds.get(j) == "cont" else "cont"
            made.append([f"edit kind X{j} {kinds[j]}"])
        elif kind == "rows":
            names = random_.sample(range(COLUMNS), 3)
            made.append(([f"edit delrow N{k - 3}"] if k >= 3 else []) + [f"edit addrow N{k} none {random_.randint(1, 2)} " + " ".join(f"X{n} 1" for n in names)])
        else:
            made.append(([f"edit delcol N{k - 3}"] if k >= 3 else []) + [f"edit addcol N{k} int 0 1 -{random_.randint(1, 20)} 0 R{i} {random_.randint(1, 9)}"])
    return made


def run(program, folder, lines):
    begun = os.times()
    text = subprocess.run([program, "run"], input="\n".join(lines) + "\n", capture_output=True, text=True, cwd=folder).stdout
    ended = os.times()
    seconds = ended.children_user + ended.children_system - begun.children_user - begun.children_system
    firsts = [line.split() for line in text.split("\n") if line.startswith(("optimal", "infeasible", "unbounded", "stopped", "error"))]
    return firsts, seconds


def main(program, seed, series=5):
    program = os.path.abspath(program)
    random_ = random.Random(int(seed))
    for kind in ("sides", "costs", "bounds", "kinds", "rows", "columns"):
        placed, seconds = [0, 0], [0.0, 0.0]
        for _ in range(int(series)):
            text, halves = model(random_)
            made = edits(kind, random_, halves)
            with tempfile.TemporaryDirectory() as folder:
                with open(os.path.join(folder, "M"), "w") as file:
                    file.write(text)
                answers = []
                for at, word in enumerate(("warm", "solve")):
                    lines = ["load M", "solve"]
                    for edit in made:
                        lines += edit + [word]
                    firsts, took = run(program, folder, lines)
                    answers.append([first[:2] for first in firsts])
                    assert all(first[0] in ("optimal", "infeasible") for first in firsts), firsts
                    placed[at] += sum(int(first[-1]) for first in firsts[1:])
                    seconds[at] += took
                assert [a[:2] if a[0] == "optimal" else a[:1] for a in answers[0]] == [a[:2] if a[0] == "optimal" else a[:1] for a in answers[1]], (kind, answers)
        print(f"{kind}: warm placed {placed[0]} results in {seconds[0]:.2f} s, solve {placed[1]} in {seconds[1]:.2f} s")


if __name__ == "__main__":
    main(*sys.argv[1:])
