"""How long an edit of a large kept tree takes, for each kind of edit, with one program and with another.

    python3 bench/series/edit_times.py BEFORE AFTER MODEL [EDITS [RUNS]]

BEFORE and AFTER are two built `symphony`, MODEL is an MPS file (free MPS, no RANGES) whose tree is to be edited. BEFORE solves it once and
saves the search. Then, for each kind, each program reads the model and the search and makes EDITS edits of that kind, drawn with
one seed. It tells the milliseconds of processor time an edit, the least of RUNS runs, less that of a run with no edit; it stops
where the replies of the two programs differ in a byte.
"""
import os
import random
import subprocess
import sys
import tempfile

KINDS = ("cost", "cost2", "row", "bounds", "kind", "addcol", "delcol", "addrow", "delrow", "replacerow")


def read(path):
    rows, cols, section = {}, {}, None
    for line in open(path):
        words = line.split()
        if not words or line.startswith("*"):
            continue
        if not line.startswith(" "):
            section = words[0]
        elif section == "ROWS" and words[0] != "N":
            rows[words[1]] = [words[0], "0"]
        elif section == "COLUMNS" and words[1] != "'MARKER'":
            cols.setdefault(words[0], []).extend(words[1::2])
        elif section == "RHS":
            words = words[1:] if len(words) % 2 else words
            for row, value in zip(words[0::2], words[1::2]):
                if row in rows:
                    rows[row][1] = value
    return rows, cols


def edits(kind, rows, cols, count):
    draw = random.Random(kind)
    names, columns = list(rows), list(cols)
    made = []
    for k in range(count):
        row, column = draw.choice(names), draw.choice(columns)
        side = {"L": "hi", "G": "lo", "E": "both"}[rows[row][0]]
        some = draw.sample(columns, min(3, len(columns)))
        if kind in ("cost", "cost2"):
            made.append(f"edit {kind} {column} {draw.randint(1, 200)}")
        elif kind == "row":
            made.append(f"edit row {row} {side} {int(float(rows[row][1])) + draw.randint(0, 3)}")
        elif kind == "bounds":
            made.append(f"edit bounds {column} 0 {(k + 1) % 2}")
        elif kind == "kind":
            made.append(f"edit kind {columns[k // 2 % len(columns)]} {'int' if k % 2 else 'cont'}")
        elif kind == "addcol":
            made.append(f"edit addcol NEW{k} int 0 1 {draw.randint(1, 200)} 0 {row} {draw.randint(1, 9)}")
        elif kind == "delcol" and k + 3 < len(columns):
            made.append(f"edit delcol {columns[-1 - k]}")
        elif kind == "addrow":
            made.append(f"edit addrow NEW{k} none {draw.randint(1, 3)} " + " ".join(f"{name} 1" for name in some))
        elif kind == "delrow" and k + 1 < len(names):
            made.append(f"edit delrow {names[-1 - k]}")
        elif kind == "replacerow":
            made.append(f"edit replacerow {row} none {draw.randint(1, 3)} " + " ".join(f"{name} 1" for name in some))
    return made


def run(program, folder, lines):
    begun = os.times()
    text = subprocess.run([program, "run"], input="\n".join(lines) + "\n", capture_output=True, text=True, cwd=folder).stdout
    ended = os.times()
    return text, ended.children_user + ended.children_system - begun.children_user - begun.children_system


def least(program, folder, lines, runs):
    answers = [run(program, folder, lines) for _ in range(runs)]
    return answers[0][0], min(seconds for _, seconds in answers)


def main(before, after, model, count=60, runs=3):
    programs = [os.path.abspath(before), os.path.abspath(after)]
    rows, cols = read(model)
    with tempfile.TemporaryDirectory() as folder:
        with open(os.path.join(folder, "M"), "w") as file:
            file.write(open(model).read())
        print(run(programs[0], folder, ["load M", "solve", "save W"])[0], end="")
        begin = ["load M", "restore W"]
        begun = [least(program, folder, begin, int(runs))[1] for program in programs]
        for kind in KINDS:
            made = edits(kind, rows, cols, int(count))
            told = [least(program, folder, begin + made, int(runs)) for program in programs]
            assert told[0][0] == told[1][0], kind
            refused = told[0][0].count("error")
            each = [1000 * (seconds - first) / len(made) for (_, seconds), first in zip(told, begun)]
            print(f"{kind}: {each[0]:.1f} ms before, {each[1]:.1f} ms after ({len(made)} edits, {refused} refused)", flush=True)


if __name__ == "__main__":
    main(*sys.argv[1:])
