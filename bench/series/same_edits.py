"""Random series of edits of kept searches by two programs: replies and saved files are the same to the byte.

    python3 diff.py BEFORE AFTER SEED [SERIES [EDITS]]
"""
import os, random, subprocess, sys, tempfile


def number(r, wide):
    if wide and r.random() < 0.3:
        return f"{r.randint(1, 10**15)}.{r.randint(1, 10**9)}"
    return r.choice([str(r.randint(1, 20)), f"{r.randint(0, 9)}.{r.randint(1, 9)}", f"-{r.randint(1, 9)}", "0"])


def model(r):
    cols, rows, wide = r.randint(4, 14), r.randint(2, 6), r.random() < 0.25
    lines = ["NAME SERIES"] + (["OBJSENSE", " MAX"] if r.random() < 0.3 else []) + ["ROWS", " N C"]
    lines += [f" {r.choice('LLLGE' if i == 0 else 'LLG')} R{i}" for i in range(rows)] + ["COLUMNS"]
    kinds = [r.choice(["bin", "bin", "bin", "int", "cont", "free"]) for _ in range(cols)]
    for j in range(cols):
        whole = kinds[j] in ("bin", "int")
        if whole:
            lines.append(f" M{j} 'MARKER' 'INTORG'")
        lines.append(f" X{j} C {number(r, wide)}")
        for i in range(rows):
            if r.random() < 0.6:
                lines.append(f" X{j} R{i} {number(r, wide)}")
        if whole:
            lines.append(f" N{j} 'MARKER' 'INTEND'")
    lines += ["RHS"] + [f" R{i} {r.randint(3, 30)}" for i in range(rows)] + ["BOUNDS"]
    for j, kind in enumerate(kinds):
        if kind == "bin":
            lines.append(f" BV X{j}")
        elif kind == "int":
            lines += [f" LI X{j} {r.randint(-3, 0)}", f" UI X{j} {r.randint(1, 6)}"]
        elif kind == "cont":
            lines += [f" LO X{j} {r.randint(-2, 1)}.5", f" UP X{j} {r.randint(2, 9)}.25"]
        else:
            lines.append(f" MI X{j}")
    return "\n".join(lines + ["ENDATA"]) + "\n", cols, rows


def edit(r, names, rownames, k, wide):
    kind = r.choice(["cost", "cost", "cost", "bounds", "bounds", "bounds", "kind", "addcol", "addcol", "cost2", "row", "addrow", "delrow", "delcol", "replacerow"])
    col, row = r.choice(names), r.choice(rownames)
    some = r.sample(names, min(3, len(names)))
    pairs = " ".join(f"{c} {r.randint(-4, 9)}" for c in some)
    if kind in ("cost", "cost2"):
        return f"edit {kind} {col} {r.choice([0, r.randint(-9, 20), number(r, wide)])}"
    if kind == "bounds":
        lo = r.randint(-2, 1)
        return f"edit bounds {col} {r.choice([lo, 0, 0])} {r.choice([lo + r.randint(0, 4), 1, 1])}"
    if kind == "kind":
        return f"edit kind {col} {r.choice(['int', 'int', 'int', 'cont'])}"
    if kind == "addcol":
        names.append(f"Y{k}")
        return f"edit addcol Y{k} {r.choice(['int', 'cont'])} {r.choice(['0 1', '0 4', '-1 2', '2 1', '1 1', '0 0'])} {r.randint(-9, 20)} 0 {row} {r.randint(-4, 9)}"
    if kind == "delcol":
        if len(names) < 3:
            return "edit cost2 " + names[0] + " 1"
        names.remove(col)
        return f"edit delcol {col}"
    if kind == "addrow":
        rownames.append(f"S{k}")
        return f"edit addrow S{k} {r.choice(['none 3', '0 none', 'none 12', '1 1'])} {pairs}"
    if kind == "delrow":
        if len(rownames) < 2:
            return "edit cost2 " + names[0] + " 1"
        rownames.remove(row)
        return f"edit delrow {row}"
    if kind == "row":
        return f"edit row {row} {r.choice(['hi', 'lo'])} {r.randint(-3, 30)}"
    return f"edit replacerow {row} none {r.randint(0, 20)} {pairs}"


def main(before, after, seed, series=40, edits=80):
    programs = [os.path.abspath(before), os.path.abspath(after)]
    r, made, refused, saved = random.Random(int(seed)), 0, 0, 0
    for s in range(int(series)):
        text, cols, rows = model(r)
        names, rownames = [f"X{j}" for j in range(cols)], [f"R{i}" for i in range(rows)]
        lines = ["load M", "solve nodes " + str(r.choice([5, 20, 100, 400])) if r.random() < 0.5 else "solve", "save W0"]
        for k in range(int(edits)):
            lines.append(edit(r, names, rownames, k, False))
            made += lines[-1].startswith("edit")
            if r.random() < 0.5:
                lines.append(f"save W{k + 1}")
            if r.random() < 0.15:
                lines.append(r.choice(["warm", "warm nodes 10", "lbrhs " + r.choice(rownames) + " 3"]))
        replies, files = [], []
        for program in programs:
            with tempfile.TemporaryDirectory() as folder:
                open(os.path.join(folder, "M"), "w").write(text)
                try:
                    replies.append(subprocess.run([program, "run"], input="\n".join(lines) + "\n", capture_output=True, text=True, cwd=folder, timeout=120).stdout)
                except subprocess.TimeoutExpired:
                    replies.append("late")
                files.append({name: open(os.path.join(folder, name), "rb").read() for name in sorted(os.listdir(folder))})
        if "late" in replies:
            print("late", s)
            continue
        refused += replies[0].count("error")
        saved += len(files[0])
        if replies[0] != replies[1] or files[0] != files[1]:
            print("DIFFERS", seed, s, [n for n in files[0] if files[0][n] != files[1].get(n)])
            open(f"/tmp/law_diff_{seed}_{s}.txt", "w").write(text + "\n----\n" + "\n".join(lines))
            return 1
    print(f"seed {seed}: {series} series, {made} edits, {refused} refused or told as errors, {saved} files: none differs")
    return 0


if __name__ == "__main__":
    sys.exit(main(*sys.argv[1:]))
