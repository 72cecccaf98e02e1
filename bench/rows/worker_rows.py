#!/usr/bin/env python3
"""Writes rows of searches with several workers for `crates/script_rows`: their answers, and which words their option may be.

    python3 bench/rows/worker_rows.py > crates/script_rows/data/workers.rows

and the line `ok workers.rows: NAME` of each goes into `crates/script_rows/stdout`.

It shares nothing with the program: what is best of a model is the best of all its points, which has to be one alone, and which of a line's
words have a fault is said by hand, by docs/MANUAL.md. An answer is the same for every number of workers and every seed; how many results
it took is not, so that any number of them is taken up to the most that a model can want.
"""
import itertools
from random import Random

K = (("X", "Y", "Z"), (-5, -4, -3), ((2, 3, 1), (3, 4, 2)), (5, 8))


def best(model):
    """The value of the best point, and the columns that are 1 there."""
    names, costs, table, sides = model
    points = [point for point in itertools.product((0, 1), repeat=len(names))
              if all(sum(a * x for a, x in zip(row, point)) <= side for row, side in zip(table, sides))]
    values = sorted((sum(c * x for c, x in zip(costs, point)), point) for point in points)
    if len(values) > 1 and values[0][0] == values[1][0]:
        return None
    value, point = values[0]
    return value, [name for name, x in zip(names, point) if x == 1]


def text(model):
    names, costs, table, sides = model
    lines = ["ROWS", " N C", *(f" L R{r + 1}" for r in range(len(sides))), "COLUMNS", " M 'MARKER' 'INTORG'"]
    for place, name in enumerate(names):
        lines.append(f" {name} C {costs[place]}")
        lines += [f" {name} R{r + 1} {row[place]}" for r, row in enumerate(table) if row[place] != 0]
    lines += ["RHS", *(f" RHS R{r + 1} {side}" for r, side in enumerate(sides)), "BOUNDS"]
    return lines + [f" UP BND {name} 1" for name in names] + ["ENDATA"]


def optimum(model, least=1):
    value, ones = best(model)
    most = 2 ** (len(model[0]) + 1) - 1
    return [f"optimal {value} nodes {{{least}..{most}}}", *(f"x {name} 1" for name in ones), "end"]


def row(name, parts, files=()):
    """Parts are lines of a script with what each is answered."""
    print(f"\nrow {name}")
    for file, lines in files:
        print("\n".join([f"file {file}", *(f"| {line}" for line in lines)]))
    print("\n".join(["script", *(f"| {line}" for line, _ in parts), "replies"]))
    for _, replies in parts:
        print("\n".join(f"| {reply}" for reply in replies))
    print(f"status {int(any(reply.startswith('error') for _, replies in parts for reply in replies))}")


def load(file="K"):
    return (f"load {file}", ["ok"])


ARGUMENTS = ["error 03 arguments"]
NO_MODEL = ["error 04 no model"]
MANY = ["error 08 limit 64"]


def number(word):
    return [f"error 07 number {word}"]


print("# Searches with several workers, and the words of their option.")
print("# Written by: python3 bench/rows/worker_rows.py")
print("file K < models/K")

end = optimum(K)
row("four workers, and two seeds", [load(), ("solve workers 4 seed 7", end), ("solve workers 4 seed 8", end)])
row("one worker by name", [load(), ("solve workers 1 seed 0", end), ("solve workers 1 seed 18446744073709551615", end)])
row("as many workers as there may be", [load(), ("solve workers 64 seed 18446744073709551615", end), ("solve workers 63 seed 0", end)])
row("a worker too many", [load(), ("solve workers 65 seed 1", MANY), ("warm workers 65 seed 1", MANY),
                          ("solve workers 18446744073709551615 seed 1", MANY), ("solve nodes 0 workers 65 seed 1", MANY)])
row("a worker too many leaves what was found", [
    load(), ("solve", end), ("solve workers 65 seed 1", MANY), ("cert F", ["ok"]), ("warm workers 65 seed 1", MANY), ("cert G", ["ok"]),
    ("warm", [line.replace("{1..15}", "0") for line in end])])
row("no model", [("solve workers 4 seed 7", NO_MODEL), ("solve workers 65 seed 1", NO_MODEL), ("warm workers 4 seed 7", NO_MODEL),
                 ("warm workers 65 seed 1", NO_MODEL)])
row("no worker", [("solve workers 0 seed 1", number("0")), load(), ("solve workers 0 seed 1", number("0")), ("warm workers 0 seed 1", number("0"))])
row("words that are no numbers", [
    ("solve workers 18446744073709551616 seed 1", number("18446744073709551616")),
    ("solve workers 4 seed 18446744073709551616", number("18446744073709551616")),
    ("solve workers 04 seed 1", number("04")), ("solve workers -4 seed 1", number("-4")), ("solve workers 4 seed +1", number("+1")),
    ("solve workers 1/2 seed 1", number("1/2")), ("solve workers x seed y", number("x")), ("solve workers 1 seed y", number("y"))])
row("the first word that is no number", [
    ("solve nodes x workers 0 seed y", number("x")), ("solve workers 0 seed y nodes x", number("0")),
    ("solve workers 1 seed y pivots x", number("y")), ("solve pivots 1 workers 2 seed 3 nodes x", number("x")),
    ("warm workers 65 seed y", number("y"))])
row("half an option", [(f"{command} {words}", ARGUMENTS) for command in ("solve", "warm")
                       for words in ("workers 4", "workers 4 seed", "seed 7", "workers", "workers 4 nodes 3", "nodes 3 workers 4", "workers 0")])
row("words in other orders", [(f"solve {words}", ARGUMENTS) for words in (
    "seed 7 workers 4", "workers 4 nodes 3 seed 7", "workers seed 4 7", "4 workers 7 seed", "nodes 3 seed 7 workers 4", "workers 4 seed nodes 3",
    "workers x nodes 3 seed y")])
row("an option twice", [(f"solve {words}", ARGUMENTS) for words in (
    "workers 4 seed 7 workers 4 seed 7", "workers 4 seed 7 seed 7", "workers 4 workers 4 seed 7", "nodes 3 workers 4 seed 7 nodes 3",
    "pivots 3 pivots 3 workers 4 seed 7", "nodes 3 pivots 3 workers 4 seed 7 workers 4 seed 7")])
row("other key words", [(f"solve {words}", ARGUMENTS) for words in ("worker 4 seed 7", "workers 4 seeds 7", "WORKERS 4 seed 7", "workers 4 seed 7 all 3")])
row("options in any order", [load()] + [
    (" ".join(["solve", *options]), end)
    for options in itertools.permutations(("nodes 15", "pivots 100", "workers 3 seed 9"))])
row("two options in any order", [load()] + [
    (" ".join(["solve", *options]), end) for other in ("nodes 15", "pivots 100") for options in itertools.permutations((other, "workers 5 seed 2"))])
row("no results are allowed, then warm", [
    load(), ("solve nodes 0 workers 4 seed 7", ["stopped nodes 0 bound -12 best none"]),
    ("warm workers 4 seed 7 nodes 0", ["stopped nodes 0 bound -12 best none"]), ("warm workers 3 seed 1", end),
    ("warm workers 2 seed 5", [line.replace("{1..15}", "0") for line in end]), ("cert F", ["ok"])])

random = Random(7)
made = 0
while made < 6:
    columns = random.randint(4, 7)
    model = (tuple(f"C{place + 1}" for place in range(columns)), tuple(-random.randint(1, 20) for _ in range(columns)),
             *(lambda table: (table, tuple(sum(line) // 2 for line in table)))(
                 tuple(tuple(random.randint(0, 9) for _ in range(columns)) for _ in range(random.randint(1, 4)))))
    if best(model) is None:
        continue
    made += 1
    row(f"a random model, {made}", [load("M")] + [
        (f"solve workers {workers} seed {random.randrange(2 ** 64)}", optimum(model)) for workers in (1, 2, 3, 8, 64)]
        + [("cert F", ["ok"])], [("M", text(model))])
