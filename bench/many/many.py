"""Looks for the best choice of projects at each budget of examples/many, and holds it against the replies.

    python3 bench/many/many.py examples/many

It tries every choice, but for those that can't become better than the best one so far, in whole numbers, and shares nothing with the
solver. It prints how many budgets it went through and ends with status 1 where a reply shows another value, or a point that does not have
it or passes a budget. It takes a few seconds.
"""

import sys


def read_model(path):
    rows, columns, budgets, section = [], {}, {}, ""
    for line in open(path):
        words = line.split()
        if line.startswith("*") or not words:
            continue
        if not line.startswith(" "):
            section = words[0]
        elif section == "ROWS" and words[0] == "L":
            rows.append(words[1])
        elif section == "COLUMNS" and words[1] != "'MARKER'":
            columns.setdefault(words[0], {})[words[1]] = int(words[2])
        elif section == "RHS":
            budgets[words[0]] = int(words[1])
    return rows, columns, budgets


def best_value(rows, columns, budgets):
    """The greatest gain within the budgets."""
    takes = sorted(([column["GAIN"], [column.get(row, 0) for row in rows]] for column in columns.values()), reverse=True)
    behind = [sum(gain for gain, _ in takes[at:]) for at in range(len(takes) + 1)]
    best = 0

    def go(at, value, left):
        nonlocal best
        best = max(best, value)
        if at == len(takes) or value + behind[at] <= best:
            return
        gain, amounts = takes[at]
        rest = [have - amount for have, amount in zip(left, amounts)]
        if min(rest) >= 0:
            go(at + 1, value + gain, rest)
        go(at + 1, value, left)

    go(0, 0, [budgets[row] for row in rows])
    return best


def read_answers(path):
    """The value and the columns that are 1 of each `optimal` among replies."""
    answers = []
    for line in open(path):
        words = line.split()
        if words[0] == "optimal":
            answers.append((int(words[1]), []))
        elif words[0] == "x":
            answers[-1][1].append(words[1])
    return answers


def main():
    folder = sys.argv[1]
    rows, columns, budgets = read_model(folder + "/projects.mps")
    cases = [budgets]
    for line in open(folder + "/edits"):
        words = line.split()
        if words[0] == "edit":
            cases.append({**budgets, words[2]: int(words[4])})
    answers = read_answers(folder + "/replies") + read_answers(folder + "/edits-replies")
    wrong = len(cases) != len(answers)
    for case, (value, taken) in zip(cases, answers):
        gain = sum(columns[name]["GAIN"] for name in taken)
        kept = all(sum(columns[name].get(row, 0) for name in taken) <= case[row] for row in rows)
        best = best_value(rows, columns, case)
        if (value, gain, kept) != (best, best, True):
            print("differs:", case, "best", best, "told", value, "gain", gain, "within", kept)
            wrong = True
    print(len(answers), "budgets")
    return 1 if wrong else 0


sys.exit(main())
