"""Holds the replies of examples/frontier against every plan that there is.

    python3 bench/fronts/example_front.py examples/frontier [CERT]

It reads the model with bench/rows/mps_reader.py, follows the script's edits of costs and rows, goes through all points (whole columns alone,
in whole numbers, leaving a branch where a row can't hold any more), and shares nothing with the solver. Each `mcsolve` has to be answered
with the outcomes that no other dominates. CERT is the certificate that the script wrote: front_checker.py has to accept it over the model. It prints
the wanted replies, says how many differ, and ends with status 1 where one does.
"""
import os
import sys

sys.path.insert(0, os.path.join(os.path.dirname(os.path.abspath(__file__)), "..", "rows"))

from front_checker import reply  # noqa: E402
from front_models import front  # noqa: E402
from mps_reader import Row, read  # noqa: E402


def outcomes(model):
    """The outcomes of all points of a model that is minimized and has whole columns alone."""
    rows = [(row.low, row.high) for row in model.rows]
    places = {row.name: place for place, row in enumerate(model.rows)}
    entries = [[(places[name], int(number)) for name, number in column.entries] for column in model.columns]
    boxes = [(int(column.low), int(column.high)) for column in model.columns]
    # what the columns from each place on can still give to each row
    rest = [[(0, 0)] * len(rows)]
    for pairs, (low, high) in zip(reversed(entries), reversed(boxes)):
        behind = list(rest[0])
        for row, a in pairs:
            least, most = sorted((a * low, a * high))
            behind[row] = (behind[row][0] + least, behind[row][1] + most)
        rest.insert(0, behind)
    found = set()

    def go(at, first, second, sums):
        for (low, high), done, (least, most) in zip(rows, sums, rest[at]):
            if high is not None and done + least > high or low is not None and done + most < low:
                return
        if at == len(boxes):
            found.add((first, second))
            return
        column = model.columns[at]
        for number in range(boxes[at][0], boxes[at][1] + 1):
            here = list(sums)
            for row, a in entries[at]:
                here[row] += a * number
            go(at + 1, first + int(column.cost) * number, second + int(column.cost2) * number, here)

    go(0, int(model.constants[0]), int(model.constants[1]), [0] * len(rows))
    return found


def edited(model, words):
    if words[1] in ("cost", "cost2"):
        column = next(c for c in model.columns if c.name == words[2].encode())
        setattr(column, words[1], int(words[3]))
    elif words[1] == "delrow":
        name = words[2].encode()
        model.rows = [row for row in model.rows if row.name != name]
        for column in model.columns:
            column.entries = [pair for pair in column.entries if pair[0] != name]
    elif words[1] == "addrow":
        low, high = [None if word == "none" else int(word) for word in words[3:5]]
        model.rows.append(Row(words[2].encode(), low, high))
        for name, number in zip(words[5::2], words[6::2]):
            next(c for c in model.columns if c.name == name.encode()).entries.append((words[2].encode(), int(number)))


def wanted(folder):
    lines, model = [], None
    for line in open(os.path.join(folder, "script")):
        words = line.split()
        if not words or words[0].startswith("#"):
            continue
        if words[0] == "load":
            model = read(open(os.path.join(folder, words[1]), "rb").read())
        if words[0] == "edit":
            edited(model, words)
        if words[0] == "mcsolve":
            found = front(outcomes(model))
            lines += [f"frontier complete {len(found)}"] + [f"f {first} {second}" for first, second in found] + ["end"]
        else:
            lines.append("ok")
    return lines


def main(words):
    folder, lines = words[0], wanted(words[0])
    print("\n".join(lines))
    path = os.path.join(folder, "replies")
    differ = not os.path.exists(path) or open(path).read().split("\n")[:-1] != lines
    if len(words) > 1:
        name = open(os.path.join(folder, "script")).readline().split()[1]
        told = reply(open(os.path.join(folder, name), "rb").read(), open(words[1], encoding="latin-1").read())
        count = next(line.split()[2] for line in lines if line.startswith("frontier"))
        differ = differ or told != f"accepted frontier {count}"
        print("the certificate:", told, file=sys.stderr)
    print("the replies", "differ" if differ else "are these", file=sys.stderr)
    return 1 if differ else 0


if __name__ == "__main__":
    sys.exit(main(sys.argv[1:]))
