#!/usr/bin/env python3
"""All fronts of 300 random small models, certificates for them, and 3,000 changed ones, with what `symphony check` is to print of each.

    python3 bench/fronts/all_fronts.py write FOLDER

writes the models m1 .., the certificates c1 .., and the file `cases`, a line `MODEL CERT REPLY` for each, into the folder. The replies are those
of front_checker.py. Each certificate that wasn't changed has to be accepted there, each changed one that is accepted has to state the front
that all points of its model have, and second_judge.py has to say the same of each text without fault for which no step wants room; else the
program ends with status 1. It takes about two minutes.

    python3 bench/fronts/all_fronts.py compare PROGRAM FOLDER

runs `PROGRAM check MODEL CERT` for each line of `cases`, and tells which replies, or which statuses, differ.

    python3 bench/fronts/all_fronts.py rows

prints rows in the form of crates/script_rows/data: the certificates of some of the smaller models, and three changed ones of each.
"""
import os
import re
import subprocess
import sys
from collections import Counter

from changed_certificates import changes, cut_at_bytes, cut_off, drawn_case, texts
from front_certificates import front_of
from front_checker import number, reply
from front_models import points
from second_judge import verdict

MODELS = 300
CHANGES_OF_EACH = 10
MODELS_IN_ROWS, MOST_LINES_IN_ROWS = 50, 30


def stated_outcomes(text):
    lines = [line.split() for line in text.split("\n") if line.startswith("outcome")]
    return [tuple(int(number(word)) for word in words[1:]) for words in lines]


def is_true(case, text, told):
    """Whether an accepted certificate says what all points of the model say."""
    found = points(case.model)
    if told == "accepted infeasible":
        return not found
    outcomes = front_of(case.model, found)
    return told == f"accepted frontier {len(outcomes)}" and stated_outcomes(text) == outcomes


class Folder:
    """The models and certificates that were written, each text once."""

    def __init__(self, path):
        self.path, self.names, self.lines = path, {}, []

    def name(self, letter, text):
        if (letter, text) not in self.names:
            name = letter + str(1 + len([1 for other, _ in self.names if other == letter]))
            self.names[letter, text] = name
            with open(os.path.join(self.path, name), "w", encoding="latin-1", newline="") as file:
                file.write(text)
        return self.names[letter, text]

    def add(self, model, text, told):
        self.lines.append(f"{self.name('m', model)} {self.name('c', text)} {told}\n")

    def close(self):
        with open(os.path.join(self.path, "cases"), "w", encoding="latin-1", newline="") as file:
            file.write("".join(self.lines))


def kind_of(told):
    words = told.split()
    if words[0] == "rejected":
        return f"rejected {'0' if words[1] == '0' else 'N'} {words[2]}"
    if words[0] == "error":
        return re.sub(r"[0-9]+ code", "L code", told)
    return " ".join(words[:2]) if words[0] == "accepted" else f"wide {words[2]}"


class Tally:
    def __init__(self):
        self.replies, self.changes, self.wrong = Counter(), Counter(), 0

    def take(self, change, case, text, told):
        self.replies[kind_of(told)] += 1
        self.changes[change, "accepted" if told.startswith("accepted") else "refused"] += 1
        if told.startswith("accepted") and not is_true(case, text, told):
            self.wrong += 1
            print("accepted, and false:", change, told)
        if change == "none" and not told.startswith("accepted"):
            self.wrong += 1
            print("true, and not accepted:", told)
        if text.startswith("front 1") and told.split()[0] in ("accepted", "rejected") and verdict(case.model, text) != told:
            self.wrong += 1
            print("two judges differ:", change, told, verdict(case.model, text))

    def show(self):
        for kind, count in sorted(self.replies.items()):
            print(f"{count:6} {kind}")
        for change in sorted({change for change, _ in self.changes}):
            print(f"{change}: {self.changes[change, 'accepted']} accepted, {self.changes[change, 'refused']} not")


def cases(seed):
    case = drawn_case(seed)
    yield "none", case
    yield from changes(case, 7 * seed, CHANGES_OF_EACH)
    if seed % 6 == 0 and len(case.lines) <= 40:
        yield from cut_off(case)
    if seed % 60 == 1 and len(case.text()) <= 600:
        yield from cut_at_bytes(case)


def write(path):
    os.makedirs(path, exist_ok=True)
    folder, tally = Folder(path), Tally()
    for seed in range(MODELS):
        for change, case in cases(seed):
            model, text = texts(case)
            told = reply(model.encode("latin-1"), text)
            folder.add(model, text, told)
            tally.take(change, case, text, told)
    folder.close()
    tally.show()
    print(f"{len(folder.lines)} cases, {tally.wrong} wrong")
    return 1 if tally.wrong else 0


def compare(program, path):
    program, count, differ = os.path.abspath(program), 0, 0
    for line in open(os.path.join(path, "cases"), encoding="latin-1", newline="\n"):
        model, text, told = line.rstrip("\n").split(" ", 2)
        run = subprocess.run([program, "check", model, text], cwd=path, capture_output=True)
        count += 1
        status = 0 if told.startswith("accepted") else 1
        said = run.stdout.decode("latin-1")
        if said != told + "\n" or run.returncode != status:
            differ += 1
            print(f"{model} {text}: wanted {told} with status {status}, and the program says {said.strip()} with status {run.returncode}")
    print(f"{count} cases, {differ} differ")
    return 1 if differ else 0


# ---- rows


def lines_of(text):
    """A file's lines as rows have them, None where they can't."""
    if text == "" or any(ord(byte) < 32 and byte not in "\t\n" for byte in text) or re.search(r"[\\{]| $| \n", text):
        return None
    lines = text.split("\n")
    lines = lines[:-1] if lines[-1] == "" else lines[:-1] + [lines[-1] + "\\"]
    return "".join(f"| {line}\n".replace("\t", "\\t") for line in lines)


def print_row(name, case):
    model, text = texts(case)
    told, lines = reply(model.encode("latin-1"), text), lines_of(text)
    if lines is not None:
        status = 0 if told.startswith("accepted") else 1
        print(f"\nrow {name}\nwords check M T\nfile M\n{lines_of(model)}file T\n{lines}replies\n| {told}\nstatus {status}")


def rows():
    print("# Certificates of the fronts of random small models, and changed ones, and what `check` prints of them.")
    print("# Written by: python3 bench/fronts/all_fronts.py rows\nscript\n| frob")
    small = (case for case in map(drawn_case, range(MODELS)) if len(case.lines) <= MOST_LINES_IN_ROWS)
    for place, case in zip(range(1, MODELS_IN_ROWS + 1), small):
        print_row(f"model {place}", case)
        for change, changed in changes(case, 3 * place, 3):
            print_row(f"model {place}, {change.replace('_', ' ')}", changed)
    return 0


def main(words):
    if words == ["rows"]:
        return rows()
    if len(words) == 2 and words[0] == "write":
        return write(words[1])
    if len(words) == 3 and words[0] == "compare":
        return compare(words[1], words[2])
    print(__doc__)
    return 2


if __name__ == "__main__":
    sys.exit(main(sys.argv[1:]))
