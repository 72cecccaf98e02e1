"""Searches in files, read and written in both versions of the format by themselves: nothing here calls or copies the program.

    python3 bench/rows/warm_versions.py read < FILE             what the text states, as version 1, or `place P code C`
    python3 bench/rows/warm_versions.py write 1|2 < FILE        the same search, written as version 1 or 2
    python3 bench/rows/warm_versions.py texts SEED CASES        round trips and damaged texts of random trees, by this reader and writer alone
    python3 bench/rows/warm_versions.py compare PROGRAM SEED CASES
                                                                the same texts, restored and saved by a built `symphony`: tells each that it
                                                                answers otherwise than this reader
    python3 bench/rows/warm_versions.py rows SEED CASES         rows of `warm_rows`, worked out here

The program judges a search that it restores, and its leaves' states with it. So `compare` looks at the first fault where there is one, and
else at the text that is saved, whose states are taken over from the program's before the texts are compared.
"""
import json
import os
import random
import re
import subprocess
import sys
import tempfile
from fractions import Fraction

ROWS, COLUMNS, ENTRIES, CUTS, POINTS, NODES = 1000, 4000, 50000, 10000, 100, 1000000
LARGEST = 2**127 - 1
ORDER = {"col": 0, "row": 1, "cut": 2}


class Fault(Exception):
    def __init__(self, place, code):
        super().__init__(place, code)
        self.place, self.code = place, code


class Number(str):
    """A JSON number as it is spelled."""


def fault(path, code):
    raise Fault("".join(f"/{part}" for part in path) or "/", code)


# ---- JSON


def nested(text):
    """The greatest depth of lists and objects, outside strings."""
    depth = most = at = 0
    while at < len(text):
        char = text[at]
        if char == '"':
            at += 1
            while at < len(text) and text[at] != '"':
                at += 2 if text[at] == "\\" else 1
        elif char in "[{":
            depth += 1
            most = max(most, depth)
        elif char in "]}":
            depth -= 1
        at += 1
    return most


def refuse(_):
    raise ValueError


def spelled(text):
    if float(text) in (float("inf"), float("-inf")):
        raise ValueError
    return Number(text)


def value_of(data):
    try:
        text = data.decode("utf-8")
        if nested(text) > 127:
            raise ValueError
        sys.setrecursionlimit(10000)
        value = json.loads(text, parse_int=spelled, parse_float=spelled, parse_constant=refuse)
        json.dumps(value, ensure_ascii=False).encode()  # half of a surrogate pair is no text
        return value
    except (ValueError, RecursionError):
        fault([], 1)


# ---- numbers


def fits(x):
    return abs(x.numerator) <= LARGEST and x.denominator <= LARGEST


def number(value, path):
    """A number of the model: 5 where the text is none, 6 where it is too wide."""
    if not isinstance(value, str) or isinstance(value, Number):
        fault(path, 3)
    slashed = re.fullmatch(r"([+-]?)([0-9]+)/([0-9]+)", value)
    if slashed:
        sign, above, below = slashed.groups()
        if int(below) == 0:
            fault(path, 5)
        if int(above) > LARGEST or int(below) > LARGEST:
            fault(path, 6)
        return Fraction(int(above), int(below)) * (-1 if sign == "-" else 1)
    plain = re.fullmatch(r"([+-]?)([0-9]*)(?:\.([0-9]*))?(?:[eEdD]([+-]?[0-9]+))?", value)
    if not plain or not (plain.group(2) or plain.group(3)):
        fault(path, 5)
    sign, whole, behind, power = plain.group(1), plain.group(2), plain.group(3) or "", int(plain.group(4) or "0")
    digits, exponent = (whole + behind).lstrip("0"), power - len(behind)
    while digits.endswith("0"):
        digits, exponent = digits[:-1], exponent + 1
    if not digits:
        return Fraction(0)
    mantissa = int(digits)
    if mantissa > LARGEST or not -38 <= exponent <= 38 or exponent >= 0 and mantissa * 10**exponent > LARGEST:
        fault(path, 6)
    return mantissa * Fraction(10) ** exponent * (-1 if sign == "-" else 1)


def nonzero(value, path):
    x = number(value, path)
    if x == 0:
        fault(path, 5)
    return x


def whole(value, path):
    x = number(value, path)
    if x.denominator != 1:
        fault(path, 5)
    if x == LARGEST:
        fault(path, 6)
    return x


def side(value, path):
    return None if value is None else number(value, path)


def bound(value, path):
    x = side(value, path)
    if x is not None and abs(x) >= 10**20:
        fault(path, 11)
    return x


def sum_fits(a, b):
    """Whether the four numbers of a sum of reduced fractions have room."""
    from math import gcd

    g = gcd(a.denominator, b.denominator)
    one, other = a.numerator * (b.denominator // g), b.numerator * (a.denominator // g)
    return all(abs(z) <= LARGEST for z in (one, other, one + other, a.denominator * (b.denominator // g)))


def are_sides(lo, hi):
    if lo is None or hi is None:
        return lo is not hi
    return lo <= hi and sum_fits(hi, -lo) and sum_fits(hi, -(hi - lo))


# ---- parts


def member(obj, key, path, part):
    if key not in obj:
        fault(path, 2)
    return part(obj[key], path + [key])


def an_object(value, path):
    if not isinstance(value, dict):
        fault(path, 3)
    return value


def a_list(value, path, item):
    """Each item is read behind those before it."""
    if not isinstance(value, list):
        fault(path, 3)
    read = []
    for place, one in enumerate(value):
        read.append(item(one, path + [place], read))
    return read


def at_most(most, item):
    def limited(value, path, before):
        if len(before) >= most:
            fault(path, 10)
        return item(value, path, before)

    return limited


def plain(part):
    return lambda value, path, before: part(value, path)


def of_length(value, path, count):
    if not isinstance(value, list) or len(value) != count:
        fault(path, 3)
    return value


def place(value, path, count):
    if not isinstance(value, Number) or not re.fullmatch(r"0|[1-9][0-9]*", value) or int(value) >= 2**64:
        fault(path, 3)
    if int(value) >= count:
        fault(path, 7)
    return int(value)


def truth(value, path):
    if not isinstance(value, bool):
        fault(path, 3)
    return value


def word(words):
    def read(value, path):
        if isinstance(value, Number) or value not in words:
            fault(path, 3)
        return value

    return lambda value, path: read(value, path) if isinstance(value, str) else fault(path, 3)


def rising(count, beside):
    """`[place, ..]`, past the place before it."""

    def read(value, path, before):
        first, second = of_length(value, path, 2)
        at = place(first, path + [0], count)
        if before and at <= before[-1][0]:
            fault(path, 8)
        return at, beside(second, path + [1])

    return read


def a_variable(value, path, kinds, counts):
    kind = word(kinds)(value[0], path + [0])
    return kind, place(value[1], path + [1], counts[kind])


def rank(variable):
    return ORDER[variable[0]], variable[1]


def variables(counts):
    def read(value, path, before):
        variable = a_variable(of_length(value, path, 2), path, ("col", "row", "cut"), counts)
        if before and rank(variable) <= rank(before[-1]):
            fault(path, 8)
        return variable

    return read


def multipliers(counts, kind_of_number):
    def read(value, path, before):
        items = of_length(value, path, 3)
        variable = a_variable(items, path, ("row", "cut"), counts)
        if before and rank(variable) <= rank(before[-1][0]):
            fault(path, 8)
        return variable, kind_of_number(items[2], path + [2])

    return read


# ---- the model


def a_name(taken):
    def read(value, path):
        if not isinstance(value, str) or isinstance(value, Number):
            fault(path, 3)
        if not re.fullmatch(r"[!-~]{1,255}", value) or value in taken:
            fault(path, 9)
        return value

    return read


def a_model(value, path):
    obj = an_object(value, path)
    model = {"sense": member(obj, "sense", path, word(("min", "max"))), "obj": member(obj, "obj", path, a_name([]))}
    model["obj2"] = member(obj, "obj2", path, a_name([model["obj"]]))
    model["const"], model["const2"] = member(obj, "const", path, number), member(obj, "const2", path, number)

    def a_row(value, path, before):
        row = an_object(value, path)
        name = member(row, "name", path, a_name([model["obj"], model["obj2"]] + [r["name"] for r in before]))
        lo, hi = member(row, "lo", path, side), member(row, "hi", path, side)
        if not are_sides(lo, hi):
            fault(path, 11)
        return {"name": name, "lo": lo, "hi": hi}

    model["rows"] = member(obj, "rows", path, lambda v, p: a_list(v, p, at_most(ROWS, a_row)))

    def a_col(value, path, before):
        col = an_object(value, path)
        room = ENTRIES - sum(len(c["rows"]) for c in before)
        read = {"name": member(col, "name", path, a_name([c["name"] for c in before])), "int": member(col, "int", path, truth)}
        read["lo"], read["up"] = member(col, "lo", path, bound), member(col, "up", path, bound)
        if read["int"] and None in (read["lo"], read["up"]):
            fault(path, 11)
        read["cost"], read["cost2"] = member(col, "cost", path, number), member(col, "cost2", path, number)
        entry = rising(len(model["rows"]), nonzero)
        read["rows"] = member(col, "rows", path, lambda v, p: a_list(v, p, at_most(room, entry)))
        return read

    model["cols"] = member(obj, "cols", path, lambda v, p: a_list(v, p, at_most(COLUMNS, a_col)))
    return model


# ---- nodes


def one_tree(nodes):
    due = 1
    for node in nodes:
        if due == 0:
            return False
        due += 1 if "split" in node else -1
    return due == 0


def splits_above(nodes):
    """The place of the split above each node, None for the root."""
    above, due = [], []
    for at, node in enumerate(nodes):
        above.append(due.pop() if due else None)
        if "split" in node:
            due += [at, at]
    return above


def sorted_pairs(pairs):
    return sorted(pairs.items(), key=lambda pair: rank(pair[0]))


def rebuilt(nodes):
    """The nodes that these tell by differences; 13 at the first change that says none."""
    told = []
    for at, (node, up) in enumerate(zip(nodes, splits_above(nodes))):
        parent = {"mult": [], "basis": [], "high": []} if up is None else told[up]
        mult = dict(parent["mult"])
        for place_, (variable, x) in enumerate(node["mult"]):
            if mult.get(variable, Fraction(0)) == x:
                fault(["nodes", at, "mult", place_], 13)
            mult[variable] = x
        lists = {key: sorted(set(parent[key]) ^ set(node[key]), key=rank) for key in ("basis", "high")}
        told.append(dict(node, mult=sorted_pairs({v: x for v, x in mult.items() if x != 0}), **lists))
    return told


def differences(nodes):
    told = []
    for node, up in zip(nodes, splits_above(nodes)):
        parent = {"mult": [], "basis": [], "high": []} if up is None else nodes[up]
        before, now = dict(parent["mult"]), dict(node["mult"])
        zero = Fraction(0)
        mult = {v: now.get(v, zero) for v in set(before) | set(now) if before.get(v, zero) != now.get(v, zero)}
        lists = {key: sorted(set(parent[key]) ^ set(node[key]), key=rank) for key in ("basis", "high")}
        told.append(dict(node, mult=sorted_pairs(mult), **lists))
    return told


# ---- the whole


def read(data):
    top = an_object(value_of(data), [])

    def a_version(value, path):
        version = place(value, path, 2**64)
        if version not in (1, 2):
            fault(path, 4)
        return version

    version, model = member(top, "warm", [], a_version), member(top, "model", [], a_model)
    rows, cols = len(model["rows"]), len(model["cols"])

    def a_cut(value, path):
        cut = an_object(value, path)
        row = member(cut, "row", path, lambda v, p: place(v, p, rows))
        which = member(cut, "side", path, word(("hi", "lo")))
        return {"row": row, "side": which, "lits": member(cut, "lits", path, lambda v, p: a_list(v, p, rising(cols, truth)))}

    cuts = member(top, "cuts", [], lambda v, p: a_list(v, p, at_most(CUTS, plain(a_cut))))
    a_point = lambda v, p: a_list(v, p, rising(cols, nonzero))
    points = member(top, "points", [], lambda v, p: a_list(v, p, at_most(POINTS, plain(a_point))))
    counts = {"col": cols, "row": rows, "cut": len(cuts)}

    def a_node(value, path, before):
        node = an_object(value, path)
        kinds = number if version == 2 and before else nonzero
        mult = lambda key, kind: member(node, key, path, lambda v, p: a_list(v, p, multipliers(counts, kind)))
        if "split" in node:

            def branching(value, path):
                col, v = of_length(value, path, 2)
                return place(col, path + [0], cols), whole(v, path + [1])

            read_node = {"split": member(node, "split", path, branching), "mult": mult("mult", kinds)}
        else:
            read_node = {"leaf": member(node, "leaf", path, word(("open", "closed"))), "mult": mult("mult", kinds)}
            read_node["farkas"] = mult("farkas", nonzero)
        for key in ("basis", "high"):
            read_node[key] = member(node, key, path, lambda v, p: a_list(v, p, variables(counts)))
        return read_node

    nodes = member(top, "nodes", [], lambda v, p: a_list(v, p, at_most(NODES, a_node)))
    if not one_tree(nodes):
        fault(["nodes"], 12)
    return {"model": model, "cuts": cuts, "points": points, "nodes": rebuilt(nodes) if version == 2 else nodes}


def text_of(value):
    return json.dumps(value, separators=(",", ":"), sort_keys=True, ensure_ascii=False).encode()


def write(search, version):
    text = lambda x: None if x is None else str(x)
    pairs = lambda entries: [[at, str(x)] for at, x in entries]
    model = search["model"]
    col = lambda c: dict(c, lo=text(c["lo"]), up=text(c["up"]), cost=str(c["cost"]), cost2=str(c["cost2"]), rows=pairs(c["rows"]))
    shown = dict(model, const=str(model["const"]), const2=str(model["const2"]), cols=[col(c) for c in model["cols"]])
    shown["rows"] = [dict(r, lo=text(r["lo"]), hi=text(r["hi"])) for r in model["rows"]]

    def node(n):
        told = {key: [list(v) for v in n[key]] for key in ("basis", "high")}
        for key in ("mult", "farkas"):
            if key in n:
                told[key] = [[kind, at, str(x)] for (kind, at), x in n[key]]
        return dict(told, split=[n["split"][0], str(n["split"][1])]) if "split" in n else dict(told, leaf=n["leaf"])

    nodes = search["nodes"] if version == 1 else differences(search["nodes"])
    cuts = [dict(c, lits=[list(l) for l in c["lits"]]) for c in search["cuts"]]
    points = [pairs(p) for p in search["points"]]
    return text_of({"warm": version, "model": shown, "cuts": cuts, "points": points, "nodes": [node(n) for n in nodes]})


def answer(data):
    try:
        return read(data), None
    except Fault as found:
        return None, f"place {found.place} code {found.code}"


# ---- random searches, and texts that are damaged


def random_search(rand):
    rows, cols, cuts = rand.randint(1, 4), rand.randint(1, 4), rand.randint(0, 3)
    small = lambda: Fraction(rand.randint(-4, 4), rand.choice([1, 1, 2, 3]))
    some = lambda: rand.choice([x for x in range(-5, 6) if x])
    model = {"sense": rand.choice(["min", "max"]), "obj": "C", "obj2": "OBJ2", "const": small(), "const2": Fraction(0)}
    model["rows"] = [{"name": f"R{i}", "lo": None, "hi": Fraction(rand.randint(0, 9))} for i in range(rows)]
    model["cols"] = [
        {"name": f"X{j}", "int": True, "lo": Fraction(0), "up": Fraction(rand.randint(1, 4)), "cost": small(), "cost2": Fraction(0), "rows": [(i, Fraction(some())) for i in range(rows) if rand.random() < 0.7]}
        for j in range(cols)
    ]
    lits = lambda: [(j, rand.random() < 0.6) for j in range(cols) if rand.random() < 0.6]
    search = {"model": model, "cuts": [{"row": rand.randrange(rows), "side": rand.choice(["hi", "lo"]), "lits": lits()} for _ in range(cuts)]}
    search["points"] = [[(j, Fraction(rand.randint(1, 4))) for j in range(cols) if rand.random() < 0.5] for _ in range(rand.randint(0, 2))]
    duals = [("row", i) for i in range(rows)] + [("cut", k) for k in range(cuts)]
    every = [("col", j) for j in range(cols)] + duals

    def near(entries, choices, number_of):
        """Nearly these entries: some go, some come, some have another number."""
        now = dict(entries)
        for choice in choices:
            if rand.random() < 0.3:
                now.pop(choice, None) if rand.random() < 0.5 else now.update({choice: number_of()})
        return sorted_pairs(now)

    def nodes(depth, lists):
        mult = near(lists["mult"], duals, lambda: Fraction(some(), rand.choice([1, 2, 3])))
        basis = {key: [v for v, _ in near([(v, None) for v in lists[key]], every, lambda: None)] for key in ("basis", "high")}
        own = dict(basis, mult=mult)
        if depth == 0 or rand.random() < 0.3:
            return [dict(own, leaf=rand.choice(["open", "closed"]), farkas=near([], duals, lambda: Fraction(some())))]
        split = dict(own, split=(rand.randrange(cols), Fraction(rand.randint(-1, 3))))
        return [split] + nodes(depth - 1, own) + nodes(depth - 1, own)

    search["nodes"] = nodes(rand.randint(0, 4), {"mult": [], "basis": [], "high": []})
    return search


def damaged(rand, data):
    """One small change: a number, a place, a list, a key, or the order of two items."""
    value = json.loads(data)
    nodes = value["nodes"]
    node = rand.choice(nodes)
    key = rand.choice(["mult", "mult", "mult", "basis", "high", "farkas", "node", "version", "text"])
    if key == "version":
        value["warm"] = rand.choice([1, 2, 3, "2", 2.0])
    elif key == "node":
        rand.choice([lambda: nodes.pop(rand.randrange(len(nodes))), lambda: nodes.append(node), lambda: nodes.insert(0, node)])()
    elif key == "text":
        return data[: rand.randrange(len(data))]
    elif key in node:
        items = node[key]
        duals = [["row", i] for i in range(len(value["model"]["rows"]))] + [["cut", k] for k in range(len(value["cuts"]))]
        kind = rand.randrange(4)
        if kind == 0 and items:
            items.pop(rand.randrange(len(items)))
        elif kind == 1 and items and len(items[0]) == 3:
            rand.choice(items)[2] = rand.choice(["0", "0/5", "1", "-1", "1/2", "x", "1e40"])
        elif kind == 2:
            new = rand.choice(duals) + (["0"] if key in ("mult", "farkas") else [])
            if new[:2] not in [item[:2] for item in items]:
                items.append(new)
                items.sort(key=rank)
        elif len(items) > 1:
            items[0], items[-1] = items[-1], items[0]
    return text_of(value)


def texts(seed, cases):
    rand = random.Random(seed)
    for case in range(cases):
        search = random_search(rand)
        for version in (1, 2):
            data = write(search, version)
            yield case, data
            yield case, damaged(rand, data)


def check_alone(seed, cases):
    rand, wrong, codes = random.Random(seed), 0, {}
    for case in range(cases):
        search = random_search(rand)
        for version in (1, 2):
            data = write(search, version)
            got, told = answer(data)
            if got is None or write(got, version) != data or write(got, 1) != write(search, 1):
                wrong += 1
                print("case", case, "version", version, told)
            _, told = answer(damaged(rand, data))
            codes[told.split()[-1] if told else "none"] = codes.get(told.split()[-1] if told else "none", 0) + 1
    print(f"{cases} searches, {wrong} read otherwise than written; faults of damaged texts by code: {dict(sorted(codes.items()))}")
    return wrong


def with_states(data, saved):
    """The text with the states that the other one has."""
    mine, other = json.loads(data), json.loads(saved)
    if len(mine["nodes"]) == len(other["nodes"]):
        for one, two in zip(mine["nodes"], other["nodes"]):
            if "leaf" in one and "leaf" in two:
                one["leaf"] = two["leaf"]
    mine["points"] = other["points"]
    return text_of(mine)


def compare(program, seed, cases):
    program, wrong, count = os.path.abspath(program), 0, 0
    with tempfile.TemporaryDirectory() as folder:
        for case, data in texts(seed, cases):
            count += 1
            with open(os.path.join(folder, "one.warm"), "wb") as file:
                file.write(data)
            script = b"restore one.warm\nsave two.warm\nquit\n"
            replies = subprocess.run([program, "run"], input=script, cwd=folder, capture_output=True).stdout.decode().splitlines()
            search, told = answer(data)
            if told:
                fine = replies[:1] == [f"error 31 warm {told}"]
            else:
                with open(os.path.join(folder, "two.warm"), "rb") as file:
                    saved = file.read()
                fine = replies[:2] == ["ok", "ok"] and with_states(write(search, 2), saved) == saved
            if not fine:
                wrong += 1
                print("case", case, told, replies, data.decode(errors="replace"))
    print(f"{count} texts, {wrong} answered otherwise")
    return wrong


def rows(seed, cases):
    for at, (case, data) in enumerate(texts(seed, cases)):
        search, told = answer(data)
        if b"\\" in data or (told or "").endswith("code 1"):
            continue
        print(f"row random text {at}\ntext\n| " + data.decode().replace("{", "\\{") + "\\")
        if told:
            print(told + "\n")
        else:
            print("written\n| " + write(search, 2).decode().replace("{", "\\{") + "\\\n")


def main(words):
    if words[:1] == ["read"]:
        search, told = answer(sys.stdin.buffer.read())
        sys.stdout.buffer.write(told.encode() + b"\n" if told else write(search, 1))
    elif words[:1] == ["write"]:
        sys.stdout.buffer.write(write(read(sys.stdin.buffer.read()), int(words[1])))
    elif words[:1] == ["texts"]:
        sys.exit(check_alone(int(words[1]), int(words[2])) != 0)
    elif words[:1] == ["compare"]:
        sys.exit(compare(words[1], int(words[2]), int(words[3])) != 0)
    elif words[:1] == ["rows"]:
        rows(int(words[1]), int(words[2]))
    else:
        sys.exit(__doc__)


if __name__ == "__main__":
    main(sys.argv[1:])
