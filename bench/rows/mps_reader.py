#!/usr/bin/env python3
"""Reads a free MPS text by the rules of docs/MANUAL.md, in Python's fractions.

    python3 bench/rows/mps_reader.py FILE [intupper N]

prints the canonical text of the model that the file means, or `line L code C`.

It shares nothing with the program. What stands on a line is judged by looking at all lines before it once more, so that no table
is kept from line to line.
"""
import re
import sys
from fractions import Fraction

LARGEST = 2**127 - 1
INFINITY = 10**20
SECTIONS = ["NAME", "OBJSENSE", "ROWS", "COLUMNS", "RHS", "RANGES", "BOUNDS", "ENDATA"]
RANK = {"NAME": 1, "OBJSENSE": 2, "ROWS": 3, "COLUMNS": 4, "RHS": 5, "RANGES": 5, "BOUNDS": 5, "ENDATA": 6}
SENSES = {"MIN": "MIN", "MINIMIZE": "MIN", "MAX": "MAX", "MAXIMIZE": "MAX"}
WITH_NUMBER = ["LO", "UP", "FX", "LI", "UI"]
WITHOUT_NUMBER = ["FR", "MI", "PL", "BV"]
NOT_NUMBER, WIDE = "not a number", "too wide"


class Fault(Exception):
    def __init__(self, line, code):
        self.line, self.code = line, code


def key(field):
    """A key word: either case of ASCII letters."""
    return re.sub(rb"[a-z]", lambda m: m.group().upper(), field).decode("latin-1")


# ---- numbers


def parsed(field):
    """(number or None where it is none, is it too wide, does its magnitude reach 10^20)."""
    text = field.decode("latin-1")
    quotient = re.fullmatch(r"([+-]?)([0-9]+)/([0-9]+)", text)
    if quotient:
        sign, top, bottom = quotient.groups()
        top, bottom = int(top), int(bottom)
        if bottom == 0:
            return None, False, False
        number = Fraction(-top if sign == "-" else top, bottom)
        return number, top > LARGEST or bottom > LARGEST, abs(number) >= INFINITY
    decimal = re.fullmatch(r"([+-]?)([0-9]*)(?:\.([0-9]*))?(?:[eEdD]([+-]?)([0-9]+))?", text)
    if not decimal:
        return None, False, False
    sign, whole, point, minus, power = decimal.groups()
    digits = whole + (point or "")
    if digits == "":
        return None, False, False
    exponent = int(power or "0") * (-1 if minus == "-" else 1) - len(point or "")
    digits = digits.lstrip("0")
    exponent += len(digits) - len(digits.rstrip("0"))
    digits = digits.rstrip("0")
    if digits == "":
        return Fraction(0), False, False
    mantissa = int(digits)
    if abs(exponent) > 2000:
        # far from anything that has room: an exponent beyond all digits decides alone
        if abs(exponent) > 2000 + len(digits):
            return Fraction(-1 if sign == "-" else 1), True, exponent > 0
    number = mantissa * Fraction(10) ** exponent
    wide = mantissa > LARGEST or exponent < -38 or exponent > 38 or (exponent >= 0 and mantissa * 10**exponent > LARGEST)
    return (-number if sign == "-" else number), wide, number >= INFINITY


def number_of(field):
    number, wide, _ = parsed(field)
    if number is None:
        return NOT_NUMBER
    return WIDE if wide else number


def limit_of(field):
    """A bound's number, where 'inf' and '-inf' are the infinite ones."""
    if re.fullmatch(rb"[+-]?(inf|infinity)", field, re.I):
        return "-inf" if field[:1] == b"-" else "inf"
    number, wide, reaches = parsed(field)
    if number is None:
        return NOT_NUMBER
    if reaches:
        return "-inf" if number < 0 else "inf"
    return WIDE if wide else number


def sum_has_room(x, y):
    """The four numbers on the way to the sum of two fractions."""
    from math import gcd
    g = gcd(x.denominator, y.denominator)
    left = x.numerator * (y.denominator // g)
    right = y.numerator * (x.denominator // g)
    parts = [left, right, left + right, x.denominator * (y.denominator // g)]
    return all(abs(part) <= LARGEST for part in parts)


# ---- lines


class Record:
    def __init__(self, line, header, fields):
        self.line, self.header, self.fields = line, header, fields
        self.section = None

    def word(self, place):
        return self.fields[place] if place < len(self.fields) else b""


def raw_lines(text):
    """(line number, bytes before its line feed, does a line feed end it)."""
    pieces = text.split(b"\n")
    lines = [(place + 1, piece, True) for place, piece in enumerate(pieces[:-1])]
    if pieces[-1]:
        lines.append((len(pieces), pieces[-1], False))
    return lines


def shown(number, raw, ended):
    """The record of a line, None where it is skipped."""
    line = raw[:-1] if ended and raw.endswith(b"\r") else raw
    comment = line.startswith(b"*")
    if not comment and any(not (byte == 9 or 32 <= byte <= 126) for byte in line):
        raise Fault(number, 1)
    if len(raw) > 4096:
        raise Fault(number, 2)
    fields = [field for field in re.split(rb"[ \t]+", line) if field]
    if comment or not fields:
        return None
    return Record(number, line[:1] not in (b" ", b"\t"), fields)


# ---- what the records before a line state


def data(before, section):
    return [r for r in before if not r.header and r.section == section]


def headers(before):
    return [key(r.fields[0]) for r in before if r.header]


def row_lines(before):
    return [(key(r.fields[0]), r.fields[1]) for r in data(before, "ROWS")]


def sided(before):
    return [name for kind, name in row_lines(before) if kind != "N"]


def is_marker(r):
    return len(r.fields) == 3 and key(r.fields[1]) == "'MARKER'"


def column_lines(before):
    return [r for r in data(before, "COLUMNS") if not is_marker(r)]


def column_names(before):
    names = []
    for r in column_lines(before):
        if r.fields[0] not in names:
            names.append(r.fields[0])
    return names


def in_pairs(fields):
    return [(fields[at], fields[at + 1]) for at in range(0, len(fields) - 1, 2)]


def column_pairs(r):
    return in_pairs(r.fields[1:])


def set_pairs(r):
    return in_pairs(r.fields[len(r.fields) % 2:])


def is_within(before):
    markers = [key(r.fields[2]) for r in data(before, "COLUMNS") if is_marker(r)]
    return bool(markers) and markers[-1] == "'INTORG'"


def senses(before):
    words = [r.fields[1] for r in before if r.header and key(r.fields[0]) == "OBJSENSE" and len(r.fields) == 2]
    return words + [r.fields[0] for r in data(before, "OBJSENSE")]


def bound_parts(r):
    """(type, column, number's field or None) of a lawful count."""
    kind = key(r.fields[0])
    count = len(r.fields)
    if kind in WITH_NUMBER:
        return kind, r.word(1 if count == 3 else 2), r.fields[-1]
    return kind, r.word(1 if count == 2 else 2), None


# ---- faults of a line


def header_codes(r, before):
    word = key(r.fields[0])
    if word not in SECTIONS:
        return {3}
    codes = set()
    stands = headers(before)
    for other in stands:
        if other == word or RANK[other] > RANK[word]:
            codes.add(4)
    if word not in ("NAME", "OBJSENSE", "ROWS") and "ROWS" not in stands:
        codes.add(4)
    if word in ("RHS", "RANGES", "BOUNDS", "ENDATA") and "COLUMNS" not in stands:
        codes.add(4)
    if word == "OBJSENSE":
        if len(r.fields) > 2:
            codes.add(6)
        elif len(r.fields) == 2 and key(r.fields[1]) not in SENSES:
            codes.add(8)
    elif word != "NAME" and len(r.fields) > 1:
        codes.add(6)
    return codes


def pair_codes(pairs, before):
    known = [name for _, name in row_lines(before)]
    codes = set()
    for row, field in pairs:
        if len(row) > 255:
            codes.add(7)
        if row not in known:
            codes.add(11)
        if number_of(field) == NOT_NUMBER:
            codes.add(12)
        if number_of(field) == WIDE:
            codes.add(13)
    return codes


def is_twice(pairs, earlier):
    rows = [row for row, _ in pairs]
    return len(set(rows)) < len(rows) or any(row in earlier for row in rows)


def row_codes(r, before):
    if len(r.fields) != 2:
        return {6}
    kind, name = key(r.fields[0]), r.fields[1]
    codes = set()
    if len(name) > 255:
        codes.add(7)
    if kind not in ("N", "L", "G", "E"):
        codes.add(8)
    if name in [other for _, other in row_lines(before)]:
        codes.add(9)
    if kind in ("L", "G", "E") and len(sided(before)) >= 1000:
        codes.add(10)
    return codes


def column_codes(r, before):
    if is_marker(r):
        wanted = "'INTEND'" if is_within(before) else "'INTORG'"
        return set() if key(r.fields[2]) == wanted else {18}
    if len(r.fields) not in (3, 5):
        return {6}
    name, pairs = r.fields[0], column_pairs(r)
    codes = pair_codes(pairs, before)
    if len(name) > 255:
        codes.add(7)
    names = column_names(before)
    if name in names and names[-1] != name:
        codes.add(14)
    own = [row for other in column_lines(before) if other.fields[0] == name for row, _ in column_pairs(other)]
    if is_twice(pairs, own if names and names[-1] == name else []):
        codes.add(15)
    if name not in names and len(names) >= 4000:
        codes.add(16)
    if entries(column_lines(before) + [r], sided(before)) > 50000:
        codes.add(17)
    return codes


def entries(lines, rows):
    count = 0
    for r in lines:
        for row, field in column_pairs(r):
            number = number_of(field)
            if row in rows and number not in (0, NOT_NUMBER, WIDE):
                count += 1
    return count


def set_codes(r, before, section):
    if not 2 <= len(r.fields) <= 5:
        return {6}
    pairs = set_pairs(r)
    codes = pair_codes(pairs, before)
    if is_twice(pairs, [row for other in data(before, section) for row, _ in set_pairs(other)]):
        codes.add(22)
    free = [name for kind, name in row_lines(before) if kind == "N"]
    if section == "RANGES" and any(row in free for row, _ in pairs):
        codes.add(23)
    return codes


def bound_codes(r, before):
    if not 2 <= len(r.fields) <= 4:
        return {6}
    if key(r.fields[0]) not in WITH_NUMBER + WITHOUT_NUMBER:
        return {20}
    if key(r.fields[0]) in WITH_NUMBER and len(r.fields) < 3:
        return {6}
    kind, column, field = bound_parts(r)
    codes = set()
    if len(column) > 255:
        codes.add(7)
    if column not in column_names(before):
        codes.add(19)
    if field is not None:
        limit = limit_of(field)
        if limit == NOT_NUMBER:
            codes.add(12)
        if limit == WIDE:
            codes.add(13)
        if (kind in ("LO", "LI") and limit == "inf") or (kind in ("UP", "UI") and limit == "-inf"):
            codes.add(21)
        if kind == "FX" and limit in ("inf", "-inf"):
            codes.add(21)
    return codes


def sense_codes(r, before):
    codes = set()
    if senses(before):
        codes.add(5)
    if len(r.fields) != 1:
        codes.add(6)
    if key(r.fields[0]) not in SENSES:
        codes.add(8)
    return codes


def codes_of(r, before):
    if r.header:
        return header_codes(r, before)
    if r.section == "OBJSENSE":
        return sense_codes(r, before)
    if r.section == "ROWS":
        return row_codes(r, before)
    if r.section == "COLUMNS":
        return column_codes(r, before)
    if r.section in ("RHS", "RANGES"):
        return set_codes(r, before, r.section)
    if r.section == "BOUNDS":
        return bound_codes(r, before)
    return {5}


def records_of(text):
    """The records up to ENDATA, none of them faulty."""
    records, section, lines = [], None, raw_lines(text)
    for number, raw, ended in lines:
        r = shown(number, raw, ended)
        if r is None:
            continue
        if not r.header:
            r.section = section
        codes = codes_of(r, records)
        if codes:
            raise Fault(number, min(codes))
        records.append(r)
        if r.header:
            section = key(r.fields[0])
            if section == "ENDATA":
                return records
    raise Fault(len(lines) + 1, 4)


# ---- the model


class Row:
    def __init__(self, name, low, high):
        self.name, self.low, self.high = name, low, high


class Column:
    def __init__(self, name, integer, low, high, cost, cost2, entries):
        self.name, self.integer, self.low, self.high = name, integer, low, high
        self.cost, self.cost2, self.entries = cost, cost2, entries


class Model:
    def __init__(self, sense, names, constants, rows, columns):
        self.sense, self.names, self.constants, self.rows, self.columns = sense, names, constants, rows, columns


def free_name(base, taken):
    name, number = base, 0
    while name in taken:
        number += 1
        name = base + b"_" + str(number).encode()
    return name


def sides_of(kind, right, spread):
    """The sides of a row, or None where a step to them has no room."""
    if spread is None:
        return (None if kind == "L" else right), (None if kind == "G" else right)
    step = {"L": -abs(spread), "G": abs(spread), "E": spread}[kind]
    if not sum_has_room(right, step):
        return None
    low, high = min(right, right + step), max(right, right + step)
    if not sum_has_room(high, -low) or not sum_has_room(high, -(high - low)):
        return None
    return low, high


def bounds_of(records, name, integer):
    low, high, named = Fraction(0), None, False
    for r in data(records, "BOUNDS"):
        kind, column, field = bound_parts(r)
        if column != name:
            continue
        limit = None if field is None else limit_of(field)
        number = None if limit in ("inf", "-inf") else limit
        if kind in ("LO", "LI"):
            low = number
        if kind in ("UP", "UI"):
            high = number
            if number is not None and number < 0 and not named:
                low = None
        if kind == "FX":
            low = high = number
        if kind == "FR":
            low = high = None
        if kind == "MI":
            low = None
        if kind == "PL":
            high = None
        if kind == "BV":
            low, high = Fraction(0), Fraction(1)
        integer = integer or kind in ("BV", "LI", "UI")
        named = named or kind in ("LO", "FX", "FR", "MI", "BV", "LI")
    return integer, low, high


def read(text, intupper=None):
    records = records_of(text)
    rows = row_lines(records)
    free = [name for kind, name in rows if kind == "N"]
    rows = [(kind, name) for kind, name in rows if kind != "N"]
    taken = [name for _, name in rows]
    first = free[0] if free else free_name(b"OBJ", taken)
    second = free[1] if len(free) > 1 else free_name(b"OBJ2", taken + [first])
    right = {row: number_of(field) for r in data(records, "RHS") for row, field in set_pairs(r)}
    spreads = [(r.line, row, number_of(field)) for r in data(records, "RANGES") for row, field in set_pairs(r)]
    kinds = {name: kind for kind, name in rows}
    for line, row, spread in spreads:
        if sides_of(kinds[row], right.get(row, Fraction(0)), spread) is None:
            raise Fault(line, 13)
    spread_of = {row: spread for _, row, spread in spreads}
    made_rows = [Row(name, *sides_of(kind, right.get(name, Fraction(0)), spread_of.get(name))) for kind, name in rows]
    columns = []
    for name in column_names(records):
        own = [r for r in column_lines(records) if r.fields[0] == name]
        start = records.index(own[0])
        numbers = {row: number_of(field) for r in own for row, field in column_pairs(r)}
        integer, low, high = bounds_of(records, name, is_within(records[:start]))
        if integer and high is None and intupper is not None:
            high = Fraction(intupper)
        if integer and (low is None or high is None):
            raise Fault(own[0].line, 24)
        cost = numbers.get(free[0], Fraction(0)) if free else Fraction(0)
        cost2 = numbers.get(free[1], Fraction(0)) if len(free) > 1 else Fraction(0)
        entries = [(row.name, numbers[row.name]) for row in made_rows if numbers.get(row.name, 0) != 0]
        columns.append(Column(name, integer, low, high, cost, cost2, entries))
    constants = [-right.get(name, Fraction(0)) if len(free) > place else Fraction(0) for place, name in enumerate([first, second])]
    words = senses(records)
    sense = SENSES[key(words[0])] if words else "MIN"
    return Model(sense, [first, second], constants, made_rows, columns)


# ---- the canonical text


def canonical(model):
    out = ["NAME", "OBJSENSE " + model.sense, "ROWS"]
    names = [name.decode() for name in model.names]
    out += [" N " + name for name in names]
    for row in model.rows:
        kind = "G" if row.high is None else "E" if row.low == row.high else "L"
        out.append(f" {kind} {row.name.decode()}")
    out.append("COLUMNS")
    for column in model.columns:
        name = column.name.decode()
        numbers = [(names[0], column.cost), (names[1], column.cost2)]
        numbers += [(row.decode(), number) for row, number in column.entries]
        lines = [f" {name} {row} {number}" for row, number in numbers if number != 0] or [f" {name} {names[0]} 0"]
        out += [" M 'MARKER' 'INTORG'"] * column.integer + lines + [" M 'MARKER' 'INTEND'"] * column.integer
    out.append("RHS")
    out += [f" RHS {name} {-constant}" for name, constant in zip(names, model.constants) if constant != 0]
    for row in model.rows:
        side = row.low if row.high is None else row.high
        if side != 0:
            out.append(f" RHS {row.name.decode()} {side}")
    out.append("RANGES")
    for row in model.rows:
        if row.low is not None and row.high is not None and row.low != row.high:
            out.append(f" RNG {row.name.decode()} {row.high - row.low}")
    out.append("BOUNDS")
    for column in model.columns:
        name = column.name.decode()
        out.append(f" LO BND {name} {column.low}" if column.low is not None else f" MI BND {name}")
        out.append(f" UP BND {name} {column.high}" if column.high is not None else f" PL BND {name}")
    out.append("ENDATA")
    return "".join(line + "\n" for line in out)


def main(words):
    intupper = int(words[2]) if len(words) == 3 and words[1] == "intupper" else None
    try:
        sys.stdout.write(canonical(read(open(words[0], "rb").read(), intupper)))
    except Fault as fault:
        print(f"line {fault.line} code {fault.code}")


if __name__ == "__main__":
    main(sys.argv[1:])
