#!/usr/bin/env python3
"""Writes rows of model files for `crates/script_rows`: what each means, or its first fault.

    python3 bench/rows/mps_rows.py > crates/script_rows/data/mps.rows

and the line `ok mps.rows: NAME` of each row goes into `crates/script_rows/stdout`.

Each fault below says its line and code, worked out by hand from docs/MANUAL.md; `mps_reader.py` reads the same texts, and where the
two differ this program stops. The canonical texts, and the faults of texts that are cut at each byte, are the reader's.
"""
import re
import sys

from mps_reader import LARGEST, Fault, canonical, read

# a model that uses every section, each type of row and column, both objectives and a row of type N that is ignored
BASE = """NAME B
OBJSENSE
 MAX
ROWS
 N C
 N D
 L A
 G B
 E P
 N F
COLUMNS
 X C 1 A 2
 X D 3
 M 'MARKER' 'INTORG'
 Y B 1 P -1/2
 M 'MARKER' 'INTEND'
 Z F 4 P 2.5
RHS
 S C 7 A 4
 B 1
RANGES
 R A 3
 P -2
BOUNDS
 UP S X 4
 MI S X
 LI Y 0
 UI Y 9
 FR Z
ENDATA
""".splitlines()


def changed(number, *lines):
    """The base with a line replaced, by its number from 1: by several lines, or by none."""
    return BASE[: number - 1] + list(lines) + BASE[number:]


def inserted(number, *lines):
    return BASE[:number] + list(lines) + BASE[number:]


LONG = "L" * 256
WORST = str(LARGEST)

# (name, lines, (line, code) or None)
FAULTS = {
    "each code alone": [
        (changed(12, " X C 1 A 2\x7f"), (12, 1)),
        (changed(13, " X D 3" + " " * 4091), (13, 2)),
        (changed(1, "TITLE B"), (1, 3)),
        (changed(2, "ROWS", " N C", "OBJSENSE"), (4, 4)),
        (changed(1, "NAME", " X"), (2, 5)),
        (changed(4, "ROWS now"), (4, 6)),
        (changed(7, " L " + LONG), (7, 7)),
        (changed(3, " MOST"), (3, 8)),
        (changed(10, " N A"), (10, 9)),
        (changed(12, " X Q 1"), (12, 11)),
        (changed(12, " X C 1,5"), (12, 12)),
        (changed(12, " X C 1e39"), (12, 13)),
        (inserted(17, " X P 1"), (18, 14)),
        (changed(13, " X A 3"), (13, 15)),
        (changed(14, " M 'MARKER' 'INTEND'"), (14, 18)),
        (changed(29, " FR W"), (29, 19)),
        (changed(29, " SC Z 3"), (29, 20)),
        (changed(29, " FX Z 1e20"), (29, 21)),
        (changed(20, " C 1"), (20, 22)),
        (changed(23, " A 1"), (23, 22)),
        (changed(23, " D 1"), (23, 23)),
        (changed(28), (15, 24)),
    ],
    "a code beside a lesser and a greater one on its line": [
        # 1 and 2, 1 and 6
        (changed(13, " X D 3\x01" + " " * 4091), (13, 1)),
        # 2 and 6
        (changed(13, " X D" + " " * 4094), (13, 2)),
        # 3 and 6
        (changed(21, "RANGE R X"), (21, 3)),
        # 4, 6 and 8
        (inserted(3, "OBJSENSE UP IS MAX"), (4, 4)),
        # 5, 6 and 8
        (inserted(3, " THE MOST"), (4, 5)),
        # 6 and 8
        (changed(3, " THE MOST"), (3, 6)),
        (changed(2, "OBJSENSE THE MOST"), (2, 6)),
        # 6 and 7, 6 and 20
        (changed(17, " " + LONG + " P 1 F"), (17, 6)),
        (changed(29, " SC S Z 1 2"), (29, 6)),
        # 7, 8 and 9; 7 and 11
        (changed(10, " Q " + LONG), (10, 7)),
        (changed(20, " " + LONG + " x"), (20, 7)),
        # 8 and 9
        (changed(10, " Q A"), (10, 8)),
        # 11, 12 and 15
        (changed(13, " X Q x A 1"), (13, 11)),
        # 12, 13 and 14
        (inserted(17, " X P 1e39 B x"), (18, 12)),
        # 13 and 14
        (inserted(17, " X P 1e39"), (18, 13)),
        # 14 and 15
        (inserted(17, " X P 1 P 1"), (18, 14)),
        # 11, 22 and 23
        (changed(23, " A 1 Q 1"), (23, 11)),
        # 12 and 23, 13 and 23
        (changed(23, " D x"), (23, 12)),
        (changed(23, " D 1e39"), (23, 13)),
        # 22 and 23
        (changed(23, " D 1 D 1"), (23, 22)),
        (changed(23, " A 1 D 1"), (23, 22)),
        # 7, 12, 13, 19 and 21
        (changed(29, " UP S " + LONG + " -inf"), (29, 7)),
        (changed(29, " UP S W x"), (29, 12)),
        (changed(29, " UP S W 1e-39"), (29, 13)),
        (changed(29, " UP S W -inf"), (29, 19)),
        # an unknown type has no other fault
        (changed(29, " XX " + LONG + " " + LONG), (29, 20)),
    ],
    "a code above and below others": [
        (BASE[:4] + [" Q C"] + BASE[5:20] + ["RANGE"] + BASE[21:], (5, 8)),
        (BASE[:20] + ["RANGE"] + BASE[21:28] + [" SC Z 1"] + BASE[29:], (21, 3)),
        # a line's fault goes before those that are looked for behind the last line
        (changed(28)[:28] + ["ENDATA x"], (29, 6)),
        # so does the want of ENDATA
        (changed(28)[:28], (29, 4)),
        # and those of RANGES before those of columns
        (changed(28)[:21] + [" R B " + WORST] + changed(28)[22:], (22, 13)),
    ],
    "numbers that are looked at though they count for nothing": [
        (changed(17, " Z F x P 2.5"), (17, 12)),
        (changed(17, " Z F 1e39 P 2.5"), (17, 13)),
        (changed(17, " Z F 0 F 0"), (17, 15)),
        (changed(20, " F 1 F 1"), (20, 22)),
        (changed(20, " F 0"), None),
        (changed(23, " F 0"), (23, 23)),
        (changed(23, " P 0"), None),
        # the number of FR, MI, PL and BV is not looked at
        (changed(29, " FR S Z x"), None),
        (changed(26, " MI S X 1e99"), None),
        (changed(29, " PL S Z"), None),
        (changed(29, " BV S Z 1/0"), None),
    ],
    "sections out of order, twice, and in either case": [
        (changed(1, "OBJSENSE MIN", "NAME B"), (2, 4)),
        (changed(1), None),
        (changed(1, "name", "* NAME"), None),
        (BASE[:1] + BASE[3:], None),
        (["ObjSense Maximize"] + BASE[3:], None),
        (["OBJSENSE"] + BASE[3:], None),
        (["OBJSENSE", " minimize"] + BASE[3:], None),
        (["OBJSENSE MAX", " MAX"] + BASE[3:], (2, 5)),
        (["OBJSENSE", " MIN", " MIN"] + BASE[3:], (3, 5)),
        (["OBJSENSE", "OBJSENSE MAX"] + BASE[3:], (2, 4)),
        (["OBJSENSE MAX MIN"] + BASE[3:], (1, 6)),
        (["OBJSENSE"] + BASE[4:], (2, 6)),
        (BASE[:3] + BASE[10:], (4, 4)),
        (BASE[:10] + BASE[17:], (11, 4)),
        (BASE[:10] + BASE[29:], (11, 4)),
        (BASE[:10] + BASE[20:], (11, 4)),
        (BASE[:17] + BASE[20:23] + BASE[17:20] + BASE[23:], None),
        (BASE[:17] + BASE[23:29] + BASE[20:23] + BASE[17:20] + BASE[29:], None),
        (BASE[:23] + ["RANGES"] + BASE[23:], (24, 4)),
        (BASE[:29] + ["RHS"] + BASE[29:], (30, 4)),
        (BASE[:29] + ["BOUNDS"] + BASE[29:], (30, 4)),
        (BASE[:29] + ["COLUMNS"] + BASE[29:], (30, 4)),
        (BASE[:29] + ["OBJSENSE"] + BASE[29:], (30, 4)),
        (BASE + ["NONSENSE", "\x01"], None),
    ],
    "counts of fields": [
        (changed(7, " L"), (7, 6)),
        (changed(7, " L A 1"), (7, 6)),
        (changed(12, " X C"), (12, 6)),
        (changed(12, " X C 1 A"), (12, 6)),
        (changed(12, " X C 1 A 2 B 3"), (12, 6)),
        (changed(19, " C"), (19, 6)),
        (changed(19, " S C 7 A 4 B"), (19, 6)),
        (changed(19, " C 7 A 4"), None),
        (changed(22, " A"), (22, 6)),
        (changed(22, " A 3 B 1"), None),
        (changed(22, " R A 3 B 1"), None),
        (changed(22, " R A 3 B 1 P"), (22, 6)),
        (changed(25, " UP X"), (25, 6)),
        (changed(25, " UP"), (25, 6)),
        (changed(26, " MI"), (26, 6)),
        (changed(26, " MI X"), None),
        (changed(26, " MI S X 4 5"), (26, 6)),
        # of three fields behind MI the second is the set
        (changed(26, " MI X S"), (26, 19)),
        (changed(25, " UP X 4"), None),
    ],
    "names of 255 bytes": [
        (["ROWS", " N " + "C" * 255, " L " + "R" * 255, "COLUMNS", " " + "X" * 255 + " " + "C" * 255 + " 1", "RANGES", " " + "R" * 255 + " 1", "BOUNDS", " FR " + "X" * 255, "ENDATA"], None),
        (["ROWS", " N C", "COLUMNS", " " + LONG + " C 1", "ENDATA"], (4, 7)),
        (["ROWS", " N C", "COLUMNS", " X C 1", "RANGES", " " + LONG + " 1", "ENDATA"], (6, 7)),
    ],
    "sides of RANGES without room": [
        # hi has none
        (["ROWS", " G R", "COLUMNS", "RHS", " R " + WORST, "RANGES", " R 1", "ENDATA"], (7, 13)),
        # lo has none
        (["ROWS", " L R", "COLUMNS", "RHS", " R -" + WORST, "RANGES", " R 1", "ENDATA"], (7, 13)),
        (["ROWS", " E R", "COLUMNS", "RHS", " R " + WORST, "RANGES", " R 1", "ENDATA"], (7, 13)),
        (["ROWS", " E R", "COLUMNS", "RHS", " R -" + WORST, "RANGES", " R -1", "ENDATA"], (7, 13)),
        # the same numbers on the other side have room
        (["ROWS", " L R", "COLUMNS", "RHS", " R " + WORST, "RANGES", " R 1", "ENDATA"], None),
        (["ROWS", " E R", "COLUMNS", "RHS", " R " + WORST, "RANGES", " R -1", "ENDATA"], None),
        (["ROWS", " E R", "COLUMNS", "RHS", " R " + WORST, "RANGES", " R 0", "ENDATA"], None),
        # a common denominator without room
        (["ROWS", " G R", "COLUMNS", "RHS", " R 1/" + WORST, "RANGES", " R 1/2", "ENDATA"], (7, 13)),
        # without a number of RHS there is always room
        (["ROWS", " E R", "COLUMNS", "RANGES", " R " + WORST, "ENDATA"], None),
        # in the order of RANGES, not of the rows
        (["ROWS", " G R", " G S", "COLUMNS", "RHS", " R " + WORST + " S " + WORST, "RANGES", " S 1", " R 1", "ENDATA"], (8, 13)),
        (["ROWS", " G R", " G S", "COLUMNS", "RHS", " R " + WORST + " S 1", "RANGES", " S 1 R 1", "ENDATA"], (8, 13)),
        # before a column without bounds, which stands above
        (["ROWS", " N C", " G R", "COLUMNS", " M 'MARKER' 'INTORG'", " X C 1", "RHS", " R " + WORST, "RANGES", " R 1", "ENDATA"], (10, 13)),
        # RANGES above RHS
        (["ROWS", " G R", "COLUMNS", "RANGES", " R 1", "RHS", " R " + WORST, "ENDATA"], (5, 13)),
    ],
    "integer columns that lack a bound": [
        (["ROWS", " N C", "COLUMNS", " X C 1", "BOUNDS", " BV X", " FR X", "ENDATA"], (4, 24)),
        (["ROWS", " N C", "COLUMNS", " X C 1", "BOUNDS", " BV X", " MI X", "ENDATA"], (4, 24)),
        (["ROWS", " N C", "COLUMNS", " X C 1", "BOUNDS", " BV X", " PL X", "ENDATA"], (4, 24)),
        (["ROWS", " N C", "COLUMNS", " X C 1", "BOUNDS", " FR X", " BV X", "ENDATA"], None),
        (["ROWS", " N C", "COLUMNS", " X C 1", "BOUNDS", " LI X 0", "ENDATA"], (4, 24)),
        (["ROWS", " N C", "COLUMNS", " X C 1", "BOUNDS", " UI X -1", "ENDATA"], (4, 24)),
        (["ROWS", " N C", "COLUMNS", " X C 1", "BOUNDS", " MI X", " UI X -1", "ENDATA"], (4, 24)),
        (["ROWS", " N C", "COLUMNS", " X C 1", "BOUNDS", " LI X -2", " UI X -1", "ENDATA"], None),
        (["ROWS", " N C", "COLUMNS", " W C 1", " X C 1", " Y C 1", "BOUNDS", " LI Y 0", " LI X 0", "ENDATA"], (5, 24)),
    ],
}

# a small model with every section, and the faults of each code at some of its lines: (code, line, is it put in the line's place or
# below it, text). Codes 10, 16 and 17 want large models: they stand in sizes.rows.
SMALL = ["NAME", "OBJSENSE MAX", "ROWS", " N C", " L A", "COLUMNS", " X C 1", " Y C 1", "RHS", " A 4", "RANGES", " A 3", "BOUNDS", " UP X 4", "ENDATA"]
PLACED, BELOW = True, False
WRONG = [
    (1, 1, PLACED, "NAME \x01"),
    (1, 15, PLACED, "ENDATA\x7f"),
    (2, 1, PLACED, "NAME" + " " * 4093),
    (2, 15, PLACED, "ENDATA" + " " * 4091),
    (3, 1, PLACED, "TITLE"),
    (3, 10, BELOW, "RANGE"),
    (4, 1, BELOW, "NAME"),
    (4, 12, BELOW, "RHS"),
    (5, 1, BELOW, " X"),
    (5, 2, BELOW, " MIN"),
    (6, 4, PLACED, " N"),
    (6, 14, PLACED, " UP X"),
    (7, 5, PLACED, " L " + LONG),
    (7, 14, PLACED, " UP " + LONG + " 4"),
    (8, 2, PLACED, "OBJSENSE UP"),
    (8, 5, PLACED, " Q A"),
    (9, 5, PLACED, " L C"),
    (9, 5, BELOW, " E A"),
    (11, 7, PLACED, " X Q 1"),
    (11, 12, PLACED, " Q 3"),
    (12, 7, PLACED, " X C one"),
    (12, 14, PLACED, " UP X 1/0"),
    (13, 8, PLACED, " Y C 2e38"),
    (13, 14, PLACED, " UP X 1e-39"),
    (14, 8, BELOW, " X A 1"),
    (15, 7, PLACED, " X C 1 C 1"),
    (15, 8, BELOW, " Y C 0"),
    (18, 6, BELOW, " M 'MARKER' 'INTEND'"),
    (18, 8, BELOW, " M 'MARKER' 'INTEGER'"),
    (19, 14, PLACED, " UP W 4"),
    (19, 14, BELOW, " FR W"),
    (20, 13, BELOW, " SC X 4"),
    (20, 14, BELOW, " XX Y"),
    (21, 14, PLACED, " LO X inf"),
    (21, 14, BELOW, " UI X -1e20"),
    (22, 9, BELOW, " A 4"),
    (22, 12, BELOW, " A 3"),
    (23, 11, BELOW, " C 3"),
]
# code 24, in the place of the bound of X: an integer column without an upper one
LACKING = [" LI X 0"]


def line_of(wrong):
    # the second 22 of RHS is the line of the number that stood there
    code, at, placed, text = wrong
    return at if placed else at + 2 if (code, at) == (22, 9) else at + 1


def with_faults(wrongs, lacking=False):
    lines = []
    for number, line in enumerate(SMALL, 1):
        here = [w for w in wrongs if w[1] == number]
        lines += [w[3] for w in here if w[2]] or ([line] if not (lacking and number == 14) else LACKING)
        lines += [w[3] for w in here if not w[2]]
    return lines


def beside():
    """For each code: before a lesser and a greater one, behind a lesser one, behind a greater one, each on lines of their own."""
    before, behind_lesser, behind_greater = [], [], []
    for wrong in WRONG:
        wanted = (line_of(wrong), wrong[0])
        assert answer(text_of(with_faults([wrong]))) == wanted, wrong
    for code in sorted({w[0] for w in WRONG}):
        own = [w for w in WRONG if w[0] == code]
        later = lambda w, v: (v[1], not v[2]) > (w[1], not w[2])
        found = None
        for w in own:
            lesser = [v for v in WRONG if v[0] < code and later(w, v)]
            greater = [v for v in WRONG if v[0] > code and later(w, v)]
            apart = [(v, u) for v in lesser for u in greater if v[1:3] != u[1:3]]
            if apart:
                found = (with_faults([w, *apart[0]]), (line_of(w), code))
                break
            # no greater one is on a line below it: a column lacks a bound, which is told behind the last line
            if lesser and not found and not (w[1] == 14 and w[2]):
                found = (with_faults([w, lesser[0]], lacking=True), (line_of(w), code))
            if greater and not found:
                found = (with_faults([w, greater[0]]), (line_of(w), code))
        before.append(found)
        for cases, is_other in ((behind_lesser, lambda other: other < code), (behind_greater, lambda other: other > code)):
            pairs = [(v, w) for w in own for v in WRONG if is_other(v[0]) and later(v, w)]
            if pairs:
                v, w = pairs[len(pairs) // 2]
                cases.append((with_faults([v, w]), (line_of(v), v[0])))
    return before, behind_lesser, behind_greater


def too_long():
    """Each code that is greater than 2, on a line of more than 4,096 bytes: the text of SMALL with that line filled up with blanks."""
    cases = []
    for code in sorted({w[0] for w in WRONG} - {1, 2}):
        code, at, placed, text = next(w for w in WRONG if w[0] == code)
        wrong = (code, at, placed, text + " " * (4097 - len(text)))
        cases.append((with_faults([wrong]), (line_of(wrong) if (code, at) != (22, 9) else 10, 2)))
    return cases


def headers_in_order():
    """Each header behind each lawful list of headers, the words in small letters at every second place."""
    middles = [[], ["RHS"], ["RANGES"], ["BOUNDS"], ["RANGES", "RHS"], ["BOUNDS", "RHS"], ["BOUNDS", "RANGES"], ["RANGES", "BOUNDS", "RHS"]]
    lists = [[], ["NAME"], ["OBJSENSE"], ["NAME", "OBJSENSE"], ["NAME", "OBJSENSE", "ROWS"], ["ROWS"]]
    lists += [["ROWS", "COLUMNS"] + middle for middle in middles]
    words = ["NAME", "OBJSENSE", "ROWS", "COLUMNS", "RHS", "RANGES", "BOUNDS", "ENDATA"]
    cases = []
    for stands in lists:
        for word in words:
            rank = {"NAME": 1, "OBJSENSE": 2, "ROWS": 3, "COLUMNS": 4, "RHS": 5, "RANGES": 5, "BOUNDS": 5, "ENDATA": 6}
            is_late = word in stands or any(rank[other] > rank[word] for other in stands)
            lacks = (rank[word] > 3 and "ROWS" not in stands) or (rank[word] > 4 and "COLUMNS" not in stands)
            lines = stands + [word]
            # where the header may stand, ENDATA is missing behind it
            wanted = (len(lines), 4) if is_late or lacks else None if word == "ENDATA" else (len(lines) + 1, 4)
            cases.append(([line if place % 2 else line.lower() for place, line in enumerate(lines)], wanted))
    return cases


KINDS = ["LO", "UP", "FX", "FR", "MI", "PL", "BV", "LI", "UI"]
NUMBERS = ["-2", "3", "Inf", "-infinity"]


def bound_line(kind, column, number):
    return f" {kind} {column} {number}" if kind in ("LO", "UP", "FX", "LI", "UI") else f" {kind} {column}"


def is_placed(kind, number):
    """No infinite number on the side where it bounds nothing."""
    if number == "Inf":
        return kind in ("UP", "UI")
    if number == "-infinity":
        return kind in ("LO", "LI")
    return True


def one_bounds():
    return [(kind, number) for kind in KINDS for number in (NUMBERS if kind in ("LO", "UP", "FX", "LI", "UI") else ["-2"]) if is_placed(kind, number)]


def text_of(lines):
    return "".join(line + "\n" for line in lines).encode("latin-1")


def answer(text, intupper=None):
    try:
        return read(text, intupper)
    except Fault as fault:
        return (fault.line, fault.code)


def told(found):
    return f"error 30 mps line {found[0]} code {found[1]}" if isinstance(found, tuple) else "ok"


def shown(text):
    """The lines of a text of a row."""
    out = []
    pieces = text.decode("latin-1").split("\n")
    for place, piece in enumerate(pieces):
        if place == len(pieces) - 1 and piece == "":
            break
        line = ""
        for c in piece:
            line += {"\t": "\\t", "\r": "\\r", "\\": "\\\\", "{": "\\{"}.get(c, c if " " <= c <= "~" else f"\\x{ord(c):02x}")
        line = re.sub(r"([^}{\\])\1{99,}", lambda run: f"{{{len(run.group())}*{run.group(1)}}}", line)
        out.append("| " + line + ("" if place < len(pieces) - 1 else "\\"))
    return out


ROWS = []


def row(name, files, script, replies, status, kept=(), behind=""):
    ROWS.append(name)
    print(f"row {name}")
    for file, text in files:
        print(f"file {file}")
        print("\n".join(shown(text)))
    print("script")
    print("\n".join("| " + line for line in script))
    print("replies")
    print("\n".join("| " + line for line in replies))
    print(f"status {status}")
    for file, text in kept:
        print(f"keeps {file}")
        print("\n".join(shown(text.encode())))
    print(behind)


def fault_row(name, cases):
    files, script, replies = [], [], []
    for place, (lines, wanted) in enumerate(cases):
        text = text_of(lines)
        found = answer(text)
        if (found if isinstance(found, tuple) else None) != wanted:
            sys.exit(f"{name}: case {place}: by hand {wanted}, read {told(found)}")
        files.append((f"T{place}", text))
        script.append(f"load T{place}")
        replies.append(told(found))
    row(name, files, script, replies, 1 if any(r != "ok" for r in replies) else 0)


def meant_row(name, lines, intupper=None):
    """The model of a text, written, read again and written again."""
    text = text_of(lines)
    model = answer(text, intupper)
    if isinstance(model, tuple):
        sys.exit(f"{name}: {told(model)}")
    written = canonical(model)
    again = canonical(read(written.encode()))
    if again != written:
        sys.exit(f"{name}: it is read back as another model")
    load = "load T" if intupper is None else f"load T intupper {intupper}"
    row(name, [("T", text)], [load, "write G", "load G", "write H"], ["ok"] * 4, 0, [("G", written), ("H", written)])


def main():
    print("# Texts of models: their first faults, and what they mean, which `write` shows. Written by bench/rows/mps_rows.py.")
    print()
    for name, cases in FAULTS.items():
        fault_row(name, cases)

    meant_row("a model that uses every section", BASE)
    meant_row("no objective and no rows", ["ROWS", "COLUMNS", "ENDATA"])
    meant_row("names of objectives that are missing", ["ROWS", " L OBJ", " G OBJ2", " E OBJ_1", "COLUMNS", "ENDATA"])
    meant_row("a second objective whose word is the first one's name", ["ROWS", " N OBJ2", " L OBJ2_1", "COLUMNS", " X OBJ2 1", "ENDATA"])
    meant_row("a further row of type N whose word is free again", ["ROWS", " N C", " N D", " N OBJ", " L R", "COLUMNS", " X OBJ 1 R 1", "ENDATA"])
    meant_row("two objectives, their constants and costs of 0", ["OBJSENSE max", "ROWS", " N C", " N D", "COLUMNS", " X C 0 D 1/3", " Y D 0", " Z C -.5", "RHS", " C -7 D 2", "ENDATA"])
    for sense in ("MIN", "Minimize", "max", "MAXIMIZE"):
        meant_row(f"the sense {sense} on its header", [f"OBJSENSE {sense}", "ROWS", " N C", "COLUMNS", " X C 1", "ENDATA"])
        meant_row(f"the sense {sense} on a line of its own", ["OBJSENSE", f" {sense}", "ROWS", " N C", "COLUMNS", " X C 1", "ENDATA"])

    lines = ["ROWS", " N C"]
    names = []
    for kind in "LGE":
        for right in ("", "0", "5", "-1/3"):
            for spread in ("", "2", "-2", "0", "0.5"):
                name = f"R{len(names)}"
                names.append((name, right, spread))
                lines.append(f" {kind} {name}")
    lines += ["COLUMNS", " X C 1", "RHS"] + [f" {name} {right}" for name, right, _ in names if right]
    lines += ["RANGES"] + [f" {name} {spread}" for name, _, spread in names if spread] + ["ENDATA"]
    meant_row("ranges of each type of row, with each sign", lines)

    pairs = [(first, second) for first in one_bounds() for second in [None] + one_bounds()]
    ended, lacking = [], []
    for place, pair in enumerate(pairs):
        bounds = [bound_line(kind, f"X{place}", number) for kind, number in [b for b in pair if b]]
        lone = ["ROWS", " N C", "COLUMNS", f" X{place} C 1", "BOUNDS"] + bounds + ["ENDATA"]
        (lacking if isinstance(answer(text_of(lone)), tuple) else ended).append((place, bounds, lone))
    lines = ["ROWS", " N C", "COLUMNS"] + [f" X{place} C 1" for place, _, _ in ended] + ["BOUNDS"] + [b for _, bounds, _ in ended for b in bounds] + ["ENDATA"]
    meant_row("each bound alone, and behind each other one", lines)
    files = [(f"T{place}", text_of(lone)) for place, _, lone in lacking]
    row("bounds that leave an integer column without one", files, [f"load {name}" for name, _ in files], [told(answer(text)) for _, text in files], 1)

    meant_row("an upper bound is handed in", ["ROWS", " N C", "COLUMNS", " M 'MARKER' 'INTORG'", " X C 1", " Y C 1", " M 'MARKER' 'INTEND'", " Z C 1", "BOUNDS", " UP Y 4", "ENDATA"], 100)

    spellings = ["1", "+1", "-0", "007", "5.", ".5", "1e2", "1D2", "1d+2", "1E-2", "2.50", "-3/6", "+4/2", "0e99", "1e38", f"{LARGEST}", f"-{LARGEST}", "1e-38", f"1/{LARGEST}", "12300e34", "0.00000000000000000000000000000000000000"]
    lines = ["ROWS", " N C"] + [f" L R{place}" for place in range(len(spellings))] + ["COLUMNS", " X C 1", "RHS"] + [f" R{place} {number}" for place, number in enumerate(spellings)] + ["ENDATA"]
    meant_row("numbers in every spelling", lines)
    wrong = [("1e", 12), ("e1", 12), (".", 12), ("+", 12), ("1.2.3", 12), ("1/0", 12), ("1/", 12), ("/1", 12), ("1/-2", 12), ("1.5/2", 12), ("0x1", 12), ("inf", 12), ("1e39", 13), ("1e-39", 13), (f"{LARGEST + 1}", 13), (f"1/{LARGEST + 1}", 13), (f"{LARGEST + 1}/{LARGEST + 1}", 13), ("1.0000000000000000000000000000000000000001", 13)]
    fault_row("numbers that are none, or too wide", [(["ROWS", " N C", "COLUMNS", " X C 1", "RHS", f" C {number}", "ENDATA"], (6, code)) for number, code in wrong])
    far = [("LO 1e20", 21), ("LO -1e20", None), ("UP -1e20", 21), ("UP 99999999999999999999", None), ("FX -1e99", 21), ("UP 1e9999999", None), ("LO -1/1e2", 12), (f"UP {10**60}/7", None), ("UP 1e-99999999", 13), ("LO +Infinity", 21), ("LO -INF", None), ("UP infinit", 12)]
    fault_row("bounds that are infinite", [(["ROWS", " N C", "COLUMNS", " X C 1", "BOUNDS", " {} X {}".format(*bound.split()), "ENDATA"], code and (6, code)) for bound, code in far])

    text = text_of(["NAME", "OBJSENSE MAX", "ROWS", " N C", " N D", " E R", "COLUMNS", " X C 1 R 2", " M 'MARKER' 'INTORG'", " Y R 1", "RHS", " C 7", "RANGES", " R -2", "BOUNDS", " BV Y", " MI X", "ENDATA"])
    for start in range(1, len(text), 32):
        files = [(f"T{end}", text[:end]) for end in range(start, min(start + 32, len(text)))]
        replies = [told(answer(cut)) for _, cut in files]
        row(f"a text that is cut from byte {start} on", files, [f"load {name}" for name, _ in files], replies, 1)

    tabs = ["NAME\tB\r", "* a comment \x01\xff\r", "OBJSENSE\tmax\r", "\t \t\r", "rows\r", "\tn\tC\r", " l\t R\r", "columns\r", "\tX\tC\t1\tR\t2\r", "rhs\r", "\tR\t 5\r", "ranges\r", "\tR\t-1\r", "bounds\r", "\tmi\tX\r", "endata\r"]
    meant_row("tabs, carriage returns, comments, and either case", tabs)
    meant_row("names of any visible byte", ["ROWS", " N !\"#$%&'()*+,-./", " E 0:;<=>?@[\\]^_`{|}~", "COLUMNS", " *X !\"#$%&'()*+,-./ 1 0:;<=>?@[\\]^_`{|}~ 2", " 'MARKER' !\"#$%&'()*+,-./ 1", "ENDATA"])

    before, behind_lesser, behind_greater = beside()
    fault_row("each code above a lesser one and a greater one", before)
    fault_row("each code below a lesser one", behind_lesser)
    fault_row("each code below a greater one", behind_greater)
    fault_row("each code on a line that is too long", too_long())
    fault_row("each header behind each list of headers", headers_in_order())
    fault_row("a name with a byte that is not visible", [(["ROWS", f" L A{chr(byte)}B"], (2, 1)) for byte in range(256) if byte not in (9, 10) and not 32 <= byte <= 126])
    fault_row("a name that a blank, a tab or a line feed cuts", [(["ROWS", " L A B"], (2, 6)), (["ROWS", " L A\tB"], (2, 6)), (["ROWS", " L A\nB"], (3, 3)), (["ROWS", " L A\n B"], (3, 6))])
    whole = "".join(chr(byte) for byte in range(256) if byte != 10)
    fault_row("a comment of every byte", [(["*" + whole, "ROWS", "*" + whole + "\r", "COLUMNS", "ENDATA"], None), ([" *" + whole], (1, 1)), (["ROWS", "* " + "x" * 4095], (2, 2))])
    fault_row("carriage returns where they may not stand", [
        (["ROWS\r", " N C\r", "COLUMNS\r", "\r", "ENDATA\r"], None),
        (["ROWS\r\r"], (1, 1)),
        (["\rROWS"], (1, 1)),
        (["ROWS", " N\rC"], (2, 1)),
        (["ROWS", " N C \r "], (2, 1)),
        (["ROWS", " \r\r"], (2, 1)),
        (["ROWS", " N C" + " " * 4091 + "\r", "COLUMNS", "ENDATA"], None),
        (["ROWS", " N C" + " " * 4092 + "\r", "COLUMNS", "ENDATA"], (2, 2)),
        (["ROWS", "*" + "x" * 4095 + "\r", "COLUMNS", "ENDATA"], (2, 2)),
        (["ROWS", " " * 4096, "COLUMNS", "ENDATA"], None),
        (["ROWS", " " * 4097, "COLUMNS", "ENDATA"], (2, 2)),
        (["ROWS", "COLUMNS", "ENDATA\r", "\r\r"], None),
    ])
    lines = ["name\tx", "objSense", " MaXimize", "Rows", " n C", " n D", " l A", " g B", " e P", "cOLUMNS", " X C 1 A 2", " m 'marker' 'intorg'", " x C 1 B 1", " Y D 1", " m 'Marker' 'IntEnd'", " Z C 1 P 1", "rhs", " s A 4", "Ranges", " r P 2", "bounds", " lo X -3", " up X 4", " li Y 0", " ui Y 9", " bv x", " mi Z", " pl Z", " fr Z", " fx Z 2", "Endata"]
    meant_row("key words in either case, names as they stand", lines)
    fault_row("names in the other case are other names", [(["ROWS", " N C", "COLUMNS", " X c 1"], (4, 11)), (["ROWS", " N C", "COLUMNS", " X C 1", "BOUNDS", " FR x"], (6, 19)), (["ROWS", " N C", " L c", "COLUMNS", " X C 1", " x c 1", "ENDATA"], None)])
    meant_row("a blank set's name, and sets of any name", ["ROWS", " N C", " L A", " G B", "COLUMNS", " X C 1 A 1", " X B 1", "RHS", " B 1 C 2", " one A 3", "RANGES", " A 1", " B B 2", "BOUNDS", " UP X 4", " LO X X 1", "ENDATA"])
    good = ["+.5", "-5.", "00.50", "1e+0", "1E-0", "1e00000000000000000000001", "0.1e39", "10e-39", "1.7e38", "100e36", "0/7", "-0/1", "+0002/0004", "0e99999999999999999999", "0.000e-99999999999999999999", "1.70141183460469231731687303715884105727", "-.00000000000000000000000000000000000001", "17014118346046923173168730371588410572.7e1", f"{LARGEST}0e-2"]
    lines = ["ROWS", " N C"] + [f" L R{place}" for place in range(len(good))] + ["COLUMNS", " X C 1", "RHS"] + [f" R{place} {number}" for place, number in enumerate(good)] + ["ENDATA"]
    meant_row("numbers at the edges of their room", lines)
    worse = [("0e", 12), ("--1", 12), ("+-1", 12), ("1-", 12), ("1+1", 12), ("1e+", 12), ("1e1.5", 12), ("1f2", 12), ("1_0", 12), ("1//2", 12), ("1/+2", 12), ("1/2/3", 12), ("1/2e3", 12), (".e1", 12), ("-", 12), ("/", 12), ("0/0", 12), (f"{LARGEST + 1}/0", 12), ("nan", 12), ("1e20x", 12), ("1.8e38", 13), ("0.1e-38", 13), ("1e99999999999999999999", 13), ("-1e-99999999999999999999", 13), (f"0/{LARGEST + 1}", 13), (f"-{LARGEST + 1}", 13), ("1.70141183460469231731687303715884105728", 13), ("1.5e38x", 12), (f"{LARGEST}1e-2", 13), ("170141183460469231731687303715884105727.5", 13)]
    fault_row("words that are no numbers, and numbers past the edges", [(["ROWS", " N C", "COLUMNS", " X C 1", "RHS", f" C {number}", "ENDATA"], (6, code)) for number, code in worse])
    edge = [("UP 100000000000000000000", None), ("LO 100000000000000000000", 21), ("LO 99999999999999999999.9", None), ("LO 100000000000000000000/1", 21), ("LO 199999999999999999999/2", None), ("LO 200000000000000000000/2", 21), ("UP 0.1e21", None), ("FX -100e18", 21), ("LO 1e19", None), (f"LO {LARGEST}/1", 21), (f"LO {10**60}/{10**59}", 13), (f"LO 1/{10**60}", 13), ("LO +inf", 21), ("LO -infinity", None), ("FX inf", 21), ("LI inf", 21), ("UI -inf", 21), ("LO infinite", 12), ("LO in", 12), ("LO ++inf", 12)]
    fault_row("bounds at the edge of what is infinite", [(["ROWS", " N C", "COLUMNS", " X C 1", "BOUNDS", " {} X {}".format(*bound.split()), "ENDATA"], code and (6, code)) for bound, code in edge])

    # worked by hand
    mx = ["OBJSENSE MAX", "ROWS", " N C", " L R", "COLUMNS", " X C 2 R 1", "RHS", " C -7", " R 2.5", "BOUNDS", " LI X 0", " UI X 3", "ENDATA"]
    row("a value to be made large", [("MX", text_of(mx))], ["load MX", "solve"], ["ok", "optimal 11 nodes {1..7}", "x X 2", "end"], 0)
    row("the bound of a search that stopped, with a value to be made large", [("MX", text_of(mx))], ["load MX", "solve nodes 0"], ["ok", "stopped nodes 0 bound 13 best none"], 0)
    checked = "words check MX F\nscript\nreplies\n| accepted optimal 11\nstatus 0\n"
    row("a certificate of a value to be made large", [("MX", text_of(mx))], ["load MX", "solve", "cert F"], ["ok", "optimal 11 nodes {1..7}", "x X 2", "end", "ok"], 0, behind=checked)
    most = ["OBJSENSE MAX", "ROWS", " N C"]
    row("a value that grows without end", [("T", text_of(most + ["COLUMNS", " W C 1", "ENDATA"]))], ["load T", "solve"], ["ok", "unbounded nodes 1"], 0)
    row("no feasible point, with a value to be made large", [("T", text_of(most + [" G R", "COLUMNS", "RHS", " R 1", "ENDATA"]))], ["load T", "solve"], ["ok", "infeasible nodes 1"], 0)
    row("the upper side of a range", [("T", text_of(most + [" E R", "COLUMNS", " X C 1 R 1", "RHS", " R 3", "RANGES", " R 2", "ENDATA"]))], ["load T", "solve"], ["ok", "optimal 5 nodes 1", "x X 5", "end"], 0)
    row("an upper bound beside no lower one", [("T", text_of(most + ["COLUMNS", " X C 1", "BOUNDS", " UP X 4", " MI X", "ENDATA"]))], ["load T", "solve"], ["ok", "optimal 4 nodes 1", "x X 4", "end"], 0)
    row("a free column", [("T", text_of(["ROWS", " N C", " G R", "COLUMNS", " X C 1 R 1", "RHS", " R -7", "BOUNDS", " FR X", "ENDATA"]))], ["load T", "solve"], ["ok", "optimal -7 nodes 1", "x X -7", "end"], 0)
    rg = ["ROWS", " N C", " E R", "COLUMNS", " X C 1 R 1", "RHS", " R 3", "RANGES", " R -2", "ENDATA"]
    put = "NAME\nOBJSENSE MIN\nROWS\n N C\n N OBJ2\n L R\nCOLUMNS\n X C 1\n X R 1\nRHS\n RHS R 3\nRANGES\n RNG R 2\nBOUNDS\n LO BND X 0\n PL BND X\nENDATA\n"
    assert canonical(read(text_of(rg))) == put
    row("a row of type E with a range below it", [("RG", text_of(rg))], ["load RG", "solve", "write G"], ["ok", "optimal 1 nodes 1", "x X 1", "end", "ok"], 0, [("G", put)])
    fault_row("a range of an objective, and a sense that is none", [(rg[:8] + [" C -2"] + rg[9:], (9, 23)), (["OBJSENSE UPWARD"] + mx[1:], (1, 8))])

    row("write and its refusals", [("E0", text_of(["ROWS", " N C", "COLUMNS", "ENDATA"]))], ["write", "write G", "load E0", "write .x", "write G H", "write G"], ["error 03 arguments", "error 04 no model", "ok", "error 03 arguments", "error 03 arguments", "ok"], 1)


if __name__ == "__main__":
    main()
    if "--names" in sys.argv:
        for name in ROWS:
            print(f"ok mps.rows: {name}", file=sys.stderr)
