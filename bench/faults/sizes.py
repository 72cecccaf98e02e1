"""Hostile sizes: files as long as they may be, of every shape that hurts.

    python3 bench/faults/sizes.py PROGRAM [MIB [SHAPE ..]]

PROGRAM is the program that is built, crates/sym_main/out/sym_main. Of each shape below a text of MIB MiB (64 where none is given, scripts a quarter of it) is given to the command that reads it.
Prints a line for each: the shape, its bytes, the seconds of the processor, the most memory and how many times the text that is, and the last line that was
replied; `slow` stands behind a line of more than 10 seconds, and `large` behind one of more than 20 times the text's bytes, 16 MiB taken off, `ended` behind one that a
signal ended. Not a test of bytes: what these texts are answered stands in rows.
"""
import os
import signal
import subprocess
import sys
import tempfile

from program import KNAPSACK

HEAD = b"ROWS\n N C\n L R\nCOLUMNS\n X C 1 R 1\n"
WIDE = HEAD + b"RHS\nBOUNDS\n"
CHAINED = b"ROWS\n N C\n L R\nCOLUMNS\n M 'MARKER' 'INTORG'\n X C 1 R 1\n M 'MARKER' 'INTEND'\nRHS\nBOUNDS\n UP X 1000000000\nENDATA\n"
TABLE = '{"hi":"5","lo":null,"name":"R"}'
LEAF = b'{"basis":[],"farkas":[],"high":[],"leaf":"open","mult":[]}'


def times(piece, length, front=b"", end=b""):
    """A text of about this length: a piece again and again, `%d` in it counted from 0, between a front and an end."""
    count = max(1, (length - len(front) - len(end)) // (len(piece) + (6 if b"%d" in piece else 0)))
    middle = b"".join(piece % at for at in range(count)) if b"%d" in piece else piece * count
    return front + middle + end


def column(name, rows=b"[]", up=b'"1"'):
    return b'{"cost":"1","cost2":"0","int":true,"lo":"0","name":"%s","rows":%s,"up":%s}' % (name, rows, up)


def warm(cols=None, cuts=b"[]", nodes=b"[" + LEAF + b"]", points=b"[]", more=b""):
    """A warm file of a model with one row, and columns X0, X1, .. as they are given."""
    cols = cols or column(b"X0", b'[[0,"1"]]', b'"1000000000"')
    return (
        b'{"cuts":%s,"model":{"cols":[%s],"const":"0","const2":"0","obj":"C","obj2":"D","rows":[{"hi":"5","lo":null,"name":"R"}],"sense":"min"},"nodes":%s,"points":%s,%s"warm":1}'
        % (cuts, cols, nodes, points, more)
    )


def chain_of_nodes(length, limit=1000000):
    """Splits, each below the one before, as deep as a file may have them."""
    split = b'{"basis":[],"high":[],"mult":[],"split":[0,"%d"]},' + LEAF + b","
    count = min((limit - 1) // 2, length // (len(split) + 6))
    return warm(nodes=b"[" + b"".join(split % at for at in range(count)) + LEAF + b"]")


def list_in_leaf(length, key, item):
    """One leaf with one list as long as the file, its places rising as far as there are any."""
    leaf = LEAF.replace(b'"%s":[]' % key, b'"%s":[%s]' % (key, times(item, length)[:-1]))
    return warm(nodes=b"[" + leaf + b"]")


def many_columns(count):
    return b",".join(column(b"X%d" % at, b'[[0,"1"]]') for at in range(count))


def pool(length, literals=20):
    """10,000 cuts over 1,000 columns, each of as many literals as fit."""
    literals = min(900, max(2, length // 10000 // 12))
    cuts = b",".join(
        b'{"lits":[%s],"row":0,"side":"hi"}' % b",".join(b"[%d,true]" % (at % 97 + k) for k in range(literals)) for at in range(10000)
    )
    return warm(many_columns(1000), b"[" + cuts + b"]")


def points(length):
    point = b"[" + b",".join(b'[%d,"1"]' % at for at in range(5)) + b"]"
    return warm(many_columns(1000), points=b"[" + b",".join([point] * 100) + b"]")


def cert(nodes, length, front=b"cert 1\nclaim optimal 0\npoint\n"):
    return times(nodes, length, front, b"leaf bound\nend\n")


def chain_cert(length):
    count = length // 28
    return b"cert 1\nclaim optimal 0\npoint\n" + b"".join(b"split X %d\nleaf bound\n" % (at + 1) for at in range(count)) + b"leaf bound\nend\n"


def left_cert(length):
    count = length // 28
    return b"cert 1\nclaim optimal 0\npoint\n" + b"".join(b"split X %d\n" % (count - at) for at in range(count)) + b"leaf bound\n" * (count + 1) + b"end\n"


def leaf_of_cuts(length):
    """A leaf that names each cut of a list, which is as long as half of the file."""
    count = length // 2 // 14
    cuts = b"cut A hi +X +Y +Z\n" * count
    return b"cert 1\nclaim optimal -9\npoint X 1 Y 1\n" + cuts + b"leaf bound" + b"".join(b" cut %d -1" % (at + 1) for at in range(count)) + b"\nend\n"


SCRIPTS = {
    "script: one line": lambda n: b"a" * n,
    "script: one line of blanks": lambda n: b" " * n,
    "script: line feeds": lambda n: b"\n" * n,
    "script: comments": lambda n: times(b"#\n", n),
    "script: words of one letter": lambda n: times(b"a\n", n),
    "script: lines of 2,048 words": lambda n: times(b"a " * 2048 + b"\n", n),
    "script: edits of 1,000 names": lambda n: times(b"edit addrow Q none 1" + b"".join(b" X%d 1" % at for at in range(400)) + b"\n", n, b"load K\n"),
    "script: loads": lambda n: times(b"load K\n", n // 16),
    "script: rows until the limit": lambda n: times(b"edit addrow Q%d none 9 X 1\n", n // 16, b"load K\n"),
    "script: a byte too many": lambda n: b"\n" * (16 * 2**20 + 1),
}
MODELS = {
    "model: one line": lambda n: b"a" * n,
    "model: line feeds": lambda n: b"\n" * n,
    "model: blanks": lambda n: b" " * n,
    "model: comments": lambda n: times(b"*\n", n),
    "model: names of rows": lambda n: times(b" N R%d\n", n, b"ROWS\n N C\n", b"COLUMNS\nENDATA\n"),
    "model: one letter more a name": lambda n: times(b" N " + b"R" * 240 + b"%d\n", n, b"ROWS\n N C\n", b"COLUMNS\nENDATA\n"),
    "model: names of columns": lambda n: times(b" X%d C 1\n", n, b"ROWS\n N C\nCOLUMNS\n", b"ENDATA\n"),
    "model: numbers beside rows of type N": lambda n: times(b" N R%d\n", n // 3, b"ROWS\n N C\n", b"COLUMNS\n" + times(b" X R%d 1\n", n // 2, b"", b"RHS\nENDATA\n")),
    "model: bounds": lambda n: times(b" FR X\n", n, WIDE, b"ENDATA\n"),
    "model: bounds that alternate": lambda n: times(b" LO X 1\n UP X 3\n", n, WIDE, b"ENDATA\n"),
    "model: markers": lambda n: times(b" M 'MARKER' 'INTORG'\n M 'MARKER' 'INTEND'\n", n, b"ROWS\n N C\nCOLUMNS\n", b"ENDATA\n"),
    "model: a long number a line": lambda n: times(b" UP X " + b"0" * 3900 + b"1\n", n, WIDE, b"ENDATA\n"),
    "model: numbers with great exponents": lambda n: times(b" UP X 1e-38\n", n, WIDE, b"ENDATA\n"),
    "model: sides of one row": lambda n: times(b" S R 1\n", n, HEAD + b"RHS\n", b"ENDATA\n"),
    "model: behind its end": lambda n: times(b"x\n", n, HEAD + b"ENDATA\n"),
}
CERTIFICATES = {
    "certificate: one line": lambda n: b"a" * n,
    "certificate: line feeds": lambda n: b"\n" * n,
    "certificate: splits below one another, right": chain_cert,
    "certificate: splits below one another, left": left_cert,
    "certificate: splits alone": lambda n: cert(b"split X 1\n", n),
    "certificate: cuts of the knapsack": lambda n: cert(b"cut A hi +X +Y +Z\n", n, b"cert 1\nclaim optimal -9\npoint X 1 Y 1\n"),
    "certificate: one cut with one name": lambda n: cert(b" +X", n, b"cert 1\nclaim optimal -9\npoint X 1 Y 1\ncut A hi").replace(b"leaf", b"\nleaf"),
    "certificate: a leaf with one row": lambda n: times(b" row A 1", n, b"cert 1\nclaim optimal -9\npoint X 1 Y 1\nleaf bound", b"\nend\n"),
    "certificate: a leaf with cuts": leaf_of_cuts,
    "certificate: a point with one name": lambda n: times(b" X 1", n, b"cert 1\nclaim optimal -9\npoint", b"\nleaf bound\nend\n"),
    "front: outcomes": lambda n: times(b"outcome %d 1\npoint\n", n, b"front 1\n", b"end\n"),
    "front: outcomes with long points": lambda n: times(b"outcome 1 1\npoint" + b" X 1" * 900 + b"\n", n, b"front 1\n", b"end\n"),
    "front: trees of gaps": lambda n: times(b"tree gap %d\nleaf bound\n", n, b"front 1\noutcome 0 0\npoint\n", b"end\n"),
    "front: cuts of one tree": lambda n: times(b"cut A hi +X +Y +Z\n", n, b"front 1\noutcome -9 0\npoint X 1 Y 1\ntree least1\n", b"leaf bound\nend\n"),
    "front: splits in one tree": lambda n: times(b"split X 1\n", n, b"front 1\noutcome -9 0\npoint X 1 Y 1\ntree least1\n", b"leaf bound\nend\n"),
    "certificate: a point with other names": lambda n: times(b" X%d 1", n, b"cert 1\nclaim optimal -9\npoint", b"\nleaf bound\nend\n"),
}
# Of this shape the time grows with the square of the bytes: it is measured where it is named alone.
SQUARE = ["certificate: a leaf with cuts"]
WARM = {
    "warm: [": lambda n: b"[" * n,
    "warm: lists in lists": lambda n: b"[" * (n // 2) + b"]" * (n // 2),
    "warm: objects in objects": lambda n: b'{"a":' * (n // 6) + b"1" + b"}" * (n // 6),
    "warm: blanks": lambda n: b" " * n,
    "warm: one text": lambda n: b'"' + b"a" * (n - 2) + b'"',
    "warm: one text of escapes": lambda n: times(b"\\u0041", n, b'"', b'"'),
    "warm: one number": lambda n: b"1" * n,
    "warm: numbers": lambda n: times(b"1,", n, b"[", b"1]"),
    "warm: numbers beside a search": lambda n: warm(more=b'"also":' + times(b"1,", n, b"[", b"1]") + b","),
    "warm: one key": lambda n: times(b'"a":1,', n, b"{", b'"a":1}'),
    "warm: keys": lambda n: times(b'"%d":1,', n, b"{", b'"a":1}'),
    "warm: empty objects": lambda n: times(b"{},", n, b"[", b"{}]"),
    "warm: splits below one another": chain_of_nodes,
    "warm: leaves alone": lambda n: warm(nodes=b"[" + times(LEAF + b",", n) + LEAF + b"]"),
    "warm: multipliers of one row": lambda n: list_in_leaf(n, b"mult", b'["row",0,"1"],'),
    "warm: a basis of one column": lambda n: list_in_leaf(n, b"basis", b'["col",0],'),
    "warm: 10,000 cuts": pool,
    "warm: 100 points": points,
    "warm: a name": lambda n: warm().replace(b'"name":"R"', b'"name":"%s"' % (b"R" * n)),
}


def measured(program, folder, words, script, seconds):
    """Seconds of the processor, KiB, the status and the last line of what is written. `time` starts the program, so that the memory is the program's own."""
    told = os.path.join(folder, "told")
    with open(os.path.join(folder, "script"), "wb") as file:
        file.write(script)
    with open(os.path.join(folder, "script"), "rb") as given, tempfile.TemporaryFile() as out:
        asked = ["/usr/bin/time", "-f", "%U %S %M", "-o", told, program, *words]
        process = subprocess.Popen(asked, cwd=folder, stdin=given, stdout=out, stderr=subprocess.DEVNULL, start_new_session=True)
        try:
            status = process.wait(seconds)
        except subprocess.TimeoutExpired:
            os.killpg(process.pid, signal.SIGKILL)
            process.wait()
            return seconds, 0, -signal.SIGKILL, f"not ended in {seconds:.0f} s by the clock"
        out.seek(0, os.SEEK_END)
        out.seek(max(0, out.tell() - 200))
        last = out.read().split(b"\n")[-2:-1]
    with open(told, encoding="ascii") as file:
        *more, figures = file.read().splitlines()
    ended = int(more[0].split()[-1]) if more and "signal" in more[0] else 0
    user, system, memory = figures.split()
    return float(user) + float(system), int(memory), -ended or status, (last or [b""])[0].decode("latin-1")[:60]


def one(program, folder, name, text):
    """Gives the text to the command that reads it."""
    words, script = ("run",), text
    with open(os.path.join(folder, "T"), "wb") as file:
        file.write(b"" if name.startswith("script") else text)
    if name.startswith("model"):
        script = b"load T\nquit\n"
    elif name.startswith("warm"):
        script = b"restore T\nlbobj X0 1\nquit\n"
    elif name.startswith(("certificate", "front")):
        words, script = ("check", "chained" if "split" in name else "K", "T"), b""
    used, memory, status, last = measured(program, folder, words, script, float(os.environ.get("SECONDS_EACH", "120")))
    told = (" slow" if used > 10 else "") + (" large" if memory * 1024 > 20 * len(text) + 2**24 else "") + (" ended" if status < 0 else "")
    ratio = memory * 1024 / len(text)
    print(f"{name:46} {len(text):9} bytes {used:7.2f} s {memory // 1024:5} MiB {ratio:6.1f} times  {status:3} {last}{told}", flush=True)
    return bool(told)


def main(program, mib="64", *names):
    program, bytes_, told = os.path.abspath(program), int(float(mib) * 2**20), 0
    for shapes, length in ((SCRIPTS, bytes_ // 4), (MODELS, bytes_), (CERTIFICATES, bytes_), (WARM, bytes_)):
        for name, make in shapes.items():
            if (names and not any(word in name for word in names)) or (not names and name in SQUARE):
                continue
            with tempfile.TemporaryDirectory() as folder:
                for file, text in (("K", KNAPSACK), ("chained", CHAINED)):
                    with open(os.path.join(folder, file), "wb") as it:
                        it.write(text)
                told += one(program, folder, name, make(length)[: 2**26])
    print(f"{told} of these are told")
    return 0


if __name__ == "__main__":
    sys.exit(main(*sys.argv[1:]))
