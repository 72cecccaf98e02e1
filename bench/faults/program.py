"""One run of a built `symphony` in a folder, and its replies one by one. The other programs of this folder import it."""
import os
import re
import subprocess

# The first line of a reply that goes on to a line `end`.
LONG = re.compile(rb"optimal |stopped pivots |stopped wide |frontier ")

KNAPSACK = b"""NAME K
ROWS
 N C
 L A
 L B
COLUMNS
 M 'MARKER' 'INTORG'
 X C -5 A 2
 X B 3
 Y C -4 A 3
 Y B 4
 Z C -3 A 1
 Z B 2
 M 'MARKER' 'INTEND'
RHS
 R A 5 B 8
BOUNDS
 UP S X 1
 UP S Y 1
 UP S Z 1
ENDATA
"""


def run(program, folder, words=("run",), script=b"", **how):
    """The status, below 0 where a signal ended the program, and what it wrote."""
    ran = subprocess.run([program, *words], cwd=folder, input=script, stdout=subprocess.PIPE, stderr=subprocess.DEVNULL, **how)
    return ran.returncode, ran.stdout


def replies_of(text):
    """The whole replies of a script, and what stands behind the last of them."""
    *lines, rest = text.split(b"\n")
    found, block = [], []
    for line in lines:
        block.append(line)
        if line == b"end" or not LONG.match(block[0]):
            found.append(b"\n".join(block))
            block = []
    return found, b"".join(line + b"\n" for line in block) + rest


def fill(folder, files):
    """Makes the folder hold these files and no others."""
    for name in os.listdir(folder):
        if name not in files:
            os.remove(os.path.join(folder, name))
    for name, text in files.items():
        with open(os.path.join(folder, name), "wb") as file:
            file.write(text)


def files_in(folder):
    found = {}
    for name in sorted(os.listdir(folder)):
        with open(os.path.join(folder, name), "rb") as file:
            found[name] = file.read()
    return found
