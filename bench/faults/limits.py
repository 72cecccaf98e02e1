"""The program under limits of the system: little address space, and a small stack.

    python3 bench/faults/limits.py PROGRAM [STEP]

PROGRAM is the program that is built, crates/sym_main/out/sym_main. Two scripts are run under `ulimit -v` from the least limit, in steps of STEP KiB (64 where none is given), at which the script
`quit` is answered, up to the first at which no reply is another than without a limit, and then under `ulimit -s` of 1024, 256 and 128 KiB. The first
script has each command that there is; the second grows a tree by a level for each two results, saves it, restores it and asks everything of it.
Under `ulimit -v` the replies are whole lines, those before the first `error 90 memory` are the script's own, and the status is 5, or that of the
script where no reply is another. A signal that ends the program is told. Under `ulimit -s` nothing is another.
"""
import os
import resource
import subprocess
import sys
import tempfile

from growths import EVERY, MEMORY
from program import KNAPSACK, fill, replies_of, run

CHAIN = b"""ROWS
 N COST
 L LOW
 G HIGH
COLUMNS
 M1 'MARKER' 'INTORG'
 X COST -1 LOW 6
 X HIGH 6
 Y COST -1 LOW -10
 Y HIGH -10
 M2 'MARKER' 'INTEND'
RHS
 R LOW 3 HIGH 3
BOUNDS
 UP B X 1000000
 UP B Y 1000000
ENDATA
"""
DEEP = b"""load chain
solve nodes %d
save W
restore W
lbrhs LOW 4
edit row LOW hi 4
edit cost X -2
edit addrow NEW none 5 X 1 Y 1
trim depth %d
save V
edit bounds X 0 3
warm
cert C
trim
quit
"""


def under(which, length):
    """What a process does before the program begins: this limit, in KiB."""
    return {"preexec_fn": lambda: resource.setrlimit(which, (length * 1024, length * 1024))}


class Script:
    def __init__(self, name, program, files, text):
        self.name, self.program, self.files, self.text = name, program, files, text
        self.plain = self.run()
        self.wanted = replies_of(self.plain[1])[0]

    def run(self, **how):
        with tempfile.TemporaryDirectory() as folder:
            fill(folder, self.files)
            return run(self.program, folder, script=self.text, **how)

    def fault(self, status, text):
        """What is wrong of a run under a limit of address space."""
        found, rest = replies_of(text)
        if status < 0:
            return f"signal {-status} behind {len(found)} replies"
        if rest:
            return f"a reply that isn't whole: {rest}"
        if (status, text) != self.plain and status != 5:
            return f"status {status}"
        for reply, same in zip(found, self.wanted):
            if reply == MEMORY:
                break
            if reply != same:
                return f"wanted {same}, and it says {reply}"
        return None


def begins(program, length):
    with tempfile.TemporaryDirectory() as folder:
        return run(program, folder, script=b"quit\n", **under(resource.RLIMIT_AS, length)) == (0, b"ok\n")


def least(program, step):
    """The least limit in steps at which the program begins."""
    length = step
    while not begins(program, length):
        length += step
    return length


def space(script, first, step):
    length, runs, refused, differ = first, 0, 0, 0
    while True:
        status, text = script.run(**under(resource.RLIMIT_AS, length))
        runs += 1
        if (status, text) == script.plain:
            break
        refused += MEMORY in replies_of(text)[0]
        fault = script.fault(status, text)
        if fault:
            differ += 1
            print(f"{script.name}, {length} KiB of address space: {fault}", flush=True)
        length += step
    print(f"{script.name}: {runs} limits from {first} to {length} KiB of address space, {refused} with `error 90`, {differ} differ", flush=True)
    return differ


def stack(script):
    differ = 0
    for length in (1024, 256, 128):
        if script.run(**under(resource.RLIMIT_STACK, length)) != script.plain:
            differ += 1
            print(f"{script.name}, {length} KiB of stack: another reply", flush=True)
    print(f"{script.name}: 3 limits of the stack, {differ} differ", flush=True)
    return differ


def main(program, step="64"):
    program, step, differ = os.path.abspath(program), int(step), 0
    results = int(os.environ.get("RESULTS", "2500"))
    scripts = [
        Script("every command", program, {"K": KNAPSACK}, EVERY),
        Script("a deep tree", program, {"chain": CHAIN}, DEEP % (results, results // 4)),
    ]
    first = least(program, step)
    for script in scripts:
        differ += stack(script)
        differ += space(script, first, step)
    return 1 if differ else 0


if __name__ == "__main__":
    sys.exit(main(*sys.argv[1:]))
