"""Each growth of memory refused in turn: what is replied then, and what stands behind it.

    python3 bench/faults/growths.py PROGRAM [CASE ..]

PROGRAM is the program that is built, crates/sym_main/out/sym_main, and not the script that starts it. Each case below is a script or the words of `check` or `bench` over some files. It is run with the first growth refused,
then with the second, and so on until none is; and then with each growth from the first one on refused, from the second one on, and so on.
`cc` builds refuse.c, which stands between the program and the C library's `malloc` and `realloc`, by which alone the program grows.

One growth refused: the replies are whole lines, and as many as there are commands, or the status is 5. At most one of them is `error 90 memory`.
All others are those of the script without that command, byte for byte, and so are the files. Where `solve` or `warm` was refused, no answer is held:
`cert` is answered so until a search ends; the next `warm` without limits ends with the answer of the case, and a certificate that is written is
accepted by `check`. Where `mcsolve` was refused no answer is held either, and all else is as if the line had not been there. An `mcsolve` may also do without
what was refused, a search that it kept from a part before: then its certificate, or the place of its stop, is another one. All growths from one on refused: the replies are whole, the status is 5, and those before the first refusal are the case's.

With STEP=N in the environment only each N-th growth is refused, from the first on. JOBS=N makes N runs at a time. The case `a plan for each day`, the script of
examples/series, has so many growths that it is done where it is named alone.

Prints a line for each case: the growths that were refused, the replies that came, how many runs were answered `error 90`, how many ended before
the script did, and how many differ; for a run that differs, the growth, what was wanted and what came.
"""
import os
import subprocess
import sys
import tempfile
from concurrent.futures import ThreadPoolExecutor

from program import KNAPSACK, fill, files_in, replies_of, run

HERE = os.path.dirname(os.path.abspath(__file__))
MEMORY = b"error 90 memory"
NO_ANSWER = b"error 13 no finished answer"

EMPTY_ODD = b"ROWS\n N C\n E R\nCOLUMNS\n X R 2\n Y R 2\n W R 2\nRHS\n R 3\nBOUNDS\n BV X\n BV Y\n BV W\nENDATA\n"
ONE_OF_FOUR = b"""ROWS
 N C
 N D
 E R
COLUMNS
 S1 D 3 R 1
 S2 C 2 D 2
 S2 R 1
 S3 C 1 D 2
 S3 R 1
 S4 C 3 R 1
RHS
 R 1
BOUNDS
 BV S1
 BV S2
 BV S3
 BV S4
ENDATA
"""
COVER = b"cert 1\nclaim optimal -9\npoint X 1 Y 1\ncut A hi +X +Y +Z\nleaf bound cut 1 -4\nend\n"

# Each command there is. The answers of its searches are the only ones: a search that goes on shows the same point.
EVERY = b"""load K
solve nodes 0
warm pivots 0
solve workers 3 seed 7
cert C
lbrhs A 5
ubrhs A 5 B 8
lbobj X -5 Y -4
ubobj X -5
save W
mcsolve nodes 1
mcsolve
cert F
edit row A hi 4
edit row A lo -3
edit row B both 8
edit row B lo none
edit cost Y -9/2
edit cost2 X 1
mcsolve
edit bounds Z 0 1
warm
cert C
edit addcol V cont 0 1 -1/2 0 A 1
edit addrow R none 3 X 1 V 1 Y 1
edit replacerow B none 9 X 3 Y 4 Z 2 V 1
warm workers 2 seed 1 nodes 100
edit kind Z cont
edit kind Z int
edit delcol V
edit delrow R
trim depth 1
trim
warm
cert C
write G
restore W
warm
cert C
load G intupper 7
frob
# nothing
load none
solve
quit
"""

# The knapsack with bounds of 3/2, which has the same points and no covers: a search that splits, stops, goes on and goes back.
SPLITS = b"""load KW
solve nodes 4
save W1
edit row A hi 1
warm
restore W1
warm
cert C
lbrhs A 4
trim depth 1
warm
edit delcol Z
edit kind X cont
warm
restore W1
warm nodes 2
warm
cert C
"""

# Two objectives: a frontier up to some numbers of results, the whole of it, an edit, and the kept search between.
FRONTS = b"""load C4
mcsolve nodes 0
mcsolve nodes 5
solve nodes 1
mcsolve
cert F
warm
edit cost2 S3 2
mcsolve
cert G
edit row R both 5
mcsolve
edit cost S1 1/2
mcsolve
warm
"""

CASES = {
    "an odd sum": ({"P": EMPTY_ODD}, b"load P\nsolve nodes 1\nwarm\nwarm\n"),
    "an edit behind an answer": ({"K": KNAPSACK}, b"load K\nsolve nodes 15\nedit row A hi 4\nwarm\nwarm\n"),
    "two objectives": ({"C4": ONE_OF_FOUR}, b"load C4\nsolve\nwarm\ncert C\nmcsolve\ncert F\nwarm\ncert C\n"),
    "a whole frontier, in parts and over again": ({"C4": ONE_OF_FOUR.replace(b"ROWS", b"OBJSENSE MAX\nROWS").replace(b" R 1\nBOUNDS", b" R 1\n C -2\n D 5\nBOUNDS")}, FRONTS),
    "two objectives without a point": ({"P": EMPTY_ODD}, b"load P\nmcsolve nodes 2\nmcsolve\ncert F\nwarm\ncert C\n"),
    "saved and restored": ({"K": KNAPSACK}, b"load K\nsolve nodes 15\nsave W1\nrestore W1\nwarm\nwarm\n"),
    "a certificate": ({"K": KNAPSACK, "T": COVER}, ("check", "K", "T")),
    "a model of a seed": ({}, ("bench", "1", "5", "10", "100")),
    "a search that splits": ({"KW": KNAPSACK.replace(b" 1\n UP", b" 3/2\n UP").replace(b" Z 1\n", b" Z 3/2\n")}, SPLITS),
    "every command": ({"K": KNAPSACK}, EVERY),
}


LARGE = "a plan for each day"


def series():
    found = []
    for name in ("bakery.mps", "script"):
        with open(os.path.join(HERE, "..", "..", "examples", "series", name), "rb") as file:
            found.append(file.read())
    return {"bakery.mps": found[0]}, found[1]


def built(folder):
    library = os.path.join(folder, "refuse.so")
    subprocess.run(["cc", "-O1", "-shared", "-fPIC", "-o", library, os.path.join(HERE, "refuse.c")], check=True)
    return library


class Case:
    def __init__(self, program, library, files, asked):
        self.program, self.library, self.files = program, library, files
        self.words = asked if isinstance(asked, tuple) else ("run",)
        self.lines = [] if isinstance(asked, tuple) else [line for line in asked.split(b"\n") if line and not line.startswith(b"#")]
        self.known = {}
        self.plain = self.without(())

    def run(self, lines, refused=None):
        """The status, the text, the files, and whether a growth was refused."""
        script = b"".join(line + b"\n" for line in lines)
        with tempfile.TemporaryDirectory() as folder, tempfile.TemporaryDirectory() as beside:
            fill(folder, self.files)
            mark = os.path.join(beside, "refused")
            env = dict(os.environ)
            if refused:
                env.update(LD_PRELOAD=self.library, REFUSE=refused, REFUSED=mark)
            status, text = run(self.program, folder, self.words, script, env=env, timeout=600)
            return status, text, files_in(folder), os.path.exists(mark)

    def without(self, places, count=None):
        """What the first lines answer with no growth refused, those at some places left out."""
        if (places, count) not in self.known:
            lines = self.lines[:count]
            self.known[places, count] = self.run([line for at, line in enumerate(lines) if at not in places])
        return self.known[places, count]

    def unanswered(self, place):
        """The places of the lines `cert` behind a refused `mcsolve`, up to the next search that ends or the next edit."""
        found = []
        for at, (line, reply) in enumerate(zip(self.lines[place + 1 :], replies_of(self.plain[1])[0][place + 1 :]), place + 1):
            if line.split()[0] == b"cert":
                found.append(at)
            elif line.split()[0] in (b"solve", b"warm", b"mcsolve", b"load"):
                return tuple(found)
        return tuple(found)

    def fault_of_one(self, status, text, files):
        """What is wrong of a run with one growth refused."""
        if status not in (5, self.plain[0]):
            return f"status {status}"
        if not self.lines:
            return self.fault_of_words(status, text)
        found, rest = replies_of(text)
        if rest:
            return f"a reply that isn't whole: {rest}"
        places = [at for at, reply in enumerate(found) if reply == MEMORY]
        if (len(found) < len(self.lines) or places) and status != 5:
            return f"{len(found)} replies, {len(places)} of them for want of memory, and status {status}"
        if len(places) > 1:
            return "two replies for want of memory"
        place = places[0] if places else None
        if place is not None and self.lines[place].split()[0] in (b"solve", b"warm"):
            return self.fault_behind_search(place, found, files)
        told = {} if place is None else {place: MEMORY}
        if place is not None and self.lines[place].split()[0] == b"mcsolve":
            told.update((at, NO_ANSWER) for at in self.unanswered(place))
        left_out = tuple(sorted(told))
        wanted = replies_of(self.without(left_out)[1])[0]
        for at in left_out:
            wanted.insert(at, told[at])
        at = next((at for at, (reply, same) in enumerate(zip(found, wanted)) if reply != same and not self.is_other_part(at, reply, same)), None)
        if at is not None:
            return f"{self.lines[at]} behind {place}: wanted {wanted[at]}, and it says {found[at]}"
        possible = [self.without(left_out, count)[2] for count in {len(found), min(len(found) + 1, len(self.lines))}]
        if files not in possible and not any(self.differ_in_fronts(files, same) for same in possible):
            return f"the files {[name for name in files if files[name] != possible[0].get(name)]} behind {place} are others"
        return None

    def is_other_part(self, at, reply, wanted):
        """Whether both are parts of a front, in which a search stopped at a limit."""
        both = [text.split(b"\n") for text in (reply, wanted)]
        return self.lines[at].startswith(b"mcsolve ") and all(lines[0].startswith(b"frontier part ") for lines in both)

    def differ_in_fronts(self, files, wanted):
        """Whether some certificates of fronts alone are others, and `check` says the same of them for the model that each is of."""
        names = [name for name in files if files[name] != wanted.get(name)]
        if set(files) != set(wanted) or not all(files[name].startswith(b"front 1\n") and wanted[name].startswith(b"front 1\n") for name in names):
            return False
        for name in names:
            at = max(at for at, line in enumerate(self.lines) if line == b"cert " + name.encode())
            with tempfile.TemporaryDirectory() as folder:
                fill(folder, self.files)
                run(self.program, folder, script=b"\n".join(self.lines[:at] + [b"write NOW"]) + b"\n")
                told = []
                for text in (files[name], wanted[name]):
                    with open(os.path.join(folder, "T"), "wb") as file:
                        file.write(text)
                    told.append(run(self.program, folder, ("check", "NOW", "T")))
            if told[0] != told[1] or not told[0][1].startswith(b"accepted frontier "):
                return False
        return True

    def fault_of_words(self, status, text):
        if (status, text) == self.plain[:2]:
            return None
        if status == 5 and (text == MEMORY + b"\n" or (self.plain[1].startswith(text) and text[-1:] in (b"", b"\n"))):
            return None
        return f"status {status} with {text}"

    def fault_behind_search(self, place, found, files):
        """What is wrong behind a search for which memory was wanting. Until a search begins anew the tree may be another one."""
        wanted = replies_of(self.plain[1])[0]
        free, held = False, False
        for at, (line, reply) in enumerate(zip(self.lines, found)):
            word, words = line.split()[0], line.split()
            if at == place:
                free, held = True, False
                continue
            if free and word in (b"load", b"solve"):
                free = False
            if not free:
                fits = reply == wanted[at]
            elif word == b"warm":
                told, same = reply.split()[:2], wanted[at].split()[:2]
                fits = told == same or (told[0] == b"stopped" and len(words) > 1)
                held = told[0] != b"stopped"
            elif word == b"cert":
                fits = reply == (b"ok" if held else NO_ANSWER)
            elif word in (b"lbrhs", b"lbobj", b"ubrhs", b"ubobj"):
                fits = reply.startswith(b"bound ")
            elif word == b"mcsolve":
                fits = reply == wanted[at]
                held = reply.startswith((b"frontier complete ", b"infeasible "))
            else:
                fits = reply == wanted[at]
                held = held and word in (b"save", b"write")
            if not fits:
                return f"{line} behind {self.lines[place]}, which memory was wanting for: wanted {wanted[at]}, and it says {reply}"
        last = max([at for at, line in enumerate(self.lines) if line == b"cert C"], default=len(found))
        return self.certificate_fault(files) if len(found) == len(self.lines) > last and found[last] == b"ok" else None

    def certificate_fault(self, files):
        """The last certificate is of the model that was loaded first, to which the search went back."""
        model = self.lines[0].split()[1].decode()
        with tempfile.TemporaryDirectory() as folder:
            fill(folder, {model: self.files[model], "C": files["C"]})
            told = run(self.program, folder, ("check", model, "C"))[1]
        return None if told.startswith(b"accepted ") else f"check {model} C says {told}"

    def fault_of_all(self, status, text):
        """What is wrong of a run with all growths from one on refused."""
        if not self.lines:
            return self.fault_of_words(status, text)
        found, rest = replies_of(text)
        if rest or status != 5:
            return f"status {status}, {rest}"
        wanted = replies_of(self.plain[1])[0]
        for reply, same in zip(found, wanted):
            if reply == MEMORY:
                return None
            if reply != same:
                return f"{reply} before the first refusal"
        return None


def sweep(case, name, workers, step):
    """Refuses each `step`-th growth from the first on, `workers` runs at a time. Tells each run that differs, and the figures."""
    tried = answered = ended = differ = replies = 0
    most = 0
    with ThreadPoolExecutor(workers) as pool:
        for suffix in ("", ".."):
            at, open_ = 1, True
            while open_:
                numbers = range(at, at + 4 * workers * step, step)
                runs = pool.map(lambda number: case.run(case.lines, f"{number}{suffix}"), numbers)
                for number, (status, text, files, refused) in zip(numbers, list(runs)):
                    if not refused:
                        open_ = False
                        break
                    tried += 1
                    most = max(most, number)
                    replies += len(replies_of(text)[0])
                    answered += MEMORY in replies_of(text)[0]
                    ended += len(replies_of(text)[0]) < len(case.lines)
                    fault = case.fault_of_all(status, text) if suffix else case.fault_of_one(status, text, files)
                    if fault:
                        differ += 1
                        print(f"{name}, growth {number}{suffix}: {fault}", flush=True)
                at += 4 * workers * step
    print(
        f"{name}: growths up to {most}, {tried} runs, {replies} replies, {answered} runs with `error 90`, {ended} that ended before the script, {differ} differ",
        flush=True,
    )
    return differ


def main(program, *names):
    program, differ = os.path.abspath(program), 0
    workers, step = int(os.environ.get("JOBS", "1")), int(os.environ.get("STEP", "1"))
    with tempfile.TemporaryDirectory() as beside:
        library = built(beside)
        for name, (files, asked) in {**CASES, LARGE: series()}.items():
            if name in names or (not names and name != LARGE):
                differ += sweep(Case(program, library, files, asked), name, workers, step)
    return 1 if differ else 0


if __name__ == "__main__":
    sys.exit(main(*sys.argv[1:]))
