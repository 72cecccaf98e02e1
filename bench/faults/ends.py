"""The real ends of the program: files, pipes, folders and signals that fail, each at each place.

    python3 bench/faults/ends.py PROGRAM [PART ..]

PROGRAM is the program that is built, crates/sym_main/out/sym_main. Each part prints a line with how many cases there were and how many differ, and one for each that differs:

    full        a limit on the length of files at each byte of `save`, `cert` and `write`, with its signal passed over: `error 20 store`, a front of
                the file stands, and the run goes on; what is read back of it is refused by name, or is whole
    disk        a file system of 64 KiB that is full in the midst of a `save`, and room again (as root alone)
    folders     a folder and files that can't be written or read, names of folders, and a file without end
    changed     a file that vanishes, is cut at each byte or becomes another one between `save` and `restore`
    pipe        standard output that closes after each byte; one that is full, is closed, or is full and set not to wait
    output      standard output that is a file of limited length, at each byte
    input       a script that is cut at each byte; standard input that is a folder, is closed, or is set not to wait
    signals     SIGPIPE; SIGINT and SIGTERM at moments of a `save`, and which file stands then
"""
import os
import resource
import signal
import subprocess
import sys
import tempfile
import time

from program import KNAPSACK, fill, files_in, replies_of, run
from sizes import chain_of_nodes

SCRIPT = b"load K\nsolve\nsave W\ncert C\nwrite G\nlbrhs A 4\nquit\n"


class Part:
    """Counts cases, and tells those that differ."""

    def __init__(self, name):
        self.name, self.cases, self.differ = name, 0, 0

    def want(self, holds, what):
        self.cases += 1
        if not holds:
            self.differ += 1
            print(f"{self.name}: {what}", flush=True)

    def close(self, more=""):
        print(f"{self.name}: {self.cases} cases, {self.differ} differ{more}", flush=True)
        return self.differ


def limited(length, passed_over=True):
    """What a process does before the program begins: no file grows past this length, and the signal of that is passed over."""

    def before():
        signal.signal(signal.SIGXFSZ, signal.SIG_IGN if passed_over else signal.SIG_DFL)
        resource.setrlimit(resource.RLIMIT_FSIZE, (length, length))

    return {"preexec_fn": before, "restore_signals": False}


def plain(program):
    """What the script is answered, and the files that it leaves."""
    with tempfile.TemporaryDirectory() as folder:
        fill(folder, {"K": KNAPSACK})
        status, text = run(program, folder, script=SCRIPT)
        return status, text, files_in(folder)


def full(program):
    part, (_, _, files) = Part("full"), plain(program)
    for command, name, back in (("save", "W", "restore W"), ("cert", "C", None), ("write", "G", "load G")):
        for length in range(len(files[name])):
            with tempfile.TemporaryDirectory() as folder:
                fill(folder, {"K": KNAPSACK, "old": b"old"})
                script = f"load K\nsolve\n{command} {name}\nlbrhs A 5\n{back or 'cert old'}\nwarm\n".encode()
                status, text = run(program, folder, script=script, **limited(length))
                found, left = replies_of(text)[0], files_in(folder)
                part.want(status == 1 and len(found) == 6 and found[2:4] == [b"error 20 store", b"bound -9"], f"{command} at {length}: {status}, {text}")
                part.want(left[name] == files[name][:length], f"{command} at {length} left {left[name]}")
                part.want(found[5].startswith(b"optimal -9 nodes"), f"{command} at {length}, then {found[5]}")
                if command == "save":
                    part.want(found[4] == b"error 31 warm place / code 1", f"restore at {length}: {found[4]}")
                elif command == "write":
                    part.want(found[4].startswith(b"error 30 mps line ") or b"ENDATA" in left[name], f"load at {length}: {found[4]}")
                else:
                    told = run(program, folder, ("check", "K", name))
                    part.want(told[1].startswith(b"error 32 cert line ") or left[name] + b"\n" == files[name], f"check at {length}: {told}")
    with tempfile.TemporaryDirectory() as folder:
        fill(folder, {"K": KNAPSACK})
        status, _ = run(program, folder, script=SCRIPT, **limited(10, False))
    return part.close(f"; where the signal isn't passed over it ends the run: {status}")


def disk(program):
    part = Part("disk")
    with tempfile.TemporaryDirectory() as folder:
        if subprocess.run(["mount", "-t", "tmpfs", "-o", "size=64k", "none", folder], stderr=subprocess.DEVNULL).returncode:
            return part.close("; no file system can be made here")
        try:
            fill(folder, {"K": KNAPSACK, "filler": b""})
            with open(os.path.join(folder, "filler"), "wb") as file:
                file.write(bytes(56 * 1024))
            script = b"load K\n" + b"".join(b"edit addrow %s%d none 1 X 1\n" % (b"R" * 100, row) for row in range(30)) + b"save W\nwarm\nsave W\n"
            status, text = run(program, folder, script=script)
            found = replies_of(text)[0]
            part.want(status == 1 and found[-3] == found[-1] == b"error 20 store" and found[-2].startswith(b"optimal "), f"{status}, {found[-3:]}")
            os.remove(os.path.join(folder, "filler"))
            status, text = run(program, folder, script=script + b"restore W\nwarm\n")
            part.want(status == 0 and replies_of(text)[0][-1].startswith(b"optimal "), f"with room again: {status}, {text[-80:]}")
        finally:
            subprocess.run(["umount", folder], check=True)
    return part.close()


def folders(program):
    part = Part("folders")
    with tempfile.TemporaryDirectory() as folder:
        fill(folder, {"K": KNAPSACK, "secret": KNAPSACK})
        os.mkdir(os.path.join(folder, "sub"))
        os.symlink("/dev/zero", os.path.join(folder, "endless"))
        os.symlink("/dev/full", os.path.join(folder, "full"))
        os.symlink("nowhere/at/all", os.path.join(folder, "hanging"))
        os.chmod(os.path.join(folder, "secret"), 0)
        os.chmod(folder, 0o555)
        script = b"load K\nsolve\nsave W\ncert C\nload secret\nload sub\nsave sub\nload hanging\nsave hanging\nsave full\nload endless\nwrite K\nwarm\ncert full\n"
        as_nobody = {"user": 65534, "group": 65534} if os.geteuid() == 0 else {}
        status, text = run(program, folder, script=script, **as_nobody)
        found = replies_of(text)[0]
        store = b"error 20 store"
        part.want(status == 1, f"status {status}")
        part.want(found[:1] == [b"ok"] and found[1].startswith(b"optimal -9"), f"{found[:2]}")
        part.want(found[2:10] == [store] * 8, f"{found[2:10]}")
        part.want(found[10] == b"error 21 file too long", f"{found[10]}")
        part.want(found[11] == store and found[12].startswith(b"optimal -9 nodes 0") and found[13] == store, f"{found[11:]}")
        os.chmod(folder, 0o700)
    return part.close()


class Talk:
    """A run that is given its script line by line, each behind the reply to the one before."""

    def __init__(self, program, folder, words=("run",), **how):
        self.process = subprocess.Popen([program, *words], cwd=folder, stdin=subprocess.PIPE, stdout=subprocess.PIPE, stderr=subprocess.DEVNULL, bufsize=0, **how)

    def ask(self, line):
        self.process.stdin.write(line + b"\n")
        text = b""
        while not replies_of(text)[0]:
            piece = self.process.stdout.read(1)
            if not piece:
                return text
            text += piece
        return replies_of(text)[0][0]

    def close(self):
        try:
            self.process.stdin.close()
        except BrokenPipeError:
            pass
        self.process.stdout.close()
        return self.process.wait(60)


def changed(program):
    part, (_, text, files) = Part("changed"), plain(program)
    answer = replies_of(text)[0][1]
    again = answer.split(b" nodes ")[0] + b" nodes 0\n" + answer.split(b"\n", 1)[1]
    with tempfile.TemporaryDirectory() as folder:
        fill(folder, {"K": KNAPSACK})
        talk = Talk(program, folder)
        for line in (b"load K", b"solve", b"save W"):
            talk.ask(line)
        path = os.path.join(folder, "W")
        os.remove(path)
        part.want(talk.ask(b"restore W") == b"error 20 store" and talk.ask(b"warm") == again, "a file that vanished")
        for length in range(len(files["W"])):
            with open(path, "wb") as file:
                file.write(files["W"][:length])
            told = talk.ask(b"restore W")
            part.want(told == b"error 31 warm place / code 1", f"cut at {length}: {told}")
        part.want(talk.ask(b"warm") == again, "warm behind all of them")
        with open(path, "wb") as file:
            file.write(files["W"].replace(b'"hi":"5"', b'"hi":"4"'))
        part.want(talk.ask(b"restore W") == b"ok", "another model")
        told = talk.ask(b"warm")
        part.want(told.startswith(b"optimal -8 nodes"), f"another model: {told}")
        os.remove(os.path.join(folder, "K"))
        part.want(talk.ask(b"load K") == b"error 20 store" and talk.ask(b"warm").startswith(b"optimal -8 nodes 0"), "the model's file vanished")
        part.want(talk.close() == 1, "the status")
    return part.close()


def filled(writer):
    try:
        os.write(writer, bytes(4096))
    except BlockingIOError:
        return True
    return False


def pipe(program):
    part, (status, text, files) = Part("pipe"), plain(program)
    lines = SCRIPT.split(b"\n")[:-1]
    for count in range(len(text) + 1):
        with tempfile.TemporaryDirectory() as folder:
            fill(folder, {"K": KNAPSACK})
            talk, got, asked = Talk(program, folder), b"", 0
            while len(got) < count:
                talk.process.stdin.write(lines[asked] + b"\n")
                asked += 1
                reply = replies_of(text)[0][asked - 1] + b"\n"
                wanted = min(len(reply), count - len(got))
                while wanted:
                    piece = talk.process.stdout.read(wanted)
                    got, wanted = got + piece, wanted - len(piece) if piece else 0
            talk.process.stdout.close()
            try:
                for line in lines[asked:]:
                    talk.process.stdin.write(line + b"\n")
            except BrokenPipeError:
                pass
            ended = talk.close()
            part.want(got == text[:count], f"after {count} bytes: {got}")
            part.want(ended == (4 if asked < len(lines) else status), f"closed after {count} bytes, {asked} lines: {ended}")
            left = files_in(folder)
            # the reply to a command that has run is what fails: the next command doesn't run
            done = {"K", *(name for at, name in ((2, "W"), (3, "C"), (4, "G")) if at <= asked)}
            part.want(left == {name: files[name] for name in done}, f"after {count} bytes these files stand: {sorted(left)}")
    with tempfile.TemporaryDirectory() as folder, open("/dev/full", "wb") as none:
        fill(folder, {"K": KNAPSACK})
        # words that are refused have their status also where the usage line can't be printed
        for words, wanted in ((("run",), 4), (("check", "K", "K"), 4), (("bench", "1", "2", "3", "4"), 4), (("frob",), 2)):
            ended = subprocess.run([program, *words], cwd=folder, input=SCRIPT, stdout=none).returncode
            part.want(ended == wanted, f"{words} to /dev/full: {ended}")
            ended = subprocess.run(["sh", "-c", 'exec "$@" >&-', "sh", program, *words], cwd=folder, input=SCRIPT).returncode
            part.want(ended == wanted, f"{words} to no standard output: {ended}")
            reader, writer = os.pipe()
            os.set_blocking(writer, False)
            while not filled(writer):
                pass
            ended = subprocess.run([program, *words], cwd=folder, input=SCRIPT, stdout=writer).returncode
            part.want(ended == wanted, f"{words} to a full pipe that doesn't wait: {ended}")
            os.close(reader)
            os.close(writer)
    return part.close()


def output(program):
    part, (status, text, files) = Part("output"), plain(program)
    longest = max(map(len, files.values()))
    for count in range(len(text) + 1):
        with tempfile.TemporaryDirectory() as folder, tempfile.TemporaryFile() as out:
            fill(folder, {"K": KNAPSACK})
            # behind a front that nothing is written to, so that the limit is one of the replies alone
            out.seek(longest)
            ended = subprocess.run([program, "run"], cwd=folder, input=SCRIPT, stdout=out, **limited(longest + count)).returncode
            out.seek(longest)
            got = out.read()
            part.want(ended == (4 if count < len(text) else status), f"room for {count} bytes: {ended}")
            part.want(got == text[:count], f"room for {count} bytes: {got}")
    return part.close()


def input_ends(program):
    part = Part("input")
    for count in range(len(SCRIPT)):
        if SCRIPT[count - 1 : count] in (b"\n", b""):
            continue
        with tempfile.TemporaryDirectory() as folder:
            told = []
            for script in (SCRIPT[:count], SCRIPT[:count] + b"\n"):
                fill(folder, {"K": KNAPSACK})
                told.append((run(program, folder, script=script), files_in(folder)))
            part.want(told[0] == told[1], f"cut at {count}: {told[0][0]}, and with a line feed {told[1][0]}")
    with tempfile.TemporaryDirectory() as folder:
        fill(folder, {"K": KNAPSACK})
        ends = {"a folder": "exec \"$@\" < .", "a file that is written alone": "exec \"$@\" 0> W", "nothing": "exec \"$@\" <&-"}
        for what, words in ends.items():
            ran = subprocess.run(["sh", "-c", words, "sh", program, "run"], cwd=folder, stdout=subprocess.PIPE)
            part.want((ran.returncode, ran.stdout) == (3, b""), f"standard input is {what}: {ran.returncode}, {ran.stdout}")
            ran = subprocess.run(["sh", "-c", words, "sh", program, "check", "K", "K"], cwd=folder, stdout=subprocess.PIPE)
            part.want((ran.returncode, ran.stdout) == (1, b"error 32 cert line 1 code 1\n"), f"`check` where it is {what}: {ran.returncode}, {ran.stdout}")
        reader, writer = os.pipe()
        os.set_blocking(reader, False)
        os.write(writer, b"load K\nsol")
        ran = subprocess.run([program, "run"], cwd=folder, stdin=reader, stdout=subprocess.PIPE)
        part.want((ran.returncode, ran.stdout) == (3, b"ok\n"), f"a pipe that doesn't wait: {ran.returncode}, {ran.stdout}")
    return part.close()


def signals(program):
    part, kinds = Part("signals"), {}
    with tempfile.TemporaryDirectory() as folder:
        fill(folder, {"K": KNAPSACK})
        for passed_over in (False, True):
            talk = Talk(program, folder, restore_signals=not passed_over)
            talk.ask(b"load K")
            talk.process.stdout.close()
            talk.process.stdin.write(b"solve\nsolve\n")
            ended = talk.close()
            part.want(ended == 4, f"SIGPIPE {'passed over' if passed_over else 'as it is'}: {ended}")
        fill(folder, {"M": chain_of_nodes(2**21), "W": b""})
        path, old = os.path.join(folder, "W"), b"old" * 100
        talk = Talk(program, folder)
        talk.ask(b"restore M")
        begun = time.monotonic()
        talk.ask(b"save W")
        seconds, whole = time.monotonic() - begun, files_in(folder)["W"]
        talk.close()
        tries = int(os.environ.get("TRIES", "40"))
        for at in range(tries):
            number = (signal.SIGINT, signal.SIGTERM)[at % 2]
            fill(folder, {"M": whole, "W": old})
            talk = Talk(program, folder)
            talk.ask(b"restore M")
            talk.process.stdin.write(b"save W\n")
            if at % 4 < 2:
                time.sleep(seconds * 1.2 * at / tries)
            else:
                # as soon as the file is another one
                while os.stat(path).st_size == len(old) and talk.process.poll() is None:
                    pass
            talk.process.send_signal(number)
            ended = talk.process.wait(60)
            left = files_in(folder)["W"]
            kind = "old" if left == old else "whole" if left == whole else "empty" if not left else "front" if whole.startswith(left) else "other"
            kinds[kind] = kinds.get(kind, 0) + 1
            part.want(ended == -number and kind != "other", f"{number.name}: {ended}, the file is {kind}")
            if kind in ("empty", "front"):
                told = run(program, folder, script=b"restore W\n")[1]
                part.want(told == b"error 31 warm place / code 1\n", f"restore of a file that is {kind}: {told}")
    return part.close(f"; {tries} signals in a `save` of {len(whole)} bytes left files behind: {kinds}")


PARTS = {"full": full, "disk": disk, "folders": folders, "changed": changed, "pipe": pipe, "output": output, "input": input_ends, "signals": signals}


def main(program, *names):
    program = os.path.abspath(program)
    return 1 if sum([PARTS[name](program) for name in PARTS if not names or name in names]) else 0


if __name__ == "__main__":
    sys.exit(main(*sys.argv[1:]))
