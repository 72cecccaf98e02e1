#!/usr/bin/env python3
"""Writes rows of `bench` for `crates/script_rows`: the models of a few seeds and sizes, and what their solves are answered.

    python3 bench/rows/bench_models.py > crates/script_rows/data/bench.rows

and the line `ok bench.rows: NAME` of each goes into `crates/script_rows/stdout`.

It shares nothing with the program: the words of a seed are drawn as docs/MANUAL.md says, and a model's best value is the least over all
its points. Where no result may be placed, the bound is the sum of the costs, which are all below 0: that is what a leaf without multipliers gives.
"""
import itertools

MULTIPLIER, MASK = 6364136223846793005, (1 << 64) - 1
MOST = MASK
USAGE = "usage: symphony run | check MODEL CERT | bench SEED ROWS COLS NODES"


class Words:
    """PCG-XSH-RR 64/32 on stream 54."""

    def __init__(self, seed):
        self.increment = 54 << 1 | 1
        self.state = ((seed + self.increment) * MULTIPLIER + self.increment) & MASK

    def word(self):
        old = self.state
        self.state = (old * MULTIPLIER + self.increment) & MASK
        shifted = ((old >> 18 ^ old) >> 27) & 0xFFFFFFFF
        turn = old >> 59
        return (shifted >> turn | shifted << (-turn & 31)) & 0xFFFFFFFF


def model(seed, rows, cols):
    words = Words(seed)
    costs = [-(1 + words.word() % 20) for _ in range(cols)]
    table = [[words.word() % 10 for _ in range(cols)] for _ in range(rows)]
    return costs, table, [sum(row) // 2 for row in table]


def best(costs, table, sides):
    values = []
    for point in itertools.product((0, 1), repeat=len(costs)):
        if all(sum(a * x for a, x in zip(row, point)) <= side for row, side in zip(table, sides)):
            values.append(sum(c * x for c, x in zip(costs, point)))
    return min(values)


def row(name, words, replies, status):
    print(f"\nrow {name}\nwords bench{''.join(' ' + word for word in words)}\nreplies")
    for reply in replies:
        print(f"| {reply}")
    print(f"status {status}")


def solved(name, seed, rows, cols, nodes, spelled=None):
    value = best(*model(seed, rows, cols))
    most = min(nodes, 2 * 2 ** cols - 1)
    words = spelled or (str(seed), str(rows), str(cols), str(nodes))
    row(name, words, [f"bench rows {rows} cols {cols}", f"optimal {value} nodes {{1..{most}}}", "cert accepted"], 0)


def unsolved(name, seed, rows, cols):
    bound = sum(model(seed, rows, cols)[0])
    row(name, (str(seed), str(rows), str(cols), "0"), [f"bench rows {rows} cols {cols}", f"stopped nodes 0 bound {bound} best none", "cert none"], 0)


def refused(name, *words):
    row(name, words, [USAGE], 2)


def main():
    first = Words(42)
    assert [first.word() for _ in range(4)] == [2707161783, 2068313097, 3122475824, 2211639955]

    print("# The models of seeds, solved: what `bench SEED ROWS COLS NODES` prints.")
    print("# Written by: python3 bench/rows/bench_models.py")
    print("script")
    solved("two columns", 42, 1, 2, 100)
    solved("five rows and ten columns", 1, 5, 10, 100)
    solved("the same again", 1, 5, 10, 100)
    solved("another seed", 2, 5, 10, 100)
    solved("one row and one column", 7, 1, 1, 3)
    solved("ten rows and twelve columns", 3, 10, 12, MOST)
    solved("the last seed of 64 bits", MOST, 2, 6, MOST)
    solved("numbers with a sign and with zeros in front", 7, 1, 3, 100, ("+7", "01", "003", "+100"))
    unsolved("no result", 1, 5, 10)
    unsolved("all rows and columns that there may be", 1, 100, 40)
    refused("no numbers")
    refused("three numbers", "1", "5", "10")
    refused("five numbers", "1", "5", "10", "100", "1")
    refused("no row", "1", "0", "10", "100")
    refused("a row too many", "1", "101", "10", "100")
    refused("no column", "1", "5", "0", "100")
    refused("a column too many", "1", "5", "41", "100")
    refused("a seed past 64 bits", str(MOST + 1), "5", "10", "100")
    refused("a limit past 64 bits", "1", "5", "10", str(MOST + 1))
    refused("a seed below 0", "-1", "5", "10", "100")
    refused("a limit below 0", "1", "5", "10", "-1")
    refused("a seed that is no number", "seed", "5", "10", "100")
    refused("a fraction", "1", "5", "10", "1/2")


if __name__ == "__main__":
    main()
