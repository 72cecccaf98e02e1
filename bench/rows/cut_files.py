#!/usr/bin/env python3
"""Writes a row for `crates/script_rows`: the file of a search, cut at each shorter length, is refused, and the kept search stands.

    python3 bench/rows/cut_files.py > crates/script_rows/data/cut-files.rows

The search is one of the knapsack of the examples: its optimum, the cover of its row A, and a root that these multipliers close. It was written by hand
from the manual's form of the file. No text that is cut off is a JSON value, so each is refused at the whole, with code 1.
"""

COLUMNS = [("X", -5, 2, 3), ("Y", -4, 3, 4), ("Z", -3, 1, 2)]


def column(name, cost, first, second):
    return f'{{"cost":"{cost}","cost2":"0","int":true,"lo":"0","name":"{name}","rows":[[0,"{first}"],[1,"{second}"]],"up":"1"}}'


CUTS = '[{"lits":[[0,true],[1,true],[2,true]],"row":0,"side":"hi"}]'
ROWS = '[{"hi":"5","lo":null,"name":"A"},{"hi":"8","lo":null,"name":"B"}]'
MODEL = f'{{"cols":[{",".join(column(*each) for each in COLUMNS)}],"const":"0","const2":"0","obj":"C","obj2":"OBJ2","rows":{ROWS},"sense":"min"}}'
LISTS = '"basis":[["col",1],["col",2],["row",1]],"farkas":[],"high":[["col",0],["row",0],["cut",0]]'
LEAF = f'{{{LISTS},"leaf":"closed","mult":[["row",0,"-1/2"],["cut",0,"-5/2"]]}}'
FILE = f'{{"cuts":{CUTS},"model":{MODEL},"nodes":[{LEAF}],"points":[[[0,"1"],[1,"1"]]],"warm":1}}'


def spelled(text):
    return "| " + text.replace("{", "\\{") + "\\"


def main():
    print("# Written by bench/rows/cut_files.py: a search in a file, whole and cut at each shorter length.")
    print("file K < models/K")
    for length in range(len(FILE)):
        print(f"file W{length}")
        if length:
            print(spelled(FILE[:length]))
    print(f"file W\n{spelled(FILE)}")
    optimal = "| x X 1\n| x Y 1\n| end"
    print(f"\nrow the file cut at each shorter length, and whole\nscript\n| load K\n| solve nodes 15\neach k 0..{len(FILE) - 1}\n| restore W{{k}}\ndone\n| warm\n| restore W\n| warm\nreplies")
    print(f"| ok\n| optimal -9 nodes {{1..15}}\n{optimal}\neach k 0..{len(FILE) - 1}\n| error 31 warm place / code 1\ndone\n| optimal -9 nodes 0\n{optimal}\n| ok\n| optimal -9 nodes 0\n{optimal}\nstatus 1")


main()
