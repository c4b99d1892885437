#!/usr/bin/env python3
"""Compares what the compiler replies to `mean` with a second evaluator, on random programs and edits of them.

    oracle/compare.py PROGRAM FIRST COUNT      the built batch compiler, the first seed, and how many programs

Prints the first programs that differ, and how many replies of each kind there were. It ends with status 1 where any
differs.
"""

import random
import subprocess
import sys
from collections import Counter

from evaluator import TooLong, reply
from programs import Writer

MEANS = 3
MOST_STEPS = 3_000
MOST_SECONDS = 60


def allowance(choices):
    """How many calls to allow: mostly few, so that runs end in the midst of things."""
    least, most = choices.choice([(0, 5), (4, 12), (6, 14), (8, 18), (10, 24), (20, 40), (100, 100)])
    return choices.randint(least, most)


def fitting(program, calls):
    """The allowance, or one smaller with which the run is short, and the reply."""
    while True:
        try:
            return calls, reply(program, calls, MOST_STEPS)
        except TooLong:
            calls = calls * 2 // 3


def blocks(seed):
    """The blocks of a script for the seed, each with the reply that is wanted."""
    choices = random.Random(seed)
    for count, (edit, program) in enumerate(Writer(seed).versions, 1):
        yield edit, f"accepted {count}\n"
        for _ in range(MEANS):
            fit, wanted = fitting(program, allowance(choices))
            yield f"mean {fit}", wanted


def kind_of(answer):
    line = answer.splitlines()[-1]
    return " ".join(line.split(":")[0].split()[:4]) if line[0] == "=" else line.split()[0]


def compared(compiler, seed, kinds):
    """Whether all replies are the same."""
    pairs = list(blocks(seed))
    script = "".join(f"{block}\n.\n" for block, _ in pairs)
    wanted = "".join(part for _, part in pairs)
    kinds.update(kind_of(part) for _, part in pairs)
    try:
        run = subprocess.run([compiler], input=script.encode(), capture_output=True, timeout=MOST_SECONDS)
        replies = run.stdout.decode()
    except subprocess.TimeoutExpired:
        replies = "none in time\n"
    if replies != wanted:
        print(f"seed {seed}:\n{script}\nreplies:\n{replies}\nwanted:\n{wanted}")
    return replies == wanted


def main():
    compiler, first, count = sys.argv[1], int(sys.argv[2]), int(sys.argv[3])
    kinds, different = Counter(), 0
    for seed in range(first, first + count):
        different += not compared(compiler, seed, kinds)
        if different == 3:
            break
    print(f"{count} programs, {different} different; {dict(kinds)}")
    sys.exit(1 if different else 0)


if __name__ == "__main__":
    main()
