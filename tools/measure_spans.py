#!/usr/bin/env python3
"""Times bookspans on two full books: the whole process, start-up included, and beside it a process that does nothing.

Usage: tools/measure_spans.py PROGRAM [RUNS]
Each book has 1,024 questions, 1,536 facts and 1,536 withdrawals. Prints the least and the median time of RUNS runs (60 unless said
otherwise).
"""
import random
import struct
import subprocess
import sys
import time

QUESTIONS, FACTS = 1024, 1536


def words(records):
    return b"".join(struct.pack("<II", kind << 29 | first, 4 << 29 | second) for kind, first, second in records)


def mixed(rng):
    """Facts, withdrawals and questions in random order; 1,998 different facts are possible."""
    steps = [1] * FACTS + [2] * FACTS + [3] * QUESTIONS
    rng.shuffle(steps)
    alive, owed, records = [], 0, []
    for kind in steps:
        if kind == 3:
            records.append((3, rng.randint(0, 1000), 0))
        elif kind == 1:
            alive.append((rng.randint(1, 999), rng.randint(1, 2)))
            records.append((1, *alive[-1]))
        elif alive:
            records.append((2, *alive.pop(rng.randrange(len(alive)))))
        else:
            owed += 1
    records += [(2, *f) for f in alive[:owed]]
    return records


def equal():
    """All facts are equal and come first, then the questions, then the withdrawals."""
    return [(1, 10, 1)] * FACTS + [(3, 0, 0)] * QUESTIONS + [(2, 10, 1)] * FACTS


def timed(command, data, runs):
    times = []
    for _ in range(runs):
        start = time.perf_counter()
        subprocess.run(command, input=data, stdout=subprocess.PIPE, check=True)
        times.append(time.perf_counter() - start)
    times.sort()
    return f"least {times[0] * 1e3:.1f} ms, median {times[runs // 2] * 1e3:.1f} ms"


def main():
    program = sys.argv[1]
    runs = int(sys.argv[2]) if len(sys.argv) > 2 else 60
    print("nothing:", timed(["true"], b"", runs))
    for name, book in (("mixed", mixed(random.Random(1))), ("equal", equal())):
        print(f"{name}:", timed([program], words(book), runs), flush=True)


main()
