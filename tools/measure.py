#!/usr/bin/env python3
"""Times spinbook on full books: the whole process, start-up included, for each kind and for growing numbers of questions.

Usage: tools/measure.py PROGRAM [RUNS]
Prints the least and the median time of RUNS runs (60 unless said otherwise), and the additions and the deepest of each book.
"""
import os
import subprocess
import sys
import time

program = sys.argv[1]
runs = int(sys.argv[2]) if len(sys.argv) > 2 else 60
maker = os.path.join(os.path.dirname(os.path.abspath(__file__)), "full_book.py")

for kind in ("prizes", "masks", "bands"):
    for questions in (64, 128, 256, 512, 1024):
        words = subprocess.run([sys.executable, maker, kind, str(questions)], stdout=subprocess.PIPE, check=True).stdout
        times = []
        for _ in range(runs):
            start = time.perf_counter()
            out = subprocess.run([program, kind], input=words, stdout=subprocess.PIPE, check=True).stdout
            times.append(time.perf_counter() - start)
        times.sort()
        tail = out.decode().split("\n")[-3:-1]
        print(f"{kind} {questions} questions: least {times[0] * 1e3:.1f} ms, median {times[runs // 2] * 1e3:.1f} ms, {', '.join(tail)}", flush=True)
