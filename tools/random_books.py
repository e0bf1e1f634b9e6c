#!/usr/bin/env python3
"""Runs bookspans on random books, sound and damaged, and compares each output with an independent solver.

Usage: tools/random_books.py PROGRAM [BOOKS [SEED]]
The solver here keeps a queue for each fact, which the proved code does not.
"""
import random
import struct
import subprocess
import sys
from collections import defaultdict, deque

LIMIT = (1 << 29) - 1


def expected(data):
    """What bookspans has to print for these bytes."""
    words = [w for (w,) in struct.iter_unpack("<I", data[: len(data) // 4 * 4])][:8194]
    alive = defaultdict(deque)
    facts, withdrawals, questions, deepest, living = [], 0, 0, 0, 0
    at, number = 0, 0
    while at < len(words):
        head = words[at]
        kind, first = head >> 29, head & LIMIT
        if kind not in (1, 2, 3):
            return f"refused 5 at {at}\n"
        if at + 1 == len(words):
            return f"refused 6 at {len(words)}\n"
        if words[at + 1] >> 29 != 4:
            return f"refused 5 at {at + 1}\n"
        second = words[at + 1] & LIMIT
        if number == 4096:
            return f"refused 2 at {at}\n"
        if kind == 1:
            facts.append([number, first, second, questions, None])
            alive[first, second].append(facts[-1])
            living += 1
        elif kind == 2:
            if not alive[first, second]:
                return f"refused 3 at {at}\n"
            alive[first, second].popleft()[4] = questions
            withdrawals += 1
            living -= 1
        else:
            if questions == 1024:
                return f"refused 4 at {at}\n"
            questions += 1
            deepest = max(deepest, living)
        at, number = at + 2, number + 1
    lines = [
        f"record {n} fact {a} {b} span {s} {questions if e is None else e}\n" for n, a, b, s, e in facts
    ]
    lines += [f"facts {len(facts)}\n", f"withdrawals {withdrawals}\n", f"questions {questions}\n", f"deepest {deepest}\n"]
    return "".join(lines)


def word(kind, payload):
    return struct.pack("<I", kind << 29 | payload)


def book(rng):
    """A book that is sound but for a few withdrawals of nothing, then perhaps damaged."""
    size = rng.choice([0, 1, 2, 5, 20, 100, 1000, 4095, 4096, 4097, 4100])
    values = rng.choice([[1], [0, LIMIT], [10, 20, 30], list(range(50))])
    alive, data, sloppy = [], b"", rng.random() < 0.2
    weights = rng.choice([(3, 3, 2), (1, 1, 0), (1, 0, 3), (5, 1, 1)])
    for _ in range(size):
        kind = rng.choices([1, 2, 3], weights)[0]
        first, second = rng.choice(values), rng.choice(values)
        if kind == 2 and not sloppy:
            if alive:
                first, second = alive.pop(rng.randrange(len(alive)))
            else:
                kind = 1
        if kind == 1:
            alive.append((first, second))
        data += word(kind, first) + word(4, second)
    damage = rng.random()
    if damage < 0.1 and data:
        at = rng.randrange(len(data) // 4) * 4
        data = data[:at] + struct.pack("<I", rng.getrandbits(32)) + data[at + 4 :]
    elif damage < 0.2:
        data = data[: rng.randrange(len(data) + 1)]
    elif damage < 0.3:
        data += bytes(rng.getrandbits(8) for _ in range(rng.randrange(1, 6)))
    return data


def main():
    program = sys.argv[1]
    count = int(sys.argv[2]) if len(sys.argv) > 2 else 500
    rng = random.Random(int(sys.argv[3]) if len(sys.argv) > 3 else 1)
    kinds = defaultdict(int)
    for i in range(count):
        data = book(rng)
        got = subprocess.run([program], input=data, capture_output=True, check=True).stdout.decode()
        want = expected(data)
        if got != want:
            open("/tmp/differs.words", "wb").write(data)
            sys.exit(f"book {i} differs, kept in /tmp/differs.words: {got[:80]!r} for {want[:80]!r}")
        kinds[want.split(" at")[0] if want.startswith("refused") else "listed"] += 1
    print(f"{count} books agree:", ", ".join(f"{k} {n}" for k, n in sorted(kinds.items())))


main()
