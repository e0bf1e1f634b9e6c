#!/usr/bin/env python3
"""Writes the words of a full book to standard output, to measure with.

Usage: tools/full_book.py KIND [QUESTIONS [SEED]]
KIND is prizes, masks or bands. There are QUESTIONS questions (1,024 unless said otherwise) and half as many facts again, each of which
is withdrawn; at most 32 are alive at once, and the oldest goes first, so that the spans are long.
"""
import random
import struct
import sys


def records(kind, questions, rng):
    """The records as (kind of record, first, second)."""
    facts = questions * 3 // 2
    alive, entered, withdrawn, asked = [], 0, 0, 0
    for step in range(2 * facts + questions):
        # what is most behind its share comes next
        if alive and (len(alive) == 32 or (entered == facts and asked * 2 * facts >= questions * (entered + withdrawn))):
            yield (2, *alive.pop(0))
            withdrawn += 1
        elif asked < questions and asked * 2 * facts < questions * (entered + withdrawn):
            yield (3, *question(kind, rng))
            asked += 1
        elif entered < facts:
            alive.append(fact(kind, rng))
            yield (1, *alive[-1])
            entered += 1
        elif alive:
            yield (2, *alive.pop(0))
            withdrawn += 1
        else:
            yield (3, *question(kind, rng))
            asked += 1


def fact(kind, rng):
    if kind == "prizes":
        return rng.randint(5, 100), rng.randint(1, 10)
    if kind == "masks":
        return rng.randrange(1 << 29), rng.randrange(1 << 29)
    return rng.randrange(1024), rng.randrange(2048)


def question(kind, rng):
    if kind == "prizes":
        return rng.randint(0, 1000), 0
    if kind == "masks":
        return rng.randrange(1 << 29), rng.randrange(1 << 29)
    return rng.randrange(1024), rng.randrange(1024)


def main():
    kind = sys.argv[1]
    questions = int(sys.argv[2]) if len(sys.argv) > 2 else 1024
    rng = random.Random(int(sys.argv[3]) if len(sys.argv) > 3 else 1)
    for tag, first, second in records(kind, questions, rng):
        sys.stdout.buffer.write(struct.pack("<II", tag << 29 | first, 4 << 29 | second))


if __name__ == "__main__":
    main()
