#!/usr/bin/env python3
"""Writes a book that asks much of judging, as rows: bench/large_book.py [LETTERS [SEED]] | crates/judge/out/judge --rows

It has 64 rules, the most that there may be. Two say that a part `zero` makes all `zero`; 62 have left sides of 31 letters and signs, all of
one sign with two parts, in random shapes, so that almost every rule meets every other at each of 15 places; their right side is `zero`.
"""
import random
import sys

ZERO, PAIR = [1, 0], [1, 1]


def tree(signs, letters):
    """The row of a random term with that many signs."""
    if signs == 0:
        return [0, random.randrange(letters)]
    left = random.randrange(signs)
    return PAIR + tree(left, letters) + tree(signs - 1 - left, letters)


def main():
    letters = int(sys.argv[1]) if len(sys.argv) > 1 else 16
    random.seed(int(sys.argv[2]) if len(sys.argv) > 2 else 1)
    lefts = [PAIR + ZERO + [0, 0], PAIR + [0, 0] + ZERO] + [tree(15, letters) for _ in range(62)]
    sides = [word for left in lefts for word in left + ZERO]
    print(2, 0, 2, 0, 1, len(lefts), len(lefts), *sides, *sides)
    print(*[word for _ in lefts for word in [1] + ZERO])


main()
