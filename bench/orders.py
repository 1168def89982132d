#!/usr/bin/env python3
"""How often terms grow too large, by the order of steps: bench/orders.py [TELL]

Takes the books of books/ that settle, and random terms of growing size, and brings each to normal form in three orders: by need as the
engine does it, innermost, and leftmost outermost. It counts for each how many come to a term of more than N different parts, which is
where `tell` may say `full`: for N = 64, and for the least that the program lets be lent for the book. With TELL, the program's own
answers are counted beside. What takes more than 2000 steps is cut off, and counted after a `+`. It also says to how large a term judging
the book comes, in each order: with fewer than that, `judge` might say `room`.
"""
import random
import subprocess
import sys
import tempfile
from pathlib import Path

SIZES = [8, 16, 32, 64]
TERMS = 100
MOST_STEPS = 2000
FEW_PARTS = 64
BOOKS = Path(__file__).resolve().parent.parent / "books"
MARKS = "(),=/"


class Term:
    """A letter or a sign by its name, with its parts. Equal terms are one object."""

    __slots__ = ("name", "parts")
    known = {}


def make(name, *parts):
    key = (name, *map(id, parts))
    if key not in Term.known:
        t = Term.known[key] = Term()
        t.name, t.parts = name, parts
    return Term.known[key]


class Book:
    """A book in the readable form."""

    def __init__(self, text):
        lines = [line.split("#")[0].replace("->", " > ") for line in text.splitlines()]
        spaced = " ".join(lines)
        for mark in MARKS:
            spaced = spaced.replace(mark, f" {mark} ")
        self.words = spaced.split()
        self.signs, self.letters, self.equations, self.rules, self.way_symbols = {}, [], [], [], 0
        self.read()
        self.by_top = {}
        for left, right in self.rules:
            self.by_top.setdefault(left.name, []).append((left, right))

    def take(self, word):
        if self.words and self.words[0] == word:
            self.words.pop(0)
            return True
        return False

    def more(self):
        return self.words and self.words[0] not in ("letters", "equations", "rules")

    def read(self):
        self.take("signs")
        while self.more():
            name, _, parts = self.words.pop(0), self.words.pop(0), int(self.words.pop(0))
            self.signs[name] = parts
            if self.take("rank"):
                self.words.pop(0)
        if self.take("letters"):
            while self.more():
                self.letters.append(self.words.pop(0))
        if self.take("equations"):
            while self.more():
                self.equations.append(self.sides("="))
        if self.take("rules"):
            while self.more():
                self.rules.append(self.sides(">"))
                while self.take("="):
                    self.way_symbols += size(self.term())

    def sides(self, mark):
        left = self.term()
        assert self.take(mark)
        return left, self.term()

    def term(self):
        name = self.words.pop(0)
        parts = []
        if self.take("("):
            while not self.take(")"):
                parts.append(self.term())
                self.take(",")
        return make(name, *parts)

    def is_letter(self, t):
        return t.name not in self.signs

    def words_of_rows(self):
        """How many words the rows of the book and its ways have."""
        symbols = sum(size(t) for sides in self.equations + self.rules for t in sides) + self.way_symbols
        return 3 + 2 * len(self.signs) + len(self.rules) + 2 * symbols

    def random_term(self, chance, most):
        fitting = [f for f, n in self.signs.items() if n < most]
        if not fitting or most == 1 and chance.random() < 0.1:
            return make(chance.choice(self.letters[:2]))
        f = chance.choice([g for g in fitting if self.signs[g]] or fitting) if most > 1 else chance.choice(fitting)
        left, parts = most - 1, []
        for i in range(self.signs[f]):
            others = self.signs[f] - 1 - i
            share = left if others == 0 else chance.randint(1, left - others)
            part = self.random_term(chance, share)
            left -= size(part)
            parts.append(part)
        return make(f, *parts)


def size(t):
    return 1 + sum(map(size, t.parts))


def different(*terms):
    """How many different parts the terms have together."""
    seen, open_terms = set(), list(terms)
    while open_terms:
        t = open_terms.pop()
        if t not in seen:
            seen.add(t)
            open_terms.extend(t.parts)
    return len(seen)


class Large(Exception):
    """A term of more than the agreed count of different parts."""


class Long(Exception):
    """Too many steps."""


class Reducer:
    """Brings terms to normal form. The largest term on the way is kept in `largest`."""

    def __init__(self, book, most):
        self.book, self.most, self.largest, self.steps = book, most, 0, 0
        self.known, self.done = {}, set()

    def matches(self, left, t, put):
        if self.book.is_letter(left):
            return put.setdefault(left.name, t) is t
        return left.name == t.name and all(self.matches(p, q, put) for p, q in zip(left.parts, t.parts))

    def instance(self, t, put):
        if self.book.is_letter(t):
            return put[t.name]
        return make(t.name, *(self.instance(p, put) for p in t.parts))

    def at_top(self, t):
        for left, right in self.book.by_top.get(t.name, []):
            put = {}
            if self.matches(left, t, put):
                return self.instance(right, put)
        return None

    def seen(self, whole):
        self.steps += 1
        count = different(whole)
        self.largest = max(self.largest, count)
        if count > self.most:
            raise Large
        if self.steps > MOST_STEPS:
            raise Long

    def normal(self, t):
        self.known, self.steps = {}, 0
        self.seen(t)
        return self.work(t, lambda u: u)

    def with_parts(self, t, around):
        """The parts one after the other; `around` says what the whole term is."""
        parts = list(t.parts)
        for i, part in enumerate(parts):
            def whole(u, i=i):
                return around(make(t.name, *parts[:i], u, *parts[i + 1:]))
            parts[i] = self.work(part, whole)
        return make(t.name, *parts)


class ByNeed(Reducer):
    """A rule is tried at the top first, and parts are looked at where none can be used. What was found is noted."""

    def work(self, t, around):
        first = t
        while True:
            if t in self.known:
                t = self.known[t]
                self.seen(around(t))
                break
            stepped = self.at_top(t)
            if stepped is None:
                u = self.with_parts(t, around)
                stepped = self.at_top(u) if u is not t else None
                if stepped is None:
                    t = u
                    break
            t = stepped
            self.seen(around(t))
        self.known[first] = self.known[t] = t
        return t


class Innermost(Reducer):
    """Parts are brought to normal form before a rule is tried. What was found is noted."""

    def work(self, t, around):
        first = t
        while True:
            if t in self.known:
                t = self.known[t]
                self.seen(around(t))
                break
            t = self.with_parts(t, around)
            stepped = self.at_top(t)
            if stepped is None:
                break
            t = stepped
            self.seen(around(t))
        self.known[first] = self.known[t] = t
        return t


class Outermost(Reducer):
    """One step after the other, each at the first place from the top and the left. Nothing is noted."""

    def step(self, t):
        stepped = self.at_top(t)
        if stepped is not None:
            return stepped
        for i, part in enumerate(t.parts):
            if part in self.done:
                continue
            u = self.step(part)
            if u is not None:
                return make(t.name, *t.parts[:i], u, *t.parts[i + 1:])
        self.done.add(t)
        return None

    def work(self, t, around):
        while (u := self.step(t)) is not None:
            t = u
            self.seen(t)
        return t


ORDERS = [ByNeed, Innermost, Outermost]


def unifier(book, t, u):
    """The least replacement that makes two terms one, or none."""
    put = {}

    def resolved(t):
        while book.is_letter(t) and t.name in put:
            t = put[t.name]
        return t

    def occurs(x, t):
        t = resolved(t)
        return t.name == x if book.is_letter(t) else any(occurs(x, p) for p in t.parts)

    def unify(t, u):
        t, u = resolved(t), resolved(u)
        if t is u:
            return True
        if book.is_letter(u) and not book.is_letter(t):
            t, u = u, t
        if book.is_letter(t):
            if occurs(t.name, u):
                return False
            put[t.name] = u
            return True
        return t.name == u.name and all(map(unify, t.parts, u.parts))

    def applied(t):
        t = resolved(t)
        return t if book.is_letter(t) else make(t.name, *map(applied, t.parts))

    return applied if unify(t, u) else None


def renamed(book, t):
    return make(t.name + "'") if book.is_letter(t) else make(t.name, *(renamed(book, p) for p in t.parts))


def places(book, t):
    """Each part of a term that is no letter, with the function that puts another in its place."""
    if book.is_letter(t):
        return
    yield t, lambda u: u
    for i, part in enumerate(t.parts):
        for inner, put in places(book, part):
            yield inner, lambda u, i=i, put=put: make(t.name, *t.parts[:i], put(u), *t.parts[i + 1:])


def judged_terms(book):
    """The terms that judging brings to normal form: both results where two rules meet, and the sides of equations."""
    for left, right in book.rules:
        for inner, inner_right in book.rules:
            other, other_right = renamed(book, inner), renamed(book, inner_right)
            for part, put in places(book, left):
                applied = unifier(book, part, other)
                if applied:
                    yield applied(right)
                    yield applied(put(other_right))
    for sides in book.equations:
        yield from sides


def judging(order, book):
    """To how large a term judging comes, or none if it is given up."""
    reducer = order(book, 1 << 16)
    try:
        for t in judged_terms(book):
            reducer.normal(t)
    except (Large, Long):
        return None
    return reducer.largest


def large_terms(order, book, terms, most):
    """How many of the terms come to one that is too large, and how many are cut off."""
    large = long = 0
    for t in terms:
        try:
            order(book, most).normal(t)
        except Large:
            large += 1
        except Long:
            long += 1
    return f"{large}+{long}" if long else str(large)


def text(t):
    return f"{t.name}({', '.join(map(text, t.parts))})" if t.parts else t.name


def told_full(tell, path, other, terms, most):
    """How often the program says `full` of a term and a letter."""
    with tempfile.NamedTemporaryFile("w") as pairs:
        pairs.write("".join(f"{text(t)} = {other}\n" for t in terms))
        pairs.flush()
        words = 16384 + 64 * most
        out = subprocess.run([tell, "--work", str(words), str(path), pairs.name], capture_output=True, text=True, check=False)
        return out.stdout.split("\n").count("full")


def main():
    tell = sys.argv[1] if len(sys.argv) > 1 else None
    sys.setrecursionlimit(20000)
    answers = dict(line.split(" ", 1) for line in (BOOKS / "answers.txt").read_text().splitlines())
    columns = "".join(f"{order.__name__:>11}" for order in ORDERS)
    print(f"{'book':16} {'':>9} {'N':>6}{columns}" + ("   program" if tell else ""))
    for path in sorted(BOOKS.glob("*.book")):
        if answers[path.name].strip() != "settles":
            continue
        book = Book(path.read_text())
        most = book.words_of_rows() + 4 * max(SIZES)
        found = [judging(order, book) for order in ORDERS]
        print(f"{path.stem:16} {'judging':>9} {'':>6}" + "".join(f"{n if n is not None else '-':>11}" for n in found), flush=True)
        chance = random.Random(1)
        for n in SIZES:
            terms = [book.random_term(chance, n) for _ in range(TERMS)]
            for parts in (FEW_PARTS, most):
                counts = [large_terms(order, book, terms, parts) for order in ORDERS]
                line = f"{'':16} {f'size {n}':>9} {parts:>6}" + "".join(f"{count:>11}" for count in counts)
                told = tell and parts == most
                print(line + (f"{told_full(tell, path, book.letters[0], terms, most):>10}" if told else ""), flush=True)


if __name__ == "__main__":
    main()
