"""The workloads: books and terms, each described once, and written as rows for us and as a module for Maude."""
import random

LETTERS = "XYZH"

class Book:
    """Signs from the lowest rank to the highest as 'name/parts', letters as capitals, rules as 'left -> right'."""

    def __init__(self, signs, rules):
        self.signs = [(name, int(parts)) for name, parts in (sign.split("/") for sign in signs.split())]
        self.number = {name: i for i, (name, _) in enumerate(self.signs)}
        self.rules = [tuple(parse(side) for side in rule.split("->")) for rule in rules]

    def row(self):
        words = [len(self.signs)] + [parts for _, parts in self.signs] + list(range(len(self.signs)))
        words += [0, len(self.rules)]
        for left, right in self.rules:
            assert len(tokens(left)) <= 32 and len(tokens(right)) <= 32
            words += self.term_row(left) + self.term_row(right)
        return words

    def term_row(self, term):
        words = []
        for name in tokens(term):
            words += [0, LETTERS.index(name)] if name.isupper() else [1, self.number[name]]
        return words

    def text(self, row):
        """The term of a row, as Maude prints it without blanks."""
        out, pending = [], []
        for tag, number in zip(row[::2], row[1::2]):
            name, parts = (LETTERS[number], 0) if tag == 0 else self.signs[number]
            out.append(name)
            if parts:
                out.append("(")
                pending.append(parts)
                continue
            while pending:
                pending[-1] -= 1
                if pending[-1]:
                    out.append(",")
                    break
                out.append(")")
                pending.pop()
        return "".join(out)

    def maude(self):
        lines = ["fmod BOOK is", "  sort T ."]
        for name, parts in self.signs:
            lines.append(f"  op {name} : {'T ' * parts}-> T .")
        letters = sorted({name for rule in self.rules for side in rule for name in tokens(side) if name.isupper()})
        if letters:
            lines.append(f"  vars {' '.join(letters)} : T .")
        for left, right in self.rules:
            lines.append(f"  eq {maude_text(left)} = {maude_text(right)} .")
        return "\n".join(lines + ["endfm"])


def tokens(term):
    """The symbols of a term (a name, or a tuple of a name and parts), in the order of its row."""
    out, stack = [], [term]
    while stack:
        t = stack.pop()
        if isinstance(t, str):
            out.append(t)
        else:
            out.append(t[0])
            stack.extend(reversed(t[1:]))
    return out


def maude_text(term):
    out, stack = [], [term]
    while stack:
        t = stack.pop()
        if isinstance(t, str):
            out.append(t)
        else:
            out += [t[0], "("]
            stack.append(")")
            for i, part in enumerate(reversed(t[1:])):
                stack.append(part)
                if i < len(t) - 2:
                    stack.append(",")
    return "".join(out)


def parse(text):
    """A term in the readable form."""
    text = text.replace(" ", "")
    at = 0

    def term():
        nonlocal at
        start = at
        while at < len(text) and text[at] not in "(),":
            at += 1
        name = text[start:at]
        if at == len(text) or text[at] != "(":
            return name
        parts = []
        while text[at] != ")":
            at += 1
            parts.append(term())
        at += 1
        return (name, *parts)

    return term()


def tower(signs, base):
    term = base
    for sign in reversed(signs):
        term = (sign, term)
    return term


def number(n):
    return tower(["s"] * n, "z")


def right_list(items, cons, nil):
    term = nil
    for item in reversed(items):
        term = (cons, item, term)
    return term


THIRTY = "thirty -> " + "s(" * 30 + "z" + ")" * 30
PLUS = ["plus(z, Y) -> Y", "plus(s(X), Y) -> s(plus(X, Y))"]
TIMES = ["times(z, Y) -> z", "times(s(X), Y) -> plus(Y, times(X, Y))"]
EVEN = ["even(z) -> z", "even(s(z)) -> s(z)", "even(s(s(X))) -> even(X)"]
PEANO = "z/0 s/1 thirty/0 even/1 plus/2 times/2"


def sums():
    # each number is added to the sum of those before it; all are different, so that no sum is one that was had before
    book = Book(PEANO, PLUS + EVEN)
    for k in (240, 340, 480):
        term = number(k)
        for n in reversed(range(1, k)):
            term = ("plus", term, number(n))
        yield f"{k} numbers", book, ("even", term)


def products():
    book = Book(PEANO, [THIRTY] + PLUS + TIMES + EVEN)
    for n in (30, 60, 120):
        term = ("times", "thirty", ("times", "thirty", ("times", "thirty", number(n))))
        yield f"30*30*30*{n}", book, ("even", term)


def factorial():
    book = Book(PEANO + " fact/1", PLUS + TIMES + EVEN + ["fact(z) -> s(z)", "fact(s(X)) -> times(s(X), fact(X))"])
    for n in (3, 10, 30):
        yield f"{n} * 9!", book, ("even", ("times", number(n), ("fact", number(9))))


def fibonacci():
    rules = ["fib(z) -> z", "fib(s(z)) -> s(z)", "fib(s(s(X))) -> plus(fib(s(X)), fib(X))"]
    book = Book(PEANO + " fib/1", PLUS + EVEN + rules)
    for n in (26, 29, 32):
        yield f"fib {n}", book, ("even", ("fib", number(n)))


def ackermann():
    rules = ["ack(z, Y) -> s(Y)", "ack(s(X), z) -> ack(X, s(z))", "ack(s(X), s(Y)) -> ack(X, ack(s(X), Y))"]
    book = Book("z/0 s/1 even/1 ack/2", EVEN + rules)
    for n in (8, 9, 10):
        yield f"ack 3 {n}", book, ("even", ("ack", number(3), number(n)))


def reverse():
    rules = ["app(nil, Y) -> Y", "app(cons(H, X), Y) -> cons(H, app(X, Y))"]
    rules += ["rev(nil) -> nil", "rev(cons(H, X)) -> app(rev(X), cons(H, nil))"]
    rules += ["upto(z) -> nil", "upto(s(X)) -> cons(s(X), upto(X))", "head(cons(H, X)) -> H"]
    book = Book(PEANO + " nil/0 cons/2 upto/1 app/2 rev/1 head/1", [THIRTY] + PLUS + TIMES + rules)
    for n in (80, 160, 240):
        yield f"{30 * n} items", book, ("head", ("rev", ("upto", ("times", "thirty", number(n)))))


def group():
    rules = ["mul(e, X) -> X", "mul(i(X), X) -> e", "mul(mul(X, Y), Z) -> mul(X, mul(Y, Z))", "mul(X, e) -> X"]
    rules += ["mul(X, i(X)) -> e", "i(e) -> e", "i(i(X)) -> X", "i(mul(X, Y)) -> mul(i(Y), i(X))"]
    rules += ["mul(X, mul(i(X), Y)) -> Y", "mul(i(X), mul(X, Y)) -> Y"]
    book = Book("a/0 b/0 c/0 e/0 mul/2 i/1", rules)
    for n in (4000, 8000, 16000):
        chance = random.Random(n)
        terms = [chance.choice("abc") for _ in range(n)]
        while len(terms) > 1:
            k = chance.randrange(len(terms) - 1)
            both = ("mul", terms[k], terms[k + 1])
            terms[k : k + 2] = [("i", both) if chance.random() < 0.3 else both]
        yield f"{n} factors", book, terms[0]


def strings():
    book = Book("c/0 g/1 f/1", ["f(f(X)) -> g(X)", "f(g(X)) -> g(f(X))"])
    for n in (4000, 8000, 16000):
        chance = random.Random(n)
        yield f"{n} signs", book, tower([chance.choice("fg") for _ in range(n)], "c")


def doubling():
    rules = ["tree(z) -> leaf", "tree(s(X)) -> node(tree(X), tree(X))"]
    rules += ["leaves(leaf) -> s(z)", "leaves(node(X, Y)) -> plus(leaves(X), leaves(Y))"]
    book = Book(PEANO + " leaf/0 node/2 tree/1 leaves/1", PLUS + EVEN + rules)
    for n in (18, 20, 22):
        yield f"2^{n} leaves", book, ("even", ("leaves", ("tree", number(n))))


def sorting():
    letters = "abcdefgh"
    rules = [f"{y}({x}(X)) -> {x}({y}(X))" for j, y in enumerate(letters) for x in letters[:j]]
    book = Book("o/0 " + " ".join(f"{x}/1" for x in letters), rules)
    for n in (3000, 6000, 12000):
        chance = random.Random(n)
        yield f"{n} letters", book, tower([chance.choice(letters) for _ in range(n)], "o")


def insertion():
    items = "abcdef"
    rules = ["sort(nil) -> nil", "sort(cons(X, Y)) -> insert(X, sort(Y))", "insert(X, nil) -> cons(X, nil)"]
    for j, y in enumerate(items):
        for i, x in enumerate(items):
            if j > i:
                rules.append(f"insert({y}, cons({x}, X)) -> cons({x}, insert({y}, X))")
            else:
                rules.append(f"insert({y}, cons({x}, X)) -> cons({y}, cons({x}, X))")
    book = Book(" ".join(f"{x}/0" for x in items) + " nil/0 cons/2 insert/2 sort/1", rules)
    for n in (2000, 4000, 8000):
        chance = random.Random(n)
        yield f"{n} items", book, ("sort", right_list([chance.choice(items) for _ in range(n)], "cons", "nil"))


WORKLOADS = [
    ("sums", sums),
    ("products", products),
    ("factorial", factorial),
    ("fibonacci", fibonacci),
    ("ackermann", ackermann),
    ("reverse", reverse),
    ("group", group),
    ("strings", strings),
    ("doubling", doubling),
    ("sorting", sorting),
    ("insertion", insertion),
]
