#!/usr/bin/env python3
"""A reference for the turning of full product formulae into middle product formulae, written from document 02 alone.

It shares nothing with the code under test.  Of a formula's coefficients

    sum over the products l of (bit i of a_l)(bit j of b_l)(bit l of row t)

the turning exchanges the second and the third place and reverses the first.

    turning.py < FILE         prints what the Turn program prints
    turning.py --self-test    turns right and wrong formulae, and judges old and new on inputs
"""

import random
import sys

sys.dont_write_bytecode = True
import check
from check import Refused

LIMIT = 64                                              # coordinates of a form


def bits(word, n):
    return [word >> i & 1 for i in range(n)]


def word(bits):
    return sum(bit << i for i, bit in enumerate(bits))


def turnable(kind, p, q, r):
    """Refusals 2 and 3."""
    if kind != b"poly":
        raise Refused(2)
    check.shape(kind, p, q, r)
    if p != q or p * (2 * p - 1) > LIMIT:
        raise Refused(3)


def turned(n, products, rows):
    """Products and rows of the middle product formula; refusal 12."""
    used = [[bits(row, len(products))[at] for row in rows] for at in range(len(products))]
    if not all(map(any, used)):
        raise Refused(12)
    new = [(word(reversed(bits(a, n))), word(column)) for (a, _), column in zip(products, used)]
    return new, [word(bits(b, n)[t] for _, b in products) for t in range(n)]


def on_numbers(kind, p, q, r, k, a, b, rows, room):
    """The new a masks, b masks and rows, where there is room for so many of each."""
    turnable(kind, p, q, r)
    if len(a) != k or len(b) != k or len(rows) != p + q - 1:
        raise Refused(5)
    if any(x >> p for x in a + b) or any(row >> k for row in rows):
        raise Refused(6)
    if 0 in a + b:
        raise Refused(7)
    if k > 64:
        raise Refused(8)
    new, new_rows = turned(p, list(zip(a, b)), rows)
    if any(have < need for have, need in zip(room, (k, k, p))):
        raise Refused(9)
    return [x for x, _ in new], [y for _, y in new], new_rows


def turn(data):
    """What the Turn program prints for these bytes."""
    try:
        if len(data) > check.LIMIT:
            raise Refused(1)
        lines = data.split(b"\n")
        head = lines[1].split(b",") if len(lines) > 2 else []
        if len(lines) < 3 or lines[0] != b"kind,p,q,r,k" or len(head) != 5 or not all(map(check.COUNT.fullmatch, head[1:])):
            raise Refused(1)
        turnable(head[0], *map(int, head[1:4]))
        _, p, _, _, k, _, _, products, rows = check.read(data)
        new, new_rows = turned(p, products, rows)
    except Refused as refusal:
        return "refused %d\n" % refusal.args[0]
    lines = ["kind,p,q,r,k", "mid,%d,%d,0,%d" % (p, 2 * p - 1, k), "a,b"]
    return "".join(line + "\n" for line in lines + ["%x,%x" % pair for pair in new] + ["row"] + ["%x" % row for row in new_rows])


# The self-test.

def right(kind, p, q, products, rows):
    return check.verdict(kind, p, q, 0, p, q, products, rows) is None


def self_test():
    dice = random.Random(1)
    seen = {True: 0, False: 0}
    for _ in range(400):
        n = dice.randrange(1, 4)
        products, rows = check.schoolbook(b"poly", n, n, 0, n, n)
        for _ in range(dice.randrange(3)):              # other products, with the same outputs
            a, b = dice.randrange(1, 1 << n), dice.randrange(1, 1 << n)
            products = products + [(a, b), (a, b)]
            t = dice.randrange(len(rows))
            rows = [row ^ (3 << len(products) - 2) * (s == t) for s, row in enumerate(rows)]
        if dice.randrange(2):
            rows = [row ^ (1 << dice.randrange(len(products))) * (dice.randrange(4) == 0) for row in rows]
        try:
            new, new_rows = turned(n, products, rows)
        except Refused:
            continue
        old = right(b"poly", n, n, products, rows)
        assert old == right(b"mid", n, 2 * n - 1, new, new_rows), (n, products, rows)
        seen[old] += 1
    assert min(seen.values()) > 50, seen
    print("self-test: %d right and %d wrong formulae stay so when turned" % (seen[True], seen[False]))


if __name__ == "__main__":
    if sys.argv[1:] == ["--self-test"]:
        self_test()
    else:
        sys.stdout.write(turn(sys.stdin.buffer.read()))
