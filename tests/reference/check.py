#!/usr/bin/env python3
"""A reference for the Check program, written from documents 01 and 02 alone.

It shares nothing with the code under test: no forms, no menu, no generated
table.  A formula is judged by running it and the textbook product side by
side on input bits.

    check.py < FILE         prints what the Check program prints
    check.py FILE ..        the same for each file in turn
    check.py --self-test    compares the two ways of judging with each other
"""

import random
import re
import sys
from itertools import product as pairs

LIMIT = 65536                                   # bytes of an input
COUNT = re.compile(rb"0|[1-9][0-9]{0,3}")       # decimal, up to four digits
MASK = re.compile(rb"0|[1-9a-f][0-9a-f]{0,15}") # hexadecimal, up to sixteen
MAPS = (b"poly", b"short", b"circ", b"mat", b"mid")


class Refused(Exception):
    """Carries the number of the refusal."""


# The textbook products, on lists of bits.

def poly(a, b):
    c = [0] * (len(a) + len(b) - 1)
    for i, x in enumerate(a):
        for j, y in enumerate(b):
            c[i + j] ^= x & y
    return c


def short(a, b):
    return poly(a, b)[:len(a)]


def circ(a, b):
    c = [0] * len(a)
    for t, bit in enumerate(poly(a, b)):
        c[t % len(a)] ^= bit
    return c


def mid(a, b):
    return poly(a, b)[len(a) - 1:2 * len(a) - 1]


def mat(p, q, r, a, b):
    left = [a[q * x:q * x + q] for x in range(p)]
    right = [b[r * y:r * y + r] for y in range(q)]
    return [sum(left[x][y] & right[y][z] for y in range(q)) % 2
            for x in range(p) for z in range(r)]


def textbook(kind, p, q, r, a, b):
    if kind == b"mat":
        return mat(p, q, r, a, b)
    return {b"poly": poly, b"short": short, b"circ": circ, b"mid": mid}[kind](a, b)


# The formula, on the same bits.

def chosen_sum(mask, bits):
    return sum(bit for i, bit in enumerate(bits) if mask >> i & 1) % 2


def run(products, rows, a, b):
    values = [chosen_sum(f, a) & chosen_sum(g, b) for f, g in products]
    return [chosen_sum(row, values) for row in rows]


# The verdict: the first output that differs for some input, or None.

def units(n):
    return [[int(i == at) for i in range(n)] for at in range(n)]


def every(n):
    return [list(bits) for bits in pairs((0, 1), repeat=n)]


def first_wrong(kind, p, q, r, products, rows, inputs_a, inputs_b):
    first = None
    for a in inputs_a:
        for b in inputs_b:
            want = textbook(kind, p, q, r, a, b)
            got = run(products, rows, a, b)
            assert len(want) == len(got)
            for t, (x, y) in enumerate(zip(want, got)):
                if x != y:
                    if first is None or t < first:
                        first = t
                    break
    return first


def verdict(kind, p, q, r, n, m, products, rows):
    # Both sides are bilinear, so pairs of unit vectors decide; small sizes
    # are judged on all inputs all the same.
    inputs = every if n + m <= 10 else units
    return first_wrong(kind, p, q, r, products, rows, inputs(n), inputs(m))


def sums(words):
    """The adders of some words, each counted: of w ones w - 1, of none 0."""
    return sum(max(bin(word).count("1") - 1, 0) for word in words)


def adders(products, rows):
    """Wish 2: each distinct a mask once, each distinct b mask once, every row."""
    return (sums({a for a, _ in products}) + sums({b for _, b in products})
            + sums(rows))


def unshared(products, rows):
    """Document 01: every factor and every row."""
    return sums([f for pair in products for f in pair] + rows)


# The file.

def shape(kind, p, q, r):
    """n, m and the number of outputs; refusals 2 and 3."""
    if kind not in MAPS:
        raise Refused(2)
    if p == 0 or q == 0:
        raise Refused(3)
    if kind == b"mat":
        if r == 0:
            raise Refused(3)
        n, m, outputs = p * q, q * r, p * r
    else:
        if r != 0 or q != {b"poly": q, b"short": p, b"circ": p, b"mid": 2 * p - 1}[kind]:
            raise Refused(3)
        n, m, outputs = p, q, (p + q - 1 if kind == b"poly" else p)
    if n * m > 64:
        raise Refused(3)
    return n, m, outputs


def masks(line, number):
    fields = line.split(b",")
    if len(fields) != number or not all(map(MASK.fullmatch, fields)):
        raise Refused(5)
    return [int(field, 16) for field in fields]


def read(data):
    """The whole formula, or the first refusal in the order of the list."""
    if len(data) > LIMIT:
        raise Refused(1)
    *lines, rest = data.split(b"\n")            # rest: what no LF ends
    if len(lines) < 2 or lines[0] != b"kind,p,q,r,k":
        raise Refused(1)
    kind, *counts = lines[1].split(b",")
    if len(counts) != 4 or not all(map(COUNT.fullmatch, counts)):
        raise Refused(1)
    p, q, r, k = map(int, counts)

    n, m, outputs = shape(kind, p, q, r)

    body = lines[2:]
    if rest != b"" or len(body) != 1 + k + 1 + outputs:
        raise Refused(5)
    if body[0] != b"a,b" or body[1 + k] != b"row":
        raise Refused(5)
    products = [tuple(masks(line, 2)) for line in body[1:1 + k]]
    rows = [masks(line, 1)[0] for line in body[2 + k:]]

    if any(f >> n or g >> m for f, g in products):
        raise Refused(6)
    if any(row >> k for row in rows):
        raise Refused(6)
    if any(f == 0 or g == 0 for f, g in products):
        raise Refused(7)
    if k > 64:
        raise Refused(8)
    return kind, p, q, r, k, n, m, products, rows


def check(data):
    """What the Check program prints for these bytes."""
    try:
        kind, p, q, r, k, n, m, products, rows = read(data)
    except Refused as refusal:
        return "refused %d\n" % refusal.args[0]
    t = verdict(kind, p, q, r, n, m, products, rows)
    judged = "right,-" if t is None else "wrong,%d" % t
    return "kind,p,q,r,k,verdict,output,adders\n%s,%d,%d,%d,%d,%s,%d\n" % (
        kind.decode(), p, q, r, k, judged, adders(products, rows))


# The self-test.

def schoolbook(kind, p, q, r, n, m):
    """One product per pair of input bits, each row read off the textbook."""
    products = [(1 << i, 1 << j) for i in range(n) for j in range(m)]
    columns = [textbook(kind, p, q, r, a, b) for a in units(n) for b in units(m)]
    return products, [sum(column[t] << at for at, column in enumerate(columns))
                      for t in range(len(columns[0]))]


def small_problems():
    for p in range(1, 10):
        for q in range(1, 10):
            for r in range(0, 10):
                for kind in MAPS:
                    try:
                        n, m, outputs = shape(kind, p, q, r)
                    except Refused:
                        continue
                    if n + m <= 10:
                        yield kind, p, q, r, n, m


def self_test():
    head = b"kind,p,q,r,k\npoly,2,2,0,3\na,b\n1,1\n2,2\n3,3\nrow\n"
    top = "kind,p,q,r,k,verdict,output,adders\n"
    assert check(head + b"1\n7\n2\n") == top + "poly,2,2,0,3,right,-,4\n"
    assert check(head + b"1\n3\n2\n") == top + "poly,2,2,0,3,wrong,1,3\n"
    assert adders([(3, 1), (3, 2)], [1, 2, 0]) == 1
    assert unshared([(3, 1), (3, 2)], [1, 2, 0]) == 2

    dice = random.Random(1)
    compared = {True: 0, False: 0}
    for problem in small_problems():
        n, m = problem[-2:]
        products, rows = schoolbook(*problem)
        trials = [(products, rows)]
        for _ in range(3):                      # one row bit flipped
            flipped = list(rows)
            flipped[dice.randrange(len(rows))] ^= 1 << dice.randrange(n * m)
            trials.append((products, flipped))
        changed = list(products)                # one factor changed
        changed[dice.randrange(n * m)] = (dice.randrange(1, 1 << n),
                                          dice.randrange(1, 1 << m))
        trials.append((changed, rows))
        k = dice.randrange(0, 9)                # anything at all
        trials.append(([(dice.randrange(1, 1 << n), dice.randrange(1, 1 << m))
                        for _ in range(k)],
                       [dice.randrange(1 << k) for _ in rows]))
        for formula in trials:
            on_units = first_wrong(*problem[:4], *formula, units(n), units(m))
            on_all = first_wrong(*problem[:4], *formula, every(n), every(m))
            assert on_units == on_all, (problem, formula, on_units, on_all)
            compared[on_all is None] += 1
        assert first_wrong(*problem[:4], products, rows, every(n), every(m)) is None
    print("self-test: %d right and %d wrong formulae judged alike both ways"
          % (compared[True], compared[False]))


def main(arguments):
    if arguments == ["--self-test"]:
        self_test()
    elif arguments:
        for name in arguments:
            with open(name, "rb") as file:
                sys.stdout.write(check(file.read()))
    else:
        sys.stdout.write(check(sys.stdin.buffer.read()))


if __name__ == "__main__":
    main(sys.argv[1:])
