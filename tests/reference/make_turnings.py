"""The calls of the turning that make_calls.py writes, and the reply to each.

Where a call is made for a reply, the reply is written beside it and must agree
with turning.py.  The random formulae come from a fixed seed.
"""

import random
import sys

sys.dont_write_bytecode = True
import check
import turning
from catalogue import KINDS, Refused

TURN = 6
POLY, SHORT, CIRC, MAT, LIST, MID = range(6)
HUGE = 2 ** 64 - 1
ROOM = (64, 64, 64)
calls, replies = [], []


def add(number, p, q, r, k, a, b, rows, room=ROOM, want=None):
    """Three buffers of so many words, each word 1000000 before the call."""
    a, b, rows = list(a), list(b), list(rows)
    buffers = [[1000000] * words for words in room]
    try:
        new = turning.on_numbers(KINDS[number] if number < len(KINDS) else b"?", p, q, r, k, a, b, rows, room)
        said = "formula %d %d %d 0 %d" % (MID, p, 2 * p - 1, k)
        buffers = [words + old[len(words):] for words, old in zip(new, buffers)]
    except Refused as refusal:
        said = "refused %d" % refusal.args[0]
    assert want is None or said == ("refused %d" % want if isinstance(want, int) else want), (number, p, q, r, k, a, b, rows, room, said)
    w = sum(words * 100 ** i for i, words in enumerate(room))
    calls.append(" ".join(map(str, [TURN, number, p, q, r, k, w, len(a), len(b), len(rows)] + a + b + rows)) + "\n")
    replies.append(said + "".join(" :" + "".join(" %d" % x for x in words) for words in buffers) + "\n")


def sent(products, sums, room=ROOM, want=None, n=2, **other):
    """A formula of n by n terms, with some of what is sent exchanged."""
    call = dict(number=POLY, p=n, q=n, r=0, k=len(products), a=[a for a, _ in products], b=[b for _, b in products], rows=sums)
    call.update(other)
    add(**call, room=room, want=want)


KARATSUBA = [(1, 1), (2, 2), (3, 3)]


def values():
    tight = (3, 3, 2)
    sent(KARATSUBA, [1, 7, 2], tight, "formula 5 2 3 0 3")
    sent(KARATSUBA, [1, 7, 2], (4, 5, 6), "formula 5 2 3 0 3")
    sent(KARATSUBA, [1, 7, 3], tight, "formula 5 2 3 0 3")
    sent([(1, 1)], [1], (1, 1, 1), "formula 5 1 1 0 1", n=1)
    sent([], [0], (0, 0, 1), "formula 5 1 1 0 0", n=1)
    sent([(3, 3)] * 64, [HUGE, 0, 1], want="formula 5 2 3 0 64")
    products, rows = check.schoolbook(b"poly", 5, 5, 0, 5, 5)
    sent(products, rows, (25, 25, 5), "formula 5 5 9 0 25", n=5)
    products, rows = check.schoolbook(b"poly", 6, 6, 0, 6, 6)
    sent(products, rows, want=3, n=6)


def refused():
    good = (KARATSUBA, [1, 7, 2])
    for number in (SHORT, CIRC, MAT, LIST, MID, 6, HUGE):
        sent(*good, number=number, want=2)
    sent(*good, number=CIRC, q=3, want=2)
    for sizes in (dict(p=0, q=0), dict(q=3), dict(r=1), dict(p=0), dict(p=HUGE, q=HUGE), dict(p=2 ** 63, q=2 ** 63), dict(p=9, q=8), dict(p=2 ** 32, q=2 ** 32),
                  dict(p=6, q=6), dict(p=8, q=8)):
        sent(*good, want=3, **sizes)
    for lists in (dict(k=2), dict(k=4), dict(k=HUGE), dict(a=[1, 2]), dict(b=[1, 2, 3, 3]), dict(rows=[1, 7]), dict(rows=[1, 7, 2, 0])):
        sent(*good, want=5, **lists)
    for wide in (dict(a=[4, 2, 3]), dict(b=[1, 2, HUGE]), dict(rows=[1, 8, 2])):
        sent(*good, want=6, **wide)
    for zero in (dict(a=[0, 2, 3]), dict(b=[1, 2, 0])):
        sent(*good, want=7, **zero)
    many = [(1, 1)] * 65
    sent(many, [1, 1, 1], want=8)
    sent(KARATSUBA, [1, 3, 2], want=12)
    sent(KARATSUBA, [0, 0, 0], want=12)
    for room in ((2, 3, 2), (3, 2, 2), (3, 3, 1), (0, 0, 0)):
        sent(*good, room=room, want=9)
    # The order: 2 3 5 6 7 8 12 9.
    sent(*good, number=HUGE, p=0, want=2)
    sent(*good, q=3, k=9, want=3)
    sent(*good, k=9, a=[4, 2, 3], want=5)
    sent(*good, a=[4, 0, 3], want=6)
    sent([(0, 1)] * 65, [1, 1, 1], want=7)
    sent(many, [0, 0, 0], (0, 0, 0), want=8)
    sent(KARATSUBA, [1, 3, 2], (0, 0, 0), want=12)


def random_ones():
    dice = random.Random(2)
    for _ in range(60):
        n = dice.randrange(1, 6)
        k = dice.randrange(0, 9)
        rows = [dice.randrange(1 << k) for _ in range(2 * n - 1)]
        sent([(dice.randrange(1, 1 << n), dice.randrange(1, 1 << n)) for _ in range(k)], rows, tuple(dice.randrange(max(0, k - 1), k + 3) for _ in range(2)) + (n,), n=n)


def made():
    values()
    refused()
    random_ones()
    return calls, replies
