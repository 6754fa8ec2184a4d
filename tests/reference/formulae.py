#!/usr/bin/env python3
"""A reference for the formulae of a space and for questions on selections, written from documents 01 and 02 alone.

It shares nothing with the code under test.  The formulae of a space are found
in two ways:

    by choice      every set of k generators inside the space, in dictionary
                   order: the definition itself
    by completion  numbers taken one by one, each only where it is independent
                   of those taken and the later ones still complete the space

So are the terms of a sum of selected generators:

    by choice      the first in dictionary order of all independent sets that
                   span the selection, and the only set out of it with that sum
    by reduction   numbers taken one by one, ascending, each only where it is
                   independent of those taken, with what each residue sums

    formulae.py < FILE        prints what the Formulae program prints
    formulae.py --self-test   compares the ways with each other, and checks
                              what must hold of every answer
"""

import functools
import itertools
import math
import operator
import random
import sys

sys.dont_write_bytecode = True
import catalogue
from catalogue import Refused, grown, inner, inside, posed, reduced, residue, rows, spanned

MORE, ALL = "more", "all"
ROOM = 4096                                             # words of a program's buffer


# The formulae of a space: tuples of ascending numbers, in dictionary order.

def by_choice(generators, space):
    for numbers in itertools.combinations(inside(space, generators), len(space)):
        if len(reduced(generators[j] for j in numbers)) == len(space):
            yield numbers


def by_completion(generators, space):
    numbers = inside(space, generators)

    def complete(taken, basis, at):
        if len(taken) == len(space):
            yield tuple(taken)
            return
        for i in range(at, len(numbers)):
            more = grown(basis, generators[numbers[i]])
            if len(more) == len(basis):
                continue
            last = more
            for j in numbers[i + 1:]:
                last = grown(last, generators[j])
            if len(last) == len(space):
                yield from complete(taken + [numbers[i]], more, i + 1)

    yield from complete([], [], 0)


def of_space(generators, space):
    few = math.comb(len(inside(space, generators)), len(space)) <= 2000
    return (by_choice if few else by_completion)(generators, space)


# The terms of a form as a sum of selected generators, ascending; None if it is no sum of them.

def terms_by_choice(generators, selection, form):
    rank = len(reduced(generators[j] for j in selection))
    part = next(part for part in itertools.combinations(sorted(selection), rank) if len(reduced(generators[j] for j in part)) == rank)
    found = [list(numbers) for n in range(rank + 1) for numbers in itertools.combinations(part, n)
             if functools.reduce(operator.xor, (generators[j] for j in numbers), 0) == form]
    assert len(found) <= 1
    return found[0] if found else None


def terms_by_reduction(generators, selection, form):
    rows = []                                           # a residue, and the numbers that sum to it

    def left(word, numbers):
        for row, summed in rows:
            if word >> row.bit_length() - 1 & 1:
                word, numbers = word ^ row, numbers ^ summed
        return word, numbers

    for j in sorted(selection):
        word, numbers = left(generators[j], frozenset([j]))
        if word:
            rows.append((word, numbers))
    word, numbers = left(form, frozenset())
    return None if word else sorted(numbers)


# Replies.  A buffer is a list of words; it comes back as the call leaves it.

def fitting_problem(kind, p, q, r, gs, ts, forms):
    """The problem, or the first refusal of 2 to 7; the forms are further forms of the call."""
    try:
        generators, targets = posed(kind, p, q, r, gs, ts)
    except Refused as refusal:
        if refusal.args[0] < 7 or not any(form >> p for form in forms):
            raise
        raise Refused(6)
    n, m, _ = catalogue.sizes(kind, p, q, r)
    if any(form >> n * m for form in forms):
        raise Refused(6)
    return generators, targets


def formulae(kind, p, q, r, gs, ts, space, buffer):
    """How many formulae are listed, whether these are all or more are left, and the buffer; or a refusal."""
    generators, targets = fitting_problem(kind, p, q, r, gs, ts, space)
    if len(space) > len(reduced(targets)) + 6:
        raise Refused(8)
    if reduced(space) != space or any(residue(space, word) for word in targets) or not spanned(space, generators):
        raise Refused(10)
    listed, record = 0, []
    for numbers in of_space(generators, space):
        words = list(numbers) + rows([generators[j] for j in numbers], targets)
        if len(record) + len(words) > len(buffer):
            return listed, MORE, record + buffer[len(record):]
        listed, record = listed + 1, record + words
    return listed, ALL, record + buffer[len(record):]


def selected(generators, selection):
    if any(j >= len(generators) for j in selection) or len(set(selection)) != len(selection):
        raise Refused(11)
    return reduced(generators[j] for j in selection)


def is_sum(kind, p, q, r, gs, ts, selection, form, buffer):
    """The numbers of the terms, or None, and the buffer."""
    generators, _ = fitting_problem(kind, p, q, r, gs, ts, [form])
    selected(generators, selection)
    numbers = terms_by_reduction(generators, selection, form)
    if numbers is None:
        return None, buffer
    if len(numbers) > len(buffer):
        raise Refused(9)
    return numbers, numbers + buffer[len(numbers):]


def is_redundant(kind, p, q, r, gs, ts, selection, j):
    generators, targets = fitting_problem(kind, p, q, r, gs, ts, [])
    span = selected(generators, selection)
    if any(residue(span, word) for word in targets) or j not in selection:
        raise Refused(11)
    others = selected(generators, [i for i in selection if i != j])
    return not any(residue(others, word) for word in targets)


# The program: Catalogue's first two lines, then the formulae of each shown entry.

def formulae_program(data, known=None):
    try:
        kind, p, q, r, k, gs, ts, _ = catalogue.read(data)
        ell, found, shown, _, listed = catalogue.catalogue(kind, p, q, r, k, gs, ts, [0] * ROOM, known)
    except Refused as refusal:
        return "refused %d\n" % refusal.args[0]
    outputs = catalogue.sizes(kind, p, q, r)[2]
    lines = ["kind,p,q,r,k,ell,found,shown", "%s,%d,%d,%d,%d,%d,%d,%d" % (kind.decode(), p, q, r, k, ell, found, shown), "entry,formula,products,rows"]
    for number, (_, space) in enumerate(listed[:shown]):
        count, said, words = formulae(kind, p, q, r, gs, ts, space, [0] * ROOM)
        for at in range(count):
            record = words[at * (k + outputs):(at + 1) * (k + outputs)]
            lines.append("%d,%d,%s,%s" % (number, at, inner(record[:k], "%d"), inner(record[k:], "%x")))
        if said == MORE:
            lines.append("%d,more,-,-" % number)
    return "\n".join(lines) + "\n"


# The self-test.

def sums(words):
    """Every sum of some of the words: the definition of a span."""
    found = {0}
    for word in words:
        found |= {x ^ word for x in found}
    return found


def self_test():
    chance = random.Random(3)
    for _ in range(300):
        p, gs, ts = catalogue.random_list(chance)
        ell = len(reduced(ts))
        for k in range(ell, len(reduced(gs)) + 1):
            for _, space in catalogue.entries(gs, ts, k):
                listed = list(by_choice(gs, space))
                assert listed == list(by_completion(gs, space)) == sorted(set(listed))
                assert listed[0] == tuple(catalogue.choices(gs, space))
                size = k + len(ts)
                for w in (len(listed) * size, len(listed) * size - 1):
                    count, said, _ = formulae(b"list", p, len(gs), len(ts), gs, ts, space, [0] * w)
                    assert (count, said) == ((len(listed), ALL) if w == len(listed) * size else (len(listed) - 1, MORE))
        selection = chance.sample(range(len(gs)), chance.randint(0, len(gs)))
        span, form = sums(gs[j] for j in selection), chance.randrange(2 ** p)
        numbers, after = is_sum(b"list", p, len(gs), len(ts), gs, ts, selection, form, [0] * len(gs))
        assert (numbers is not None) == (form in span)
        assert after == (numbers or []) + [0] * (len(gs) - len(numbers or []))
        assert numbers == terms_by_choice(gs, selection, form) == terms_by_reduction(gs, sorted(selection), form)
        products = sorted(selection)
        if len(reduced(gs[j] for j in products)) == len(products):     # a formula's row is the mask of the terms
            for form in span:
                numbers = terms_by_choice(gs, selection, form)
                assert rows([gs[j] for j in products], [form]) == [sum(1 << products.index(j) for j in numbers)]
        if set(ts) <= span:
            for j in selection:
                assert is_redundant(b"list", p, len(gs), len(ts), gs, ts, selection, j) == (set(ts) <= sums(gs[i] for i in selection if i != j))
    space = reduced([1, 2])
    assert list(of_space([1, 2, 3], space)) == [(0, 1), (0, 2), (1, 2)]
    assert formulae_program(b"kind,p,q,r,k\npoly,2,2,0,3\n").endswith("poly,2,2,0,3,3,1,1\nentry,formula,products,rows\n0,0,0 4 8,1 7 2\n")
    print("self-test passed")


def main():
    if sys.argv[1:] == ["--self-test"]:
        self_test()
        return
    sys.stdout.write(formulae_program(sys.stdin.buffer.read()))


if __name__ == "__main__":
    main()
