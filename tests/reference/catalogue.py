#!/usr/bin/env python3
"""A reference for Catalogue and Rank, written from documents 01 and 02 alone.

It shares nothing with the code under test.  The targets come from running the
textbook product of check.py on unit vectors.  The entries are found in two
ways, neither of which walks extensions as the product does:

    by choice   every set of k - l generators in dictionary order, and the
                spaces seen before in a dictionary: the definition itself
    by growth   the set of all spaces of each dimension, each space of one
                dimension grown by every generator outside it

So is Rank's formula, the cheapest with so few products:

    by choice   every set of so many generators that computes the targets
    by entries  every set of generators that spans an entry, but for those that
                can't be cheaper than one that is known: the product takes the
                generators of an entry by their costs instead

    catalogue.py < FILE          prints what the Catalogue program prints
    catalogue.py --rank < FILE   prints what the Rank program prints
    catalogue.py --self-test     compares the two ways with each other, and
                                 checks what must hold of every answer
"""

import itertools
import math
import random
import re
import sys

sys.dont_write_bytecode = True
from check import COUNT, LIMIT, MASK, Refused, shape, textbook, units

KINDS = (b"poly", b"short", b"circ", b"mat", b"list", b"mid")   # by number
MOST = 4095                                                     # generators
DEAREST = 65535                                                 # a generator's cost
COST = re.compile(rb"0|[1-9][0-9]{0,4}")
BEYOND, ABOVE = "beyond", "above"


# Spaces of words, by their reduced bases: leading bits descending, the
# leading bit of a row set in no other row.

def reduced(words):
    basis = []
    for word in words:
        basis = grown(basis, word)
    return basis


def residue(basis, word):
    for row in basis:
        if word >> (row.bit_length() - 1) & 1:
            word ^= row
    return word


def grown(basis, word):
    """The reduced basis of the span of a space and a word."""
    word = residue(basis, word)
    if word == 0:
        return basis
    at = word.bit_length() - 1
    return sorted([row ^ word if row >> at & 1 else row for row in basis] + [word], reverse=True)


def inside(basis, generators):
    """The numbers of the generators that lie in the space."""
    return [j for j, g in enumerate(generators) if residue(basis, g) == 0]


def spanned(basis, generators):
    """The generators inside the space span it."""
    return len(reduced(generators[j] for j in inside(basis, generators))) == len(basis)


# The problem: its generators and targets, or the first refusal of 2 to 7.

def sizes(kind, p, q, r):
    """n, m and the number of targets: refusals 2 and 3."""
    if kind == b"list":
        if not (q >= 1 and 1 <= p <= 64 and 1 <= r <= 64):
            raise Refused(3)
        return p, 1, r
    return shape(kind, p, q, r)


def form_of(n, m, a, b):
    return sum(1 << i * m + j for i in range(n) for j in range(m) if a >> i & b >> j & 1)


def menu(n, m):
    """Every product of a nonzero sum of a's and a nonzero sum of b's: number (A - 1) (2^m - 1) + (B - 1)."""
    return [form_of(n, m, a, b) for a in range(1, 2 ** n) for b in range(1, 2 ** m)]


def map_targets(kind, p, q, r, n, m, outputs):
    """Bit i m + j of target t: what unit vector i times unit vector j gives at output t."""
    values = {(i, j): textbook(kind, p, q, r, a, b)
              for i, a in enumerate(units(n)) for j, b in enumerate(units(m))}
    return [sum(1 << i * m + j for (i, j), c in values.items() if c[t]) for t in range(outputs)]


def ones(mask):
    return bin(mask).count("1")


def menu_costs(n, m):
    """The costs of the menu's products: the ones in both factors less 2."""
    return [ones(a) + ones(b) - 2 for a in range(1, 2 ** n) for b in range(1, 2 ** m)]


def posed(kind, p, q, r, gs, ts, costs=None):
    """The generators and the targets; gs and ts are handed in for list, None where lines misfit; costs are handed in to Rank alone."""
    if kind not in KINDS:
        raise Refused(2)
    n, m, outputs = sizes(kind, p, q, r)
    if (q if kind == b"list" else (2 ** n - 1) * (2 ** m - 1)) > MOST:
        raise Refused(4)
    if gs is None or ts is None:
        raise Refused(5)
    if kind != b"list":
        if gs or ts or costs:
            raise Refused(5)
        return menu(n, m), map_targets(kind, p, q, r, n, m, outputs)
    if len(gs) != q or len(ts) != r:
        raise Refused(5)
    if costs is not None and (len(costs) != q or max(costs) > DEAREST):
        raise Refused(5)
    if any(form >> p for form in gs + ts):
        raise Refused(6)
    if 0 in gs or len(set(gs)) != len(gs):
        raise Refused(7)
    return gs, ts


# The entries for k: pairs of an extension and a reduced basis, in order.

def by_choice(generators, start, k):
    seen, entries = set(), []
    for numbers in itertools.combinations(range(len(generators)), k - len(start)):
        basis = reduced(start + [generators[j] for j in numbers])
        if len(basis) == k and tuple(basis) not in seen:
            seen.add(tuple(basis))
            if spanned(basis, generators):
                entries.append((list(numbers), basis))
    return entries


def first_choice(generators, start, space):
    """The first numbers in dictionary order whose generators lie in the space and span it together with start."""
    numbers, basis = [], start
    for j in inside(space, generators):
        more = grown(basis, generators[j])
        if len(more) > len(basis):
            numbers, basis = numbers + [j], more
    assert basis == space
    return numbers


def children(basis, residues):
    """Every space of one dimension more, with the generators' residues in it."""
    for word in sorted(set(residues) - {0}):
        at = word.bit_length() - 1
        yield grown(basis, word), [x ^ word if x >> at & 1 else x for x in residues]


def last_step(residues, generators, k):
    """Of the spaces of one dimension more those that their generators span: the bases of these generators."""
    alike = {}
    for word, generator in zip(residues, generators):
        alike.setdefault(word, []).append(generator)
    inner = reduced(alike.pop(0, []))
    for word, more in alike.items():
        if len(inner) + len(more) >= k:
            space = inner
            for generator in more:
                space = grown(space, generator)
            if len(space) == k:
                yield tuple(space)


def by_growth(generators, start, k):
    level = {tuple(start): [residue(start, g) for g in generators]}
    for dimension in range(len(start), k - 2):
        level = {tuple(b): rs for basis, residues in level.items() for b, rs in children(list(basis), residues)}
    found, seen = set(), set()
    if len(start) == k:
        found = {tuple(start)} if spanned(start, generators) else set()
    elif len(start) == k - 1:
        found = set(last_step(level[tuple(start)], generators, k))
    else:
        for basis, residues in level.items():       # of dimension k - 2; those of k - 1 are not kept, for room
            for b, rs in children(list(basis), residues):
                if tuple(b) not in seen:
                    seen.add(tuple(b))
                    found.update(last_step(rs, generators, k))
    return sorted((first_choice(generators, start, list(space)), list(space)) for space in found)


def entries(generators, targets, k):
    start = reduced(targets)
    if not len(start) <= k <= len(reduced(generators)):
        return []
    if math.comb(len(generators), k - len(start)) <= 2000:
        return by_choice(generators, start, k)
    return by_growth(generators, start, k)


# Formulae.

def choices(generators, space):
    """The first k numbers in dictionary order of independent generators that span the space."""
    return first_choice(generators, [], space)


def rows(products, targets):
    """For every target the mask of those products that sum to it."""
    tagged = []                                 # words over the products, each with its mask above them
    width = max(word.bit_length() for word in products + targets + [0])
    low = (1 << width) - 1
    for at, word in enumerate(products):
        pair = word | 1 << width + at
        for row in tagged:
            if pair >> ((row & low).bit_length() - 1) & 1:
                pair ^= row
        assert pair & low
        tagged.append(pair)
    masks = []
    for word in targets:
        for row in tagged:                      # each row's leading bit is clear in the rows after it
            if word >> ((row & low).bit_length() - 1) & 1:
                word ^= row
        assert word & low == 0
        masks.append(word >> width)
    return masks


# The cheapest set of k generators that computes the targets, the dictionary-first among equals: its cost and its numbers, or None.  No fewer than
# k compute them.

def cheapest_by_choice(generators, targets, costs, k):
    found = [(sum(costs[j] for j in numbers), list(numbers)) for numbers in itertools.combinations(range(len(generators)), k)
             if contains(reduced(generators[j] for j in numbers), targets)]
    return min(found) if found else None


def contains(basis, words):
    return not any(residue(basis, word) for word in words)


def cheapest_by_entries(generators, targets, costs, k):
    """The sets that span an entry, entry by entry, each entry's in dictionary order."""
    best = None
    for _, space in entries(generators, targets, k):
        best = cheapest_in(generators, costs, space, best)
    return best


def cheapest_in(generators, costs, space, best):
    """The best of best and the sets that span the space.  A beginning is left, and all later ones of its length, where the cheapest of the numbers
    that may follow make it dearer than best, or as dear and later in dictionary order."""
    numbers = inside(space, generators)
    last = len(numbers)
    least, cheap = [None] * last, []        # [i][c]: the cost of the c cheapest of the numbers from place i on
    for i in range(last - 1, -1, -1):
        cheap = sorted(cheap + [costs[numbers[i]]])[:len(space)]
        least[i] = [0] + list(itertools.accumulate(cheap))

    def walk(taken, spent, basis, at, best):
        wanted = len(space) - len(taken)
        if wanted == 0:
            return (spent, taken) if best is None or (spent, taken) < best else best
        for i in range(at, last - wanted + 1):
            begun = taken + [numbers[i]]
            if best is not None and (spent + least[i][wanted], begun) > (best[0], best[1][:len(begun)]):
                break
            more = grown(basis, generators[numbers[i]])
            if len(more) > len(basis):
                best = walk(begun, spent + costs[numbers[i]], more, i + 1, best)
        return best

    return walk([], 0, [], 0, best)


def cheapest(generators, targets, costs, k):
    if math.comb(len(generators), k) <= 25000:
        return cheapest_by_choice(generators, targets, costs, k)
    return cheapest_by_entries(generators, targets, costs, k)


# Replies.  A buffer is a list of words; it comes back as the call leaves it.

def catalogue(kind, p, q, r, k, gs, ts, buffer, known=None):
    """l, found, shown and the buffer, or a refusal; known are the entries, where they are not to be looked for."""
    generators, targets = posed(kind, p, q, r, gs, ts)
    ell = len(reduced(targets))
    if k > ell + 6:
        raise Refused(8)
    listed = entries(generators, targets, k) if known is None else known
    length = 2 * k - ell
    shown = len(listed) if length <= 0 else min(len(listed), len(buffer) // length)
    records = [word for extension, basis in listed[:shown] for word in extension + basis]
    return ell, len(listed), shown, records + buffer[len(records):], listed


def entry(buffer, ell, k, shown, number):
    """The stretch of a listing that holds the entry with a number; an empty one where there is none."""
    length = 2 * k - ell
    if number >= shown or k < ell or (number + 1) * length > len(buffer):
        return []
    return buffer[number * length:(number + 1) * length]


def rank(kind, p, q, r, k, gs, ts, costs, buffer):
    """l, the rank (or beyond, or above), its products and rows, and the buffer, or a refusal."""
    generators, targets = posed(kind, p, q, r, gs, ts, costs)
    if k != 0:
        raise Refused(8)
    prices = costs if kind == b"list" else menu_costs(*sizes(kind, p, q, r)[:2])
    start = reduced(targets)
    if not contains(reduced(generators), targets):
        return len(start), BEYOND, [], [], buffer
    for least in range(len(start), len(start) + 7):
        found = cheapest(generators, targets, prices, least)
        if found:
            products = found[1]
            masks = rows([generators[j] for j in products], targets)
            record = products + masks
            if len(record) > len(buffer):
                raise Refused(9)
            return len(start), least, products, masks, record + buffer[len(record):]
    return len(start), ABOVE, [], [], buffer


# Files.

def read(data):
    """The second line's fields, the forms and the generators' costs; None for forms where lines misfit."""
    if len(data) > LIMIT:
        raise Refused(1)
    *lines, rest = data.split(b"\n")
    if len(lines) < 2 or lines[0] != b"kind,p,q,r,k":
        raise Refused(1)
    kind, *counts = lines[1].split(b",")
    if len(counts) != 4 or not all(map(COUNT.fullmatch, counts)):
        raise Refused(1)
    p, q, r, k = map(int, counts)
    body = lines[2:]
    if kind != b"list":
        fits = not body and rest == b""
        return kind, p, q, r, k, [] if fits else None, [], []
    fits = rest == b"" and len(body) == 1 + q + r and body[0] == b"role,form,cost"
    fields = [line.split(b",") for line in body[1:]] if fits else []
    roles = [b"g"] * q + [b"t"] * r
    if not fits or any(len(f) != 3 or f[0] != role or not MASK.fullmatch(f[1]) or not costs_fit(role, f[2]) for f, role in zip(fields, roles)):
        return kind, p, q, r, k, None, None, None
    forms = [int(f[1], 16) for f in fields]
    return kind, p, q, r, k, forms[:q], forms[q:], [int(f[2]) for f in fields[:q]]


def costs_fit(role, digits):
    """A generator costs 0 to 65535, written without leading zeros, a target 0."""
    return COST.fullmatch(digits) is not None and int(digits) <= (DEAREST if role == b"g" else 0)


def inner(words, base):
    return " ".join(base % word for word in words) or "-"


def catalogue_program(data, known=None):
    try:
        kind, p, q, r, k, gs, ts, _ = read(data)
        ell, found, shown, buffer, listed = catalogue(kind, p, q, r, k, gs, ts, [0] * 4096, known)
    except Refused as refusal:
        return "refused %d\n" % refusal.args[0]
    lines = ["kind,p,q,r,k,ell,found,shown", "%s,%d,%d,%d,%d,%d,%d,%d" % (kind.decode(), p, q, r, k, ell, found, shown), "entry,extension,basis"]
    lines += ["%d,%s,%s" % (at, inner(extension, "%d"), inner(basis, "%x")) for at, (extension, basis) in enumerate(listed[:shown])]
    return "\n".join(lines) + "\n"


def rank_program(data):
    try:
        kind, p, q, r, k, gs, ts, costs = read(data)
        ell, least, products, masks, buffer = rank(kind, p, q, r, k, gs, ts, costs, [0] * 4096)
    except Refused as refusal:
        return "refused %d\n" % refusal.args[0]
    lines = ["kind,p,q,r,k,ell,rank", "%s,%d,%d,%d,%d,%d,%s" % (kind.decode(), p, q, r, k, ell, least)]
    if least not in (ABOVE, BEYOND):
        lines += ["products,rows", "%s,%s" % (inner(products, "%d"), inner(masks, "%x"))]
    return "\n".join(lines) + "\n"


# The self-test.

def random_list(chance):
    p = chance.choice((1, 2, 3, 3, 4, 4, 4, 5, 5, 6))
    words = list(range(1, 2 ** p))
    chance.shuffle(words)
    gs = words[:chance.choice((2, 4, 6, 7, 8, 8))]
    ts = [chance.choice([0] + words) if chance.random() < 0.2 else
          sum_of(chance.sample(gs, chance.randint(1, len(gs)))) for _ in range(chance.choice((1, 1, 2, 2, 3, 4)))]
    return p, gs, ts


def random_costs(chance, count):
    """Costs of every sort: none, all alike, few different ones, so that sets are as dear as others, and many."""
    top = chance.choice((0, 1, 1, 2, 3, 9, 100, DEAREST))
    if chance.random() < 0.2:
        return [chance.choice((0, 1, 7, 256, DEAREST))] * count
    if chance.random() < 0.2:
        return [chance.choice((0, 0, 0, DEAREST)) for _ in range(count)]
    return [chance.randint(0, top) for _ in range(count)]


def rivals(chance, later, tied):
    """Lists with costs and several entries for the rank: as many as later in which the first entry has no formula that is as good as the cheapest,
    and as many as tied in which an entry before that of the reply has a formula that costs as little."""
    while later or tied:
        p = chance.choice((4, 5))
        gs, ts = (chance.sample(range(1, 2 ** p), count) for count in (chance.randint(6, 10), chance.randint(1, 2)))
        costs = random_costs(chance, len(gs))
        least = rank(b"list", p, len(gs), len(ts), 0, gs, ts, costs, [0] * 64)[1]
        best = [cheapest_in(gs, costs, space, None) for _, space in entries(gs, ts, least)] if isinstance(least, int) else []
        if not best:
            continue
        cost, numbers = min(best)
        alike = any(spent == cost and taken > numbers for spent, taken in best[:best.index((cost, numbers))])
        if tied and alike or later and best[0][0] > cost:
            later, tied = (later, tied - 1) if tied and alike else (later - 1, tied)
            yield p, gs, ts, costs


def sum_of(words):
    total = 0
    for word in words:
        total ^= word
    return total


def agree(generators, targets, most):
    start = reduced(targets)
    for k in range(len(start), min(len(start) + most, len(reduced(generators))) + 1):
        listed = by_choice(generators, start, k)
        assert listed == by_growth(generators, start, k), (generators, targets, k)
        for extension, basis in listed:
            products = choices(generators, basis)
            assert tuple(products) == next(f for f in itertools.combinations(inside(basis, generators), k)
                                           if reduced(generators[j] for j in f) == basis)
            masks = rows([generators[j] for j in products], targets)
            assert [sum_of(generators[j] for at, j in enumerate(products) if mask >> at & 1) for mask in masks] == targets


def least_by_subsets(generators, targets):
    """The fewest generators whose span contains the targets."""
    for k in range(len(generators) + 1):
        for numbers in itertools.combinations(generators, k):
            basis = reduced(numbers)
            if all(residue(basis, word) == 0 for word in targets):
                return k
    return None


def prices_agree(generators, targets, costs, least):
    """The two ways to the cheapest set, with the costs, and where all cost alike: there it is the first formula of the first entry."""
    best = cheapest_by_choice(generators, targets, costs, least)
    assert best == cheapest_by_entries(generators, targets, costs, least), (generators, targets, costs)
    first = choices(generators, entries(generators, targets, least)[0][1])
    for cost in (0, 1, DEAREST):
        alike = [cost] * len(generators)
        assert (cost * least, first) == cheapest_by_choice(generators, targets, alike, least) == cheapest_by_entries(generators, targets, alike, least)
    return best[1]


def self_test():
    chance = random.Random(1)
    for _ in range(300):
        p, gs, ts = random_list(chance)
        agree(gs, ts, 8)
        least = least_by_subsets(gs, ts)
        costs = random_costs(chance, len(gs))
        ell, reply, products = rank(b"list", p, len(gs), len(ts), 0, gs, ts, costs, [0] * 64)[:3]
        assert reply == (BEYOND if least is None else ABOVE if least > ell + 6 else least)
        assert products == (prices_agree(gs, ts, costs, least) if reply == least else [])
    for kind, p, q, r in ((b"poly", 2, 2, 0), (b"poly", 1, 3, 0), (b"poly", 2, 3, 0), (b"short", 2, 2, 0), (b"circ", 2, 2, 0), (b"mat", 1, 2, 1),
                          (b"mid", 1, 1, 0), (b"mid", 2, 3, 0)):
        generators, targets = posed(kind, p, q, r, [], [])
        agree(generators, targets, 2)
        least = rank(kind, p, q, r, 0, [], [], [], [0] * 64)[1]
        prices_agree(generators, targets, menu_costs(*sizes(kind, p, q, r)[:2]), least)
        prices_agree(generators, targets, [chance.randint(0, 3) for _ in generators], least)
    circ = posed(b"circ", 3, 3, 0, [], [])
    assert cheapest_by_choice(*circ, menu_costs(3, 3), 4) == cheapest_by_entries(*circ, menu_costs(3, 3), 4) == (10, [16, 32, 40, 48])
    assert catalogue_program(b"kind,p,q,r,k\npoly,2,3,0,5\n") == (
        "kind,p,q,r,k,ell,found,shown\npoly,2,3,0,5,4,3,3\nentry,extension,basis\n"
        "0,1,20 14 8 2 1\n1,3,20 10 a 4 1\n2,5,20 12 a 6 1\n")
    assert rank_program(b"kind,p,q,r,k\npoly,2,2,0,0\n").endswith("poly,2,2,0,0,3,3\nproducts,rows\n0 4 8,1 7 2\n")
    print("self-test passed")


def main():
    if sys.argv[1:] == ["--self-test"]:
        self_test()
        return
    program = rank_program if sys.argv[1:] == ["--rank"] else catalogue_program
    sys.stdout.write(program(sys.stdin.buffer.read()))


if __name__ == "__main__":
    main()
