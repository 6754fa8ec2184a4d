#!/usr/bin/env python3
"""Problems of document 000's tables that are lists, and the entries of those that the reference would take too long to search.

    field       Table 3: the product of two elements of the field of 2^e elements
                in polynomial basis, from products of any nonzero sums
    symmetric   the rows marked (Sym.) of Tables 1 and 4: a map, from products
                of a sum of a's and the same sum of b's only

A generator is the form of its product: bit i n + j for a_i b_j.

    table_rows.py field E K            prints the problem's file
    table_rows.py symmetric KIND N K   the same
"""

import sys

sys.dont_write_bytecode = True
from catalogue import first_choice, form_of, map_targets, menu, reduced, spanned
from check import poly, units

# What the fields' polynomials are taken modulo: no product of two smaller ones; bit i for X^i. Which of them is taken changes no count.
MODULI = {2: 0b111, 3: 0b1011, 4: 0b10011, 5: 0b100101}


def product_in_field(e, a, b):
    """The product of two elements, as lists of e bits."""
    word = sum(bit << t for t, bit in enumerate(poly(a, b)))
    for t in range(2 * e - 2, e - 1, -1):
        if word >> t & 1:
            word ^= MODULI[e] << t - e
    return [word >> t & 1 for t in range(e)]


def field(e):
    """The generators and the targets of the multiplication in the field of 2^e elements."""
    values = {(i, j): product_in_field(e, a, b) for i, a in enumerate(units(e)) for j, b in enumerate(units(e))}
    return menu(e, e), [sum(1 << i * e + j for (i, j), c in values.items() if c[t]) for t in range(e)]


def symmetric(kind, n):
    """The targets of a map of n by n inputs, with only those generators that take the same sum of a's and of b's."""
    outputs = 2 * n - 1 if kind == b"poly" else n
    return [form_of(n, n, a, a) for a in range(1, 2 ** n)], map_targets(kind, n, n, 0, n, n, outputs)


def listed(p, k, gs, ts, costs=None):
    """The file of a list, with the generators' costs; without them each costs 0."""
    lines = [(b"g", g, cost) for g, cost in zip(gs, costs or [0] * len(gs), strict=True)] + [(b"t", t, 0) for t in ts]
    return b"kind,p,q,r,k\nlist,%d,%d,%d,%d\nrole,form,cost\n" % (p, len(gs), len(ts), k) + b"".join(b"%s,%x,%d\n" % line for line in lines)


# The extensions of all entries. That each is one of an entry is checked here; that there are no others is document 000's count (make_problem_files.TABLES).

EXTENSIONS = {
    "poly 5,5 for 13": """32 96 224 384, 32 96 224 393, 32 96 224 398, 32 96 224 416, 32 96 288 384, 32 160 224 384, 32 160 288 384,
        32 160 288 393, 32 160 288 398, 32 160 288 416, 32 224 256 352, 32 224 384 512, 32 256 384 512, 32 288 320 352,
        32 288 384 544, 32 320 384 608, 96 224 288 384, 128 224 320 384, 128 288 384 544, 160 224 288 384, 192 224 384 512,
        192 256 288 384, 224 256 288 352, 224 256 288 384, 224 288 352 384, 224 288 352 393, 224 288 352 398""",
    "poly 6,4 for 13": """17 51 118 236, 17 51 173 309, 17 113 395 463, 17 178 395 458, 53 236 343 400, 58 278 309 402, 78 111 309 402,
        94 171 236 400, 118 173 236 309""",
    "symmetric poly 6 for 17": """1 5 7 20 21 24, 1 5 11 15 17 23, 1 5 15 20 26 30, 1 15 20 23 26 38, 1 15 20 24 26 32, 3 15 18 20 22 23""",
    "symmetric circ 6 for 12": """4 9 14 16 19 20, 4 9 14 16 20 26, 4 9 14 19 20 26, 4 9 14 20 26 29, 4 9 16 19 20 26, 4 9 16 19 20 29,
        4 9 16 20 26 29, 4 9 19 20 26 29, 4 9 20 26 33 38, 4 14 16 19 20 26, 4 14 16 19 20 29, 4 14 16 20 26 29, 4 14 19 20 26 29,
        4 14 20 26 38 39, 4 16 19 20 26 29, 4 16 20 26 33 50, 4 19 20 26 33 38, 9 14 16 19 20 26, 9 14 16 20 26 29, 9 14 19 20 26 29,
        9 14 20 26 33 39, 9 14 20 29 33 38, 9 16 19 20 26 29, 9 19 20 26 39 50, 9 20 26 29 33 38, 14 16 19 20 26 29, 14 16 20 26 33 39,
        14 20 26 29 38 50, 16 19 20 26 38 39, 16 20 26 29 33 39, 19 20 26 29 33 38""",
    "symmetric circ 7 for 13": """22 28 38 45 56 57""",
}


def known(name, generators, targets, k):
    """The entries of a problem of EXTENSIONS: the extension and the reduced basis of each, in order."""
    start, found = reduced(targets), []
    for text in EXTENSIONS[name].split(","):
        numbers = [int(word) for word in text.split()]
        space = reduced(start + [generators[j] for j in numbers])
        assert len(space) == k and spanned(space, generators) and first_choice(generators, start, space) == numbers, (name, numbers)
        found.append((numbers, space))
    assert all(a[0] < b[0] for a, b in zip(found, found[1:])), name     # ascending, so that none stands twice
    return found


def main(what, *words):
    n = int(words[-2])
    gs, ts = field(n) if what == "field" else symmetric(words[0].encode(), n)
    sys.stdout.buffer.write(listed(n * n, int(words[-1]), gs, ts))


if __name__ == "__main__":
    main(*sys.argv[1:])
