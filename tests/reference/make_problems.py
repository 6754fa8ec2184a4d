"""The calls of Catalogue, its look-up and Rank that make_calls.py writes, and the reply to each.

Where a call is made for a reply, the reply is written beside it and must
agree with catalogue.py.  The random lists come from a fixed seed.  A Rank of a
list that is not made for its costs has costs of each sort in turn.
"""

import itertools
import random
import sys

sys.dont_write_bytecode = True
import catalogue
from catalogue import DEAREST, KINDS, Refused, entries, random_costs, random_list, reduced, rivals
from table_rows import field

CATALOGUE, RANK, ENTRY = 0, 1, 2
POLY, SHORT, CIRC, MAT, LIST, MID = range(6)
UNKNOWN = len(KINDS), len(KINDS) + 1    # numbers of no kind
HUGE = 2 ** 64 - 1
calls, replies = [], []


def line(said, *stretches):
    return said + "".join(" :" + "".join(" %d" % word for word in words) for words in stretches)


def in_turn(count):
    """Costs of a list: all 0, all alike, random ones, the highest; the next sort with each call."""
    sort = len(calls) % 4
    chance = random.Random(len(calls))
    return [0] * count if sort == 0 else [7] * count if sort == 1 else random_costs(chance, count) if sort == 2 else [DEAREST] * count


def reply(call, number, p, q, r, k, w, gs, ts, costs):
    """What is said, and the whole line."""
    before = [1000000 + i for i in range(w)]
    kind = KINDS[number] if number < len(KINDS) else b"?"
    try:
        if call == CATALOGUE:
            ell, found, shown, after, _ = catalogue.catalogue(kind, p, q, r, k, gs, ts, before)
            said = "found %d shown %d" % (found, shown)
            return said, line("entries %d %d %d" % (ell, found, shown), after, *(catalogue.entry(after, ell, k, shown, j) for j in range(shown + 1)))
        _, least, _, _, after = catalogue.rank(kind, p, q, r, k, gs, ts, costs, before)
        said = least if isinstance(least, str) else "rank %d" % least
        return said, line(said, after)
    except Refused as refusal:
        said = "refused %d" % refusal.args[0]
        return said, line(said, before)


def write(asked, answer):
    assert asked[6] <= 64
    calls.append(" ".join(map(str, asked)) + "\n")
    replies.append(answer + "\n")


def add(call, number, p, q, r, k, w, gs=(), ts=(), want=None, costs=None):
    gs, ts = list(gs), list(ts)
    if costs is None:
        costs = in_turn(len(gs)) if call == RANK and number == LIST else []
    said, answer = reply(call, number, p, q, r, k, w, gs, ts, costs)
    assert want is None or said == want or said.startswith(want + " "), (call, number, p, q, r, k, gs, ts, costs, said, want)
    write([call, number, p, q, r, k, w, len(gs), len(ts), len(costs)] + gs + ts + costs, answer)
    return answer


def listed(call, p, gs, ts, k, w, want=None, costs=None):
    return add(call, LIST, p, len(gs), len(ts), k, w, gs, ts, want, costs)


def worked():
    """Document 01's worked entries, poly 2,2 for every k, and buffers of every length."""
    for k in range(10):
        add(CATALOGUE, POLY, 2, 2, 0, k, 12, want="found %d" % (k in (3, 4)))
    add(CATALOGUE, POLY, 2, 2, 0, 10, 12, want="refused 8")
    for w in range(21):
        add(CATALOGUE, POLY, 2, 3, 0, 5, w, want="found 3 shown %d" % min(3, w // 6))
    listed(CATALOGUE, 2, [1, 2, 3], [3], 1, 8, "found 1 shown 1")
    listed(CATALOGUE, 2, [1, 2, 3], [3], 2, 8, "found 1 shown 1")
    for w in (0, 3):        # a record of length 0 needs no room
        listed(CATALOGUE, 2, [1, 2], [0, 0], 0, w, "found 1 shown 1")
    add(RANK, POLY, 2, 2, 0, 0, 6, want="rank 3")
    add(RANK, POLY, 1, 1, 0, 0, 2, want="rank 1")
    listed(RANK, 2, [1], [2], 0, 4, "beyond")
    listed(RANK, 2, [1], [0], 0, 4, "rank 0")


def limits():
    """What is just taken and just refused."""
    add(CATALOGUE, POLY, 6, 6, 0, 11, 8, want="found")
    add(CATALOGUE, POLY, 6, 6, 0, 12, 8, want="found")
    add(CATALOGUE, POLY, 12, 1, 0, 12, 14, want="found 1 shown 1")
    add(CATALOGUE, POLY, 12, 1, 0, 18, 14, want="found 0")
    add(CATALOGUE, POLY, 12, 1, 0, 19, 14, want="refused 8")
    add(RANK, POLY, 12, 1, 0, 0, 24, want="rank 12")
    add(RANK, POLY, 1, 12, 0, 0, 24, want="rank 12")
    for call in (CATALOGUE, RANK):
        for p, q in ((7, 6), (13, 1), (1, 13), (8, 8), (64, 1), (1, 64), (2, 32)):
            add(call, POLY, p, q, 0, 0, 2, want="refused 4")
        for p, q in ((9, 8), (65, 1), (1, 65), (0, 1), (1, 0), (HUGE, 1), (HUGE, HUGE), (2 ** 32, 2 ** 32)):
            add(call, POLY, p, q, 0, 0, 2, want="refused 3")
        for kind in (SHORT, CIRC):
            add(call, kind, 8, 8, 0, 0, 2, want="refused 4")
            for p, q, r in ((2, 3, 0), (9, 9, 0), (0, 0, 0), (2, 2, 1)):
                add(call, kind, p, q, r, 0, 2, want="refused 3")
        for p, q, r in ((3, 3, 3), (0, 1, 1), (1, 0, 1), (1, 1, 0), (2 ** 32, 1, 2 ** 32), (HUGE, HUGE, HUGE)):
            add(call, MAT, p, q, r, 0, 2, want="refused 3")
        add(call, MAT, 4, 1, 16, 0, 2, want="refused 4")
        add(call, MID, 5, 9, 0, 7, 2, want="refused 4")
        for p, q, r in ((2, 4, 0), (2, 2, 0), (3, 2, 0), (2, 3, 1), (6, 11, 0), (33, 65, 0), (0, 0, 0), (1, 0, 0), (0, 1, 0), (0, HUGE, 0),
                        (2 ** 63, HUGE, 0), (HUGE, HUGE, 0), (2 ** 63 + 1, 1, 0), (2 ** 63 + 2, 3, 0), (HUGE, HUGE - 2, 0)):
            add(call, MID, p, q, r, 0, 2, want="refused 3")     # the last three would do if 2 p - 1 left 64 bits
        for p, q, r in ((0, 1, 1), (65, 1, 1), (1, 0, 1), (1, 1, 0), (1, 1, 65), (HUGE, 1, 1)):
            add(call, LIST, p, q, r, 0, 2, [1], [1], "refused 3")
        for q in (4096, HUGE):
            add(call, LIST, 12, q, 1, 0, 2, [1], [1], "refused 4")
        add(call, LIST, 12, 4095, 1, 0, 2, [1], [1], "refused 5")


def refusals():
    """Each refusal, and two that apply at once."""
    for call in (CATALOGUE, RANK):
        many = 99           # a k that 8 refuses
        for number in (*UNKNOWN, HUGE):
            add(call, number, 2, 2, 0, 0, 2, want="refused 2")
            add(call, number, 0, 0, 9, many, 2, [1], [1], "refused 2")
        add(call, POLY, 9, 8, 0, many, 2, [1], [1], "refused 3")
        add(call, POLY, 7, 6, 0, many, 2, [1], [], "refused 4")
        add(call, POLY, 2, 2, 0, many, 2, [1], [], "refused 5")
        add(call, POLY, 2, 2, 0, many, 2, [], [HUGE], "refused 5")
        add(call, LIST, 2, 4096, 1, many, 2, [0], [9], "refused 4")
        add(call, LIST, 2, 2, 1, many, 2, [0], [1], "refused 5")
        add(call, LIST, 2, 1, 1, many, 2, [1, 2], [1], "refused 5")
        add(call, LIST, 2, 1, 2, many, 2, [4], [1], "refused 5")
        add(call, LIST, 2, 1, 1, many, 2, [1], [], "refused 5")
        listed(call, 2, [4, 0], [1], many, 2, "refused 6")
        listed(call, 2, [1, 1], [4], many, 2, "refused 6")
        listed(call, 63, [2 ** 63], [1], many, 2, "refused 6")
        listed(call, 2, [1, 0], [1], many, 2, "refused 7")
        for gs in ([1, 1], [3, 3, 1], [3, 1, 3], [1, 3, 3], [0]):
            listed(call, 2, gs, [1], many, 2, "refused 7")
        listed(call, 2, [1], [1], many, 2, "refused 8")
        listed(call, 64, [HUGE, 2 ** 63], [2 ** 63], many, 2, "refused 8")
    add(RANK, POLY, 2, 2, 0, 1, 6, want="refused 8")
    add(RANK, POLY, 2, 2, 0, 1, 0, want="refused 8")


def tables():
    """The numbers of spaces in document 000, Tables 1 and 4; and mat 2,2,2 for 7."""
    for p, q, k, found in ((2, 2, 3, 1), (3, 2, 5, 3), (3, 3, 6, 3), (4, 2, 6, 4), (4, 3, 8, 33), (4, 4, 9, 4), (5, 2, 8, 28), (5, 3, 10, 366),
                           (6, 2, 9, 64), (6, 3, 11, 3), (7, 2, 11, 960), (8, 2, 12, 4096)):
        add(CATALOGUE, POLY, p, q, 0, k, 48, want="found %d" % found)
    for kind, p, k, found in ((SHORT, 2, 3, 3), (SHORT, 3, 5, 12), (CIRC, 2, 3, 3), (CIRC, 3, 4, 3)):
        add(CATALOGUE, kind, p, p, 0, k, 48, want="found %d" % found)
    add(CATALOGUE, MAT, 2, 2, 2, 7, 48, want="found 36")


def middles():
    """Middle products for every k; buffers with just room for one entry and for two, and a word less."""
    for p, q, counts in ((1, 1, (0, 1, 0)), (2, 3, (0, 0, 0, 1, 15, 15, 1, 0, 0)), (3, 5, (0, 0, 0, 0, 0, 0, 9))):
        for k, found in enumerate(counts):
            add(CATALOGUE, MID, p, q, 0, k, 48, want="found %d" % found)
    add(CATALOGUE, MID, 2, 3, 0, 9, 48, want="refused 8")
    for w in (5, 6, 11, 12):
        add(CATALOGUE, MID, 2, 3, 0, 4, w, want="found 15 shown %d" % (w // 6))
    add(CATALOGUE, MID, 2, 3, 0, 3, 4, [1], [], "refused 5")
    add(RANK, MID, 2, 3, 0, 3, 5, want="refused 8")


def published():
    """Numbers of spaces in document 000 that the reference would take too long for, 0 where it has none: rows of Tables 1 and 4 with the full
    menu, and Table 3's field of 16 elements; and a middle product, which needs as many products as poly of its n, as the sides of a product may
    change places.  No record is asked for."""
    for number, p, q, k, found in ((POLY, 5, 4, 12, 4113), (POLY, 5, 5, 13, 27), (POLY, 6, 4, 13, 9), (POLY, 6, 5, 14, 0), (POLY, 6, 6, 14, 0),
                                   (POLY, 7, 3, 13, 87), (POLY, 7, 4, 14, 0), (POLY, 8, 3, 14, 0),
                                   (SHORT, 4, 4, 8, 1440), (SHORT, 5, 5, 9, 0), (CIRC, 4, 4, 8, 1440), (CIRC, 5, 5, 9, 0), (MID, 4, 7, 7, 0)):
        ell = len(reduced(catalogue.map_targets(KINDS[number], p, q, 0, p, q, p + q - 1 if number == POLY else p)))
        write([CATALOGUE, number, p, q, 0, k, 0, 0, 0, 0], line("entries %d %d 0" % (ell, found), [], []))
    gs, ts = field(4)
    write([CATALOGUE, LIST, 16, len(gs), len(ts), 9, 0, len(gs), len(ts), 0] + gs + ts, line("entries 4 2025 0", [], []))


def lists():
    """Random lists, for every k from 0 to one that is refused."""
    chance = random.Random(2)
    for _ in range(100):
        p, gs, ts = random_list(chance)
        ell, most = len(reduced(ts)), len(reduced(gs))
        for k in sorted({0, max(ell - 1, 0), *range(ell, most + 2), ell + 6, ell + 7}):
            listed(CATALOGUE, p, gs, ts, k, chance.randint(0, 3 * max(2 * k - ell, 1)), "refused 8" if k > ell + 6 else "found")
        listed(RANK, p, gs, ts, 0, 16)
    for _ in range(150):
        p, gs, ts = random_list(chance)
        for _ in range(3):
            listed(RANK, p, gs, ts, 0, 16, costs=random_costs(chance, len(gs)))
    for p, gs, ts, costs in rivals(chance, 100, 60):
        listed(RANK, p, gs, ts, 0, 10, "rank", costs)


def ranks():
    """Rank of small problems of every kind, with exactly enough room, a word more and a word less; above, beyond and 0."""
    for number, p, q, r, least, outputs in (
            (POLY, 1, 1, 0, 1, 1), (POLY, 1, 4, 0, 4, 4), (POLY, 2, 2, 0, 3, 3), (POLY, 2, 3, 0, 5, 4), (POLY, 3, 2, 0, 5, 4), (POLY, 3, 3, 0, 6, 5),
            (SHORT, 1, 1, 0, 1, 1), (SHORT, 2, 2, 0, 3, 2), (SHORT, 3, 3, 0, 5, 3), (CIRC, 1, 1, 0, 1, 1), (CIRC, 2, 2, 0, 3, 2), (CIRC, 3, 3, 0, 4, 3),
            (MAT, 1, 1, 1, 1, 1), (MAT, 1, 2, 1, 2, 1), (MAT, 2, 1, 2, 4, 4), (MAT, 1, 2, 2, 4, 2), (MAT, 2, 2, 1, 4, 2), (MAT, 2, 2, 2, 7, 4),
            (MID, 1, 1, 0, 1, 1), (MID, 2, 3, 0, 3, 2), (MID, 3, 5, 0, 6, 3)):
        need = least + outputs
        add(RANK, number, p, q, r, 0, need, want="rank %d" % least)
        if number != MAT or p * q * r < 8:
            add(RANK, number, p, q, r, 0, need + 1, want="rank %d" % least)
            add(RANK, number, p, q, r, 0, need - 1, want="refused 9")
            add(RANK, number, p, q, r, 0, 0, want="refused 9")
    for w in (0, 1, 2):     # rank 0 has no products, and a row for each target
        listed(RANK, 3, [1, 2], [0, 0], 0, w, "rank 0" if w == 2 else "refused 9")
    ones = [1 << i for i in range(9)]
    for w in (0, 12):       # the sum of 7 and of 8 words, with no other way to it; above and beyond need no room
        listed(RANK, 9, ones, [2 ** 7 - 1], 0, w, "rank 7" if w else "refused 9")
        listed(RANK, 9, ones, [2 ** 8 - 1], 0, w, "above")
        listed(RANK, 9, ones, [2 ** 9 - 1], 0, w, "above")
        listed(RANK, 9, ones[:8], [2 ** 9 - 1], 0, w, "beyond")
        listed(RANK, 9, ones[:8], [1, 2 ** 8], 0, w, "beyond")
    listed(RANK, 64, [2 ** 63, 2 ** 63 + 1], [1, 2 ** 63], 0, 8, "rank 2")
    listed(RANK, 3, [1, 2, 3, 4, 5], [3, 3, 0, 6, 5], 0, 16)     # dependent targets


def replies_with(answer, products, masks):
    """The reply is a rank with these products and rows, and no more words."""
    assert answer == line("rank %d" % len(products), products + masks), (answer, products, masks)


def prices():
    """The worked costs: in one entry, in two of them, of maps; generators of every order of their costs; sums above a word of 16 bits."""
    for costs, products, masks in (([9, 0, 0], [1, 2], [3, 1]), ([1, 1, 0], [0, 2], [1, 3]), ([DEAREST] * 3, [0, 1], [1, 2]), ([0, 0, 0], [0, 1], [1, 2])):
        replies_with(listed(RANK, 2, [1, 2, 3], [1, 2], 0, 4, costs=costs), products, masks)
    gs, ts = [4, 8, 9, 10, 5, 6, 7], [1, 2]
    assert entries(gs, ts, 3) == [([0], [4, 2, 1]), ([1], [8, 2, 1])]
    for costs, products, masks in (([1, 0, 0, 0, 0, 0, 0], [1, 2, 3], [3, 5]),      # of entry 1; in entry 0 are 4 5 6, as cheap
                                   ([0] * 7, [0, 4, 5], [3, 5]), ([1, 0, 0, 1, 0, 0, 0], [4, 5, 6], [6, 5]), ([1, 1, 0, 0, 0, 0, 0], [4, 5, 6], [6, 5]),
                                   ([DEAREST, DEAREST, 0, 0, DEAREST, 0, 0], [0, 5, 6], [6, 3]), ([0, 0, 0, 0, 1, 1, 1], [1, 2, 3], [3, 5]),
                                   ([5] * 7, [0, 4, 5], [3, 5]), ([DEAREST] * 7, [0, 4, 5], [3, 5]), ([DEAREST] * 4 + [DEAREST - 1] * 3, [4, 5, 6], [6, 5])):
        replies_with(listed(RANK, 4, gs, ts, 0, 5, costs=costs), products, masks)
        listed(RANK, 4, gs, ts, 0, 4, "refused 9", costs)
    for number, p, q, products, masks in (
            (MID, 3, 5, [23, 40, 73, 95, 160, 189], [0x38, 0x36, 0x25]), (POLY, 3, 3, [0, 8, 16, 24, 32, 40], [1, 7, 0x1b, 0x2a, 8]),
            (CIRC, 3, 3, [16, 32, 40, 48], [0xb, 0xe, 0xd]), (POLY, 2, 3, [0, 1, 7, 10, 19], [1, 6, 0x1a, 8]),
            (SHORT, 3, 3, [0, 3, 8, 16, 21], [1, 0xd, 0x16]), (POLY, 2, 2, [0, 4, 8], [1, 7, 2]), (MID, 2, 3, [5, 9, 15], [6, 5])):
        replies_with(add(RANK, number, p, q, 0, 0, len(products) + len(masks)), products, masks)
    for p, q in ((4, 2), (2, 4), (4, 3), (3, 4), (4, 4), (5, 2), (2, 5), (6, 2)):
        add(RANK, POLY, p, q, 0, 0, 32)
    for order in itertools.permutations((0, 1, 2, 3)):      # a triangle of sums: a set of two of the first three, and 8
        listed(RANK, 4, [1, 2, 3, 8], [1, 2, 8], 0, 8, "rank 3", list(order))
        listed(RANK, 4, [1, 2, 4, 8], [3, 12], 0, 8, "rank 4", [DEAREST * x // 3 for x in order])
    ones = [1 << i for i in range(31)]
    others = [3 << i for i in range(30)] + [2 ** 31 - 1]
    for costs in ([DEAREST] * 62, [DEAREST] * 61 + [DEAREST - 1], [DEAREST] * 31 + [0] * 31, [0] * 31 + [DEAREST] * 31):
        listed(RANK, 31, ones + others, ones, 0, 62, "rank 31", costs)


def prices_refused():
    """Costs that are too few, too many or too high, and costs of a map, with every other refusal beside them: 2, 3 and 4 come first, all others later."""
    gs, ts, many = [1, 2, 3], [1, 2], 99
    fine = [0, 5, DEAREST]
    damaged = (fine[:2], fine + [0], [], [0, 0, DEAREST + 1], [DEAREST + 1, 0, 0], [0, 2 ** 32, 0], [HUGE, 0, 0], [0, 0, 2 ** 16 * 3 + 1])
    for want, *call in (
            ("rank 2", LIST, 2, 3, 2, 0, 4, gs, ts), ("beyond", LIST, 3, 3, 1, 0, 3, gs, [4]), ("refused 2", UNKNOWN[0], 2, 3, 2, 0, 4, gs, ts),
            ("refused 3", LIST, 65, 3, 2, 0, 4, gs, ts), ("refused 3", LIST, 2, 3, 65, many, 4, gs, ts), ("refused 3", POLY, 9, 8, 0, 0, 4, [], []),
            ("refused 4", LIST, 2, 4096, 2, 0, 4, gs, ts), ("refused 4", POLY, 7, 6, 0, many, 4, [], []), ("refused 5", LIST, 2, 3, 3, 0, 4, gs, ts),
            ("refused 6", LIST, 2, 3, 2, many, 0, [1, 2, 4], ts), ("refused 6", LIST, 2, 3, 2, 0, 4, gs, [1, 4]),
            ("refused 7", LIST, 2, 3, 2, many, 0, [1, 2, 0], ts), ("refused 7", LIST, 2, 3, 2, 0, 4, [1, 2, 2], ts),
            ("refused 8", LIST, 2, 3, 2, 1, 0, gs, ts), ("refused 9", LIST, 2, 3, 2, 0, 3, gs, ts)):
        add(RANK, *call, want, fine)
        for costs in damaged:
            add(RANK, *call, want if want in ("refused 2", "refused 3", "refused 4") else "refused 5", costs)
    for number, p, q, r in ((POLY, 2, 2, 0), (SHORT, 2, 2, 0), (CIRC, 2, 2, 0), (MAT, 1, 2, 1), (MID, 2, 3, 0)):
        n, m, _ = catalogue.sizes(KINDS[number], p, q, r)
        for costs in ([0], [DEAREST + 1], catalogue.menu_costs(n, m), [0] * q):
            for k, w in ((0, 8), (1, 8), (0, 0)):
                add(RANK, number, p, q, r, k, w, want="refused 5", costs=costs)
    ones = [1 << i for i in range(8)]
    listed(RANK, 8, ones, [2 ** 8 - 1], 0, 2, "above", [DEAREST] * 8)
    listed(RANK, 8, ones, [2 ** 8 - 1], 0, 2, "refused 5", [DEAREST] * 7 + [DEAREST + 1])


def lookups():
    """Look-ups at and behind the end of the buffer, and with numbers whose products or sums leave 64 bits."""
    def look(ell, k, shown, number, w):
        buffer = [1000000 + i for i in range(w)]
        write([ENTRY, ell, k, shown, number, 0, w, 0, 0, 0], line("", catalogue.entry(buffer, ell, k, shown, number)))

    for ell, k in ((4, 5), (3, 3), (0, 1), (0, 0), (5, 4), (1, 0)):
        for shown in (0, 3, HUGE):
            for number in (0, 2, 3, HUGE):
                for w in (0, 6, 17, 18):
                    look(ell, k, shown, number, w)
    for ell, k in ((HUGE, HUGE), (0, HUGE), (HUGE, 0), (0, 2 ** 63), (2, 2 ** 63 + 1), (HUGE - 1, HUGE), (0, 2 ** 32)):
        for number in (0, 1, 2 ** 32):
            look(ell, k, HUGE, number, 8)
    for number in ((2 ** 64 + 2) // 6, 2 ** 63, 2 ** 64 // 6, 2 ** 61):   # times 6 above 2 ** 64, some with a small remainder
        look(4, 5, HUGE, number, 64)


def made():
    """The lines of the calls and of the replies."""
    for make in (worked, limits, refusals, tables, middles, published, lists, ranks, prices, prices_refused, lookups):
        make()
    return calls, replies
