"""The calls on the formulae of spaces and on selections that make_calls.py writes, and the reply to each.

Where a call is made for a reply, the reply is written beside it and must agree
with formulae.py.  The random lists come from a fixed seed.
"""

import itertools
import random
import sys

sys.dont_write_bytecode = True
import catalogue
import formulae
from catalogue import KINDS, Refused, inside, random_list, reduced

FORMULAE, SUM, REDUNDANT = 3, 4, 5
POLY, SHORT, CIRC, MAT, LIST, MID = range(6)
HUGE = 2 ** 64 - 1
MOST = 4096                 # words of a buffer
calls, replies = [], []


def digest(words):
    """Each word added to what the words before it gave, turned by a bit."""
    x = 0
    for word in words:
        x = (x >> 1 | (x & 1) << 63) ^ word
    return x


def shown(words):
    return " %d" % digest(words) if len(words) > 64 else " :" + "".join(" %d" % word for word in words)


def reply(call, number, p, q, r, w, x, gs, ts, others):
    """What is said, and what stands behind it."""
    before = [1000000] * w
    kind = KINDS[number] if number < len(KINDS) else b"?"
    try:
        if call == FORMULAE:
            listed, said, after = formulae.formulae(kind, p, q, r, gs, ts, others, before)
            return "%s %d" % (said, listed), shown(after)
        if call == SUM:
            terms, after = formulae.is_sum(kind, p, q, r, gs, ts, others, x, before)
            return "no" if terms is None else "yes %d" % len(terms), shown(after)
        return "yes" if formulae.is_redundant(kind, p, q, r, gs, ts, others, x) else "no", ""
    except Refused as refusal:
        return "refused %d" % refusal.args[0], "" if call == REDUNDANT else shown(before)


def add(call, number, p, q, r, w, x, gs, ts, others, want=None):
    gs, ts, others = list(gs), list(ts), list(others)
    assert w <= MOST
    said, behind = reply(call, number, p, q, r, w, x, gs, ts, others)
    assert want in (None, said), (call, number, p, q, r, w, x, gs, ts, others, said, want)
    calls.append(" ".join(map(str, [call, number, p, q, r, x, w, len(gs), len(ts), len(others)] + gs + ts + others)) + "\n")
    replies.append(said + behind + "\n")
    return said


def space(number, p, q, r, rows, w, want=None):
    return add(FORMULAE, number, p, q, r, w, 0, [], [], rows, want)


def listed(p, gs, ts, rows, w, want=None):
    return add(FORMULAE, LIST, p, len(gs), len(ts), w, 0, gs, ts, rows, want)


def chosen(call, p, gs, ts, selection, x, want=None, w=5):
    return add(call, LIST, p, len(gs), len(ts), w if call == SUM else 0, x, gs, ts, selection, want)


def shows(number, p, q, r, gs, ts, selection, form, terms):
    """The terms in buffers with just enough room, more, and a word less; or a no, None."""
    if terms is None:
        for w in (0, 3):
            add(SUM, number, p, q, r, w, form, gs, ts, selection, "no")
        return
    for w in (len(terms), len(terms) + 2):
        add(SUM, number, p, q, r, w, form, gs, ts, selection, "yes %d" % len(terms))
        assert replies[-1] == "yes %d%s\n" % (len(terms), shown(terms + [1000000] * (w - len(terms)))), replies[-1]
    if terms:
        add(SUM, number, p, q, r, len(terms) - 1, form, gs, ts, selection, "refused 9")


def spaces(number, p, q, r, k):
    generators, targets = catalogue.posed(KINDS[number], p, q, r, [], [])
    return generators, targets, [basis for _, basis in catalogue.entries(generators, targets, k)]


def worked():
    """Document 01's worked entries, and buffers of every length."""
    for w in range(12):
        listed(2, [1, 2, 3], [3], [2, 1], w, "all 3" if w >= 9 else "more %d" % (w // 3))
    for w in range(4):
        listed(2, [1, 2, 3], [3], [3], w, "all 1" if w >= 2 else "more 0")
        listed(2, [1, 2], [0, 0], [], w, "all 1" if w >= 2 else "more 0")     # the formula of no products
    for w in range(7):
        space(POLY, 2, 2, 0, [8, 6, 1], w, "all 1" if w >= 6 else "more 0")
    for basis in spaces(POLY, 3, 3, 0, 6)[2]:
        for w in range(80):
            space(POLY, 3, 3, 0, basis, w)


def tables():
    """Document 000's numbers of formulae over all entries; mat 2,2,2; middle products; each also in a buffer with exactly enough room, and a word less."""
    for number, p, q, r, k, count, total in (
            (POLY, 3, 3, 0, 6, 3, 9), (POLY, 4, 2, 0, 6, 4, 108), (POLY, 4, 4, 0, 9, 4, 4), (POLY, 4, 3, 0, 8, 33, 423), (POLY, 6, 3, 0, 11, 3, 243),
            (POLY, 3, 2, 0, 5, 3, 162), (SHORT, 2, 2, 0, 3, 3, 10), (SHORT, 3, 3, 0, 5, 12, 40), (CIRC, 2, 2, 0, 3, 3, 10), (CIRC, 3, 3, 0, 4, 3, 3),
            (MAT, 2, 2, 2, 7, 36, None), (MID, 1, 1, 0, 1, 1, 1), (MID, 2, 3, 0, 3, 1, 1), (MID, 2, 3, 0, 4, 15, 99), (MID, 3, 5, 0, 6, 9, 9)):
        _, targets, found = spaces(number, p, q, r, k)
        assert len(found) == count
        sum_of_all, size = 0, k + len(targets)
        for basis in found:
            said, n = space(number, p, q, r, basis, MOST).split()
            assert said == "all"
            sum_of_all += int(n)
        assert total in (None, sum_of_all), (p, q, k, sum_of_all)
        space(number, p, q, r, basis, int(n) * size, "all " + n)
        space(number, p, q, r, basis, int(n) * size - 1, "more %d" % (int(n) - 1))


def large():
    """Spaces with too many formulae to list."""
    chance = random.Random(4)
    gs = chance.sample(range(1, 2 ** 20), 60)
    ts = chance.sample(gs, 14)
    assert len(reduced(gs)) == 20 and len(reduced(ts)) == 14
    for w in (0, 33, 34, 64, 1000, MOST):
        listed(20, gs, ts, reduced(gs), w, "more %d" % (w // 34))
    ones = [1 << i for i in range(63, -1, -1)]
    for w in (0, 127, 128, MOST):
        listed(64, ones, ones, ones, w, "all 1" if w >= 128 else "more 0")
    listed(64, ones[::-1] + [HUGE], ones[:58], ones, MOST, "more 33")
    listed(64, ones, ones[:57], ones, 128, "refused 8")
    listed(64, ones, ones, ones + [0], 0, "refused 10")
    for over in (6, 7):
        listed(64, ones, ones, ones + ones[:over], 0, "refused 10" if over == 6 else "refused 8")
    units = [1 << i for i in range(11, -1, -1)]
    for w in (0, 24, 64):
        space(POLY, 12, 1, 0, units, w, "more %d" % (w // 24))


def damaged():
    """Rows that are no reduced basis of an entry, or nearly one."""
    for number, p, q, r, k in ((POLY, 2, 2, 0, 3), (POLY, 2, 3, 0, 5), (POLY, 3, 3, 0, 6), (CIRC, 2, 2, 0, 3), (MAT, 1, 2, 1, 2), (MID, 2, 3, 0, 3)):
        generators, targets, found = spaces(number, p, q, r, k)
        width = max(generators).bit_length()
        for basis in found[-2:]:
            for at in range(k):
                for bit in range(width):                # mostly refused; the reference says
                    space(number, p, q, r, basis[:at] + [basis[at] ^ 1 << bit] + basis[at + 1:], 2)
                space(number, p, q, r, basis[:at] + basis[at + 1:], 2, "refused 10")
                space(number, p, q, r, basis[:at] + [0] + basis[at + 1:], 2, "refused 10")
                space(number, p, q, r, basis[:at] + [basis[at] | 1 << width] + basis[at + 1:], 2, "refused 6")
                if at:
                    turned = basis[:at - 1] + [basis[at], basis[at - 1]] + basis[at + 1:]
                    space(number, p, q, r, turned, 2, "refused 10")
                    space(number, p, q, r, basis[:at - 1] + [basis[at - 1] ^ basis[at]] + basis[at:], 2, "refused 10")
            space(number, p, q, r, basis + [0], 2, "refused 10")
            space(number, p, q, r, basis + basis[-1:], 2, "refused 10")
            space(number, p, q, r, [], 2, "refused 10")
    space(POLY, 2, 2, 0, [9, 6], 2, "refused 10")
    space(POLY, 2, 3, 0, [32, 20, 10, 1], 2, "refused 10")      # the targets' own span: generators do not span it
    listed(3, [1, 2], [1], [4, 2, 1], 2, "refused 10")          # the target inside, a row without a generator
    listed(3, [1, 2, 4], [1], [4, 2], 2, "refused 10")          # spanned, the target outside
    listed(3, [1, 2, 4], [1], [4, 1], 3, "all 1")
    for n in (9, 10):
        space(POLY, 2, 2, 0, [1] * n, 2, "refused 10" if n == 9 else "refused 8")
        space(POLY, 2, 2, 0, [1] * (n - 1) + [16], 2, "refused 6")
    space(POLY, 6, 6, 0, [1 << i for i in range(35, -1, -1)], 2, "refused 8")


def refusals():
    """Refusals 2 to 7 of each call, with rows, forms and selections that a later one refuses."""
    for call in (FORMULAE, SUM, REDUNDANT):
        def refused(e, number, p, q, r, gs=(), ts=()):
            for x, others in ((0, []), (HUGE, [HUGE, HUGE])):
                add(call, number, p, q, r, 2, x, gs, ts, others, "refused %d" % e)

        for number in (len(KINDS), HUGE):
            refused(2, number, 2, 2, 0)
        for number, p, q, r in ((POLY, 9, 8, 0), (POLY, 0, 1, 0), (POLY, HUGE, HUGE, 0), (SHORT, 2, 3, 0), (CIRC, 2, 2, 1), (MAT, 3, 3, 3),
                                (LIST, 65, 1, 1), (LIST, 1, 1, 65), (LIST, 1, 0, 1), (MID, 2, 4, 0), (MID, 0, 0, 0), (MID, 6, 11, 0), (MID, 2 ** 63 + 1, 1, 0)):
            refused(3, number, p, q, r, [1], [1])
        for number, p, q, r in ((POLY, 7, 6, 0), (POLY, 13, 1, 0), (SHORT, 8, 8, 0), (MAT, 4, 1, 16), (LIST, 12, 4096, 1), (MID, 5, 9, 0)):
            refused(4, number, p, q, r, [1], [1])
        refused(5, POLY, 2, 2, 0, [1])
        refused(5, POLY, 2, 2, 0, [], [1])
        refused(5, LIST, 2, 2, 1, [0], [1])
        refused(5, LIST, 2, 1, 2, [1], [8])
        refused(6, LIST, 2, 2, 1, [4, 4], [1])
        refused(6, LIST, 2, 1, 1, [1], [4])
        for gs in ([1, 0], [3, 3], [3, 1, 3]):
            add(call, LIST, 2, len(gs), 1, 2, 0, gs, [1], [], "refused 7")
            add(call, LIST, 2, len(gs), 1, 2, 3, gs, [1], [3] * 9, "refused 7")
            add(call, LIST, 2, len(gs), 1, 2, 4, gs, [1], [4], "refused 7" if call == REDUNDANT else "refused 6")
    add(SUM, POLY, 2, 2, 0, 0, 16, [], [], [9, 9], "refused 6")     # a form outside the width, before the selection
    chosen(SUM, 2, [1, 2, 3], [3], [0, 0], 3, "refused 11", 0)      # 9 is judged last, on the very terms
    chosen(SUM, 2, [1, 2, 3], [3], [7], 4, "refused 6", 0)
    chosen(SUM, 2, [1, 1], [3], [0], 4, "refused 6", 0)
    chosen(SUM, 2, [1, 1], [3], [7], 1, "refused 7", 0)


def sums():
    """Sums shown: the handed-in order plays no part, nor does a shorter sum outside the dictionary-first part."""
    for selection, form, terms in (([2, 0, 1], 3, [0, 1]), ([2], 3, [2]), ([2, 1], 1, [1, 2]), ([2, 1], 3, [2]), ([0, 2], 2, [0, 2]), ([], 0, []),
                                   ([], 1, None), ([2, 1, 0], 0, []), ([0], 2, None)):
        shows(LIST, 2, 3, 1, [1, 2, 3], [3], selection, form, terms)
    for selection, form, terms in ((range(9), 1, [0]), (range(9), 6, [1, 3]), (range(9), 8, [4]), (range(9), 15, [0, 1, 3, 4]), ([8, 4, 0], 6, [0, 4, 8]),
                                   ([8, 5, 3, 2], 1, None), ([8, 5, 3, 2], 8, [3, 5])):
        shows(POLY, 2, 2, 0, [], [], selection, form, terms)
    gs = [1, 2, 4, 8, 3, 12, 15]
    for selection in itertools.permutations((6, 4, 1, 0)):          # every order of one selection
        for form, terms in ((15, [6]), (3, [0, 1]), (2, [1]), (13, [1, 6]), (12, [0, 1, 6]), (0, []), (8, None)):
            shows(LIST, 4, len(gs), 1, gs, [15], selection, form, terms)
    ones = [1 << i for i in range(64)]
    shows(LIST, 64, 64, 1, ones, [1], range(63, -1, -1), HUGE, list(range(64)))
    shows(LIST, 64, 65, 1, [HUGE] + ones, [1], range(65), HUGE, [0])
    shows(LIST, 64, 65, 1, [HUGE] + ones, [1], range(64, -1, -1), 1 << 63, list(range(64)))


def selections():
    """Selections with and without redundant products, misfits, and random ones."""
    p, gs, ts = 3, [1, 2, 4, 3, 7], [3, 4]
    for selection, redundant in (([0, 1, 2], []), ([3, 2], []), ([0, 1, 2, 3], [0, 1, 3]), ([4, 3, 2], [2, 3, 4]), ([4, 2, 1, 0, 3], [0, 1, 2, 3, 4])):
        for j in selection:
            chosen(REDUNDANT, p, gs, ts, selection, j, "yes" if j in redundant else "no")
        for j in (5, HUGE, *(set(range(5)) - set(selection))):
            chosen(REDUNDANT, p, gs, ts, selection, j, "refused 11")
    for selection in ([5], [0, 1, 2, 5], [HUGE], [0, 0], [0, 1, 2, 0], [2, 3, 3]):
        for call in (SUM, REDUNDANT):
            chosen(call, p, gs, ts, selection, selection[0] % 8, "refused 11")
    for selection in ([], [0], [0, 1], [2]):
        chosen(REDUNDANT, p, gs, ts, selection, 0, "refused 11")
        for form in range(8):
            chosen(SUM, p, gs, ts, selection, form)
        chosen(SUM, p, gs, ts, selection, 8, "refused 6")
    chosen(REDUNDANT, 2, [1], [0], [0], 0, "yes")               # nothing is to be spanned
    chosen(REDUNDANT, 2, [1], [0], [], 0, "refused 11")
    for number, p, q, r, k in ((POLY, 2, 2, 0, 3), (POLY, 3, 3, 0, 6), (POLY, 4, 3, 0, 8), (MAT, 2, 2, 2, 7), (MID, 2, 3, 0, 3), (MID, 3, 5, 0, 6)):
        generators, targets, found = spaces(number, p, q, r, k)
        formula = catalogue.choices(generators, found[-1])
        for selection in (formula, formula[::-1] + [max(set(range(12)) - set(formula))], inside(found[0], generators), range(len(generators))[:60]):
            for j in list(selection)[:12] + [len(generators)]:
                add(REDUNDANT, number, p, q, r, 0, j, [], [], selection)
            for form in targets + generators[-3:]:
                add(SUM, number, p, q, r, 8, form, [], [], selection)
    add(SUM, POLY, 6, 6, 0, 1, 2 ** 36 - 1, [], [], [3968, 0], "yes 1")
    add(SUM, POLY, 6, 6, 0, 0, 2 ** 36 - 1, [], [], [3969, 0], "refused 11")
    add(SUM, POLY, 12, 1, 0, 0, 4095, [], [], [1 << i for i in range(11)], "no")
    add(SUM, POLY, 12, 1, 0, 12, 4095, [], [], [(1 << i) - 1 for i in range(12)], "yes 12")


def lists():
    """Random lists: their spaces, with random room, and random selections."""
    chance = random.Random(5)
    for _ in range(60):
        p, gs, ts = random_list(chance)
        for k in range(len(reduced(ts)), min(len(reduced(gs)), len(reduced(ts)) + 6) + 1):
            for _, basis in catalogue.entries(gs, ts, k)[:4]:
                listed(p, gs, ts, basis, chance.randint(0, 64))
        for _ in range(3):
            selection = chance.sample(range(len(gs)), chance.randint(0, len(gs)))
            chosen(SUM, p, gs, ts, selection, chance.randrange(2 ** p))
            chosen(REDUNDANT, p, gs, ts, selection, chance.choice(selection or [0]))


def made():
    """The lines of the calls and of the replies."""
    for make in (worked, tables, large, damaged, refusals, sums, selections, lists):
        make()
    return calls, replies
