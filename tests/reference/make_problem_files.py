"""The problem files of crates/file_values, which make_files.py writes, and the replies to each.

Each file is asked by all three programs, Catalogue, Rank and Formulae; the
replies come from catalogue.py and formulae.py, which share nothing with the
code under test.  Where a file is made for a refusal, its number is written
beside it and all three must agree, but for 8, which depends on what is asked.
Of a row of document 000's tables, and of middle products, the numbers of
spaces and of formulae are written in TABLES, and Formulae's reply must have as
many; of others the formula that Rank prints is written in RANKED.
The random lists and their costs come from a fixed seed.  A name is three
digits, a short name padded with '-', and `.txt`: 24 bytes.
"""

import random
import sys

sys.dont_write_bytecode = True
import table_rows
from catalogue import catalogue_program, menu_costs, posed, random_costs, random_list, rank_program, rivals
from formulae import formulae_program
from table_rows import listed

HEAD = b"kind,p,q,r,k\n"

# The spaces and the formulae of a file, in Table 1, 3 or 4 of document 000 but for mid; all of them are printed.
TABLES = {
    "poly-2-2-0-3": (1, 1), "poly-3-2-0-5": (3, 162), "poly-3-3-0-6": (3, 9), "poly-4-2-0-6": (4, 108), "poly-4-4-0-9": (4, 4),
    "poly-5-5-0-13": (27, 27), "poly-6-4-0-13": (9, 15), "sym-poly-6-17": (6, 54),
    "field-4-3": (3, 3), "field-8-6": (105, 147), "field-32-9": (0, 0),
    "short-2-2-0-3": (3, 10), "short-3-3-0-5": (12, 40), "sym-short-5-11": (112, 736),
    "circ-2-2-0-3": (3, 10), "circ-3-3-0-4": (3, 3), "sym-circ-5-10": (25, 25), "sym-circ-6-12": (31, 148), "sym-circ-7-13": (1, 49),
    "mid-1-1-0-1": (1, 1), "mid-2-3-0-2": (0, 0), "mid-2-3-0-3": (1, 1), "mid-2-3-0-4": (15, 99), "mid-3-5-0-5": (0, 0), "mid-3-5-0-6": (9, 9),
}

# The formula that Rank prints of a file: the cheapest.
RANKED = {
    "poly-2-2-0-0": "0 4 8,1 7 2", "poly-2-3-0-0": "0 1 7 10 19,1 6 1a 8", "poly-3-3-0-0": "0 8 16 24 32 40,1 7 1b 2a 8",
    "short-3-3-0-0": "0 3 8 16 21,1 d 16", "circ-3-3-0-0": "16 32 40 48,b e d", "mid-2-3-0-0": "5 9 15,6 5", "mid-3-5-0-0": "23 40 73 95 160 189,38 36 25",
}

files, checked = [], set()


def add(name, data, refusal=None, known=None):
    stem = "%03d-%s" % (len(files), name)
    assert len(stem) <= 20, stem
    files.append((stem.ljust(20, "-") + ".txt", name, data, refusal, known))


def problem(kind, p, q, r, k):
    return HEAD + b"%s,%d,%d,%d,%d\n" % (kind, p, q, r, k)


def padded(length):
    return problem(b"poly", 2, 2, 0, 3).ljust(length, b"\n")


# Problems that are answered.

def answered():
    for kind, p, q, r, ks in ((b"poly", 1, 1, 0, (0, 1, 2)), (b"poly", 2, 2, 0, (0, 3, 4, 5, 9)), (b"poly", 2, 3, 0, (0, 5, 6)), (b"poly", 3, 2, 0, (5,)),
                              (b"poly", 3, 3, 0, (0, 5, 6)), (b"poly", 4, 1, 0, (0, 4)), (b"poly", 4, 2, 0, (0, 6)), (b"poly", 4, 4, 0, (9,)),
                              (b"poly", 6, 1, 0, (6,)), (b"short", 1, 1, 0, (0, 1)), (b"short", 2, 2, 0, (0, 3)), (b"short", 3, 3, 0, (0, 5)),
                              (b"circ", 1, 1, 0, (1,)), (b"circ", 2, 2, 0, (0, 3)), (b"circ", 3, 3, 0, (0, 4)), (b"mat", 1, 1, 1, (0, 1)),
                              (b"mat", 1, 2, 1, (0, 2)), (b"mat", 2, 1, 1, (0, 2)), (b"mat", 1, 2, 2, (0, 4)), (b"mat", 2, 1, 2, (0, 4))):
        for k in ks:
            add("%s-%d-%d-%d-%d" % (kind.decode(), p, q, r, k), problem(kind, p, q, r, k))
    add("list-two-bits-1", listed(2, 1, [1, 2, 3], [3]))
    add("list-two-bits-2", listed(2, 2, [1, 2, 3], [3]))
    add("list-beyond", listed(2, 0, [1], [2]))
    add("list-rank-0", listed(2, 0, [1], [0]))
    add("list-wide", listed(64, 0, [2 ** 63, 2 ** 64 - 1, 1], [2 ** 63 - 2]))
    add("list-above", listed(8, 0, [1 << i for i in range(8)], [255]))
    add("list-64-targets", listed(3, 3, list(range(1, 8)), [t % 8 for t in range(64)]))
    add("list-order", listed(3, 2, [6, 5, 3, 1], [3, 5]))
    chance = random.Random(6)
    most = list(range(1, 4096))
    add("list-most", listed(12, 1, most, [1], [chance.randint(10000, 65535) for _ in most]))
    for at in range(24):
        p, gs, ts = random_list(chance)
        add("list-random-%d" % at, listed(p, chance.choice((0, 0, 1, 2, 3, 4)), gs, ts, random_costs(chance, len(gs))))


# Lists with costs: the worked ones, of one entry and of two, each with the formula that Rank prints.

def priced():
    for at, (costs, formula) in enumerate((([9, 0, 0], "1 2,3 1"), ([1, 1, 0], "0 2,1 3"), ([65535] * 3, "0 1,1 2"), ([0] * 3, "0 1,1 2"))):
        ranked("price-one-%d" % at, listed(2, 0, [1, 2, 3], [1, 2], costs), formula)
    menu, targets = [4, 8, 9, 10, 5, 6, 7], [1, 2]
    for at, (costs, formula) in enumerate((([1, 0, 0, 0, 0, 0, 0], "1 2 3,3 5"), ([0] * 7, "0 4 5,3 5"), ([1, 0, 0, 1, 0, 0, 0], "4 5 6,6 5"),
                                           ([65535, 65535, 0, 0, 65535, 0, 0], "0 5 6,6 3"))):
        ranked("price-two-%d" % at, listed(4, 0, menu, targets, costs), formula)
        add("price-two-%d-3" % at, listed(4, 3, menu, targets, costs))
    ranked("price-digits", listed(6, 0, [1, 2, 4, 8, 16, 32, 63], [1, 2, 4, 8, 16, 32], [0, 9, 10, 999, 1000, 65535, 65534]), "0 1 2 3 4 6,1 2 4 8 10 3f")
    chance = random.Random(7)
    add("price-most", listed(12, 0, list(range(4095, 0, -1)), [1, 2], [chance.choice((0, 65535)) for _ in range(4095)]))
    for at in range(24):
        p, gs, ts = random_list(chance)
        add("price-random-%d" % at, listed(p, 0, gs, ts, random_costs(chance, len(gs))))
    for at, (p, gs, ts, costs) in enumerate(rivals(chance, 12, 12)):
        add("price-rivals-%d" % at, listed(p, 0, gs, ts, costs))


def ranked(name, data, formula):
    RANKED[name] = formula
    add(name, data)


# Costs that are refused, and those at the limits that are not; then refused costs beside other refusals.

PRICED = b"kind,p,q,r,k\nlist,3,3,1,0\nrole,form,cost\ng,1,5\ng,2,0\ng,4,70\nt,3,0\n"


def changed(old, new, data=PRICED):
    assert data.count(old) == 1, old
    return data.replace(old, new)


def damaged_costs():
    add("cost-good", PRICED)
    for name, digits in (("65535", b"65535"), ("10000", b"10000"), ("9", b"9"), ("99", b"99"), ("0", b"0")):
        add("cost-" + name, changed(b"g,4,70", b"g,4," + digits))
    for name, digits in (("65536", b"65536"), ("99999", b"99999"), ("70000", b"70000"), ("six", b"100000"), ("six-zero", b"000000"), ("00", b"00"),
                         ("007", b"007"), ("zero-5", b"01234"), ("empty", b""), ("minus", b"-1"), ("plus", b"+1"), ("blank", b" 7"), ("blank-end", b"7 "),
                         ("cr", b"7\r"), ("letter", b"7a"), ("hex", b"a"), ("point", b"1.0"), ("tab", b"\t7"), ("two", b"7,0"), ("comma", b"7,"),
                         ("huge", b"18446744073709551616"), ("wraps", b"4294967296"), ("slash", b"/"), ("colon", b":"), ("nul", b"7\0"), ("high", b"\xb7")):
        add("5-cost-" + name, changed(b"g,4,70", b"g,4," + digits), 5)
    for name, names in (("old-names", b"role,form"), ("names-up", b"role,form,Cost"), ("names-4", b"role,form,cost,"), ("names-cr", b"role,form,cost\r"),
                        ("names-mix", b"role,cost,form"), ("names-s", b"role,form,costs")):
        add("5-cost-" + name, changed(b"role,form,cost", names), 5)
    for name, data in (("old-file", b"kind,p,q,r,k\nlist,3,3,1,0\nrole,form\ng,1\ng,2\ng,4\nt,3\n"), ("missing", changed(b"g,4,70", b"g,4")),
                       ("first", changed(b"g,1,5", b"g,1")), ("order", changed(b"g,4,70", b"70,g,4")),
                       ("t-7", changed(b"t,3,0", b"t,3,7")), ("t-00", changed(b"t,3,0", b"t,3,00")), ("t-missing", changed(b"t,3,0", b"t,3")),
                       ("t-empty", changed(b"t,3,0", b"t,3,")), ("t-65536", changed(b"t,3,0", b"t,3,65536")), ("t-1", changed(b"t,3,0", b"t,3,1")),
                       ("no-lf", PRICED[:-1]), ("a-map", problem(b"poly", 2, 2, 0, 0) + b"role,form,cost\n")):
        add("5-cost-" + name, data, 5)


def costs_beside():
    dear = changed(b"g,4,70", b"g,4,65536")
    for name, e, data in (("wide-and-cost", 5, changed(b"g,4", b"g,8", dear)), ("wide-and-t", 5, changed(b"g,4", b"g,8", changed(b"t,3,0", b"t,3,7"))),
                          ("zero-and-cost", 5, changed(b"g,1,5", b"g,0,007")), ("again-and-cost", 5, changed(b"g,2,0", b"g,1,")),
                          ("k-and-cost", 5, changed(b"3,1,0\n", b"3,1,99\n", dear)), ("wide", 6, changed(b"g,4,70", b"g,8,65535")),
                          ("zero-and-k", 7, listed(3, 1, [1, 0, 4], [3], [5, 0, 70])), ("4096", 4, listed(13, 1, list(range(1, 4097)), [1], [65536] * 4096)),
                          ("4096-and-lines", 4, problem(b"list", 13, 4096, 1, 0) + b"role,form\n"), ("p-65", 3, changed(b"list,3,3", b"list,65,3", dear)),
                          ("kind", 2, changed(b"list", b"lost", dear)), ("second", 1, changed(b"3,1,0\n", b"3,1,00\n", dear))):
        add("%d-%s" % (e, name), data, e)
    add("price-refused-8", listed(3, 1, [1, 2, 4], [3], [5, 0, 70]))     # only Rank refuses it


# A list of all bytes that an input may have, and one of a byte more.

def longest():
    forms, costs = [2 ** 63 + at for at in range(2619)], [65535] * 2619 + [10000]
    for form, name, refusal in ((1, "list-longest", None), (16, "1-list-longer", 1)):
        data = listed(64, 0, forms + [form], [1], costs)
        assert len(data) == (65537 if refusal else 65536)
        add(name, data, refusal)


# Files that are refused, by the list's numbers.

def damaged():
    good = listed(3, 2, [1, 2, 4], [3], [7, 0, 65535])
    lines = good.split(b"\n")
    for name, data in (("empty", b""), ("no-lf", HEAD[:-1]), ("names-only", HEAD), ("names-upper", b"Kind,p,q,r,k\npoly,2,2,0,3\n"),
                       ("names-space", b"kind,p,q,r,k \npoly,2,2,0,3\n"), ("names-cr", b"kind,p,q,r,k\r\npoly,2,2,0,3\n"), ("second-no-lf", HEAD + b"poly,2,2,0,3"),
                       ("three-counts", HEAD + b"poly,2,2,0\n"), ("five-counts", HEAD + b"poly,2,2,0,3,0\n"), ("count-zero-2", HEAD + b"poly,02,2,0,3\n"),
                       ("count-letter", HEAD + b"poly,2,x,0,3\n"), ("count-empty", HEAD + b"poly,2,,0,3\n"), ("count-five", HEAD + b"poly,2,2,0,10000\n"),
                       ("count-sign", HEAD + b"poly,2,2,0,+3\n"), ("count-cr", HEAD + b"poly,2,2,0,3\r\n"), ("no-comma", HEAD + b"poly\n"),
                       ("blank-second", HEAD + b"\n"), ("too-long", padded(65537))):
        add("1-" + name, data, 1)
    for name, data in (("unknown", HEAD + b"cube,2,2,0,3\n"), ("upper", HEAD + b"Poly,2,2,0,3\n"), ("none", HEAD + b",2,2,0,3\n"), ("longer", HEAD + b"polys,2,2,0,3\n"),
                       ("odd-bytes", HEAD + b"\xff\x00,2,2,0,3\n"), ("before-3", HEAD + b"cube,0,0,0,0\n")):
        add("2-" + name, data, 2)
    for name, args in (("p-0", (b"poly", 0, 2, 0, 3)), ("q-0", (b"poly", 2, 0, 0, 3)), ("r-1", (b"poly", 2, 2, 1, 3)), ("too-wide", (b"poly", 9, 8, 0, 3)),
                       ("short-uneven", (b"short", 2, 3, 0, 3)), ("circ-uneven", (b"circ", 3, 2, 0, 3)), ("circ-r", (b"circ", 2, 2, 2, 3)), ("mat-r-0", (b"mat", 2, 2, 0, 3)),
                       ("mat-wide", (b"mat", 3, 3, 3, 3)), ("list-p-65", (b"list", 65, 1, 1, 1)), ("list-p-0", (b"list", 0, 1, 1, 1)), ("list-q-0", (b"list", 2, 0, 1, 1)),
                       ("list-r-0", (b"list", 2, 1, 0, 1)), ("list-r-65", (b"list", 2, 1, 65, 1)), ("before-5", (b"list", 2, 9999, 65, 1))):
        add("3-" + name, problem(*args), 3)
    for name, data in (("poly-7-6", problem(b"poly", 7, 6, 0, 12)), ("poly-13-1", problem(b"poly", 13, 1, 0, 13)), ("poly-64-1", problem(b"poly", 64, 1, 0, 64)),
                       ("poly-1-64", problem(b"poly", 1, 64, 0, 64)), ("poly-8-8", problem(b"poly", 8, 8, 0, 22)), ("mat-3-2-4", problem(b"mat", 3, 2, 4, 14)),
                       ("list-4096", listed(13, 1, list(range(1, 4097)), [1])), ("list-9999", listed(1, 1, [1] * 9999, [1])), ("before-5", problem(b"list", 2, 4096, 1, 1))):
        add("4-" + name, data, 4)
    for name, data in (("line-after", problem(b"poly", 2, 2, 0, 3) + b"\n"), ("bytes-after", problem(b"poly", 2, 2, 0, 3) + b"x"), ("list-no-lines", problem(b"list", 2, 1, 1, 1)),
                       ("role-name", good.replace(b"role,form,cost", b"form,role,cost")), ("line-too-few", b"\n".join(lines[:-2]) + b"\n"), ("line-too-many", good + b"t,1,0\n"),
                       ("no-last-lf", good[:-1]), ("target-first", good.replace(b"g,4,65535", b"t,4,0")), ("generator-last", good.replace(b"\nt,3", b"\ng,3")), ("upper-hex", listed(8, 1, [10, 1], [1]).replace(b"g,a", b"g,A")),
                       ("leading-zero", good.replace(b"g,4", b"g,04")), ("form-empty", good.replace(b"g,4", b"g,")), ("form-17", good.replace(b"g,4", b"g,10000000000000000")),
                       ("form-two", good.replace(b"g,4", b"g,4,4")), ("form-cr", good.replace(b"g,4,65535\n", b"g,4,65535\r\n")), ("space", good.replace(b"g,4", b"g, 4")), ("before-6", good.replace(b"g,4", b"g,8") + b"\n"), ("longest", padded(65536))):
        add("5-" + name, data, 5)
    for name, data in (("generator", listed(3, 2, [1, 2, 8], [3])), ("target", listed(3, 2, [1, 2, 4], [8])), ("before-7", listed(3, 2, [1, 1, 2], [9])), ("wide", listed(63, 1, [2 ** 63], [1]))):
        add("6-" + name, data, 6)
    for name, data in (("zero", listed(3, 2, [1, 0, 4], [3])), ("repeat", listed(3, 2, [1, 2, 1], [3])), ("repeat-next", listed(3, 2, [4, 4], [4])), ("before-8", listed(3, 100, [1, 1], [1]))):
        add("7-" + name, data, 7)
    add("8-poly-2-2-10", problem(b"poly", 2, 2, 0, 10), 8)
    add("8-list-9999", listed(2, 9999, [1, 2, 3], [3]), 8)


# Rows of document 000's tables.

def tabled():
    """Maps with the full menu whose entries are known; fields, also for Rank; symmetric products only."""
    for p, q, k in ((5, 5, 13), (6, 4, 13)):
        entries = table_rows.known("poly %d,%d for %d" % (p, q, k), *posed(b"poly", p, q, 0, [], []), k)
        add("poly-%d-%d-0-%d" % (p, q, k), problem(b"poly", p, q, 0, k), known=entries)
    for e, ks in ((2, (0, 3)), (3, (0, 6)), (5, (9,))):
        for k in ks:        # the reference would take too long for 32 elements: document 000 has no space for 9
            add("field-%d-%d" % (2 ** e, k), listed(e * e, k, *table_rows.field(e), menu_costs(e, e)), known=[] if e == 5 else None)
    for kind, n, k in ((b"poly", 6, 17), (b"short", 5, 11), (b"circ", 5, 10), (b"circ", 6, 12), (b"circ", 7, 13)):
        gs, ts = table_rows.symmetric(kind, n)
        name = "symmetric %s %d for %d" % (kind.decode(), n, k)
        entries = table_rows.known(name, gs, ts, k) if name in table_rows.EXTENSIONS else None
        add("sym-%s-%d-%d" % (kind.decode(), n, k), listed(n * n, k, gs, ts), known=entries)


# Middle products: the files that are answered, with their spaces and formulae, and those that are refused.

def middle():
    for p, q, ks in ((1, 1, (0, 1)), (2, 3, (0, 2, 3, 4, 8)), (3, 5, (0, 5, 6))):
        for k in ks:
            add("mid-%d-%d-0-%d" % (p, q, k), problem(b"mid", p, q, 0, k))
    for e, name, line in ((2, "mids", b"mids,2,3,0,3"), (2, "mi", b"mi,2,3,0,3"), (3, "2-4", b"mid,2,4,0,3"), (3, "2-2", b"mid,2,2,0,3"),
                          (3, "r-1", b"mid,2,3,1,3"), (3, "0-0", b"mid,0,0,0,0"), (3, "6-11", b"mid,6,11,0,0"), (3, "5000-9999", b"mid,5000,9999,0,0"), (4, "5-9", b"mid,5,9,0,7"),
                          (5, "line-after", b"mid,2,3,0,3\n"), (8, "k-9", b"mid,2,3,0,9")):
        add("%d-mid-%s" % (e, name), HEAD + line + b"\n", e)


def counted(reply):
    """The numbers of spaces and of formulae in Formulae's reply, which leaves none out."""
    _, head, _, *lines = reply.splitlines()
    found, shown = map(int, head.split(",")[-2:])
    assert found == shown and not any(",more," in line for line in lines)
    return found, len(lines)


def made():
    """Name, bytes and replies of each file."""
    for make in (answered, damaged, tabled, middle, priced, damaged_costs, costs_beside, longest):
        make()
    every = []
    for full, name, data, refusal, known in files:
        replies = [catalogue_program(data, known), rank_program(data), formulae_program(data, known)]
        assert refusal is None or set(replies) == {"refused %d\n" % refusal}, (name, replies)
        assert refusal is not None or not all(reply.startswith("refused") for reply in replies), (name, replies)
        if name in TABLES:
            assert counted(replies[2]) == TABLES[name], (name, counted(replies[2]))
            checked.add(name)
        if name in RANKED:
            assert replies[1].splitlines()[-1] == RANKED[name], (name, replies[1])
            checked.add(name)
        every.append((full, data, "".join(replies)))
    assert checked == set(TABLES) | set(RANKED)
    return every
