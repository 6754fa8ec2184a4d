"""The formula files of crates/file_values, which make_files.py writes, and the replies of Check and of Turn to each.

Each file is made with the verdict it is meant to bring: 'right', a number t
as ('wrong', t), or a refusal's number.  check.py must agree with all of them.
Some are made for Turn, with its refusal or the file that it is to print; and
whatever Turn prints must be right exactly if what it was sent is.
Some have their adders with them, as Wish 2 counts and as document 01 does.
Nothing is random.  A name is three digits, a short name padded with '-', and
`.txt`: 24 bytes.
"""

import sys

sys.dont_write_bytecode = True
import check
import turning

HEAD = b"kind,p,q,r,k\n"

files = []
turns = {}                                      # of a name: what Turn is to print
counts = {}                                     # of a name: its adders, shared and unshared


def add(name, data, want, turn=None, adders=None):
    if adders is not None:
        counts[name] = adders
    if turn is not None:
        turns[name] = "refused %d\n" % turn if isinstance(turn, int) else turn.data().decode()
    number = len(files)
    stem = "%03d-%s" % (number, name)
    assert len(stem) <= 20, stem
    assert name not in [n for n, _, _, _ in files], name
    files.append((name, stem.ljust(20, "-") + ".txt", data, want))


# Formulae: kind, p, q, r, products, rows.

class Formula:
    def __init__(self, kind, p, q, r, products, rows):
        self.kind, self.p, self.q, self.r = kind, p, q, r
        self.products, self.rows = list(products), list(rows)

    def copy(self):
        return Formula(self.kind, self.p, self.q, self.r, self.products, self.rows)

    def flip(self, t, bit):
        other = self.copy()
        other.rows[t] ^= 1 << bit
        return other

    def product(self, at, a, b):
        other = self.copy()
        other.products[at] = (a, b)
        return other

    def with_rows(self, rows):
        other = self.copy()
        other.rows = list(rows)
        return other

    def more(self, products):
        other = self.copy()
        other.products += products
        return other

    def lines(self):
        """The lines without LF, for damage to one of them."""
        return (["kind,p,q,r,k", "%s,%d,%d,%d,%d" % (self.kind, self.p, self.q, self.r,
                                                     len(self.products)), "a,b"]
                + ["%x,%x" % pair for pair in self.products]
                + ["row"] + ["%x" % row for row in self.rows])

    def data(self):
        return text(self.lines())


def text(lines):
    return "".join(line + "\n" for line in lines).encode("latin-1")


def terms(kind, p, q, r):
    """n, m and for each output the list of its (i, j)."""
    if kind == "mat":
        return p * q, q * r, [[(x * q + y, y * r + z) for y in range(q)]
                              for x in range(p) for z in range(r)]
    outputs = {"poly": p + q - 1, "short": p, "circ": p, "mid": p}[kind]
    lists = [[] for _ in range(outputs)]
    for i in range(p):
        for j in range(q):
            t = (i + j) % p if kind == "circ" else i + j - (p - 1) if kind == "mid" else i + j
            if 0 <= t < outputs:
                lists[t].append((i, j))
    return p, q, lists


def schoolbook(kind, p, q, r=0):
    """One product per pair that occurs in some output."""
    n, m, lists = terms(kind, p, q, r)
    used = sorted({pair for pairs in lists for pair in pairs})
    at = {pair: number for number, pair in enumerate(used)}
    return Formula(kind, p, q, r, [(1 << i, 1 << j) for i, j in used],
                   [sum(1 << at[pair] for pair in pairs) for pairs in lists])


def solved(kind, p, q, r, products):
    """Rows for given products, by elimination on the words of n * m bits."""
    n, m, lists = terms(kind, p, q, r)

    def spread(a, b):
        return sum(1 << (i * m + j) for i in range(n) for j in range(m)
                   if a >> i & 1 and b >> j & 1)

    basis = {}                                  # leading bit: word, products
    def reduce(word, mask):
        while word and word.bit_length() in basis:
            other, used = basis[word.bit_length()]
            word, mask = word ^ other, mask ^ used
        return word, mask

    for number, (a, b) in enumerate(products):
        word, mask = reduce(spread(a, b), 1 << number)
        if word:
            basis[word.bit_length()] = (word, mask)
    rows = []
    for pairs in lists:
        word, mask = reduce(sum(1 << (i * m + j) for i, j in pairs), 0)
        assert word == 0, "the products do not span the outputs"
        rows.append(mask)
    return Formula(kind, p, q, r, products, rows)


def karatsuba(kind, size):
    """Products of Karatsuba's method for a power of two."""
    masks = [1]
    width = 1
    while width < size:
        masks = masks + [f << width for f in masks] + [f | f << width for f in masks]
        width *= 2
    return solved(kind, size, size, 0, [(f, f) for f in masks])


def residues(n, modulus):
    """For each coefficient of the residue, the mask of the a's that reach it."""
    degree = modulus.bit_length() - 1
    columns, power = [0] * degree, 1
    for i in range(n):
        for d in range(degree):
            columns[d] |= (power >> d & 1) << i
        power <<= 1
        if power >> degree & 1:
            power ^= modulus
    return columns


def toom(p, q, moduli):
    """Products by residues modulo polynomials of degree 1 and 2, and the top."""
    products = [(1 << (p - 1), 1 << (q - 1))]
    for modulus in moduli:
        f, g = residues(p, modulus), residues(q, modulus)
        products += list(zip(f, g))
        if len(f) == 2:
            products.append((f[0] ^ f[1], g[0] ^ g[1]))
    return solved("poly", p, q, 0, products)


def kara():
    return Formula("poly", 2, 2, 0, [(1, 1), (2, 2), (3, 3)], [1, 7, 2])


# Rows of both factors and of the output row by row.
STRASSEN = Formula("mat", 2, 2, 2,
                   [(0x9, 0x9), (0xc, 0x1), (0x1, 0xa), (0x8, 0x5),
                    (0x3, 0x8), (0x5, 0x3), (0xa, 0xc)],
                   [0x59, 0x14, 0x0a, 0x27])


def swap12(mask):
    """A 2 by 2 matrix by columns instead of rows."""
    return mask & 9 | (mask & 2) << 1 | (mask & 4) >> 1


# Right ones.

def right():
    def yes(name, formula):
        add(name, formula.data(), "right")

    yes("karatsuba", kara())
    for p, q in [(1, 1), (2, 2), (2, 3), (5, 5), (8, 8), (64, 1), (1, 64), (16, 4)]:
        yes("poly-%d-%d" % (p, q), schoolbook("poly", p, q))
    for n in (1, 3, 8):
        yes("short-%d" % n, schoolbook("short", n, n))
    for n in (1, 3, 8):
        yes("circ-%d" % n, schoolbook("circ", n, n))
    for p, q, r in [(1, 1, 1), (2, 2, 2), (4, 1, 4), (1, 8, 1), (2, 4, 1), (1, 4, 2),
                    (8, 1, 8), (64, 1, 1), (3, 2, 5)]:
        yes("mat-%d-%d-%d" % (p, q, r), schoolbook("mat", p, q, r))

    yes("karatsuba-4", karatsuba("poly", 4))
    yes("karatsuba-8", karatsuba("poly", 8))
    yes("karatsuba-sh-4", karatsuba("short", 4))
    yes("three-pairs", Formula("poly", 3, 3, 0,
                               [(1, 1), (2, 2), (4, 4), (3, 3), (5, 5), (6, 6)],
                               [0x01, 0x0b, 0x17, 0x26, 0x04]))
    yes("toom-3-3", toom(3, 3, [0b10, 0b11, 0b111]))
    yes("toom-4-2", toom(4, 2, [0b10, 0b11, 0b111]))
    yes("circ-3-by-4", solved("circ", 3, 3, 0, [(7, 7), (5, 5), (6, 6), (3, 3)]))
    yes("short-2-by-3", Formula("short", 2, 2, 0, [(1, 1), (3, 3), (2, 2)], [1, 7]))
    yes("strassen", STRASSEN)
    # Prefix sums: wide masks on one side.
    for name, turned in (("prefix-64-1", 0), ("prefix-1-64", 1)):
        products = [((2 << i) - 1, 1)[::-1 if turned else 1] for i in range(64)]
        rows = [1 << t | (1 << t >> 1 if t else 0) for t in range(64)]
        yes(name, Formula("poly", *((1, 64) if turned else (64, 1)), 0, products, rows))
    # Repeated and useless products.
    yes("repeat-cancels", Formula("poly", 2, 2, 0, [(1, 1), (2, 2), (3, 3), (2, 1), (2, 1)],
                                  [0x19, 0x1f, 0x1a]))
    yes("repeat-instead", Formula("poly", 2, 2, 0, [(1, 1), (2, 2), (3, 3), (1, 1), (2, 2)],
                                  [0x8, 0x15, 0x10]))
    yes("useless-first", Formula("poly", 2, 2, 0, [(3, 1), (1, 1), (2, 2), (3, 3)],
                                 [2, 0xe, 4]))
    yes("sum-is-zero", Formula("poly", 2, 2, 0, [(1, 1), (2, 2), (3, 3), (1, 2), (2, 2), (3, 2)],
                               [0x39, 0x07, 0x3a]))
    yes("useless-to-64", schoolbook("mat", 2, 2, 2).more([(0xf, 0xf)] * 56))
    yes("repeat-64", Formula("poly", 1, 1, 0, [(1, 1)] * 64, [(1 << 63) - 1]))
    yes("last-of-64", Formula("short", 1, 1, 0, [(1, 1)] * 64, [1 << 63]))


# Wrong ones.

def wrong():
    def no(name, formula, t):
        add(name, formula.data(), ("wrong", t))

    no("kara-paper", kara().with_rows([1, 3, 2]), 1)
    for t in range(3):
        no("kara-row-%d" % t, kara().flip(t, t), t)
    nine = karatsuba("poly", 4)
    for t in range(7):
        no("kara4-row-%d" % t, nine.flip(t, (4 * t + 3) % 9), t)
    for t in range(4):
        no("strassen-row-%d" % t, STRASSEN.flip(t, (5 * t + 6) % 7), t)
    for t in range(3):
        no("circ-3-row-%d" % t, schoolbook("circ", 3, 3).flip(t, 8 - 3 * t), t)
    for t in range(3):
        no("short-3-row-%d" % t, schoolbook("short", 3, 3).flip(t, t), t)
    for t in (7, 14):
        no("poly-8-8-row-%d" % t, schoolbook("poly", 8, 8).flip(t, 63 - t), t)
    for t in (31, 63):
        no("mat-8-1-8-row-%d" % t, schoolbook("mat", 8, 1, 8).flip(t, 63 - t), t)
    no("poly-64-1-row-63", schoolbook("poly", 64, 1).flip(63, 63), 63)
    no("poly-1-64-row-63", schoolbook("poly", 1, 64).flip(63, 63), 63)
    # Only the last bits of both sides show it.
    no("poly-8-8-corner", schoolbook("poly", 8, 8).flip(0, 63), 0)

    # A factor changed; the first output that uses the product differs.
    no("kara-factor-0", kara().product(0, 3, 1), 0)
    no("strassen-factor", STRASSEN.product(5, 0x5, 0x1), 3)
    no("poly-8-8-factor", schoolbook("poly", 8, 8).product(63, 0x80, 0xc0), 14)
    no("mat-4-2-4-factor", schoolbook("mat", 4, 2, 4).product(31, 0x80, 0x40), 15)
    no("prefix-factor", Formula("poly", 64, 1, 0,
                                [((2 << i) - 1 - (i == 63), 1) for i in range(64)],
                                [1 << t | (1 << t >> 1 if t else 0) for t in range(64)]), 63)

    # Several outputs differ, the first is reported.
    no("several-1-2", kara().with_rows([1, 3, 3]), 1)
    no("several-3-5-6", nine.flip(6, 0).flip(3, 1).flip(5, 2), 3)
    no("all-rows-zero", kara().with_rows([0, 0, 0]), 0)
    no("last-row-zero", kara().with_rows([1, 7, 0]), 2)
    no("rows-backward", kara().with_rows([2, 7, 1]), 0)
    # Seen first at a_0 b_0 is output 1; output 0 differs only at a_1 b_1.
    no("first-not-seen", Formula("poly", 2, 2, 0, [(1, 1), (2, 2), (3, 3)], [3, 6, 2]), 0)
    no("short-as-circ", Formula("circ", 3, 3, 0, schoolbook("short", 3, 3).products,
                                schoolbook("short", 3, 3).rows), 0)
    no("circ-as-short", Formula("short", 3, 3, 0, schoolbook("circ", 3, 3).products,
                                schoolbook("circ", 3, 3).rows), 0)
    no("strassen-columns", Formula("mat", 2, 2, 2,
                                   [(f, swap12(g)) for f, g in STRASSEN.products],
                                   STRASSEN.rows), 0)
    no("strassen-turned", STRASSEN.with_rows([0x59, 0x0a, 0x14, 0x27]), 1)
    no("mat-2-1-3-turned", schoolbook("mat", 2, 1, 3).with_rows(
        [schoolbook("mat", 2, 1, 3).rows[t] for t in (0, 2, 4, 1, 3, 5)]), 1)
    no("poly-2-3-order", schoolbook("poly", 2, 3).with_rows([0x01, 0x06, 0x18, 0x20]), 1)

    def blind(name, formula, t):
        """Wrong, though right on every single bit against all ones."""
        n, m, _ = terms(formula.kind, formula.p, formula.q, formula.r)
        problem = (formula.kind.encode(), formula.p, formula.q, formula.r,
                   formula.products, formula.rows)
        assert check.first_wrong(*problem, check.units(n), [[1] * m]) is None
        assert check.first_wrong(*problem, [[1] * n], check.units(m)) is None
        no(name, formula, t)

    blind("ones-poly-2-2", schoolbook("poly", 2, 2).more([(3, 3)]).flip(1, 4), 1)
    blind("ones-kara-0", kara().with_rows([5, 7, 2]), 0)
    blind("ones-poly-4-4", nine.more([(0xa, 0x5)]).flip(6, 9), 6)
    blind("ones-circ-5", schoolbook("circ", 5, 5).more([(0x1e, 0x11)]).flip(4, 25), 4)
    blind("ones-strassen", STRASSEN.flip(1, 0), 1)
    blind("ones-mat-4-2-4", schoolbook("mat", 4, 2, 4).more([(0x81, 0x18)]).flip(9, 32), 9)
    blind("ones-poly-8-8", karatsuba("poly", 8).more([(0xc0, 0xc0)]).flip(14, 27), 14)
    # Right wherever a = b.
    no("square-circ-3", schoolbook("circ", 3, 3).with_rows([0x001, 0x100, 0x010]), 0)
    no("square-poly-2", Formula("poly", 2, 2, 0, [(1, 1), (2, 2)], [1, 0, 2]), 1)

    # Nothing to add, and much.
    for kind, p, q, r in (("poly", 1, 1, 0), ("mat", 1, 2, 3)):
        n, m, lists = terms(kind, p, q, r)
        no("none-%s-%d" % (kind, len(lists)), Formula(kind, p, q, r, [], [0] * len(lists)), 0)
    full = (1 << 64) - 1
    no("adders-64-equal", Formula("poly", 64, 1, 0, [(full, 1)] * 64, [full] * 64), 0)
    no("adders-rows-zero", Formula("poly", 8, 8, 0, [(0xff, 0xff)] * 3, [0] * 15), 0)


# Damaged ones.

GOOD = kara().lines()
BODY = text(GOOD[2:])


def edit(at, line):
    """The lines of the good file with one exchanged."""
    return text(GOOD[:at] + [line] + GOOD[at + 1:])


def second(line, body=BODY):
    return HEAD + line.encode("latin-1") + b"\n" + body


def padded(size):
    """k = 9,999 in exactly so many bytes, with products of 4 to 7 bytes."""
    kinds = ["1,1", "1,10", "1,100", "1,1000"]
    lines = ["kind,p,q,r,k", "poly,4,16,0,9999", "a,b"] + ["1,1"] * 9999 + ["row"] + ["1"] * 19
    missing = size - len(text(lines))
    assert 0 <= missing <= 3 * 9999
    for at in range(9999):
        longer = min(3, missing)
        lines[3 + at] = kinds[longer]
        missing -= longer
    assert len(text(lines)) == size
    return text(lines)


def refused_1():
    def one(name, data):
        add(name, data, 1)

    one("1-empty", b"")
    one("1-first-only", HEAD)
    one("1-first-no-lf", HEAD[:-1])
    one("1-second-no-lf", HEAD + b"poly,2,2,0,3")
    one("1-second-empty", second(""))
    one("1-names-upper", edit(0, "Kind,p,q,r,k"))
    one("1-names-long", edit(0, "kind,p,q,r,k,ell"))
    one("1-all-cr-lf", kara().data().replace(b"\n", b"\r\n"))
    one("1-byte-mark", b"\xef\xbb\xbf" + kara().data())
    one("1-no-comma", second("poly"))
    one("1-three-counts", second("poly,2,2,3"))
    one("1-five-counts", second("poly,2,2,0,3,0"))
    one("1-comma-end", second("poly,2,2,0,3,"))
    one("1-count-empty", second("poly,2,,0,3"))
    one("1-p-zero-before", second("poly,02,2,0,3"))
    one("1-r-two-zeros", second("poly,2,2,00,3"))
    one("1-k-five-digits", second("poly,2,2,0,10000"))
    one("1-minus", second("poly,-2,2,0,3"))
    one("1-space", second("poly, 2,2,0,3"))
    one("1-hex-count", second("poly,2,2,0,a"))
    one("1-count-cr", second("poly,2,2,0,3\r"))
    one("1-65537-bytes", padded(65537))
    # Before 2 and 3.
    one("1-not-2", second("pony,2,2,0,03"))
    one("1-not-3", second("poly,0,2,0,10000"))


def refused_2():
    def two(name, data):
        add(name, data, 2)

    two("2-empty", second(",2,2,0,3"))
    two("2-upper", second("Poly,2,2,0,3"))
    two("2-longer", second("polys,2,2,0,3"))
    two("2-nul", second("poly\0,2,2,0,3"))
    two("2-long-kind", second("poly" * 75 + ",2,2,0,3"))
    two("2-list", second("list,2,3,1,1", b"role,form,cost\ng,1,0\ng,2,0\ng,3,0\nt,3,0\n"))
    # Before 3, 5 and 8.
    two("2-not-3", second("pony,0,9999,7,3"))
    two("2-not-5", second("pony,2,2,0,3", b""))
    two("2-not-8", second("list,2,2,3,9999"))


def refused_3():
    def three(name, line, body=BODY):
        add(name, second(line, body), 3)

    three("3-poly-p-0", "poly,0,2,0,3")
    three("3-poly-q-0", "poly,2,0,0,3")
    three("3-poly-r-1", "poly,2,2,1,3")
    three("3-poly-9-8", "poly,9,8,0,3")
    three("3-poly-65-1", "poly,65,1,0,3")
    three("3-poly-256-256", "poly,256,256,0,3")
    three("3-short-2-3", "short,2,3,0,3")
    three("3-circ-3-2", "circ,3,2,0,3")
    three("3-circ-r-1", "circ,2,2,1,3")
    three("3-short-r-1", "short,2,2,1,3")
    three("3-mat-p-0", "mat,0,2,2,3")
    three("3-mat-q-0", "mat,2,0,2,3")
    three("3-mat-r-0", "mat,2,2,0,3")
    three("3-mat-3-3-3", "mat,3,3,3,3")
    three("3-mat-32-bits", "mat,4096,16,4096,3")
    three("3-mat-9999", "mat,9999,9999,9999,3")
    # Before 5, 6, 7 and 8.
    three("3-not-5", "poly,0,0,0,0", b"")
    three("3-not-6-7", "short,2,1,0,3", b"a,b\n0,8\n1,1\n1,1\nrow\nff\n0\n")
    three("3-not-8", "poly,9,8,0,9999")


def refused_5():
    def five(name, data):
        add(name, data, 5)

    five("5-no-body", text(GOOD[:2]))
    five("5-ab-turned", edit(2, "b,a"))
    five("5-products-few", text(GOOD[:5] + GOOD[6:]))
    five("5-products-many", text(GOOD[:5] + GOOD[4:]))
    five("5-one-field", edit(4, "2"))
    five("5-three-fields", edit(4, "2,2,2"))
    five("5-a-zero-before", edit(4, "02,2"))
    five("5-b-two-zeros", edit(4, "2,00"))
    five("5-17-digits", edit(4, "2,10000000000000002"))
    five("5-letter-g", edit(4, "2,g"))
    five("5-product-cr", edit(4, "2,2\r"))
    hexed = schoolbook("poly", 5, 1).more([(0x1a, 1)]).lines()
    five("5-upper-a", text([line.replace("1a,", "1A,") for line in hexed]))
    five("5-upper-row", text(hexed[:-1] + ["1F"]))
    five("5-row-missing", text(GOOD[:6] + GOOD[7:]))
    five("5-row-named-rows", edit(6, "rows"))
    five("5-row-early", text(GOOD[:5] + [GOOD[6], GOOD[5]] + GOOD[7:]))
    five("5-rows-few", text(GOOD[:-1]))
    five("5-rows-many", text(GOOD + ["0"]))
    five("5-row-empty", edit(8, ""))
    five("5-row-07", edit(8, "07"))
    five("5-row-17-digits", edit(8, "10000000000000007"))
    five("5-row-cr", edit(9, "2\r"))
    five("5-no-last-lf", kara().data()[:-1])
    five("5-blank-end", kara().data() + b"\n")
    five("5-rest-no-lf", kara().data() + b"2")
    five("5-k-0-no-ab", text(["kind,p,q,r,k", "poly,1,1,0,0", "row", "0"]))
    five("5-k-0-product", text(["kind,p,q,r,k", "poly,1,1,0,0", "a,b", "1,1", "row", "1"]))
    five("5-short-rows-3", second("short,2,2,0,3"))
    five("5-k-9999-short", text(GOOD[:1] + ["poly,2,2,0,9999"] + GOOD[2:]))
    # Before 6, 7 and 8, which stand earlier in the file.
    five("5-not-6", text(GOOD[:3] + ["4,1"] + GOOD[4:-1] + ["02"]))
    five("5-not-7", text(GOOD[:3] + ["0,1"] + GOOD[4:-1]))
    many = Formula("poly", 2, 2, 0, [(1, 1)] * 65, [1, 7, 2]).lines()
    five("5-not-8", text(many[:-1] + ["2,2"]))


def refused_6():
    def six(name, data):
        add(name, data, 6)

    six("6-a", edit(3, "4,1"))
    six("6-b", edit(5, "3,7"))
    six("6-16-digits", edit(4, "8000000000000002,2"))
    six("6-row", edit(7, "8"))
    six("6-row-k-0", Formula("poly", 1, 1, 0, [], [1]).data())
    six("6-row-k-63", Formula("poly", 1, 1, 0, [(1, 1)] * 63, [1 << 63]).data())
    six("6-b-64-1", schoolbook("poly", 64, 1).product(63, 1 << 63, 2).data())
    six("6-a-1-64", schoolbook("poly", 1, 64).product(0, 2, 1).data())
    # Before 7 and 8, which stand earlier in the file.
    six("6-not-7", kara().product(0, 0, 1).with_rows([1, 7, 8]).data())
    six("6-not-7-same", kara().product(1, 0, 4).data())
    six("6-not-8", Formula("poly", 2, 2, 0, [(1, 1)] * 64 + [(1, 4)], [1, 7, 2]).data())
    six("6-not-7-8", Formula("poly", 2, 2, 0, [(0, 1)] * 99 + [(4, 1)], [1, 7, 2]).data())


def refused_7():
    def seven(name, data):
        add(name, data, 7)

    seven("7-a", kara().product(0, 0, 1).data())
    seven("7-b", kara().product(1, 2, 0).data())
    seven("7-unused", kara().more([(0, 3)]).data())
    seven("7-last-of-64", schoolbook("poly", 64, 1).product(63, 1 << 63, 0).data())
    # Before 8.
    seven("7-not-8", Formula("poly", 2, 2, 0, [(1, 1)] * 64 + [(3, 0)], [1, 7, 2]).data())
    seven("7-not-8-9999", Formula("poly", 2, 2, 0, [(1, 1)] * 9998 + [(0, 1)], [1, 7, 2]).data())


def refused_8():
    def eight(name, data):
        add(name, data, 8)

    eight("8-k-65", kara().more([(1, 1)] * 62).data())
    eight("8-k-65-row-full", Formula("poly", 1, 1, 0, [(1, 1)] * 65, [(1 << 64) - 1]).data())
    eight("8-k-256", Formula("circ", 1, 1, 0, [(1, 1)] * 256, [1]).data())
    eight("8-k-9999", Formula("poly", 1, 1, 0, [(1, 1)] * 9999, [1]).data())
    eight("8-65536-bytes", padded(65536))


# Middle products, of every verdict and with the refusals that look at the kind.

def middle():
    for n in range(1, 6):
        add("mid-%d-%d" % (n, 2 * n - 1), schoolbook("mid", n, 2 * n - 1).data(), "right")
    three = Formula("mid", 2, 3, 0, [(2, 3), (1, 6), (3, 2)], [5, 6])
    six = solved("mid", 3, 5, 0, [(4, 0x07), (2, 0x0e), (1, 0x1c), (6, 0x02), (5, 0x04), (3, 0x08)])
    add("mid-2-3-by-3", three.data(), "right")
    add("mid-3-5-by-6", six.data(), "right")

    def no(name, formula, t):
        add(name, formula.data(), ("wrong", t))

    for t in range(2):
        no("mid-2-3-row-%d" % t, three.flip(t, t), t)
    for t in range(3):
        no("mid-3-5-row-%d" % t, six.flip(t, 5 - t), t)
    no("mid-2-3-factor", three.product(0, 2, 7), 0)
    no("mid-5-9-row-4", schoolbook("mid", 5, 9).flip(4, 0), 4)
    no("mid-5-9-corner", schoolbook("mid", 5, 9).more([(0x10, 0x100)]).flip(2, 25), 2)
    no("mid-none", Formula("mid", 3, 5, 0, [], [0] * 3), 0)
    # The output one further, the lowest outputs of the full product, and the outputs backward.
    units = [(1 << i, 1 << j) for i in range(2) for j in range(3)]
    no("mid-one-further", Formula("mid", 2, 3, 0, units, [0x14, 0x20]), 0)
    no("mid-lowest", Formula("mid", 2, 3, 0, units, [0x01, 0x0a]), 0)
    no("mid-backward", Formula("mid", 2, 3, 0, units, [0x14, 0x0a]), 0)
    no("mid-one-more", Formula("mid", 2, 3, 0, units, [0x0a, 0x34]), 1)

    body = text(three.lines()[2:])
    for name, line, e in (("2-mids", "mids,2,3,0,3", 2), ("2-mi", "mi,2,3,0,3", 2), ("2-mid-upper", "Mid,2,3,0,3", 2),
                          ("3-mid-2-4", "mid,2,4,0,3", 3), ("3-mid-2-2", "mid,2,2,0,3", 3), ("3-mid-3-2", "mid,3,2,0,3", 3), ("3-mid-r-1", "mid,2,3,1,3", 3),
                          ("3-mid-0-0", "mid,0,0,0,3", 3), ("3-mid-1-0", "mid,1,0,0,3", 3), ("3-mid-0-1", "mid,0,1,0,3", 3), ("3-mid-6-11", "mid,6,11,0,3", 3),
                          ("3-mid-5000-9999", "mid,5000,9999,0,3", 3)):
        add(name, second(line, body), e)
    add("5-mid-rows-3", second("mid,2,3,0,3", body + b"1\n"), 5)
    add("5-mid-rows-1", second("mid,2,3,0,3", body[:-2]), 5)
    add("6-mid-a", three.product(2, 4, 2).data(), 6)
    add("6-mid-b", three.product(2, 3, 8).data(), 6)
    add("7-mid", three.product(1, 0, 6).data(), 7)
    add("8-mid-k-65", three.more([(1, 1)] * 62).data(), 8)


# Full products to be turned into middle products, and what is refused there.

def turned():
    def full(rows, products=((1, 1), (2, 2), (3, 3))):
        return Formula("poly", 2, 2, 0, products, rows)

    def new(products, rows):
        return Formula("mid", 2, 3, 0, products, rows)

    add("turn-right", full([1, 7, 2], [(1, 1), (3, 3), (2, 2)]).with_rows([1, 7, 4]).data(), "right", new([(2, 3), (3, 2), (1, 6)], [3, 6]))
    add("turn-wrong", full([1, 7, 3]).data(), ("wrong", 2), new([(2, 7), (1, 6), (3, 2)], [5, 6]))
    add("turn-repeated", full([1, 0xf, 2], [(1, 1), (2, 2), (3, 3), (3, 3)]).data(), ("wrong", 1),
        new([(2, 3), (1, 6), (3, 2), (3, 2)], [0xd, 0xe]))
    add("turn-zero-row", full([7, 0, 7]).data(), ("wrong", 0), new([(2, 5), (1, 5), (3, 5)], [5, 6]))
    add("turn-1-1", Formula("poly", 1, 1, 0, [(1, 1)], [1]).data(), "right", Formula("mid", 1, 1, 0, [(1, 1)], [1]))
    add("turn-k-0", Formula("poly", 1, 1, 0, [], [0]).data(), ("wrong", 0), Formula("mid", 1, 1, 0, [], [0]))
    for n in (3, 4, 5):
        add("turn-%d-%d" % (n, n), schoolbook("poly", n, n).data(), "right",
            Formula("mid", n, 2 * n - 1, 0, [(1 << n - 1 - i, 1 << i + j) for i in range(n) for j in range(n)],
                    [sum(1 << i * n + t for i in range(n)) for t in range(n)]))
    add("12-row-3", full([1, 3, 2]).data(), ("wrong", 1), 12)
    add("12-none-used", full([0, 0, 0]).data(), ("wrong", 0), 12)
    add("12-last-unused", schoolbook("poly", 5, 5).more([(31, 31)]).data(), "right", 12)
    add("12-not-8", full([1, 7, 2]).more([(1, 1)] * 62).data(), 8, 8)
    add("12-not-7", full([1, 7, 2]).more([(1, 0)]).data(), 7, 7)
    add("12-not-6", full([1, 3, 8]).data(), 6, 6)
    add("12-not-5", full([1, 3]).data(), 5, 5)
    # 2 and 3 stand before what the lines say
    add("2-turn-circ", schoolbook("circ", 2, 2).data(), "right", 2)
    add("2-turn-mid", schoolbook("mid", 2, 3).data(), "right", 2)
    add("2-turn-circ-2-3", second("circ,2,3,0,3"), 3, 2)
    add("2-turn-not-5", second("short,2,2,0,3", b"a,b\n"), 5, 2)
    add("3-turn-2-3", schoolbook("poly", 2, 3).data(), "right", 3)
    add("3-turn-not-5", second("poly,2,3,0,3", b"a,b\n"), 5, 3)
    add("3-turn-not-12", schoolbook("poly", 3, 2).more([(1, 1)]).data(), "right", 3)
    add("3-turn-6-6", schoolbook("poly", 6, 6).data(), "right", 3)


# Sums that are wired once: equal masks of a side, equal masks of both, equal rows, and many masks.

def shared():
    def two(name, products, rows, want, adders):
        add("share-" + name, Formula("poly", 2, 2, 0, products, rows).data(), want, adders=adders)

    two("a", [(3, 1), (3, 2)], [1, 2, 0], ("wrong", 0), (1, 2))
    two("b", [(1, 3), (2, 3)], [1, 2, 0], ("wrong", 0), (1, 2))
    two("both", [(3, 3), (3, 3)], [3, 0, 0], ("wrong", 0), (3, 5))
    two("rows", [(1, 1), (2, 2)], [3, 3, 3], ("wrong", 0), (3, 3))
    two("four", [(1, 3), (3, 1), (3, 3), (3, 2)], [0, 0xf, 3], ("wrong", 0), (6, 9))
    two("three", [(3, 1), (3, 2), (3, 3)], [1, 4, 2], ("wrong", 0), (2, 4))
    two("right", [(1, 1), (3, 1), (3, 2), (2, 2)], [1, 0xf, 8], "right", (4, 5))
    two("across", [(3, 3)], [1, 1, 1], ("wrong", 0), (2, 2))
    two("units", [(1, 1), (1, 2), (2, 1), (2, 2)], [1, 6, 8], "right", (1, 1))
    two("karatsuba", [(1, 1), (2, 2), (3, 3)], [1, 7, 2], "right", (4, 4))
    add("share-strassen", STRASSEN.data(), "right", adders=(18, 18))
    add("share-mid", Formula("mid", 2, 3, 0, [(2, 3), (1, 6), (3, 2), (3, 6)], [5, 0xe]).data(), ("wrong", 1), adders=(6, 8))

    def side(name, masks, adders):
        """Masks of one side, of 16 bits, with rows 0."""
        add("share-" + name, Formula("poly", 16, 1, 0, [(x, 1) for x in masks], [0] * 16).data(), ("wrong", 0), adders=adders)

    # Of equal masks one is left, wherever they stand.
    side("apart", [7, 3, 5, 3, 1, 7], (4, 7))
    side("neighbours", [7, 7, 3, 3, 3, 5], (4, 8))
    side("last-again", [3, 7, 0xf, 3], (6, 7))
    # Masks that leave the same remainder, and the last remainders, each twice.
    for name, masks in (("one-slot", [3 + 269 * j for j in range(32)]), ("last-slots", [269 * j - 1 - j % 2 for j in range(1, 33)])):
        heavy = [x for x in masks if bin(x).count("1") > 1]
        side(name, masks + masks[::-1], (check.sums(heavy), 2 * check.sums(heavy)))
    # 64 masks of 64 bits, no two equal: the most adders that there can be.
    full = (1 << 64) - 1
    most = [full] + [full ^ 1 << j for j in range(63)]
    add("share-8001", Formula("poly", 64, 1, 0, [(x, 1) for x in most], [full] * 64).data(), ("wrong", 0), adders=(8001, 8001))


def counted(name, data, reply):
    """The column `adders` by itself: what was asked for, and what document 01 makes of the same formula."""
    if reply.startswith("refused"):
        return True
    *_, products, rows = check.read(data)
    plain = check.unshared(products, rows)
    column = int(reply.split(",")[-1])
    return column <= plain and counts.get(name, (column, plain)) == (column, plain)


def wanted(want, reply):
    lines = reply.splitlines()
    if want == "right":
        return len(lines) == 2 and ",right,-," in lines[1]
    if isinstance(want, tuple):
        return len(lines) == 2 and ",wrong,%d," % want[1] in lines[1]
    return reply == "refused %d\n" % want


def made():
    """Name, bytes and reply of each file."""
    for part in (right, wrong, refused_1, refused_2, refused_3, refused_5,
                 refused_6, refused_7, refused_8, middle, turned, shared):
        part()
    checked = [check.check(data) for _, _, data, _ in files]
    turn = [turning.turn(data) for _, _, data, _ in files]
    for (short, name, data, want), reply, new in zip(files, checked, turn):
        assert len(name) == 24 and wanted(want, reply), (name, want, reply)
        assert counted(short, data, reply), (name, reply)
        assert new == turns.get(short, new), (name, new)
        assert new.startswith("refused") or (want == "right") == wanted("right", check.check(new.encode())), (name, new)
    return [(name, data, reply + new) for (_, name, data, _), reply, new in zip(files, checked, turn)]
