#!/usr/bin/env python3
"""Writes the calls of a program that runs the library's functions on numbers, and the replies expected of it.

    make_calls.py crates/call_values

writes stdin, the calls, and stdout, the replies, in that directory.  A call is
one line of decimal numbers:

    call number p q r x w c u v  g_0 .. g_(c-1)  t_0 .. t_(u-1)  o_0 .. o_(v-1)

with the kind by its number, and a buffer of w words.  The reply is one line as
well; the buffer after the call stands behind ` :`.

Call 0 is Catalogue and call 1 Rank, with x for k, and in a Rank the costs o;
w is at most 64, and word i holds 1000000 + i before the call.  In a Catalogue
the look-ups of the entries 0 to SHOWN follow, each behind ` :`:

    entries ELL FOUND SHOWN :.. :..    rank R :..    above :..    beyond :..    refused E :..

Call 2 is the look-up alone, of an entry in such a buffer, and replies its words:

    2 ell k shown number 0 w 0 0 0     :..

Call 3 asks for the formulae of the space with the rows o; w is at most 4096,
and each word holds 1000000 before the call.  Where the buffer has more than 64
words, its digest stands for it:

    all N :..    more N :..    refused E :..    all N DIGEST

Call 4 asks of which of the selection o the form x is the sum, in such a
buffer, and call 5 whether the product with the number x is redundant in o:

    yes N :..    no :..    refused E :..
    yes    no    refused E

Call 6 turns the formula with k = x products, the masks g and t and the rows o.
It is lent three buffers, of w modulo 100, w / 100 modulo 100 and w / 10000
words, at most 64 each; each word holds 1000000 before the call:

    formula NUMBER P Q R K :.. :.. :..    refused E :.. :.. :..
"""

import os
import sys

sys.dont_write_bytecode = True
import make_problems
import make_spaces
import make_turnings


def main(crate):
    parts = [maker.made() for maker in (make_problems, make_spaces, make_turnings)]
    calls, replies = (sum((part[i] for part in parts), []) for i in range(2))
    assert len("".join(calls)) <= 393216 and sum(len(call.split()) for call in calls) <= 131072
    for name, lines in (("stdin", calls), ("stdout", replies)):
        with open(os.path.join(crate, name), "w") as out:
            out.writelines(lines)


if __name__ == "__main__":
    main(sys.argv[1])
