#!/usr/bin/env python3
"""Compares the replies that are expected of Check today with those of an earlier revision, for every formula file that both have.

    earlier.py REVISION

Document 02, Wish 2: "comparisons with the earlier program leave that column out".  So the column `adders` is left out of the
comparison; then it is checked by itself: today's is Wish 2's count, an earlier one that differs is document 01's.
"""

import io
import os
import subprocess
import sys
import tarfile

sys.dont_write_bytecode = True
import check

HOME = os.path.join(os.path.dirname(os.path.abspath(__file__)), "..", "..")
CRATE = "crates/file_values"


def at(revision):
    """A function that gives a file of the crate at a revision."""
    packed = subprocess.run(["git", "archive", revision, CRATE], cwd=HOME, capture_output=True, check=True).stdout
    archive = tarfile.open(fileobj=io.BytesIO(packed))
    return lambda name: archive.extractfile(CRATE + "/" + name).read()


def today(name):
    with open(os.path.join(HOME, CRATE, name), "rb") as file:
        return file.read()


def replies(read):
    """Check's reply to each formula file, by the file's bytes."""
    names = read("args").split()
    names = names[:names.index(b"-")]
    lines = read("stdout").split(b"\n")
    found = {}
    for name in names:
        place = lines.index(name) + 1
        answered = not lines[place].startswith(b"refused")
        found[read("data/" + name.decode())] = lines[place + answered].decode()
    return found


def main(revision):
    before, now = replies(at(revision)), replies(today)
    same = [data for data in before if data in now]
    fewer = 0
    for data in same:
        old, new = before[data], now[data]
        if new.startswith("refused"):
            assert old == new, (old, new)
            continue
        *old, was = old.split(",")
        *new, adders = new.split(",")
        assert old == new, (old, new)
        *_, products, rows = check.read(data)
        assert int(adders) == check.adders(products, rows), (data, adders)
        assert int(was) in (check.unshared(products, rows), int(adders)), (data, was)
        fewer += int(adders) < int(was)
    print("%d formula files answered alike, the column adders left out; %d have fewer adders" % (len(same), fewer))


if __name__ == "__main__":
    main(sys.argv[1])
