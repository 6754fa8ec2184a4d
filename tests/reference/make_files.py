#!/usr/bin/env python3
"""Writes what a program that answers files is run on, and the replies expected of it.

    make_files.py crates/file_values

writes the files to `data` in that directory, their names to `args`, the formula
files first and `-` between them and the problem files, and to `stdout` each
file's name and the replies to it: those of Check and Turn to a formula file,
those of Catalogue, Rank and Formulae to a problem file.
"""

import glob
import os
import sys

sys.dont_write_bytecode = True
import make_formulae
import make_problem_files


def main(crate):
    formulae, problems = make_formulae.made(), make_problem_files.made()
    data = os.path.join(crate, "data")
    os.makedirs(data, exist_ok=True)
    for old in glob.glob(os.path.join(data, "*.txt")):
        os.remove(old)
    for name, content, _ in formulae + problems:
        with open(os.path.join(data, name), "xb") as file:
            file.write(content)
    names = [name for name, _, _ in formulae] + ["-"] + [name for name, _, _ in problems]
    replies = [name + "\n" + reply for name, _, reply in formulae + problems]
    for name, lines in (("args", [name + "\n" for name in names]), ("stdout", replies)):
        with open(os.path.join(crate, name), "w") as out:
            out.writelines(lines)


if __name__ == "__main__":
    main(sys.argv[1])
