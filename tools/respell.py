#!/usr/bin/env python3
"""Respells the repository's own definitions and lemmas: words in snake case, a dash only between two names.

usage: python3 tools/respell.py      at the top of the repository, once, after the toolchain's port.py

respell.txt, beside this script, holds a pair on each line: the older spelling and the newer. Whole names are replaced in
the proof files, in the sources (where these spellings occur in clauses alone) and in the must-fail edits; comments stay.
"""

import os
import re

HERE = os.path.dirname(os.path.realpath(__file__))
NAME = re.compile(r"--(?= |$).*|//.*|[A-Za-z_][A-Za-z0-9_'-]*", re.MULTILINE)


def main():
    with open(os.path.join(HERE, "respell.txt"), encoding="utf-8") as f:
        table = dict(line.split() for line in f if line.strip())
    for folder, dirs, names in os.walk("crates"):
        dirs[:] = [d for d in dirs if d != "out"]
        for name in names:
            if not name.endswith((".antt", ".rt", ".edit")):
                continue
            path = os.path.join(folder, name)
            with open(path, encoding="utf-8") as f:
                old = f.read()
            new = NAME.sub(lambda m: table.get(m.group(), m.group()), old)
            if new != old:
                with open(path, "w", encoding="utf-8") as f:
                    f.write(new)


if __name__ == "__main__":
    main()
