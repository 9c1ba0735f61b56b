#!/usr/bin/env python3
"""Turns the names in must-fail edits that port.py turned in the files: a word that the edited file does not have and whose new spelling it
has. Run once, at the top, after tools/respell.py."""

import glob
import os
import re

SPLIT = re.compile(r"""([\s(){}.,;«»"@\[\]|&!]+)""")


def turned(n):
    if re.match(r"^[A-Z]", n):
        return n
    n = re.sub(r"(?<=[a-z0-9])([A-Z])", lambda m: "_" + m.group(1).lower(), n)
    return n.replace("-", "_").replace("′", "'")


def main():
    for p in sorted(glob.glob("crates/*/must-fail/*.edit")):
        crate = p.split("/must-fail/")[0]
        words = set()
        for q in glob.glob(crate + "/**/*.antt", recursive=True) + glob.glob(crate + "/src/**/*.rt", recursive=True):
            if "/out/" not in q:
                with open(q, encoding="utf-8") as f:
                    words |= set(SPLIT.split(f.read()))
        with open(p, encoding="utf-8") as f:
            lines = f.read().splitlines(keepends=True)
        out = []
        for line in lines:
            if line.startswith(("old:", "new:", "refused:")):
                line = line[:4] + "".join(w if w in words or turned(w) not in words else turned(w) for w in SPLIT.split(line[4:]))
            out.append(line)
        if out != lines:
            with open(p, "w", encoding="utf-8") as f:
                f.write("".join(out))
            print(os.path.basename(p))


main()
