#!/usr/bin/env python3
"""Brings this repository's own names of definitions and lemmas, as port.py leaves them, to today's spelling: words in snake case, types in
camel case. Run once, at the top, after the kit's port.py. Must-fail edits are turned with the files that they edit.

usage: python3 tools/respell.py [--list]      --list: print the names and write nothing
"""

import collections
import glob
import re
import sys

SPLIT = re.compile(r"""([\s(){}.,;«»"@\[\]|]+)""")
# Names of goals and invariants, which Rattle makes, keep their dashes.
MADE = re.compile(r"^(returns|loop|invariant|measure|decreases|overflow|bounds|falls)(-|$)|-(requires|init|preserved)$|^(Need|Inv|Measure)")
# Names that would fall together with another: the definition keeps the plain word.
APART = {
    "cut-answer": "cut_answer_is",
    "bad-number": "bad_number_is",
    "good-name": "good_name_is",
    "sent-number": "sent_number_is",
    "by-block": "by_block_is",
    "slot-number": "slot_number_is",
    "bad-shape": "bad_shape_is",
    "ahead-place": "ahead_place_is",
    "kept-name": "kept_name_is",
    "same_bytes": "same_bytes_is",
    "one_more": "one_more_times",
}


def files():
    out = []
    for p in ("crates/*/specs/**/*.antt", "crates/*/proofs/**/*.antt", "crates/*/src/**/*.rt", "crates/*/must-fail/*.edit"):
        out += glob.glob(p, recursive=True)
    return sorted(out)


def declared(paths):
    names = collections.defaultdict(set)
    head = re.compile(r"^\s*(?:(?:pub|abbrev|unfoldable|opaque|inductive) )*(?:(?:record|data) )?([^\s:(){}.,]+)(?: :|\s*[({])")
    for p in paths:
        if not p.endswith(".antt"):
            continue
        with open(p, encoding="utf-8") as f:
            for line in f:
                if line.strip().startswith(("--", "use ", "pub use ")) or " : " not in line and not line.rstrip().endswith(" :"):
                    continue
                m = head.match(line)
                if m:
                    names[m.group(1)].add(p)
    return names


def imported(paths):
    """Names that files bring in from libraries."""
    own = set(c.split("/")[1] for c in glob.glob("crates/*/src"))
    out = set()
    for p in paths:
        with open(p, encoding="utf-8") as f:
            for line in f:
                m = re.match(r"\s*(?:pub )?(?:ghost )?use ([^\s{]+)\.\{(.*)\}", line)
                if m:
                    path = m.group(1).split(".")
                    if path[0] == "Rattle" and path[1] in own:
                        continue
                    for n in m.group(2).split(","):
                        out.add(n.strip().split(" as ")[0].strip())
    return out


def aliases(paths):
    """Names that a `use` line gives an import."""
    out = set()
    for p in paths:
        with open(p, encoding="utf-8") as f:
            for line in f:
                if re.match(r"\s*(?:pub )?(?:ghost )?use ", line):
                    out |= set(re.findall(r" as ([^\s,};]+)", line))
    return out


def turned(n):
    if re.match(r"^[A-Z]", n):
        return "".join(w[:1].upper() + w[1:] for w in n.split("-"))
    n = re.sub(r"(?<=[a-z0-9])([A-Z])", lambda m: "_" + m.group(1).lower(), n)
    return n.replace("-", "_")


def table(paths):
    names = declared(paths)
    library = imported(paths)
    out = {}
    for n in sorted(set(names) | aliases(paths)):
        if MADE.search(n) or n in library or n in ("_", "?") or not re.match(r"^[A-Za-z]", n):
            continue
        t = APART.get(n, turned(n))
        if t != n:
            out[n] = t
    return names, library, out


def clashes(names, library, out):
    by = collections.defaultdict(set)
    for n in list(names) + list(library):
        by[out.get(n, n)].add(n)
    return {t: ns for t, ns in by.items() if len(ns) > 1}


def respelled(text, out):
    return "".join(out.get(w, w) for w in SPLIT.split(text))


def edit_line(line, out):
    """A line of an edit: the spelling of the files, projections tight, no brackets round a clause."""
    if not line.startswith(("old:", "new:")):
        return respelled(line, out)
    head, rest = line[:4], line[4:]
    rest = re.sub(r"([\w')]) \.(?=[a-zA-Z«])", r"\1.", rest)
    return head + respelled(rest, out)


def main(argv):
    paths = files()
    names, library, out = table(paths)
    bad = clashes(names, library, out)
    if argv == ["--list"]:
        for n in sorted(out):
            print(n, out[n])
        print("fall together:", bad)
        return 0
    if bad:
        print("fall together:", bad)
        return 1
    for p in paths:
        with open(p, encoding="utf-8") as f:
            text = f.read()
        if p.endswith(".edit"):
            new = "".join(edit_line(l, out) for l in text.splitlines(keepends=True))
        else:
            new = respelled(text, out)
        if new != text:
            with open(p, "w", encoding="utf-8") as f:
                f.write(new)
    return 0


if __name__ == "__main__":
    raise SystemExit(main(sys.argv[1:]))
