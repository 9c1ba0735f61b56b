#!/usr/bin/env python3
"""Every name that docs/PROMISES.md cites is declared in the file that it cites, and it cites every edit that stands and no other.

A citation is `name` (path), several names before one path allowed: `a`, `b` (path). An edit is cited by its path alone.
"""
import pathlib
import re
import sys

ROOT = pathlib.Path(__file__).resolve().parent.parent.parent
PAGE = ROOT / "docs" / "PROMISES.md"
CITED = re.compile(r"((?:`[^`]+`(?:, | and )?)+) \((crates/[^)\s]+)\)")
EDITS = re.compile(r"crates/\w+/must-fail/\w+\.edit")


def declares(text, name, suffix):
    """Whether a file declares a name: a signature, record, data type or field of antt, or a function or type of Rattle."""
    word = re.escape(name)
    if suffix == ".rt":
        return re.search(rf"^\s*(?:#\[\w+\]\s*)?pub (?:extern \"C\" )?(?:fn|struct|enum) {word}\b", text, re.M) is not None
    return re.search(rf"^\s*(?:(?:abbrev|unfoldable|pub) )*(?:(?:record|data|ruleset) )?{word}(?= |$)", text, re.M) is not None


def main():
    page = PAGE.read_text(encoding="utf-8")
    passed, failed = 0, 0
    for names, path in CITED.findall(page):
        source = ROOT / path
        for name in re.findall(r"`([^`]+)`", names):
            if source.is_file() and declares(source.read_text(encoding="utf-8"), name, source.suffix):
                passed += 1
            else:
                failed += 1
                print(f"docs/PROMISES.md: {name} is not declared in {path}")
    cited = set(EDITS.findall(page))
    stand = {str(path.relative_to(ROOT)) for path in (ROOT / "crates").glob("*/must-fail/*.edit")}
    passed += len(cited & stand)
    failed += len(cited ^ stand)
    for path in sorted(cited - stand):
        print(f"docs/PROMISES.md: there is no {path}")
    for path in sorted(stand - cited):
        print(f"docs/PROMISES.md does not cite {path}")
    print(f"{passed} passed, {failed} failed")
    return 1 if failed or not passed else 0


if __name__ == "__main__":
    sys.exit(main())
