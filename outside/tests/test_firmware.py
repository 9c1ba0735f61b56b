"""The firmware's archive from C and from Rust: answers, zeros, lent bytes, and random calls against the reference.

`--archive FILE` tries another archive with the same functions in its place.
"""

import argparse
import re
import subprocess
import sys
from pathlib import Path

sys.dont_write_bytecode = True
OUTSIDE = Path(__file__).resolve().parent.parent
FIRMWARE = OUTSIDE / "firmware"
sys.path[:0] = [str(OUTSIDE), str(FIRMWARE)]

import archive
import words
from programs import ROOT, TARGET, look_for

WORK = TARGET / "firmware"
HEADER = FIRMWARE / "tashmirok.h"
CRATE = ROOT / "crates" / "firmware_c" / "src" / "lib.rt"
# The crate's types in C, and the arrays that are types of their own there.
TYPES = {"": "void", "u8": "uint8_t", "u16": "uint16_t", "u32": "uint32_t", "i64": "int64_t", "usize": "size_t"}
OPAQUE = {"kept: [u8; 40]": "tashmirok_take *take", "tally: [u32; 17]": "tashmirok_tally *tally",
          "laid: [u64; 8]": "tashmirok_laid *laid"}
STRICT = ["-Wall", "-Wextra", "-Werror"]
MOVERS = {"memcpy", "memmove", "memset", "memcmp", "bcmp"}
LAST = re.compile(r"(\d+) passed, (\d+) failed")


def run(words, **more):
    """Runs a command; its status, and what it printed."""
    done = subprocess.run(list(map(str, words)), stdin=subprocess.DEVNULL, stdout=subprocess.PIPE,
                          stderr=subprocess.STDOUT, text=True, check=False, **more)
    return done.returncode, done.stdout


def judged(what, good, said=""):
    """One test: how it came out, and what there is to say where it failed."""
    print(f"{'ok     ' if good else 'FAILED '} {what}")
    print("" if good else said, end="")
    return int(good), int(not good)


def succeeds(what, words):
    """One test: a command that has to end well; its output is shown where it does not."""
    status, said = run(words)
    return judged(what, status == 0, said)


def counted(what, status, said):
    """The counts on the last line of a program that tests; one that ends badly without them has failed."""
    print(said, end="")
    lines = said.splitlines()
    found = LAST.fullmatch(lines[-1]) if lines else None
    passed, failed = map(int, found.groups()) if found else (0, 0)
    if passed == 0 or (status != 0 and failed == 0):
        failed += 1
    judged(what, not failed)
    return passed, failed


def header():
    """The header alone, as C; as C++ its functions keep their C names, which needs no C++ compiler to see."""
    status, said = run(["cc", "-E", "-P", "-x", "c", "-D__cplusplus=201103L", HEADER])
    functions = said.partition('extern "C" {')[2]
    guarded = status == 0 and "tashmirok_follow" in functions and functions.rstrip().endswith("}")
    named = judged("the header's functions have C names in C++", guarded)
    alone = succeeds("the header alone is C", [
        "cc", "-std=c11", "-Wpedantic", *STRICT, "-fsyntax-only", "-x", "c", HEADER])
    return named[0] + alone[0], named[1] + alone[1]


def pinned():
    """check.c pins every constant of the header, and every answer's words are read here as they are in C."""
    text, check = HEADER.read_text(encoding="utf-8"), (FIRMWARE / "check.c").read_text(encoding="utf-8")
    constants = dict(re.findall(r"TASHMIROK_(\w+) = (\d+)", text))
    held = dict(re.findall(r"^    (?:PINNED|ANSWERED)\((\w+), (\d+)", check, re.M))
    spoken = {int(number) for number in re.findall(r"^    ANSWERED\(\w+, (\d+)", check, re.M)}
    return judged("every constant of the header is pinned, every answer has words",
                  bool(constants) and constants == held and set(words.answers()) == spoken)


def in_c(parameter):
    """A parameter of a function of the crate, as the header has it."""
    name, lent, mutable, kind = re.fullmatch(r"(\w+): (&?)(mut )?(.+)", parameter).groups()
    constant = "const " if lent and not mutable else ""
    if f"{name}: {kind}" in OPAQUE:
        return constant + OPAQUE[f"{name}: {kind}"]
    element, length = re.fullmatch(r"\[?(\w+)(?:; (\d+))?\]?", kind).groups()
    each = constant + TYPES[element]
    if length:
        return f"{each} {name}[{length}]"
    if kind.startswith("["):
        return f"{each} *{name}, size_t " + ("length" if name == "datagram" else f"{name}_length")
    return f"{each} {'*' if lent else ''}{name}"


def declaration(name, given, gives):
    """A function of the crate as the header declares it."""
    parameters = [in_c(parameter) for parameter in re.findall(r"\w+: [^,]+", given)]
    return f"{TYPES[gives]} {name}({', '.join(parameters) or 'void'});"


def declared():
    """The header declares the crate's functions and no others: every parameter by its name, type and length, in order."""
    found = re.findall(r'^pub extern "C" fn (\w+)\(([^)]*)\)(?: -> (\w+))?', CRATE.read_text(encoding="utf-8"), re.M)
    due = {declaration(*function) for function in found}
    lines = re.findall(r"^\w+ tashmirok_\w+\([^;]*;", HEADER.read_text(encoding="utf-8"), re.M)
    stand = {re.sub(r"\s+", " ", line) for line in lines}
    return judged("the header declares the crate's functions", bool(due) and due == stand,
                  "".join(f"  {line}\n" for line in sorted(due ^ stand)))


def asks(made):
    """The archive has the header's functions and no others, and asks the system for nothing but moving bytes."""
    status, said = run(["nm", made])
    symbols = [line.split()[-2:] for line in said.splitlines() if re.search(r" [A-Z] \w+$", line)]
    given = {name for kind, name in symbols if kind == "T"}
    asked = {name for kind, name in symbols if kind == "U"}
    due = set(re.findall(r"\b(tashmirok_\w+)\(", HEADER.read_text(encoding="utf-8")))
    return judged("the archive has the header's functions and asks for nothing else",
                  status == 0 and given == due and asked <= MOVERS, f"  {sorted(given ^ due)}, {sorted(asked - MOVERS)[:9]}\n")


def from_c(made):
    """check.c, compiled and run."""
    program = WORK / "check"
    built = succeeds("check.c compiles and links", [
        "cc", "-std=c11", *STRICT, "-O1", f"-I{FIRMWARE}", "-o", program, FIRMWARE / "check.c", made])
    ran = counted("every answer from C", *run([program])) if built[0] else (0, 1)
    return built[0] + ran[0], built[1] + ran[1]


def from_rust(made):
    """calls/, compiled and run: random calls against the reference."""
    built, said = archive.cargo(FIRMWARE / "calls", made)
    if built is None:
        return judged("calls/ compiles and links", False, said)
    return counted("random calls from Rust", *run([built / "calls"]))


def chosen(description):
    """The archive to try: the one given, or the project's own."""
    parser = argparse.ArgumentParser(description=description)
    parser.add_argument("--archive", type=Path, help="an archive to try instead, named libtashmirok.a")
    given = parser.parse_args().archive
    look_for("cargo", "rustc", "cc", "nm")
    WORK.mkdir(parents=True, exist_ok=True)
    return given.resolve() if given else archive.build()


def main():
    made = chosen(__doc__)
    results = [header(), pinned(), declared(), asks(made), from_c(made), from_rust(made)]
    passed, failed = (sum(column) for column in zip(*results))
    print(f"{passed} passed, {failed} failed")
    return 1 if failed or not passed else 0


if __name__ == "__main__":
    sys.exit(main())
