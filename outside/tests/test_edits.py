#!/usr/bin/env python3
"""Every must-fail edit names what is refused with it, and `rt check` has an error of its own there once the edit is applied.

`refused: NAME` is a function of the crate or a law; an edit has one such line or more. For each name the check says of itself that it does
not hold: a goal of the function that is not proved, or an error in its proof or in the law. That something below was not proved is none, nor
is a name that a proof file has and the changed code no longer asks for: a goal that stays open for want of such an answer is not counted.
Why an error is there no check tells; that a false fact is behind it is how the edits are written.

Crates are copied to a temporary folder, checked there as they are, and then with each edit. Two are checked at a time, in a copy each.
Names of crates are tried alone; `--logs FOLDER` keeps what each check says.
"""
import argparse
import pathlib
import re
import shutil
import subprocess
import sys
import tempfile
import time
from collections import Counter
from concurrent.futures import ThreadPoolExecutor
from queue import Empty, SimpleQueue

sys.dont_write_bytecode = True
sys.path.insert(0, str(pathlib.Path(__file__).resolve().parent.parent))

from programs import CRATES, ROOT, look_for

COPIES = 2
# How a check ends for a function, and before that a line for each of its goals that is open.
FUNCTION = re.compile(r"fn (\S+): ")
GOAL = re.compile(r"note: src/\S+:\d+:\d+: it is not proved that ")
# What a check says of a declaration of a proof or of a law; of those that only stand on it it speaks in other words.
ERROR = re.compile(r"(?:\./)?(?:specs|proofs)/(\S+)\.antt:\d+:\d+: error: `([^`]+)`: (.*)")
OF_FUNCTION = re.compile(r"(.+)/(?:Answers|Invariants|Proof)")
MISSING = re.compile(r"is not in scope|has no field|has no `|is no name")


def refused(crate, said):
    """The functions and laws of which a check says an error of their own."""
    own, missing, goals = set(), Counter(), Counter()
    since = 0
    for line in said.splitlines():
        error, function = ERROR.match(line), FUNCTION.match(line)
        if error:
            path, name, what = error.groups()
            of = OF_FUNCTION.fullmatch(path)
            name = of[1].replace("/", "::") if of else name
            if MISSING.search(what):
                missing[name] += 1
            elif "was not admitted" not in what:
                own.add(name)
        elif function:
            goals[function[1].removeprefix(crate + "::")] += since
            since = 0
        since += bool(GOAL.match(line))
    return own | {name for name, count in goals.items() if count > missing[name]}


def changed(edit, folder):
    """The texts that an edit leaves, by their files in the crate's folder; each `old:` stands once in what the pairs before it made."""
    path = old = None
    texts = {}
    for line in edit.read_text(encoding="utf-8").split("\n"):
        if line.startswith("file: "):
            path = folder / line[6:].strip()
            texts.setdefault(path, path.read_text(encoding="utf-8"))
        elif line.startswith("old: "):
            old = line[5:]
        elif line.startswith("new:"):
            if texts[path].count(old) != 1:
                raise ValueError(f"`{old}` is not in {path.relative_to(folder)} once")
            texts[path] = texts[path].replace(old, line[4:].removeprefix(" "))
    return texts


def write(texts):
    for path, text in texts.items():
        path.write_text(text, encoding="utf-8")


def check(folder):
    """Has rt check a crate; gives its status and all that it says."""
    done = subprocess.run(["rt", "check"], cwd=folder, stdin=subprocess.DEVNULL, stdout=subprocess.PIPE, stderr=subprocess.STDOUT,
                          text=True, errors="replace", check=False)
    return done.returncode, done.stdout


def put_back(kept, folder):
    """Gives a crate what its own check kept, so that no edit is tried over what another one left."""
    shutil.rmtree(folder / "out" / "incremental")
    shutil.copytree(kept, folder / "out" / "incremental")


def faults(edit, folder, kept, logs):
    """What is wrong with an edit, a line each."""
    names = re.findall(r"^refused: (\S+)$", edit.read_text(encoding="utf-8"), re.M)
    if not names:
        return ["it does not say what is refused"]
    try:
        texts = changed(edit, folder)
    except (KeyError, OSError, TypeError, ValueError) as error:
        return [f"it cannot be applied: {error}"]
    before = {path: path.read_text(encoding="utf-8") for path in texts}
    put_back(kept, folder)
    write(texts)
    status, said = check(folder)
    write(before)
    if logs:
        (logs / f"{folder.name}.{edit.stem}").write_text(said, encoding="utf-8")
    if status == 0:
        return ["the crate is still proved with it"]
    found = refused(folder.name, said)
    return [f"{name} has no error of its own" for name in names if name not in found]


def try_crate(folder, logs):
    """Checks a crate in a copy, as it is and with each edit; gives the edits, each with what is wrong with it."""
    edits = sorted((folder / "must-fail").glob("*.edit"))
    status, said = check(folder) if edits else (0, "")
    if logs:
        (logs / f"{folder.name}.log").write_text(said, encoding="utf-8")
    if status != 0:
        return [(edit, ["its crate is not proved as it stands"]) for edit in edits]
    with tempfile.TemporaryDirectory(prefix="kept-", dir=folder.parent.parent) as kept:
        kept = pathlib.Path(kept) / "incremental"
        if edits:
            shutil.copytree(folder / "out" / "incremental", kept)
        return [(edit, faults(edit, folder, kept, logs)) for edit in edits]


def try_crates(copy, due, logs):
    """Copies the crates, and tries in the copy one after the other of those that are due, while there are some."""
    shutil.copytree(CRATES, copy / "crates", ignore=shutil.ignore_patterns("out"))
    for name in ("crates.txt", "HANDLES"):
        if (ROOT / name).is_file():
            shutil.copy(ROOT / name, copy)
    results = []
    try:
        while True:
            folder, began = copy / "crates" / due.get_nowait(), time.monotonic()
            tried = try_crate(folder, logs)
            results += [(edit.relative_to(copy), wrong) for edit, wrong in tried]
            print(f"{folder.name}: {len(tried)} edits, {time.monotonic() - began:.0f} s", flush=True)
    except Empty:
        return results


def try_all(names, logs):
    """Tries the edits of some crates, in copies side by side; gives each edit with what is wrong with it."""
    due = SimpleQueue()
    for name in names:
        due.put(name)
    with tempfile.TemporaryDirectory(prefix="edits-") as room, ThreadPoolExecutor(COPIES) as pool:
        rooms = [pathlib.Path(room) / str(number) for number in range(COPIES)]
        return sorted(result for results in pool.map(lambda copy: try_crates(copy, due, logs), rooms) for result in results)


def listed():
    """The crates in the order of crates.txt, where those below come first."""
    lines = (ROOT / "crates.txt").read_text(encoding="utf-8").splitlines()
    return [line.split(":")[0].split()[0] for line in lines if line and not line.startswith("#")]


def chosen():
    parser = argparse.ArgumentParser(description=__doc__)
    parser.add_argument("crates", nargs="*", help="the crates whose edits are tried; all if left out")
    parser.add_argument("--logs", type=pathlib.Path, help="a folder that keeps what each check says")
    return parser.parse_args()


def main():
    given = chosen()
    look_for("rt")
    if given.logs:
        given.logs.mkdir(parents=True, exist_ok=True)
    passed, failed = 0, 0
    for edit, wrong in try_all(given.crates or listed(), given.logs):
        passed, failed = passed + (not wrong), failed + bool(wrong)
        for said in wrong:
            print(f"{edit}: {said}")
    print(f"{passed} passed, {failed} failed")
    return 1 if failed or not passed else 0


if __name__ == "__main__":
    sys.exit(main())
