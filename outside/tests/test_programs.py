"""The programs on stored cases, written by hand from document 01: samples/programs/PROGRAM-CASE.

`before/` has what a program finds, `stdin.hex` being its input; `after/` has what it prints and
writes, and whatever `after/` does not name has to be as it was. Every case is run twice: its input
read from a file, and from a pipe that gives one byte at a time.
"""

import os
import re
import sys
import tempfile
from pathlib import Path
from threading import Thread

sys.dont_write_bytecode = True
OUTSIDE = Path(__file__).resolve().parent.parent
sys.path.insert(0, str(OUTSIDE))

import cases
from programs import PROGRAMS, TARGET, arguments, program

CASES = OUTSIDE / "samples" / "programs"
EXPECTED = 51
FOLDER = "a folder"


def content(path):
    """The bytes of a .hex file: `length N`, lines `OFFSET: BYTES`, and zero where none is named."""
    first, *rows = [line.split("#")[0].strip() for line in path.read_text().splitlines()]
    whole = bytearray(int(re.fullmatch(r"length (\d+)", first)[1]))
    for row in filter(None, rows):
        offset, given = row.split(":")
        start, given = int(offset), bytes.fromhex(given)
        if start + len(given) > len(whole):
            raise ValueError(f"{path}: bytes past the length")
        whole[start:start + len(given)] = given
    return bytes(whole)


def stored(folder):
    """What stands in a case's folder: the files by their names, or that one is a folder."""
    paths = sorted(folder.iterdir()) if folder.is_dir() else []
    return {path.stem: FOLDER if path.suffix == ".folder" else content(path)
            for path in paths if path.suffix in (".hex", ".folder")}


def lay_out(files, folder):
    for name, given in files.items():
        if given == FOLDER:
            (folder / name).mkdir()
        else:
            (folder / name).write_bytes(given)


def found(folder):
    """What stands in a folder after the run, as `stored` has it."""
    return {path.name: path.read_bytes() if path.is_file() else FOLDER
            for path in folder.iterdir()}


def from_file(given):
    """An open file with the input."""
    file = tempfile.TemporaryFile()
    file.write(given)
    file.seek(0)
    return file


def byte_by_byte(given):
    """The end of a pipe from which every read gets one byte: in this mode no two writes join."""
    end, start = os.pipe2(os.O_DIRECT | os.O_CLOEXEC)

    def pour():
        try:
            for byte in given:
                os.write(start, bytes([byte]))
        except BrokenPipeError:
            pass  # the program ended without reading all
        os.close(start)

    Thread(target=pour, daemon=True).start()
    return os.fdopen(end, "rb", buffering=0)


def wrong(case, command, feed):
    """Runs a case and gives all that is not as `after/` has it."""
    before, after = stored(case / "before"), stored(case / "after")
    given = before.pop("stdin", b"")
    lines = case / "after" / "stdout"
    due = lines.read_bytes() if lines.is_file() else b""
    with tempfile.TemporaryDirectory(prefix="program-", dir=TARGET) as name:
        lay_out(before, Path(name))
        with feed(given) as stdin:
            done = cases.start(command, name, stdin)
        left = found(Path(name))
    if done is None:
        return ["it does not end"]
    fault = FOLDER in before.values()
    problems = list(filter(None, [cases.bad_end(done.returncode, fault)]))
    if done.stdout != due:
        problems.append(f"it prints {done.stdout}, not {due}")
    if bool(done.stderr) != fault:
        problems.append(f"on standard error it says {done.stderr}")
    due = {**before, **after}
    return problems + [f"{name} is not as it should be" for name in sorted(left | due)
                       if left.get(name) != due.get(name)]


def main():
    folder = arguments(__doc__).parse_args().programs
    commands = {name: program(name, folder) for name in PROGRAMS}
    TARGET.mkdir(exist_ok=True)
    stand = sorted(CASES.iterdir())
    passed, failed = int(len(stand) == EXPECTED), int(len(stand) != EXPECTED)
    print("" if passed else f"{len(stand)} cases stand there, not {EXPECTED}\n", end="")
    for case in stand:
        command = commands[case.name.split("-")[0]]
        for feed in (from_file, byte_by_byte):
            problems = wrong(case, command, feed)
            for problem in problems:
                print(f"{case.name}, input {feed.__name__}: {problem}")
            passed, failed = passed + (not problems), failed + bool(problems)
    print(f"{passed} passed, {failed} failed")
    return 1 if failed or not passed else 0


if __name__ == "__main__":
    sys.exit(main())
