"""The programs where a call of the system fails, by a library that is loaded before them (faults.c): a read, a write, or waiting until
what was written is on the disk.

A call that was interrupted is tried again. A short one makes no difference. After any other failure a program says so on standard error,
once; what it prints and writes then is what each case names. An input that breaks is asked once more before that is said, so it stays broken
in these cases.
"""

import os
import subprocess
import sys
import tempfile
from dataclasses import dataclass
from pathlib import Path

sys.dont_write_bytecode = True
HERE = Path(__file__).resolve().parent
sys.path.insert(0, str(HERE.parent))

import cases
from cases import CUTLIST, TAKELIST
from programs import PROGRAMS, TARGET, arguments, look_for, program

EINTR, EIO, ENOSPC, EPIPE = 4, 5, 28, 32
ADDRESS = bytes([10, 0, 0, 5])
RECORD = bytes.fromhex("000100 00FEFF") + bytes(18)
OLDER = b"an older file"


def packet(counter):
    """Packet A of document 01, "Bench table", with another counter."""
    return (bytes.fromhex("5642414E 03000101") + b"Hall4".ljust(16, b"\0")
            + counter.to_bytes(4, "little") + bytes.fromhex("0100FEFF"))


def capture(count):
    """That many packets in a row, a record each."""
    return b"".join((ADDRESS + (32).to_bytes(4, "little") + packet(7 + i)).ljust(1472, b"\0") for i in range(count))


def lines(count):
    return "".join(f"{i} 0 {i} 1 0\n" for i in range(count)).encode()


def track(count):
    """takelist's track after that many packets."""
    return (RECORD * count).ljust(2048 * 24, b"\0")


@dataclass
class Case:
    """A program's input, the calls that fail, and what is then due; where `written` is nothing, an older file has to stay."""
    job: cases.Job
    faults: str
    given: bytes
    printed: bytes
    written: bytes
    said: bool = False


def breaks(first, at=1):
    """Standard input that gives no more from its read of that number on, after what comes first."""
    return " ".join([first] * bool(first) + [f"r,0,{number},{EIO}" for number in (at, at + 1)])


def takes():
    """takelist, with 20 records. Where its input breaks, it goes on as at the end of one."""
    for faults in ("", f"r,0,1,{EINTR}", f"r,0,1,-14720 r,0,2,{EINTR} r,0,3,-1", f"r,3,1,{EINTR}", f"r,3,1,-7 r,3,2,{EINTR}",
                   f"w,1,1,{EINTR}", f"w,1,1,-7 w,1,2,{EINTR}", f"w,3,1,{EINTR}", f"w,3,1,-1000 w,3,2,{EINTR}", f"s,3,1,{EINTR}"):
        yield Case(TAKELIST, faults, capture(20), lines(20), track(20))
    for most, count, cut in ((14720, 10, b""), (15000, 10, b"cut\n"), (1471, 0, b"cut\n")):
        yield Case(TAKELIST, breaks(f"r,0,1,-{most}", 2), capture(20), lines(count) + cut, track(count), True)
    yield Case(TAKELIST, breaks(""), capture(20), b"", track(0), True)
    yield Case(TAKELIST, breaks("", 2), capture(89), lines(44), track(44), True)
    yield Case(TAKELIST, f"r,3,1,{EIO}", capture(20), b"no stream\n", None)
    yield Case(TAKELIST, f"r,3,1,-19 r,3,2,{EIO}", capture(20), b"no stream\n", None)
    for outcome in (ENOSPC, EPIPE, 0):
        yield Case(TAKELIST, f"w,1,1,{outcome}", capture(89), lines(89)[len(lines(44)):], track(89), True)
        yield Case(TAKELIST, f"w,1,1,-7 w,1,2,{outcome}", capture(20), lines(20)[:7], track(20), True)
        yield Case(TAKELIST, f"w,3,1,{outcome}", capture(20), lines(20), b"", True)
        yield Case(TAKELIST, f"w,3,1,-1000 w,3,2,{outcome}", capture(20), lines(20), track(20)[:1000], True)
        yield Case(TAKELIST, f"w,1,2,{outcome}", capture(20) + b"\0", lines(20), track(20), True)
        yield Case(TAKELIST, f"r,3,1,{EIO} w,1,1,{outcome}", capture(20), b"", None, True)
    yield Case(TAKELIST, f"w,3,1,{ENOSPC} c,3,2,{EIO}", capture(20), lines(20), b"", True)
    yield Case(TAKELIST, f"s,3,1,{EIO}", capture(20), lines(20), track(20), True)


def cuts():
    """cutlist, with a track of 20 records, each a packet. It writes no capture of a track that it could not read whole."""
    for faults in ("", f"r,0,1,{EINTR}", f"r,0,1,-240 r,0,2,{EINTR} r,0,3,-1", f"r,3,1,{EINTR}", f"w,3,1,{EINTR}",
                   f"w,3,1,-1000 w,3,2,{EINTR}", f"s,3,1,{EINTR}"):
        yield Case(CUTLIST, faults, RECORD * 20, b"", capture(20))
    for faults in (breaks(""), breaks("r,0,1,-240", 2), breaks("r,0,1,-7", 2)):
        yield Case(CUTLIST, faults, RECORD * 20, b"", None, True)
    yield Case(CUTLIST, f"r,3,1,{EIO}", RECORD * 20, b"no header\n", None)
    for outcome in (ENOSPC, EPIPE, 0):
        yield Case(CUTLIST, f"w,3,1,{outcome}", RECORD * 89, b"", b"", True)
        yield Case(CUTLIST, f"w,3,1,-1472 w,3,2,{outcome}", RECORD * 20, b"", capture(1), True)
        yield Case(CUTLIST, f"w,3,2,{outcome}", RECORD * 89, b"", capture(44), True)
        yield Case(CUTLIST, f"w,1,1,{outcome}", b"", b"", None, True)
    yield Case(CUTLIST, f"w,3,1,{ENOSPC} c,3,2,{EIO}", RECORD * 20, b"", b"", True)
    yield Case(CUTLIST, f"s,3,1,{EIO}", RECORD * 20, b"", capture(20), True)


def library(folder):
    """The library that fails calls."""
    look_for("cc")
    path = Path(folder) / "faults.so"
    made = subprocess.run(["cc", "-O1", "-fPIC", "-shared", "-nostdlib", "-o", str(path), str(HERE / "faults.c")],
                          capture_output=True, text=True, check=False)
    if made.returncode != 0:
        raise SystemExit(made.stderr + "faults.c does not compile")
    return path


def left(folder, name):
    path = folder / name
    return path.read_bytes() if path.is_file() else None


def lay_out(case, folder):
    job = ADDRESS + (packet(7)[8:24] if case.job is TAKELIST else packet(7)[:28])
    (folder / case.job.job).write_bytes(job)
    (folder / "given").write_bytes(case.given)
    if case.written is None:
        (folder / case.job.output).write_bytes(OLDER)


def run(case, words, variables, shown):
    """Runs a case; gives how it ended, the file that it leaves, and which of its faults were made."""
    with tempfile.TemporaryDirectory(prefix="fault-", dir=TARGET) as name:
        folder = Path(name)
        lay_out(case, folder)
        with open(folder / "given", "rb") as given:
            done = cases.start(words, folder, given, dict(variables, FAULTS=case.faults, MADE=name), shown)
        made = [(folder / f"made-{i}").is_file() for i in range(len(case.faults.split()))]
        return done, left(folder, case.job.output), made


def wrong(case, words, variables, shown=subprocess.PIPE):
    """Runs a case and gives all that is not as it should be."""
    done, written, made = run(case, words, variables, shown)
    if done is None:
        return ["it does not end"]
    problems = list(filter(None, [cases.bad_end(done.returncode, case.said)]))
    if not all(made):
        problems.append("a fault was not made")
    if (done.stdout or b"") != case.printed:
        problems.append(f"it prints {done.stdout}")
    if written != (OLDER if case.written is None else case.written):
        problems.append(f"it leaves {'no file' if written is None else f'{len(written)} bytes'}, not what is due")
    if done.stderr.count(b"\n") != case.said:
        problems.append(f"on standard error it says {done.stderr}")
    return problems


def closed_pipe():
    """The end of a pipe that nobody reads."""
    end, start = os.pipe()
    os.close(end)
    return os.fdopen(start, "wb")


def full_disk():
    return open("/dev/full", "wb", buffering=0)


def tried(commands):
    """Every case with what is wrong in it; last with outputs that fail by themselves."""
    for case in (*takes(), *cuts()):
        yield f"{case.job.name} {case.faults or 'with no fault'}", wrong(case, *commands[case.job.name])
    for output in (closed_pipe, full_disk):
        with output() as shown:
            case = Case(TAKELIST, "", capture(20), b"", track(20), True)
            yield f"takelist, {output.__name__}", wrong(case, *commands["takelist"], shown)


def main():
    folder = arguments(__doc__).parse_args().programs
    TARGET.mkdir(exist_ok=True)
    passed = failed = 0
    with tempfile.TemporaryDirectory(prefix="faults-", dir=TARGET) as work:
        variables = dict(os.environ, LD_PRELOAD=str(library(work)))
        commands = {name: (program(name, folder), variables) for name in PROGRAMS}
        for name, problems in tried(commands):
            for problem in problems:
                print(f"{name}: {problem}")
            passed, failed = passed + (not problems), failed + bool(problems)
    print(f"{passed} passed, {failed} failed")
    return 1 if failed or not passed else 0


if __name__ == "__main__":
    sys.exit(main())
