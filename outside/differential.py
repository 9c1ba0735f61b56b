"""The proved programs against the reference, on hostile cases and by demand 3.

Every case goes through both; lines, `track.bin` and `cut.cap` are compared byte for byte. The
smallest case that shows a difference is kept and printed. The last line is `N passed, M failed`.
"""

import os
import shutil
import subprocess
import sys
import time
from concurrent.futures import ThreadPoolExecutor

sys.dont_write_bytecode = True

import cases
import round_trip
from cases import CUTLIST, INPUT, TAKELIST
from programs import TARGET, arguments, build_reference, program, reference

WORK = TARGET / "differential"


def chosen():
    parser = arguments(__doc__)
    parser.add_argument("--takes", type=int, default=1080)
    parser.add_argument("--cuts", type=int, default=1080)
    parser.add_argument("--histories", type=int, default=520)
    parser.add_argument("--seed", type=int, default=1)
    return parser.parse_args()


def generate(kind, seed, count):
    """Makes the cases and gives their folders."""
    folder = WORK / kind
    shutil.rmtree(folder, ignore_errors=True)
    command = [*reference("generate"), kind, str(seed), str(count), str(folder)]
    counts = subprocess.run(command, check=True, capture_output=True, text=True).stdout
    print(f"{kind}: {count} cases of seed {seed}; answers of the reference:")
    print("  " + ", ".join(counts.split("\n")).strip(", "))
    return sorted(folder.iterdir()) if count else []


def pair(job, case, proved):
    """Both outcomes of a case."""
    return (cases.run(proved, job, case),
            cases.run(reference("reference-" + job.name), job, case))


def differs(job, case, proved):
    one, other = pair(job, case, proved)
    return one != other


def size(case):
    return sum(file.stat().st_size for file in case.iterdir() if file.is_file())


def hexdump(content, first):
    """Three lines of sixteen bytes from just before the first difference."""
    start = max(0, first // 16 * 16 - 16)
    rows = []
    for at in range(start, min(start + 48, len(content)), 16):
        row = content[at:at + 16]
        text = "".join(chr(byte) if 32 <= byte < 127 else "." for byte in row)
        rows.append(f"    {at:08x}  {row.hex(' '):47}  {text}")
    return "\n".join(rows) or "    (nothing)"


def show(what, proved, expected):
    """The first difference of one output, as a hexdump of both sides."""
    if proved == expected:
        return
    shorter = min(len(proved), len(expected))
    first = next((at for at in range(shorter) if proved[at] != expected[at]), shorter)
    print(f"  {what}: {len(proved)} bytes, expected {len(expected)}, first differs at {first}")
    print("   proved:\n" + hexdump(proved, first))
    print("   reference:\n" + hexdump(expected, first))


def shrink(job, case, proved):
    """Leaves out records of the input as long as the difference stays."""
    smallest = WORK / ("smallest-" + job.name)
    shutil.rmtree(smallest, ignore_errors=True)
    shutil.copytree(case, smallest)
    given, tries = (case / INPUT).read_bytes(), 200
    step = max(1, len(given) // job.record)
    while step >= 1 and tries > 0:
        at = 0
        while at < len(given) and tries > 0:
            fewer = given[:at] + given[at + step * job.record:]
            (smallest / INPUT).write_bytes(fewer)
            tries -= 1
            if differs(job, smallest, proved):
                given = fewer
            else:
                at += step * job.record
        step //= 2
    (smallest / INPUT).write_bytes(given)
    return smallest


def report(job, different, proved):
    """Prints the smallest differing case, then what is left of it once it is made smaller."""
    smallest = min(different, key=size)
    print(f"{job.name}: {len(different)} cases differ, the smallest is {smallest}")
    kept = shrink(job, smallest, proved)
    print(f"  made smaller: {kept} ({size(kept)} bytes)")
    one, other = pair(job, kept, proved)
    show("standard output", one.lines, other.lines)
    show(job.output, one.output, other.output)
    for got, due in ((one.left, other.left), (one.said, other.said)):
        if got != due:
            print(f"  {job.output}: {got}, expected {due}")


def compare(job, folders, proved):
    """Runs every case through both and gives how many agree and how many don't."""
    began = time.monotonic()
    with ThreadPoolExecutor(os.cpu_count()) as pool:
        verdicts = list(pool.map(lambda case: differs(job, case, proved), folders))
    different = [case for case, verdict in zip(folders, verdicts) if verdict]
    print(f"  {len(folders)} compared in {time.monotonic() - began:.1f} s")
    if different:
        report(job, different, proved)
    return len(folders) - len(different), len(different)


def main():
    wanted = chosen()
    build_reference()
    takelist = program("takelist", wanted.programs)
    cutlist = program("cutlist", wanted.programs)
    results = [
        compare(TAKELIST, generate("takes", wanted.seed, wanted.takes), takelist),
        compare(CUTLIST, generate("cuts", wanted.seed, wanted.cuts), cutlist),
        round_trip.histories(wanted.seed, wanted.histories, takelist, cutlist),
    ]
    passed, failed = (sum(column) for column in zip(*results))
    print(f"{passed} passed, {failed} failed")
    return 1 if failed or not passed else 0


if __name__ == "__main__":
    sys.exit(main())
