"""takelist on what a real sender sent: samples/real has its captures, and beside each the lines due."""

import sys
from pathlib import Path

sys.dont_write_bytecode = True
OUTSIDE = Path(__file__).resolve().parent.parent
sys.path.insert(0, str(OUTSIDE))

import cases
from cases import TAKELIST, Outcome
from programs import TARGET, arguments, program
from report import report

REAL = OUTSIDE / "samples" / "real"
WORK = TARGET / "real"
NAME = b"Main".ljust(16, b"\0")
DESK, NEXT_HALL = bytes([127, 0, 0, 1]), bytes([127, 0, 0, 2])
EXPECTED = 5
RECORDS, RECORD, LONGEST = 2048, 24, 1464


def records_of(datagram):
    """The track records of an accepted datagram: a sample of up to 24 bits stands at the top of its slot."""
    channels, size = datagram[6] + 1, datagram[7] + 1
    frame = channels * size
    for at in range(28, len(datagram), frame):
        samples = [datagram[at + part:at + part + size] for part in range(0, frame, size)]
        yield b"".join(sample.rjust(3, b"\0") for sample in samples).ljust(RECORD, b"\0")


def track_due(capture, lines):
    """The track after a capture, whose answers and places are those of the lines."""
    track = bytearray(RECORDS * RECORD)
    for line in lines.splitlines():
        index, answer, place, _, _ = map(int, line.split())
        record = capture[index * TAKELIST.record:(index + 1) * TAKELIST.record]
        if answer == 0:
            laid = b"".join(records_of(record[8:8 + int.from_bytes(record[4:8], "little")]))
            track[place * RECORD:place * RECORD + len(laid)] = laid
    return bytes(track)


def elsewhere(capture):
    """The lines due of a box that waits for another address: 2 comes before 5, and 5 before all that the header says."""
    lengths = [int.from_bytes(capture[at + 4:at + 8], "little") for at in range(0, len(capture), TAKELIST.record)]
    return b"".join(b"%d %d 0 0 0\n" % (index, 2 if length > LONGEST else 5) for index, length in enumerate(lengths))


def right(command, address, capture, lines):
    """Whether takelist gives those lines, and their track."""
    cases.save(WORK, {TAKELIST.job: address + NAME}, capture)
    return cases.run(command, TAKELIST, WORK) == Outcome(lines, track_due(capture, lines), "a file")


def main():
    command = program("takelist", arguments(__doc__).parse_args().programs)
    captures = sorted(REAL.glob("*.cap"))
    results = [("all captures there", len(captures) == EXPECTED)]
    for path in captures:
        capture, lines = path.read_bytes(), path.with_suffix(".lines").read_bytes()
        results += [(f"{path.stem}", right(command, DESK, capture, lines)),
                    (f"{path.stem}, another desk awaited", right(command, NEXT_HALL, capture, elsewhere(capture)))]
    return report(results)


if __name__ == "__main__":
    sys.exit(main())
