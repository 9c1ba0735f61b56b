"""The box's loop, firmware/record.c: it hears datagrams over a loopback network, and README.md shows it as it stands.

`--archive FILE` tries another archive with the same functions in its place.
"""

import os
import re
import signal
import socket
import subprocess
import sys
import tempfile
import time
from pathlib import Path
from threading import Timer

sys.dont_write_bytecode = True

from test_firmware import FIRMWARE, STRICT, WORK, chosen, judged, succeeds
import words
from programs import ROOT

SOURCE = FIRMWARE / "record.c"
SHOWN = re.compile(r"/\* README\.md shows what follows\. \*/\n(.*)/\* README\.md shows what stands before this\. \*/\n", re.S)
DESK, NEXT_HALL = "127.0.0.1", "127.0.0.2"
QUIET, SECONDS = 2, 30


def packet(counter, name=b"Hall4", frames=((1, -2), (3, -4))):
    """A stereo packet of 16 bits at 48,000 Hz."""
    data = b"".join(sample.to_bytes(2, "little", signed=True) for frame in frames for sample in frame)
    return (b"VBAN" + bytes([3, len(frames) - 1, 1, 1]) + name.ljust(16, b"\0") + counter.to_bytes(4, "little") + data)


# What the box hears, in order: the sender, the datagram, the answer due.
HEARD = (
    (DESK, packet(7), 0),
    (DESK, packet(7), 14),
    (NEXT_HALL, packet(8), 5),
    (DESK, packet(9), 0),
    (DESK, packet(8), 14),
    (DESK, packet(10, name=b"Hall5"), 5),
    (DESK, packet(10)[:-1], 11),
    (DESK, b"", 1),
    (DESK, packet(10).ljust(1464, b"\0"), 11),
    (DESK, packet(10).ljust(1465, b"\0"), 2),
    (DESK, packet(10).ljust(1492, b"\0"), 2),
)
# Packet 7 lies at 0 and packet 9 at 4; between them is silence.
LAID = b"".join(bytes.fromhex(slots).ljust(24, b"\0") for slots in ("000100 00FEFF", "000300 00FCFF"))
TRACK = LAID + bytes(2 * 24) + LAID


def send(port, heard):
    """Sends datagrams, each from its sender's address."""
    for sender, datagram, _ in heard:
        with socket.socket(socket.AF_INET, socket.SOCK_DGRAM) as desk:
            desk.bind((sender, 0))
            desk.sendto(datagram, (DESK, port))


def reach(box, state):
    """Waits until the system has the box in a state: S is waiting for a datagram, T is stopped."""
    while Path(f"/proc/{box.pid}/stat").read_text().rpartition(") ")[2][0] not in (state, "Z"):
        time.sleep(0.01)


def interrupt(box):
    """Stops the box where it waits and has it go on: its call of recvfrom is then interrupted."""
    reach(box, "S")
    os.kill(box.pid, signal.SIGSTOP)
    reach(box, "T")
    os.kill(box.pid, signal.SIGCONT)


def lines_due():
    """How often each answer is due, in the words that the box has for it."""
    answers = [answer for _, _, answer in HEARD]
    return [f"{number:2} {name:12} {answers.count(number):6}  {meaning}"
            for number, (name, meaning) in words.answers().items() if number in answers]


def heard(program):
    """Runs the box, sends, and says whether its counts and its track are those due; one that does not end is killed."""
    with tempfile.TemporaryDirectory(prefix="record-", dir=WORK) as folder:
        track = Path(folder) / "track.bin"
        with subprocess.Popen([program, "Hall4", DESK, str(QUIET), track], text=True, stdout=subprocess.PIPE) as box:
            late = Timer(SECONDS, box.kill)
            late.start()
            port = re.fullmatch(r"port (\d+)\n", box.stdout.readline())
            if port:
                send(int(port[1]), HEARD[:1])
                interrupt(box)
                send(int(port[1]), HEARD[1:])
            said = box.stdout.read().splitlines()
        late.cancel()
        laid = track.read_bytes() if track.is_file() else None
    good = box.returncode == 0 and said == lines_due() and laid == TRACK
    return judged("record.c over the loopback network", good, f"  status {box.returncode}, track {laid}\n" + "\n".join(said) + "\n")


def shown():
    """README.md's piece of C is the loop of record.c."""
    pieces = re.findall(r"^```c\n(.*?)^```$", (ROOT / "README.md").read_text(encoding="utf-8"), re.M | re.S)
    good = pieces == SHOWN.findall(SOURCE.read_text(encoding="utf-8")) and len(pieces) == 1
    return judged("README.md shows the loop of record.c", good)


def main():
    made, program = chosen(__doc__), WORK / "record"
    built = succeeds("record.c compiles and links", [
        "cc", "-std=c11", "-Wpedantic", *STRICT, "-O1", f"-I{FIRMWARE}", "-o", program, SOURCE, made])
    results = [shown(), built, heard(program) if built[0] else (0, 1)]
    passed, failed = (sum(column) for column in zip(*results))
    print(f"{passed} passed, {failed} failed")
    return 1 if failed else 0


if __name__ == "__main__":
    sys.exit(main())
