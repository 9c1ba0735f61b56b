"""Makes the files of the sample `talk/`; nothing in them is left to chance."""

from pathlib import Path

ADDRESS = bytes([10, 0, 4, 5])
NAME = b"Main".ljust(16, b"\0")
RATE, CHANNELS, DATA_TYPE, N = 3, 2, 1, 8
FRAMES = 100
# The counter comes to its end and starts again at 0 in the middle of the talk, at packet 6.
START = 2 ** 32 - 6

HISTORY = """\
# What the box hears, one datagram a line: what it is, the packet it is made of, the answer due.
ours               0   0
ours               1   0
next-hall          1   5
ours               3   0
ours               2  14
ours               3  14
other-name         4   5
ours               4   0
damaged            5  11
ours               6   0
next-hall-damaged  6   5
text               7   6
ours               7   0
other-rate         8  13
ours               8   0
ours               8  14
not-vban           9   3
next-hall          9   5
ours              11   0
ours              12   0
ours               0  14
"""


def left(i):
    """A tone of 1,000 Hz at 48,000 frames a second: straight up and down, 48 frames a turn."""
    return 300_001 * (abs((i + 36) % 48 - 24) - 12)


def right(i):
    """A number by which each frame is known; no frame of the talk is silence."""
    return 1_000 * (i + 1)


def record(i):
    """One frame of the sender's track: two slots in use and six empty."""
    slots = [left(i), right(i), 0, 0, 0, 0, 0, 0]
    return b"".join(slot.to_bytes(3, "little", signed=True) for slot in slots)


def files():
    """Every file of the sample by its name."""
    header = (b"VBAN" + bytes([RATE, N - 1, CHANNELS - 1, DATA_TYPE]) + NAME
              + START.to_bytes(4, "little"))
    return {
        "sent.bin": b"".join(record(i) for i in range(FRAMES)),
        "cut.bin": ADDRESS + header,
        "wanted.bin": ADDRESS + NAME,
        "history.txt": HISTORY.encode("ascii"),
    }


def main():
    folder = Path(__file__).resolve().parent / "talk"
    for name, content in files().items():
        (folder / name).write_bytes(content)


if __name__ == "__main__":
    main()
