"""The sample `samples/talk`: what the desk sends, and what the box hears of it and of others."""

from dataclasses import dataclass

from programs import ROOT
from round_trip import RECORD, Sender

FOLDER = ROOT / "outside" / "samples" / "talk"

# Places in a capture record: address, length, then the datagram: its byte 4, its name, its data.
ADDRESS, LENGTH, DATAGRAM = slice(0, 4), slice(4, 8), 8
RATE, NAME, DATA = DATAGRAM + 4, slice(DATAGRAM + 8, DATAGRAM + 24), DATAGRAM + 28
NEXT_HALL, OTHER_DESK = bytes([10, 0, 5, 5]), bytes([10, 0, 6, 5])


@dataclass
class Heard:
    """One line of the history: what kind of datagram, made of which packet, and the answer due."""
    kind: str
    packet: int
    due: int


def as_sent(_):
    """Our desk's packet as it was cut."""


def next_hall(record):
    """The next hall's desk has our stream's name, its own address and its own sound."""
    record[ADDRESS] = NEXT_HALL
    for at in range(DATA, DATAGRAM + int.from_bytes(record[LENGTH], "little")):
        record[at] ^= 0xFF


def other_name(record):
    next_hall(record)
    record[ADDRESS] = OTHER_DESK
    record[NAME] = b"Choir".ljust(16, b"\0")


def damaged(record):
    """The last byte is lost on the way."""
    length = int.from_bytes(record[LENGTH], "little") - 1
    record[LENGTH] = length.to_bytes(4, "little")
    record[DATAGRAM + length] = 0


def next_hall_damaged(record):
    next_hall(record)
    damaged(record)


def text(record):
    """Sub protocol TEXT in the byte that holds the rate."""
    record[RATE] |= 0x40


def other_rate(record):
    """44100 Hz, and all else as the packet is."""
    record[RATE] = 16


def not_vban(record):
    record[DATAGRAM:DATAGRAM + 4] = b"NOPE"


# Each kind of the history: what a reader is told of it, and how it is made of a packet.
KINDS = {
    "ours": ("packet {} of our desk", as_sent),
    "damaged": ("packet {} of our desk, a byte lost", damaged),
    "next-hall": ("the next hall's Main", next_hall),
    "next-hall-damaged": ("the next hall's Main, a byte lost", next_hall_damaged),
    "other-name": ("another desk's Choir", other_name),
    "text": ("text from our desk", text),
    "other-rate": ("our desk at another rate", other_rate),
    "not-vban": ("not VBAN at all", not_vban),
}


def load_sender():
    """The desk, its form and its track, from `cut.bin` and `sent.bin`."""
    job, sent = (FOLDER / "cut.bin").read_bytes(), (FOLDER / "sent.bin").read_bytes()
    slots = [int.from_bytes(sent[at:at + 3], "little", signed=True)
             for at in range(0, len(sent), 3)]
    per_frame = RECORD // 3
    return Sender(
        address=job[:4], name=job[12:28].rstrip(b"\0"), rate=job[8], data_type=job[11],
        channels=job[10] + 1, n=job[9] + 1, start=int.from_bytes(job[28:], "little"),
        frames=[slots[at:at + per_frame] for at in range(0, len(slots), per_frame)])


def load_history():
    """What is heard, line by line of `history.txt`."""
    lines = (FOLDER / "history.txt").read_text(encoding="ascii").splitlines()
    rows = [line.split() for line in lines if not line.startswith("#")]
    return [Heard(kind, int(packet), int(due)) for kind, packet, due in rows]


def capture_of(history, packets):
    """The capture that the history makes of the packets' capture records."""
    capture = []
    for heard in history:
        record = bytearray(packets[heard.packet])
        KINDS[heard.kind][1](record)
        capture.append(bytes(record))
    return b"".join(capture)
