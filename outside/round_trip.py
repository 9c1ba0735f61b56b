"""Demand 3 by a computation of its own: cut, lose, repeat and shuffle, follow, compare.

Nothing here uses the reference: samples go through exact fractions, and what the track holds is
said by demand 3 from the history of packet numbers alone.
"""

import os
import random
import re
import time
from concurrent.futures import ThreadPoolExecutor
from dataclasses import dataclass
from fractions import Fraction
from functools import lru_cache

import cases
from cases import CUTLIST, TAKELIST
from programs import TARGET

RECORDS = 2048
RECORD = 24
CAPTURED = 1472
SIZES = (1, 2, 3, 4)
LINE = re.compile(rb"^(\d+) (\d+) (\d+) (\d+) (\d+)$", re.M)
WORK = TARGET / "differential" / "histories"
# From this history on every second one is of a sender of many packets.
LONG = 500


@dataclass
class Sender:
    """A cut: the form that `cut.bin` gives, and the sender's track as slot numbers."""
    address: bytes
    name: bytes
    rate: int
    data_type: int
    channels: int
    n: int
    start: int
    frames: list

    def header(self, start):
        return (b"VBAN" + bytes([self.rate, self.n - 1, self.channels - 1, self.data_type])
                + self.name.ljust(16, b"\0") + start.to_bytes(4, "little"))

    def packets(self):
        return -(-len(self.frames) // self.n)

    def count(self, k):
        """Frames of packet k: N, or what is left."""
        return min(self.n, len(self.frames) - k * self.n)


def nearest(number, bits):
    """The number of so many bits nearest to an exact one; round() takes the even one at a tie."""
    half = 2 ** (bits - 1)
    return max(-half, min(half - 1, round(number)))


@lru_cache(maxsize=None)
def carried(slot, bits):
    """A slot as the data type carries it: to its bits, and from there back to 24."""
    sent = nearest(Fraction(slot * 2 ** (bits - 1), 2 ** 23), bits)
    return nearest(Fraction(sent * 2 ** 23, 2 ** (bits - 1)), 24)


def slot(chance):
    """Any 24-bit number, often an end or a tie of narrowing."""
    tie = 2 ** chance.choice((7, 15)) * (2 * chance.randint(-128, 127) + 1)
    return chance.choice((tie, tie, tie - 1, 2 ** 23 - 1, -2 ** 23,
                          chance.randint(-2 ** 23, 2 ** 23 - 1)))


def make_sender(chance, many=False):
    """Any sender, or one of over 1,000 packets; now and then a track longer than the box's, so that packets don't fit."""
    data_type, channels = chance.randint(0, 3), chance.randint(1, 8)
    largest = min(256, 1436 // (channels * SIZES[data_type]))
    n = chance.choice((1, 2) if many else (1, chance.randint(1, min(12, largest)), chance.randint(1, largest), largest))
    long = many or n >= 32 and chance.random() < 0.4
    total = RECORDS + chance.randint(1, 900) if long else chance.randint(1, min(40 * n, 300))
    near = chance.choice((0, 2 ** 31, 2 ** 32, chance.randrange(2 ** 32)))
    length = chance.randint(1, 16)
    return Sender(
        address=chance.randbytes(4), name=bytes(chance.randint(0x20, 0x7E) for _ in range(length)),
        rate=chance.randint(0, 20), data_type=data_type, channels=channels, n=n,
        start=(near - chance.randint(0, 20)) % 2 ** 32,
        frames=[[slot(chance) for _ in range(8)] for _ in range(total)])


def bytes_of(frames):
    return b"".join(slot.to_bytes(3, "little", signed=True) for frame in frames for slot in frame)


def cut(sender, command, folder):
    """The packets' capture records; a longer track is cut in parts whose counters run on."""
    whole = RECORDS // sender.n * sender.n
    capture = b""
    for first in range(0, len(sender.frames), whole):
        start = (sender.start + first // sender.n) % 2 ** 32
        job = {CUTLIST.job: sender.address + sender.header(start)}
        cases.save(folder, job, bytes_of(sender.frames[first:first + whole]))
        outcome = cases.run(command, CUTLIST, folder)
        if outcome.lines or not outcome.well():
            return None
        capture += outcome.output
    return [capture[at:at + CAPTURED] for at in range(0, len(capture), CAPTURED)]


def make_history(chance, count):
    """Packet numbers as they are heard: some lost, some twice, and out of order."""
    heard = [k for k in range(count) if chance.random() < chance.choice((0.6, 0.9, 1.0))]
    heard += [k for k in heard if chance.random() < 0.15]
    reach = chance.choice((0, 1, 2, 4, count))
    heard.sort(key=lambda k: k + chance.uniform(0, 1.5) * reach)
    if chance.random() < 0.3:
        heard = heard[chance.randrange(len(heard) + 1):]
    return heard


def stranger(chance, record):
    """A datagram that is not audio of that name and address, made of one that is."""
    changed = bytearray(record)
    length = int.from_bytes(record[4:8], "little")
    kind = chance.randrange(7)
    if kind == 0:
        changed[chance.randrange(4)] ^= chance.randint(1, 255)
    elif kind == 1:
        changed[16] = 0x41 if changed[16] != 0x41 else 0x42
    elif kind == 2:
        changed[12] |= 0x20 * chance.randint(1, 7)
    elif kind == 3:
        changed[15] |= chance.choice((0x08, 0x10, 0xF0, 0x04))
    elif kind == 4:
        length += chance.choice((-1, 1, -length, 2 ** 31))
        changed[4:8] = length.to_bytes(4, "little")
    elif kind == 5:
        changed[8:36] = chance.randbytes(28)
    else:
        changed[8 + chance.randrange(4)] ^= 0x80
    return bytes(changed)


def accepted(sender, heard):
    """The packets heard that fitted and were newer than all accepted before, the first apart."""
    taken = []
    for k in heard:
        end = (k - taken[0] if taken else 0) * sender.n + sender.count(k)
        if end <= RECORDS and (not taken or k > max(taken)):
            taken.append(k)
    return taken


def laid(sender, taken):
    """Place, frames and skipped packets of each packet accepted."""
    return [((k - taken[0]) * sender.n, sender.count(k), k - before - 1)
            for before, k in zip([taken[0] - 1, *taken], taken)] if taken else []


def wrong_lines(lines, records, due):
    """What is wrong with takelist's lines, if anything; due is what is told of the packets accepted."""
    told = [tuple(map(int, line)) for line in LINE.findall(lines)]
    if b"".join(b"%d %d %d %d %d\n" % line for line in told) != lines:
        return "a line is not of five numbers"
    if [line[0] for line in told] != list(range(records)):
        return "the indexes are not those of the records"
    if [line[2:] for line in told if line[1] == 0] != due:
        return "other packets accepted than due, or another place, frame count or skipped count"
    return "a refusal with more than its number" if any(any(line[2:]) for line in told if line[1]) else None


def expected(sender, taken):
    """The track by demand 3: sender's frame kN + i where its packet was accepted, else silence."""
    bits = 8 * SIZES[sender.data_type]
    track, held = [], set(taken)
    for i in range(RECORDS):
        frame = [0] * 8
        if taken:
            index = taken[0] * sender.n + i
            if index // sender.n in held and index < len(sender.frames):
                sent = sender.frames[index][:sender.channels]
                frame[:sender.channels] = [carried(number, bits) for number in sent]
        track.append(frame)
    return bytes_of(track)


def lay_out(chance, records, heard):
    """The capture of a history, with strangers between."""
    capture = []
    for k in heard:
        while chance.random() < 0.25:
            capture.append(stranger(chance, chance.choice(records)))
        capture.append(records[k])
    return b"".join(capture)


def one(seed, number, takelist, cutlist):
    """One history; gives what went wrong, or nothing."""
    chance = random.Random(f"{seed} {number}")
    sender = make_sender(chance, number >= LONG and number % 2 == 0)
    folder = WORK / f"{number:05}"
    records = cut(sender, cutlist, folder)
    if records is None or len(records) != sender.packets():
        return f"{folder}: not cut into {sender.packets()} packets"
    heard = make_history(chance, sender.packets())
    capture = lay_out(chance, records, heard)
    cases.save(folder, {TAKELIST.job: sender.address + sender.name.ljust(16, b"\0")}, capture)
    outcome = cases.run(takelist, TAKELIST, folder)
    if not outcome.well():
        return f"{folder}: {outcome.left}, {outcome.said}"
    taken = accepted(sender, heard)
    wrong = wrong_lines(outcome.lines, len(capture) // CAPTURED, laid(sender, taken))
    if wrong:
        return f"{folder}: {wrong}"
    if outcome.output != expected(sender, taken):
        return f"{folder}: the track is not what demand 3 says"
    return None


def histories(seed, count, takelist, cutlist):
    """Runs so many histories and gives how many hold and how many don't."""
    began = time.monotonic()
    with ThreadPoolExecutor(os.cpu_count()) as pool:
        numbers = range(count)
        wrong = list(filter(None, pool.map(lambda k: one(seed, k, takelist, cutlist), numbers)))
    took = time.monotonic() - began
    print(f"round trip: {count} histories of seed {seed} in {took:.1f} s, {len(wrong)} wrong")
    for line in wrong[:5]:
        print("  " + line)
    return count - len(wrong), len(wrong)
