"""The main job on the sample: a talk cut into packets, heard with losses, laid down as a track."""

import shutil
import sys
import textwrap
from collections import Counter
from dataclasses import dataclass
from itertools import groupby

sys.dont_write_bytecode = True

import cases
import talk
import words
from programs import ROOT, TARGET, arguments, build_programs, program
from round_trip import CAPTURED, RECORD, SIZES, accepted, expected

WORK = TARGET / "run"
SILENCE = bytes(RECORD)

ANSWERS = words.answers()
LAST = 16  # of the answers that following gives


@dataclass
class Line:
    """One of takelist's lines, and the datagram that it speaks of."""
    text: str
    heard: talk.Heard
    answer: int
    place: int
    frames: int
    skipped: int

    def refusal(self):
        return "{} {}, {}".format(self.answer, *ANSWERS[self.answer])

    def words(self, again):
        who = talk.KINDS[self.heard.kind][0].format(self.heard.packet)
        who += ", again" if again else ""
        if self.answer:
            return f"{who}: {self.refusal()}"
        laid = f"{who}: accepted, laid at frames {self.place}-{self.place + self.frames - 1}"
        return laid + (f"; {packets(self.skipped)} skipped before it" if self.skipped else "")


def packets(count):
    return f"{count} packet" + ("" if count == 1 else "s")


def launch(name, folder, given):
    """Runs a program in the work folder and gives what it prints; all ends here if it complains."""
    with open(given, "rb") as stdin:
        done = cases.start(program(name, folder), WORK, stdin)
    if done is None or done.returncode != 0 or done.stderr:
        how = f"status {done.returncode}, {done.stderr}" if done else "it does not end"
        raise SystemExit(f"{name} does not do its work: {how}")
    return done.stdout.decode("ascii")


def written(name):
    """An output file of the work folder."""
    path = WORK / name
    if not path.is_file():
        raise SystemExit(f"no {name} was written")
    return path.read_bytes()


def cut(sender, folder):
    """Has cutlist cut the desk's track and gives the packets' capture records."""
    said = launch("cutlist", folder, talk.FOLDER / "sent.bin")
    if said:
        raise SystemExit("cutlist refuses the sample: " + said)
    capture = written("cut.cap")
    if len(capture) != CAPTURED * sender.packets():
        raise SystemExit(f"cutlist does not cut the sample into {packets(sender.packets())}")
    return [capture[at:at + CAPTURED] for at in range(0, len(capture), CAPTURED)]


def follow(history, folder):
    """Has takelist follow the capture; gives its lines and the track."""
    printed = launch("takelist", folder, WORK / "heard.cap").splitlines()
    try:
        rows = [tuple(map(int, text.split())) for text in printed]
        if [row[0] for row in rows] != list(range(len(history))):
            raise ValueError("not one line a datagram")
        lines = [Line(text, heard, *row[1:]) for text, heard, row in zip(printed, history, rows)]
    except (ValueError, TypeError, IndexError) as error:
        raise SystemExit(f"takelist's lines are not understood: {error}") from error
    return lines, written("track.bin")


def frame(track, i):
    return track[i * RECORD:(i + 1) * RECORD]


def heading(words):
    print(f"\n{words}\n")


def title(sender, history):
    last = sender.packets() - 1
    told = (
        f"Our desk, at {'.'.join(map(str, sender.address))}, sends a talk as the stream "
        f"{sender.name.decode('ascii')}: {len(sender.frames)} frames of stereo sound, which "
        f"cutlist has cut into {packets(last + 1)} of {sender.n} frames (the last has "
        f"{sender.count(last)}). Their counter runs past its end and starts again at 0 with packet "
        f"{2 ** 32 - sender.start}. On the way some are lost, some come twice or late, and other "
        f"senders' are in between. The box hears the {len(history)} datagrams that come of this; "
        f"takelist answers each one and lays ours down as a track.")
    print("Recording a talk from the hall's network")
    print("========================================\n")
    print(textwrap.fill(told, 96))


def table_of_lines(lines):
    """Each of takelist's lines as printed, and what it says in words."""
    heading("takelist's lines (number, answer, place, frames, packets skipped), and each in words."
            "\nAnswer 0 is acceptance; every other is a refusal and leaves the track as it is:")
    known = set()
    for line in lines:
        who = (line.heard.kind, line.heard.packet)
        print(f"  {line.text:12}  {line.words(line.heard.kind == 'ours' and who in known)}")
        known.add(who)


def table_of_answers(lines):
    heading("How often each answer came:")
    counts = Counter(line.answer for line in lines)
    for number, times in sorted(counts.items()):
        name, meaning = ANSWERS[number]
        print(f"  {number:2} {name:12} {times:3} {'time ' if times == 1 else 'times'}  {meaning}")
    never = [str(number) for number in ANSWERS if number <= LAST and number not in counts]
    print(f"  The answers {', '.join(never)} did not come.")


def reason(k, lines):
    """Why packet k is a hole: what came of it, or that nothing did."""
    came = [line for line in lines if line.heard.kind in ("ours", "damaged")
            and line.heard.packet == k]
    if not came:
        return f"packet {k} was never heard"
    line = came[0]
    return f"packet {k} came as number {line.text.split()[0]}: {line.refusal()}"


def table_of_holes(sender, lines, track):
    """The silent frames, packet by packet, and why each is silent."""
    heading("Where the track is silent (a hole keeps its length, so what follows stays in time):")
    first = next((line.heard.packet for line in lines if line.answer == 0), 0)
    end = len(sender.frames) - first * sender.n
    silent = [i for i in range(len(track) // RECORD) if frame(track, i) == SILENCE]
    for k, hole in groupby(silent, lambda i: first + i // sender.n if i < end else None):
        hole = list(hole)
        why = "after the end of the talk" if k is None else reason(k, lines)
        print(f"  frames {hole[0]:4}-{hole[-1]:<4}  {why}")


def count(sender, first, track):
    """How many frames are the desk's, silent in the talk, silent after it, and anything else."""
    whole = expected(sender, list(range(first, sender.packets())))
    kinds = Counter()
    for i in range(len(track) // RECORD):
        if frame(track, i) == SILENCE:
            kinds["after" if frame(whole, i) == SILENCE else "hole"] += 1
        else:
            kinds["desk" if frame(track, i) == frame(whole, i) else "other"] += 1
    return kinds


def due(sender, history):
    """The numbers due after each line's own: answer, place, frames and packets skipped."""
    taken = []
    for heard in history:
        if heard.due:
            yield (heard.due, 0, 0, 0)
            continue
        taken.append(heard.packet)
        skipped = taken[-1] - taken[-2] - 1 if len(taken) > 1 else 0
        yield (0, (taken[-1] - taken[0]) * sender.n, sender.count(heard.packet), skipped)


def check(sender, lines, track):
    """Counts the frames of each kind, and gives the counts and all that is not as it should be."""
    history = [line.heard for line in lines]
    taken = accepted(sender, [heard.packet for heard in history if heard.kind == "ours"])
    kinds = count(sender, taken[0], track)
    wrong = [f"line '{line.text}': after its number, {' '.join(map(str, numbers))} is due"
             for line, numbers in zip(lines, due(sender, history))
             if (line.answer, line.place, line.frames, line.skipped) != numbers]
    if track != expected(sender, taken):
        wrong.append("the track is not what demand 3 makes of what was heard")
    if kinds["other"]:
        wrong.append(f"{kinds['other']} frames are neither the desk's nor silent")
    return kinds, wrong


def verdict(sender, kinds, wrong):
    heading("The track against what the desk sent, frame by frame:")
    bits = 8 * SIZES[sender.data_type]
    for key, words in (
            ("desk", f"frames are the desk's, exactly as its {bits}-bit samples carry them"),
            ("hole", "frames of the talk are silent: the holes above"),
            ("other", "frames are anything else"),
            ("after", "frames after the end of the talk are silent")):
        print(f"  {kinds[key]:4} {words}")
    print()
    for line in wrong:
        print("WRONG: " + line)
    if not wrong:
        print("All is as it should be. "
              f"{WORK.relative_to(ROOT)} has cut.cap (as cut), heard.cap (as heard) and track.bin.")


def main():
    folder = arguments(__doc__).parse_args().programs
    if folder is None:
        build_programs()
    sender, history = talk.load_sender(), talk.load_history()
    shutil.rmtree(WORK, ignore_errors=True)
    WORK.mkdir(parents=True)
    for name in ("cut.bin", "wanted.bin"):
        shutil.copy(talk.FOLDER / name, WORK / name)
    (WORK / "heard.cap").write_bytes(talk.capture_of(history, cut(sender, folder)))
    lines, track = follow(history, folder)
    title(sender, history)
    table_of_lines(lines)
    table_of_answers(lines)
    table_of_holes(sender, lines, track)
    kinds, wrong = check(sender, lines, track)
    verdict(sender, kinds, wrong)
    return 1 if wrong else 0


if __name__ == "__main__":
    sys.exit(main())
