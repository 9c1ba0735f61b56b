"""The sample is what its generator makes, and `make run` on it shows all and notices a fault."""

import subprocess
import sys
from pathlib import Path

sys.dont_write_bytecode = True
OUTSIDE = Path(__file__).resolve().parent.parent
sys.path[:0] = [str(OUTSIDE), str(OUTSIDE / "samples")]

import make
import run
import talk
from programs import arguments
from report import report

WIDTH = 100


def as_made():
    """Every committed file is the generator's, and there is no other."""
    stored = {path.name: path.read_bytes() for path in talk.FOLDER.iterdir()}
    return stored == make.files()


def shown(folder):
    """The run ends well, in plain ASCII of at most 100 columns."""
    words = ["--programs", folder] if folder else []
    done = subprocess.run([sys.executable, str(OUTSIDE / "run.py"), *words],
                          capture_output=True, check=False)
    lines = done.stdout.splitlines()
    print((done.stdout + done.stderr).decode("ascii", "replace"), end="")
    return (done.returncode == 0 and not done.stderr and done.stdout.isascii()
            and max(map(len, lines), default=0) <= WIDTH)


def noticed(change):
    """A change to the lines or the track of a good run is found wrong."""
    sender, history = talk.load_sender(), talk.load_history()
    track = bytearray((run.WORK / "track.bin").read_bytes())
    lines = [run.Line("", heard, *numbers)
             for heard, numbers in zip(history, run.due(sender, history))]
    good = run.check(sender, lines, bytes(track))[1]
    change(lines, track)
    return not good and bool(run.check(sender, lines, bytes(track))[1])


def frame_of_another(_, track):
    track[0:24] = track[24:48]


def frame_lost(_, track):
    track[0:24] = bytes(24)


def late_one_laid(_, track):
    track[16 * 24:17 * 24] = track[0:24]


def answer_changed(lines, _):
    lines[2].answer = 0


def skipped_made_up(lines, _):
    lines[3].skipped = 0


def main():
    folder = arguments(__doc__).parse_args().programs
    ran = shown(folder)
    changes = (frame_of_another, frame_lost, late_one_laid, answer_changed, skipped_made_up)
    return report([("the sample is as made", as_made()), ("make run", ran),
                   *(("noticed: " + change.__name__, ran and noticed(change)) for change in changes)])


if __name__ == "__main__":
    sys.exit(main())
