"""The answers in words, as firmware/tashmirok_words.h lists them for everybody."""

import re

from programs import ROOT

LIST = ROOT / "outside" / "firmware" / "tashmirok_words.h"
ROW = re.compile(r'^ *ANSWER\((\d+), "([^"]+)", "([^"]+)"\)', re.M)


def answers():
    """The name and the meaning of each answer, by its number."""
    return {int(number): (name, meaning) for number, name, meaning in ROW.findall(LIST.read_text(encoding="ascii"))}
