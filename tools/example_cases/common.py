"""What the tests of several scripts share: a station, its days, and how a script is called."""
from functools import cache
from pathlib import Path

from rooms import RECORDED, TOP, at, messages_of, stream_of

EXAMPLES = TOP / "examples"
# A recording with ephemerides, which have its week, and one without.
DATED, UNDATED = TOP / "cases/input/gr30-2025-04-11.rtcm3", RECORDED
# A Sunday, whose log begins in the week before.
DAY, BEFORE, AFTER = "2024-02-11", "2024-02-10", "2024-02-12"
STEP, EPOCHS = 30_000, 2880
STATION = "KIRU00SWE"
MADE = f"obs/{STATION}/{STATION}_S_20240420000_01D_30S_MO.rnx"


@cache
def day_messages(day: str, first: int = -1, last: int = EPOCHS + 1) -> tuple[bytes, ...]:
    """Returns the messages of a day's log, its 1005 and two of each epoch, from 30 s before the day to 0 h after it."""
    return tuple(messages_of([at(day) + STEP * n for n in range(first, last)]))


@cache
def day_log(day: str) -> bytes:
    return stream_of([*day_messages(day)])


def day_times() -> list[int]:
    """Returns the times of the epochs of DAY."""
    return [at(DAY) + STEP * n for n in range(EPOCHS)]


def header_of(text: str) -> str:
    return text.split("END OF HEADER", 1)[0]


def body_of(text: str) -> str:
    return text.split("END OF HEADER", 1)[-1]


def script(name: str, *words: str | Path) -> str:
    return " ".join(["sh", str(EXAMPLES / name), *(f"'{word}'" for word in words)])
