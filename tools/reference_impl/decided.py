"""What a command has to write of a stream before it ends."""

from collections.abc import Iterator

from .commands import convert, frame_lines, show_lines
from .complete import Completeness
from .epochs import Choice, Setup
from .files import File, gap_lines
from .frames import decided_length
from .options import COLUMNS, completeness_of, plan_of
from .quality import period_lines

CONVERT = "convert --week 2075 --date x --gps 1C,2L --galileo 1C,7Q".split()
EVERY_2 = [*CONVERT, "--interval", "2"]
CHOICES = {tuple(CONVERT): Choice(), tuple(EVERY_2): Choice(interval=2000)}
GAPS = "check --gaps 0.5".split()
DAY = ["2019-10-17", "2019-10-18"]
BY_5 = "quality --every 5".split()
OF_DAY = [*GAPS, "--from", DAY[0], "--until", DAY[1]]
COMPLETE = {tuple(GAPS): completeness_of("0.5", None, None), tuple(OF_DAY): completeness_of("0.5", *DAY)}


def gaps(data: bytes, complete: Completeness) -> Iterator[str]:
    """Yields the gaps before and between the epochs of a file that may be cut."""
    file = File(data, complete)
    file.fault()
    yield from gap_lines(complete, file.times, False)


def periods(data: bytes) -> Iterator[str]:
    """Yields the lines of BY_5 of the periods before that of the last whole epoch of a file that may be cut."""
    file = File(data)
    file.fault()
    yield from period_lines(file, 5000, False)


def decided_output(words: list[str], data: bytes) -> bytes:
    """Returns what these bytes decide: of CONVERT and EVERY_2 the file of the closed epochs, of GAPS and OF_DAY the
    gaps of the whole epochs, of BY_5 their periods but the last."""
    decided = data[: decided_length(data)]
    if complete := COMPLETE.get(tuple(words)):
        lines = gaps(data, complete)
    elif words == BY_5:
        lines = periods(data)
    elif choice := CHOICES.get(tuple(words)):
        setup = Setup(2075, None, True, plan_of("1C,2L", "1C,7Q"), choice=choice)
        texts = dict.fromkeys(COLUMNS, "") | {"date": "x", "marker_type": "GEODETIC"}
        lines, _ = convert(decided, setup, texts, has_ended=False)
    else:
        lines = {"frames": frame_lines, "show": show_lines}.get(words[0], lambda _: [])(decided)
    return "".join(line + "\n" for line in lines).encode("ascii")
