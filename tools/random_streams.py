"""Random streams, the options with which they are converted, and hostile streams, for tools/compare."""
import random
from collections.abc import Iterator
from dataclasses import dataclass, replace
from datetime import date, datetime, timedelta
from pathlib import Path

from case_rows.weeks import EPHEMERIDES as SENT_MESSAGES
from case_rows.weeks import HOUR, ephemeris, glonass, unplanned
from case_rows.weeks import at as at_time
from reference_impl.epochs import LAST_WEEK, Choice, Plan, Setup
from reference_impl.fields import Bits
from reference_impl.frames import frame_of, frames_of
from reference_impl.messages import EVERY as KNOWN
from reference_impl.messages import FIRST_NUMBERS, SATELLITES, SIGNALS, WEEK, Refused, number_of
from reference_impl.messages import READ_FORMS as FORMS
from reference_impl.messages import READ_SYSTEMS as SYSTEMS
from reference_impl.options import FORMS_OF, OPTION_NAMES, channels_of_text, leap_seconds_at, noon_of, plan_of
from reference_impl.recode import recoded
from reference_impl.stream import MOST_PAIRS, Form, Part, System, pieces

TOP = Path(__file__).resolve().parent.parent
# The intervals of epochs and the tolerances that streams are converted with, in ms.
INTERVALS = (None, 100, 1000, 2000, 3000, 5000, 30_000, 86_400_000)
TOLERANCES = (0, 1, 5, 50)
# The texts of plans that random streams are converted with.
PLANS = {
    "G": ("all", "1C,2W,2L,5Q", "none", "2X,1C"),
    "E": ("all", "1C,7Q,5Q", "1X"),
    "R": ("all", "2P,1C", "1P,2C", "none"),
    "C": ("all", "7I,2I", "5P,6I,1P", "none"),
    "J": ("all", "1C,5X,2X", "none"),
    "S": ("all", "5I,1C", "none"),
}
# GPS and others without Galileo: all signals.
HOSTILE_PLANS = {"G": "all", "E": "none"} | {system: "all" for system in SYSTEMS if system not in "GE"}
# The channels of most GLONASS slots in 2025, and some of them.
CHANNELS = "1:1,2:-4,3:5,4:6,5:1,6:-4,7:5,8:6,9:-2,10:-7,11:0,13:-2,14:-7,15:0,16:-1,17:4,18:-3,19:3,20:2,21:4,22:-3"
CHANNEL_TEXTS = (CHANNELS, "24:2,5:1,26:-5,1:-7", "")


@dataclass
class Case:
    """A stream, the options with which it is converted, and where it comes from."""

    which: str
    given: bytes
    words: list[str]
    setup: Setup


def plan_words(plans: dict[str, str]) -> list[str]:
    """Returns the options of the signals of each system."""
    return [word for system, codes in plans.items() for word in (f"--{OPTION_NAMES[system]}", codes)]


def plan_by(plans: dict[str, str]) -> Plan:
    return plan_of(**{OPTION_NAMES[system]: codes for system, codes in plans.items()})


def date_text(days: int) -> str:
    """Returns the date this number of days after 1980-01-06."""
    return (date(1980, 1, 6) + timedelta(days=days)).isoformat()


def time_text(time: int) -> str:
    """Returns the time of a number of seconds after 1980-01-06."""
    return (datetime(1980, 1, 6) + timedelta(seconds=time)).isoformat("T", "seconds")


def glonass_words(channels: str, leap_seconds: int | None) -> list[str]:
    """Returns the options of GLONASS."""
    words = [] if leap_seconds is None else ["--leap-seconds", str(leap_seconds)]
    return ["--glonass-channels", channels, *words]


def start_of(draw: random.Random, week: int) -> tuple[list[str], dict[str, int | None]]:
    """Returns the option of a week or of a date in it, or near which the week is, and the settings that it gives."""
    days = 7 * week + draw.randrange(7)
    if draw.random() < 0.6:
        return ["--week", draw.choice((str(week), date_text(days)))], {"week": week}
    days = draw.choice((days, days, draw.randrange(7 * LAST_WEEK)))
    noon = noon_of(date_text(days))
    return ["--near", date_text(days)], {"week": None, "noon": noon, "leap_seconds": leap_seconds_at(noon)}


def setup_of(gather: str, plans: dict[str, str], forms: str, **further: object) -> Setup:
    week, station = further.pop("week", 2300), further.pop("station", None)
    return Setup(week, station, gather == "bit", plan_by(plans), forms=FORMS_OF[forms], **further)


def choice_of_times(draw: random.Random, times: list[int]) -> tuple[list[str], Choice]:
    """Returns options that choose some of the epochs of these times, and the choice."""
    interval, tolerance = draw.choice(INTERVALS), draw.choice(TOLERANCES)
    last = LAST_WEEK * 7 * 86_400 - 1
    start, until = (min(draw.choice(times) // 1000 + draw.choice((0, 1)), last) for _ in range(2))
    choice, words = Choice(interval=interval, tolerance=tolerance), ["--tolerance", f"{tolerance / 1000:.3f}"]
    if interval is not None:
        words += ["--interval", f"{interval / 1000:.3f}"]
    if draw.random() < 0.4:
        choice, words = replace(choice, start=1000 * start), [*words, "--from", time_text(start)]
    if 1000 * until > choice.start and draw.random() < 0.4:
        choice, words = replace(choice, until=1000 * until), [*words, "--until", time_text(until)]
    return words, choice


def stored_messages() -> list[bytes]:
    """Returns the messages of all stored streams."""
    paths = sorted([*(TOP / "samples").glob("*.rtcm3"), *(TOP / "cases/input").glob("*.rtcm3")])
    return [message for path in paths for _, message in frames_of(path.read_bytes())]


def numbered(message: bytes, number: int) -> bytes:
    """Returns the message with another number."""
    bits = Bits(message)
    return (bits.number + (number - bits.peek(0, 12) << bits.count - 12)).to_bytes(len(message), "big")


class Streams:
    """Generates random streams and options."""

    def __init__(self, seed: int) -> None:
        self.random = random.Random(seed)
        self.messages = stored_messages()

    def message(self, first: int, n: int) -> bytes:
        """Returns the next message of a stored stream or, in one of five calls, any; some with inverted bits."""
        draw = self.random
        at = (first + n) % len(self.messages) if draw.random() < 0.8 else draw.randrange(len(self.messages))
        message = bytearray(self.renumbered(self.recoded(self.messages[at])))
        for _ in range(draw.choice((0, 0, 1, 2, 5)) if message else 0):
            message[draw.randrange(len(message))] ^= 1 << draw.randrange(8)
        return bytes(message[: draw.randrange(len(message) + 1)] if draw.random() < 0.1 else message)

    def recoded(self, message: bytes) -> bytes:
        """Returns one of three MSM7s as an MSM of any form, other messages as they are."""
        if number_of(message) not in KNOWN or number_of(message) % 10 != 7 or self.random.random() < 0.7:
            return message
        try:
            return recoded(message, self.random.choice(FORMS))
        except Refused:
            return message

    def renumbered(self, message: bytes) -> bytes:
        """Returns one of ten MSMs as one of any system, other messages as they are."""
        number = number_of(message)
        if number not in KNOWN or self.random.random() < 0.9:
            return message
        return numbered(message, FIRST_NUMBERS[self.random.choice(SYSTEMS)] + number % 10)

    def stream(self) -> bytes:
        draw = self.random
        first, parts = draw.randrange(len(self.messages)), []
        for n in range(draw.randrange(1, 14)):
            frame = frame_of(self.message(first, n))
            kind = draw.random()
            if kind < 0.1:
                parts.append(draw.randbytes(draw.randrange(20)))
            elif kind < 0.2:
                parts.append(b"\xd3" + draw.randbytes(2))
            elif kind < 0.25:
                frame = frame[: draw.randrange(len(frame))]
            parts.append(frame)
        return b"".join(parts)

    def options(self) -> tuple[list[str], Setup]:
        draw = self.random
        start_words, start = start_of(draw, draw.choice((0, 2075, 2300, 99_999)))
        gather = draw.choice(("bit", "time"))
        station = draw.choice((None, None, 0, 633, 2003))
        plans = {system: draw.choice(PLANS[system]) for system in SYSTEMS}
        forms = draw.choice(("4,7", "all"))
        words = [*start_words, "--date", "", "--gather", gather, *plan_words(plans)]
        words += ["--msm", forms, *([] if station is None else ["--station", str(station)])]
        channels, leap_seconds = draw.choice(CHANNEL_TEXTS), draw.choice((18, None, 0, 17, 255))
        words += glonass_words(channels, leap_seconds)
        start |= {} if leap_seconds is None else {"leap_seconds": leap_seconds}
        return words, setup_of(gather, plans, forms, station=station, channels=channels_of_text(channels), **start)


class Weeks:
    """Generates streams of MSMs that count or not, and of ephemerides of their times or others, from week 2300 on."""

    def __init__(self, seed: int) -> None:
        self.random = random.Random(seed)

    def sent(self, time: int) -> bytes:
        """Returns an ephemeris near this time, or beside the limits."""
        draw = self.random
        number = draw.choice((1019, 1019, 1042, 1045, 1046))
        unit = 1000 * SENT_MESSAGES[number][5]
        beside = time + draw.choice((0, 0, 0, -6, 6, -5, 5, 24)) * HOUR
        clock = max(beside % WEEK // unit + draw.choice((-1, 0, 0, 1)), 0)
        week = 2300 + time // WEEK + draw.choice((0, 0, 0, 0, 0, 0, -1, 1, 1024, -1024))
        message = ephemeris(number, week, clock, last=1)
        return message[: -1 if draw.random() < 0.03 else None]

    def stream(self) -> bytes:
        draw = self.random
        time = draw.choice((0, HOUR, WEEK // 2, WEEK - HOUR, draw.randrange(WEEK)))
        messages = []
        for _ in range(draw.randrange(1, 16)):
            steps = (0, 1, 1000, 18_000, HOUR, 12 * HOUR, 80 * HOUR, WEEK // 2, WEEK // 2 + 1, -1000, -HOUR, -90 * HOUR)
            time = max(time + draw.choice(steps), 0)
            made = draw.choice((at_time, at_time, glonass, unplanned, self.sent, self.sent, self.sent))
            messages.append(made(time))
        return b"".join(map(frame_of, messages))


class Epochs:
    """Generates streams of epochs that are split into messages in any way, and options with plans in any order."""

    def __init__(self, seed: int) -> None:
        self.random = random.Random(seed)

    def form(self) -> Form:
        draw = self.random
        satellites, signals = {}, {}
        for system in SYSTEMS:
            ids, most = SIGNALS[system], SATELLITES[system]
            satellites[system] = draw.choice((2, 9, most, most))
            signals[system] = tuple(draw.sample(sorted(ids), draw.choice((len(ids), draw.randint(1, len(ids))))))
        return Form(satellites, signals)

    def parts(self, system: System) -> list[Part]:
        """Returns the satellites and signals of two to eight messages of an epoch."""
        draw, ids, signals = self.random, list(system.start), list(system.form.signals[system.system])
        draw.shuffle(ids)
        group = draw.randint(1, len(signals))
        per = min(draw.choice((1, 3, 64, 64)), MOST_PAIRS // group)
        parts = [(some, codes) for codes in pieces(signals, group) for some in pieces(ids, per)]
        draw.shuffle(parts)
        count = draw.choice((8, draw.randint(2, 8)))
        parts = parts[: max(1, count - draw.choice((0, 2)))]
        # the others are repeated, or have the signals of one for other satellites
        for some, codes in draw.choices(parts, k=count - len(parts)):
            parts.append(draw.choice(((some, codes), (draw.sample(ids, len(some)), codes))))
        draw.shuffle(parts)
        return [(sorted(some), sorted(codes)) for some, codes in parts]

    def stream(self, form: Form) -> bytes:
        draw, made = self.random, []
        systems = [System(system, form, draw) for system in SYSTEMS]
        for epoch in range(draw.randint(1, 3)):
            messages = [(system, part) for system in systems for part in self.parts(system)]
            if draw.random() < 0.3:
                draw.shuffle(messages)
            for place, (system, part) in enumerate(messages, 1):
                more = place < len(messages)
                made.append(frame_of(system.message(part, 1000 * epoch, more, draw.choice(FORMS))))
        return b"".join(made)

    def plan(self, system: str, form: Form) -> str:
        """Returns the sent signals but for some, and some others, in any order, or all."""
        draw, table = self.random, SIGNALS[system]
        sent = [table[id] for id in form.signals[system] if draw.random() < 0.9]
        others = [code for id, code in table.items() if id not in form.signals[system] and draw.random() < 0.2]
        codes = draw.sample(sent + others, len(sent + others))
        return draw.choice(("all", *3 * [",".join(codes) or "all"]))

    def options(self, form: Form) -> tuple[list[str], Setup]:
        gather = self.random.choice(("bit", "time"))
        plans = {system: self.plan(system, form) for system in SYSTEMS}
        # the times begin with the week, so that noon of a Wednesday is half a week away
        words, start = start_of(self.random, self.random.choice((0, 1, 1700, 2300, 99_999)))
        words += ["--date", "", "--gather", gather, *plan_words(plans), "--msm", "all"]
        words += glonass_words(CHANNELS, None)
        return words, setup_of(gather, plans, "all", channels=channels_of_text(CHANNELS), **start)


def hostile_streams() -> Iterator[tuple[str, bytes]]:
    """Returns each truncation and each inverted byte of the messages of samples/four-messages.rtcm3, in a valid frame,
    alone and after a valid frame, and likewise of its MSM7 in each other form and as that of each other system, after
    itself."""
    stored = [message for _, message in frames_of((TOP / "samples/four-messages.rtcm3").read_bytes())]
    long = next(message for message in stored if number_of(message) == 1077)
    others = [recoded(long, form) for form in FORMS if form not in (4, 7)]
    others += [numbered(long, FIRST_NUMBERS[system] + 7) for system in SYSTEMS if system not in "GE"]
    for message in [*stored, *others]:
        number = number_of(message)
        changed = {f"{number} of {size} bytes": message[:size] for size in range(len(message))}
        for place, byte in enumerate(message):
            other = message[:place] + bytes([byte ^ 255]) + message[place + 1 :]
            changed[f"{number} with byte {place} inverted"] = other
        for what, other in changed.items():
            yield what, frame_of(other)
            for first in stored if message in stored else [message]:
                yield f"{number_of(first)}, then {what}", frame_of(first) + frame_of(other)


def cases(seed: int, streams: int, epochs: int) -> Iterator[Case]:
    """Returns hostile streams, these numbers of random streams and of streams of split epochs, and streams of weeks."""
    words = ["--week", "2300", "--date", "", *plan_words(HOSTILE_PLANS), "--msm", "all", *glonass_words(CHANNELS, 18)]
    setup = setup_of("bit", HOSTILE_PLANS, "all", channels=channels_of_text(CHANNELS))
    for which, given in hostile_streams():
        yield Case(which, given, words, setup)
    drawn = Streams(seed)
    for n in range(streams):
        given = drawn.stream()
        yield Case(f"stream {n} of seed {seed}", given, *drawn.options())
    weeks = Weeks(seed)
    for n in range(streams):
        yield Case(f"weeks {n} of seed {seed}", weeks.stream(), words, setup)
    split = Epochs(seed)
    for n in range(epochs):
        form = split.form()
        given = split.stream(form)
        yield Case(f"split epochs {n} of seed {seed}", given, *split.options(form))
