"""The values of options: plans, weeks, dates, lengths and the texts of the header."""
import re
from datetime import date

from .complete import Completeness
from .epochs import LAST_WEEK, Choice, Plan, StationValues
from .messages import CHANNELS, DAY, SATELLITES, SIGNALS, Channels

# The texts of the header in the order in which they are judged, with their columns.
COLUMNS = {"run_by": 20, "date": 20, "comment": 60, "marker": 60, "marker_number": 20, "marker_type": 20}
COLUMNS |= {"observer": 20, "agency": 40}
COLUMNS |= dict.fromkeys("rec_number rec_type rec_version ant_number ant_type".split(), 20)
MOST = 1 << 37
# The options of the systems' signals, in the order of a file.
OPTION_NAMES = {"G": "gps", "E": "galileo", "R": "glonass", "C": "beidou", "J": "qzss", "S": "sbas"}
# The forms of MSM by the text of the option `--msm`.
FORMS_OF = {"4,7": (4, 7), "all": (4, 5, 6, 7)}
DATES = "a date yyyy-mm-dd, 1980-01-06 to 3896-07-18"
TIMES = "TIME: a date yyyy-mm-dd or a time yyyy-mm-ddThh:mm:ss, 1980-01-06 to 3896-07-18"
WEEK = "WEEK: a GPS week, 0 to 99999, or " + DATES
POSITION = "X,Y,Z: metres, up to 8 digits and 4 decimals each, -13743895.3472 to 13743895.3471"
SLOTS = "SLOT:CHANNEL,..: slots 1 to 27, each once, channels -7 to 6"
# From each of these dates on GPS time is a second more ahead of UTC, 18 s from the last.
LEAP_DATES = """
    1981-07-01 1982-07-01 1983-07-01 1985-07-01 1988-01-01 1990-01-01 1991-01-01 1992-07-01 1993-07-01 1994-07-01
    1996-01-01 1997-07-01 1999-01-01 2006-01-01 2009-01-01 2012-07-01 2015-07-01 2017-01-01
""".split()
HEIGHT = "HEIGHT: metres, up to 4 decimals, 0 to 6.5535"


class Fault(Exception):
    """An error that is printed: its name and what follows it."""


def check_texts(texts: dict[str, str]) -> None:
    """Raises the fault of the first text that isn't printable or has too many columns."""
    for name, columns in COLUMNS.items():
        text = texts[name].rstrip(" ").encode("utf-8", "surrogateescape")
        if any(not 0x20 <= byte <= 0x7E for byte in text):
            raise Fault(f"NotPrintable {name}")
        if len(text) > columns:
            raise Fault(f"TooLong {name}")


def days_of(text: str) -> int:
    """Returns the number of days from 1980-01-06 to a date."""
    found = re.fullmatch(r"(\d{4})-(\d\d)-(\d\d)", text, re.ASCII)
    if found is None:
        raise ValueError(text)
    days = (date(*map(int, found.groups())) - date(1980, 1, 6)).days
    if not 0 <= days < 7 * LAST_WEEK:
        raise ValueError(text)
    return days


def week_of(text: str) -> int:
    """Returns the GPS week of the option `--week`: a number, or that of a date."""
    try:
        if re.fullmatch(r"[+-]?\d+", text, re.ASCII) and 0 <= int(text) < LAST_WEEK:
            return int(text)
        return days_of(text) // 7
    except ValueError:
        raise Fault(f"BadDate --week {WEEK}") from None


def noon_of(text: str) -> int:
    """Returns noon of the date of the option `--near`, in milliseconds from 1980-01-06."""
    try:
        return (2 * days_of(text) + 1) * 43_200_000
    except ValueError:
        raise Fault(f"BadDate --near DATE: {DATES}") from None


def start_of(week: str | None, near: str | None) -> tuple[int | None, int | None]:
    """Returns the week of the option `--week`, or noon of the date of the option `--near`."""
    if (week is None) == (near is None):
        raise Fault("OneOf --week WEEK, --near DATE: one of them")
    return (None, noon_of(near)) if week is None else (week_of(week), None)


def length_of(text: str) -> int:
    """Returns a length in units of 0.0001 m, from a text in metres."""
    found = re.fullmatch(r"(-?)(\d{1,8})(?:\.(\d{1,4}))?", text, re.ASCII)
    if found is None:
        raise ValueError(text)
    sign, whole, decimals = found.groups("")
    size = int(whole) * 10_000 + int(decimals.ljust(4, "0"))
    return -size if sign else size


def milliseconds_of(text: str) -> int | None:
    """Returns the number of ms of a text in seconds with up to three decimals."""
    found = re.fullmatch(r"(\d{1,8})(?:\.(\d{1,3}))?", text, re.ASCII)
    return int(found[1]) * 1000 + int((found[2] or "").ljust(3, "0")) if found else None


def interval_of(text: str) -> int:
    """Returns the interval of the option `--gaps`, in ms."""
    interval = milliseconds_of(text) or 0
    if not 0 < interval <= DAY:
        raise Fault("BadGaps --gaps SECONDS: up to 3 decimals, 0.001 to 86400")
    return interval


def completeness_of(gaps: str | None, start: str | None, until: str | None) -> Completeness | None:
    """Returns what makes a file complete, by the options `--gaps`, `--from` and `--until` of `check`."""
    given = (gaps, start, until)
    if (start, until) != (None, None) and None in given:
        raise Fault("AllOf --gaps SECONDS, --from TIME, --until TIME: all of them")
    if gaps is None:
        return None
    interval = interval_of(gaps)
    if start is None or until is None:
        return Completeness(interval)
    window = time_of(start, "--from"), time_of(until, "--until")
    if window[1] <= window[0] or (window[1] - window[0]) % interval:
        raise Fault("BadWindow --until TIME: whole intervals after --from")
    return Completeness(interval, window)


def is_interval(interval: int) -> bool:
    """Returns whether epochs may have this interval in ms: a divisor of a day of 0.1 s or more."""
    return 100 <= interval <= DAY and DAY % interval == 0


def period_of(text: str) -> int:
    """Returns the period of the option `--every`, in ms."""
    period = milliseconds_of(text) or 0
    if period < 1000 or not is_interval(period):
        raise Fault("BadInterval --every SECONDS: up to 3 decimals, 1 to 86400, a divisor of a day")
    return period


def time_of(text: str, option: str) -> int:
    """Returns the time of the option `--from` or `--until`, in ms from 1980-01-06."""
    found = re.fullmatch(r"([0-9-]{10})(?:T(\d\d):(\d\d):(\d\d))?", text, re.ASCII)
    try:
        hour, minute, second = map(int, found.groups("0")[1:]) if found else (24, 0, 0)
        if hour > 23 or minute > 59 or second > 59:
            raise ValueError(text)
        return days_of(found[1]) * DAY + ((hour * 60 + minute) * 60 + second) * 1000
    except ValueError:
        raise Fault(f"BadDate {option} {TIMES}") from None


def choice_of(start: str | None, until: str | None, interval: str | None, tolerance: str | None) -> Choice:
    """Returns the choice of epochs of the options `--from`, `--until`, `--interval` and `--tolerance`."""
    choice = Choice()
    first = choice.start if start is None else time_of(start, "--from")
    end = choice.until if until is None else time_of(until, "--until")
    if end <= first:
        raise Fault("BadWindow --until TIME: later than --from")
    step = None if interval is None else milliseconds_of(interval) or 0
    if step is not None and not is_interval(step):
        raise Fault("BadInterval --interval SECONDS: up to 3 decimals, 0.1 to 86400, a divisor of a day")
    around = choice.tolerance if tolerance is None else milliseconds_of(tolerance)
    if around is None or around > 500 or step is not None and 2 * around > step:
        raise Fault("BadTolerance --tolerance SECONDS: up to 3 decimals, 0 to 0.5, at most half of --interval")
    return Choice(first, end, step, around)


def station_values(position: str, height: str) -> StationValues:
    """Returns the values of the options `--position` and `--antenna-height`."""
    try:
        x, y, z = (length_of(text) for text in position.split(","))
    except ValueError:
        raise Fault(f"BadPosition --position {POSITION}") from None
    if not all(-MOST <= length < MOST for length in (x, y, z)):
        raise Fault(f"BadPosition --position {POSITION}")
    try:
        above = -1 if height.startswith("-") else length_of(height)
    except ValueError:
        above = -1
    if not 0 <= above < 1 << 16:
        raise Fault(f"BadHeight --antenna-height {HEIGHT}")
    return (x, y, z), above


def leap_seconds_at(noon: int) -> int:
    """Returns GPS time less UTC at noon of a date, which is given in milliseconds from 1980-01-06."""
    return sum(days_of(text) <= noon // DAY for text in LEAP_DATES)


def channels_of_text(text: str) -> Channels:
    """Returns the channels of the option `--glonass-channels`."""
    channels: Channels = {}
    for part in text.split(",") if text else ():
        found = re.fullmatch(r"([1-9]\d?):(0|-?[1-9])", part, re.ASCII)
        slot, channel = map(int, found.groups()) if found else (0, 0)
        if not 1 <= slot <= SATELLITES["R"] or slot in channels or channel not in CHANNELS:
            raise Fault(f"BadChannels --glonass-channels {SLOTS}")
        channels[slot] = channel
    return channels


def codes_of(system: str, text: str) -> list[str]:
    """Returns the codes of a plan's text."""
    every = list(SIGNALS[system].values())
    if text in ("all", "none"):
        return every if text == "all" else []
    codes: list[str] = []
    for place, code in enumerate(text.split(",")):
        if code not in every:
            raise Fault(f"UnknownCode {system} {place}")
        if code in codes:
            raise Fault(f"RepeatedCode {system} {place}")
        codes.append(code)
    return codes


def plan_of(gps: str, galileo: str, **others: str) -> Plan:
    """Returns the plan of the options of the systems by their names; of others than GPS and Galileo the default is
    `none`."""
    texts = {"gps": gps, "galileo": galileo} | others
    plan = {system: codes_of(system, texts.get(name, "none")) for system, name in OPTION_NAMES.items()}
    if not any(plan.values()):
        raise Fault("NothingPlanned")
    return plan
