"""Cases of the date near which a conversion begins: near.json."""
from reference_impl.messages import WEEK

from .common import TOP, file_row, msm, row
from .forms import STFU
from .glonass import CHANNELS_2012, at
from .systems import DATE, GMSD7, NEITHER, SAMPLE

PLAN = ["--gps", "1C", "--galileo", "none"]
BOTH = [*PLAN, "--glonass", "1C"]
# The last ten seconds of a week, and the first seconds of the next.
SATURDAY = msm(1077, WEEK - 10_000)
SUNDAY = [msm(1077, 1000), msm(1077, 2000)]
# The week of 2024-02-11 is 2301.
ROWS: list[tuple[str, str, list[bytes]]] = [
    ("a-saturday-evening", "2024-02-10", [SATURDAY, *SUNDAY]),
    ("a-saturday-without-msm-before-midnight", "2024-02-10", SUNDAY),
    ("a-sunday", "2024-02-11", SUNDAY),
    ("a-sunday-that-begins-on-saturday", "2024-02-11", [SATURDAY, *SUNDAY]),
    # noon of a Wednesday is half a week from both begins of a week
    ("the-middle-of-a-week", "2024-02-14", [msm(1077, 0)]),
    ("the-middle-of-a-week-and-later", "2024-02-14", [msm(1077, 1)]),
    ("the-middle-of-a-week-and-earlier", "2024-02-14", [msm(1077, WEEK - 1)]),
    ("the-first-date", "1980-01-06", SUNDAY),
    ("the-first-date-and-an-evening-before", "1980-01-06", [SATURDAY, *SUNDAY]),
    ("the-last-date", "3896-07-18", [SATURDAY, *SUNDAY]),
    ("the-last-date-and-a-day-after", "3896-07-18", [*SUNDAY, SATURDAY, *SUNDAY]),
    # the first message that is accepted: noon of the date is nearer to the Saturday after it
    ("a-date-after-a-refused-message", "2024-02-14", [SATURDAY[:-1], *SUNDAY]),
    ("a-date-after-a-message-of-another-system", "2024-02-14", [msm(1127, WEEK - 24_000), *SUNDAY]),
    ("a-date-before-a-late-message", "2024-02-14", [*SUNDAY, SATURDAY, msm(1077, 3000)]),
    ("a-date-and-a-message-without-values", "2024-02-14", [msm(1077, WEEK - 10_000, whole=255, strength=0), *SUNDAY]),
]
# Dates, and texts that aren't one.
TEXTS = "1980-01-05 3896-07-19 2024-02-30 2024-2-4 2300 2024-02-04T00:00:00 +2024-02-04 x".split() + [""]
# Options that are refused, and in which order.
ORDERS = {
    "neither-week-nor-near": [],
    "week-and-near": ["--week", "2300", "--near", "2024-02-04"],
    "one-of-two-before-a-date": ["--week", "x", "--near", "x"],
    "one-of-two-before-a-position": ["--position", "x"],
    "near-before-a-position": ["--near", "x", "--position", "x"],
    "near-before-from": ["--near", "x", "--from", "x"],
    "near-before-a-text": ["--near", "x", "--marker", "\t"],
}


def words(near: str, *others: str) -> list[str]:
    return ["convert", "--near", near, *DATE, *others]


def leap_rows() -> list[dict]:
    """GLONASS first, at a time that is 0 at 18 leap seconds: dates of other leap seconds, and given leap seconds."""
    messages = [msm(1084, at(0)), msm(1077, 0)]
    dates = ("1980-01-06", "2012-06-30", "2012-07-01", "2012-07-04", "2016-12-31", "2017-01-01", "3896-07-18")
    made = [row(f"near-glonass-{date}", words(date, *BOTH), messages) for date in dates]
    given = words("2012-07-01", *BOTH, "--leap-seconds", "18")
    made.append(row("near-glonass-of-given-leap-seconds", given, messages))
    week = ["convert", "--week", "2012-07-01", *DATE, *BOTH]
    return [*made, row("week-of-a-date-of-other-leap-seconds", week, messages)]


def choice_rows() -> list[dict]:
    """A station, and epochs that are written: neither the window nor the interval gives the week."""
    other = msm(1077, WEEK - 10_000, station=7)
    window = ["--from", "2024-02-11T00:00:02", "--until", "2024-02-12"]
    return [
        row("near-of-a-station-after-another", words("2024-02-14", *PLAN, "--station", "2003"), [other, *SUNDAY]),
        row("near-of-every-station", words("2024-02-14", *PLAN), [other, *SUNDAY]),
        row("near-and-a-window", words("2024-02-11", *PLAN, *window), [SATURDAY, *SUNDAY]),
        row("near-and-a-window-of-another-week", words("2024-02-18", *PLAN, *window), [SATURDAY, *SUNDAY]),
        row("near-and-an-interval", words("2024-02-11", *PLAN, "--interval", "30"), [SATURDAY, msm(1077, 0), *SUNDAY]),
    ]


def recorded_rows() -> list[dict]:
    """The recordings by their dates."""
    glonass = [*NEITHER, "--glonass", "1P,1C,2P", "--glonass-channels", CHANNELS_2012]
    sample = (TOP / SAMPLE).with_suffix(".plan").read_text(encoding="ascii").split()[2:]
    return [
        file_row("sample-near", words("2019-10-17", *sample), SAMPLE, "obs"),
        file_row("stfu-near", words("2016-04-06"), STFU, "obs"),
        file_row("gmsd7-near", words("2012-10-13", *glonass), GMSD7, "obs"),
    ]


def option_rows() -> list[dict]:
    made = [row(f"near-{n}", ["convert", f"--near={text}", *DATE, *PLAN], SUNDAY) for n, text in enumerate(TEXTS)]
    made += [row(name, ["convert", *given, *DATE, *PLAN], SUNDAY) for name, given in ORDERS.items()]
    twice = words("2024-02-11", "--near", "2024-02-11", *PLAN)
    return [*made, row("near-twice", twice, []) | {"prints_usage": True}]


def streams() -> dict[str, bytes]:
    return {}


def rows() -> list[dict]:
    made = [row(f"near-{name}", words(date, *PLAN), messages) for name, date, messages in ROWS]
    return [*made, *leap_rows(), *choice_rows(), *recorded_rows(), *option_rows()]
