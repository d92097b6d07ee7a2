"""Cases of `quality`: quality.json."""
from reference_impl.lines import column, date_of, event_lines, header
from reference_impl.messages import DAY, SATELLITES, SIGNALS, WEEK
from reference_impl.options import COLUMNS, plan_of

from .common import file_row

MINUTE = 60_000
# Noon of the first day of GPS week 2300.
NOON = 2300 * WEEK + DAY // 2
LAST = 100_000 * WEEK - 1
TEXTS = dict.fromkeys(COLUMNS, "") | {"marker_type": "GEODETIC"}
ONE = {"gps": "1C"}
TWO = {"gps": "2X,1C"}
EVERY_MINUTE = ["--every", "60"]
USUAL = {"c": 20_985_472_060, "l": 110_279_400_000, "d": -525_504, "s": 45_000}

# The satellite lines of an epoch, by its time.
Epochs = dict[int, list[str]]


def signal(mark: str = " ", **values: int | None) -> str:
    """Returns the columns of a signal with these values in thousandths, others as usual."""
    known = USUAL | values
    strength = known["s"]
    digit = " " if strength is None else str(min(max(strength // 6000, 1), 9))
    ends = {"c": (" ", digit), "l": (mark, digit), "d": (" ", " "), "s": (" ", " ")}
    return "".join(column(value, *ends[kind]) for kind, value in known.items())


def only(**values: int) -> str:
    """Returns the columns of a signal with these values alone."""
    return signal(**dict.fromkeys("clds", None) | values)


NOTHING = only()
WHOLE = signal()


def row(satellite: str, *signals: str) -> str:
    return (satellite + "".join(signals)).rstrip(" ")


def epoch(time: int, rows: list[str]) -> list[str]:
    at, seconds = date_of(time)
    day = f"{at.year:>4} {at.month:02} {at.day:02} {at.hour:02} {at.minute:02}"
    return [f"> {day}{seconds:>11}  0{len(rows):>3}", *rows]


def file_of(plan: dict[str, str], epochs: Epochs) -> list[str]:
    """Returns the lines of a file with these epochs."""
    planned = plan_of(**{"gps": "none", "galileo": "none"} | plan)
    head = header(TEXTS, planned, ((0, 0, 0), 0), min(epochs))
    return [*head, *(line for time, rows in epochs.items() for line in epoch(time, rows))]


def asked(name: str, words: list[str], lines: list[str], ending: str = "\n") -> dict:
    return {"name": f"quality-{name}", "words": ["quality", *words], "input": "\n".join(lines) + ending}


def both(name: str, plan: dict[str, str], epochs: Epochs) -> list[dict]:
    """Returns the cases of a file as a whole and by minutes."""
    lines = file_of(plan, epochs)
    return [asked(name, [], lines), asked(f"{name}-by-minutes", EVERY_MINUTE, lines)]


def of_strengths(*strengths: int) -> Epochs:
    """Returns epochs of a satellite with these strengths, in one minute."""
    return {NOON + 1000 * n: [row("G05", signal(s=strength))] for n, strength in enumerate(strengths)}


def at(*times: int) -> list[str]:
    """Returns the lines of a file with an epoch of one satellite at each of these times."""
    return file_of(ONE, {time: [row("G05", WHOLE)] for time in times})


def value_rows() -> list[dict]:
    """Kinds of values, marks and means."""
    rows = [*both("one-epoch", ONE, {NOON: [row("G05", WHOLE)]})]
    for kind, value in USUAL.items():
        rows += both(f"{kind}-alone", TWO, {NOON: [row("G05", NOTHING, only(**{kind: value}))]})
        rows += both(f"all-but-{kind}", TWO, {NOON: [row("G05", signal(**{kind: None}), NOTHING)]})
    for mark in "123":
        times = {"once": [NOON + 1000], "twice": [NOON, NOON + 2000], "in-two-minutes": [NOON, NOON + MINUTE]}
        for when, marked in times.items():
            moments = sorted({NOON, *marked})
            epochs = {time: [row("G05", signal(mark if time in marked else " "))] for time in moments}
            rows += both(f"mark-{mark}-{when}", ONE, epochs)
    marks = {NOON + 1000 * n: [row("G05", *map(signal, pair))] for n, pair in enumerate(("1 ", " 2", "33"))}
    rows += both("marks-of-two-signals", TWO, marks)
    rows += both("a-mark-without-strength", ONE, {NOON: [row("G05", signal("1", s=None))]})
    for name, strengths in {
        "half-way": (45_000, 45_001),
        "half-way-to-an-even-one": (45_001, 45_002),
        "a-third": (45_000, 45_000, 45_001),
        "two-thirds": (45_000, 45_001, 45_001),
        "a-quarter": (45_000, 45_000, 45_000, 45_001),
        "a-half-of-four": (45_000, 45_000, 45_001, 45_001),
        "the-least": (1,),
        "half-way-from-the-least": (1, 2),
        "the-greatest": (99_999, 99_999, 99_999),
        "half-way-to-the-greatest": (99_998, 99_999),
    }.items():
        rows += both(f"mean-{name}", ONE, of_strengths(*strengths))
    for name, strength in (("negative", -1), ("of-0", 0), ("too-great", 100_000)):
        rows += both(f"a-strength-{name}", ONE, of_strengths(45_000, strength))
    limits = signal(c=-999_999_999_999, l=9_999_999_999_999)
    return [*rows, *both("the-least-and-greatest-values", ONE, {NOON: [row("G05", limits)]})]


def satellite_rows() -> list[dict]:
    """Satellites that come and go, systems and their order."""
    away = {NOON + 1000 * n: [] for n in range(8)}
    for name, seen in {"G01": range(8), "G05": (1, 2, 5), "G09": (3,), "G32": (0, 7)}.items():
        for n in seen:
            away[NOON + 1000 * n].append(row(name, WHOLE))
    minutes = {NOON + 31_000 * n: rows for n, rows in enumerate(away.values())}
    six = {"gps": "2X,1C", "galileo": "5Q,1C", "glonass": "1C", "beidou": "2I,1P", "qzss": "1C", "sbas": "1C"}
    first = [row("G32", WHOLE, NOTHING), row("E36", NOTHING, WHOLE), row("R27", only(c=USUAL["c"])), row("C63", WHOLE)]
    first += [row("J01", signal("3")), row("J10", WHOLE), row("S20", WHOLE), row("S58", only(s=1))]
    second = [row("G01", NOTHING, signal("1")), row("G32", WHOLE, WHOLE), row("C01", WHOLE, signal("2"))]
    second.append(row("S58", WHOLE))
    every = {name: "all" for name in six}
    letters = {"G": 0, "E": 0, "R": 0, "C": 0, "J": 0, "S": 19}
    full = [
        row(f"{system}{number + offset:02}", *[WHOLE] * len(SIGNALS[system]))
        for system, offset in letters.items()
        for number in (1, SATELLITES[system])
    ]
    return [
        *both("satellites-that-are-away", ONE, away),
        *both("satellites-that-are-away-for-minutes", ONE, minutes),
        *both("a-signal-without-a-value", TWO, {NOON: [row("G05", WHOLE)]}),
        *both("six-systems", six, {NOON: first, NOON + 1000: second}),
        *both("six-systems-in-two-minutes", six, {NOON: first, NOON + MINUTE: second}),
        *both("every-signal", every, {NOON: full}),
    ]


def period_rows() -> list[dict]:
    """Borders of periods, periods without epochs, the first and the last time."""
    early = [at(NOON, NOON + MINUTE - 50 + away) for away in (-1, 0, 1)]
    rows = [asked(f"an-epoch-{50 - away}-ms-early", EVERY_MINUTE, lines) for away, lines in zip((-1, 0, 1), early)]
    rows += [
        asked("an-epoch-at-the-end-of-a-minute", EVERY_MINUTE, at(NOON, NOON + MINUTE - 1)),
        asked("an-epoch-early-alone", EVERY_MINUTE, at(NOON - 50)),
        asked("an-epoch-too-early-alone", EVERY_MINUTE, at(NOON - 51)),
        asked("minutes-without-epochs", EVERY_MINUTE, at(NOON, NOON + 5 * MINUTE, NOON + 90 * MINUTE)),
        asked("over-midnight", EVERY_MINUTE, at(NOON + DAY // 2 - 1000, NOON + DAY // 2)),
        asked("a-clock-before-midnight", ["--every=86400"], at(NOON, NOON + DAY // 2 - 1)),
        asked("days", ["--every", "86400.000"], at(NOON, NOON + DAY // 2 - 51, NOON + DAY // 2, NOON + 2 * DAY)),
        asked("seconds", ["--every", "1"], at(*(NOON + 250 * n for n in range(9)))),
        asked("a-period-of-two-decimals", ["--every", "1.25"], at(*(NOON + 1000 * n for n in range(7)))),
        asked("a-period-of-three-decimals", ["--every", "3.375"], at(*(NOON + 1000 * n for n in range(7)))),
        asked("the-first-time", EVERY_MINUTE, at(0, MINUTE)),
        asked("the-last-time", [], at(LAST)),
        asked("the-last-time-by-minutes", EVERY_MINUTE, at(LAST - MINUTE, LAST)),
        asked("the-last-time-by-days", ["--every", "86400"], at(LAST - 50, LAST)),
    ]
    return rows


def event_rows() -> list[dict]:
    """An event between the epochs of a minute, and between two minutes."""
    rows = []
    for name, step in (("in-a-minute", 1000), ("between-minutes", MINUTE)):
        lines = at(NOON)
        lines += [*event_lines(((1, 2, 3), 4)), *epoch(NOON + step, [row("G05", WHOLE)])]
        rows += [asked(f"an-event-{name}", [], lines), asked(f"an-event-{name}-by-minutes", EVERY_MINUTE, lines)]
    return rows


def fault_rows() -> list[dict]:
    """Files that are refused or cut, before and after the end of a minute."""
    lines = at(NOON, NOON + 1000, NOON + MINUTE, NOON + MINUTE + 1000, NOON + 2 * MINUTE)
    head = len(lines) - 2 * 5
    rows = []
    # an epoch has two lines
    for name, place in {"first": 0, "second": 1, "next-minute's": 2, "fourth": 3, "last": 4}.items():
        for what, line in (("epoch", head + 2 * place), ("satellite", head + 2 * place + 1)):
            wrong = [*lines[:line], lines[line] + " ", *lines[line + 1 :]]
            rows.append(asked(f"the-{name}-{what}-is-refused", EVERY_MINUTE, wrong))
            rows.append(asked(f"the-{name}-{what}-is-cut", EVERY_MINUTE, lines[: line + 1], ""))
    for ending, words in (("", []), ("-by-minutes", EVERY_MINUTE)):
        rows += [
            asked(f"a-cut-line{ending}", words, lines, ""),
            asked(f"a-refused-satellite{ending}", words, [*lines[:-1], lines[-1] + " "]),
            asked(f"an-event-at-the-end{ending}", words, [*lines, *event_lines(((1, 2, 3), 4))]),
            asked(f"a-refused-header{ending}", words, lines[1:]),
            asked(f"a-header-alone{ending}", words, lines[:head]),
            asked(f"no-byte{ending}", words, [], ""),
        ]
    return rows


def option_rows() -> list[dict]:
    """Periods that are refused, before anything is read."""
    texts = "0 0.999 0.5 86400.001 7 1.001 1.0000 x .5 5. 000000001 +1 -1".split() + ["", "1 "]
    refused = {"every-twice": ["--every=1", "--every=1"], "every-without-a-value": ["--every"]}
    refused |= {"and-times": ["--times"], "and-gaps": ["--gaps", "1"], "with-an-argument": ["s.obs"]}
    named = {f"every-{text!r}": [f"--every={text}"] for text in texts} | refused
    return [
        {"name": f"quality-{name}", "words": ["quality", *words], "input": "ab"}
        | ({"prints_usage": True} if name in refused else {})
        for name, words in named.items()
    ]


def recorded_rows() -> list[dict]:
    """Converted recordings."""
    seconds = "samples/zed-f9t-2019-10-17.obs"
    files = {"sample": seconds, "operator": "cases/expected/operator.obs", "gr30": "cases/expected/gr30-convert.obs"}
    files |= {"stfu": "cases/expected/stfu-2016-04-06-convert.obs", "gmsd7": "cases/expected/gmsd7-glonass.obs"}
    rows = []
    for name, path in files.items():
        for ending, words in (("", []), ("-every-5", ["--every", "5"])):
            rows.append(file_row(f"quality-{name}{ending}", ["quality", *words], path, "txt"))
    return [*rows, file_row("quality-sample-every-1", ["quality", "--every", "1"], seconds, "txt")]


def streams() -> dict[str, bytes]:
    return {}


def rows() -> list[dict]:
    makers = (value_rows, satellite_rows, period_rows, event_rows, fault_rows, option_rows, recorded_rows)
    return [row for maker in makers for row in maker()]
