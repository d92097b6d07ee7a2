"""Cases of GLONASS: glonass.json."""
from datetime import date, timedelta

from reference_impl.fields import packed
from reference_impl.messages import WEEK
from reference_impl.options import LEAP_DATES
from reference_impl.stream import time_sent

from .common import CONVERT, STATION, check_row, file_of, file_row, msm, replaced, row, without
from .forms import GR30, STFU
from .systems import DATE, GMSD7, NEITHER, SAMPLE, THREE, all_satellites, number, table_rows

DAY = 86_400_000
ALL = [*CONVERT, *NEITHER, "--glonass", "all"]
OF_1C = [*CONVERT, *NEITHER, "--glonass", "1C"]
BOTH = [*CONVERT, "--gps", "1C", "--galileo", "none", "--glonass", "1C"]
NEAR = ["options", "--near", "2024-02-11"]
# Those of the recordings.
CHANNELS_2012 = "1:1,2:-4,3:5,4:6,5:1,6:-4,7:5,8:-6,9:-2,10:-7,11:0,12:-1,13:-2,14:-7,15:0,16:-1,17:4,18:-3,24:2"
CHANNELS_2016 = "3:5,4:6,9:-6,26:-5,10:-7,11:0,13:-2,1:1,2:-4,19:3,20:2"
CHANNELS_2019 = "24:2,5:1,6:-4,7:5,14:-7,15:0,16:-1,17:4,18:-3"
CHANNELS_2025 = "3:5,4:6,5:1,6:-4,13:-2,14:-7,15:0,16:-1,19:3,20:2,21:4,22:-3"


def sent(day: int, of_day: int) -> int:
    """Returns the 30 bits of a day of the week and a time of day."""
    return day << 27 | of_day


def at(gps_time: int) -> int:
    """Returns the 30 bits of a GPS time of week at 18 leap seconds."""
    return time_sent("R", gps_time)


def almanac(slot: int, channel: int, size: int = 45) -> bytes:
    """Returns the first bytes of a message 1020 with these bits of its slot and channel."""
    return packed([(12, 1020), (6, slot), (5, channel), (337, 0)])[:size]


def recording_rows() -> list[dict]:
    """Returns the cases of four recordings."""

    def words(week: int, codes: str, channels: str, *others: str) -> list[str]:
        return [
            "convert",
            "--week",
            str(week),
            *DATE,
            *NEITHER,
            "--glonass",
            codes,
            "--glonass-channels",
            channels,
            *others,
        ]

    return [
        file_row("zed-f9t-glonass", words(2075, "1C,2C", CHANNELS_2019), SAMPLE, "obs"),
        file_row("gr30-glonass", words(2361, "1C,2C,2P", CHANNELS_2025, "--msm", "all"), GR30, "obs"),
        file_row("stfu-glonass", words(1891, "2P", CHANNELS_2016, "--leap-seconds", "17"), STFU, "obs"),
        file_row("stfu-options-near", ["options", "--near", "2016-04-06"], STFU),
        file_row("gmsd7-glonass", words(1709, "1P,1C,2P", CHANNELS_2012, "--leap-seconds", "16"), GMSD7, "obs"),
        file_row("gmsd7-glonass-without-channels", words(1709, "1C", "", "--leap-seconds", "16"), GMSD7),
        file_row("gmsd7-signals", ["signals"], GMSD7),
        file_row("gmsd7-options-of-a-later-week", ["options", "--near", "2012-10-21"], GMSD7),
        file_row("gmsd7-show-all", ["show", "--all"], GMSD7, "txt"),
        file_row("stfu-show-all", ["show", "--all"], STFU, "txt"),
        # GLONASS is then two seconds before GPS, or after it
        file_row("gmsd7-glonass-of-other-leap-seconds", gmsd7_words("14"), GMSD7),
        file_row("gmsd7-glonass-of-more-leap-seconds", gmsd7_words("18"), GMSD7),
    ]


def gmsd7_words(leap_seconds: str) -> list[str]:
    plan = ["--gps", "1C", "--galileo", "none", "--glonass", "1C"]
    return ["convert", "--week", "1709", *DATE, *plan, "--leap-seconds", leap_seconds]


TIMES = [
    *(sent(day, of_day) for day in (0, 6, 7) for of_day in (0, 1, DAY - 1, DAY, DAY + 999, DAY + 1000, (1 << 27) - 1)),
    *(at(time) for time in (0, 17_999, 18_000, DAY, WEEK - DAY // 8, WEEK - 1)),
]
ROWS: list[tuple[str, list[str], list[bytes]]] = [
    ("glonass-times-show-all", ["show", "--all"], [msm(1084, time) for time in TIMES]),
    ("glonass-times-convert", [*OF_1C, "--gather", "time"], [msm(1084, time) for time in sorted(TIMES)]),
    ("glonass-times-unplanned", CONVERT, [msm(1077, 1000), *(msm(1084, time) for time in TIMES)]),
    # epochs of GPS and GLONASS: a week's begin, a Sunday in Moscow, the day of a leap second
    (
        "glonass-a-week-begins",
        BOTH,
        [msm(1077, WEEK - 1000, more=1), msm(1084, at(WEEK - 1000)), msm(1077, 0, more=1), msm(1084, at(0))],
    ),
    (
        "glonass-a-sunday-begins-in-moscow",
        BOTH,
        [
            message
            for time in (WEEK - DAY // 8 + 17_000, WEEK - DAY // 8 + 18_000)
            for message in (msm(1077, time, more=1), msm(1084, at(time)))
        ],
    ),
    (
        "glonass-a-leap-second",
        [*OF_1C, "--leap-seconds", "17"],
        [msm(1084, sent(0, DAY + ms)) for ms in (-1, 0, 999, 1000)],
    ),
    ("glonass-first-of-a-stream", BOTH, [msm(1084, at(WEEK - 1)), msm(1077, 1000)]),
    ("glonass-a-time-of-day-of-bits-over-a-week", OF_1C, [msm(1084, sent(5, 1000)), msm(1084, sent(6, 1000))]),
    *(
        (
            f"glonass-leap-seconds-{leap}",
            [*BOTH, "--leap-seconds", str(leap)],
            [msm(1077, 300_000, more=1), msm(1084, at(300_000))],
        )
        for leap in (0, 17, 18, 19, 255)
    ),
    # channels: C and S need none, and no value is left of a phase alone
    (
        "glonass-a-message-of-msm7",
        [*ALL, "--glonass-channels", "7:-7,5:6"],
        [msm(1087, at(0), [5, 6, 7], [2, 3, 8, 9])],
    ),
    ("glonass-a-message-without-channels", ALL, [msm(1087, at(0), [5, 6, 7], [2, 3, 8, 9], extended=3)]),
    ("glonass-a-phase-without-channel", OF_1C, [msm(1084, at(0), range=-(1 << 14), strength=0)]),
    (
        "glonass-a-phase-with-channel",
        [*OF_1C, "--glonass-channels", "5:0"],
        [msm(1084, at(0), range=-(1 << 14), strength=0)],
    ),
    ("glonass-options-of-a-phase-without-channel", ["options"], [msm(1084, at(0), range=-(1 << 14), strength=0)]),
    ("glonass-locks-without-channel", OF_1C, [msm(1084, at(0)), msm(1084, at(1000), lock=0, half=1)]),
    (
        "glonass-channels-of-all-slots",
        [*OF_1C, "--glonass-channels", ",".join(f"{n}:{n % 14 - 7}" for n in range(27, 0, -1))],
        [msm(1084, at(0))],
    ),
    *(
        (
            f"glonass-channels-of-{count}-slots",
            [*OF_1C, "--glonass-channels", ",".join(f"{n}:0" for n in range(1, count + 1))],
            [msm(1084, at(0))],
        )
        for count in (8, 9, 16, 17, 24, 25)
    ),
    # the channels of a stream: DF419 of each satellite, and 1020 of any station; the first one of a slot
    ("glonass-options-of-msm7", ["options"], [msm(1087, at(0), [1, 5, 27, 28], extended=0)]),
    ("glonass-options-of-msm5", ["options"], [msm(1085, at(0), [1, 5], extended=13)]),
    ("glonass-options-of-msm4", ["options"], [msm(1084, at(0), [1, 5])]),
    *((f"glonass-options-of-df419-{n}", ["options"], [msm(1087, at(0), extended=n)]) for n in (12, 13, 14, 15)),
    ("glonass-options-of-a-1020-that-comes-last", ["options"], [msm(1084, at(0)), almanac(5, 1), almanac(24, 13)]),
    (
        "glonass-options-of-the-first-channel",
        ["options"],
        [msm(1084, at(0)), almanac(5, 1), msm(1087, at(1000), extended=9), almanac(5, 2)],
    ),
    (
        "glonass-options-of-a-channel-after-an-unknown-one",
        ["options"],
        [msm(1087, at(0), extended=15), almanac(5, 14), almanac(5, 8)],
    ),
    (
        "glonass-options-of-slots-that-are-not-listed",
        ["options"],
        [msm(1084, at(0)), almanac(0, 1), almanac(28, 1), almanac(63, 1), almanac(27, 1)],
    ),
    (
        "glonass-options-of-channels-that-are-none",
        ["options"],
        [msm(1084, at(0)), almanac(1, 14), almanac(2, 31), almanac(3, 13), almanac(4, 0)],
    ),
    (
        "glonass-options-of-a-short-1020",
        ["options"],
        [msm(1084, at(0)), almanac(1, 1, 2), almanac(2, 8, 3), almanac(3, 1, 1)],
    ),
    (
        "glonass-options-of-a-satellite-without-cells",
        ["options"],
        [msm(1087, at(0), [5, 6], [], extended=3), msm(1084, at(1000))],
    ),
    ("glonass-options-of-a-refused-message", ["options"], [msm(1087, at(0), extended=3)[:-1], msm(1084, at(1000))]),
    (
        "glonass-options-of-another-station",
        ["options", "--station", str(STATION)],
        [msm(1087, at(0), [5, 6], extended=3, station=7), almanac(6, 1), msm(1084, at(1000))],
    ),
    ("glonass-options-of-two-stations", ["options"], [msm(1077, 0), msm(1084, at(0), station=7)]),
    (
        "glonass-options-without-its-signals",
        NEAR,
        [msm(1077, 1000), msm(1087, at(0), whole=255, strength=0, speed=-8192), almanac(1, 1)],
    ),
    ("glonass-options-near-a-week-that-ends", NEAR, [msm(1084, at(WEEK - 1)), msm(1077, 0)]),
    ("glonass-options-near-a-week-that-begins", NEAR, [msm(1084, at(0)), msm(1077, 0)]),
    ("glonass-signals", ["signals"], [msm(1087, at(0), [1, 28], [*range(1, 33)])]),
    (
        "convert-an-epoch-of-six-systems",
        [*CONVERT, *THREE, "--glonass", "all", "--glonass-channels", "3:5"],
        [msm(number(system), time_sent(system, 1000), [3], more=system != "E") for system in "SJCRGE"],
    ),
    ("convert-all-satellites-of-six-systems", *all_satellites("GERCJS")),
    ("convert-a-code-of-glonass", [*CONVERT, "--glonass", "1C,3I"], []),
    # channels are validated after the height, before the texts and the plans
    ("convert-bad-channels-after-the-height", [*ALL, "--glonass-channels", "x", "--antenna-height", "x"], []),
    ("convert-bad-channels-before-a-text", [*ALL, "--glonass-channels", "x", "--marker", "\t"], []),
    ("convert-bad-channels-before-a-plan", [*CONVERT, "--glonass", "x", "--glonass-channels", "x"], []),
    ("convert-bad-channels-without-glonass", [*CONVERT, "--glonass-channels", "0:0"], []),
    (
        "convert-channels-without-glonass",
        [*CONVERT, "--gps", "1C", "--galileo", "none", "--glonass-channels", "1:1"],
        [msm(1077, 0)],
    ),
]
BAD_CHANNELS = [
    "x",
    "1",
    "1:",
    ":1",
    "0:1",
    "28:1",
    "01:1",
    "100:1",
    "1:7",
    "1:-8",
    "1:10",
    "1:-0",
    "1:+1",
    "1:01",
    "1:-",
    "1:--1",
] + [
    "1:1,",
    ",1:1",
    "1:1,,2:1",
    "1:1, 2:1",
    " 1:1",
    "1:1 ",
    "1:1;2:1",
    "1:1,1:1",
    "2:1,1:0,2:1",
    "1:1:1",
    "-1:1",
    "1:٣",
]
USAGE = [["--leap-seconds", text] for text in ("256", "-1", "x", "")]
USAGE += [["--leap-seconds", "18", "--leap-seconds", "18"], ["--glonass-channels", "1:1", "--glonass-channels", "1:1"]]


def option_rows() -> list[dict]:
    """Returns cases of channels that aren't accepted, and of leap seconds at their dates and the days before."""
    made = [
        row(f"convert-bad-channels-{n}", [*OF_1C, f"--glonass-channels={text}"], [msm(1084, at(0))])
        for n, text in enumerate(BAD_CHANNELS)
    ]
    for n, words in enumerate(USAGE):
        made.append(row(f"convert-glonass-usage-{n}", [*OF_1C, *words], []) | {"prints_usage": True})
    for text in LEAP_DATES:
        before = (date.fromisoformat(text) - timedelta(days=1)).isoformat()
        for near in (before, text):
            made.append(row(f"options-leap-seconds-near-{near}", ["options", "--near", near], [msm(1084, at(0))]))
    return made


def changed_lines(none: list[str], one: list[str], full: list[str]) -> dict[str, tuple[list[str], str, str]]:
    """Returns changes of the lines of channels in files without channels, with one, and with two lines of them."""
    return {
        "a-channel-of-7": (one, "  1 R27 -7", "  1 R27  7"),
        "a-channel-of-minus-8": (one, "  1 R27 -7", "  1 R27 -8"),
        "a-channel-of-minus-0": (one, "  1 R27 -7", "  1 R27 -0"),
        "a-slot-of-28": (one, "  1 R27", "  1 R28"),
        "a-slot-of-0": (one, "  1 R27", "  1 R00"),
        "a-slot-of-a-blank": (full, " 13 R01", " 13 R 1"),
        "another-letter": (one, "  1 R27", "  1 G27"),
        "a-count-of-more": (one, "  1 R27", "  2 R27"),
        "a-count-of-less": (one, "  1 R27", "  0 R27"),
        "a-count-below-0": (none, "  0 ", " -1 "),
        "a-count-of-no-line": (none, "  0 ", "  1 "),
        "a-count-of-a-second-line": (full, " 13 ", "  8 "),
        "a-count-of-a-third-line": (full, " 13 ", " 17 "),
        "a-count-without-room": (full, " 13 ", " 21 "),
        "a-count-with-room": (full, " 13 ", " 20 "),
        "a-count-over-27": (full, " 13 ", " 28 "),
        "a-count-of-zeros": (full, " 13 ", "013 "),
        "slots-that-fall": (full, " 13 R01 -6 R03", " 13 R03 -6 R01"),
        "a-slot-twice": (full, " 13 R01 -6 R03", " 13 R01 -6 R01"),
        "a-slot-of-the-line-before": (full, "    R17", "    R15"),
        "a-second-line-with-a-count": (full, "    R17", " 13 R17"),
        "a-bias": (one, f"{'':60}GLONASS COD", f" C1C    0.000{'':47}GLONASS COD"),
        "a-satellite-of-28": (one, "R27", "R28"),
    }


def check_rows() -> list[dict]:
    """Returns cases of `check`: files with channels, each with a line changed."""
    messages = [msm(1074, 1000, [1], more=1), msm(1084, at(1000), [1, 27])]
    plan = {"gps": "1C", "glonass": "1C,2P"}
    files = {0: file_of(plan, messages), 1: file_of(plan, messages, {27: -7})}
    files |= {count: file_of(plan, messages, {n: n % 14 - 7 for n in range(1, 2 * count, 2)}) for count in (8, 13)}
    made = [check_row(f"check-glonass-{count}-channels", lines) for count, lines in files.items()]
    none, one, full = files[0], files[1], files[13]
    changes = changed_lines(none, one, full)
    made += [check_row(f"check-glonass-{name}", replaced(*change)) for name, change in changes.items()]
    made += [
        check_row("check-glonass-without-channels-line", without(one, "  1 R27")),
        check_row("check-glonass-without-the-second-line", without(full, "    R17")),
        check_row("check-glonass-without-biases", without(one, f"{'':60}GLONASS COD")),
        check_row("check-gps-with-channels", gps_with(one, "  1 R27")),
        check_row(
            "check-glonass-ends-within-channels",
            full[: full.index(next(line for line in full if line.startswith("    R17")))],
        ),
    ]
    return made


def gps_with(lines: list[str], start: str) -> list[str]:
    """Returns a file of GPS with the line of another that has this start."""
    line = next(line for line in lines if line.startswith(start))
    gps = file_of({"gps": "1C"}, [msm(1074, 1000, [1])])
    place = next(place for place, other in enumerate(gps) if "END OF HEADER" in other)
    return [*gps[:place], line, *gps[place:]]


def streams() -> dict[str, bytes]:
    return {}


def rows() -> list[dict]:
    made = [row(name, words, messages) for name, words, messages in ROWS]
    return [*made, *recording_rows(), *table_rows("R"), *option_rows(), *check_rows()]
