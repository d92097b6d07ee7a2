"""Cases of BeiDou, QZSS and SBAS: systems.json."""
from reference_impl.messages import FIRST_NUMBERS, SATELLITES, SIGNALS, WEEK
from reference_impl.options import OPTION_NAMES
from reference_impl.stream import time_sent as time

from .common import CONVERT, check_row, file_of, file_row, moved, msm, replaced, row, without
from .forms import GR30, STFU

SAMPLE = "samples/zed-f9t-2019-10-17.rtcm3"
GMSD7 = "cases/input/gmsd7-2012-10-14.rtcm3"
DATE = ["--date", "20240204 000001 UTC"]
NEITHER = ["--gps", "none", "--galileo", "none"]
SYSTEMS = "CJS"


def number(system: str, form: int = 4) -> int:
    return FIRST_NUMBERS[system] + form


def recording_rows() -> list[dict]:
    """Returns the cases of four recordings."""
    of_beidou = [*NEITHER, "--beidou"]
    plan = ["--gps", "1C", "--galileo", "none", "--beidou", "2I,6I,7I", "--qzss", "1C,6L,2X,5X,1X"]
    of_2025 = ["--msm", "all", *of_beidou, "2I,6I,7I,5P,1P"]
    of_qzss = ["--week", "1709", *DATE, *NEITHER, "--qzss", "1C,6L,2X,5X,1X"]
    return [
        file_row("gmsd7-qzss", ["convert", *of_qzss], GMSD7),
        file_row("zed-f9t-beidou", ["convert", "--week", "2075", *DATE, *of_beidou, "2I"], SAMPLE),
        file_row("gr30-beidou", ["convert", "--week", "2361", *DATE, *of_2025], GR30, "obs"),
        file_row("stfu-sbas", ["convert", "--week", "1891", *DATE, *NEITHER, "--sbas", "1C,5I"], STFU),
        file_row("gmsd7-convert", ["convert", "--week", "1709", *DATE, *plan], GMSD7, "obs"),
        file_row("gmsd7-options", ["options", "--near", "2012-10-14"], GMSD7),
    ]


def table_rows(systems: str) -> list[dict]:
    """Returns cases of every signal ID, every satellite ID, and times at their limits, for each of these systems."""
    made = []
    for system in systems:
        name = OPTION_NAMES[system]
        words = [*CONVERT, *NEITHER, f"--{name}", "all"]
        signals = [msm(number(system, 7), time(system, 1000), [3, 9], [*range(1, 33)])]
        first = min(SIGNALS[system])
        every = [msm(number(system), 1000, [*range(1, 65)], [first], part=512)]
        times = [msm(number(system), time) for time in (0, 1, WEEK - 1, WEEK, WEEK + 1, (1 << 30) - 1)]
        made += [
            row(f"convert-every-signal-of-{name}", words, signals),
            row(f"signals-of-{name}", ["signals"], signals),
            row(f"convert-every-satellite-of-{name}", [*words[:-1], SIGNALS[system][first]], every),
            row(f"options-of-{name}", ["options"], every),
            row(f"show-all-times-of-{name}", ["show", "--all"], times),
            row(f"show-times-of-{name}", ["show"], times),
            # without a planned signal its messages are ignored, and never refused
            row(f"convert-times-without-{name}", CONVERT, [msm(1077, 1000, more=1), *times]),
            row(f"convert-times-of-{name}", words, times),
        ]
    return made


def all_satellites(systems: str) -> tuple[list[str], list[bytes]]:
    """Returns the command line and the messages of an epoch with all satellites of these systems."""
    sent = [(system, part) for system in systems for part in ([*range(1, 33)], [*range(33, SATELLITES[system] + 1)])]
    messages = [
        msm(number(system), time(system, 1000), part, [2], more=1) for system, part in sent if part and part[-1] <= 64
    ]
    plan = [word for system in systems for word in (f"--{OPTION_NAMES[system]}", SIGNALS[system][2])]
    return [*CONVERT, *plan], messages


def longest_rows() -> list[dict]:
    """Returns cases of 180 satellites in an epoch, and of more than 256 cells of a system."""
    words, messages = all_satellites("GECJS")
    four = [[4 * n + 1, 4 * n + 2, 4 * n + 3, 4 * n + 4] for n in range(4)]
    crowded = [msm(1124, 0, part, sorted(SIGNALS["C"]), more=1) for part in four] + [msm(1124, 0, [63], [2])]
    return [
        row("convert-257-cells-of-beidou", [*CONVERT, *NEITHER, "--beidou", "all"], crowded),
        row("convert-all-satellites-of-five-systems", words, messages),
        row("convert-all-satellites-in-falling-order", words, messages[::-1]),
    ]


SUNDAY = ["options", "--near", "2024-02-11"]
BOTH = [*CONVERT, "--gps", "1C", "--galileo", "none", "--beidou", "2I"]
Row = tuple[str, list[str], list[bytes]]
OF_QZSS: list[Row] = [
    ("options-of-msm5-of-qzss", ["options"], [msm(1077, 1000), msm(1115, 1000)]),
    ("options-near-a-week-of-qzss", SUNDAY, [msm(1114, WEEK - 1), msm(1077, 0)]),
    (
        "options-near-a-week-without-qzss",
        SUNDAY,
        [msm(1114, WEEK - 1, whole=255, strength=0), msm(1077, 0)],
    ),
    ("options-of-two-stations-of-qzss", ["options"], [msm(1077, 1000), msm(1114, 1000, station=7)]),
    ("convert-one-system-qzss", [*CONVERT, *NEITHER, "--qzss", "1C"], [msm(1117, 1000), msm(1077, 1000)]),
    ("convert-a-code-twice", [*CONVERT, "--qzss", "1C,5X,1C"], []),
    (
        "convert-qzss-before-gps",
        [*CONVERT, "--gps", "1C", "--galileo", "none", "--qzss", "1C"],
        [msm(1114, 1000, [1, 10, 11], more=1), msm(1074, 1000)],
    ),
    (
        "convert-an-end-by-unplanned-qzss",
        [*CONVERT, "--gps", "1C"],
        [msm(1077, 1000), msm(1114, 1000), msm(1077, 1000)],
    ),
    ("convert-refuses-qzss", [*CONVERT, "--qzss", "1C"], [msm(1077, 1000), msm(1114, 1000)[:12], msm(1114, WEEK)]),
    ("convert-msm6-of-qzss-by-default", [*CONVERT, "--qzss", "1C"], [msm(1077, 1000, more=1), msm(1116, 1000)[:12]]),
    ("convert-nothing-planned-of-qzss", [*CONVERT, *NEITHER, "--qzss", "none"], []),
]
OF_BEIDOU: list[Row] = [
    # BeiDou's time is 14 s less than GPS time: one epoch at a week's begin, and the week of a stream
    *(
        (f"convert-beidou-at-{at}-of-a-week", BOTH, [msm(1077, at, more=1), msm(1124, time("C", at))])
        for at in (0, 13_999, 14_000, 14_001)
    ),
    (
        "convert-beidou-before-a-week-ends",
        BOTH,
        [msm(1124, time("C", WEEK - 1)), msm(1077, 0, more=1), msm(1124, time("C", 0))],
    ),
    ("options-near-a-week-that-beidou-begins", SUNDAY, [msm(1124, WEEK - 14_000), msm(1077, 0)]),
    ("options-near-a-week-that-beidou-ends", SUNDAY, [msm(1124, WEEK - 14_001), msm(1077, 0)]),
    # an MSM of BeiDou without a value isn't decoded with the printed plan
    (
        "options-near-a-week-without-beidou",
        SUNDAY,
        [msm(1124, WEEK - 14_001, whole=255, strength=0), msm(1077, 0)],
    ),
    ("options-of-two-stations-of-beidou", ["options"], [msm(1077, 1000), msm(1124, 1000, station=7)]),
    (
        "options-of-beidou-of-another-station",
        ["options", "--station", "2003"],
        [msm(1124, 1, station=7), msm(1077, 1000)],
    ),
    # drafts of the message had GPS time: BeiDou is then 14 s ahead, and what follows is late
    (
        "convert-beidou-of-a-draft",
        BOTH,
        [message for at in (1000, 2000) for message in (msm(1077, at, more=1), msm(1124, at))],
    ),
    ("convert-a-code-of-a-draft", [*CONVERT, "--beidou", "1I"], []),
]
OF_SBAS: list[Row] = [
    ("options-near-a-week-of-sbas", SUNDAY, [msm(1104, WEEK - 1), msm(1077, 0)]),
    (
        "convert-an-end-by-sbas",
        [*CONVERT, "--sbas", "1C"],
        [msm(1077, 1000, more=1), msm(1104, 1000), msm(1077, 1000, [7])],
    ),
    (
        "convert-an-end-by-unplanned-sbas",
        CONVERT,
        [msm(1077, 1000, more=1), msm(1104, 1000)[:12], msm(1077, 1000, [7])],
    ),
    ("convert-refuses-sbas", [*CONVERT, "--sbas", "5X"], [msm(1077, 1000), msm(1104, 1000)[:12], msm(1104, WEEK)]),
    ("convert-msm6-of-sbas-by-default", [*CONVERT, "--sbas", "1C"], [msm(1077, 1000, more=1), msm(1106, 1000)[:12]]),
    ("convert-msm6-of-sbas", [*CONVERT, "--sbas", "1C", "--msm", "all"], [msm(1077, 1000, more=1), msm(1106, 1000)]),
]
THREE = ["--beidou", "all", "--qzss", "all", "--sbas", "all"]
OF_THREE: list[Row] = [
    # systems in any order in an epoch, and in the order of the table in the file
    (
        "convert-an-epoch-of-five-systems",
        [*CONVERT, *THREE],
        [msm(number(system), time(system, 1000), [3], more=system != "E") for system in "SJCGE"],
    ),
    ("convert-nothing-planned", [*CONVERT, *NEITHER, "--beidou", "none", "--qzss", "none", "--sbas", "none"], []),
    ("convert-two-codes-unknown", [*CONVERT, "--sbas", "x", "--beidou", "2I,y"], []),
    ("convert-a-code-of-another-system", [*CONVERT, "--sbas", "1C,2I", "--qzss", "all"], []),
]
ROWS = [*OF_QZSS, *OF_BEIDOU, *OF_SBAS, *OF_THREE]


def check_rows() -> list[dict]:
    """Returns cases of `check`: files of each system, each with a line changed."""
    made = []
    for system in SYSTEMS:
        codes = SIGNALS[system][2]
        lines = file_of(
            {OPTION_NAMES[system]: codes}, [msm(number(system), time(system, 1000), [1, SATELLITES[system]])]
        )
        name = OPTION_NAMES[system]
        rows = [line[:3] for line in lines[-2:]]
        over = f"{system}{int(rows[1][1:]) + 1:02}"
        made += [
            check_row(f"check-{name}", lines),
            check_row(f"check-{name}-a-satellite-too-high", replaced(lines, rows[1], over)),
            check_row(
                f"check-{name}-a-satellite-too-low", replaced(lines, rows[0], f"{system}{int(rows[0][1:]) - 1:02}")
            ),
            check_row(f"check-{name}-satellites-that-fall", [*lines[:-2], *lines[:-3:-1]]),
            check_row(f"check-{name}-as-several-systems", [lettered(lines[0], "M"), *lines[1:]]),
            check_row(f"check-{name}-as-gps", [lettered(lines[0], "G"), *lines[1:]]),
            check_row(
                f"check-{name}-an-unlisted-code", replaced(lines, f"{system}    4 C{codes}", f"{system}    4 C9Z")
            ),
            check_row(f"check-{name}-without-phase-shift", without(lines, f"{system}{'':59}SYS / PHASE")),
            check_row(
                f"check-{name}-more-satellites",
                replaced(lines, epoch(lines), f"{epoch(lines)[:-3]}{SATELLITES[system] + 1:>3}"),
            ),
        ]
    return made


def epoch(lines: list[str]) -> str:
    return next(line for line in lines if line.startswith("> "))


def lettered(first: str, letter: str) -> str:
    """Returns the first line with this letter."""
    return f"{first[:40]}{letter}{first[41:]}"


def mixed_rows() -> list[dict]:
    """Returns cases of `check`: files of three systems, each with lines changed."""
    plan = {"gps": "1C", "beidou": "2I,6I", "sbas": "1C"}
    lines = file_of(
        plan, [msm(1074, 1000, [1], more=1), msm(1124, time("C", 1000), [2, 63], more=1), msm(1104, 1000, [1])]
    )
    sbas, beidou = f"S{'':4}4 C1C", f"C{'':4}8 C2I"
    return [
        check_row("check-three-systems", lines),
        check_row("check-three-systems-without-the-last", without(without(lines, sbas), f"S{'':59}SYS / PHASE")),
        check_row("check-three-systems-without-a-shift", without(lines, f"C{'':59}SYS / PHASE")),
        check_row("check-three-systems-two-without-types", without(without(lines, sbas), beidou)),
        check_row("check-mixed-sbas-first", moved(lines, sbas, f"{'':8}0.0000{'':8}0.0000{'':8}0.0000{'':18}ANTENNA")),
        check_row("check-mixed-gps-after-beidou", moved(lines, f"G{'':4}4 C1C", beidou)),
        check_row("check-mixed-beidou-twice", [*lines[:11], lines[10], *lines[11:]]),
        check_row("check-mixed-shifts-that-fall", moved(lines, f"C{'':59}SYS / PHASE", f"S{'':59}SYS / PHASE")),
        check_row("check-mixed-sbas-before-beidou", moved(lines, "S20", "G01")),
        check_row("check-mixed-of-no-system", lines[:9] + [line for line in lines[9:] if "OBS TYPES" not in line]),
        check_row("check-mixed-of-an-unknown-system", replaced(lines, beidou, f"X{beidou[1:]}")),
        check_row("check-mixed-ends-within-types", lines[:10]),
        check_row("check-mixed-ends-after-types", lines[:12]),
        check_row("check-mixed-a-satellite-of-no-planned-system", replaced(lines, "C02", "J02")),
    ]


def streams() -> dict[str, bytes]:
    return {}


def rows() -> list[dict]:
    made = [row(*one) for one in ROWS]
    return [*made, *recording_rows(), *table_rows(SYSTEMS), *longest_rows(), *check_rows(), *mixed_rows()]
