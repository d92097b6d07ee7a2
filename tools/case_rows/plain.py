"""Cases of epochs, events, stations, dates and limits in few messages: rows.json."""
from reference_impl.fields import packed

from .common import CONVERT, STATION, msm, row, station

ONE_SIGNAL = [*CONVERT, "--gps", "1C", "--galileo", "none"]
# The options of the values of station(15_000), and the least coordinate.
POSITION = ["--position=1114104.5999,-4850729.7108,3975521.4643", "--antenna-height", "1.5"]
LEAST = "-13743895.3472"
# Values of a message without a range, a rate and a strength.
INVALID = {"whole": 255, "speed": -8192, "strength": 0}


def msm7(time: int, number: int = 1077, **values: object) -> bytes:
    """Returns an MSM7 of a strength that is a tie of thousandths, 45.0625 dB-Hz, if no other is given."""
    return msm(number, time, **({"strength": 721} | values))


def other(number: int, more: bool) -> bytes:
    """Returns the header of an MSM that is not decoded."""
    return packed([(12, number), (12, STATION), (30, 0), (1, more), (9, 0)])


FULL = msm7(1000)
NEXT = msm7(2000)
THIRD = msm7(3000)
# The last ten seconds of a week, and the stream of a day that begins with them, as those of rotated logs do.
SATURDAY = msm7(604_790_000)
SUNDAY = [SATURDAY, FULL, NEXT]
# For each case its name, its arguments and its messages.
ROWS: list[tuple[str, list[str], list[bytes]]] = [
    # an epoch by the multiple message bit: the last 1097 is late, and by time alone it is accepted
    *(
        (
            f"convert-by-the-{rule}-after-an-unread-end-mark",
            [*CONVERT, "--gather", rule],
            [msm7(1000, more=1), msm7(1000, more=1, number=1097), other(1127, False)]
            + [msm7(1000, more=1, number=1097, satellites=[7])],
        )
        for rule in ("bit", "time")
    ),
    *(
        (
            f"convert-by-the-{rule}-galileo-first",
            [*CONVERT, "--gather", rule],
            [msm7(1000, more=1, number=1097), msm7(1000, number=1097, satellites=[7]), msm7(1000)],
        )
        for rule in ("bit", "time")
    ),
    (
        "convert-satellites-in-order",
        ONE_SIGNAL,
        [msm7(1000, more=1), msm7(1000, satellites=[3])],
    ),
    ("convert-a-change-of-all-values", ONE_SIGNAL, [FULL, station(15_000), NEXT]),
    ("convert-a-change-of-height-alone", ONE_SIGNAL, [station(15_000), FULL, station(15_001), NEXT]),
    ("convert-a-change-of-x-alone", ONE_SIGNAL, [station(15_000), FULL, station(None, 7), NEXT]),
    ("convert-a-change-of-y-alone", ONE_SIGNAL, [station(15_000), FULL, station(y=7), NEXT]),
    ("convert-a-change-of-z-alone", ONE_SIGNAL, [station(15_000), FULL, station(z=7), NEXT]),
    (
        "convert-a-change-that-is-undone",
        ONE_SIGNAL,
        [station(15_000), FULL, station(0, 1), station(15_000), NEXT],
    ),
    ("convert-the-same-values-again", ONE_SIGNAL, [station(15_000), FULL, station(15_000), NEXT]),
    ("convert-a-change-after-the-last-epoch", ONE_SIGNAL, [FULL, station(15_000)]),
    (
        "convert-a-satellite-without-a-value",
        ONE_SIGNAL,
        [msm7(1000, more=1, **INVALID), msm7(1000, satellites=[3])],
    ),
    (
        "convert-an-epoch-without-a-value",
        ONE_SIGNAL,
        [FULL, msm7(2000, **INVALID), THIRD],
    ),
    # an epoch without a value is not written, so that the header and an event belong to the next one
    (
        "convert-station-values-after-an-epoch-without-a-value",
        ONE_SIGNAL,
        [msm7(1000, **INVALID), station(15_000), NEXT],
    ),
    (
        "convert-a-change-before-an-epoch-without-a-value",
        ONE_SIGNAL,
        [FULL, station(15_000), msm7(2000, **INVALID), THIRD],
    ),
    (
        "convert-a-change-that-is-undone-after-an-epoch-without-a-value",
        ONE_SIGNAL,
        [station(15_000), FULL, station(x=7), msm7(2000, **INVALID), station(), THIRD],
    ),
    # the initial station values: with the same and with other values of a later message, and without one
    ("convert-a-position-that-is-sent-later", [*ONE_SIGNAL, *POSITION], [FULL, station(15_000), NEXT]),
    ("convert-a-position-and-the-same-without-height", [*ONE_SIGNAL, *POSITION], [FULL, station(), NEXT]),
    ("convert-a-position-before-another", [*ONE_SIGNAL, *POSITION], [FULL, station(15_000, 7), NEXT]),
    ("convert-a-position-without-message", [*ONE_SIGNAL, *POSITION], [FULL, NEXT]),
    ("convert-a-position-of-fewer-decimals", [*ONE_SIGNAL, "--position", "1,2.5,003.25"], [FULL]),
    ("convert-the-least-position", [*ONE_SIGNAL, f"--position={LEAST},{LEAST},{LEAST}"], [FULL]),
    ("convert-the-greatest-height", [*ONE_SIGNAL, "--antenna-height", "6.5535"], [FULL]),
    # the options of a stream: of the first station message, of any station or of one
    ("options-without-station-message", ["options"], [FULL]),
    ("options-without-signal", ["options"], [station(15_000)]),
    ("options-of-the-first-message", ["options"], [station(15_000), FULL, station(3, 7)]),
    ("options-of-a-1005", ["options"], [FULL, station(), station(15_000)]),
    ("options-of-two-stations", ["options"], [station(1, 7, 9), FULL, station(15_000)]),
    ("options-of-one-of-two-stations", ["options", "--station", "2003"], [station(1, 7, 9), FULL, station(15_000)]),
    ("options-of-a-station-without-signal", ["options", "--station", "9"], [station(1, 7, 9), FULL]),
    ("options-of-msms-of-two-stations", ["options"], [FULL, msm7(2000, station=7)]),
    ("options-of-two-stations-without-signal", ["options"], [station(1, 7, 9), station()]),
    ("signals-of-two-stations", ["signals"], [station(1, 7, 9), FULL]),
    # the week in which the first MSM, of any station or of one, is nearest to noon of a date: here 2301 begins
    ("options-near-a-sunday-that-begins-on-saturday", ["options", "--near", "2024-02-11"], SUNDAY),
    ("options-near-a-sunday", ["options", "--near", "2024-02-11"], [FULL, NEXT]),
    ("options-near-a-saturday", ["options", "--near", "2024-02-10"], SUNDAY),
    ("options-near-the-day-before", ["options", "--near", "2024-02-10"], [FULL, NEXT]),
    ("options-near-a-date-without-msm", ["options", "--near", "2024-02-10"], [station(15_000)]),
    ("options-near-the-middle-of-a-week", ["options", "--near", "2024-02-07"], [msm7(0)]),
    ("options-near-the-middle-and-later", ["options", "--near", "2024-02-07"], [msm7(1)]),
    ("options-near-the-middle-and-earlier", ["options", "--near", "2024-02-07"], [SATURDAY]),
    ("options-near-the-first-date", ["options", "--near", "1980-01-06"], SUNDAY),
    ("options-near-the-last-date", ["options", "--near", "3896-07-18"], [FULL]),
    (
        "options-near-a-date-of-one-of-two-stations",
        ["options", "--near=2024-02-11", "--station=2003"],
        [msm7(2000, station=7), station(1, 7, 9), *SUNDAY],
    ),
    ("convert-a-sunday-that-begins-on-saturday", [*CONVERT, "--gps=1C", "--galileo=none"], SUNDAY),
    ("convert-no-value-at-all", ONE_SIGNAL, [msm7(1000, **INVALID)]),
    (
        "convert-257-cells",
        CONVERT,
        [
            *(
                msm7(1000, more=1, satellites=[*range(1, 33)], signals=two)
                for two in ([2, 3], [4, 8], [9, 10], [15, 16])
            ),
            msm7(1000, satellites=[1], signals=[17]),
        ],
    ),
]
# A message of as many bytes as a frame can have, and the longest MSM: 64 satellites with one signal.
LONGEST = [packed([(12, 4095)]).ljust(1023, b"\x5a"), msm7(1000, satellites=[*range(1, 65)])]


def rows() -> list[dict]:
    made = [row(*one) for one in ROWS]
    for words in (["frames"], ["show"], ["signals"], ["options"], CONVERT):
        made.append(row(f"{words[0]}-the-longest-messages", words, LONGEST))
    # a message of each length that a frame can have, for the vectors of the CRC as each compiler translates them
    every = {"name": "frames-of-every-length", "words": ["frames"], "input_frames": 1024}
    return [*made, every | {"output_file": "cases/expected/frames-of-every-length.txt"}]


def streams() -> dict[str, bytes]:
    return {}
