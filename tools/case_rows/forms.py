"""Cases of the forms of MSM: forms.json and its streams."""
from reference_impl.fields import FORMS
from reference_impl.frames import frame_of, frames_of
from reference_impl.messages import number_of
from reference_impl.recode import recoded

from .common import CONVERT, TOP, file_row, inverted, limits, msm, prefixes, row, stream

GR30 = "cases/input/gr30-2025-04-11.rtcm3"
STFU = "cases/input/stfu-2016-04-06.rtcm3"
RECODED_EPOCHS = 3
ALL = [*CONVERT, "--msm", "all"]
OF_1C = [*ALL, "--gps", "1C", "--galileo", "none"]
# GPS for MSM5 and MSM7, Galileo for MSM4 and MSM6.
NUMBERS = {4: 1094, 5: 1075, 6: 1096, 7: 1077}
EIGHT = {"G": [2, 3, 4, 8, 9, 10, 15, 16], "E": [2, 3, 4, 5, 6, 8, 9, 10]}
SATURDAY = 604_790_000
NONE = {"whole": 255, "speed": -8192, "strength": 0}


def prefix_messages(form: int) -> list[bytes]:
    return prefixes(msm(NUMBERS[form], 1000, [5, 7], [2, 16]))


def inverted_messages(form: int) -> list[bytes]:
    return inverted(msm(NUMBERS[form], 1000))


def limit_messages(form: int) -> list[bytes]:
    """Returns an epoch for each field and each of its limits."""
    layout = FORMS[form]
    values = [
        {name: value}
        for widths in (layout.satellite, layout.cell)
        for name, width in widths.items()
        for value in limits(name, width)
    ]
    return [msm(1070 + form, 1000 * n, **value) for n, value in enumerate(values)]


def mask_messages(form: int) -> list[bytes]:
    """Returns messages of no, of 64 and of more pairs of satellites and signals."""
    number = NUMBERS[form]
    eight = EIGHT["G" if number < 1090 else "E"]
    every, signals = [*range(1, 65)], [*range(1, 33)]
    masks = [([], []), ([], [2]), ([5], []), (every, []), (every, [2]), (every[:8], eight), ([1, 36], signals)]
    over = [([*range(1, 6)], [*range(1, 14)]), (every, [2, 16]), (every, signals)]
    whole = [msm(number, 1000 * n, *mask, part=100 * n) for n, mask in enumerate(masks)]
    # to the end of the masks, and without their last bit
    cut = [msm(number, 9000, *mask)[:size] for mask in over for size in (22, 21)]
    return whole + cut


def recoded_stream(form: int) -> bytes:
    """Returns the first epochs of GPS and Galileo of the recording of 2016, recoded as this form."""
    messages = [message for _, message in frames_of((TOP / STFU).read_bytes())]
    observed = [message for message in messages if number_of(message) in (1077, 1097)]
    return b"".join(frame_of(recoded(message, form)) for message in observed[: 2 * RECODED_EPOCHS])


MADE = {"prefixes": prefix_messages, "inverted": inverted_messages, "limits": limit_messages, "masks": mask_messages}
# A stream of each kind for each form.
STREAMS = {(kind, form): f"cases/input/msm{form}-{kind}.rtcm3" for kind in (*MADE, "recoded") for form in FORMS}


def streams() -> dict[str, bytes]:
    """Returns the content of the stored inputs by their paths."""
    made = {STREAMS[kind, form]: stream(messages(form)) for kind, messages in MADE.items() for form in FORMS}
    return made | {STREAMS["recoded", form]: recoded_stream(form) for form in FORMS}


def stream_rows() -> list[dict]:
    rows = []
    for (kind, form), path in STREAMS.items():
        name = path.removeprefix("cases/input/").removesuffix(".rtcm3")
        rows.append(file_row(f"{name}-signals", ["signals"], path))
        if kind == "limits":
            rows.append(file_row(f"{name}-convert", OF_1C, path))
        elif kind == "recoded":
            rows.append(file_row(f"{name}-options", ["options", "--near", "2016-04-06"], path))
            plan = ["--gps", "1C,2W,5X", "--galileo", "1X,5X"]
            rows.append(file_row(f"{name}-convert", [*ALL, *plan], path))
        else:
            rows.append(file_row(f"{name}-show", ["show"], path))
            rows.append(file_row(f"{name}-show-all", ["show", "--all"], path))
            rows.append(file_row(f"{name}-convert", [*CONVERT, "--gather", "time"], path))
            rows.append(file_row(f"{name}-convert-all", [*ALL, "--gather", "time", "--gps", "1C,2L"], path))
    return rows


# Of one satellite and signal: each form with a lock indicator, a second apart.
LOCKS = [
    (7, 300),
    (5, 8),
    (5, 9),
    (6, 320),
    (4, 15),
    (5, 14),
    (6, 0),
    (4, 0),
    (7, 64),
    (5, 3),
    (6, 704),
    (5, 15),
    (6, 705),
]
UNDECODED = msm(1075, 2000)[:12]
OF_TWO_STATIONS = [msm(1077, 1000), msm(1075, 1000, station=7), msm(1096, 1000, station=7)]
ROWS: list[tuple[str, list[str], list[bytes]]] = [
    ("convert-locks-of-all-forms", OF_1C, [msm(1070 + form, 1000 * n, lock=i) for n, (form, i) in enumerate(LOCKS)]),
    # an epoch of four forms, which a later cell of a satellite and signal doesn't change
    (
        "convert-an-epoch-of-all-forms",
        OF_1C,
        [msm(1070 + form, 1000, [form, 9], more=form > 4, part=form) for form in (7, 6, 5, 4)],
    ),
    # by default MSM5 and MSM6 are ignored, and end epochs
    ("convert-ignores-other-forms", CONVERT, [msm(1075, 1000, more=1), msm(1077, 1000, more=1), msm(1096, 1000)]),
    (
        "convert-ends-an-epoch-by-another-form",
        CONVERT,
        [msm(1077, 1000, more=1), msm(1076, 1000), msm(1077, 1000, [7])],
    ),
    ("convert-does-not-refuse-another-form", CONVERT, [msm(1077, 1000), UNDECODED, msm(1075, 604_800_000)]),
    ("convert-refuses-another-form", ALL, [msm(1077, 1000), UNDECODED, msm(1075, 604_800_000)]),
    ("convert-the-default-forms", [*CONVERT, "--msm", "4,7"], [msm(1075, 1000), msm(1077, 1000)]),
    # one of another station is ignored, or with `--msm all` counted as of another station
    ("convert-another-form-of-another-station", [*CONVERT, "--station", "2003"], OF_TWO_STATIONS),
    ("convert-any-form-of-another-station", [*ALL, "--station", "2003"], OF_TWO_STATIONS),
    ("convert-bytes-after-the-last-field", OF_1C, [msm(1075, 1000) + bytes(10), msm(1076, 2000) + b"\xff" * 50]),
    # `--msm all` if a cell that is counted is of MSM5 or MSM6; the week is that of the first decoded MSM
    ("options-of-msm5", ["options"], [msm(1074, 1000), msm(1095, 1000)]),
    ("options-of-msm6", ["options"], [msm(1077, 1000), msm(1076, 1000)]),
    ("options-of-msm5-without-values", ["options"], [msm(1075, 1000, **NONE), msm(1077, 1000)]),
    ("options-of-msm6-of-an-unlisted-signal", ["options"], [msm(1076, 1000, signals=[5]), msm(1077, 1000)]),
    ("options-of-msm6-of-an-unlisted-satellite", ["options"], [msm(1076, 1000, [33]), msm(1077, 1000)]),
    ("options-of-msm5-of-two-stations", ["options"], [msm(1077, 1000), msm(1075, 1000, station=7)]),
    (
        "options-of-msm5-of-another-station",
        ["options", "--station", "2003"],
        [msm(1075, 1, station=7), msm(1077, 1000)],
    ),
    ("options-near-a-week-of-msm5", ["options", "--near", "2024-02-11"], [msm(1075, SATURDAY), msm(1077, 1000)]),
    (
        "options-near-a-week-of-msm7",
        ["options", "--near", "2024-02-11"],
        [msm(1075, SATURDAY, **NONE), msm(1077, 1000)],
    ),
    ("convert-one-form", [*CONVERT, "--msm", "5"], []),
    ("convert-forms-in-another-order", [*CONVERT, "--msm", "7,4"], []),
    ("convert-forms-in-capitals", [*CONVERT, "--msm", "ALL"], []),
    ("convert-no-forms", [*CONVERT, "--msm", ""], []),
    ("convert-forms-twice", [*ALL, "--msm", "all"], []),
    ("show-all-twice", ["show", "--all", "--all"], []),
]
USAGE = (
    "convert-one-form",
    "convert-forms-in-another-order",
    "convert-forms-in-capitals",
    "convert-no-forms",
    "convert-forms-twice",
    "show-all-twice",
)


def recording_rows() -> list[dict]:
    """Returns the cases of a recording of MSM5."""
    plan = ["--gps", "1C,2W,2S,5Q", "--galileo", "1C,7Q,8Q,5Q", "--position=4472544.6659,601634.1000,4492545.0279"]
    with_options = ["convert", "--week", "2361", "--date", "20240204 000001 UTC", *plan, "--antenna-height", "0.0790"]
    return [
        file_row("gr30-signals", ["signals"], GR30),
        file_row("gr30-options", ["options", "--near", "2025-04-12"], GR30),
        file_row("gr30-show", ["show"], GR30),
        file_row("gr30-show-all", ["show", "--all"], GR30, "txt"),
        file_row("gr30-convert-default", with_options, GR30),
        file_row("gr30-convert", [*with_options, "--msm", "all"], GR30, "obs"),
    ]


def rows() -> list[dict]:
    usage = {"prints_usage": True}
    made = [row(name, words, messages) | (usage if name in USAGE else {}) for name, words, messages in ROWS]
    return [*made, *stream_rows(), *recording_rows()]
