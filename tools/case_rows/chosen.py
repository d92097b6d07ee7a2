"""Cases of the epochs that are written and of the header's optional records: chosen.json."""
from .common import CONVERT, TOP, check_row, file_of, file_row, moved, msm, replaced, row, without
from .common import station as station_message

SAMPLE = "samples/zed-f9t-2019-10-17"
STFU = "cases/input/stfu-2016-04-06.rtcm3"
OF_1C = [*CONVERT, "--gps", "1C", "--galileo", "none"]
EVERY_5 = [*OF_1C, "--interval", "5"]
WEEK = 604_800_000
# Locks of a day, lost, and unknown, and no phase, in MSM7 and in MSM4.
LONG, LOST, UNKNOWN, NO_PHASE = {7: 704, 4: 15}, 0, 705, {7: -1 << 23, 4: -1 << 21}
# The sample is of 08:13:47.001 to 08:14:12.001.
HALF = "2019-10-17T08:14:00"


def second(n: int, form: int = 7, satellites: tuple[int, ...] = (5, 7), **values: int) -> bytes:
    """Returns the epoch of a second of the week, with long locks if no others are given."""
    return msm(1070 + form, 1000 * n, [*satellites], [2], **({"lock": LONG[form]} | values))


def station(height: int) -> bytes:
    """Returns a message 1006."""
    return station_message(height, y=48_507_297_108, systems=0)


def seconds(changed: dict[int, bytes], form: int = 7) -> list[bytes]:
    """Returns the epochs of 11 seconds, some of them replaced."""
    return [changed.get(n, second(n, form)) for n in range(11)]


def mark_rows() -> list[dict]:
    """A slip at 3 s, of which the epochs of 0, 5 and 10 s are written."""
    rows = []
    for form in (7, 4):
        lost = second(3, form, lock=LOST)
        half = second(3, form, lock=LOST, half=1)
        no_phase = second(5, form, phase=NO_PHASE[form])
        streams = {
            "in-an-epoch-that-is-left-out": {3: lost},
            "with-a-half-cycle": {3: half},
            "before-a-half-cycle": {3: lost, 5: second(5, form, half=1)},
            "before-a-cell-without-a-phase": {3: lost, 5: no_phase},
            "before-an-epoch-without-the-satellite": {3: lost, 5: second(5, form, (7,))},
            "at-a-cell-without-a-phase": {3: second(3, form, lock=LOST, phase=NO_PHASE[form])},
            "of-one-satellite": {3: second(3, form, (5,), lock=LOST)},
            "in-an-epoch-that-is-written": {5: second(5, form, lock=LOST)},
            "twice": {3: lost, 4: second(4, form, lock=LOST), 5: second(5, form, lock=LOST)},
            "before-the-first-epoch-that-has-the-satellite": {0: second(0, form, (7,)), 3: lost},
        }
        rows += [row(f"msm{form}-a-slip-{name}", EVERY_5, seconds(changed, form)) for name, changed in streams.items()]
    unknown = {3: second(3, lock=LOST), 5: second(5, lock=UNKNOWN)}
    rows.append(row("a-slip-before-an-unknown-lock", EVERY_5, seconds(unknown)))
    rows.append(row("a-slip-at-an-unknown-lock", EVERY_5, seconds({3: second(3, lock=UNKNOWN)})))
    slip = seconds({3: second(3, lock=LOST)})
    start = ["--from", "2024-02-04T00:00:05"]
    rows.append(row("a-slip-before-the-window", [*EVERY_5, *start], slip))
    rows.append(row("a-slip-before-a-window-of-every-epoch", [*OF_1C, *start], slip))
    rows.append(row("a-slip-after-the-window", [*EVERY_5, "--until", "2024-02-04T00:00:03"], slip))
    # the epoch of 5 s is on the grid and has a phase, so that the next window begins without the mark
    rows.append(row("a-slip-before-an-epoch-before-the-window", [*EVERY_5, "--from", "2024-02-04T00:00:06"], slip))
    return rows


def time_rows() -> list[dict]:
    """Times beside the grid, the borders of windows, and weeks."""
    early = [msm(1077, 1000 * n - 1, lock=LONG[7]) for n in range(1, 12)]
    late = [msm(1077, 1000 * n + 6, lock=LONG[7]) for n in range(11)]
    fast = [msm(1077, 10 * n, lock=LONG[7]) for n in range(31)]
    midnight = [msm(1077, 86_400_000 + n, lock=LONG[7]) for n in (-1001, -6, -5, -1, 0, 999, 29_999)]
    sunday = [msm(1077, time, lock=LONG[7]) for time in (WEEK - 10_000, WEEK - 1, 10_000, 20_000)]
    before, day = ["--until", "2024-02-05"], ["--from", "2024-02-05"]
    over = ["--from", "2024-02-10T23:59:55", "--until", "2024-02-11T00:00:15"]
    return [
        row("a-clock-that-is-early-by-1-ms", EVERY_5, early),
        row("a-clock-that-is-late-by-6-ms", EVERY_5, late),
        row("a-clock-that-is-late-by-6-ms-within-a-tolerance", [*EVERY_5, "--tolerance", "0.006"], late),
        row("a-clock-that-is-early-with-a-tolerance-of-0", [*EVERY_5, "--tolerance", "0"], early),
        row("a-clock-on-the-grid-with-a-tolerance-of-0", [*EVERY_5, "--tolerance", "0.0"], seconds({})),
        row("the-greatest-tolerance", [*OF_1C, "--interval", "1", "--tolerance", "0.5"], late),
        row("a-hundred-epochs-a-second", [*OF_1C, "--interval", "0.1"], fast),
        row("a-hundred-epochs-a-second-of-every-epoch", OF_1C, fast),
        row("an-interval-of-a-day", [*OF_1C, "--interval", "86400"], midnight),
        row("the-day-before-midnight", [*OF_1C, *before], midnight),
        row("the-day-after-midnight", [*OF_1C, *day], midnight),
        row("the-day-before-midnight-with-a-tolerance-of-0", [*OF_1C, *before, "--tolerance", "0"], midnight),
        row("the-day-after-midnight-with-a-tolerance-of-0", [*OF_1C, *day, "--tolerance", "0"], midnight),
        row("an-interval-of-30-s-after-midnight", [*OF_1C, *day, "--interval", "30"], midnight),
        row("a-window-over-the-end-of-a-week", [*OF_1C, *over], sunday),
        row("a-window-of-the-week-before", [*OF_1C, "--until", "2024-02-11"], sunday),
        row("a-window-of-the-next-week", [*OF_1C, "--from", "2024-02-11T00:00:00"], sunday),
        row("a-window-without-an-epoch", [*OF_1C, "--from", "2024-02-05"], seconds({})),
        row("a-window-without-an-epoch-on-the-grid", [*EVERY_5, "--from", "2024-02-04T00:00:11"], seconds({})),
        row("no-epoch-on-the-grid", [*EVERY_5, "--until", "2024-02-04T00:00:04"], seconds({})[1:]),
        row("no-value-in-a-window", EVERY_5, [second(n, whole=255, speed=-8192, strength=0) for n in (0, 1)]),
        row("a-limit-before-the-first-chosen-epoch", [*EVERY_5, "--limit", "100"], seconds({})[1:]),
    ]


def station_rows() -> list[dict]:
    """Station values that change in epochs that are left out."""
    values = [station(15_000), station(15_001), station(15_000)]
    later = [[second(n) for n in some] for some in (range(3), range(3, 4), range(4, 11))]
    undone = [values[0], *later[0], values[1], *later[1], values[2], *later[2]]
    changed = [values[0], *later[0], values[1], *later[1], *later[2]]
    return [
        row("a-change-of-height-in-an-epoch-that-is-left-out", EVERY_5, changed),
        row("a-change-that-is-undone-in-an-epoch-that-is-left-out", EVERY_5, undone),
        row("a-change-before-the-window", [*EVERY_5, "--from", "2024-02-04T00:00:05"], changed),
    ]


# Texts of the options that choose epochs, valid and invalid.
TEXTS = {
    "from": "1980-01-06 2024-02-04T00:00:00 2024-02-04T23:59:59 3896-07-18 1980-01-05 3896-07-19 2024-02-30 2024-2-4 "
    "2024-02-04T24:00:00 2024-02-04T23:60:00 2024-02-04T23:59:60 2024-02-04T00:00 2024-02-04t00:00:00 2024-02-04T "
    "2024-02-04T00:00:00Z 2024-02-04T00:00:0 2024-02-04T+0:00:00 2300 +2024-02-04 2024-02-04T00:00:00.0".split() + [""],
    "until": "2024-02-04T00:00:01 3896-07-18T23:59:59 1980-01-06 1980-01-05 2024-02-04T24:00:00 now".split() + [""],
    "interval": "0.1 0.125 0.100 1 5 30 300 3600 86400 86400.000 0.099 0 7 0.7 86400.001 172800 43200 50000 1.5 +1 -1 "
    "1. .5 1e1 0.0005 000000030 00000030 123456789".split() + [""],
    "tolerance": "0 0.000 0.5 0.499 0.005 0.501 1 0.0001 -0 +0.1 .1 00000000.5".split() + [""],
}
# Options of which the first fault is reported.
ORDERS = {
    "channels-before-from": ["--from", "x", "--glonass-channels", "x"],
    "from-before-until": ["--until", "x", "--from", "y"],
    "until-before-interval": ["--interval", "7", "--until", "x"],
    "window-before-interval": ["--interval", "7", "--from", "2024-02-05", "--until", "2024-02-04"],
    "interval-before-tolerance": ["--tolerance", "9", "--interval", "7"],
    "tolerance-before-texts": ["--tolerance", "9", "--marker-number", "x" * 21],
    "an-empty-window": ["--from", "2024-02-05", "--until", "2024-02-05"],
    "a-window-of-a-second": ["--from", "2024-02-04T23:59:59", "--until", "2024-02-05"],
    "half-of-an-interval": ["--interval", "0.1", "--tolerance", "0.05"],
    "more-than-half-of-an-interval": ["--interval", "0.1", "--tolerance", "0.051"],
    "half-of-an-odd-interval": ["--interval", "0.125", "--tolerance", "0.062"],
    "more-than-half-of-an-odd-interval": ["--interval", "0.125", "--tolerance", "0.063"],
    "a-marker-number": ["--marker-number", "10403M002"],
    "a-marker-number-of-20-columns": ["--marker-number", "12345678901234567890   "],
    "a-marker-number-of-21-columns": ["--marker-number", "123456789012345678901"],
    "a-blank-marker-number": ["--marker-number", "  "],
    "a-comment": ["--comment", "  of a night", "--marker", "KIRU"],
    "a-comment-of-60-columns": ["--comment", "c" * 60],
    "a-comment-of-61-columns": ["--comment", "c" * 61],
    "a-blank-comment": ["--comment", "   "],
    "a-comment-with-a-tab": ["--comment", "a\tb"],
    "a-comment-before-a-marker": ["--comment", "\x7f", "--marker", "m" * 61],
    "a-marker-number-after-a-marker": ["--marker-number", "\x7f", "--marker", "m" * 61],
}


def option_rows() -> list[dict]:
    rows = []
    for name, texts in TEXTS.items():
        rows += [row(f"{name}-{place}", [*OF_1C, f"--{name}={text}"], [second(0)]) for place, text in enumerate(texts)]
    return rows + [row(name, [*OF_1C, *words], [second(0)]) for name, words in ORDERS.items()]


def line(content: str, label: str) -> str:
    return f"{content:<60}{label:<20}"


def check_rows() -> list[dict]:
    """The optional records, right, blank, changed and in other places."""
    whole = file_of({"gps": "1C"}, [second(0)])
    run, name, unit = "rtcm2rinex", " " * 60 + "MARKER NAME", "DBHZ"
    comment, number = line("of a night", "COMMENT"), line("10403M002", "MARKER NUMBER")

    def after(start: str, *lines: str) -> list[str]:
        place = next(place for place, other in enumerate(whole) if other.startswith(start))
        return [*whole[: place + 1], *lines, *whole[place + 1 :]]

    files = {
        "a-comment": after(run, comment),
        "a-comment-of-60-columns": after(run, line("c" * 60, "COMMENT")),
        "a-blank-comment": after(run, line("", "COMMENT")),
        "two-comments": after(run, comment, comment),
        "a-comment-after-the-marker": after(name, comment),
        "a-comment-with-a-byte-that-is-not-printable": after(run, line("a\tb", "COMMENT")),
        "a-comment-with-a-line-of-81-columns": after(run, comment + " "),
        "a-marker-number": after(name, number),
        "a-blank-marker-number": after(name, line("", "MARKER NUMBER")),
        "a-marker-number-of-21-columns": after(name, line("1" * 21, "MARKER NUMBER")),
        "a-marker-number-before-the-name": after(run, number),
        "two-marker-numbers": after(name, number, number),
        "a-comment-and-no-name": without(after(run, comment), name),
    }
    texts = "0.100 1.000 30.000 86400.000 0.125 0.099 0.000 7.000 -1.000 86400.001 172800.000 30.0 30.0000 30"
    files |= {f"an-interval-of-{text}": after(unit, line(f"{text:>10}", "INTERVAL")) for text in texts.split()}
    files |= {
        "an-interval-on-the-left": after(unit, line("30.000", "INTERVAL")),
        "an-interval-after-11-columns": after(unit, line("     30.000", "INTERVAL")),
        "an-interval-and-a-text": after(unit, line("    30.000 s", "INTERVAL")),
        "a-blank-interval": after(unit, line("", "INTERVAL")),
        "two-intervals": after(unit, *[line("    30.000", "INTERVAL")] * 2),
        "an-interval-after-the-first-time": moved(after(unit, line("    30.000", "INTERVAL")), "    30.000", "  2024"),
        "an-interval-before-the-unit": moved(after(unit, line("    30.000", "INTERVAL")), "DBHZ", "    30.000"),
        "a-unit-that-is-not-dbhz": replaced(whole, "DBHZ", "dBHz"),
    }
    return [check_row(f"check-{name}", lines) for name, lines in files.items()]


def recorded_rows() -> list[dict]:
    """The recordings: an interval, and windows that meet."""
    plan = (TOP / f"{SAMPLE}.plan").read_text(encoding="ascii")
    sample = ["convert", "--date", "20240204 000001 UTC", *plan.split()]
    stfu = ["convert", "--week", "1891", "--date", "20240204 000001 UTC", "--interval", "10"]
    return [
        file_row("sample-interval-5", [*sample, "--interval", "5"], f"{SAMPLE}.rtcm3", "obs"),
        file_row("sample-until-half", [*sample, "--interval", "5", "--until", HALF], f"{SAMPLE}.rtcm3", "obs"),
        file_row("sample-from-half", [*sample, "--interval", "5", "--from", HALF], f"{SAMPLE}.rtcm3", "obs"),
        file_row("sample-interval-5-tolerance-0", [*sample, "--interval", "5", "--tolerance", "0"], f"{SAMPLE}.rtcm3"),
        file_row("stfu-interval-10", stfu, STFU, "obs"),
        file_row("check-sample-interval-5", ["check"], "cases/expected/sample-interval-5.obs"),
    ]


def streams() -> dict[str, bytes]:
    return {}


def rows() -> list[dict]:
    return [*mark_rows(), *time_rows(), *station_rows(), *option_rows(), *check_rows(), *recorded_rows()]
