"""Cases of `check --gaps`, with and without a window: gaps.json."""
from .common import file_of, file_row, msm

DAY = 86_400_000
FROM, UNTIL = ["--from", "2024-02-04"], ["--until", "2024-02-05"]
OF_A_DAY = [*FROM, *UNTIL]
OF_4_S = ["--from", "2024-02-04T12:00:00", "--until", "2024-02-04T12:00:04"]
NOON = DAY // 2


def lines_of(times: list[int]) -> list[str]:
    """Returns the lines of a file with epochs at these times in ms of the week, of one satellite each."""
    return file_of({"gps": "1C"}, [msm(1077, time) for time in times])


def gaps_row(name: str, words: list[str], lines: list[str], ending: str = "\n") -> dict:
    return {"name": name, "words": ["check", "--gaps", *words], "input": "\n".join(lines) + ending}


def at(name: str, words: list[str], *times: int) -> dict:
    """Returns a case of a file with epochs at these times."""
    return gaps_row(name, words, lines_of(list(times)))


def index_rows() -> list[dict]:
    """Borders of the index: half a second, and half of a shorter interval."""
    rows = [
        at("a-clock-that-jitters", ["1"], 0, 1001, 1999, 3000, 3999, 5001),
        at("a-clock-that-drifts", ["1"], *range(0, 12_000, 1001)),
        at("seconds-at-30-s", ["30"], *range(0, 120_000, 1000)),
        at("one-epoch", ["30"], NOON),
        at("two-epochs-of-an-index-and-a-gap", ["1", "--times"], 0, 400, 2000, 3000),
        at("a-gap-of-a-day", ["30"], 0, 30_000, DAY, DAY + 30_000),
    ]
    for interval, border, step in (("30", 29_500, 30_000), ("1", 500, 1000), ("0.3", 150, 300), ("0.999", 500, 999)):
        for away in (-1, 0, 1):
            rows.append(at(f"at-{interval}-s-an-index-of-0-or-1-{away:+}", [interval], 0, border + away))
            rows.append(at(f"at-{interval}-s-an-index-of-1-or-2-{away:+}", [interval], 0, border + step + away))
    rows += [at(f"at-a-millisecond-{n}-later", ["0.001"], 0, 1, 1 + n) for n in (1, 2, 3)]
    return rows


def window_rows() -> list[dict]:
    """Windows: their borders, and gaps at both ends."""
    hours = [hour * 3_600_000 for hour in range(24)]
    rows = [
        at("a-whole-day", ["3600", *OF_A_DAY], *hours),
        at("a-day-that-ends-at-noon", ["3600", *OF_A_DAY], *hours[:12]),
        at("a-day-that-begins-at-noon", ["3600", *OF_A_DAY], *hours[12:]),
        at("a-day-with-gaps-at-both-ends-and-within", ["3600", "--times", *OF_A_DAY], *hours[3:7], *hours[9:20]),
        at("a-day-without-its-first-hour", ["3600", *OF_A_DAY], *hours[1:]),
        at("a-day-without-its-last-hour", ["3600", *OF_A_DAY], *hours[:-1]),
        at("a-day-in-one-interval", ["86400", *OF_A_DAY], NOON),
        at("the-file-of-the-day-before", ["3600", "--from", "2024-02-05", "--until", "2024-02-06"], *hours),
        at("the-file-of-the-day-after", ["3600", "--from", "2024-02-03", "--until", "2024-02-04"], *hours),
        at("a-day-and-an-hour", ["3600", *OF_A_DAY], *hours, DAY),
        at("the-last-millisecond-of-the-day-before", ["30", "--from", "2024-02-05", "--until", "2024-02-06"], DAY - 1),
        at("the-last-millisecond-of-the-day", ["30", *OF_A_DAY], 0, DAY - 1),
        at("the-first-millisecond-of-the-day-after", ["30", *OF_A_DAY], 0, DAY),
    ]
    for interval, early in (("1", 500), ("0.5", 250), ("0.001", 0), ("4", 500), ("2", 500)):
        for away in (-1, 0, 1):
            rows.append(at(f"at-{interval}-s-early-{away:+}", [interval, *OF_4_S], NOON - early + away, NOON + 3000))
            rows.append(at(f"at-{interval}-s-late-{away:+}", [interval, *OF_4_S], NOON, NOON + 4000 - early + away))
        rows.append(at(f"at-{interval}-s-the-end", [interval, *OF_4_S], NOON, NOON + 4000))
        rows.append(at(f"at-{interval}-s-before-the-end", [interval, *OF_4_S], NOON, NOON + 3999))
    return rows


def fault_rows() -> list[dict]:
    """Faults in files with a window, and beside epochs outside of it."""
    amid, outside = lines_of([NOON + 2000, NOON + 3000]), lines_of([NOON + 1000, NOON + 3000, NOON + 4000])
    words = ["1", *OF_4_S]
    return [
        gaps_row("a-refused-satellite-in-a-window", words, [*amid[:-1], amid[-1] + " "]),
        gaps_row("a-refused-epoch-in-a-window", words, [*amid[:-2], amid[-2] + " ", amid[-1]]),
        gaps_row("a-cut-line-in-a-window", words, amid, ""),
        gaps_row("another-day-after-a-gap", words, outside),
        gaps_row("another-day-before-a-refused-satellite", words, [*outside[:-1], outside[-1] + " "]),
        gaps_row("another-day-before-a-cut-line", words, outside, ""),
        gaps_row("another-day-without-its-satellite", words, outside[:-1]),
        gaps_row("another-day-in-a-refused-epoch", words, [*outside[:-2], outside[-2] + " ", outside[-1]]),
        gaps_row("another-day-in-a-cut-epoch", words, outside[:-1], ""),
        gaps_row("a-refused-header-in-a-window", words, amid[1:]),
    ]


def option_rows() -> list[dict]:
    """Options that are refused, and the order in which they are judged."""
    cases = {
        "from-alone": FROM,
        "until-alone": UNTIL,
        "a-window-without-an-interval": OF_A_DAY,
        "an-interval-and-from": ["--gaps", "30", *FROM],
        "an-interval-and-until": ["--gaps", "30", *UNTIL],
        "from-alone-that-is-no-date": ["--from", "x"],
        "a-bad-interval-and-from": ["--gaps", "0", *FROM],
        "a-bad-interval-before-a-bad-begin": ["--gaps", "0", "--from", "x", *UNTIL],
        "a-bad-begin-before-a-bad-end": ["--gaps", "30", "--from", "x", "--until", "x"],
        "a-bad-end": ["--gaps", "30", *FROM, "--until", "2024-02-30"],
        "a-bad-end-with-a-time": ["--gaps", "30", *FROM, "--until", "2024-02-04T24:00:00"],
        "an-end-at-the-begin": ["--gaps", "30", *FROM, "--until", "2024-02-04"],
        "an-end-before-the-begin": ["--gaps", "30", *FROM, "--until", "2024-02-03"],
        "an-end-a-second-late": ["--gaps", "30", *FROM, "--until", "2024-02-05T00:00:01"],
        "a-window-of-half-an-interval": ["--gaps", "30", *FROM, "--until", "2024-02-04T00:00:15"],
        "an-interval-that-is-no-divisor": ["--gaps", "7", *OF_A_DAY],
    }
    refused = {
        "from-twice": ["--gaps", "30", *FROM, *OF_A_DAY],
        "until-without-a-value": ["--gaps", "30", *FROM, "--until"],
    }
    rows = [{"name": f"options-{name}", "words": ["check", *words], "input": "ab"} for name, words in cases.items()]
    return rows + [
        {"name": f"options-{name}", "words": ["check", *words], "input": "ab", "prints_usage": True}
        for name, words in refused.items()
    ]


def recorded_rows() -> list[dict]:
    """Converted recordings, with the window of the conversion and without."""
    seconds, fives = "samples/zed-f9t-2019-10-17.obs", "cases/expected/sample-interval-5.obs"
    until = "cases/expected/sample-until-half.obs"
    day, half = "2019-10-17", "2019-10-17T08:14:00"
    window = ["--from", day, "--until", half]
    return [
        file_row("sample-at-1-s", ["check", "--gaps", "1"], seconds),
        file_row("sample-at-30-s", ["check", "--gaps", "30"], seconds),
        file_row("sample-at-5-s", ["check", "--gaps", "5", "--times"], fives),
        file_row("sample-of-a-day", ["check", "--gaps", "30", "--from", day, "--until", "2019-10-18"], seconds),
        file_row("sample-of-another-day", ["check", "--gaps", "30", *OF_A_DAY], seconds),
        file_row("sample-until-half-at-5-s", ["check", "--gaps", "5", *window], until),
    ]


def streams() -> dict[str, bytes]:
    return {}


def rows() -> list[dict]:
    return [*index_rows(), *window_rows(), *fault_rows(), *option_rows(), *recorded_rows()]
