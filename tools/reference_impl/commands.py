"""The commands: the lines printed for the bytes of a stream."""
from .epochs import Gathered, Setup, week_near
from .frames import frames_of
from .lines import epoch_lines, event_lines, fixed, has_value, header
from .messages import (
    DEFAULT,
    EVERY,
    SIGNALS,
    TEXTS,
    Cell,
    Channels,
    Message,
    Msm,
    Other,
    Refused,
    Station,
    decode,
    equipment_of,
    number_of,
    numbers_of,
)
from .options import FORMS_OF, OPTION_NAMES, Fault, leap_seconds_at
from .weeks import Counted, First, check_near, week_sent

KINDS = ("station", "other", "ignored", "late", "past", "taken")
Report = dict[str, int]


def word(number: int | None) -> str:
    return "-" if number is None else str(number)


def frame_lines(data: bytes) -> list[str]:
    return [f"{place} {len(message)} {word(number_of(message))}" for place, message in frames_of(data)]


def quoted(text: bytes) -> str:
    """Returns a text in quotation marks, with the hexadecimal code of each byte that is special or not printable."""
    plain = [chr(byte) if 0x20 <= byte < 0x7F and byte not in b'"\\' else f"\\x{byte:02X}" for byte in text]
    return f'"{"".join(plain)}"'


def show_lines(data: bytes, is_all: bool = False) -> list[str]:
    """Returns a line for each station message and each MSM that is decoded by default; or for each of these, each
    other MSM and each antenna and receiver."""
    lines = []
    for place, message in frames_of(data):
        try:
            if is_all and number_of(message) in TEXTS:
                about = equipment_of(message)
                texts = map(quoted, about.texts)
                lines.append(" ".join(map(str, (place, about.number, about.station, about.setup, *texts))))
                continue
            read = decode(message, EVERY if is_all else DEFAULT)
        except Refused as fault:
            lines.append(f"{place} {word(number_of(message))} {fault}")
            continue
        if isinstance(read, Station):
            heights = () if read.height is None else (read.height,)
            lengths = [fixed(value, 4) for value in (*read.coordinates, *heights)]
            lines.append(" ".join(map(str, (place, read.number, read.station, *lengths))))
        elif isinstance(read, Msm):
            counts = (read.satellites, read.signals, len(read.cells))
            lines.append(" ".join(map(str, (place, read.number, read.station, read.time, read.more, *counts))))
    return lines


def messages_of(frames: list[tuple[int, bytes]], numbers: set[int]) -> list[Message]:
    """Returns the messages of these frames that aren't refused."""
    messages = []
    for _, message in frames:
        try:
            messages.append(decode(message, numbers))
        except Refused:
            pass
    return messages


def observed(messages: list[Message], station: int | None) -> list[Msm]:
    """Returns the MSMs of this station, or of any."""
    return [read for read in messages if isinstance(read, Msm) and station in (None, read.station)]


def counted(read: Msm) -> list[Cell]:
    """Returns the cells that have a value, of listed satellites and signals."""
    return [cell for cell in read.cells if cell.key is not None and has_value(cell)]


def signal_counts(messages: list[Message], station: int | None) -> dict[tuple[str, str], int]:
    """Returns the number of cells with a value of each signal that has one, in the order of the tables."""
    counts = {(system, code): 0 for system, codes in SIGNALS.items() for code in codes.values()}
    for read in observed(messages, station):
        for system, _, code in (cell.key for cell in counted(read)):
            counts[system, code] += 1
    return {signal: count for signal, count in counts.items() if count}


def no_signal(data: bytes, messages: list[Message]) -> Fault:
    """Returns the fault of a stream without signals: its bytes, its frames, and the MSMs of every station."""
    msms = observed(messages, None)
    return Fault(f"NoSignal bytes {len(data)} frames {len(frames_of(data))} msm {len(msms)}")


def count_lines(data: bytes, station: int | None, numbers: set[int] = EVERY) -> list[str]:
    messages = messages_of(frames_of(data), numbers)
    counts = signal_counts(messages, station)
    if not counts:
        raise no_signal(data, messages)
    return [f"{system} {code} {count}" for (system, code), count in counts.items()]


def first_station(messages: list[Message], station: int | None) -> Station | None:
    """Returns the first station message of this station, or of any."""
    stations = (read for read in messages if isinstance(read, Station))
    return next((read for read in stations if station in (None, read.station)), None)


def stations_of(messages: list[Message]) -> list[int]:
    """Returns the stations of the messages that are decoded, in the order of their first ones."""
    return list(dict.fromkeys(read.station for read in messages if isinstance(read, Station | Msm)))


def channels_in(messages: list[Message], station: int | None) -> Channels:
    """Returns the first channel of each slot: of messages 1020, and of MSMs of this station, or of any."""
    channels: Channels = {}
    for read in messages:
        if isinstance(read, Other) or isinstance(read, Msm) and station in (None, read.station):
            channels = read.channels | channels
    return channels


def plan_words(counts: dict[tuple[str, str], int], glonass: list[str]) -> list[str]:
    """Returns the options of the signals: of GPS and Galileo, and of each other system that has one; of GLONASS with
    further ones."""
    words = []
    for system, name in OPTION_NAMES.items():
        codes = ",".join(code for at, code in counts if at == system)
        words += [f"--{name} {codes or 'none'}"] if codes or system in "GE" else []
        words += glonass if codes and system == "R" else []
    return words


def glonass_words(channels: Channels, leap_seconds: int | None) -> list[str]:
    texts = ",".join(f"{slot}:{channel}" for slot, channel in sorted(channels.items()))
    words = [f"--glonass-channels {texts}"] if channels else []
    return words + ([] if leap_seconds is None else [f"--leap-seconds {leap_seconds}"])


def station_words(first: Station | None) -> list[str]:
    words = []
    if first:
        words.append("--position=" + ",".join(fixed(value, 4) for value in first.coordinates))
    if first and first.height is not None:
        words.append(f"--antenna-height {fixed(first.height, 4)}")
    return words


def read_frames(data: bytes, numbers: set[int]) -> list[tuple[bytes, Message | None]]:
    """Returns each message with what is read of it, or None if it is refused."""
    read = []
    for _, message in frames_of(data):
        try:
            read.append((message, decode(message, numbers)))
        except Refused:
            read.append((message, None))
    return read


# A source of the week that is the stream's ephemerides, in place of the noon of a date.
EPHEMERIDES = "ephemerides"


def option_line(data: bytes, station: int | None, source: int | str | None = None, numbers: set[int] = EVERY) -> str:
    """Returns the options of `convert` that fit a stream, of this station or of its only one, with the week near the
    noon of a date, or by the ephemerides."""
    read = read_frames(data, numbers)
    messages = [message for _, message in read if message is not None]
    stations = stations_of(messages)
    if station is None and len(stations) > 1:
        raise Fault(f"SeveralStations {stations[0]} {stations[1]}")
    counts = signal_counts(messages, station)
    if not counts:
        raise no_signal(data, messages)
    msms = observed(messages, station)
    text = "all" if any(msm.number % 10 in (5, 6) and counted(msm) for msm in msms) else "4,7"
    # those that are decoded with these options
    decoded = numbers_of({"G", "E"} | {system for system, _ in counts}, FORMS_OF[text])
    week, leap_seconds = None, None
    if source is not None:
        times = Counted(read, station)
        own = [place for place, (_, msm) in enumerate(read) if observed([msm], station)]
        place = next(place for place in own if read[place][1].number in decoded)
        first = First(read[place][1], times.at(place))
        if source == EPHEMERIDES:
            week, leap_seconds = week_sent(times, first)
        else:
            check_near(times, first, source)
            leap_seconds = leap_seconds_at(source)
            week = week_near(first.msm.gps_time(leap_seconds), source)
    words = [] if week is None else [f"--week {week}"]
    words += [] if station is None else [f"--station {station}"]
    words += plan_words(counts, glonass_words(channels_in(messages, station), leap_seconds))
    words += ["--msm all"] if text == "all" else []
    return " ".join(words + station_words(first_station(messages, station)))


def convert(data: bytes, setup: Setup, texts: dict[str, str], has_ended: bool = True) -> tuple[list[str], Report]:
    """Returns the lines of the file and the report, or, of a stream that goes on, those of its closed epochs.

    Raises the fault of a stream that has ended and has no epoch to be written.
    """
    frames = frames_of(data)
    messages = messages_of(frames, setup.numbers())
    gathered = Gathered(setup, messages)
    lines: list[str] = []
    closed = [time for time in gathered.times if has_ended or gathered.closing(time) < len(messages)]
    valued = [time for time in closed if epoch_lines(gathered, time)]
    chosen = [time for time in valued if setup.choice.includes(time)]
    if has_ended and not chosen:
        window = sum(map(setup.choice.in_window, valued))
        grid = sum(map(setup.choice.on_grid, valued))
        raise Fault(f"NoneChosen epochs {len(valued)} window {window} grid {grid}" if valued else "NoEpoch")
    written = [(time, epoch_lines(gathered, time)) for time in chosen]
    values = [gathered.station_values(time) for time, _ in written]
    for place, (time, epoch) in enumerate(written):
        if place == 0:
            lines += header(texts, setup.plan, values[0], time, setup.channels, setup.choice.interval)
        elif values[place] != values[place - 1]:
            lines += event_lines(values[place])
        lines += epoch
    report = {"bytes": len(data), "skipped_bytes": len(data) - sum(6 + len(message) for _, message in frames)}
    report |= {"frames": len(frames), "faulty": len(frames) - len(messages)}
    report |= {kind: gathered.kinds.count(kind) for kind in KINDS}
    outcomes = [(outcome, cell) for time in gathered.times for outcome, cell in gathered.outcomes(time)]
    found = [outcome for outcome, _ in outcomes]
    report |= {outcome: found.count(outcome) for outcome in ("skipped", "repeated", "crowded")}
    if setup.plan["R"]:
        keys = [cell.key for outcome, cell in outcomes if outcome == "kept"]
        report["without_channel"] = sum(system == "R" and slot not in setup.channels for system, slot, _ in keys)
    return lines, report | {"epochs": len(written)}


def report_line(report: Report) -> str:
    return " ".join(f"{name} {count}" for name, count in report.items())
