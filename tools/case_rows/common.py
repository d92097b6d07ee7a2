"""Messages and rows of stored cases."""
from pathlib import Path

from reference_impl.commands import convert
from reference_impl.epochs import Setup
from reference_impl.fields import FORMS, SIGNED, Columns, Fields, packed, pairs_of
from reference_impl.frames import frame_of
from reference_impl.messages import Channels
from reference_impl.options import COLUMNS, plan_of

TOP = Path(__file__).resolve().parent.parent.parent
CONVERT = ["convert", "--week", "2300", "--date", "20240204 000001 UTC"]
STATION = 2003
# The values of the fields if no others are given: 70 ms, 100 m/s, a lock of 64 ms or more and 45 dB-Hz.
USUAL = {"whole": 70, "extended": 0, "part": 0, "speed": 100, "range": 0, "phase": 0, "half": 0, "rate": 0}
COARSE = {"lock": 2, "strength": 45}
FINE = {"lock": 64, "strength": 720}


def msm(
    number: int,
    time: int,
    satellites: list[int] | None = None,
    signals: list[int] | None = None,
    more: int = 0,
    station: int = STATION,
    **values: int,
) -> bytes:
    """Returns an MSM with each of these satellites and signals, by default 5 and 2, and these values in its fields."""
    satellites = [5] if satellites is None else satellites
    signals = [2] if signals is None else signals
    pairs = pairs_of(satellites, signals)
    known = USUAL | (FINE if number % 10 in (6, 7) else COARSE) | values
    of_satellites: Columns = {name: [known[name]] * len(satellites) for name in FORMS[number % 10].satellite}
    of_cells: Columns = {name: [known[name]] * len(pairs) for name in FORMS[number % 10].cell}
    return Fields(number, station, time, more, satellites, signals, pairs, of_satellites, of_cells).message()


def station(
    height: int | None = None,
    x: int = 11_141_045_999,
    number: int = STATION,
    y: int = -48_507_297_108,
    z: int = 39_755_214_643,
    systems: int = 12,
) -> bytes:
    """Returns a message 1005, or with a height a 1006. The systems are DF021 to DF024 and DF141, 10 bits."""
    fields = [(12, 1005 if height is None else 1006), (12, number), (10, systems), (38, x), (2, 0)]
    fields += [(38, y), (2, 0), (38, z)]
    return packed(fields + ([] if height is None else [(16, height)]))


def limits(name: str, width: int) -> list[int]:
    """Returns values of a field at its limits and beside them."""
    if name in SIGNED:
        least = -(1 << width - 1)
        return [least, least + 1, -1, 0, 1, -least - 1]
    most = (1 << width) - 1
    values = {0, 1, most - 1, most}
    # the last indicator of DF407, and the first of unknown locks
    return sorted(values | {704, 705} if (name, width) == ("lock", 10) else values)


def stream(messages: list[bytes]) -> bytes:
    return b"".join(map(frame_of, messages))


def prefixes(message: bytes) -> list[bytes]:
    """Returns the message truncated after each byte, and whole."""
    return [message[:size] for size in range(len(message) + 1)]


def inverted(message: bytes) -> list[bytes]:
    """Returns the message with each byte inverted."""
    return [message[:n] + bytes([byte ^ 255]) + message[n + 1 :] for n, byte in enumerate(message)]


def row(name: str, words: list[str], messages: list[bytes]) -> dict:
    """Returns a case whose input is in its row."""
    return {"name": name, "words": words, "input_hex": stream(messages).hex()}


def file_row(name: str, words: list[str], path: str, expected: str = "") -> dict:
    """Returns a case of a stored input; with the extension `expected` its output is a file too."""
    made = {"name": name, "words": words, "input_file": path}
    return made | ({"output_file": f"cases/expected/{name}.{expected}"} if expected else {})


def file_of(plan: dict[str, str], messages: list[bytes], channels: Channels | None = None) -> list[str]:
    """Returns the lines of the file of these messages, converted by the reference with this plan."""
    texts = dict.fromkeys(COLUMNS, "") | {"marker_type": "GEODETIC"}
    planned = plan_of(**{"gps": "none", "galileo": "none"} | plan)
    lines, _ = convert(stream(messages), Setup(2300, None, True, planned, channels=channels or {}), texts)
    return lines


def check_row(name: str, lines: list[str]) -> dict:
    """Returns a case of `check`."""
    return {"name": name, "words": ["check"], "input": "".join(line + "\n" for line in lines)}


def replaced(lines: list[str], old: str, new: str) -> list[str]:
    """Returns the lines with the first text that begins one replaced by another, of as many columns up to the label."""
    place = next(place for place, line in enumerate(lines) if line.startswith(old))
    return [*lines[:place], new + lines[place][len(old) :], *lines[place + 1 :]]


def moved(lines: list[str], start: str, after: str) -> list[str]:
    """Returns the lines with the first that has this start after the first that has another."""
    line = next(line for line in lines if line.startswith(start))
    left = [other for other in lines if other is not line]
    place = next(place for place, other in enumerate(left) if other.startswith(after))
    return [*left[: place + 1], line, *left[place + 1 :]]


def without(lines: list[str], start: str) -> list[str]:
    """Returns the lines but the first that has this start."""
    place = next(place for place, line in enumerate(lines) if line.startswith(start))
    return [*lines[:place], *lines[place + 1 :]]
