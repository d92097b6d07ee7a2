"""Cases of a stream with the irregularities of a real night: operator.json.

The stream is the recording in samples/, changed as follows:

- it is preceded by the text of a caster,
- it begins and ends within a frame,
- a GPS week ends between the fifth and the sixth epoch,
- it contains messages of another station,
- the station moves after the eighth epoch, and has an antenna height from then on.

The UBX messages of the receiver remain between the frames.
"""
from reference_impl.fields import Bits
from reference_impl.frames import frame_of, frames_of
from reference_impl.messages import DEFAULT, WEEK, number_of

from .common import TOP

STREAM, FILE = "cases/input/operator.rtcm3", "cases/expected/operator.obs"
CASTER = b"ICY 200 OK\r\nServer: NTRIP Caster\r\nDate: Sat, 24 Oct 2019 23:59:54 GMT\r\n\r\n"
CONVERT = ["convert", "--week", "2075", "--date", "20191020 000100 UTC", "--station", "0", "--marker", "ROOF"]
EPOCHS, BEFORE_MIDNIGHT, BEFORE_MOVE = 12, 5, 8
# The recorded time of the first epoch, in ms of the week; one a second follows.
FIRST_TIME = 375_227_001
MOVED_BY = (12_345, -678, 90)
HEIGHT = 780


def with_field(message: bytes, place: int, width: int, value: int) -> bytes:
    """Returns the message with a field replaced."""
    bits = Bits(message)
    below = bits.count - place - width
    changed = bits.number - (bits.peek(place, width) << below) + (value % (1 << width) << below)
    return changed.to_bytes(len(message), "big")


def retimed(message: bytes) -> bytes:
    """Returns an MSM with its time moved, so that the week ends after epoch BEFORE_MIDNIGHT."""
    since_first = Bits(message).peek(24, 30) - FIRST_TIME
    return with_field(message, 24, 30, (since_first - 1000 * BEFORE_MIDNIGHT) % WEEK)


def moved(message: bytes) -> bytes:
    """Returns a message 1005 as a 1006 with the new position."""
    message = with_field(message, 0, 12, 1006) + HEIGHT.to_bytes(2, "big")
    for place, by in zip((34, 74, 114), MOVED_BY):
        message = with_field(message, place, 38, Bits(message).peek(place, 38) + by)
    return message


def stream() -> bytes:
    recorded = (TOP / "samples/zed-f9t-2019-10-17.rtcm3").read_bytes()
    others = [frame_of(message) for _, message in frames_of((TOP / "samples/four-messages.rtcm3").read_bytes())]
    parts, end, epoch = [], 0, 0
    for place, message in frames_of(recorded):
        between, end = recorded[end:place], place + 6 + len(message)
        number = number_of(message)
        if number in DEFAULT:
            message = retimed(message)
        if number == 1077:
            epoch += 1
        if number == 1005 and epoch > BEFORE_MOVE:
            message = moved(message)
        if epoch and number == 4072 and others:
            parts.append(others.pop())
        if epoch:
            parts += [between, frame_of(message)]
        if epoch == EPOCHS and number == 1097:
            break
    # drop all before the first message, and its first half
    first, last = parts[1], parts[-1]
    return CASTER + first[len(first) // 2 :] + b"".join(parts[2:-1]) + last[: len(last) // 2]


def streams() -> dict[str, bytes]:
    return {STREAM: stream()}


def rows() -> list[dict]:
    outputs = {"frames": "cases/expected/operator-frames.txt", "show": "cases/expected/operator-show.txt"}
    made = [{"words": [name], "input_file": STREAM, "output_file": file} for name, file in outputs.items()]
    made.append({"words": CONVERT, "input_file": STREAM, "output_file": FILE})
    made.append({"words": ["check"], "input_file": FILE})
    return [{"name": f"operator-{row['words'][0]}"} | row for row in made]
