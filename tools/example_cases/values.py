"""Tests of day.sh: what a day has of systems, of kinds of values, of two clocks, and of the logs beside it."""
from unittest.mock import patch

from reference_impl import stream
from reference_impl.fields import packed
from reference_impl.messages import WEEK
from reference_impl.stream import Form
from rooms import Outcomes, Room, at, messages_of, station_message, stream_of

from .common import AFTER, BEFORE, DAY, EPOCHS, MADE, STATION, STEP, body_of, day_messages, header_of, script
from .days import ELSEWHERE, HEADERS, LOG, clear, elsewhere, says, says_of

GPS, GALILEO = Form({"G": 6}, {"G": (2,)}), Form({"E": 5}, {"E": (2,)})
GLONASS = Form({"R": (1, 2, 9)}, {"R": (2,)})
NIGHT_BEFORE = f"raw/{STATION}/{BEFORE}.rtcm3"


def times(first: int, end: int, later: int = 0) -> list[int]:
    """Returns the times of these epochs of the day, this number of milliseconds later."""
    return [at(DAY) + STEP * n + later for n in range(first, end)]


def joined(*logs: list[bytes]) -> bytes:
    """Returns the log of a 1005, and of messages that come by turns, those of the same epoch after each other."""
    return stream_of([station_message(), *(message for group in zip(*logs) for message in group)])


def of_channels(first: int, last: int, moments: list[int]) -> list[bytes]:
    """Returns the messages of GLONASS whose slots 1 and 9 have one channel in the first epoch, and then another one."""
    sent = []
    for channel, part in ((first, moments[:1]), (last, moments[1:])):
        with patch.object(stream, "CHANNELS", tuple(channel if n == 1 else c for n, c in enumerate(stream.CHANNELS))):
            sent += messages_of(part, GLONASS)[bool(sent) :]
    return sent


def try_channels(room: Room) -> Outcomes:
    day = of_channels(-6, -6, times(-1, EPOCHS + 1))
    is_good = says_of(room, stream_of(day))
    whole = room.text(MADE)
    yield "the channels of a day", is_good and "R01 -6 R02 -4 R09 -6" in header_of(whole)
    # a log beside it has the channel of another satellite in the slot
    room.write(NIGHT_BEFORE, stream_of(of_channels(1, 1, times(-60, 0))))
    yield "other channels on the day before", says(room) and body_of(room.text(MADE)) == body_of(whole)
    # the first message of the day has
    wrong = stream_of(of_channels(0, -6, times(-1, EPOCHS + 1)))
    yield "another channel at first", says_of(room, wrong, ": slot 1 has the channels 0 and -6$")
    room.write(HEADERS, b"--glonass-channels=1:-6,2:-4,9:-6\n")
    yield "channels that are given", says_of(room, wrong) and body_of(room.text(MADE)) == body_of(whole)
    (room.folder / HEADERS).unlink()


def without_phases(form: stream.Form) -> bytes:
    """Returns the log of a day whose phases are all invalid."""
    whole = stream.as_form

    def made(sent: object, msm: int) -> bytes:
        sent.of_cells["phase"][:] = [-(2**23)] * len(sent.of_cells["phase"])
        return whole(sent, msm)

    with patch.object(stream, "as_form", made):
        return stream_of(messages_of(times(-1, EPOCHS + 1), form))


def try_kinds(room: Room) -> Outcomes:
    room.write(NIGHT_BEFORE, stream_of(messages_of(times(-EPOCHS, 1), GPS)))
    yield "all kinds of values", says(room, day=BEFORE)
    in_msm4 = stream_of(messages_of(times(-1, EPOCHS + 1), Form({"G": 6}, {"G": (2,)}, msm=4)))
    for log, kind in ((in_msm4, "Doppler shifts"), (without_phases(GPS), "phases")):
        room.write(LOG, log)
        yield f"no {kind}", says(room, rf": signal G 1C has \d {kind}, \d+ on {BEFORE}$")
        (room.folder / MADE).unlink()
    # observations that aren't converted, alone and beside others
    legacy = [packed([(12, 1004), (12, 2003), (30, time % WEEK), (10, 1), (125, 0)]) for time in times(-1, EPOCHS + 1)]
    for name, form, said in (("alone", GALILEO, (": system G is in messages 1004 alone, ",)), ("too", GPS, ())):
        log = joined(legacy, messages_of(times(-1, EPOCHS + 1), form)[1:])
        yield f"GPS in messages 1004 {name}", says_of(room, log, *said)
    # those without a satellite
    empty = [message[:8] for message in legacy]
    log = joined(empty, messages_of(times(-1, EPOCHS + 1), GALILEO)[1:])
    yield "messages 1004 without observations", says_of(room, log)


def try_repeats(room: Room) -> Outcomes:
    # the stream begins again forty times, each time with the epoch before
    day = messages_of(times(-1, EPOCHS + 1), GPS)
    again = [copy for n, message in enumerate(day) for copy in [message] * (2 if n and n % 72 == 0 else 1)]
    yield "repeated epochs", says_of(room, stream_of(again))
    # GLONASS whose channels come in the log after, and an epoch is repeated
    with_channels = messages_of(times(EPOCHS, EPOCHS + 60), GLONASS)[1:]
    in_msm4 = messages_of(times(-1, EPOCHS + 1), Form({"R": (1, 2, 9)}, {"R": (2,)}, msm=4))
    clear(room)
    room.write(LOG, stream_of([*in_msm4[:99], *in_msm4[98:]]))
    room.write(f"raw/{STATION}/{AFTER}.rtcm3", stream_of(with_channels))
    yield "channels of the day after", says(room) and body_of(room.text(MADE)).count("\nR09") == EPOCHS
    (room.folder / f"raw/{STATION}/{AFTER}.rtcm3").unlink()
    (room.folder / MADE).unlink()
    yield "no channels", says(room, r": without_channel \d+$")


def try_clocks(room: Room) -> Outcomes:
    one, two = (Form({"G": tuple(range(first, first + 8))}, {"G": (2,)}) for first in (1, 5))
    day = messages_of(times(-1, EPOCHS + 1), one)
    both = joined(day[1:], messages_of(times(-1, EPOCHS + 1, later=3), two)[1:])
    yield "two clocks", says_of(room, both, ": 5760 epochs at 2880 times, as by two clocks$")
    # another receiver of the same clock for two hours
    hours = messages_of(times(1200, 1440), two)[1:]
    mixed = stream_of(day[:1202]) + joined(day[1202:1442], hours) + stream_of(day[1442:])
    yield "two receivers for two hours", says_of(room, mixed, ": 960 cells are repeated in ")
    in_msm4 = messages_of(times(-1, EPOCHS + 1), Form({"G": 6}, {"G": (2,)}, msm=4))
    forms = joined(in_msm4[1:], messages_of(times(-1, EPOCHS + 1), GPS)[1:])
    yield "two forms", says_of(room, forms, " as by two receivers of one number or in two forms$")


def try_beside(room: Room) -> Outcomes:
    # a message of the day before is refused, and one is there twice
    before = [*day_messages(BEFORE, 1000, EPOCHS)]
    room.write(LOG, stream_of([*day_messages(DAY, 0)]))
    room.write(NIGHT_BEFORE, stream_of([*before[:100], before[1][:40], *before[99:]]))
    yield "a fault of the day before", says(room)
    # a day without a position has that of a log beside it, but not of another place than the day before
    after = f"raw/{STATION}/{AFTER}.rtcm3"
    says_of(room, stream_of([*day_messages(DAY)[1:]]))
    room.write(after, stream_of([*day_messages(AFTER)]))
    yield "the position of the day after", says(room) and "4027881.7000" in header_of(room.text(MADE))
    (room.folder / MADE).unlink()
    room.write(f"obs/{STATION}/{BEFORE}.signals", b"station 2003 position 4027881.7000,330680.0000,4919912.2000\n")
    room.write(after, elsewhere(day_messages(AFTER)))
    said = says(room, ": station 2003 without a position, which was 2003 at ")
    yield "the position of another one", said and f"{ELSEWHERE[0] / 10_000:.4f}" not in header_of(room.text(MADE))


def with_height(message: bytes, height: int) -> bytes:
    """Returns the 1006 with the fields of a 1005, and a height in 0.0001 m."""
    fields = int.from_bytes(message, "big") & (1 << 140) - 1
    return ((1006 << 140 | fields) << 16 | height).to_bytes(21, "big")


def try_positions(room: Room) -> Outcomes:
    station, *observed = day_messages(DAY)
    said = ": the position in the header is 0, 0, 0, as none was sent: headers/ may have --position$"
    yield "no position", says_of(room, stream_of(observed), said) and says(room, said)
    zero = stream_of([station_message((0, 0, 0)), *observed])
    yield "a position of zeros", says_of(room, zero, said.replace("none was", "it was"))
    given = b"--position=4027881.7,330680,4919912.2\n--comment=0 0 APPROX POSITION XYZ\n"
    room.write(HEADERS, given)
    is_given = says_of(room, stream_of(observed)) and "4027881.7000" in header_of(room.text(MADE))
    yield "a position of the options", is_given and says_of(room, stream_of([station, *observed]))
    room.write(HEADERS, given.splitlines()[1])
    yield "a comment with the label of a position", says_of(room, stream_of(observed), said)
    (room.folder / HEADERS).unlink()


def try_heights(room: Room) -> Outcomes:
    """A station that sends 1005 and 1006 by turns, the 1005 first, and one whose height changes once."""
    station, *observed = day_messages(DAY)
    higher = with_height(station, 15_000)
    log = stream_of([station, *observed[:100], higher, *observed[100:200], station, *observed[200:]])
    is_made = says_of(room, log) and "        1.5000" in header_of(room.text(MADE))
    yield "a height after the position", is_made and "\n>  " not in room.text(MADE)
    room.write(HEADERS, b"--antenna-height=1.5\n--comment=--antenna-height 2\n")
    yield "a height of the options", says(room) and "        1.5000" in header_of(room.text(MADE))
    (room.folder / HEADERS).unlink()
    once = stream_of([station, *observed[:100], higher, *observed[100:]])
    yield "a height that changes", says_of(room, once, ": 1 changes of the position or the height$")


def try_words(room: Room) -> Outcomes:
    for day in ("2024-1-1", "20240101", "yesterday"):
        ran = room.run(script("day.sh", STATION, day))
        said = f"{STATION} {day}: no file: a day is written as 2024-02-04\n"
        yield f"the day {day}", (ran.returncode, ran.stdout.decode()) == (1, said)
    room.write("obs", b"")
    yield "no folder for files", says(room, ": no file: mkdir: cannot create directory ")
