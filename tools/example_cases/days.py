"""Tests of day.sh: logs in several files, beside others, damaged, late and of other stations, and what a day lacks."""
import gzip
import os
import re
import shutil

from case_rows.weeks import ephemeris
from reference_impl.fields import packed
from reference_impl.messages import WEEK
from reference_impl.stream import FOUR, Form, station_message
from rooms import Outcomes, Room, at, messages_of, of_station, stream_of

from .common import AFTER, BEFORE, DATED, DAY, EPOCHS, MADE, STATION, STEP
from .common import body_of, day_log, day_messages, day_times, header_of, script

LOG = f"raw/{STATION}/{DAY}.rtcm3"
HEADERS = f"headers/{STATION}"
HEADER = "--marker=KIRU\n--marker-number=10403M002\n--rec-type=SEPT POLARX5\n"
IN_NO_FRAME = "% of the bytes are in no frame"
# another position, in 0.0001 m, and as it is printed
ELSEWHERE, PLACE = (12_000_000_000, 50_000_000_000, 30_000_000_000), "1200000.0000,5000000.0000,3000000.0000"
# the GPS week of DAY
WEEK_OF_DAY = at(DAY) // WEEK


def says(room: Room, *lines: str, day: str = DAY, given: str = "") -> bool:
    """Returns whether day.sh says this of a day, in one line, and fails, or succeeds without a line."""
    ran = room.run(given + script("day.sh", STATION, day))
    said = ran.stdout.decode().splitlines()
    is_said = len(said) == len(lines) and all(re.search(line, one) for line, one in zip(lines, said))
    return is_said and (ran.returncode, ran.stderr) == (len(lines), b"")


def clear(room: Room) -> None:
    """Removes logs and files."""
    for folder in ("raw", "obs"):
        path = room.folder / folder
        path.unlink() if path.is_symlink() else shutil.rmtree(path, ignore_errors=True)


def says_of(room: Room, log: bytes, *lines: str, given: str = "") -> bool:
    """Returns whether day.sh says this of a day with this log alone."""
    clear(room)
    room.write(LOG, log)
    return says(room, *lines, given=given)


def galileo_of(messages: tuple[bytes, ...]) -> list[int]:
    """Returns the indices of the messages of the second system."""
    return [n for n, message in enumerate(messages) if message[:2] == messages[2][:2]]


def try_day(room: Room) -> Outcomes:
    room.write(HEADERS, HEADER.encode())
    log = day_log(DAY)
    yield "a good day", says_of(room, log)
    whole = room.text(MADE)
    yield "its epochs", room.epochs(MADE) == day_times()
    header = header_of(whole)
    yield "its header", all(part in header for part in ("\nKIRU  ", "10403M002  ", "SEPT POLARX5  ", "    30.000  "))
    names = sorted([MADE.rsplit("/")[-1], f"{DAY}.report", f"{DAY}.signals"])
    yield "its files", room.names(f"obs/{STATION}") == names
    # in hours by name, one of them compressed, over a symbolic link; a frame is in two of them
    clear(room)
    thirds = [log[: len(log) // 3], log[len(log) // 3 : 2 * len(log) // 3], log[2 * len(log) // 3 :]]
    for name, part in zip(("000000.rtcm3", "080000.rtcm3.gz", "160000.rtcm3"), thirds):
        part = gzip.compress(part) if name.endswith(".gz") else part
        room.write(f"logs/{STATION}/{DAY}-{name}", part)
    # as str2str writes them beside a log
    room.write(f"logs/{STATION}/{DAY}-000000.rtcm3.tag", b"TIMETAG RTKLIB")
    (room.folder / "raw").symlink_to("logs")
    yield "logs of hours", says(room) and body_of(room.text(MADE)) == body_of(whole)
    # a logger that was started again repeats messages
    clear(room)
    half = len(log) // 2
    for name, part in (("000000", log[: half + 9000]), ("120000", log[half - 9000 :])):
        room.write(f"raw/{STATION}/{DAY}-{name}.rtcm3", part)
    yield "logs that overlap", says(room) and body_of(room.text(MADE)) == body_of(whole)
    # a log that was cut in a frame, whose bytes look like those of a compressed file
    yield "the first bytes of a log", says_of(room, b"\x1f\x8b" + log) and room.epochs(MADE) == day_times()
    clear(room)
    yield "no log", says(room, f"^{STATION} {DAY}: no log$")
    room.write(f"{LOG}.tag", b"TIMETAG RTKLIB")
    yield "no log but its times", says(room, f"^{STATION} {DAY}: no log$")
    (room.folder / LOG).symlink_to("absent")
    yield "a log that is a dangling link", says(room, f"^{STATION} {DAY}: no file: cat: raw/")
    for name in ("kiru", STATION.lower()):
        ran = room.run(script("day.sh", name, DAY))
        said = f"{name} {DAY}: no file: the name of a station has nine capital letters and digits, as KIRU00SWE\n"
        yield f"the name {name}", (ran.returncode, ran.stdout.decode()) == (1, said) and room.names("obs") == [STATION]


def try_layouts(room: Room) -> Outcomes:
    # a logger names its logs by hours from noon on, and another one goes on with that of the day, or doesn't
    log = day_log(DAY)
    half = len(log) // 2
    for name, end in (("half of a day", half + 9000), ("a day", len(log))):
        clear(room)
        room.write(LOG, log[:end])
        room.write(f"raw/{STATION}/{DAY}-120000.rtcm3", log[half - 9000 :])
        yield f"the logs of {name} and of hours", says(room) and room.epochs(MADE) == day_times()
    # or it names them by hours until noon
    clear(room)
    room.write(f"raw/{STATION}/{DAY}-000000.rtcm3", log[: half + 9000])
    room.write(LOG, log[half - 9000 :])
    yield "the logs of hours and of half of a day", says(room) and room.epochs(MADE) == day_times()
    # two loggers, of which that of hours began earlier, and lacks one
    clear(room)
    for name, first, end in (("", 0, EPOCHS + 1), ("-000000", -1, 1200), ("-110000", 1320, EPOCHS + 1)):
        room.write(f"raw/{STATION}/{DAY}{name}.rtcm3", stream_of([*day_messages(DAY, first, end)]))
    yield "the logs of two loggers", says(room) and room.epochs(MADE) == day_times()
    # that of the day begins 65 seconds later, by a message of BeiDou, whose time is 14 seconds less
    clear(room)
    beidou = messages_of([at(DAY) + 35_000], Form({"C": 4}, {"C": (2,)}))[1:]
    room.write(LOG, stream_of([*beidou, *day_messages(DAY, 2)]))
    hours = [*day_messages(DAY, -1, 2), *beidou, *day_messages(DAY, 2, 1440)]
    room.write(f"raw/{STATION}/{DAY}-000000.rtcm3", stream_of(hours))
    yield "the begin of a log by BeiDou", says(room) and room.epochs(MADE) == day_times()


def try_left(room: Room) -> Outcomes:
    # what a power cut left days ago goes, and what another run writes stays
    left = [f"obs/{STATION}/{name}" for name in (f"{DAY}.71.raw", f"{MADE.rsplit('/')[-1]}.71.part", f"{DAY}.72.raw")]
    clear(room)
    for name in left:
        room.write(name, b"x")
    for name in left[:2]:
        os.utime(room.folder / name, (0, 0))
    room.write(LOG, day_log(DAY))
    is_good = says(room)
    yield "a header without options", f"\n{STATION}  " in header_of(room.text(MADE))
    yield "what a power cut left", is_good and [(room.folder / name).exists() for name in left] == [False, False, True]
    # find fails, as on a file that another run removed meanwhile
    (room.folder / "bin/find").write_text("#!/bin/sh\necho find: no such file >&2; exit 1\n", encoding="ascii")
    (room.folder / "bin/find").chmod(0o755)
    yield "files of other runs", says(room)


def try_neighbours(room: Room) -> Outcomes:
    # the day's first and last seconds are in the logs of its neighbours
    room.write(f"raw/{STATION}/{BEFORE}.rtcm3", stream_of([*day_messages(BEFORE, 2000), *day_messages(DAY, 0, 2)]))
    room.write(LOG, stream_of([*day_messages(DAY, 1, 2879)]))
    last = (*day_messages(DAY, 2878, 2880), *day_messages(AFTER, 0, 9))
    room.write(f"raw/{STATION}/{AFTER}.rtcm3", stream_of([*last]))
    yield "logs of the days beside it", says(room) and room.epochs(MADE) == day_times()
    # the log of the day before runs into the day, or has its noon
    room.write(LOG, day_log(DAY))
    for name, first, end in (("runs on", -60, 300), ("is of noon", 1440, 1560)):
        room.write(f"raw/{STATION}/{BEFORE}.rtcm3", stream_of([*day_messages(DAY, first, end)]))
        yield f"a log beside it that {name}", says(room) and room.epochs(MADE) == day_times()
    # what is damaged beside the day isn't of the day
    room.write(f"raw/{STATION}/{BEFORE}.rtcm3", b"-" * 50_000 + stream_of([*day_messages(BEFORE, 2000, 2880)]))
    yield "bytes beside it", says(room)
    # a log that was begun in the last seconds of the day before has an hour of this one, more than is read of others
    (room.folder / f"raw/{STATION}/{BEFORE}.rtcm3").unlink()
    first = stream_of([*day_messages(DAY, 0, 120)])
    room.write(f"raw/{STATION}/{BEFORE}-235945.rtcm3", first + b"-" * 2_000_000)
    room.write(LOG, stream_of([*day_messages(DAY, 119)]))
    yield "a log of the last seconds before it", says(room) and room.epochs(MADE) == day_times()


def try_neighbours_of_hours(room: Room) -> Outcomes:
    # empty logs are between those that have its ends
    for name, log in (
        (f"{BEFORE}-230000", day_messages(BEFORE, 2760, EPOCHS + 1)),
        (f"{BEFORE}-235950", ()),
        (f"{DAY}-000000", day_messages(DAY, 1, EPOCHS - 1)),
        (f"{AFTER}-000000", ()),
        (f"{AFTER}-000010", day_messages(DAY, EPOCHS - 1)),
    ):
        room.write(f"raw/{STATION}/{name}.rtcm3", stream_of([*log]))
    yield "empty logs beside it", says(room) and room.epochs(MADE) == day_times()
    for name in (f"{BEFORE}-235950", f"{AFTER}-000000"):
        (room.folder / f"raw/{STATION}/{name}.rtcm3").unlink()
        room.write(f"raw/{STATION}/{name}.rtcm3.gz", gzip.compress(b""))
    yield "empty compressed logs beside it", says(room) and room.epochs(MADE) == day_times()
    # the days beside it have a log without a time and, from noon on, those of hours
    clear(room)
    for name, log in (
        (BEFORE, day_messages(BEFORE, 0, 1440)),
        (f"{BEFORE}-230000", day_messages(BEFORE, 2760, EPOCHS + 1)),
        (f"{DAY}-000000", day_messages(DAY, 1, EPOCHS - 1)),
        (AFTER, day_messages(DAY, EPOCHS - 1, EPOCHS + 1440)),
        (f"{AFTER}-120000", day_messages(AFTER, 1440, 1560)),
    ):
        room.write(f"raw/{STATION}/{name}.rtcm3", stream_of([*log]))
    yield "logs beside it of both layouts", says(room) and room.epochs(MADE) == day_times()
    clear(room)
    for name, log in (
        (f"{BEFORE}-110000", day_messages(BEFORE, 1320, 1440)),
        (BEFORE, day_messages(BEFORE, 1440, EPOCHS + 1)),
        (f"{DAY}-000000", day_messages(DAY, 1, EPOCHS - 1)),
        (f"{AFTER}-000000", day_messages(DAY, EPOCHS - 1, EPOCHS + 1440)),
        (AFTER, day_messages(AFTER, 1440, 1560)),
    ):
        room.write(f"raw/{STATION}/{name}.rtcm3", stream_of([*log]))
    yield "logs beside it of hours, then of the day", says(room) and room.epochs(MADE) == day_times()


# the clock time of an hour in an ephemeris of Galileo, and in one of GPS, whose week has ten bits
HOURS = {1045: 60, 1019: 225}


def sent(messages: tuple[bytes, ...], number: int, week: int) -> bytes:
    """Returns the log of a Sunday with an ephemeris of a week at its noon."""
    return stream_of([*messages[:3000], ephemeris(number, week, 12 * HOURS[number]), *messages[3000:]])


def elsewhere(messages: tuple[bytes, ...]) -> bytes:
    """Returns the log of a station at another position."""
    return stream_of([station_message(ELSEWHERE), *messages[1:]])


def try_neighbours_left_out(room: Room) -> Outcomes:
    log, messages = day_log(DAY), day_messages(DAY)
    # the log of the day after has ended in the middle, and a good day is made without it
    room.write(LOG, log)
    room.write(f"raw/{STATION}/{AFTER}.rtcm3.gz", gzip.compress(day_log(AFTER))[:-9])
    yield "a damaged log beside it", says(room)
    whole = room.text(MADE)
    # a log of Wednesday has the name of Saturday
    room.write(f"raw/{STATION}/{BEFORE}.rtcm3", day_log("2024-02-07"))
    yield "the log of another day beside it", says(room) and body_of(room.text(MADE)) == body_of(whole)
    # a log beside it of the week before, with an ephemeris
    for number, hour in HOURS.items():
        says_of(room, sent(messages, number, WEEK_OF_DAY))
        weekly = day_messages("2024-02-03", 2000)
        stale = [*weekly[:1200], ephemeris(number, WEEK_OF_DAY - 2, 18 * hour), *weekly[1200:]]
        room.write(f"raw/{STATION}/{BEFORE}.rtcm3", stream_of(stale))
        yield f"a log of another week beside it by {number}", says(room) and room.epochs(MADE) == day_times()
    # one of a station elsewhere with the same number, which also has the first seconds of the day
    says_of(room, log)
    room.write(f"raw/{STATION}/{BEFORE}.rtcm3", elsewhere(day_messages(BEFORE, 2000, 2890)))
    yield "the log of another station beside it", says(room) and body_of(room.text(MADE)) == body_of(whole)
    # a signal that begins a day later
    says_of(room, log)
    new = messages_of([at(AFTER) + STEP * n for n in range(1, 900)], FOUR)
    room.write(f"raw/{STATION}/{AFTER}.rtcm3", stream_of(new))
    yield "a signal of the day after", says(room)


def try_damaged_logs(room: Room) -> Outcomes:
    log, messages = day_log(DAY), day_messages(DAY)
    yield "an empty log", says_of(room, b"", "no file: rtcm2rinex: NoSignal bytes 0 frames 0 msm 0$")
    yield "line feeds of two bytes", says_of(room, log.replace(b"\n", b"\r\n"), IN_NO_FRAME)
    chunks = b"".join(b"1f4\r\n" + log[place : place + 500] + b"\r\n" for place in range(0, len(log), 500))
    yield "chunks of a caster", says_of(room, chunks, IN_NO_FRAME)
    frames = [stream_of([message]) for message in messages]
    spoiled = {n: frame[:50] + bytes([frame[50] ^ 1]) + frame[51:] for n, frame in enumerate(frames) if n % 5 == 1}
    damaged = b"".join(spoiled.get(n, frame) for n, frame in enumerate(frames))
    yield "a fifth of the frames", says_of(room, damaged, IN_NO_FRAME)
    other = b"".join(b"$GPGGA*" + frame for frame in frames)
    yield "other data", says_of(room, other, rf": \d % of the bytes are in no frame$")
    yield "other data as it is meant", says_of(room, other, given="SKIPPED=10 ")
    cut = f"^{STATION} {DAY}: 11[0-9][0-9] of 2880 epochs, 1 gaps, the first from .* to {AFTER} 00:00:00.000"
    yield "40 % of a day", says_of(room, log[: len(log) * 2 // 5], cut)
    # a frame whose message is cut
    refused = stream_of([*messages[:3000], messages[1][:40], *messages[3000:]])
    yield "a message that is refused", says_of(room, refused, ": faulty 1$")
    yield "a full disk", not is_kept_on_a_full_disk(room)
    room.write(f"{LOG}.gz", gzip.compress(log)[:-9])
    yield "a compressed log that is cut", says(room, "no file: gzip: ")


def is_kept_on_a_full_disk(room: Room) -> bool:
    """Returns whether day.sh on a full disk leaves anything but its line and its status."""
    ran = room.run(f"trap '' XFSZ; ulimit -f 2; {script('day.sh', STATION, DAY)}")
    is_said = ran.returncode == 1 and b"no file: " in ran.stdout
    return not is_said or [*room.folder.rglob("*.part")] != []


def try_other_logs(room: Room) -> Outcomes:
    messages = day_messages(DAY)
    yield "the log of another day", says_of(room, day_log(AFTER), ": 1 of 2880 epochs, ")
    yield "a log of another week", says_of(room, DATED.read_bytes(), "no file: rtcm2rinex: OtherWeek 2361 2025-04-11$")
    both = stream_of([copy for message in messages for copy in (message, of_station(message, 7))])
    yield "two stations", says_of(room, both, "no file: rtcm2rinex: SeveralStations 2003 7$")
    room.write(HEADERS, b"--station=2003\n")
    yield "one of two stations", says_of(room, both) and room.epochs(MADE) == day_times()
    (room.folder / HEADERS).unlink()
    again = stream_of([copy for message in messages for copy in (message, message)])
    yield "two receivers of one number", says_of(room, again, r" cells are repeated in \d+ messages")


def try_weeks(room: Room) -> Outcomes:
    messages = day_messages(DAY)
    noon = 12 * 450
    both = [ephemeris(1042, week, noon) for week in (WEEK_OF_DAY, WEEK_OF_DAY - 1)]
    said = f": the ephemerides have several weeks for the first message, {WEEK_OF_DAY - 1} {WEEK_OF_DAY - 2}$"
    yield "ephemerides of two weeks", says_of(room, stream_of([*messages[:3000], *both, *messages[3000:]]), said)
    for number in HOURS:
        # the log has the data of the week before; that of the day after is right
        says_of(room, b"")
        room.write(LOG, sent(messages, number, WEEK_OF_DAY - 1))
        room.write(f"raw/{STATION}/{AFTER}.rtcm3", sent(day_messages(AFTER), number, WEEK_OF_DAY))
        said = rf": no file: rtcm2rinex: OtherWeek {WEEK_OF_DAY - 2} 2024-02-03$"
        yield f"the day of another week by {number}", says(room, said) and not (room.folder / MADE).exists()
        # its log goes on at the same time of a week later
        of_both = [ephemeris(number, WEEK_OF_DAY + week, hour * HOURS[number]) for week, hour in ((0, 2), (1, 18))]
        both = stream_of([*messages[:300], of_both[0], *messages[300:4500], of_both[1], *messages[4500:]])
        weeks = f"({WEEK_OF_DAY - 1} {WEEK_OF_DAY}|{WEEK_OF_DAY + 1} 2024-02-18)"
        said = f": the ephemerides have several weeks for the first message, {weeks}$"
        yield f"a log of two weeks by {number}", says_of(room, both, said)
        # one of its logs has
        clear(room)
        for name, first, end, week in (("000000", -1, 1400, 0), ("114000", 1400, 1480, 1), ("122000", 1480, 2881, 0)):
            part = day_messages(DAY, first, end)
            log = [*part[:60], ephemeris(number, WEEK_OF_DAY - week, 12 * HOURS[number]), *part[60:]]
            room.write(f"raw/{STATION}/{DAY}-{name}.rtcm3", stream_of(log))
        said = f": left out, as their ephemerides have another week: {DAY}-114000.rtcm3; 2800 of 2880 epochs, 1 gaps, "
        yield f"a log of another week by {number}", says(room, said) and len(room.epochs(MADE)) == 2800
        # days.sh compares the number of logs, also of names with a blank
        name = f"raw/{STATION}/{DAY}-114000"
        (room.folder / f"{name}.rtcm3").rename(room.folder / f"{name} of Sunday.rtcm3")
        is_said = says(room, said.replace("114000", "114000 of Sunday"))
        yield f"the logs by {number}", is_said and "\nlogs 3\n" in room.text(f"obs/{STATION}/{DAY}.signals")


def try_stations(room: Room) -> Outcomes:
    messages = day_messages(DAY)
    room.write(f"raw/{STATION}/{BEFORE}.rtcm3", day_log(BEFORE))
    says(room, day=BEFORE)
    was = (room.folder / f"obs/{STATION}/{BEFORE}.signals").read_text("ascii").splitlines()[-1]
    place = was.rpartition(" ")[2]
    yield "the station of a day", was == f"station 2003 position {place}" and "," in place
    room.write(LOG, elsewhere(messages))
    said = f": station 2003 at {PLACE}, which was 2003 at {place} on {BEFORE}$"
    yield "another position", says(room, said) and room.epochs(MADE) == day_times()
    # whose days are the same again, and which is another station by its number too
    room.write(f"raw/{STATION}/{AFTER}.rtcm3", elsewhere(day_messages(AFTER)))
    yield "the same position", says(room, day=AFTER)
    (room.folder / MADE).unlink()
    room.write(LOG, stream_of([of_station(message, 77) for message in messages]))
    said = f": station 77 at {place}, which was 2003 at {place} on {BEFORE}$"
    yield "another number", says(room, said)
    (room.folder / MADE).unlink()
    room.write(LOG, stream_of([*messages[1:]]))
    yield "no position", says(room, f": station 2003 without a position, which was 2003 at {place} on {BEFORE}$")
    room.write(f"raw/{STATION}/{AFTER}.rtcm3", day_log(AFTER))
    shutil.rmtree(room.folder / f"obs/{STATION}/{AFTER}.signals", ignore_errors=True)
    (room.folder / MADE.replace("0420000", "0430000")).unlink()
    yield "the position again", says(room, day=AFTER)
    # its antenna comes first, with another number of the station
    (room.folder / MADE).unlink()
    antenna = packed([(12, 1007), (12, 9), (8, 0), (8, 0)])
    room.write(LOG, stream_of([antenna, *messages]))
    yield "the number of an antenna", says(room)
    # it moves at noon, and the last epochs are in the log of the day after
    says_of(room, b"")
    room.write(LOG, stream_of([*messages[:2900], station_message(ELSEWHERE), *messages[2900:5700]]))
    room.write(f"raw/{STATION}/{AFTER}.rtcm3", elsewhere((b"", *messages[5600:], *day_messages(AFTER, 0, 300))))
    is_said = says(room, ": 1 changes of the position or the height$")
    yield "the end of a day after a move", is_said and room.text(MADE).count("\n> 2024 02 11 ") == EPOCHS
    moved = [*messages[:3001], station_message(ELSEWHERE), *messages[3001:3101], station_message(), *messages[3101:]]
    yield "logs of several stations", says_of(room, stream_of(moved), ": 2 changes of the position or the height$")


def try_late(room: Room) -> Outcomes:
    messages = day_messages(DAY)
    swapped = [*messages[:100], *messages[102:104], *messages[100:102], *messages[104:]]
    yield "messages out of order", says_of(room, stream_of(swapped), "2 late messages are lost")
    # each 1097 comes after the 1077 of the next epoch
    galileo = galileo_of(messages)
    late = [*messages]
    for n in galileo[:-1]:
        late[n], late[n + 1] = late[n + 1], late[n]
    # of which the first is of the day before, and the last isn't late
    yield "a system that is late", says_of(room, stream_of(late), f"{len(galileo) - 2} late messages are lost")
    # the second message of an epoch's satellites comes after the first one of the next epoch
    parts = messages_of([at(DAY) + STEP * n for n in range(-1, EPOCHS + 1)], Form({"G": 5}, {"G": (2,)}, per=3))
    parts[2000], parts[2001] = parts[2001], parts[2000]
    yield "a part of an epoch that is late", says_of(room, stream_of(parts), "1 late messages are lost")
    yield "parts that are repeated", says_of(room, stream_of(parts[:3000]) + stream_of(parts[2500:]), "1 late messages")
    # those of the day after are said of it
    says_of(room, day_log(DAY))
    after = [*day_messages(AFTER, 0, 400)]
    room.write(f"raw/{STATION}/{AFTER}.rtcm3", stream_of([*after[:300], *after[303:], *after[301:303]]))
    yield "messages out of order beside it", says(room)


def try_signals(room: Room) -> Outcomes:
    messages = day_messages(DAY)
    galileo = galileo_of(messages)
    # its epochs are a second off, as by a clock of its own
    off = messages_of([at(DAY) + STEP * n + 1000 for n in range(-1, EPOCHS + 1)])
    moved = [off[n] if n in galileo[1:-1] else message for n, message in enumerate(messages)]
    said = r": signal E 1C has no values, and \d{4,} cells in the logs; signal E "
    yield "a system off the times of the file", says_of(room, stream_of(moved), said)
    # Galileo ends at 9 h; the day before had all
    clear(room)
    room.write(f"raw/{STATION}/{BEFORE}.rtcm3", day_log(BEFORE))
    yield "the day before", says(room, day=BEFORE)
    kept = [message for n, message in enumerate(messages) if n < 2200 or n not in galileo]
    room.write(LOG, stream_of(kept))
    fewer = rf": signal E 1C has \d+ values, \d+ on {BEFORE}; signal E"
    yield "half of a system", says(room, fewer)
    # the day after, if this one has no log
    (room.folder / LOG).unlink()
    shutil.rmtree(room.folder / f"obs/{STATION}")
    says(room, day=BEFORE)
    fewer_after = [message for n, message in enumerate(day_messages(AFTER)) if n not in galileo]
    room.write(f"raw/{STATION}/{AFTER}.rtcm3", stream_of(fewer_after))
    yield "a system lost over a day without logs", says(room, fewer.replace(r"\d+ values", "0 values"), day=AFTER)


def try_headers(room: Room) -> Outcomes:
    log = day_log(DAY)
    for name, lines in (
        ("a last line without an end", HEADER.encode().rstrip(b"\n")),
        ("a header of Windows", b"# of the site log\r\n\r\n" + HEADER.replace("\n", "\r\n").encode()),
        ("a header with a byte order mark", b"\xef\xbb\xbf" + HEADER.encode()),
    ):
        room.write(HEADERS, lines)
        yield name, says_of(room, log) and "SEPT POLARX5  " in room.text(MADE)
    # after a further leap second GLONASS is a second earlier
    moments = [at(DAY) + STEP * n for n in range(-1, EPOCHS + 1)]
    gps = messages_of(moments, Form({"G": 4}, {"G": (2,)}))
    glonass = messages_of([moment - 1000 for moment in moments], Form({"R": 4}, {"R": (2,)}))[1:]
    both = stream_of([gps[0], *(message for pair in zip(gps[1:], glonass) for message in pair)])
    room.write(HEADERS, b"--leap-seconds=19\n")
    yield "a leap second", says_of(room, both) and body_of(room.text(MADE)).count("\nR") == 4 * EPOCHS
    for value in ("", "19s", "1/2"):
        room.write(HEADERS, f"--leap-seconds={value}\n".encode())
        yield f"the leap seconds {value}", says_of(room, log, f"no file: error: invalid value '{value}' for '--leap-s")
    (room.folder / HEADERS).unlink()
    (room.folder / HEADERS).mkdir()
    yield "headers that can't be read", says(room, "no file: headers/.* is not readable$")
    shutil.rmtree(room.folder / "headers")
    room.write("headers", b"")
    yield "headers that are no folder", says(room, "no file: headers is not readable, or no folder$")
    (room.folder / "headers").unlink()
    (room.folder / "headers").symlink_to("absent")
    yield "headers that are a dangling link", says(room, "no file: headers is not readable, or no folder$")


def try_kept(room: Room) -> Outcomes:
    log, messages = day_log(DAY), day_messages(DAY)
    says_of(room, log)
    kept = room.text(MADE)
    room.write(LOG, log[: len(log) // 2])
    fewer = r": 14\d\d epochs with \d+ satellites and .*, and 2880 with .* in the file that there is, which is kept$"
    yield "fewer logs than before", says(room, fewer) and room.text(MADE) == kept
    galileo = galileo_of(messages)
    room.write(LOG, stream_of([message for n, message in enumerate(messages) if n not in galileo]))
    fewer = r": 2880 epochs with \d+ satellites and .* which is kept$"
    yield "a system less than before", says(room, fewer) and room.text(MADE) == kept
    (room.folder / MADE).unlink()
    room.write(f"{MADE}.gz", gzip.compress(kept.encode()))
    yield "a file that is compressed by now", says(room, fewer) and not (room.folder / MADE).exists()
    room.write(MADE, b"")
    yield "an empty file beside a compressed one", says(room, fewer) and (room.folder / f"{MADE}.gz").exists()
    room.write(f"{MADE}.gz", b"no file of gzip")
    refused = " is kept, which is damaged or not of this script: "
    yield "a compressed file that can't be read", says(room, rf"\.gz{refused}gzip: ")
    (room.folder / f"{MADE}.gz").unlink()
    room.write(LOG, log[: len(log) // 2])
    edited = kept.replace("END OF HEADER", "COMMENT      \n" + 60 * " " + "END OF HEADER", 1)
    room.write(MADE, edited.encode())
    yield "a file that was edited", says(room, f": obs/.*{refused}") and room.text(MADE) == edited
    room.write(MADE, b"no observation file")
    yield "a file that is none", says(room, r": 14\d\d of 2880 epochs, ")
