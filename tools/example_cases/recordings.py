"""Tests of the scripts for a recording and a live stream, and of the one that reads files back."""
import gzip
import os
import re
import shutil
import signal
from collections.abc import Callable
from datetime import datetime, timezone

from case_rows.weeks import ephemeris
from reference_impl.messages import WEEK
from rooms import DEAF, KILLED, RECORDED, START, STR2STR
from rooms import Outcomes, Room, at, messages_of, of_station, stream_of, wait_until

from .common import DATED, UNDATED, body_of, header_of, script

# a `date` whose seconds are those of a week later
LATE_DATE = f"""\
#!/bin/sh
test "$*" = "-u +%s" || exec {shutil.which("date")} "$@"
echo $(($({shutil.which("date")} +%s) + 604800))
"""


def try_convert(room: Room) -> Outcomes:
    ran = room.run(script("convert.sh", DATED, "s.obs"))
    yield "a recording with ephemerides", ran.returncode == 0 and "\n> 2025 04 11 " in room.text("s.obs")
    ran = room.run(script("convert.sh", UNDATED, "t.obs"))
    is_refused = (ran.returncode, ran.stderr) == (1, b"rtcm2rinex: NoWeek\n")
    yield "a recording without", is_refused and room.names(".") == ["bin", "s.obs"]
    ran = room.run("DAY=2019-10-17 " + script("convert.sh", UNDATED, "t.obs"))
    stored = RECORDED.with_suffix(".obs").read_text("ascii")
    yield "its date", ran.returncode == 0 and body_of(room.text("t.obs")) == body_of(stored)
    ran = room.run("DAY=2025-03-01 " + script("convert.sh", DATED, "u.obs"))
    yield "a wrong date", (ran.returncode, ran.stderr) == (1, b"rtcm2rinex: OtherWeek 2361 2025-04-11\n")
    ran = room.run(script("convert.sh", DATED, "v.obs", "--interval", "30", "--marker", "A B"))
    header = header_of(room.text("v.obs"))
    yield "further options", ran.returncode == 0 and "30.000 " in header and "\nA B " in header
    # a connection that was made again repeats the last messages, in the midst of an epoch
    station, *observed = messages_of([at("2024-02-04") + 1000 * second for second in range(9)])
    repeated = [*observed[:9], *observed[5:9], *observed[9:]]
    both = [copy for message in observed for copy in (message, of_station(message, 7))]
    for name, messages in (("repeated", repeated), ("whole", observed), ("both", both)):
        room.write(f"{name}.rtcm3", stream_of([station, *messages]))
        room.run("DAY=2024-02-04 " + script("convert.sh", f"{name}.rtcm3", f"{name}.obs"))
    whole = body_of(room.text("whole.obs"))
    yield "repeated messages", body_of(room.text("repeated.obs")) == whole != ""
    yield "two stations", not (room.folder / "both.obs").exists()
    ran = room.run("STATION=2003 DAY=2024-02-04 " + script("convert.sh", "both.rtcm3", "both.obs"))
    yield "one of two stations", ran.returncode == 0 and body_of(room.text("both.obs")) == whole


def try_convert_to(room: Room) -> Outcomes:
    ran = room.run(script("convert.sh", DATED, "-s.obs"))
    yield "a leading hyphen", ran.returncode == 0 and room.text("-s.obs") != ""
    (room.folder / "link.obs").symlink_to("-s.obs")
    room.write("-s.obs", b"")
    ran = room.run(script("convert.sh", DATED, "link.obs"))
    is_made = ran.returncode == 0 and room.text("-s.obs") != "" and room.names(".") == ["-s.obs", "bin", "link.obs"]
    yield "a symbolic link", is_made and (room.folder / "link.obs").is_symlink()
    (room.folder / "lost.obs").symlink_to("absent/s.obs")
    ran = room.run(script("convert.sh", DATED, "lost.obs"))
    yield "a link to nowhere", (ran.returncode, ran.stderr) == (1, b"lost.obs: a link to a folder that is missing\n")
    ran = room.run(f"cat {DATED} | {script('convert.sh', '/dev/stdin', 'p.obs')}")
    yield "no file", ran.returncode == 1 and b"/dev/stdin: " in ran.stderr and not (room.folder / "p.obs").exists()
    (room.folder / "folder").mkdir()
    ran = room.run(script("convert.sh", DATED, "folder"))
    message = b"folder: a folder, a device or the like, or the recording\n"
    yield "a folder", (ran.returncode, ran.stderr) == (1, message) and room.names("folder") == []
    os.mkfifo(room.folder / "pipe")
    ran = room.run(script("convert.sh", DATED, "pipe"))
    yield "a pipe", ran.returncode == 1 and (room.folder / "pipe").is_fifo()
    room.write("recording", DATED.read_bytes())
    ran = room.run(script("convert.sh", "recording", "./recording"))
    yield "the recording", ran.returncode == 1 and (room.folder / "recording").read_bytes() == DATED.read_bytes()
    room.replace_program('test $1 = options || { echo part; echo rtcm2rinex: Write >&2; exit 1; }')
    ran = room.run(script("convert.sh", DATED, "w.obs"))
    yield "a failed conversion", ran.returncode == 1 and not [*room.folder.glob("w.*")]
    room.replace_program("test $1 = options || { echo part; sleep 1; }")
    room.signalled(script("convert.sh", DATED, "y.obs"), lambda: [*room.folder.glob("y*")] != [], signal.SIGTERM)
    yield "a signal", not [*room.folder.glob("y*")]
    # two runs to one name, of which the second begins while the first one writes
    room.replace_program("test $1 = options || { echo $$; sleep 1; echo $$; }")
    one = script("convert.sh", DATED, "z.obs")
    ran = room.run(f"{one} & first=$!\nsleep 0.5; {one}; wait $first")
    lines = room.text("z.obs").splitlines()
    yield "two at once", ran.returncode == 0 and len(lines) == 2 and lines[0] == lines[1]


def try_weeks(room: Room) -> Outcomes:
    # two weeks are missing in the midst, which ephemerides say
    hour = 3_600_000
    parts = []
    for begin in (at("2024-02-06 12:00"), at("2024-02-20 13:00")):
        station, *observed = messages_of([begin + 1000 * second for second in range(9)])
        parts.append([station, *observed, ephemeris(1045, begin // WEEK, begin % WEEK // hour * 60)])
    room.write("gap.rtcm3", stream_of([*parts[0], *parts[1]]))
    room.write("one.rtcm3", stream_of(parts[0]))
    dated = "DAY=2024-02-06 "
    ran = room.run(dated + script("convert.sh", "one.rtcm3", "one.obs"))
    yield "a date", ran.returncode == 0 and ran.stderr.startswith(b"bytes ") and ran.stderr.count(b"\n") == 1
    ran = room.run(dated + script("convert.sh", "gap.rtcm3", "gap.obs"))
    said = "gap.rtcm3: ephemerides have several weeks for the first message, 2300 2302: after a gap the week is wrong"
    is_said = ran.returncode == 1 and ran.stderr.decode().splitlines()[1:] == [said]
    yield "a date of one of several weeks", is_said and room.text("gap.obs").count("\n> 2024 02 06 ") == 18
    ran = room.run(script("convert.sh", "gap.rtcm3", "no.obs"))
    yield "several weeks", (ran.returncode, ran.stderr) == (1, b"rtcm2rinex: SeveralWeeks 2300 2302\n")


def ahead_of(moments: list[int]) -> bytes:
    """Returns a stream of epochs at these times, after one of two days ahead of the first."""
    station, *observed = messages_of([moments[0] + 2 * 86_400_000, *moments])
    return stream_of([station, *observed])


def try_ahead(room: Room) -> Outcomes:
    """A receiver whose first message has a time ahead, as before it has found its satellites."""
    moments = [at("2024-02-04 12:00") + 1000 * second for second in range(9)]
    room.write("ahead.rtcm3", ahead_of(moments))
    ran = room.run("DAY=2024-02-04 " + script("convert.sh", "ahead.rtcm3", "ahead.obs"))
    said = "18 messages were late, and only 2 were taken: see LATE OBSERVATIONS of the manual page"
    is_said = ran.returncode == 1 and ran.stderr.decode().splitlines()[1:] == [f"ahead.rtcm3: {said}"]
    yield "a recording", is_said and room.has_epochs("ahead.obs", ["2024-02-06 12:00"])
    room.write("again.rtcm3", 3 * stream_of(messages_of(moments)))
    ran = room.run("DAY=2024-02-04 " + script("convert.sh", "again.rtcm3", "again.obs"))
    yield "a recording that is repeated", ran.returncode == 0 and room.epochs("again.obs") == moments
    moments = prepare_live(room)
    room.write("live.rtcm3", ahead_of(moments))
    (room.folder / "bin/str2str").write_text("#!/bin/sh\ncat live.rtcm3\n", encoding="ascii")
    ran = room.run(script("live.sh", "plan", "ntrip://x", "s"))
    said = f"{made(room)[-1]}: 8 messages were late, and only 2 were taken: see LATE OBSERVATIONS of the manual page"
    yield "a live stream", ran.returncode == 1 and ran.stderr.decode().splitlines()[1:] == [said]


def made(room: Room) -> list[str]:
    """Returns the names of the files of live.sh, in their order."""
    return sorted(path.name for path in room.folder.glob("s-*.obs"))


def prepare_live(room: Room) -> list[int]:
    """Writes the stream of `str2str`, whose last epoch is still open, and its plan. Returns the times of its epochs."""
    today = datetime.now(timezone.utc).replace(tzinfo=None) - START
    moments = [today.days // 7 * WEEK + today.days % 7 * 86_400_000 + 1000 * second for second in range(4)]
    messages = messages_of(moments)
    room.write("plan", room.run("rtcm2rinex options", data=stream_of(messages)).stdout)
    room.write("live.rtcm3", stream_of(messages[:-1]))
    return moments


def try_live(room: Room) -> Outcomes:
    moments, live = prepare_live(room), script("live.sh", "plan", "ntrip://x", "s")

    def is_ready(number: int) -> Callable[[], bool]:
        return lambda: len(made(room)) == number and room.epochs(made(room)[-1]) == moments[:-1]

    def is_whole() -> bool:
        return room.epochs(made(room)[-1]) == moments

    ran = room.signalled(live, is_ready(1), signal.SIGINT)
    yield "the epochs after Ctrl-C", wait_until(is_whole)
    yield "the report", ran.stderr.decode().endswith(" epochs 4\n")
    ran = room.signalled(f"sleep 1; {live}", is_ready(2), signal.SIGTERM)
    yield "a second start overwrites nothing", len(made(room)) == 2
    yield "the epochs after SIGTERM to all", wait_until(is_whole) and ran.stderr.decode().endswith(" epochs 4\n")
    ran = room.signalled(f"sleep 1; {live}", is_ready(3), signal.SIGHUP, signal.SIGTERM)
    yield "a closed terminal", wait_until(is_whole) and ran.returncode != KILLED
    (room.folder / "bin/str2str").write_text("#!/bin/sh\ncat live.rtcm3; exit 3\n", encoding="ascii")
    ran = room.run(f"sleep 1; {live}")
    said = f" epochs 4\n{made(room)[-1]}: ends here, as str2str ended with status 3\n"
    yield "a str2str that fails", ran.returncode == 1 and ran.stderr.decode().endswith(said) and is_whole()


def try_live_faults(room: Room) -> Outcomes:
    prepare_live(room)
    live = script("live.sh", "plan", "ntrip://x", "s")
    ran = room.run(f"trap '' XFSZ; ulimit -f 2; {live}")
    message = f"{made(room)[-1]}: the conversion ended with status 1: rtcm2rinex: Write\n"
    yield "a full disk", (ran.returncode, ran.stderr.decode()) == (1, message)
    number = len(made(room))
    ran = room.run(script("live.sh", "absent", "ntrip://x", "s"))
    yield "no plan", ran.returncode == 1 and b"absent" in ran.stderr and b"conversion" not in ran.stderr
    room.write("empty", b"\n")
    ran = room.run(script("live.sh", "empty", "ntrip://x", "s"))
    yield "an empty plan", (ran.returncode, ran.stderr) == (1, b"empty: no plan\n") and len(made(room)) == number
    ran = room.run(script("live.sh", "plan", "ntrip://x", "absent/s"))
    yield "a missing folder", ran.returncode == 1 and b": the conversion ended with status " in ran.stderr
    ran = room.run(f"sleep 1; {script('live.sh', 'plan', 'ntrip://x', 's', '--interval', '7')}")
    is_refused = ran.returncode == 1 and b": the conversion ended with status 2: " in ran.stderr
    yield "an option that is refused", is_refused and len(made(room)) == number
    # another run began in the same second
    (room.folder / "bin/date").write_text("#!/bin/sh\necho 20240204T000000Z\n", encoding="ascii")
    (room.folder / "bin/date").chmod(0o755)
    room.write("s-20240204T000000Z.obs", b"")
    ran = room.run(live)
    yield "a file that exists", ran.returncode == 1 and made(room)[0] == "s-20240204T000000Z.obs"
    (room.folder / "s-20240204T000000Z.obs").unlink()
    (room.folder / "bin/date").unlink()
    (room.folder / "-plan").write_bytes((room.folder / "plan").read_bytes())
    (room.folder / "bin/str2str").write_text("#!/bin/sh\ncat live.rtcm3\n", encoding="ascii")
    ran = room.run(f"sleep 1; {script('live.sh', '-plan', 'ntrip://x', 's')}")
    yield "a leading hyphen", ran.returncode == 0 and ran.stderr.decode().endswith(" epochs 4\n")
    # the stream began a week after the start
    (room.folder / "bin/date").write_text(LATE_DATE, encoding="ascii")
    (room.folder / "bin/date").chmod(0o755)
    ran = room.run(f"sleep 1; {live}")
    said = rf" epochs 4\n{made(room)[-1]}: the last epoch is of [-0-9]+ 00:00, over half a week from now: .*\n$"
    yield "another week", ran.returncode == 1 and re.search(said, ran.stderr.decode()) is not None
    # an error when str2str loses signals
    (room.folder / "bin/str2str").write_text(STR2STR, encoding="utf-8")
    room.replace_program(f"sleep {DEAF / 2}; exit 2")
    ran = room.run(f"sleep 1; {live}")
    yield "an early error", ran.returncode == 1 and b": the conversion ended with status 2: " in ran.stderr


def try_read_back(room: Room) -> Outcomes:
    stored = RECORDED.with_suffix(".obs").read_bytes()
    room.write("a.obs", stored)
    room.write("b.obs.gz", gzip.compress(stored))
    room.write("c.obs", stored[:-9])
    line = "epochs from 2019-10-17 08:13:47.001 to 2019-10-17 08:14:12.001"
    ran = room.run(script("read-back.sh", "a.obs", "b.obs.gz"))
    yield "accepted files", ran.stdout.decode() == f"a.obs: 26 {line}\nb.obs.gz: 26 {line}\n" and ran.returncode == 0
    ran = room.run(script("read-back.sh", "c.obs", "a.obs"))
    lines = ran.stdout.decode().splitlines()
    yield "a damaged file", lines[0].startswith("c.obs: rtcm2rinex: CutShort ") and lines[1] == f"a.obs: 26 {line}"
    yield "its status", ran.returncode == 1
    for name, data in damaged_gzip(stored).items():
        room.write(f"{name}.obs.gz", data)
        ran = room.run(script("read-back.sh", f"{name}.obs.gz", "a.obs"))
        lines = ran.stdout.decode().splitlines()
        is_said = len(lines) == 2 and lines[0].startswith(f"{name}.obs.gz: gzip: ")
        yield f"a compressed file, {name}", is_said and ran.returncode == 1
    for name in ("-a.obs", r"a\tb.obs"):
        room.write(name, stored)
        yield f"the name {name}", room.run(script("read-back.sh", name)).stdout.decode() == f"{name}: 26 {line}\n"


def damaged_gzip(data: bytes) -> dict[str, bytes]:
    """Returns the compressed bytes with a wrong CRC, and without it: it and the length are the last 8 bytes."""
    packed = gzip.compress(data)
    return {"crc": packed[:-8] + bytes([packed[-8] ^ 1]) + packed[-7:], "cut": packed[:-8]}
