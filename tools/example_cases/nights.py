"""Tests of the scripts and units for several days and stations: interrupted ones, missed ones, lists that grow."""
import os
import re
import shutil
import subprocess
from datetime import datetime, timedelta, timezone

from rooms import Outcomes, Room, stream_of

from .common import DAY, EXAMPLES, STATION, day_log, day_messages, script


def past_day(days: int) -> str:
    """Returns the date of this number of days ago."""
    return str((datetime.now(timezone.utc) - timedelta(days=days)).date())


def begin(printed: bytes, starts: tuple[str, ...]) -> bool:
    """Returns whether the printed lines begin with these texts."""
    lines = printed.decode().splitlines()
    return len(lines) == len(starts) and all(line.startswith(start) for line, start in zip(lines, starts))


def try_interrupted(room: Room) -> Outcomes:
    # a day whose report can't be written, or that ends before it, is done again
    missed, yesterday = past_day(3), past_day(1)
    room.write(f"raw/{STATION}/{missed}.rtcm3", stream_of([*day_messages(missed, 0, 9)]))
    move, real = room.folder / "bin/mv", shutil.which("mv")

    def kinds() -> list[str]:
        return [name.rsplit(".", 1)[1] for name in room.names(f"obs/{STATION}")]

    for place, fault, said in (
        ("report", "echo mv: no room >&2; exit 1", "no report: mv: no room$"),
        ("rnx", f"{real} \"$@\"; trap '' TERM; kill 0; exit", ""),
    ):
        move.write_text(f'#!/bin/sh\ncase $3 in *.{place}) {fault} ;; esac\nexec {real} "$@"\n', encoding="ascii")
        move.chmod(0o755)
        ran = room.run(script("day.sh", STATION, missed))
        is_said = ran.returncode != 0 and re.search(said, ran.stdout.decode()) is not None
        yield f"no {place}", is_said and "rnx" in kinds() and not {"report", "raw", "part"} & {*kinds()}
        move.unlink()
        ran = room.run(script("days.sh", STATION))
        starts = (f"{STATION} {missed}: 9 of 2880 epochs, ", f"{STATION} {yesterday}: no log")
        is_done = begin(ran.stdout, starts) and sorted(kinds()) == ["report", "rnx", "signals"]
        yield f"done again after no {place}", is_done
        shutil.rmtree(room.folder / "obs")


def try_missed(room: Room) -> Outcomes:
    yesterday, said = past_day(1), "9 of 2880 epochs, "

    def logs(*days: int) -> list[str]:
        """Writes logs of these days, and returns the begin of the line of each, and of that of yesterday."""
        for day in map(past_day, days):
            room.write(f"raw/{STATION}/{day}-010000.rtcm3", stream_of([*day_messages(day, 0, 9)]))
        return [*(f"{STATION} {past_day(day)}: {said}" for day in days), f"{STATION} {yesterday}: no log"]

    # a day that isn't over is made again when it is
    today = past_day(0)
    logs(0)
    ran = room.run(script("day.sh", STATION, today))
    is_said = begin(ran.stdout, (f"{STATION} {today}: the day isn't over; {said}",)) and ran.returncode == 1
    yield "a day that isn't over", is_said and not (room.folder / f"obs/{STATION}/{today}.report").exists()
    shutil.rmtree(room.folder / "obs")
    # the machine was off for weeks, of which a day was made by hand
    lines = logs(20, 9, 3)
    last = lines[2:]
    for kept, words, tried in (((), (), last), ((30,), ("6",), last), ((30, 1), (), lines), ((30, 0, -2), (), lines)):
        for day in kept:
            room.write(f"obs/{STATION}/{past_day(day)}.report", b"")
        ran = room.run(script("days.sh", STATION, *words))
        yield f"weeks off {kept} {words}", begin(ran.stdout, tuple(tried)) and ran.returncode == 1
        shutil.rmtree(room.folder / "obs")
    # the first log of a day is a link to one that is missing; another day has the times of a log alone
    shutil.rmtree(room.folder / "raw")
    logs(3)
    (room.folder / f"raw/{STATION}/{past_day(3)}-000000.rtcm3").symlink_to("absent")
    room.write(f"raw/{STATION}/{past_day(2)}.rtcm3.tag", b"TIMETAG RTKLIB")
    ran = room.run(script("days.sh", STATION))
    starts = (f"{STATION} {past_day(3)}: no file: cat: raw/", f"{STATION} {yesterday}: no log")
    yield "a dangling link, and times alone", begin(ran.stdout, starts) and ran.returncode == 1


def try_late_logs(room: Room) -> Outcomes:
    """A log comes after the night in which its day was converted."""
    late, yesterday = past_day(3), past_day(1)
    room.write(f"raw/{STATION}/{late}-010000.rtcm3", stream_of([*day_messages(late, 0, 9)]))
    room.run(script("days.sh", STATION))
    ran = room.run(script("days.sh", STATION))
    yield "a day that is done", begin(ran.stdout, (f"{STATION} {yesterday}: no log",))
    room.write(f"raw/{STATION}/{late}-020000.rtcm3", stream_of([*day_messages(late, 9, 12)]))
    os.utime(room.folder / f"raw/{STATION}/{late}-020000.rtcm3", (0, 0))
    ran = room.run(script("days.sh", STATION))
    starts = (f"{STATION} {late}: 12 of 2880 epochs, ", f"{STATION} {yesterday}: no log")
    yield "a log that comes later", begin(ran.stdout, starts)


def has_parallel(room: Room) -> bool:
    return b"GNU parallel" in room.run("parallel --version || :").stdout


def try_nightly(room: Room) -> Outcomes:
    if not has_parallel(room):
        print("skipped: GNU parallel is not installed")
        return
    yield "no list", room.run(script("nightly.sh", DAY)).returncode == 1
    room.write("stations", b"KIRU00SWE\nMATE00ITA\n")
    for station in ("KIRU00SWE", "MATE00ITA", "ZIMM00CHE"):
        room.write(f"raw/{station}/{DAY}.rtcm3", day_log(DAY))
    ran = room.run(script("nightly.sh", DAY))
    yield "a good night", (ran.returncode, ran.stdout) == (0, b"")
    room.write("stations", b"KIRU00SWE\nMATE00ITA\nZIMM00CHE\nWTZR00DEU\n")
    room.write(f"raw/MATE00ITA/{DAY}.rtcm3", b"")
    ran = room.run(script("nightly.sh", DAY))
    said = b"".join(sorted(ran.stdout.splitlines(keepends=True)))
    starts = (f"MATE00ITA {DAY}: no file: rtcm2rinex: NoSignal bytes 0 ", f"WTZR00DEU {DAY}: no log")
    yield "a list that grew", begin(said, starts) and ran.returncode == 2
    yield "its files", len([*(room.folder / "obs/ZIMM00CHE").glob("*.rnx")]) == 1
    shutil.rmtree(room.folder / "obs")
    ran = room.run(script("nightly.sh", DAY, "2/host"))
    yield "another host", b"".join(sorted(ran.stdout.splitlines(keepends=True))) == said and ran.returncode == 2
    # without a day it is yesterday, and days that were missed
    missed, yesterday = past_day(3), past_day(1)
    ran = room.run(script("nightly.sh"))
    yield "yesterday", ran.returncode == 4 and ran.stdout.decode().count(f" {yesterday}: no log\n") == 4
    room.write("stations", b"KIRU00SWE\n")
    room.write(f"raw/{STATION}/{missed}.rtcm3", stream_of([*day_messages(missed, 0, 9)]))
    for day, host in (("", ""), ("", "2/host")):
        ran = room.run(script("nightly.sh", *((day, host) if host else ())))
        starts = (f"{STATION} {missed}: 9 of 2880 epochs, ", f"{STATION} {yesterday}: no log")
        yield f"a missed night {host}", begin(ran.stdout, starts) and ran.returncode == 1
        shutil.rmtree(room.folder / "obs")


def try_lists(room: Room) -> Outcomes:
    if not has_parallel(room):
        return
    yesterday = past_day(1)
    said = f"KIRU00SWE {yesterday}: no log\n"
    for name, lines in (
        ("skipped lines", b"# of the network\n\nKIRU00SWE\n  \n#MATE00ITA\n"),
        ("a list of Windows", b"KIRU00SWE\r\n\r\n"),
        ("blanks", b"  KIRU00SWE \n\t# none\n"),
        ("another code", b"# S\xfcd\nKIRU00SWE\n"),
        ("a byte order mark", b"\xef\xbb\xbfKIRU00SWE\n"),
        ("a byte of zero", b"KIRU00SWE\0\n"),
    ):
        room.write("stations", lines)
        ran = room.run("LC_ALL=C.UTF-8 " + script("nightly.sh"))
        yield name, (ran.returncode, ran.stdout.decode()) == (1, said)
    room.write("stations", b"\n# none\n")
    ran = room.run(script("nightly.sh"))
    yield "a list without a station", (ran.returncode, ran.stderr) == (1, b"stations: missing, unreadable or empty\n")
    # the scripts and the days in folders with a blank, of which the first is found by CDPATH, too
    (room.folder / "the scripts").mkdir()
    (room.folder / "the days").mkdir()
    for name in ("nightly.sh", "days.sh", "day.sh", "day-lacks.awk"):
        shutil.copy(EXAMPLES / name, room.folder / "the scripts")
    for folder in (".", "the days"):
        room.write(f"{folder}/stations", b"KIRU00SWE\n")
    for words in ("", f"{DAY} 2/host"):
        ran = room.run(f"cd 'the days'; sh '../the scripts/nightly.sh' {words}")
        no_log = f"KIRU00SWE {DAY if words else yesterday}: no log\n"
        yield f"a blank in a path {words}", (ran.returncode, ran.stdout.decode()) == (1, no_log)
    ran = room.run("CDPATH=$PWD; export CDPATH; sh 'the scripts/nightly.sh'")
    yield "a path by CDPATH", (ran.returncode, ran.stdout.decode()) == (1, said)


def try_units(room: Room) -> Outcomes:
    # the command of a unit, with what systemd puts in place of its specifiers
    unit = (EXAMPLES / "systemd/rtcm2rinex-day@.service").read_text(encoding="utf-8")
    command = re.sub("%(.)", lambda found: STATION if found[1] == "i" else found[1], unit.split("ExecStart=")[1])
    command = command.replace("/usr/share/rtcm2rinex", str(EXAMPLES))
    missed, yesterday = past_day(3), past_day(1)
    room.write(f"raw/{STATION}/{missed}.rtcm3", stream_of([*day_messages(missed, 0, 9)]))
    lines = (f"{STATION} {missed}: 9 of 2880 epochs, ", f"{STATION} {yesterday}: no log")
    for said in (lines, lines[1:]):
        ran = room.run(command)
        yield "the unit of days", begin(ran.stdout, said) and ran.returncode == 1
    if not shutil.which("systemd-analyze"):
        print("skipped: systemd-analyze is not installed")
        return
    for name in ("str2str", "sh", "mkdir"):
        shutil.which(name) or (room.folder / "bin" / name).touch()
    for unit in sorted((EXAMPLES / "systemd").iterdir()):
        instance = room.folder / unit.name.replace("@", f"@{STATION}")
        shutil.copy(unit, instance)
    units = [str(path) for path in sorted(room.folder.glob("rtcm2rinex-*"))]
    ran = subprocess.run(["systemd-analyze", "verify", *units], capture_output=True, text=True, env=room.how["env"])
    errors = [line for line in ran.stderr.splitlines() if "rtcm2rinex" in line and "not executable" not in line]
    yield f"units {errors}", not errors


def try_links(room: Room) -> Outcomes:
    """Scripts that are called by links, and one without what is beside it."""
    room.write(f"raw/{STATION}/{DAY}.rtcm3", day_log(DAY))
    (room.folder / "links").mkdir()
    for name in ("day.sh", "days.sh", "nightly.sh"):
        (room.folder / "links" / name).symlink_to(EXAMPLES / name)
    ran = room.run(f"sh links/day.sh {STATION} {DAY}")
    yield "a link", (ran.returncode, ran.stdout, ran.stderr) == (0, b"", b"")
    ran = room.run(f"sh links/days.sh {STATION} 0")
    yield "a link to days.sh", ran.stdout.decode() == f"{STATION} {past_day(1)}: no log\n" and ran.stderr == b""
    room.write("stations", STATION.encode())
    ran = room.run(f"sh links/nightly.sh {DAY}") if has_parallel(room) else None
    yield "a link to nightly.sh", ran is None or (ran.returncode, ran.stdout, ran.stderr) == (0, b"", b"")
    room.write("copy/day.sh", (EXAMPLES / "day.sh").read_bytes())
    ran = room.run(f"sh copy/day.sh {STATION} {DAY}")
    said = f"{STATION} {DAY}: no file: {room.folder.resolve()}/copy/day-lacks.awk is missing\n"
    yield "a copy of day.sh alone", (ran.returncode, ran.stdout.decode()) == (1, said)


def try_usage(room: Room) -> Outcomes:
    for name in ("convert", "day", "days", "doppler", "live", "picture", "read-back"):
        ran = room.run(script(f"{name}.sh"))
        yield f"no words for {name}", ran.returncode != 0 and f"usage: {name}.sh " in ran.stderr.decode()
    for number in ("abc", "-1", "1.5", "08"):
        ran = room.run(script("days.sh", STATION, number))
        yield f"{number} days", (ran.returncode, ran.stderr) == (1, b"usage: days.sh STATION [N]\n")
