"""Folders in which commands and scripts are tried, with the program and its surroundings, and streams for them."""
import os
import random
import signal
import subprocess
import sys
import time
from collections.abc import Callable, Iterator
from datetime import date, datetime, timedelta
from pathlib import Path

from reference_impl.stream import PLAIN, Form, System, frame_of, station_message

TOP = Path(__file__).resolve().parent.parent
RECORDED = TOP / "samples/zed-f9t-2019-10-17.rtcm3"
SHELLS = ("sh", "bash")
SECONDS = 30.0
START = datetime(1980, 1, 6)
# Time after which a command that doesn't end by itself is killed.
MOMENT = 1.0
KILLED = -signal.SIGKILL
# Time from its start in which `str2str` loses signals.
DEAF = 0.5
STR2STR = f"""\
#!{sys.executable}
import os, signal, time
ends = (signal.SIGINT, signal.SIGTERM)
for ignored in (*ends, signal.SIGHUP, signal.SIGPIPE):
    signal.signal(ignored, signal.SIG_IGN)
# like str2str it loses the signals that come before it has started
time.sleep({DEAF})
for end in ends:
    signal.signal(end, lambda *_: os._exit(0))
data = open("live.rtcm3", "rb").read()
while True:
    try:
        os.write(1, data)
    except BrokenPipeError:
        pass
    data = b"-"
    time.sleep(0.05)
"""
SSH = """\
#!/bin/sh
while test "$1" != host; do shift; done
shift
test "$1" != -- || shift
HOME=$PWD SHELL=/bin/sh exec sh -c "$*"
"""

Outcomes = Iterator[tuple[str, bool]]


def at(moment: str) -> int:
    """Returns a GPS time in ms from 1980-01-06."""
    return (datetime.fromisoformat(moment) - START) // timedelta(milliseconds=1)


def messages_of(moments: list[int], form: Form = PLAIN) -> list[bytes]:
    """Returns the messages of a station: its 1005, then an MSM7 of each system at each time."""
    draw = random.Random(1)
    systems = [System(system, form, draw) for system in form.satellites]
    observed = [
        system.message(part, moment, system.system == "G")
        for moment in moments
        for system in systems
        for part in system.parts()
    ]
    return [station_message(), *observed]


def stream_of(messages: list[bytes]) -> bytes:
    return b"".join(map(frame_of, messages))


def recording(moments: list[str]) -> bytes:
    return stream_of(messages_of(list(map(at, moments))))


def log_of(day: str) -> list[str]:
    """Returns the times of a day's log, which begins 30 s before the day and ends 30 s after it."""
    before, after = (str(date.fromisoformat(day) + timedelta(days=days)) for days in (-1, 1))
    return [f"{before} 23:59:30", f"{day} 00:00:00", f"{day} 12:00:00", f"{day} 23:59:30", f"{after} 00:00:29"]


def of_station(message: bytes, number: int) -> bytes:
    """Returns a message as that of another station."""
    return message[:1] + bytes([message[1] & 0xF0 | number >> 8, number & 0xFF]) + message[3:]


class Room:
    """A folder in which commands run, with the program, `str2str` and `ssh` on the PATH."""

    def __init__(self, folder: Path, shell: str, program: Path) -> None:
        self.folder, self.shell = folder, shell
        (folder / "bin").mkdir()
        (folder / "bin/rtcm2rinex").symlink_to(program)
        for name, script in (("str2str", STR2STR), ("ssh", SSH)):
            (folder / "bin" / name).write_text(script, encoding="utf-8")
            (folder / "bin" / name).chmod(0o755)
        fixed = {"PATH": f"{folder}/bin:{os.environ['PATH']}", "HOME": str(folder)}
        self.how = {"cwd": folder, "env": os.environ | fixed}

    def start(self, text: str) -> subprocess.Popen:
        """Starts commands in a process group of their own."""
        return subprocess.Popen(
            [self.shell, "-c", f"set -eu\n{text}"],
            stdin=subprocess.PIPE,
            stdout=subprocess.PIPE,
            stderr=subprocess.PIPE,
            start_new_session=True,
            preexec_fn=lambda: signal.signal(signal.SIGINT, signal.SIG_DFL),
            **self.how,
        )

    def run(self, text: str, data: bytes = b"") -> subprocess.CompletedProcess:
        with self.start(text) as started:
            return finish(started, data)

    def signalled(self, text: str, is_ready: Callable[[], bool], *numbers: int) -> subprocess.CompletedProcess:
        """Runs commands until they are ready, and then sends these signals to all, one after another."""
        with self.start(text) as started:
            wait_until(is_ready)
            for number in numbers:
                os.killpg(started.pid, number)
                time.sleep(MOMENT / 4)
            return finish(started, b"")

    def replace_program(self, script: str) -> None:
        (self.folder / "bin/rtcm2rinex").unlink()
        (self.folder / "bin/rtcm2rinex").write_text(f"#!/bin/sh\n{script}\n", encoding="ascii")
        (self.folder / "bin/rtcm2rinex").chmod(0o755)

    def write(self, name: str, data: bytes) -> None:
        (self.folder / name).parent.mkdir(parents=True, exist_ok=True)
        (self.folder / name).write_bytes(data)

    def text(self, name: str) -> str:
        path = self.folder / name
        return path.read_text(encoding="ascii") if path.is_file() else ""

    def names(self, folder: str) -> list[str]:
        return sorted(path.name for path in (self.folder / folder).iterdir())

    def epochs(self, name: str) -> list[int]:
        """Returns the times of the epochs of a file."""
        moments = []
        for line in self.text(name).splitlines():
            if line.startswith(">"):
                *whole, second = line[2:29].split()
                moments.append(datetime(*map(int, whole)) + timedelta(seconds=float(second)))
        return [(moment - START) // timedelta(milliseconds=1) for moment in moments]

    def has_epochs(self, name: str, moments: list[str]) -> bool:
        return self.epochs(name) == list(map(at, moments))


def finish(started: subprocess.Popen, data: bytes) -> subprocess.CompletedProcess:
    """Waits until commands end and close their outputs; after SECONDS all of them are killed."""
    try:
        output, errors = started.communicate(data, SECONDS)
        status = started.returncode
    except subprocess.TimeoutExpired:
        os.killpg(started.pid, signal.SIGKILL)
        output, errors = started.communicate()
        status = KILLED
    return subprocess.CompletedProcess(started.args, status, output, errors)


def wait_until(holds: Callable[[], bool]) -> bool:
    end = time.monotonic() + SECONDS
    while not holds() and time.monotonic() < end:
        time.sleep(0.05)
    return holds()
