"""Instructions of a run by callgrind, and the commands of which they are counted."""
import re
import shutil
import socket
import subprocess
from collections.abc import Iterator
from contextlib import contextmanager, suppress
from pathlib import Path
from threading import Thread
from typing import IO

from reference_impl.stream import PLAN

CONVERT = ["convert", "--week", "2300", "--date", "20240204 000001 UTC"]
COMMANDS = {
    "frames": ["frames"],
    "show": ["show"],
    "signals": ["signals"],
    "convert": [*CONVERT, *PLAN],
    "convert, all signals": CONVERT,
    "check": ["check"],
}
# callgrind counts each byte of a string instruction as an instruction
NO_STRING_INSTRUCTIONS = "glibc.cpu.x86_rep_movsb_threshold=1000000000:glibc.cpu.x86_rep_stosb_threshold=1000000000"


def has_valgrind() -> bool:
    return shutil.which("valgrind") is not None


@contextmanager
def byte_by_byte(source: Path) -> Iterator[socket.socket]:
    """Opens a socket that passes on the bytes of a file. Each read returns one, as each is a packet."""
    near, far = socket.socketpair(socket.AF_UNIX, socket.SOCK_SEQPACKET)
    data = source.read_bytes()

    def send() -> None:
        with far, suppress(OSError):
            for byte in data:
                far.send(bytes([byte]))

    sender = Thread(target=send)
    sender.start()
    with near:
        yield near
    sender.join()


def instructions(
    words: list[str | Path], given: IO | socket.socket, environment: dict[str, str], folder: Path, *options: str
) -> int | None:
    """Counts the instructions of a run in this folder, with more options of callgrind. Returns None if it fails."""
    ran = subprocess.run(
        ["valgrind", "--tool=callgrind", "--callgrind-out-file=/dev/null", *options, *words],
        stdin=given,
        stdout=subprocess.DEVNULL,
        stderr=subprocess.PIPE,
        text=True,
        errors="replace",
        env=environment,
        cwd=folder,
    )
    found = re.search(r"Collected : (\d+)", ran.stderr)
    return int(found[1]) if found and not ran.returncode else None
