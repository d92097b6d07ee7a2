"""Checks by the prover: how many at once, and what one of a crate prints."""
import os
import re
import subprocess
from collections.abc import Iterable
from dataclasses import dataclass
from pathlib import Path

# Peak memory of a check of these crates is 4.2 GB. Without RT_JOBS `rt ci` estimates 12 GB and leaves processors idle
# until that much is free.
BYTES_PER_CHECK = 4_500_000_000

# How an error begins if a text couldn't be read, as opposed to a text that is read and false.
UNREAD = re.compile(r"is not in scope|has no field|is no name|operand is missing|expected the end|cannot continue")
ERROR = re.compile(r"(?:\./)?(?P<file>\S+?):\d+:\d+: error: (?:(?P<goal>`[^`]*`): )?(?P<text>.*)")
# The outcome of a function.
FUNCTION = re.compile(r"fn (?P<crate>\w+)::(?P<path>\S+): (?P<text>.*)")
# A goal that no search proves, and what is to be proved.
OPEN_GOAL = re.compile(r"note: (?:\./)?(?P<file>src/\S+?):(?P<line>\d+):\d+: .* \(`[^`]*`\)")
STATEMENT = re.compile(r"note: `[^`]*` of (?P<file>\S+) must prove: ")
# What an error contains if a proof only names something removed, or uses something refused.
GONE = re.compile(
    r"has no field|has no `[^`]*`|is not in scope|no longer fits|was not admitted|none of that name|which was rejected"
)
# The first line of the methods of a type.
IMPL = re.compile(r"^impl(?:<[^{]*?>)? (?P<type>\w+)", re.MULTILINE)
# The first line of a function.
FN = re.compile(r"^\s*(?:pub(?:\([a-z]+\))? )?(?:const )?fn (?P<name>\w+)", re.MULTILINE)


def most_checks(bytes_each: int = BYTES_PER_CHECK) -> int:
    """Returns the number of concurrent checks: one per processor, as far as memory allows."""
    found = re.search(r"^MemAvailable:\s+(\d+) kB", Path("/proc/meminfo").read_text(), re.MULTILINE)
    room = int(found[1]) * 1024 // bytes_each if found else 1
    return max(1, min(len(os.sched_getaffinity(0)), room))


@dataclass
class Checked:
    """The outcome of a check of a crate: its last line about the proof, all lines, and its processor seconds."""

    verdict: str
    lines: list[str]
    seconds: float

    @property
    def is_proved(self) -> bool:
        return self.verdict.startswith("logic=proved")

    @property
    def is_whole(self) -> bool:
        """Returns whether each function was tried."""
        return self.verdict.startswith(("logic=", "only=")) and not self.unread

    @property
    def unread(self) -> str:
        return next((line for line in self.lines if is_unread(line)), "")

    @property
    def reasons(self) -> list[str]:
        """Returns why the crate isn't proved, in at least one line."""
        found = [line for line in self.lines if ERROR.match(line) or OPEN_GOAL.match(line)]
        refused = [line for line in self.lines if FUNCTION.match(line) and not line.endswith((": proved", ": assumed"))]
        return [line for line in (self.unread, *found, *refused, self.verdict) if line]

    @property
    def own_errors(self) -> list[str]:
        """Returns the errors, without those of proofs that only name something removed."""
        return [line for line in self.lines if ERROR.match(line) and not GONE.search(line)]

    def function(self, name: str) -> tuple[str, str]:
        """Returns the path of the function whose path ends in this name, and its outcome."""
        found = (match for line in self.lines if (match := FUNCTION.match(line)))
        fits = (match for match in found if f"::{match['path']}".endswith(f"::{name}"))
        return next(((match["path"], match["text"]) for match in fits), ("", ""))

    def refuses(self, names: set[str]) -> bool:
        """Returns whether a function of one of these names is itself refused."""
        found = [match for line in self.lines if (match := FUNCTION.match(line)) and "it calls `" not in line]
        refused = [f"::{match['path']}" for match in found if match["text"].startswith(("not proved", "no proof"))]
        return any(path.endswith(f"::{name}") for path in refused for name in names if name)

    def unproved(self, path: str) -> list[str]:
        """Returns what is unproved of a function, without errors of proofs that only name something removed."""
        folder = f"proofs/{path.replace('::', '/')}/"
        found = []
        for line in self.lines:
            if match := ERROR.match(line):
                is_its_own = folder in match["file"] and not GONE.search(line)
            elif match := STATEMENT.match(line):
                is_its_own = folder in match["file"]
            else:
                module, owner, name = (*line.rpartition(" in ")[2].split(" "), "", "")[:3]
                is_of_it = path.startswith(module) or path.endswith(f"::{owner}::{name}")
                is_its_own = bool(OPEN_GOAL.match(line)) and is_of_it and path.endswith(f"::{name}")
            if is_its_own:
                # what follows lists names, as of clauses that hold
                found.append(line.partition(" names you can use")[0])
        return found


def check(folder: Path, functions: Iterable[str] = ()) -> Checked:
    """Checks a crate, or only these functions of it, over its kept work."""
    started = subprocess.Popen(
        ["rt", "check", "--jobs", "1", *(word for name in functions for word in ("--only", name))],
        cwd=folder,
        stdin=subprocess.DEVNULL,
        stdout=subprocess.PIPE,
        stderr=subprocess.STDOUT,
        text=True,
        errors="replace",
    )
    # a line that continues the one before is indented
    lines = started.stdout.read().rstrip("\n").replace("\n  ", " ").split("\n")
    # processor time of the check and its children; elapsed time would include the other checks
    _, status, usage = os.wait4(started.pid, 0)
    started.returncode = os.waitstatus_to_exitcode(status)
    lines = [located(line, folder) for line in lines]
    verdict = next((line for line in reversed(lines) if line.startswith(("logic=", "only="))), lines[-1])
    return Checked(verdict, lines, usage.ru_utime + usage.ru_stime)


def located(line: str, folder: Path) -> str:
    """Returns the line; if it is about an open goal, with the module, the type and the name of the goal's function."""
    found = OPEN_GOAL.match(line)
    if not found:
        return line
    file = folder / found["file"]
    before = "".join(file.read_text(encoding="utf-8").splitlines(keepends=True)[: int(found["line"])])
    module = found["file"].removeprefix("src/").removesuffix(".rt").removesuffix("/mod").replace("/", "::")
    names = [match["name"] for match in FN.finditer(before)]
    # the type may be of another module
    types = [match["type"] for match in IMPL.finditer(before)]
    return f"{line} in {module} {types[-1] if types else '-'} {names[-1]}" if names else line


def is_unread(line: str) -> bool:
    """Returns whether the error is that a text of the program or of its definitions couldn't be read."""
    found = ERROR.match(line)
    if not found or not found["file"].startswith(("src/", "specs/")):
        return False
    text = re.sub(r"`[^`]*`", "", found["text"])
    return not found["goal"] or bool(UNREAD.search(text))
