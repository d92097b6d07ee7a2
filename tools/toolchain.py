"""Copies of the toolchain and of the working tree, for measurements from nothing."""
import shutil
import subprocess
from pathlib import Path

TOP = Path(__file__).resolve().parent.parent


def copy_of_toolchain(to: Path) -> Path:
    """Copies the toolchain and returns its `rt`. `rt` keeps the proofs of all checkouts beside its toolchain."""
    ours = Path(shutil.which("rt")).resolve().parent.parent
    shutil.copytree(ours / "bin", to / "bin")
    for part in ours.iterdir():
        if part.name != "bin":
            (to / part.name).symlink_to(part)
    return to / "bin/rt"


def copy_working_tree(to: Path) -> None:
    words = ["git", "ls-files", "-z", "--cached", "--others", "--exclude-standard"]
    names = subprocess.run(words, cwd=TOP, check=True, capture_output=True, text=True).stdout.split("\0")
    for name in names:
        if name and (TOP / name).is_file():
            (to / name).parent.mkdir(parents=True, exist_ok=True)
            shutil.copy2(TOP / name, to / name)
