"""The C compilers of this machine, for the programs in C of tools/."""
import shutil
import subprocess
from pathlib import Path

# For a program that doesn't use the C library: the toolchain's compiler has none.
FREESTANDING = ("-ffreestanding", "-nostdlib")


def compilers() -> list[list[str]]:
    """Returns the commands of the system's C compilers, and of the toolchain's with its linker."""
    rt = shutil.which("rt")
    beside_rt = Path(rt).resolve().parent.parent / "toolchain/bin" if rt else Path()
    found = [["cc"], ["clang"], [f"{beside_rt}/clang", f"--ld-path={beside_rt}/ld.lld"]]
    return [words for words in found if shutil.which(words[0])]


def built(source: Path, target: Path, *options: str) -> bool:
    """Compiles a program. Returns whether a compiler does."""
    how = [*options, "-o", target, source]
    return any(subprocess.run([*words, *how], capture_output=True).returncode == 0 for words in compilers())
