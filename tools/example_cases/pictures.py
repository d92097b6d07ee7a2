"""Tests of the scripts that draw a file and that look at its Doppler shifts."""
import gzip
import math
import random
import re
import shutil
import struct
import zlib
from decimal import Decimal

from case_rows.quality import NOTHING, file_of, only, row
from case_rows.quality import signal as values
from rooms import RECORDED, TOP, Outcomes, Room, at

from .common import EXAMPLES, script
from .recordings import damaged_gzip


def shifts_and_rest(page: str) -> tuple[list[Decimal], list[str]]:
    """Returns the Doppler shifts of the satellite lines of a file, and the lines without them."""
    head, body = page.split("END OF HEADER", 1)
    shifts, rest = [], [head]
    for line in body.splitlines():
        for place in range(35, len(line) if line[:1] in "GERC" else 0, 64):
            shifts += [Decimal(line[place : place + 14])] if line[place : place + 14].strip() else []
            line = line[:place] + 14 * "-" + line[place + 14 :]
        rest.append(line)
    return shifts, rest


def require_c_locale(room: Room) -> None:
    """Puts an `awk` on the PATH that fails in other locales, in which some read decimals with a comma."""
    path = room.folder / "bin/awk"
    path.write_text(f'#!/bin/sh\ntest "${{LC_ALL-}}" = C && exec {shutil.which("awk")} "$@"\n', encoding="ascii")
    path.chmod(0o755)


def try_doppler(room: Room) -> Outcomes:
    given = (TOP / "cases/input/stfu-2016-04-06.rtcm3").read_bytes()
    room.write("right.obs", room.run("rtcm2rinex convert --week 1891 --date x --gps 1C,2X", data=given).stdout)
    wrong = RECORDED.with_suffix(".obs")
    ran = room.run(script("doppler.sh", "right.obs"))
    yield "right signs", re.fullmatch(rb"[1-9]\d* fit, 0 have the wrong sign\n", ran.stdout) is not None
    ran = room.run(script("doppler.sh", wrong))
    yield "wrong signs", re.fullmatch(rb"0 fit, [1-9]\d* have the wrong sign\n", ran.stdout) is not None
    room.write("turned.obs", room.run(script("doppler.sh", "--turn", wrong)).stdout)
    ran = room.run(script("doppler.sh", "turned.obs"))
    yield "turned signs", ran.stdout.endswith(b" fit, 0 have the wrong sign\n")
    before, after = shifts_and_rest(wrong.read_text("ascii")), shifts_and_rest(room.text("turned.obs"))
    yield "nothing else is changed", before[1] == after[1]
    yield "each is turned", [-shift for shift in before[0]] == after[0]
    given, copy = (room.run("rtcm2rinex check", data=path.read_bytes()) for path in (wrong, room.folder / "turned.obs"))
    yield "the copy is accepted", given.stdout == copy.stdout != b""
    for name in ("a=b.obs", "-s.obs"):
        room.write(name, wrong.read_bytes())
        for turn in ("", "--turn"):
            words = (turn, name) if turn else (name,)
            ran, same = (room.run(script("doppler.sh", *words[:-1], path)) for path in (name, str(wrong)))
            yield f"the name {name} {turn}", (ran.returncode, ran.stdout) == (0, same.stdout) != (0, b"")
    room.write("s.obs.gz", gzip.compress(wrong.read_bytes()))
    ran = room.run(script("doppler.sh", "s.obs.gz"))
    yield "no line to compare", (ran.returncode, ran.stdout, ran.stderr) == (1, b"", b"s.obs.gz: no line to compare\n")
    ran = room.run(script("doppler.sh", "--turn", "s.obs.gz"))
    is_refused = ran.stderr.endswith(b"\ns.obs.gz: not a whole file as rtcm2rinex writes it\n")
    yield "nothing to turn", (ran.returncode, ran.stdout) == (1, b"") and is_refused
    room.write("cut.obs", wrong.read_bytes()[:-49])
    ran = room.run(script("doppler.sh", "--turn", "cut.obs"))
    yield "a file that is cut", (ran.returncode, ran.stdout) == (1, b"") and b": CutShort " in ran.stderr
    require_c_locale(room)
    for words in (("turned.obs",), ("--turn", "turned.obs")):
        yield f"the locale of awk {words}", room.run(script("doppler.sh", *words)).returncode == 0


def day_of_passes() -> bytes:
    """Returns the file of a day by minutes, in which satellites rise and set, with lost locks and two gaps."""
    draw, start, epochs = random.Random(7), at("2024-02-04"), {}
    plan = {"gps": "1C,2W,5Q", "galileo": "1C,5Q,7Q"}
    orbits = [(f"G{n:02}", 43_082) for n in range(1, 32)] + [(f"E{n:02}", 50_685) for n in range(1, 28)]
    passes = [(name, period, draw.uniform(0, 2 * math.pi), draw.uniform(-0.45, 0.15)) for name, period in orbits]
    for second in [*range(0, 36_000, 60), *range(38_400, 70_020, 60), *range(70_140, 86_400, 60)]:
        rows = []
        for name, period, phase, above in passes:
            height = 0.8 * math.sin(2 * math.pi * second / period + phase) + above
            cells = [
                values(
                    "1" if draw.random() < 0.01 * (1 - min(height, 1)) ** 10 else " ",
                    s=int(1000 * (30 + 22 * height - 2.5 * place + draw.gauss(0, 0.7))),
                )
                for place in range(3)
            ]
            rows += [row(name, *cells)] if height > 0 else []
        epochs[start + 1000 * second] = rows
    return ("\n".join(file_of(plan, epochs)) + "\n").encode()


def pixels_of(picture: bytes) -> list[list[bytes]]:
    """Returns the rows of pixels of a PNG of 8 bits a colour."""
    width, height, _, kind = struct.unpack(">IIBB", picture[16:26])
    size = {2: 3, 6: 4}[kind]
    parts, place = b"", 8
    while place < len(picture):
        length = int.from_bytes(picture[place : place + 4], "big")
        parts += picture[place + 8 : place + 8 + length] if picture[place + 4 : place + 8] == b"IDAT" else b""
        place += length + 12
    data, above, rows = zlib.decompress(parts), bytearray(width * size), []
    for start in range(0, len(data), width * size + 1):
        line = bytearray(data[start + 1 : start + 1 + width * size])
        for n, byte in enumerate(line):
            left, up, before = (line[n - size], above[n], above[n - size]) if n >= size else (0, above[n], 0)
            nearest = min((left, up, before), key=lambda value: abs(left + up - before - value))
            line[n] = byte + (0, left, up, (left + up) // 2, nearest)[data[start]] & 255
        rows.append([bytes(line[n : n + 3]) for n in range(0, len(line), size)])
        above = line
    return rows


def drawn(room: Room) -> dict[str, list[str]]:
    """Returns the lines of each block of data that was given to a `gnuplot` that keeps them."""
    found = re.findall(r"\$(\w+) << EOD\n(.*?)EOD\n", room.text("given"), re.DOTALL)
    return {name: lines.splitlines() for name, lines in found}


def keep_data(room: Room) -> None:
    """Puts a `gnuplot` on the PATH that keeps its data in `given`, and writes each picture that has some."""
    keeps = """\
#!/bin/sh
cat > given
for kind in satellites strength; do
    test "$kind" = satellites || ! grep -q '^lines = 0$' given || break
    printf IEND.crc > "$NAME-$kind.png"
done
"""
    (room.folder / "bin/gnuplot").write_text(keeps, encoding="ascii")
    (room.folder / "bin/gnuplot").chmod(0o755)


def try_picture_data(room: Room) -> Outcomes:
    # a day of minutes: a gap of 40 minutes, one of a minute, a lock lost at 5 h, a satellite of six hours
    minutes = [minute for minute in range(1440) if not 600 <= minute < 640 and minute != 721]
    epochs = {
        at("2024-02-04") + 60_000 * minute: [
            row("G05", values("1" if minute == 300 else " ", s=40_000 + 100 * (minute // 60))),
            *([row("E11", only(c=23_000_000_000), NOTHING)] if 180 <= minute < 540 else []),
        ]
        for minute in minutes
    }
    room.write("s.obs", ("\n".join(file_of({"gps": "1C", "galileo": "1C,5Q"}, epochs)) + "\n").encode())
    keep_data(room)
    ran = room.run(script("picture.sh", "s.obs", "s"))
    blocks = drawn(room)
    yield "a picture", (ran.returncode, ran.stderr) == (0, b"") and len(blocks) == 4
    if not blocks:
        return
    yield "the gaps", blocks["gaps"][1:] == ["36000 38400", "43260 43410"]
    yield "the lost lock", blocks["lost"][1:] == ["18150 1"]
    columns = [300 * n for n in range(288) if not 120 <= n < 128]
    cells = [f"{column} 1 {40 + column // 3600 / 10:.6g}" for column in columns]
    cells += [f"{column} 2 0" for column in range(10_800, 32_400, 300)]
    yield "the satellites", blocks["cells"] == cells
    lines = [line for line in blocks["strength"] if line]
    yield "the signals", (lines[0], lines[1], len(lines)) == ('"G 1C"', "150 40", 281)
    yield "a line ends at a gap", blocks["strength"].index("") == 121 and blocks["strength"][122].startswith("38550 ")
    yield "the day", "set xrange [0:86400]" in room.text("given")
    room.run(script("picture.sh", "s.obs", "s", "3600"))
    yield "hours", drawn(room)["gaps"][1:] == ["36000 38400", "43260 45060"]
    room.run(script("picture.sh", "s.obs", "s", "2.5"))
    yield "a part of a second", 'every = 2.5; period = "2.5 s"' in room.text("given")


def try_picture_files(room: Room) -> Outcomes:
    keep_data(room)
    stored = RECORDED.with_suffix(".obs").read_bytes()
    room.write("t.obs.gz", gzip.compress(stored))
    ran = room.run(script("picture.sh", "t.obs.gz", "t"))
    yield "seconds", ran.returncode == 0 and "set xrange [29627:29653]" in room.text("given")
    pictures = ["t-satellites.png", "t-strength.png"]
    yield "its pictures", [path.name for path in sorted(room.folder.glob("t-*"))] == pictures
    # epochs of seconds, and one between them, as after a restart
    rows = [row("G05", values())]
    epochs = {at("2024-02-04") + 1000 * second: rows for second in range(90)} | {at("2024-02-04") + 30_400: rows}
    room.write("r.obs", ("\n".join(file_of({"gps": "1C"}, dict(sorted(epochs.items())))) + "\n").encode())
    ran = room.run(script("picture.sh", "r.obs", "r"))
    yield "an epoch between others", ran.returncode == 0 and drawn(room)["gaps"] == ["NaN NaN"]
    # two epochs, two days apart, without a strength
    rows = [row("G05", only(c=23_000_000_000))]
    epochs = {at("2024-02-04"): rows, at("2024-02-06"): rows}
    room.write("v.obs", ("\n".join(file_of({"gps": "1C"}, epochs)) + "\n").encode())
    ran = room.run(script("picture.sh", "v.obs", "t"))
    yield "a step of days", (ran.returncode, ran.stderr) == (0, b"")
    yield "no strength", [path.name for path in room.folder.glob("t-*")] == pictures[:1]
    (room.folder / "given").unlink()
    room.write("u.obs", stored[:-9])
    ran = room.run(script("picture.sh", "u.obs", "u"))
    is_refused = ran.returncode == 1 and ran.stderr.startswith(b"rtcm2rinex: CutShort ")
    yield "a damaged file", is_refused and not (room.folder / "given").exists()
    for name, data in damaged_gzip(stored).items():
        room.write(f"{name}.obs.gz", data)
        ran = room.run(script("picture.sh", f"{name}.obs.gz", name))
        is_refused = ran.returncode != 0 and f"gzip: {name}.obs.gz: " in ran.stderr.decode()
        yield f"a compressed file, {name}", is_refused and not (room.folder / "given").exists()
    (room.folder / "draw").symlink_to(EXAMPLES / "picture.sh")
    ran = room.run("sh draw t.obs.gz linked")
    yield "a link", ran.returncode == 0 and (room.folder / "linked-satellites.png").exists()
    require_c_locale(room)
    yield "the locale of awk", room.run(script("picture.sh", "t.obs.gz", "t")).returncode == 0


def try_picture(room: Room) -> Outcomes:
    if not shutil.which("gnuplot"):
        print("skipped: gnuplot is not installed")
        return
    room.write("s.obs", day_of_passes())
    ran = room.run(script("picture.sh", "s.obs", "a b"))
    names = [f"a b-{kind}.png" for kind in ("satellites", "strength")]
    yield "pictures", (ran.returncode, ran.stderr) == (0, b"") and sorted(room.names("."))[:2] == names
    ran = room.run(script("picture.sh", "s.obs", r"bin/c\td", "2.5"))
    yield "a backslash, and a part of a second", (ran.returncode, ran.stderr) == (0, b"")
    before = [(room.folder / name).read_bytes() for name in names]
    ran = room.run(f"trap '' XFSZ; ulimit -f 20; {script('picture.sh', 's.obs', 'a b')}")
    is_said = (ran.returncode, ran.stderr) == (1, b"a b-satellites.png: not written as a whole\n")
    yield "a full disk", is_said and [(room.folder / name).read_bytes() for name in names] == before
    yield "nothing is left", room.names(".") == [*names, "bin", "s.obs"]
    shown = pixels_of((room.folder / names[0]).read_bytes())
    yield "their size", {(len(shown), len(line)) for line in shown} == {(800, 1200)}
    middle = shown[400]
    grey = [place for place, colour in enumerate(middle) if colour == b"\xc8" * 3]
    yield "a gap", 400 < min(grey) < 500 and max(grey) - min(grey) > 20
    yield "white ground", middle.count(b"\xff" * 3) > 200 and shown[0][0] == b"\xff" * 3
    yield "colours", len({colour for line in shown for colour in line}) > 30
    lines = pixels_of((room.folder / names[1]).read_bytes())
    yield "the lines of the signals", len({colour for line in lines for colour in line}) > 6
