"""MSM7 as the other forms: the nearest value of each field, and the longest lock time that isn't longer."""
from dataclasses import replace

from .fields import COARSE, FORMS, Bits, Columns, Fields, read_fields
from .messages import least_of_4, least_of_10

# An MSM7's units of range and phase in one unit of MSM4 and MSM5, and its units of strength in 1 dB-Hz.
FINER = {"range": 32, "phase": 4, "strength": 16}
LAST_LOCK = 15


def least(width: int) -> int:
    return -(1 << width - 1)


def coarse_fine(name: str, value: int) -> int:
    """Returns a fine range or phase in the units of MSM4, or the invalid one."""
    steps, width = FINER[name], COARSE[name]
    if value == least(FORMS[7].cell[name]):
        return least(width)
    return min(max((2 * value + steps) // (2 * steps), least(width) + 1), -least(width) - 1)


def coarse_lock(code: int) -> int:
    """Returns DF402 of a DF407."""
    time = least_of_10(code)
    return 0 if time is None else max(i for i in range(LAST_LOCK + 1) if least_of_4(i) <= time)


def coarse_strength(value: int) -> int:
    """Returns DF403 of a DF408; the least that isn't 0 is 1."""
    return min(max((value + 8) // FINER["strength"], 1), 63) if value else 0


def coarse(columns: Columns) -> Columns:
    """Returns the fields of MSM7's cells in the widths of MSM4 and MSM5."""
    made = {name: [coarse_fine(name, value) for value in columns[name]] for name in ("range", "phase")}
    made["lock"] = [coarse_lock(code) for code in columns["lock"]]
    made["strength"] = [coarse_strength(value) for value in columns["strength"]]
    return columns | made


def as_form(fields: Fields, form: int) -> Fields:
    """Returns an MSM7 as an MSM of this form, 4 to 7."""
    of_cells = coarse(fields.of_cells) if form in (4, 5) else fields.of_cells
    return replace(fields, number=fields.number - 7 + form, of_cells=of_cells)


def recoded(message: bytes, form: int) -> bytes:
    """Returns an MSM7 as the message of this form. Bits after the last field are left out."""
    return as_form(read_fields(Bits(message)), form).message()
