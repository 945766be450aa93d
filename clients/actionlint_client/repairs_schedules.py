"""Repairs of schedules."""
from __future__ import annotations

import re
from typing import Callable, Iterable

from .repair import Case, Repair, quoted

PRESETS = {"@hourly": "0 * * * *", "@daily": "0 0 * * *", "@midnight": "0 0 * * *", "@weekly": "0 0 * * 0", "@monthly": "0 0 1 * *",
           "@yearly": "0 0 1 1 *", "@annually": "0 0 1 1 *"}
WORD_OF_CRON = re.compile(r"[A-Za-z]{3,}")
DAYS = {day[:2]: day for day in ("SUN", "MON", "TUE", "WED", "THU", "FRI", "SAT")}
TIME_OF_DAY = re.compile(r"^(\d{1,2}):(\d{2})(?=(?: [\w*/,-]+){3}$|$)")
TO_SUNDAY = re.compile(r"^(\w+)-(7|SUN)$")
HOUR_OF_HALF = re.compile(r"\b(\d{1,2})([ap]m)\b", re.I)
OF_ONE_VALUE = re.compile(r"(?<!\w)(\w+)-\1(?!\w)")
GREATEST = (59, 23, 31, 12, 6)
OVER_THE_END = re.compile(r"^(\d{1,2})-(\d{1,2})$")
MAX_SCHEDULE_CHARACTERS = 200


def schedule(case: Case) -> Iterable[Repair]:
    """A schedule with five fields, each value within its bounds."""
    here = case.value
    if here is None or len(here.value.value) > MAX_SCHEDULE_CHARACTERS:
        return
    written = here.value.value.strip()
    without_commas = re.sub(r", +", " ", written) if written.count(", ") == 4 else written
    text = TIME_OF_DAY.sub(lambda match: f"{int(match[2])} {int(match[1])}", without_commas)
    fields = [HOUR_OF_HALF.sub(_of_day, "*" * field.startswith("/") + field) for field in PRESETS.get(text, text).replace("?", "*").split()]
    if len(fields) == 6:
        without = [("delete the seconds", fields[1:]), ("delete the year", fields[:5])]
        is_daily = fields[1].isdigit() and fields[2] == "*"
        has_year = (is_daily or fields[0] not in ("0", "00", "*")) and re.fullmatch(r"\*|\d{4}.*", fields[5])
        for title, left in reversed(without) if has_year else without:
            yield case.replace(title, quoted(" ".join(left)), here.value.span, deletes=True)
    if not 4 <= len(fields) <= 5 or not any(sign.isdigit() or sign == "*" for sign in text) and text not in PRESETS:
        return
    fields += ["*"] * (5 - len(fields))
    fields = [WORD_OF_CRON.sub(lambda match: match[0][:3].upper(), field) for field in fields]
    fields[4] = WORD_OF_CRON.sub(lambda match: DAYS.get(match[0][:2], match[0]), fields[4])
    fields[4] = TO_SUNDAY.sub(_to_sunday, fields[4])
    changed = " ".join(_over_the_end(_bounded(field, most), place) for place, (field, most) in enumerate(zip(fields, GREATEST)))
    if any(OF_ONE_VALUE.search(field) for field in changed.split()):
        return
    is_same = text in PRESETS or WORD_OF_CRON.sub(lambda match: match[0][:3].upper(), written) == changed
    yield case.replace(f'change to "{changed}"', quoted(changed), here.value.span, is_safe=is_same)


def _to_sunday(match: re.Match[str]) -> str:
    """The days up to Sunday, which is the first day of a week: all of them, or those up to Saturday and Sunday."""
    first, saturday, sunday = match[1], *(("6", "0") if match[2] == "7" else ("SAT", "SUN"))
    if first in ("0", "1", "SUN", "MON"):
        return "*"
    return f"{first},{sunday}" if first == saturday else f"{first}-{saturday},{sunday}"


def _over_the_end(field: str, place: int) -> str:
    """A range that goes on at the least value after the greatest one, as two."""
    match = OVER_THE_END.match(field)
    if match is None or int(match[1]) <= int(match[2]) or int(match[1]) > GREATEST[place]:
        return field
    least = 1 if place in (2, 3) else 0
    ranges = ((int(match[1]), GREATEST[place]), (least, int(match[2])))
    return ",".join(f"{first}-{last}" if first != last else str(first) for first, last in ranges)


def _of_day(match: re.Match[str]) -> str:
    """The hour of a day that has two halves."""
    return str(int(match[1]) % 12 + (12 if match[2].lower() == "pm" else 0))


def _bounded(field: str, most: int) -> str:
    """A field in which the value after the greatest one, such as the hour 24, is 0, and a step is from 1 up to the greatest value."""

    def bounded(match: re.Match[str]) -> str:
        value = int(match[0])
        if match.start() and field[match.start() - 1] == "/":
            return str(min(max(value, 1), most))
        return "0" if value == most + 1 else str(match[0])
    return re.sub(r"\d+", bounded, field)


def seldom_enough(case: Case) -> Iterable[Repair]:
    """The minute 0 of each hour that is named, or every five minutes."""
    here = case.value
    fields = here.value.value.split() if here else []
    if here and len(fields) == 5 and fields[0] == "*" and fields[1] != "*":
        changed = " ".join(["0", *fields[1:]])
        yield case.replace("run it at the full hour", quoted(changed), here.value.span)
    if here and len(fields) == 5:
        changed = " ".join(["*/5", *fields[1:]])
        yield case.replace("run it every 5 minutes", quoted(changed), here.value.span)


REPAIRS: dict[str, tuple[Callable[[Case], Iterable[Repair]], ...]] = {
    "G4": (schedule,),
    "G5": (seldom_enough,),
}
