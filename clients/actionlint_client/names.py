"""The lists of names that the linter knows (names.json, by make_tables.py), and which names are like a wrong one."""
from __future__ import annotations

import difflib
import json
import re
from functools import lru_cache
from itertools import islice
from pathlib import Path
from typing import Iterable

TABLE = Path(__file__).parent / "names.json"
# Three fifths aren't enough: `main` would be like `matrix`.
LEAST_LIKENESS = 0.61
MAX_NAME_CHARACTERS = 100
# Of which only so many names, and in words so long, are compared by letters.
MAX_NAMES = 400
MAX_WORD_CHARACTERS = 40
SEPARATORS = re.compile(r"[-_. /]+")
DIGITS = re.compile(r"\d+")
# Words that turn the meaning of a name round.
OPPOSITES = {"ignore", "ignored", "ignores", "exclude", "excluded", "excludes", "skip", "without", "no", "not", "non", "never"}

# Of which names the argument of a fault should have been one.
LISTS = {"G1": "events", "G2": "activity types", "G12": "shells", "G13": "permission scopes", "G14": "permission values",
         "G19": "input types", "G20": "using", "K1": "keys", "X7": "contexts", "X9": "functions", "X13": "properties"}


@lru_cache(maxsize=None)
def names() -> dict[str, list[str]]:
    found: dict[str, list[str]] = json.loads(TABLE.read_text(encoding="utf-8"))
    return found


def near(wrong: str, known: Iterable[str]) -> list[str]:
    """The three names that are most like a wrong one, the nearest first. Dashes, `_` and case make no difference."""
    if len(wrong) > MAX_NAME_CHARACTERS:
        return []
    plain = {name.lower().replace("_", "-"): name for name in known if name != wrong}
    return [plain[name] for name in difflib.get_close_matches(wrong.lower().replace("_", "-"), plain, 3, LEAST_LIKENESS)]


def misspelled(wrong: str, known: Iterable[str]) -> str | None:
    """The only name that a wrong one can be a slip of: they differ in case, signs between words, a plural, or a letter or two of a word."""
    if len(wrong) > MAX_NAME_CHARACTERS:
        return None
    found = [name for name in islice(dict.fromkeys(known), MAX_NAMES) if name != wrong and _is_slip(wrong, name)]
    same = [name for name in found if _bare(name) == _bare(wrong)]
    return found[0] if len(found) == 1 else same[0] if len(same) == 1 else None


def likely(wrong: str, known: Iterable[str]) -> list[tuple[str, bool]]:
    """The names that may be meant by a wrong one, and whether it is a slip of that name alone. Then no other is likely."""
    names_ = list(islice(known, MAX_NAMES))
    meant = misspelled(wrong, names_)
    if meant is not None:
        return [(meant, True)]
    begun = [name for name in names_ if len(name) > 2 and SEPARATORS.search(wrong) is None and wrong.lower().startswith(name.lower())]
    found = begun or near(wrong, names_) or [name for name in names_ if _is_part(wrong, name) or _is_part(name, wrong)]
    return [(name, False) for name in found if name != wrong and _opposites(name) == _opposites(wrong)]


def _is_part(words: str, name: str) -> bool:
    """Whether a name has some words before or after others, whatever their case, or is a word that begins with another."""
    words, name = words.lower(), name.lower()
    if len(words) < 3 or words == name:
        return False
    if name.startswith(words):
        return SEPARATORS.match(name, len(words)) is not None or SEPARATORS.search(name) is None
    return name.endswith(words) and SEPARATORS.fullmatch(name[-len(words) - 1]) is not None


def short_forms(wrong: str, known: Iterable[str]) -> list[str]:
    """The name that is a short form of a wrong one, or the other way round: the first letters of its words, or consonants of it."""
    found = [name for name in islice(known, MAX_NAMES) if _is_short_form(name, wrong) or _is_short_form(wrong, name)]
    return found if len(found) == 1 else []


def _is_short_form(short: str, word: str) -> bool:
    if not 2 <= len(short) <= len(word) // 2 or len(word) > MAX_WORD_CHARACTERS or not short.isalpha():
        return False
    short, parts = short.lower(), SEPARATORS.split(word.lower())
    letters = iter(word.lower())
    is_of_consonants = short[0] == word[0].lower() and not set(short) & set("aeiou") and all(sign in letters for sign in short)
    return "".join(part[:1] for part in parts) == short or len(parts) == 1 and is_of_consonants


def _opposites(name: str) -> bool:
    """Whether a name has a word that turns its meaning round."""
    return not OPPOSITES.isdisjoint(SEPARATORS.split(name.lower()))


def _bare(name: str) -> str:
    return SEPARATORS.sub("", name.lower())


def _is_slip(wrong: str, name: str) -> bool:
    if _bare(wrong) == _bare(name):
        return True
    if DIGITS.findall(wrong) != DIGITS.findall(name):
        return False
    words, others = SEPARATORS.split(wrong.lower()), SEPARATORS.split(name.lower())
    if len(words) != len(others):
        return 1 in (len(words), len(others)) and " " not in wrong + name and _is_slip_of_word(_bare(wrong), _bare(name))
    orders = ((words, others), (sorted(words), sorted(others)))
    return any(all(_is_slip_of_word(word, other) for word, other in zip(*order)) for order in orders)


def _is_slip_of_word(word: str, other: str) -> bool:
    """Whether words are equal but for a plural or a few letters: two in a long word, one in a short one, though not for another letter in
    one of four, and for none in one of two."""
    short = min(len(word), len(other))
    if word == other or short > 2 and (word in (other + "s", other + "es") or other in (word + "s", word + "es")):
        return True
    if short < 3 or short > MAX_WORD_CHARACTERS:
        return False
    changed = difference(word, other, 2)
    return changed == 1 and (short > 4 or sorted(word) == sorted(other) or len(word) != len(other)) or changed == 2 and short >= 8


def difference(one: str, other: str, most: int) -> int:
    """How many letters are changed, inserted, deleted or swapped with the next one; `most` + 1 if they are more than `most`."""
    if abs(len(one) - len(other)) > most:
        return most + 1
    rows = [list(range(len(other) + 1))]
    for number, letter in enumerate(one, 1):
        row = [number]
        for column, sign in enumerate(other, 1):
            count = min(rows[-1][column] + 1, row[-1] + 1, rows[-1][column - 1] + (letter != sign))
            if number > 1 < column and letter == other[column - 2] and sign == one[number - 2]:
                count = min(count, rows[-2][column - 2] + 1)
            row.append(count)
        rows.append(row)
    return min(rows[-1][-1], most + 1)
