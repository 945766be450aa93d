"""When each crate is proved, by the seconds in proof_seconds.txt and the number of processors."""

import re

from crates import crates_of

# a crate, and the seconds of its proof, of its tests and of its must-fail edits
ROW = re.compile(r"^(\w+): (\d+)\b", re.MULTILINE)
UNKNOWN_SECONDS = 100


def seconds_of(top):
    """The seconds that the proof of each crate took, as far as they are noted."""
    noted = top / "tools/proof_seconds.txt"
    rows = ROW.findall(noted.read_text(encoding="utf-8")) if noted.is_file() else []
    return {crate: int(seconds) for crate, seconds in rows}


def schedule(top, crates, processors):
    """The second at which each of these crates is proved. A crate starts once those below it are proved; of those that can start, the one
    with the longest chain above it goes first, as in `rt ci`."""
    named, known = crates_of(top), seconds_of(top)
    below = {it: [name for name in named[it] if name in crates] for it in crates}
    seconds = {it: known.get(it, UNKNOWN_SECONDS) for it in crates}
    chain = {}

    def longest(crate):
        if crate not in chain:
            chain[crate] = seconds[crate] + max((longest(it) for it in crates if crate in below[it]), default=0)
        return chain[crate]

    ends, free = {}, [0] * processors
    waiting = sorted(crates, key=longest, reverse=True)
    while waiting:
        lane = min(range(processors), key=free.__getitem__)
        begins = {it: max([free[lane], *(ends[name] for name in below[it])]) for it in waiting if all(name in ends for name in below[it])}
        crate = min(begins, key=begins.get)
        waiting.remove(crate)
        ends[crate] = free[lane] = begins[crate] + seconds[crate]
    return ends
