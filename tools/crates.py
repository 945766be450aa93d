"""The crates of crates.txt, each with the libraries that it names."""


def crates_of(top):
    """The libraries that each crate names, in the order of crates.txt."""
    lines = [it.partition(":") for it in (top / "crates.txt").read_text().splitlines() if not it.startswith("#")]
    return {it[0].split()[0]: it[2].split() for it in lines if it[1]}


def with_below(named, crate):
    """A crate and the repository's crates that it depends on."""
    found, left = [], [crate]
    while left:
        one = left.pop()
        if one in named and one not in found:
            found.append(one)
            left += named[one]
    return sorted(found)


def write_list(file, named, crates):
    """Writes a crates.txt with some of the crates."""
    file.write_text("".join(f"{it}: {' '.join(named[it])}\n" for it in crates))
