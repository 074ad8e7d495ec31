"""The crates of this repository, and what each stands on.

Run by itself it lists how many paths lead from each crate down to the crates below it, itself counted: `rt` of an older kit than
`rattle-kit-13f` takes a sum of sources once for each, so that many paths make every check of a crate near the top slow."""
import os

ROOT = os.path.dirname(os.path.dirname(os.path.realpath(__file__)))
PARTS = ("src", "specs", "proofs")


def folder(crate):
    return f"{ROOT}/crates/{crate}"


def is_program(crate):
    return os.path.isfile(f"{folder(crate)}/src/main.rt")


def rows():
    """The rows of crates.txt, by the names of their crates."""
    with open(f"{ROOT}/crates.txt", encoding="utf-8") as text:
        return {it.partition(":")[0].strip(): it for it in text if ":" in it.partition("#")[0]}


def libraries_of(row):
    """The names of the libraries that a row lists, those of the toolchain among them."""
    return row.partition("#")[0].partition(":")[2].split()


def rows_below(crate):
    """The rows of a crate and of those of the repository that it stands on, all the way down."""
    known, found, left = rows(), {}, [crate]
    while left:
        name = left.pop()
        if name in known and name not in found:
            found[name] = known[name]
            left += libraries_of(known[name])
    return found


def paths():
    """How many paths lead from each crate to those below it and to itself."""
    known, found = rows(), {}

    def count(crate):
        if crate not in found:
            found[crate] = 1 + sum(count(it) for it in libraries_of(known[crate]) if it in known)
        return found[crate]

    return {it: count(it) for it in known}


if __name__ == "__main__":
    for crate, count in sorted(paths().items(), key=lambda it: it[1]):
        print(f"{count:8,} {crate}")
