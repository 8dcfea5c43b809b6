"""The lists of crates: crates.txt, and that of the crates of tests."""
from pathlib import Path

TOP = Path(__file__).resolve().parent.parent


def crates(file="crates.txt"):
    """The crates that a file lists and what each stands on, in its order."""
    found = {}
    for line in (TOP / file).read_text().splitlines():
        if line.strip() and not line.startswith("#"):
            name, _, below = line.partition(":")
            found[name.split()[0]] = below.split()
    return found
