"""The crates of tests of tests/crates, as parts of them are compiled: the modules that hold tests, and those that these name."""
import re
from pathlib import Path

CRATES = Path(__file__).resolve().parents[1] / "crates"
OURS = CRATES.parents[1] / "crates"


def listed():
    """The crates of tests by their names, and what each stands on."""
    lines = [line for line in (CRATES / "list.txt").read_text().splitlines() if line and not line.startswith("#")]
    return {name: below.split() for name, _, below in (line.partition(":") for line in lines)}


def module_names(tests):
    """The modules of a crate of tests, but for its root."""
    return sorted(file.name.removesuffix(".rt.txt") for file in (CRATES / tests).glob("*.rt.txt") if file.name != "tests.rt.txt")


def without_tests(text, but=None):
    """The source without its tests, but for the one of this name."""
    return re.sub(r"(?ms)^(?:///[^\n]*\n)*#\[test\]\nfn (\w+).*?^}\n", lambda test: test[0] if test[1] == but else "", text)


def named_by(tests, texts):
    """The texts of these modules and of those that they name, which have no tests then, by their names."""
    found, waiting = dict(texts), list(texts.values())
    while waiting:
        text = waiting.pop()
        named = re.findall(r"super::(\w+)", text) + re.findall(r"\w+", " ".join(re.findall(r"use super::\{([^}]*)\}", text)))
        for name in set(named) - found.keys():
            file = CRATES / tests / f"{name}.rt.txt"
            if file.exists():
                found[name] = without_tests(file.read_text())
                waiting.append(found[name])
    return found


def write_crate(crate, of):
    """Writes a crate of these texts by crates of tests and modules, and gives the crates that they use, with those of the kit, of which one
    may stand on another."""
    used = set()
    (crate / "src").mkdir(parents=True)
    roots = "".join(f"\n#[cfg(test)]\nmod {tests};\n" for tests in of)
    (crate / "src" / "lib.rt").write_text(f"//! Tests.\n#![tactic(auto)]\n{roots}")
    for tests, texts in of.items():
        (crate / "src" / tests).mkdir()
        (crate / "src" / f"{tests}.rt").write_text("//! Tests.\n\n" + "".join(f"mod {name};\n" for name in sorted(texts)))
        for name, text in texts.items():
            (crate / "src" / tests / f"{name}.rt").write_text(text)
        used |= {name for name in listed()[tests] if not (OURS / name).is_dir() or any(re.search(rf"\b{name}(::|;)", text) for text in texts.values())}
    return sorted(used)
