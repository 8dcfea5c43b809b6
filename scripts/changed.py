"""What ./dev weaken and ./dev numbers share: edits of a copy, and work on several copies at once."""
import os
import re
import shutil
import sys
import tempfile
from concurrent.futures import ThreadPoolExecutor

TOP = os.path.dirname(os.path.dirname(os.path.realpath(__file__)))


def edited(root, edits):
    """Makes the edits below crates/, each a file, what stands there, what is to stand there, and how often it stands there where
    that is not once; and answers what was there."""
    before = {}
    for path, old, new, *times in edits:
        path = os.path.join(root, "crates", path)
        with open(path) as f:
            text = f.read()
        # the indentation before the first word is not matched, and stays
        new = new.removeprefix(re.match(r"\s*", old).group())
        # a line may be broken anywhere
        pattern = r"\s+".join(re.escape(part) for part in old.split()).replace(r"\s+\}", r";?\s*\}")
        if len(re.findall(pattern, text)) != (times or [1])[0]:
            sys.exit(f"{path}: this stands {len(re.findall(pattern, text))} times: {old}")
        before.setdefault(path, text)
        with open(path, "w") as f:
            f.write(re.sub(pattern + (r"\n" if old.endswith("\n") else ""), lambda found: new, text))
    return before


def restored(before):
    """Puts back what was there."""
    for path, old in before.items():
        with open(path, "w") as f:
            f.write(old)


def apply_all(copied, changes, word):
    """Whether each list of edits applies to the sources as they are: this proves nothing."""
    root = tempfile.mkdtemp(prefix="changed.")
    try:
        copied(root)
        for edits in changes:
            restored(edited(root, edits))
    finally:
        shutil.rmtree(root)
    print(f"each of the {len(changes)} {word} applies\n1 passed, 0 failed")
    return 0


def in_copies(chosen, tried):
    """Tries what is chosen by parts at once, one for each two cores: a check keeps one busy, and the second for a part of the
    time. `tried` answers a list for its part, or a text where it can't."""
    copies = max(1, min(len(chosen), len(os.sched_getaffinity(0)) // 2))
    with ThreadPoolExecutor(copies) as pool:
        parts = list(pool.map(lambda k: tried(chosen[k::copies]), range(copies)))
    for part in parts:
        if isinstance(part, str):
            sys.exit(part)
    return [one for part in parts for one in part]
