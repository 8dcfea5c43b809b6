"""Whether `garvoeng.explain` tells the same as the inspector of the cases that told.mjs prints: told.py FILE. The last line is 'N passed, M
failed'."""
import json
import sys
from pathlib import Path

from garvoeng.explain import explain

passed = failed = 0


def differences(found, wanted, at=""):
    """Where two values of JSON differ."""
    if isinstance(found, dict) and isinstance(wanted, dict):
        for name in {**found, **wanted}:
            yield from differences(found.get(name, "missing"), wanted.get(name, "missing"), f"{at}.{name}")
    elif isinstance(found, list) and isinstance(wanted, list) and len(found) == len(wanted):
        for index, (one, other) in enumerate(zip(found, wanted)):
            yield from differences(one, other, f"{at}[{index}]")
    elif found != wanted or type(found) is not type(wanted):
        yield at, found, wanted


for line in Path(sys.argv[1]).read_text(encoding="utf-8").splitlines():
    case = json.loads(line)
    told, wanted = explain(case["input"]), case["told"]
    if wanted["fault"] is not None:
        # Each language has words of its own for what is no input.
        told["fault"] = told["fault"] and wanted["fault"]
    different = list(differences(told, wanted))
    if different:
        failed += 1
        print(f"FAILED: {case['what']}: {different[:3]}")
    else:
        passed += 1
print(f"{passed} passed, {failed} failed")
sys.exit(failed != 0)
