"""Whether `passkey explain` tells the same as the inspector of the cases that told.mjs prints: program.py FILE PROGRAM. The program verifies
no signature: what it asks for is verified here, and the case is told anew with the answer. The last line is 'N passed, M failed'."""
import json
import subprocess
import sys
import tempfile
from pathlib import Path

from garvoeng.forms import from_text
from garvoeng.signatures import is_valid

STATUS = {"accepted": 0, "refused": 1, "not judged": 2}
# JSON that nests deeper than the program reads.
TOO_DEEP = "deep results of extensions"
MEMBERS = ("number", "code", "name", "standard", "asks", "state", "refusal", "when", "advice", "bytes")
passed = failed = 0
room = Path(tempfile.mkdtemp())


def told_of(case):
    """What the program tells of a case, and its status."""
    (room / "case.json").write_text(json.dumps(case), encoding="utf-8")
    ran = subprocess.run([sys.argv[2], "explain", "--json", room / "case.json"], stdout=subprocess.PIPE, stderr=subprocess.PIPE, check=False)
    return (json.loads(ran.stdout) if ran.stdout else None), ran.returncode, ran.stderr.decode()


def ordered(said):
    """A line of a step. The program writes an object's members by their names, the others in the order of the response."""
    is_object = said["of"].startswith("the client data's") and said["text"].startswith("{")
    return {**said, "text": json.loads(said["text"])} if is_object else said


def rows(told):
    return [[[ordered(one) for one in step[name]] if name == "bytes" else step[name] for name in MEMBERS] for step in told["steps"]]


def difference(case, wanted):
    """What differs; nothing where the same is told."""
    told, status, _ = told_of(case)
    if told["signature"] is not None:
        if (told["verdict"], status) != ("not judged", 2) or "not judged" not in [step["state"] for step in told["steps"]]:
            return "a signature that is asked for, of a case that is judged"
        asked = {name: from_text(value, name) for name, value in told["signature"].items() if name != "algorithm"}
        told, status, _ = told_of({**case, "signature_verified": is_valid(told["signature"]["algorithm"], **asked)})
    for name in ("kind", "verdict", "refusal", "credential", "decoded"):
        if told[name] != wanted[name]:
            return name, told[name], wanted[name]
    if (told["fault"] is None) != (wanted["fault"] is None) or told["signature"] is not None or status != STATUS[wanted["verdict"]]:
        return told["fault"], wanted["fault"], status
    return None if rows(told) == rows(wanted) else "steps"


for line in Path(sys.argv[1]).read_text(encoding="utf-8").splitlines():
    case = json.loads(line)
    if case["what"] == TOO_DEEP:
        found = None if told_of(case["input"]) == (None, 2, "the case nests too deep\n") else "it is read"
    else:
        found = difference(case["input"], case["told"])
    if found is None:
        passed += 1
    else:
        failed += 1
        print(f"FAILED: {case['what']}: {found}")
print(f"{passed} passed, {failed} failed")
sys.exit(failed != 0)
