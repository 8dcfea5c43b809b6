"""c/passkey.h beside this package: each step has the same number and name."""
import os
import re
from pathlib import Path

from garvoeng import errors, library

HEADER = Path(os.environ.get("HEADER", Path(__file__).parents[2] / "c" / "passkey.h"))


def steps(kind, front):
    """The names of a kind of steps in the header, in the order of their numbers."""
    part = HEADER.read_text().split(f"/* of a {kind} */")[1].split("\n\n")[0]
    found = re.findall(rf"\bPASSKEY_{front}([A-Z_]+) = ([0-9]+),", part)
    assert [int(number) for _, number in found] == list(range(1, len(found) + 1)) and len(found) >= 18
    return tuple("".join(word.capitalize() for word in name.split("_")) for name, _ in found)


def test_steps():
    assert steps("sign-in", "") == errors.SIGN_IN_STEPS
    named = steps("registration", "REGISTRATION_")
    assert named[15] == "NoRoom" and named[:15] + ("TableFull",) + named[16:] == errors.REGISTRATION_STEPS


LIMITS = {
    "RP_ID": "the rp id is not UTF-8",
    "ORIGIN": "an origin is not UTF-8",
    "CHALLENGE": "the challenge is not of 32 bytes",
    "KEY_ALGORITHM": "the algorithm of the credential's key is not known",
    "KEY_X": "the x of the credential's key is out of its limits",
    "KEY_Y": "the y of the credential's key is out of its limits",
    "VERIFIED_ALGORITHM": "the algorithm of the verified key is not known",
    "VERIFIED_X": "the x of the verified key is out of its limits",
    "VERIFIED_Y": "the y of the verified key is out of its limits",
    "MESSAGE_ROOM": "the room for the message is too small",
    "SIGNATURE_ROOM": "the room for the signature is too small",
    "PROFILE": "the profile is not known",
    "TOP_ORIGIN": "a top origin is not UTF-8",
}


def test_numbers():
    text = HEADER.read_text()
    limits = {name: library.refusal_text(False, int(number)) for name, number in re.findall(r"PASSKEY_LIMIT_([A-Z_]+) = ([0-9]+),", text)}
    assert limits == LIMITS
    algorithms = dict(re.findall(r"#define PASSKEY_([A-Z]+[0-9]*) \((-[0-9]+)\)", text))
    assert algorithms == {"ES256": str(library.ES256), "EDDSA": str(library.EDDSA), "RS256": str(library.RS256)}
    assert f"#define PASSKEY_ABI_VERSION {library.ABI_VERSION}\n" in text
    assert all(re.search(rf"\bPASSKEY_PROFILE_{name.upper()} = {number}\b", text) for number, name in enumerate(library.PROFILES))
    assert "PASSKEY_ACCEPTED = 0," in text and "PASSKEY_NO_MEMORY = 127\n" in text
