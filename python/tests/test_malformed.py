"""The malformed responses of tests/crates/site_tests/malformed.rt.txt, from Python: each is refused by the step that the
line says, as by C and by Rattle."""
import itertools
import os
from pathlib import Path

import pytest

from garvoeng import EDDSA, ES256, Credential, Refused, RegistrationSession, Server, SignInSession

FILE = Path(os.environ.get("MALFORMED", Path(__file__).parents[2] / "tests/crates/site_tests/malformed.rt.txt"))
TABLE = FILE.read_text().split('r#"')[1].split('"#')[0]
LINES = [line.split("|") for line in TABLE.splitlines()]
CHALLENGE = bytes(7) + b"\x01" + bytes(24)
X, Y = b"\x11" * 32, b"\x33" * 32


def word_bytes(word):
    digits, _, count = word.partition("*")
    return bytes.fromhex(digits) * int(count or 1)


def parts_of(kind):
    parts = {}
    for own, name, how, rest in LINES:
        if own == kind and how == "is":
            made = rest[1:].encode() if rest.startswith("'") else b"".join(map(word_bytes, rest.split()))
            parts[name] = parts.get(name, b"") + made
    return parts


def changed(data, how, index):
    if how == "cut":
        return data[:index]
    return data[:index] + bytes([data[index] ^ int(how, 16)]) + data[index + 1:]


def answer(kind, parts, accepted):
    """The number of the step that refuses the response, 0 for none. One signature is valid, of one message."""
    def verify(algorithm, x, y, message, signature):
        return (algorithm, x, y, message, signature) == (ES256, X, Y, accepted["message"], accepted["verified"])

    server = Server("abc", ["https://abc"], profile="strict", verify=verify)
    try:
        if kind == "sign-in":
            stored = Credential(b"\x0a", b"\x01", ES256, X, Y, 0, None)
            server.authenticate_complete_parts(
                SignInSession(CHALLENGE, b"\x01"), stored if parts["credential"] == stored.id else None, parts["credential"],
                parts["user"], parts["auth_data"], parts["signature"], parts["client_data"])
        else:
            server.register_complete_parts(RegistrationSession(CHALLENGE, b"\x01", False, (ES256, EDDSA)), parts["object"],
                                           parts["client_data"], raw_id=b"\x0a\x0b", is_registered=False)
    except Refused as refused:
        return refused.number
    return 0


@pytest.mark.parametrize("line", [line for line in LINES if line[2] != "is"], ids=lambda line: "-".join(line[:3]))
def test_malformed(line):
    kind, name, how, answers = line
    accepted = parts_of(kind)
    assert answer(kind, accepted, accepted) == 0
    found = [answer(kind, {**accepted, name: changed(accepted[name], how, index)}, accepted) for index in range(len(accepted[name]))]
    told = [f"{number}*{count}" if count > 1 else str(number) for number, count in
            ((number, len(list(run))) for number, run in itertools.groupby(found))]
    assert told == answers.split()


def test_there_are_enough():
    assert sum(len(parts_of(kind)[name]) for kind, name, how, _ in LINES if how != "is") == 2103
