"""`Credential`, `KeptCredential`, `Registered` and `SignedIn` as JSON and back, and hostile JSON in their place. js/tests/values.test.mjs has
the same texts."""
import json
from collections import UserDict

import pytest

from garvoeng import BadInput, Credential, KeptCredential, Registered, SignedIn

ES = Credential(b"id", b"user", -7, bytes(32), bytes(range(32)), 7, None, True, ("usb", "nfc"))
ED = Credential(bytes(1023), bytes(64), -8, bytes(32), b"", 2**32 - 1, False)
RSA = Credential(b"\0", b"\0", -257, bytes(256), b"\1\0\1", 0, True)
KEPT = KeptCredential(**vars(ES), aaguid=bytes(16), backed_up=True, created_at=1, used_at=2)
VALUES = [
    ES, ED, RSA, KEPT, KeptCredential(**vars(ED)), Registered(ES, bytes(16), "packed", True, False, 255, b"\xa0"),
    Registered(RSA, bytes(16), "none", False, True, 0, b""), SignedIn(ES, ED, True, False, 1, b""), SignedIn(RSA, None, False, True, 29, b"\xa0"),
]
TEXT = ('{"credential": {"id": "aWQ", "user": "dXNlcg", "algorithm": -8, "x": "%s", "y": "", "sign_count": 1, "eligible": null, "retired": false, '
        '"transports": ["usb"]}, "before": null, "user_verified": true, "backed_up": false, "flags": 5, "extensions": ""}' % ("A" * 43))
"""A sign-in, as both languages write it."""
HOSTILE = [None, 7, -1, 1.5, 2**63, "", "A", "AA==", "\u00e9", "required", [], [None], ["A"], {}, {"x": 1}, True, False, [True], "x" * 70_000, "[", {"__proto__": 1}]


@pytest.mark.parametrize("value", VALUES, ids=range(len(VALUES)))
def test_there_and_back(value):
    kind, said = type(value), value.to_json()
    for form in (said, json.dumps(said), UserDict(said), {**said, "more": 1, "__proto__": {}}):
        read = kind.from_json(form)
        assert read == value and type(read) is kind
    assert json.loads(json.dumps(said)) == said


def test_the_words():
    """Those of JavaScript."""
    read = SignedIn.from_json(TEXT)
    assert read == SignedIn(Credential(b"id", b"user", -8, bytes(32), b"", 1, None, False, ("usb",)), None, False, True, 5, b"")
    assert read.to_json() == json.loads(TEXT)
    assert set(KEPT.to_json()) - set(ES.to_json()) == {"aaguid", "backed_up", "created_at", "used_at"}
    assert set(VALUES[5].to_json()) == {"credential", "aaguid", "format", "user_verified", "backed_up", "flags", "extensions"}


@pytest.mark.parametrize("value", VALUES, ids=range(len(VALUES)))
def test_hostile_json(value):
    """Each member of another kind, or left out, is refused, or is the value that it says."""
    kind, said, taken = type(value), value.to_json(), 0
    for name in said:
        with pytest.raises(BadInput):
            kind.from_json({key: one for key, one in said.items() if key != name})
        for hostile in HOSTILE:
            form = {**said, name: hostile}
            try:
                read = kind.from_json(form)
            except BadInput as error:
                assert str(error)
                continue
            taken += 1
            assert read.to_json() == form
    assert taken <= 2 * len(said) + 6
    for whole in ("", "{", "[]", "null", "7", None, 7, [], {}, b"{}", "[" * 100_000, '{"a":' * 100_000, object()):
        with pytest.raises(BadInput):
            kind.from_json(whole)


@pytest.mark.parametrize("name, value", [
    ("id", ""), ("id", "A" * 1368), ("user", ""), ("user", "A" * 88), ("x", "A" * 42), ("x", "A" * 44), ("y", ""), ("y", "A" * 44), ("algorithm", -9), ("algorithm", -7.0),
    ("algorithm", True), ("sign_count", 2**32), ("sign_count", True), ("sign_count", "7"), ("eligible", 0), ("retired", None), ("retired", 0),
    ("transports", "usb"), ("transports", None), ("transports", ["USB"]), ("transports", ["usb"] * 17), ("transports", {"usb": 1}), ("transports", ["a,b"])])
def test_members_out_of_their_limits(name, value):
    for kind, whole in ((Credential, ES), (KeptCredential, KEPT)):
        with pytest.raises(BadInput):
            kind.from_json({**whole.to_json(), name: value})


@pytest.mark.parametrize("name, value", [
    ("aaguid", "AAAA"), ("aaguid", None), ("format", "fido-u2f"), ("format", None), ("format", ["none"]), ("flags", 256), ("flags", -1), ("flags", True), ("flags", 1.0),
    ("user_verified", 1), ("backed_up", None), ("extensions", None), ("credential", None), ("credential", json.dumps(ES.to_json()))])
def test_registrations_out_of_their_limits(name, value):
    with pytest.raises(BadInput):
        Registered.from_json({**VALUES[5].to_json(), name: value})


def test_one_for_another():
    """None is read as another, and what is within is of its kind."""
    for value in VALUES:
        for kind in (Credential, KeptCredential, Registered, SignedIn):
            if kind is type(value) or (kind is Credential and isinstance(value, Credential)):
                continue
            with pytest.raises(BadInput):
                kind.from_json(value.to_json())
    for form in ({**VALUES[7].to_json(), "before": "x"}, {**VALUES[7].to_json(), "before": []}, {**VALUES[7].to_json(), "before": {}}):
        with pytest.raises(BadInput):
            SignedIn.from_json(form)
    assert type(Credential.from_json(KEPT.to_json())) is Credential
