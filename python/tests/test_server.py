"""Registrations and sign-ins by `Server`: accepted, and refused at each step."""
import asyncio
import pickle
import random
from dataclasses import FrozenInstanceError, replace
from hashlib import sha256

import pytest
from device import AT, BE, BS, ED, UP, UV, Device, changed

from garvoeng import (EDDSA, ES256, RS256, BadInput, Credential, Refused, Registered, RegistrationSession, RowDamaged, Server, SignedIn,
                      SignInSession, _passkey, is_canonical, library, signatures)
from garvoeng.forms import to_text

USER = b"account 7"


class OpenServer(Server):
    """In the open profile, which looks at each step of Level 2; test_level3.py has that of Level 3."""

    def __init__(self, *words, **how):
        super().__init__(*words, **{"profile": "open", **how})


def free(_id):
    return False


@pytest.fixture
def server():
    return OpenServer("example.com", ["https://example.com"])


def told(server, device, **more):
    options, session = server.register_begin(USER, "name")
    return server.register_complete(session, device.register(options, **more), is_registered=free)


def registered(server, device, **more):
    return told(server, device, **more).credential


def refusal(call):
    with pytest.raises(Refused) as caught:
        call()
    assert str(caught.value).startswith(caught.value.name + " " + caught.value.step + ": ")
    return caught.value.name


@pytest.mark.parametrize("algorithm", [ES256, EDDSA, RS256])
@pytest.mark.parametrize("packed", [False, True])
def test_registration_and_sign_ins(server, algorithm, packed):
    device = Device(algorithm)
    credential = registered(server, device, packed=packed)
    assert credential == Credential(device.id, USER, algorithm, device.x, device.y, 0, False)
    for count in (1, 2, 3):
        options, session = server.authenticate_begin(user=USER, allow=[credential.id], user_verification=True)
        signed_in = server.authenticate_complete(session, device.sign_in(options), credential={device.id: credential}.get)
        assert signed_in.before == credential
        credential = signed_in.credential
        assert credential.sign_count == count and not signed_in.backed_up


@pytest.mark.parametrize("bits, exponent", [(2048, 3), (3072, 65537), (4096, 65537)])
def test_rsa_sizes(server, bits, exponent):
    device = Device(RS256, bits=bits, exponent=exponent)
    credential = registered(server, device, packed=True)
    assert (len(credential.x), int.from_bytes(credential.y, "big")) == (bits // 8, exponent)
    options, session = server.authenticate_begin(user=USER, allow=[credential.id])
    response = device.sign_in(options)
    find = {device.id: credential}.get
    bad = changed(response, "signature", lambda signature: signature[:-1] + bytes([signature[-1] ^ 1]))
    assert refusal(lambda: server.authenticate_complete(session, bad, credential=find)) == "W14"
    assert server.authenticate_complete(session, response, credential=find).credential.sign_count == 1


def test_rsa_signature_under_another_key(server):
    device = Device(RS256)
    for key in (Device(ES256), Device(EDDSA), Device(RS256, exponent=3)):
        credential = Credential(device.id, USER, key.algorithm, key.x, key.y, 0, False)
        options, session = server.authenticate_begin(user=USER)
        response = device.sign_in(options)
        assert refusal(lambda: server.authenticate_complete(session, response, credential={device.id: credential}.get)) == "W14"


@pytest.mark.parametrize("change", [
    lambda device: setattr(device, "x", b"\0" + device.x), lambda device: setattr(device, "x", device.x[:-1]),
    lambda device: setattr(device, "x", device.x[:-1] + bytes([device.x[-1] ^ 1])), lambda device: setattr(device, "y", b"\1"),
    lambda device: setattr(device, "y", b"\2"), lambda device: setattr(device, "y", b"\0" + device.y),
    lambda device: setattr(device, "y", b"\1\0\0\0\1")])
def test_rsa_keys_that_are_none(server, change):
    device = Device(RS256)
    change(device)
    assert refusal(lambda: registered(server, device)) == "G7"


CRED_PROTECT = b"\xa1\x6bcredProtect\x02"


@pytest.mark.parametrize("packed", [False, True])
@pytest.mark.parametrize("size", [22, 65, 300, 1023])
def test_open_profile(packed, size):
    strict = OpenServer("example.com", ["https://example.com"], profile="strict")
    server = OpenServer("example.com", ["https://example.com"], profile="open")
    device = Device(credential=bytes(range(1, 94)) * 11 if size == 1023 else bytes(size))
    assert len(device.id) == size
    made = {"flags": UP | UV | AT | ED, "packed": packed, "outputs": CRED_PROTECT}
    assert refusal(lambda: registered(strict, device, **made)) == "G7"
    credential = registered(server, device, **made)
    options, session = server.authenticate_begin(user=USER, allow=[credential.id])
    response = device.sign_in(options, flags=UP | ED, outputs=CRED_PROTECT)
    find = {device.id: credential}.get
    assert refusal(lambda: strict.authenticate_complete(session, response, credential=find)) == "W10"
    cut = changed(response, "authenticatorData", lambda data: data[:-1])
    assert refusal(lambda: server.authenticate_complete(session, cut, credential=find)) == "W10"
    other = changed(response, "authenticatorData", lambda data: data[:-1] + b"\x03")
    assert refusal(lambda: server.authenticate_complete(session, other, credential=find)) == "W14"
    assert server.authenticate_complete(session, response, credential=find).credential.sign_count == 1


def test_what_a_registration_says(server):
    device = Device()
    for flags in range(256):
        packed = flags % 2 == 0
        flags |= UP | AT
        if flags & BS and not flags & BE:
            continue
        outputs = CRED_PROTECT if flags & ED else b""
        made = told(server, device, flags=flags, packed=packed, outputs=outputs)
        assert made == Registered(Credential(device.id, USER, ES256, device.x, device.y, 0, bool(flags & BE)), device.aaguid,
                                  "packed" if packed else "none", bool(flags & UV), bool(flags & BS), flags, outputs)


def test_what_a_sign_in_says(server):
    device = Device()
    credential = registered(server, device)
    for flags in range(256):
        flags = (flags | UP) & ~AT
        if flags & BS and not flags & BE:
            continue
        outputs = CRED_PROTECT if flags & ED else b""
        options, session = server.authenticate_begin(user=USER)
        stored = replace(credential, eligible=None)
        said = server.authenticate_complete(session, device.sign_in(options, flags=flags, outputs=outputs),
                                            credential={device.id: stored}.get)
        now = replace(credential, sign_count=device.count, eligible=bool(flags & BE))
        assert said == SignedIn(now, stored, bool(flags & BS), bool(flags & UV), flags, outputs)


@pytest.mark.parametrize("count", [2**31 - 1, 2**31, 2**32 - 2, 2**32 - 1])
def test_counters_of_32_bits(server, count):
    device = Device()
    options, session = server.register_begin(USER, "name")
    front = sha256(b"example.com").digest() + bytes([UP | UV | AT])
    made = changed(device.register(options), "attestationObject",
                   lambda value: value.replace(front + bytes(4), front + (count - 1).to_bytes(4, "big")))
    credential = server.register_complete(session, made, is_registered=free).credential
    assert credential.sign_count == count - 1
    device.count = count - 1
    options, session = server.authenticate_begin(user=USER)
    response = device.sign_in(options)
    assert server.authenticate_complete(session, response, credential={device.id: credential}.get).credential.sign_count == count
    for stored, name in ((count, "W15"), (count - 1, None), (min(count + 1, 2**32 - 1), "W15")):
        find = {device.id: replace(credential, sign_count=stored)}.get
        assert (refusal(lambda: server.authenticate_complete(session, response, credential=find)) if name else None) == name


def test_any_true_value_asks_for_verification(server):
    """A flag of a session is read as Python reads it: also 256, whose low byte is 0."""
    device = Device()
    credential = registered(server, device)
    for value, wanted in ((1, "W13"), (2, "W13"), (256, "W13"), ("required", "W13"), ([0], "W13"), (0, None), (None, None)):
        options, session = server.authenticate_begin(user=USER)
        session = replace(session, user_verification=value)
        response = device.sign_in(options, flags=UP)

        def complete(session=session, response=response):
            return server.authenticate_complete(session, response, credential={device.id: credential}.get)

        assert (refusal(complete) if wanted else complete().user_verified) == (wanted or False)


@pytest.mark.parametrize("algorithm", [ES256, EDDSA, RS256])
def test_cose_keys(algorithm):
    device = Device(algorithm)
    credential = Credential(device.id, USER, algorithm, device.x, device.y, 7, True)
    assert credential.cose_key == device.cose_key()
    assert Credential.from_cose(device.id, USER, device.cose_key(), 7, True) == credential
    for size in range(len(device.cose_key())):
        with pytest.raises(BadInput):
            Credential.from_cose(device.id, USER, device.cose_key()[:size], 7)
    for bad in (device.cose_key() + b"\0", b"\xb8" + device.cose_key(), b""):
        with pytest.raises(BadInput):
            Credential.from_cose(device.id, USER, bad, 7)
    for bad in ({"x": device.x[1:]}, {"algorithm": -9}, {"algorithm": 2**32 + algorithm}, {"x": b""}):
        with pytest.raises(BadInput):
            replace(credential, **bad).cose_key


def test_open_profile_ends(server):
    long = Device(credential=bytes(1024))
    assert refusal(lambda: registered(server, long)) == "G7"
    for outputs in (b"", b"\xa0\x00", b"\xa1\x01\xf5", b"\xb8\x00"):
        assert refusal(lambda: registered(server, Device(), flags=UP | UV | AT | ED, outputs=outputs)) == "G7"


def test_creation_options():
    server = OpenServer("example.com", ["https://example.com"], "A site")
    options, session = server.register_begin(USER, "name", "Display Name", exclude=[b"one"], user_verification=True)
    assert options == {
        "rp": {"id": "example.com", "name": "A site"},
        "user": {"id": to_text(USER), "name": "name", "displayName": "Display Name"},
        "challenge": to_text(session.challenge),
        "pubKeyCredParams": [{"type": "public-key", "alg": number} for number in (-7, -8, -257)],
        "excludeCredentials": [{"type": "public-key", "id": "b25l"}],
        "authenticatorSelection": {"residentKey": "required", "requireResidentKey": True, "userVerification": "required"},
        "attestation": "none",
    }
    assert session == RegistrationSession(session.challenge, USER, True, (ES256, EDDSA, RS256), attestation=False)
    options, session = server.register_begin(USER, "name", resident_key=False, algorithms=(EDDSA,))
    assert options["authenticatorSelection"] == {
        "residentKey": "discouraged", "requireResidentKey": False, "userVerification": "preferred"}
    assert options["pubKeyCredParams"] == [{"type": "public-key", "alg": -8}] and options["user"]["displayName"] == "name"
    assert session == RegistrationSession(session.challenge, USER, False, (EDDSA,), attestation=False)


def test_request_options(server):
    options, session = server.authenticate_begin(user=USER, allow=[b"one", b"two"], user_verification=True)
    ids = [{"type": "public-key", "id": "b25l"}, {"type": "public-key", "id": "dHdv"}]
    assert options == {"challenge": to_text(session.challenge), "rpId": "example.com", "allowCredentials": ids,
                       "userVerification": "required"}
    assert session == SignInSession(session.challenge, USER, (b"one", b"two"), True)
    options, session = server.authenticate_begin()
    assert options == {"challenge": to_text(session.challenge), "rpId": "example.com", "allowCredentials": [],
                       "userVerification": "preferred"}
    assert session == SignInSession(session.challenge)


def test_challenges(server):
    """32 bytes, of which none is ever the same."""
    for begin in (lambda: server.register_begin(USER, "name"), server.authenticate_begin):
        challenges = {begin()[1].challenge for _ in range(100)}
        assert len(challenges) == 100 and {len(challenge) for challenge in challenges} == {32}
        assert all(len(set(place)) > 50 for place in zip(*challenges))


def test_values_are_frozen(server):
    device = Device()
    credential = registered(server, device)
    for value in (server.register_begin(USER, "name")[1], server.authenticate_begin()[1], credential):
        with pytest.raises(FrozenInstanceError):
            value.user = b"another"


def test_any_of_a_list(server):
    """Each id of a list may answer, wherever it stands, also beside several origins; another one may not."""
    several = OpenServer("example.com", ["https://example.com", "https://www.example.com", "https://a.example.com"])
    devices = [Device(credential=b"credential %d" % number) for number in range(20)]
    table = {device.id: registered(server, device) for device in devices}
    for party in (server, several):
        for listed in (devices[:1], devices[:2], devices[:3], devices[:12], devices[:19]):
            options, session = party.authenticate_begin(user=USER, allow=[device.id for device in listed])
            assert len(options["allowCredentials"]) == len(session.allow) == len(listed)
            for device in listed:
                said = party.authenticate_complete(session, device.sign_in(options), credential=table.get)
                assert said.credential.id == device.id
            assert refusal(lambda: party.authenticate_complete(session, devices[19].sign_in(options), credential=table.get)) == "W2"


def test_any_of_the_origins():
    origins = ["https://example.com", "https://www.example.com"]
    server = OpenServer("example.com", origins)
    for origin in origins:
        credential = registered(server, Device(origin=origin))
        assert credential.user == USER
    assert refusal(lambda: registered(server, Device(origin="https://www.example.com.evil"))) == "G5"


@pytest.mark.parametrize("profile", ["strict", "open", "level3"])
@pytest.mark.parametrize("algorithm", [ES256, EDDSA, RS256])
def test_algorithm_not_offered(algorithm, profile):
    server = OpenServer("example.com", ["https://example.com"], profile=profile)
    device = Device(algorithm)
    others = tuple({ES256, EDDSA, RS256} - {algorithm})
    for algorithms in (others, others[:1], others[1:]):
        options, session = server.register_begin(USER, "name", algorithms=algorithms)
        for packed in (False, True):
            response = device.register(options, packed=packed)
            assert refusal(lambda: server.register_complete(session, response, is_registered=free)) == "G11"


def test_attestations_that_are_not_accepted():
    for accept_none, accept_self in ((False, True), (True, False)):
        server = OpenServer("example.com", ["https://example.com"], accept_none=accept_none, accept_self=accept_self)
        for packed, accepted in ((False, accept_none), (True, accept_self)):
            if accepted:
                assert registered(server, Device(), packed=packed).user == USER
            else:
                assert refusal(lambda: registered(server, Device(), packed=packed)) == "G14"


def test_empty_user_handle_is_one(server):
    """An account whose handle is empty is known all the same."""
    device = Device()
    credential = registered(server, device)
    options, session = server.authenticate_begin()
    session = replace(session, user=b"")
    response = device.sign_in(options, user=USER)
    assert refusal(lambda: server.authenticate_complete(session, response, credential=lambda _: credential)) == "W4"


def test_registration_refused(server):
    device = Device()
    options, session = server.register_begin(USER, "name", user_verification=True)
    good = device.register(options)

    def complete(response=good, open_session=session, used=free, on=server, **more):
        return lambda: on.register_complete(open_session, response, is_registered=used, **more)

    other = OpenServer("other.com", ["https://other.com", "https://example.com"])
    plain = OpenServer("example.com", ["https://example.com"], accept_none=False)
    assert refusal(complete(open_session=None)) == "G1"
    assert refusal(complete(changed(good, "clientDataJSON", lambda _: b"{"))) == "G2"
    assert refusal(complete(changed(good, "clientDataJSON", lambda b: b.replace(b"create", b"get")))) == "G3"
    assert refusal(complete(open_session=replace(session, challenge=bytes(32)))) == "G4"
    assert refusal(complete(on=OpenServer("example.com", ["https://www.example.com"]))) == "G5"
    binding = b',"tokenBinding":{"status":"present","id":"x"}}'
    assert refusal(complete(changed(good, "clientDataJSON", lambda b: b[:-1] + binding))) == "G6"
    assert refusal(complete(changed(good, "attestationObject", lambda b: b[:-1]))) == "G7"
    assert refusal(complete(on=other)) == "G8"
    assert refusal(complete(device.register(options, flags=UV | AT))) == "G9"
    assert refusal(complete(device.register(options, flags=UP | AT))) == "G10"
    assert refusal(complete(open_session=replace(session, algorithms=(EDDSA,)))) == "G11"
    assert refusal(complete(changed(good, "attestationObject", lambda b: b.replace(b"none", b"nene")))) == "G12"
    assert refusal(complete(device.register(options, packed=True, message=b"another"))) == "G13"
    assert refusal(complete(on=plain)) == "G14"
    assert refusal(complete(used=lambda _: True)) == "G15"
    another = to_text(b"another id")
    named = {**good, "id": another, "rawId": another}
    assert refusal(complete(named)) == "G19"
    for step, how in (("G5", {"on": OpenServer("example.com", ["https://www.example.com"])}), ("G11", {"open_session": replace(session, algorithms=(EDDSA,))}),
                      ("G19", {"on": plain}), ("G19", {"used": lambda _: True}), ("G19", {"is_full": True})):
        assert refusal(complete(named, **how)) == step
    assert refusal(complete(is_full=True)) == "G16"
    assert complete()().credential.id == device.id


def test_sign_in_refused(server):
    device = Device()
    credential = registered(server, device)
    options, session = server.authenticate_begin(user=USER, user_verification=True)
    good = device.sign_in(options)

    def complete(response=good, open_session=session, found=credential, on=server):
        return lambda: on.authenticate_complete(open_session, response, credential=lambda _: found)

    assert refusal(complete(open_session=None)) == "W1"
    assert refusal(complete(open_session=replace(session, allow=(b"another",)))) == "W2"
    assert refusal(complete(found=None)) == "W3"
    assert refusal(complete(found=replace(credential, retired=True))) == "W3"
    assert refusal(complete(found=replace(credential, id=b"another"))) == "W3"
    assert refusal(complete(found=replace(credential, user=b"another"))) == "W4"
    assert refusal(complete(open_session=replace(session, user=None))) == "W4"
    assert refusal(complete({**good, "response": {**good["response"], "userHandle": ""}})) == "W4"
    assert refusal(complete(changed(good, "clientDataJSON", lambda _: b"{"))) == "W5"
    assert refusal(complete(changed(good, "clientDataJSON", lambda b: b.replace(b".get", b".create")))) == "W6"
    assert refusal(complete(open_session=replace(session, challenge=bytes(32)))) == "W7"
    assert refusal(complete(on=OpenServer("example.com", ["https://www.example.com"]))) == "W8"
    binding = b',"tokenBinding":{"status":"present","id":"x"}}'
    assert refusal(complete(changed(good, "clientDataJSON", lambda b: b[:-1] + binding))) == "W9"
    assert refusal(complete(changed(good, "authenticatorData", lambda b: b + b"\0"))) == "W10"
    assert refusal(complete(on=OpenServer("other.com", ["https://other.com", "https://example.com"]))) == "W11"
    assert refusal(complete(device.sign_in(options, flags=UV))) == "W12"
    assert refusal(complete(device.sign_in(options, flags=UP))) == "W13"
    assert refusal(complete(device.sign_in(options, message=b"another"))) == "W14"
    assert refusal(complete(found=replace(credential, x=bytes(32)))) == "W14"
    assert refusal(complete(found=replace(credential, sign_count=9))) == "W15"
    assert refusal(complete(device.sign_in(options, flags=UP | UV | BE))) == "W16"
    unknown = complete(device.sign_in(options, flags=UP | UV | BE | BS), found=replace(credential, eligible=None))()
    assert unknown.backed_up and unknown.credential.eligible is True
    eligible = complete(device.sign_in(options, flags=UP | UV | BE), found=replace(credential, eligible=None))()
    assert not eligible.backed_up and eligible.credential.eligible is True
    assert complete()().credential.sign_count == 1


def test_nothing_to_verify_is_not_verified():
    """A statement of the format none that is not empty is refused, whatever a verifier says: it asks for no signature."""
    willing = OpenServer("example.com", ["https://example.com"], verify=lambda *asked: True)
    options, session = willing.register_begin(USER, "name")
    made = changed(Device().register(options), "attestationObject", lambda b: b.replace(b"attStmt\xa0", b"attStmt\xa1\x01\x01"))
    assert refusal(lambda: willing.register_complete(session, made, is_registered=free)) == "G13"


def test_none_without_a_signature(server):
    """The host's signature check can't be left out."""
    device = Device()
    credential = registered(server, device)
    options, session = server.authenticate_begin(user=USER)
    response = device.sign_in(options)

    never = OpenServer("example.com", ["https://example.com"], verify=lambda *_: False)
    assert refusal(lambda: never.authenticate_complete(session, response, credential=lambda _: credential)) == "W14"


def test_an_algorithm_that_is_none_is_not_valid():
    device = Device()
    message = b"message"
    assert signatures.is_valid(ES256, device.x, device.y, message, device.sign(message))
    for device in (device, Device(EDDSA), Device(RS256)):
        for number in {0, 7, -7, -8, -9, -37, -257, -258} - {device.algorithm}:
            assert not signatures.is_valid(number, device.x, device.y, message, device.sign(message))


def test_input(server):
    device = Device()
    options, session = server.register_begin(USER, "name")
    good = device.register(options)
    for bad in ({}, {"response": []}, {**good, "rawId": 7}, {**good, "rawId": "a+b"},
                {**good, "response": {"clientDataJSON": "AA"}}, {**good, "rawId": "AAAAA"}):
        with pytest.raises(BadInput):
            server.register_complete(session, bad, is_registered=free)
    with pytest.raises(BadInput) as caught:
        server.register_complete(replace(session, challenge=b"short"), good, is_registered=free)
    assert caught.value.number == 103 and str(caught.value)
    for other in ([], [-258], [-7, 7], [-7.0], [True], [None], [[]]):
        with pytest.raises(BadInput):
            server.register_begin(USER, "name", algorithms=other)


DAMAGED = [{"algorithm": -9}, {"algorithm": "-7"}, {"x": b"short"}, {"x": "text"}, {"y": b""}, {"sign_count": -1}, {"sign_count": 2**32}, {"sign_count": "7"},
           {"retired": None}, {"retired": "false"}, {"eligible": "true"}, {"user": "text"}, {"id": None}]


@pytest.mark.parametrize("change", DAMAGED, ids=str)
def test_a_damaged_row_is_the_sites(server, change):
    """It is told by the id that the site asked for, and is no fault of the visitor's."""
    device = Device()
    options, session = server.register_begin(USER, "name")
    stored = server.register_complete(session, device.register(options), is_registered=free).credential
    options, session = server.authenticate_begin()
    response = device.sign_in(options, user=USER)
    found = replace(stored, **change)
    for complete in (lambda: server.authenticate_complete(session, response, credential=lambda _: found),
                     lambda: asyncio.run(server.authenticate_complete_async(session, response, credential=lambda _: found))):
        with pytest.raises(RowDamaged) as caught:
            complete()
        assert caught.value.id == found.id
    # A whole row takes no blame.
    with pytest.raises(BadInput):
        server.authenticate_complete(replace(session, challenge=b"short"), response, credential=lambda _: stored)
    with pytest.raises(TypeError, match="verify answered"):
        Server("example.com", ["https://example.com"], verify=lambda *_: 1).authenticate_complete(session, response, credential=lambda _: stored)


def test_small():
    assert is_canonical(bytes.fromhex("a10102")) and not is_canonical(bytes.fromhex("a1010200"))
    assert not is_canonical(bytes.fromhex("1801"))


def test_malformed_responses(server):
    """Random changes of an accepted response are answered, and none of what is signed is accepted."""
    draw = random.Random(1)
    device = Device()
    credential = registered(server, device)
    options, session = server.authenticate_begin(user=USER)
    good = device.sign_in(options)

    def change(value):
        value = bytearray(value)
        at = draw.randrange(len(value))
        kind = draw.randrange(3)
        if kind == 0:
            value[at] ^= 1 << draw.randrange(8)
        elif kind == 1:
            del value[at]
        else:
            value.insert(at, draw.randrange(256))
        return bytes(value)

    for count in range(500):
        name = ("authenticatorData", "clientDataJSON", "signature")[count % 3]
        bad = changed(good, name, change)
        if bad == good:
            continue
        with pytest.raises(Refused):
            server.authenticate_complete(session, bad, credential=lambda _: credential)


def test_kept_keys_are_their_own():
    """A key that is kept answers for its own numbers alone, whichever was asked for first."""
    prime = 2**256 - 2**224 + 2**192 + 2**96 - 1
    for first in (True, False):
        device = Device()
        other = (prime - int.from_bytes(device.y, "big")).to_bytes(32, "big")
        signature = device.sign(b"message")
        for y in (device.y, other) if first else (other, device.y):
            assert signatures.is_valid(ES256, device.x, y, b"message", signature) == (y == device.y)
    small, large = Device(RS256), Device(RS256, exponent=3)
    signature = small.sign(b"message")
    for device, y in ((small, small.y), (small, large.y), (small, small.y), (large, large.y)):
        assert signatures.is_valid(RS256, device.x, y, b"message", signature) == (device is small and y == small.y)


def test_each_answer_below_100_is_a_refusal(server, monkeypatch):
    """With the library's own text, whether or not this package has a name for the step."""
    device = Device()
    options, session = server.register_begin(USER, "name")
    good = device.register(options)
    credential = registered(server, device)
    asked, begun = server.authenticate_begin(user=USER)
    response = device.sign_in(asked)
    monkeypatch.setattr(library, "refusal_text", lambda is_registration, answer: f"text {is_registration} {answer}")
    for number, step in ((18, "WrongTopOrigin"), (19, "OtherId"), (20, "Step20"), (99, "Step99")):
        monkeypatch.setattr(_passkey, "registration", lambda *_: number)
        with pytest.raises(Refused) as caught:
            server.register_complete(session, good, is_registered=free)
        assert (caught.value.name, caught.value.step, caught.value.text) == (f"G{number}", step, f"text True {number}")
        assert str(pickle.loads(pickle.dumps(caught.value))) == str(caught.value)
        monkeypatch.setattr(_passkey, "assertion", lambda *_: number)
        with pytest.raises(Refused) as caught:
            server.authenticate_complete(begun, response, credential=lambda _: credential)
        assert (caught.value.name, caught.value.step) == (f"W{number}", step if number != 19 else "Step19")
    for number, error in ((100, BadInput), (127, MemoryError)):
        monkeypatch.setattr(_passkey, "registration", lambda *_: number)
        with pytest.raises(error):
            server.register_complete(session, good, is_registered=free)
