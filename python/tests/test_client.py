"""`garvoeng.client` over the program of CLIENT_PROGRAM and the key of CLIENTS: what a user does with a key."""
import os
import threading
import time
from pathlib import Path

import pytest
from client_keys import KINDS, ORIGIN, OTHER, PIN, RP_ID, SOFTKEY, USER, WRONG, Lines, Site, client_of, pin_hash, plugged
from pin_key import Cable, PinKey
from softkey_host import Softkey

from garvoeng import BadInput, client
from garvoeng.client import ClientRefused
from garvoeng.forms import from_text, to_text

CEREMONIES = int(os.environ.get("CEREMONIES", "100"))


def refused(call, *arguments, **named):
    """The name of the refusal, and its status."""
    with pytest.raises(ClientRefused) as found:
        call(*arguments, **named)
    assert found.value.text and str(found.value) == f"{found.value.name}: {found.value.text}"
    return found.value.name, found.value.status


@pytest.mark.parametrize("kind", KINDS)
@pytest.mark.parametrize("alg", [-7, -8])
def test_registers_and_signs_in(kind, alg, monkeypatch):
    """By a PIN, verified by `Server`: found by its list, and by the rp id alone."""
    lines = Lines(monkeypatch)
    key, _, site = plugged(**kind, packed=True, algorithms=(alg,))
    with site.client:
        for resident in (True, False):
            made = site.register(resident_key=resident)
            assert made.user_verified and made.credential.algorithm == alg and made.format == "packed"
            assert made.credential.transports == ("usb",)
            done = site.sign_in(allow=[made.credential.id])
            assert done.user_verified and done.credential.id == made.credential.id and done.credential.sign_count == 1
        assert site.sign_in().user_verified and site.sign_in(user=USER).credential.sign_count == 3
    tokens = [protocol.token for protocol in key.protocols.values()]
    lines.tell_no(PIN.encode(), pin_hash(PIN), *tokens)
    assert all(PIN.encode() not in message and pin_hash(PIN) not in message for message in key.heard)


@pytest.mark.parametrize("kind", KINDS)
def test_by_python_fido2_server(kind):
    """Challenge, origin, flags and signature, judged by another library."""
    server = pytest.importorskip("fido2.server").Fido2Server({"id": RP_ID, "name": "Example"})
    from fido2.client import ClientData
    from fido2.ctap2 import AttestationObject, AuthenticatorData
    _, _, site = plugged(**kind)
    with site.client as one:
        options, state = server.register_begin({"id": USER, "name": "alex", "displayName": "Alex"}, resident_key=True, user_verification="required")
        asked = options["publicKey"]
        made = one.create({"challenge": to_text(asked["challenge"]), "rp": {"id": RP_ID, "name": "Example"},
                           "user": {"id": to_text(USER), "name": "alex", "displayName": "Alex"},
                           "pubKeyCredParams": [{"type": "public-key", "alg": -7}],
                           "authenticatorSelection": {"residentKey": "required", "userVerification": "required"}})
        part = lambda response, name: from_text(response["response"][name], name)
        read = part(made, "attestationObject").replace(b"\x63fmt", b"\x01").replace(b"\x67attStmt", b"\x03").replace(b"\x68authData", b"\x02")
        data = server.register_complete(state, ClientData(part(made, "clientDataJSON")), AttestationObject(read))
        options, state = server.authenticate_begin([data.credential_data], user_verification="required")
        got = one.get({"challenge": to_text(options["publicKey"]["challenge"]), "rpId": RP_ID, "userVerification": "required",
                       "allowCredentials": [{"type": "public-key", "id": made["id"]}]})
        server.authenticate_complete(state, [data.credential_data], from_text(got["rawId"], "rawId"), ClientData(part(got, "clientDataJSON")),
                                     AuthenticatorData(part(got, "authenticatorData")), part(got, "signature"))
        assert part(got, "userHandle") == USER


@pytest.mark.parametrize("kind", KINDS)
def test_wrong_pins(kind):
    """Three in a row need a power cycle; at the last attempt the key blocks its PIN, the right one too."""
    asked = []
    key, cable, site = plugged(**kind, how={"pin": lambda retries, wrong: asked.append((retries, wrong)) or WRONG})
    with site.client:
        for left in (8, 5):
            assert refused(site.register)[0] == "power_cycle"
            assert asked == [(left, False), (left - 1, True), (left - 2, True)]
            asked.clear()
            assert refused(site.register)[0] == "power_cycle"
            # A key of CTAP 2.0 does not say that it waits for a power cycle, so the PIN is asked for once more.
            assert asked == ([] if kind["token"] else [(left - 3, False)])
            asked.clear()
            key.power_cycle()
        assert refused(site.register)[0] == "pin_blocked" and asked == [(2, False), (1, True)]
        for _ in range(2):
            assert refused(site.register)[0] == "pin_blocked" and len(asked) == 2
            key.power_cycle()
        assert not key.credentials


@pytest.mark.parametrize("kind", KINDS)
def test_wrong_and_then_right(kind):
    """The count is back at 8 after a right one, and a token of before a power cycle is of no use."""
    asked = []
    pin = lambda retries, wrong: asked.append((retries, wrong)) or (WRONG if len(asked) < 3 else PIN)
    key, _, site = plugged(**kind, how={"pin": pin})
    with site.client:
        made = site.register()
        assert asked == [(8, False), (7, True), (6, True)]
        key.power_cycle()
        assert site.sign_in().credential.id == made.credential.id and asked[3:] == [(8, False)]


@pytest.mark.parametrize("kind", KINDS)
def test_sets_and_changes_pins(kind, monkeypatch):
    lines = Lines(monkeypatch)
    pins = []
    key, _, site = plugged(None, **kind, how={"pin": lambda retries, wrong: pins.pop(0)})
    with site.client as one:
        assert refused(one.change_pin, OTHER)[0] == "pin_not_set" and one.information()["options"]["clientPin"] is False
        for wrong, name in ((WRONG[:3], "pin_too_short"), ("é" * 32, "pin_too_long"), ("1234\0", "pin_ends_in_zero")):
            assert refused(one.set_pin, wrong)[0] == name and key.pin is None
        one.set_pin(PIN)
        assert key.pin == pin_hash(PIN) and refused(one.set_pin, OTHER)[0] == "pin_already_set"
        pins[:] = [PIN, WRONG, PIN, OTHER]
        site.register()
        one.change_pin(OTHER)
        assert key.pin == pin_hash(OTHER) and pins == [OTHER] and key.retries == 8
        site.sign_in()
        pins[:] = [OTHER, OTHER]
        one.change_pin("e\u0301" * 5)
        assert key.pin == pin_hash("é" * 5)
    lines.tell_no(PIN.encode(), pin_hash(PIN), OTHER.encode(), pin_hash(OTHER))


def test_policies():
    key, _, site = plugged(None, min_pin_length=6)
    with site.client as one:
        assert one.information()["min_pin_length"] == 6
        assert refused(one.set_pin, "12345")[0] == "pin_too_short"
        one.set_pin("é" * 6)
        assert key.pin == pin_hash("é" * 6)
    for value in (None, 1234, b"1234", "\udc80234"):
        with pytest.raises(BadInput) as error:
            one.set_pin(value)
        assert "1234" not in str(error.value)


def test_a_key_without_pin():
    """Presence alone where verification is preferred or discouraged; none where it is required."""
    _, _, site = plugged(None)
    with site.client as one:
        assert refused(site.register)[0] == "no_verification"
        for how in (False, "discouraged"):
            made = site.register(user_verification=how)
            assert not made.user_verified and not site.sign_in(user_verification=how, allow=[made.credential.id]).user_verified
    _, _, site = plugged(None, client_pin=False)
    with site.client as one:
        assert refused(one.set_pin, PIN)[0] == "pin_not_offered" and refused(one.change_pin, PIN)[0] in ("pin_not_offered", "pin_not_set")
        site.register(user_verification=False)


def test_discouraged_with_a_pin():
    """A registration asks for the PIN all the same, unless the key says that it need not; a sign-in does not."""
    asked = []
    for not_required, times in ((None, 2), (True, 1)):
        _, _, site = plugged(uv_not_required=not_required, how={"pin": lambda retries, wrong: asked.append(retries) or PIN})
        with site.client:
            site.register(user_verification="discouraged", resident_key=True)
            made = site.register(user_verification="discouraged", resident_key=False)
            assert len(asked) == times and made.user_verified == (times == 2)
            assert not site.sign_in(user_verification="discouraged", allow=[made.credential.id]).user_verified and len(asked) == times
        asked.clear()


@pytest.mark.parametrize("token", [True, None])
def test_built_in(token):
    """By the key's own verification; where it fails the PIN is asked for, and where there is no PIN it is refused."""
    asked = []
    pin = lambda retries, wrong: asked.append(retries) or PIN
    key, _, site = plugged(uv=True, token=token, how={"pin": pin})
    with site.client:
        assert site.register().user_verified and site.sign_in().user_verified and not asked
        key.finger = False
        assert site.sign_in().user_verified and asked == [8]
    key, cable, site = plugged(uv=True, token=token, how={"pin": pin, "built_in": False})
    with site.client:
        assert site.register().user_verified and len(asked) == 2
    key, _, site = plugged(None, uv=True, token=token, how={"pin": None})
    with site.client:
        key.finger = False
        name, status = refused(site.register)
        assert name == "status" and status == (0x3F if token else 0x27)
        key.finger = True
        assert site.register().user_verified


def test_always_verified():
    """alwaysUv: the PIN is asked for, discouraged or not."""
    asked = []
    _, _, site = plugged(always_uv=True, how={"pin": lambda retries, wrong: asked.append(retries) or PIN})
    with site.client:
        site.register(user_verification="discouraged")
        assert site.sign_in(user_verification="discouraged").user_verified and len(asked) == 2


def test_nobody_to_ask():
    key, cable, site = plugged(how={"pin": None})
    with site.client:
        assert refused(site.register)[0] == "pin_needed"
    site = Site(client_of(cable, pin=lambda retries, wrong: None))
    with site.client:
        assert refused(site.register)[0] == "cancelled"
    assert key.retries == 8 and not key.credentials


def test_several_credentials():
    """The newest first; which one is the user's word, by its place."""
    answers, listed = [], []
    key, cable, site = plugged(how={"choose": lambda credentials: listed.append(credentials) or answers.pop(0)})
    with site.client:
        made = [site.register(bytes([place])) for place in range(3)]
        for place in (0, 1, 2):
            answers.append(place)
            assert site.sign_in().credential.id == made[2 - place].credential.id
        assert listed[0] == [{"id": to_text(one.credential.id), "user_id": to_text(one.credential.user), "user_name": "alex", "display_name": "Alex"}
                             for one in reversed(made)]
        answers.append(1)
        site.sign_in(user_verification="discouraged")
        assert {(one["user_name"], one["display_name"]) for one in listed[-1]} == {(None, None)}
        answers.append(None)
        assert refused(site.sign_in)[0] == "cancelled"
        for wrong in (3, -1, True, "1", 1.0):
            answers.append(wrong)
            with pytest.raises(BadInput):
                site.sign_in()
        assert site.sign_in(allow=[made[0].credential.id]).credential.id == made[0].credential.id
    site.client = client_of(cable)
    with site.client:
        assert refused(site.sign_in)[0] == "choice_needed"


def test_extensions():
    """What is asked for reaches the key, and what it is told comes back."""
    key, _, site = plugged()
    with site.client as one:
        for wanted, results, level in (({}, {}, 1), ({"credProps": True}, {"credProps": {"rk": True}}, 1), ({"credentialProtectionPolicy": 3}, {}, 3),
                                       ({"credentialProtectionPolicy": "userVerificationOptionalWithCredentialIDList", "prf": {}}, {}, 2),
                                       ({"hmacCreateSecret": True, "minPinLength": True}, {}, 1)):
            options, session = site.server.register_begin(USER, "alex", user_verification=True, extensions=wanted)
            response = one.create(options)
            assert response["clientExtensionResults"] == results and response["authenticatorAttachment"] == "cross-platform"
            made = site.server.register_complete(session, response, is_registered=lambda _: False).credential
            assert key.credentials[made.id].protection == level


def test_an_rp_id_that_is_left_out():
    """It is the origin's host."""
    key, _, site = plugged(None)
    with site.client as one:
        made = one.create({"challenge": "AAAA", "rp": {"name": "Example"}, "user": {"id": "AQ", "name": "alex", "displayName": "Alex"},
                           "pubKeyCredParams": [{"type": "public-key", "alg": -7}], "authenticatorSelection": {"userVerification": "discouraged"}})
        (credential,) = key.credentials.values()
        assert credential.rp_id == "login.example.com" == ORIGIN[8:] and not credential.resident and made["id"] == to_text(credential.id)
        allow = [{"type": "public-key", "id": made["id"]}]
        assert one.get({"challenge": "AAAA", "userVerification": "discouraged", "allowCredentials": allow})["id"] == made["id"]


def test_excluded_and_none():
    key, _, site = plugged()
    with site.client:
        made = site.register()
        assert refused(site.register, exclude=[made.credential.id]) == ("status", 0x19)
        assert refused(site.sign_in, allow=[b"another"]) == ("status", 0x2E)
        key.presence = False
        assert refused(site.sign_in) == ("status", 0x27)


@pytest.mark.parametrize("number", [1, 2])
def test_unknown_members(number):
    """What a later standard adds at any level is passed over; `credential` may be left out where one is listed."""
    told = []
    _, _, site = plugged(protocols=(7, number), unknown=True, leaves_out_credential=True, how={"choose": lambda listed: told.append(listed) or 1})
    with site.client as one:
        information = one.information()
        assert "FIDO_9_9" in information["versions"] and information["options"]["zzUnknown"] is True and information["protocols"] == [7, number]
        first, second = site.register(b"1"), site.register(b"2")
        assert site.sign_in(allow=[second.credential.id]).credential.id == second.credential.id
        assert site.sign_in().credential.id == first.credential.id and len(told) == 1


def test_keys_that_can_not():
    """Each is refused by name, before a PIN is asked for."""
    def asked(retries, wrong):
        raise AssertionError

    for kind, name in (({"u2f_only": True}, "u2f_only"), ({"versions": ("U2F_V2",)}, "u2f_only"), ({"protocols": (3,)}, "no_protocol"),
                       ({"algorithms": (-65535,), "pin": None}, "status")):
        pin = kind.pop("pin", PIN)
        _, _, site = plugged(pin, **kind, how={"pin": asked})
        with site.client:
            assert refused(site.register, user_verification=pin is not None)[0] == name, kind
    # A key that tells by its capabilities that it has no CTAPHID_CBOR.
    _, _, site = plugged(u2f_only=True, capabilities=0)
    with site.client as one:
        assert refused(one.information)[0] == "u2f_only"
    _, _, site = plugged(None, max_list=2, max_id=64, max_message=None)
    with site.client:
        ids = [b"x" * 64, b"y", b"z"]
        assert refused(site.sign_in, allow=ids, user_verification=False)[0] == "list_too_long"
        assert refused(site.sign_in, allow=[b"x" * 65], user_verification=False)[0] == "id_too_long"
        assert refused(site.sign_in, allow=ids[:2], user_verification=False)[0] == "status"


def test_origins():
    """Before anything is sent."""
    key, cable, site = plugged()
    options, _ = site.server.authenticate_begin()
    for origin, name in (("https://other.example", "rp_id_not_of_origin"), ("example.com", "bad_origin"), ("http://example.com", "bad_origin"),
                         ("", "bad_origin")):
        with client_of(cable) as one:
            one.origin = origin
            assert refused(one.get, options)[0] == name and not key.heard
            assert refused(one.create, site.server.register_begin(USER, "alex")[0])[0] == name and not key.heard


@pytest.mark.parametrize("options", [{}, {"challenge": 7}, {"challenge": "AA", "rpId": 7}, {"challenge": "="}, [], None, {"challenge": {1: 2}},
                                     {"challenge": "AA", "extensions": object()}, {"challenge": "A" * 70_000}, {"challenge": float("nan")}])
def test_what_is_no_options(options):
    """Named, and a good call after it is answered."""
    _, _, site = plugged()
    with site.client as one:
        for call in (one.create, one.get):
            with pytest.raises((BadInput, ClientRefused)):
                call(options)
        assert site.register().user_verified


def test_touch():
    """Told once for each touch, whatever the key repeats."""
    told = []
    key, cable, site = plugged(keepalives=(1, 1, 2, 1, 2, 2), how={"touch": lambda: told.append(1)})
    with site.client:
        site.register()
        assert told == [1]
        site.sign_in()
        assert told == [1, 1]


class User(threading.Thread):
    """Does something beside the call, once the key waits for a touch."""

    def __init__(self, key, acts):
        super().__init__(daemon=True)
        self.key, self.acts, self.error = key, acts, None
        self.start()

    def run(self):
        until = time.monotonic() + 60
        while self.key.running is None and time.monotonic() < until:
            time.sleep(0.005)
        self.acts()


def test_cancelled_from_another_thread():
    key, cable, site = plugged()
    key.presence = None
    with site.client as one:
        one.cancel()
        for call in (site.register, site.sign_in):
            user = User(key, one.cancel)
            assert refused(call) == ("cancelled", None)
            user.join()
            assert key.running is None and key.working is None
        user = User(key, lambda: cable.send(key.touch()))
        assert site.register().user_verified
        one.cancel()
        key.presence = True
        assert site.sign_in().user_verified


def test_cancelled_while_the_user_is_asked():
    key, _, site = plugged(how={"pin": lambda retries, wrong: site.client.cancel() or PIN})
    with site.client:
        assert refused(site.register) == ("cancelled", None)
    assert key.retries == 8 and not key.credentials


def test_time_is_up(monkeypatch):
    """The key gives up; one that does not say so is not waited for."""
    monkeypatch.setattr(client, "CANCEL_SECONDS", 0.2)
    key, cable, site = plugged(None, how={"timeout": 0.3})
    with site.client as one:
        key.presence = None
        began = time.monotonic()
        assert refused(site.register, user_verification=False) == ("timeout", None)
        assert key.working is None and 0.3 <= time.monotonic() - began < 10
        one.timeout = 60.0
        assert refused(site.register, user_verification=False, timeout=100) == ("timeout", None)
        cable.change = lambda number, packet: None
        one.timeout = 0.1
        assert refused(site.register, user_verification=False) == ("timeout", None)
        cable.change, key.presence, one.timeout = None, True, 10.0
        key.power_cycle()
        site.register(user_verification=False)


def test_what_the_user_takes_does_not_count():
    _, _, site = plugged(how={"timeout": 2.0, "pin": lambda retries, wrong: time.sleep(2.1) or PIN})
    with site.client:
        assert site.register().user_verified


def test_calls_of_threads_come_one_after_another():
    _, _, site = plugged()
    done = []
    with site.client:
        threads = [threading.Thread(target=lambda: done.append(site.register(os.urandom(8)))) for _ in range(8)]
        for one in threads:
            one.start()
        for one in threads:
            one.join()
    assert len({one.credential.id for one in done}) == 8


def memory(process):
    """The memory of a process in kB."""
    told = dict(line.split(":", 1) for line in Path(f"/proc/{process.pid}/status").read_text().splitlines())
    return int(told["VmRSS"].split()[0])


def test_many():
    """CEREMONIES by one program, half of them sign-ins: each is verified, and the program's memory stays as it is after the first ones."""
    key, _, site = plugged(protocols=(2, 1), max_credentials=1)
    with site.client as one:
        one.information()
        process = one._program.process
        for number in range(CEREMONIES // 2):
            made = site.register()
            assert site.sign_in(allow=[made.credential.id]).credential.sign_count == 1
            del site.table[made.credential.id]
            if number == 10:
                before = memory(process)
        assert one._program.process is process and memory(process) < before + 1024
    assert len(key.heard) >= CEREMONIES * 5


class SoftkeyCable:
    """The proved key `softkey`, by packets; its user verifies and touches at once."""

    def __init__(self, *words):
        self.key = Softkey(SOFTKEY, *words)
        self.turn = threading.Lock()  # A line's answer is read by who said it; cancel is called in a thread of its own.

    def write(self, packet):
        with self.turn:
            self.key.packet(packet)

    def read(self, timeout):
        if not self.key.packets:
            time.sleep(timeout)
            with self.turn:
                self.key.line("wait")
        if not self.key.packets:
            raise TimeoutError
        return self.key.packets.popleft()


@pytest.mark.skipif(not Path(SOFTKEY).exists(), reason="SOFTKEY is not there")
@pytest.mark.parametrize("words", [(), ("self-attestation",), ("no-uv",)])
def test_softkey(words):
    """Our own key, which has no PIN: by its own verification, and by presence alone."""
    cable = SoftkeyCable(*words)
    is_verified = "no-uv" not in words
    with client_of(cable, choose=lambda listed: len(listed) - 1) as one:
        site = Site(one)
        if not is_verified:
            assert refused(site.register)[0] == "no_verification"
        for alg in (-7, -8):
            made = site.register(user_verification=is_verified, algorithms=(alg,))
            assert made.user_verified == is_verified and made.format == ("packed" if "self-attestation" in words else "none")
            done = site.sign_in(user_verification=is_verified, allow=[made.credential.id])
            assert done.user_verified == is_verified and done.credential.algorithm == alg
        assert site.sign_in(user_verification=is_verified).credential.user == USER
        cable.key.consent = (False, False)
        assert refused(site.sign_in, user_verification=False) == ("status", 0x27)
        cable.key.consent = None
        user = threading.Timer(0.3, one.cancel)
        user.start()
        assert refused(site.sign_in, user_verification=False) == ("cancelled", None)
        user.join()
        cable.key.consent = (True, True)
        site.sign_in(user_verification=is_verified)
    assert cable.key.close() == 0


def test_cable_by_hand():
    """A key is any object with `write` and `read`."""
    class Own:
        def __init__(self):
            self.cable = Cable(PinKey(pin=PIN))

        def write(self, packet):
            assert type(packet) is bytes and len(packet) == 64
            self.cable.write(packet)

        def read(self, timeout):
            return bytearray(self.cable.read(timeout))

    with client_of(Own()) as one:
        assert Site(one).register().user_verified and one.origin == ORIGIN
