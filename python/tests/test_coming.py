"""The rows that other libraries store, moved by `Credential.from_cose` as docs/COMING.md has it: each signs in then. python-fido2
makes its row itself; those of py_webauthn and SimpleWebAuthn are made in the form that they document, with the key encoded by
python-fido2."""
import base64
from dataclasses import replace

import pytest
from device import BE, BS, UP, UV, Device

from garvoeng import EDDSA, ES256, RS256, BadInput, Credential, Refused, Server
from garvoeng.forms import from_text

cbor = pytest.importorskip("fido2.cbor")
from fido2 import cose, ctap2, server as fido2_server, webauthn  # noqa: E402
from fido2.client import ClientData  # noqa: E402

USER = b"account 7"
KEYS = {ES256: cose.ES256, EDDSA: cose.EdDSA, RS256: cose.RS256}


def of_fido2(data, user, count):
    """python-fido2: the bytes of `AttestedCredentialData`."""
    size = int.from_bytes(data[16:18], "big")
    return Credential.from_cose(data[18:18 + size], user, data[18 + size:], count)


def of_py_webauthn(row, user):
    """py_webauthn: the members of `VerifiedRegistration`."""
    return Credential.from_cose(row["credential_id"], user, row["credential_public_key"], row["sign_count"],
                                row["credential_device_type"] == "multi_device")


def of_simplewebauthn(row):
    """SimpleWebAuthn: the `Passkey` of its documentation; ids are texts of base64url."""
    return Credential.from_cose(from_text(row["id"], "id"), from_text(row["webauthnUserID"], "user"), row["publicKey"],
                                row["counter"], row["deviceType"] == "multiDevice")


def signs_in(device, credential, flags=UP | UV):
    server = Server("example.com", ["https://example.com"])
    options, session = server.authenticate_begin(user=USER)
    return server.authenticate_complete(session, device.sign_in(options, flags=flags), credential={device.id: credential}.get)


def cose_key(device):
    return cbor.encode(KEYS[device.algorithm].from_cryptography_key(device.key.public_key()))


@pytest.mark.parametrize("algorithm", [ES256, EDDSA, RS256])
def test_rows_of_python_fido2(algorithm):
    device = Device(algorithm)
    theirs = fido2_server.Fido2Server(webauthn.PublicKeyCredentialRpEntity("example.com", "A site"))
    options, state = theirs.register_begin({"id": USER, "name": "name"})
    challenge = base64.urlsafe_b64encode(options["publicKey"]["challenge"]).rstrip(b"=").decode()
    parts = device.register({"challenge": challenge})["response"]
    made = theirs.register_complete(state, ClientData(from_text(parts["clientDataJSON"], "it")),
                                    ctap2.AttestationObject(from_text(parts["attestationObject"], "it")))
    moved = of_fido2(bytes(made.credential_data), USER, made.counter)
    assert moved == Credential(device.id, USER, algorithm, device.x, device.y, 0, None)
    said = signs_in(device, moved)
    assert said.credential == replace(moved, sign_count=1, eligible=False)
    assert ctap2.AttestedCredentialData.create(device.aaguid, device.id, cbor.decode(moved.cose_key)) == made.credential_data


@pytest.mark.parametrize("algorithm", [ES256, EDDSA, RS256])
def test_rows_of_py_webauthn(algorithm):
    device = Device(algorithm)
    for kind, flags in (("single_device", UP | UV), ("multi_device", UP | UV | BE | BS)):
        row = {"credential_id": device.id, "credential_public_key": cose_key(device), "sign_count": device.count,
               "credential_device_type": kind, "credential_backed_up": bool(flags & BS)}
        said = signs_in(device, of_py_webauthn(row, USER), flags)
        assert (said.backed_up, said.user_verified, said.before.cose_key) == (bool(flags & BS), True, cose_key(device))
        with pytest.raises(Refused) as caught:
            signs_in(device, of_py_webauthn({**row, "sign_count": device.count}, USER), flags ^ BE)
        assert caught.value.name in ("W10", "W16")


@pytest.mark.parametrize("algorithm", [ES256, EDDSA, RS256])
def test_rows_of_simplewebauthn(algorithm):
    device = Device(algorithm)

    def text(value):
        return base64.urlsafe_b64encode(value).rstrip(b"=").decode()

    row = {"id": text(device.id), "publicKey": cose_key(device), "webauthnUserID": text(USER), "counter": 0,
           "deviceType": "singleDevice", "backedUp": False, "transports": ["usb"]}
    assert signs_in(device, of_simplewebauthn(row)).credential.sign_count == 1


def test_other_cbor_of_a_key_is_not_taken():
    """A key whose members are in another order, or that has one more, is a row that is not moved."""
    key = cbor.decode(cose_key(Device(ES256)))
    heads = {1: b"\x01", 3: b"\x03", -1: b"\x20", -2: b"\x21", -3: b"\x22"}
    turned = b"\xa5" + b"".join(heads[name] + cbor.encode(value) for name, value in reversed(list(key.items())))
    for bytes_ in (turned, cbor.encode({**key, 2: b"kid"}), cbor.encode({**key, 3: -35}), cbor.encode({1: 2, 3: -7})):
        assert cbor.decode(bytes_)
        with pytest.raises(BadInput):
            Credential.from_cose(b"id", USER, bytes_, 0)
