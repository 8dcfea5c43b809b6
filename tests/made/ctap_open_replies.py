#!/usr/bin/python3
"""Prints tests/crates/ctap_tests/ctap_open_replies_made.rt.txt: replies as keys on sale give them, made by the classes of python-fido2 0.9.1
(Debian's python3-fido2), and what these classes read from them. A line is a name, the command (i getInfo, c makeCredential,
a getAssertion), the id that was listed alone or -, the reply as words of `test_words`, and what is told."""
import hashlib
import re

from fido2 import cbor
from fido2.cose import ES256
from fido2.ctap2.base import (
    AssertionResponse,
    AttestationObject,
    AttestedCredentialData,
    AuthenticatorData,
    Info,
)

RP = hashlib.sha256(b"example.com").digest()
AAGUID = bytes.fromhex("ee882879721c491397753dfcce97072a")
KEY = ES256({1: 2, 3: -7, -1: 1, -2: bytes(range(32)), -3: bytes(range(32, 64))})
SIGNATURE = bytes.fromhex("3044022011" + "22" * 31 + "022033" + "44" * 31)
CERTIFICATE = b"\x30\x82\x02\xbc" + b"\x01" * 700


def told_bytes(content):
    """Bytes as they are told: in hexadecimal digits, and long ones by their size and SHA-256."""
    if content is None:
        return "-"
    return content.hex() if len(content) <= 64 else f"{len(content)}:{hashlib.sha256(content).hexdigest()}"


def told(value):
    if value is None:
        return "-"
    return str(value).lower() if isinstance(value, bool) else str(value)


def told_list(values):
    return "-" if values is None else ",".join(str(value) for value in values)


def words(content):
    """Hexadecimal digits, where a byte stands 24 times or more in a row as DIGITS*COUNT."""
    pieces = re.findall(rb"((.)\2{23,})|((?:(?!(.)\4{23}).)+)", content, re.DOTALL)
    return " ".join(f"{run[:1].hex()}*{len(run)}" if run else rest.hex() for run, _, rest, _ in pieces)


def row(name, command, reply, tells, listed=None):
    assert cbor.encode(cbor.decode(reply)) == reply
    print(f"{name}|{command}|{words(listed) if listed else '-'}|00 {words(bytes(reply))}|{tells}")


def info(name, made):
    """A row of getInfo, read by python-fido2."""
    get = Info(bytes(made)).data.get
    options = get(Info.KEY.OPTIONS)
    algorithms = get(Info.KEY.ALGORITHMS)
    tells = [
        told_list(get(Info.KEY.VERSIONS)),
        told_list(get(Info.KEY.EXTENSIONS)),
        told_bytes(get(Info.KEY.AAGUID)),
        told_list(None if options is None else [f"{name}:{told(value)}" for name, value in options.items()]),
        told(get(Info.KEY.MAX_MSG_SIZE)),
        told_list(get(Info.KEY.PIN_UV_PROTOCOLS)),
        told(get(Info.KEY.MAX_CREDS_IN_LIST)),
        told(get(Info.KEY.MAX_CRED_ID_LENGTH)),
        told_list(get(Info.KEY.TRANSPORTS)),
        told_list(None if algorithms is None else [f"{each['alg']}:{each['type']}" for each in algorithms]),
        told(get(Info.KEY.MIN_PIN_LENGTH)),
        told(get(Info.KEY.FIRMWARE_VERSION)),
        told(get(Info.KEY.REMAINING_DISC_CREDS)),
    ]
    row(name, "i", bytes(made), ";".join(tells))


def created(name, made, more=None):
    """A row of makeCredential; python-fido2 reads it without the members that it has not."""
    read = AttestationObject(bytes(made))
    tells = [
        read.fmt,
        told_bytes(bytes(read.auth_data)),
        told_bytes(cbor.encode(read.att_statement)),
        told(read.ep_att),
        told_bytes(read.large_blob_key),
    ]
    row(name, "c", cbor.encode({**cbor.decode(bytes(made)), **(more or {})}), ";".join(tells))


def asserted(name, made, listed=None, more=None):
    """A row of getAssertion; python-fido2 reads it without the members that it has not."""
    read = AssertionResponse(bytes(made))
    user = read.user or {}
    tells = [
        told_bytes(read.credential["id"] if read.credential else listed),
        told_bytes(bytes(read.auth_data)),
        told_bytes(read.signature),
        told_bytes(user.get("id")),
        told(user.get("icon")),
        told(user.get("name")),
        told(user.get("displayName")),
        told(read.number_of_credentials),
        told(read.data.get(AssertionResponse.KEY.USER_SELECTED)),
        told_bytes(read.large_blob_key),
    ]
    row(name, "a", cbor.encode({**cbor.decode(bytes(made)), **(more or {})}), ";".join(tells), listed)


def data(flags=0x45, id=b"\x0a" * 16, extensions=None):
    """Authenticator data of a new credential."""
    return AuthenticatorData.create(
        RP, flags, 7, AttestedCredentialData.create(AAGUID, id, KEY), extensions
    )


def signed(flags=0x05, extensions=None):
    """Authenticator data of an assertion."""
    return AuthenticatorData.create(RP, flags, 8, b"", extensions)


def descriptor(id, **more):
    return {"id": id, "type": "public-key", **more}


OPTIONS = {"rk": True, "up": True, "plat": False, "clientPin": True}
ALL_OPTIONS = {
    **OPTIONS,
    "ep": False,
    "uv": True,
    "alwaysUv": False,
    "credMgmt": True,
    "authnrCfg": True,
    "bioEnroll": True,
    "largeBlobs": True,
    "pinUvAuthToken": True,
    "setMinPINLength": True,
    "makeCredUvNotRqd": True,
    "credentialMgmtPreview": True,
    "userVerificationMgmtPreview": True,
}
ES256_TYPE, EDDSA_TYPE = {"alg": -7, "type": "public-key"}, {"alg": -8, "type": "public-key"}
FULL = {
    1: ["U2F_V2", "FIDO_2_0", "FIDO_2_1_PRE", "FIDO_2_1"],
    2: ["credProtect", "hmac-secret", "largeBlobKey", "credBlob", "minPinLength"],
    3: AAGUID,
    4: ALL_OPTIONS,
    5: 2048,
    6: [2, 1],
    7: 8,
    8: 96,
    9: ["nfc", "usb"],
    10: [ES256_TYPE, EDDSA_TYPE, {"alg": -257, "type": "public-key"}],
    11: 2048,
    12: False,
    13: 6,
    14: 0x50406,
    15: 32,
    16: 1,
    17: 3,
    18: 2,
    19: {"FIDO": 2, "FIPS-CMVP-3": 1},
    20: 24,
}

print("//! Replies as keys on sale give them, and what python-fido2 0.9.1 reads from them: tests/made/ctap_open_replies.py prints this file.\n")
print("use test_words::Table;\n")
print('/// A name; the command; the id that was listed alone; the reply; what is told.\npub const MADE: Table = r#"', end="")

info("members 1 to 6", Info.create(["U2F_V2", "FIDO_2_0"], ["hmac-secret"], AAGUID, OPTIONS, 1200, [1]))
info("members 1 and 3", Info.create(["FIDO_2_0"]))
info("members 1, 3 and 4", Info.create(["U2F_V2", "FIDO_2_0"], None, AAGUID, {"rk": True, "up": True}))
info("members 1 to 10", Info.create(FULL[1], FULL[2], AAGUID, OPTIONS, 1200, [2, 1], 8, 128, ["usb"], [ES256_TYPE]))
info("members 1 to 20", Info(cbor.encode(FULL)))
info("members that are not known", Info(cbor.encode({**FULL, 21: [1, 2], 22: True, 24: ["none", "packed"], 300: {}})))
info("a member of an algorithm that is not known", Info.create(["FIDO_2_1"], algorithms=[{**ES256_TYPE, "a": 1}, EDDSA_TYPE]))
info("no option, no extension", Info.create(["FIDO_2_0"], [], AAGUID, {}, 7609, []))
info("another type of credential", Info.create(["FIDO_2_0"], algorithms=[{"alg": -65535, "type": "other"}]))
created("format none, member 4", AttestationObject(cbor.encode({1: "none", 2: data(), 3: {}, 4: False})))
packed = {"alg": -7, "sig": SIGNATURE}
created("packed, an enterprise attestation", AttestationObject(cbor.encode({1: "packed", 2: data(), 3: {**packed, "x5c": [CERTIFICATE]}, 4: True})))
created("packed, a key for large blobs", AttestationObject(cbor.encode({1: "packed", 2: data(), 3: packed, 5: b"\x5a" * 32})))
created("both, and extension data", AttestationObject(cbor.encode({1: "packed", 2: data(0xC5, b"\x0b" * 96, {"credProtect": 2, "hmac-secret": True}), 3: packed, 4: False, 5: b"\x5a" * 32})))
created("members that are not known", AttestationObject.create("none", data(), {}), {6: {"prf": True}, 9: b"\x01"})
created("two certificates, a member that is not known", AttestationObject.create("packed", data(), {**packed, "x5c": [CERTIFICATE, b"\x30\x00"]}), {-1: "x"})
asserted("no credential, one listed", AssertionResponse.create(None, signed(), SIGNATURE), b"\x0c" * 16)
asserted("no credential, one of 96 bytes listed", AssertionResponse.create(None, signed(0x01), SIGNATURE), bytes(range(96)))
asserted("no credential but a user", AssertionResponse.create(None, signed(), SIGNATURE, {"id": b"\x07"}), b"\x0c")
asserted("an id of 96 bytes", AssertionResponse.create(descriptor(bytes(range(96))), signed(), SIGNATURE))
asserted("an id of 1,023 bytes", AssertionResponse.create(descriptor(b"\x0d" * 1023), signed(), SIGNATURE), b"\x0c")
asserted("a user with names", AssertionResponse.create(descriptor(b"\x0a" * 16), signed(), SIGNATURE, {"id": b"\x07" * 64, "name": "ann", "displayName": "Ann \u00c5s"}))
asserted("a user with an icon", AssertionResponse.create(descriptor(b"\x0a" * 16), signed(), SIGNATURE, {"id": b"\x07", "name": "ann", "icon": "https://a.example/i"}, 2))
asserted("a number of 1", AssertionResponse.create(descriptor(b"\x0a" * 16), signed(), SIGNATURE, {"id": b"\x07"}, 1))
asserted("extension data, and all members", AssertionResponse(cbor.encode({1: descriptor(b"\x0a" * 48), 2: signed(0x85, {"hmac-secret": b"\x0e" * 48}), 3: SIGNATURE, 4: {"id": b"\x07", "name": ""}, 5: 3, 6: True, 7: b"\x5a" * 32})))
asserted("user selected, one listed and told", AssertionResponse(cbor.encode({1: descriptor(b"\x0a" * 16), 2: signed(), 3: SIGNATURE, 6: False})), b"\x0c" * 16)
asserted("transports of a credential", AssertionResponse.create(descriptor(b"\x0a" * 16, transports=["usb"]), signed(), SIGNATURE))
asserted("a member of a user that is not known", AssertionResponse.create(descriptor(b"\x0a" * 16), signed(), SIGNATURE, {"id": b"\x07", "x": [1]}))
asserted("members that are not known", AssertionResponse.create(descriptor(b"\x0a" * 16), signed(), SIGNATURE), None, {8: {"a": 1}, 24: "", "t": False})

print('"#;')
