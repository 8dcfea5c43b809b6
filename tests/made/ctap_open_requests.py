#!/usr/bin/python3
"""Prints tests/crates/ctap_tests/ctap_open_requests_made.rt.txt: makeCredential and getAssertion requests that python-fido2 0.9.1
(Debian's python3-fido2) makes. A line is a name, the command (c or a), the client data's hash, the rp id and name, the user's
id, name and display name, the algorithms, the ids, the extensions' inputs, the options, pinUvAuthParam and its protocol, and
the request. Bytes are in hexadecimal digits or words of `test_words`, - is what is absent."""
import hashlib
import re

from fido2 import cbor
from fido2.ctap2.base import Ctap2

HASH = hashlib.sha256(b"client data").digest()
X, Y = bytes(range(32)), bytes(range(32, 64))


def words(content):
    """Hexadecimal digits, where a byte stands 24 times or more in a row as DIGITS*COUNT."""
    pieces = re.findall(rb"((.)\2{23,})|((?:(?!(.)\4{23}).)+)", content, re.DOTALL)
    return " ".join(f"{run[:1].hex()}*{len(run)}" if run else rest.hex() for run, _, rest, _ in pieces)


class Key(Ctap2):
    def __init__(self):
        pass

    def send_cbor(self, command, data=None, *_, **__):
        self.sent = bytes([command]) + cbor.encode(data)


def options_of(text):
    return None if text == "-" else {name: value == "true" for name, value in (each.split(":") for each in text.split(","))}


def inputs_of(text, command):
    """The extensions' inputs by their names, as a host of python-fido2 makes them."""
    if text == "-":
        return None
    inputs = {}
    for each in filter(None, text.split(";")):
        name, _, value = each.partition("=")
        if name == "hmac-secret" and command == "a":
            enc, auth, protocol = value.split(",")
            inputs[name] = {1: {1: 2, 3: -25, -1: 1, -2: X, -3: Y}, 2: bytes.fromhex(enc), 3: bytes.fromhex(auth)}
            if protocol != "1":
                inputs[name][4] = int(protocol)
        elif name == "credProtect":
            inputs[name] = int(value)
        elif value:
            inputs[name] = bytes.fromhex(value)
        else:
            inputs[name] = True
    return inputs


def row(name, command, rp="example.com", rp_name=None, user=b"\x01", user_name=None, display=None, algs=(-7,), ids=(), inputs="-",
        options="-", auth=None):
    key = Key()
    listed = [{"id": id, "type": "public-key"} for id in ids] or None
    param, protocol = auth or (None, None)
    if command == "c":
        party = {"id": rp, **({"name": rp_name} if rp_name else {})}
        account = {"id": user, **({"name": user_name} if user_name else {}), **({"displayName": display} if display else {})}
        wanted = [{"type": "public-key", "alg": alg} for alg in algs]
        key.make_credential(HASH, party, account, wanted, listed, inputs_of(inputs, command), options_of(options), param, protocol)
    else:
        key.get_assertion(rp, HASH, listed, inputs_of(inputs, command), options_of(options), param, protocol)
    parts = [
        name,
        command,
        HASH.hex(),
        rp,
        rp_name or "-",
        user.hex(),
        user_name or "-",
        display or "-",
        ",".join(map(str, algs)),
        ",".join(map(words, ids)),
        inputs,
        options,
        param.hex() if param else "-",
        str(protocol or "-"),
        words(key.sent),
    ]
    print("|".join(parts))


print("//! Requests that python-fido2 0.9.1 makes: tests/made/ctap_open_requests.py prints this file.")
print()
print("use test_words::Table;")
print()
print("/// A name, the command, the hash, the rp's id and name, the user's id, name and display name, algorithms, ids, inputs,")
print("/// options, param and protocol, the request.")
print('pub const MADE: Table = r#"', end="")
ONE, TWO = bytes(range(16)), bytes(range(32))
row("the least", "c")
row("names", "c", rp_name="Example", user_name="alex", display="Alex M\u00fcller")
row("a name alone", "c", display="Alex")
row("a user of 64 bytes", "c", user=b"\x07" * 64)
row("three algorithms", "c", algs=(-7, -8, -257))
row("algorithms of each length", "c", algs=(-1, -24, -25, -256, -65537, 0, 23, 24, 2147483647))
row("an id of 1,023 bytes", "c", ids=(b"\x0a" * 1023,))
row("ids of several sizes", "c", ids=(b"\x0a", b"\x0b" * 16, b"\x0c" * 96, b"\x0d" * 256))
row("twelve ids", "c", ids=tuple(bytes([n]) * 64 for n in range(12)))
row("resident and verified", "c", options="rk:true,uv:true")
row("resident, by a PIN of protocol one", "c", options="rk:true", auth=(ONE, 1))
row("resident, by a PIN of protocol two", "c", options="rk:true", auth=(TWO, 2))
row("options that are false", "c", options="rk:false,uv:false")
row("each extension", "c", inputs="credBlob=0102;credProtect=2;hmac-secret;largeBlobKey;minPinLength")
row("credProtect", "c", inputs="credProtect=3")
row("hmac-secret", "c", inputs="hmac-secret")
row("no input", "c", inputs="")
row("everything", "c", rp_name="Example", user_name="alex", display="Alex", algs=(-7, -8), ids=(b"\x0a" * 64, b"\x0b" * 96),
    inputs="credBlob=01;credProtect=1;hmac-secret;largeBlobKey;minPinLength", options="rk:true", auth=(TWO, 2))
row("the least", "a")
row("one id", "a", ids=(b"\x0a" * 96,))
row("an id of 1,023 bytes", "a", ids=(b"\x0a" * 1023,))
row("twelve ids", "a", ids=tuple(bytes([n]) * 64 for n in range(12)))
row("without presence", "a", options="up:false")
row("verified", "a", options="uv:true")
row("presence and verification", "a", options="up:true,uv:true")
row("by a PIN of protocol one", "a", auth=(ONE, 1))
row("by a PIN of protocol two", "a", auth=(TWO, 2), ids=(b"\x0a" * 16,))
row("hmac-secret by protocol one", "a", inputs=f"hmac-secret={'aa' * 32},{'bb' * 16},1")
row("hmac-secret by protocol two", "a", inputs=f"hmac-secret={'aa' * 80},{'bb' * 32},2")
row("each extension", "a", inputs=f"credBlob;hmac-secret={'aa' * 64},{'bb' * 16},1;largeBlobKey")
row("an rp id of 253 bytes", "a", rp="a" * 253)
print('"#;')
