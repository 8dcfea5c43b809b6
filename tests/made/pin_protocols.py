#!/usr/bin/python3
"""Prints tests/crates/ctap_tests/pin_protocols_made.rt.txt: requests of clientPIN that python-fido2 0.9.1 (Debian's python3-fido2)
makes of PINs, and tokens that it reads. A line is a name, the protocol, the kind (t token by PIN, p getPinToken, u token by
verification, s set, c change), the key's point, the PIN, the new PIN, permissions, rp id, what the host is asked with its
answers, the request, the key's reply, the token, a hash and its pinUvAuthParam. Bytes are in hexadecimal digits."""
import hashlib
import os

from cryptography.hazmat.backends import default_backend
from cryptography.hazmat.primitives.asymmetric import ec
from fido2 import cbor
from fido2.ctap2.base import Ctap2
from fido2.ctap2.pin import ClientPin, PinProtocolV1, PinProtocolV2
from fido2.utils import hmac_sha256

BACKEND = default_backend()


def private_key(name):
    return ec.derive_private_key(int.from_bytes(hashlib.sha256(name.encode()).digest(), "big") >> 1, ec.SECP256R1(), BACKEND)


def point(key):
    numbers = key.public_key().public_numbers()
    return numbers.x.to_bytes(32, "big"), numbers.y.to_bytes(32, "big")


class Asked:
    """What python-fido2 computes, as it would be asked of a host."""

    def __init__(self, protocol, name):
        self.protocol, self.name, self.asks, self.count = protocol, name, [], 0
        encrypt, decrypt, authenticate, kdf = protocol.encrypt, protocol.decrypt, protocol.authenticate, protocol.kdf
        two = protocol.VERSION == 2
        self.secret = None

        def asked(operation, key, iv, text, answer):
            self.asks.append(f"{operation}:{key.hex()}:{iv.hex()}:{text.hex()}:{answer.hex()}")

        def new_kdf(z):
            self.z, self.secret = z, kdf(z)
            return self.secret

        def encapsulate(peer):
            own = private_key(self.name + " client")
            generate, ec.generate_private_key = ec.generate_private_key, lambda curve, backend: own
            key, secret = type(protocol).encapsulate(protocol, peer)
            ec.generate_private_key = generate
            x, y = point(own)
            assert (key[-2], key[-3]) == (x, y)
            asked("agree", b"", b"", peer[-2] + peer[-3], x + y + self.z)
            if two:
                asked("derive", self.z, b"", b"CTAP2 HMAC key", secret[:32])
                asked("derive", self.z, b"", b"CTAP2 AES key", secret[32:])
            return key, secret

        def new_encrypt(key, text):
            answer = encrypt(key, text)
            if two:
                asked("seal", key[32:], b"", text, answer)
            else:
                asked("encrypt", key, bytes(16), text, answer)
            return answer

        def new_decrypt(key, text):
            answer = decrypt(key, text)
            if two:
                asked("decrypt", key[32:], text[:16], text[16:], answer)
            else:
                asked("decrypt", key, bytes(16), text, answer)
            return answer

        def new_authenticate(key, message):
            asked("authenticate", key[:32] if two else key, b"", message, hmac_sha256(key[:32] if two else key, message))
            return authenticate(key, message)

        self.encrypt = encrypt
        protocol.kdf, protocol.encapsulate, protocol.encrypt = new_kdf, encapsulate, new_encrypt
        protocol.decrypt, protocol.authenticate = new_decrypt, new_authenticate


class Key(Ctap2):
    """A key that gives its point and a token, and keeps what it was sent."""

    def __init__(self, asked, token, permissions):
        self.asked, self.token, self.sent = asked, token, []
        self.own = private_key(asked.name + " key")
        options = {"clientPin": True, "pinUvAuthToken": permissions}
        self._info = type("Info", (), {"options": options, "pin_uv_protocols": [asked.protocol.VERSION]})()

    info = property(lambda self: self._info)

    def send_cbor(self, command, data=None, **_):
        self.sent.append(bytes([command]) + cbor.encode(data))
        if data[2] == ClientPin.CMD.GET_KEY_AGREEMENT:
            x, y = point(self.own)
            self.reply = {1: {1: 2, 3: -25, -1: 1, -2: x, -3: y}}
        elif data[2] in (3, 4):
            self.reply = {}
        else:
            self.reply = {2: self.asked.encrypt(self.asked.secret, self.token)}
        return self.reply


def row(name, protocol, kind, pin="", new="", permissions=None, rp_id=None, token=bytes(range(32))):
    asked = Asked(protocol, f"{name} {protocol.VERSION}")
    key = Key(asked, token, kind in "tu")
    client = ClientPin(key, protocol)
    found, param, hash = b"", b"", hashlib.sha256(name.encode()).digest()
    if kind in "tp":
        found = client.get_pin_token(pin, permissions, rp_id)
    elif kind == "u":
        found = client.get_uv_token(permissions, rp_id)
    elif kind == "s":
        client.set_pin(new)
    else:
        client.change_pin(pin, new)
    if found:
        assert found == token
        if protocol.VERSION == 1:
            # The token is no pair of keys here, unlike the shared secret.
            param = type(protocol).authenticate(protocol, token, hash)
        else:
            param = hmac_sha256(token, hash)
        asked.asks.append(f"authenticate:{token.hex()}::{hash.hex()}:{hmac_sha256(token, hash).hex()}")
    x, y = point(key.own)
    assert key.sent[0] == bytes.fromhex("06a201") + bytes([protocol.VERSION]) + bytes.fromhex("0202")
    reply = b"\x00" + (cbor.encode(key.reply) if key.reply else b"")
    parts = [
        name,
        str(protocol.VERSION),
        kind,
        (x + y).hex(),
        pin.encode().hex(),
        new.encode().hex(),
        "-" if permissions is None else str(int(permissions)),
        rp_id or "-",
        " ".join(asked.asks),
        key.sent[1].hex(),
        reply.hex(),
        found.hex(),
        hash.hex(),
        param.hex(),
    ]
    print("|".join(parts))


count = 0


def urandom(size):
    global count
    count += 1
    return hashlib.sha256(b"random %d" % count).digest()[:size]


os.urandom = urandom
print("//! Requests of clientPIN that python-fido2 0.9.1 makes, and tokens that it reads: tests/made/pin_protocols.py prints this file.")
print()
print("use test_words::Table;")
print()
print("/// A name, the protocol, the kind, the key's point, the PIN, the new PIN, permissions, rp id, asks and answers, the request,")
print("/// the key's reply, the token, a hash, its pinUvAuthParam.")
print('pub const MADE: Table = r#"', end="")
for protocol in (PinProtocolV1, PinProtocolV2):
    row("a PIN of four digits", protocol(), "t", "1234", permissions=3, rp_id="example.com")
    row("permissions without an rp id", protocol(), "t", "1234", permissions=4)
    row("a PIN of letters", protocol(), "p", "a much longer PIN, of fifty bytes and a few more still!!")
    row("a PIN of four code points of four bytes", protocol(), "p", "\U0001f511\U0001f512\U0001f513\U0001f510")
    row("verification", protocol(), "u", permissions=1, rp_id="a.example.com")
    row("verification without an rp id", protocol(), "u", permissions=32)
    row("a first PIN", protocol(), "s", new="1234")
    row("a first PIN of 63 bytes", protocol(), "s", new="1" * 63)
    row("another PIN", protocol(), "c", "1234", "s\u00e9same ouvre-toi")
row("a token of 16 bytes", PinProtocolV1(), "p", "1234", token=bytes(range(16)))
print('"#;')
