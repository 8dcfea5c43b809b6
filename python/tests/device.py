"""A browser and its authenticator, played by `cryptography`."""
import functools
import hashlib
import json
import struct

from cryptography.hazmat.primitives import hashes, serialization
from cryptography.hazmat.primitives.asymmetric import ec, ed25519, padding, rsa

from garvoeng import EDDSA, ES256, RS256
from garvoeng.forms import from_text, to_text

UP, UV, BE, BS, AT, ED = 1, 4, 8, 16, 64, 128


def number(value):
    """A number in the fewest bytes, big-endian."""
    return value.to_bytes((value.bit_length() + 7) // 8, "big")


def byte_string(value):
    """A CBOR byte string."""
    size = len(value)
    head = bytes([0x40 + size]) if size < 24 else bytes([0x58, size]) if size < 256 else b"\x59" + struct.pack(">H", size)
    return head + value


@functools.lru_cache(maxsize=None)
def rsa_key(bits, exponent):
    """The one RSA key of this size and this exponent: making one takes long."""
    return rsa.generate_private_key(exponent, bits)


class Device:
    def __init__(self, algorithm=ES256, credential=b"credential of 22 bytes", rp_id="example.com",
                 origin="https://example.com", bits=2048, exponent=65537, counts=True):
        self.algorithm, self.id, self.rp_id, self.origin, self.count = algorithm, credential, rp_id, origin, 0
        self.counts = counts
        self.said = {"crossOrigin": False}
        self.aaguid = bytes(range(16))
        if algorithm == ES256:
            self.key = ec.generate_private_key(ec.SECP256R1())
            numbers = self.key.public_key().public_numbers()
            self.x, self.y = numbers.x.to_bytes(32, "big"), numbers.y.to_bytes(32, "big")
        elif algorithm == RS256:
            self.key = rsa_key(bits, exponent)
            numbers = self.key.public_key().public_numbers()
            self.x, self.y = number(numbers.n), number(numbers.e)
        else:
            self.key = ed25519.Ed25519PrivateKey.generate()
            self.x = self.key.public_key().public_bytes(serialization.Encoding.Raw, serialization.PublicFormat.Raw)
            self.y = b""

    def sign(self, message):
        if self.algorithm == EDDSA:
            return self.key.sign(message)
        if self.algorithm == RS256:
            return self.key.sign(message, padding.PKCS1v15(), hashes.SHA256())
        return self.key.sign(message, ec.ECDSA(hashes.SHA256()))

    def cose_key(self):
        if self.algorithm == EDDSA:
            return bytes.fromhex("a4010103272006215820") + self.x
        if self.algorithm == RS256:
            return bytes.fromhex("a4010303390100 20") + byte_string(self.x) + b"\x21" + byte_string(self.y)
        return bytes.fromhex("a5010203262001215820") + self.x + bytes.fromhex("225820") + self.y

    def auth_data(self, flags, count, attested=False, outputs=b""):
        data = hashlib.sha256(self.rp_id.encode()).digest() + struct.pack(">BI", flags, count)
        if attested:
            data += self.aaguid + struct.pack(">H", len(self.id)) + self.id + self.cose_key()
        return data + outputs

    def client_data(self, kind, challenge):
        return json.dumps({"type": kind, "challenge": challenge, "origin": self.origin, **self.said},
                          separators=(",", ":")).encode()

    def register(self, options, flags=UP | UV | AT, packed=False, message=None, outputs=b""):
        client_data = self.client_data("webauthn.create", options["challenge"])
        data = self.auth_data(flags, 0, attested=True, outputs=outputs)
        if packed:
            signature = self.sign(message or data + hashlib.sha256(client_data).digest())
            alg = b"\x39\x01\x00" if self.algorithm == RS256 else bytes([0x20 - 1 - self.algorithm])
            statement = b"\xa2\x63alg" + alg + b"\x63sig" + byte_string(signature)
            front = b"\xa3\x63fmt\x66packed\x67attStmt" + statement
        else:
            front = b"\xa3\x63fmt\x64none\x67attStmt\xa0"
        made = front + b"\x68authData" + byte_string(data)
        return {"id": to_text(self.id), "rawId": to_text(self.id), "type": "public-key", "clientExtensionResults": {},
                "response": {"attestationObject": to_text(made), "clientDataJSON": to_text(client_data)}}

    def sign_in(self, options, user=None, flags=UP | UV, message=None, outputs=b""):
        self.count += self.counts
        client_data = self.client_data("webauthn.get", options["challenge"])
        data = self.auth_data(flags, self.count, outputs=outputs)
        signature = self.sign(message or data + hashlib.sha256(client_data).digest())
        response = {"authenticatorData": to_text(data), "clientDataJSON": to_text(client_data),
                    "signature": to_text(signature)}
        if user is not None:
            response["userHandle"] = to_text(user)
        return {"id": to_text(self.id), "rawId": to_text(self.id), "type": "public-key", "clientExtensionResults": {},
                "response": response}


def changed(response, name, change):
    """The response with a member of bytes changed."""
    inner = dict(response["response"])
    inner[name] = to_text(change(from_text(inner[name], name)))
    return {**response, "response": inner}
