"""Canonical CBOR (CTAP 2.1, section 8), and the authenticator's side of PIN/UV auth protocols one and two (6.5.6, 6.5.7)."""
import hashlib
import hmac
import os

from cryptography.hazmat.primitives import hashes
from cryptography.hazmat.primitives.asymmetric import ec
from cryptography.hazmat.primitives.ciphers import Cipher, algorithms, modes
from cryptography.hazmat.primitives.kdf.hkdf import HKDF

DEPTH = 4


class NotCanonical(ValueError):
    """Bytes that are no item of canonical CBOR, or more than one."""


def head(kind, number):
    """The head of an item, in its shortest form."""
    for place, size in ((24, 1), (25, 2), (26, 4), (27, 8)):
        if number < 24:
            return bytes([kind << 5 | number])
        if number < 1 << 8 * size:
            return bytes([kind << 5 | place]) + number.to_bytes(size, "big")
    raise ValueError(number)


def write(value):
    """A value in canonical CBOR: keys by kind, then by length, then by their bytes."""
    if value is True or value is False:
        return b"\xf5" if value else b"\xf4"
    if isinstance(value, int):
        return head(0, value) if value >= 0 else head(1, -1 - value)
    if isinstance(value, bytes):
        return head(2, len(value)) + value
    if isinstance(value, str):
        text = value.encode()
        return head(3, len(text)) + text
    if isinstance(value, (list, tuple)):
        return head(4, len(value)) + b"".join(map(write, value))
    members = sorted(((write(key), write(each)) for key, each in value.items()), key=lambda m: (m[0][0] >> 5, len(m[0]), m[0]))
    return head(5, len(members)) + b"".join(key + each for key, each in members)


class Reader:
    """Reads one item after another."""

    def __init__(self, data):
        self.data, self.place = data, 0

    def take(self, size):
        if size > len(self.data) - self.place:
            raise NotCanonical("it ends too early")
        self.place += size
        return self.data[self.place - size:self.place]

    def number(self, short):
        if short < 24:
            return short
        if short > 27:
            raise NotCanonical("a head of no known length")
        size = 1 << short - 24
        number = int.from_bytes(self.take(size), "big")
        if number < (24 if size == 1 else 1 << 4 * size):
            raise NotCanonical("a head that is too long")
        return number

    def item(self, depth):
        first = self.take(1)[0]
        kind, short = first >> 5, first & 31
        if kind == 7 and short in (20, 21):
            return short == 21
        if kind > 5 or kind > 3 and depth == 0:
            raise NotCanonical("an item that CTAP does not have")
        number = self.number(short)
        if kind < 2:
            return number if kind == 0 else -1 - number
        if kind == 2:
            return bytes(self.take(number))
        if kind == 3:
            return str(self.take(number), "utf-8")
        if kind == 4:
            return [self.item(depth - 1) for _ in range(number)]
        return self.members(number, depth - 1)

    def members(self, number, depth):
        made, last = {}, None
        for _ in range(number):
            begun = self.place
            key = self.item(0)
            written = self.data[begun:self.place]
            order = (written[0] >> 5, len(written), written)
            if last is not None and order <= last:
                raise NotCanonical("keys out of order")
            last = order
            made[key] = self.item(depth)
        return made


def read(data):
    """The one item that the bytes are. Raises `NotCanonical`."""
    reader = Reader(data)
    try:
        value = reader.item(DEPTH)
    except UnicodeDecodeError:
        raise NotCanonical("a text that is none") from None
    if reader.place != len(data):
        raise NotCanonical("more than one item")
    return value


def sha256(data):
    return hashlib.sha256(data).digest()


def authenticated(key, message):
    return hmac.new(key, message, "sha256").digest()


class One:
    """PIN/UV auth protocol one."""

    number = 1

    def __init__(self):
        self.regenerate()
        self.reset_token()

    def regenerate(self):
        """A fresh key pair."""
        self.key = ec.generate_private_key(ec.SECP256R1())

    def reset_token(self):
        """A fresh pinUvAuthToken, which has no permissions and is not in use."""
        self.token = os.urandom(32)
        self.permissions, self.rp_id, self.verified, self.in_use = 0, None, False, False

    def use_token(self, permissions, rp_id):
        self.permissions, self.rp_id, self.verified, self.in_use = permissions, rp_id, True, True

    def public_key(self):
        point = self.key.public_key().public_numbers()
        return {1: 2, 3: -25, -1: 1, -2: point.x.to_bytes(32, "big"), -3: point.y.to_bytes(32, "big")}

    def decapsulate(self, peer):
        """The shared secret. Raises ValueError of what is no point of the curve."""
        if not isinstance(peer, dict) or (peer.get(1), peer.get(3), peer.get(-1)) != (2, -25, 1):
            raise ValueError
        x, y = peer.get(-2), peer.get(-3)
        if not isinstance(x, bytes) or not isinstance(y, bytes) or len(x) != 32 or len(y) != 32:
            raise ValueError
        point = ec.EllipticCurvePublicNumbers(int.from_bytes(x, "big"), int.from_bytes(y, "big"), ec.SECP256R1()).public_key()
        return self.secret(self.key.exchange(ec.ECDH(), point))

    def secret(self, z):
        return sha256(z)

    def encrypt(self, secret, plain):
        return cipher(secret, bytes(16)).encryptor().update(plain)

    def decrypt(self, secret, sealed):
        """Raises ValueError where it is no number of whole blocks."""
        if len(sealed) % 16:
            raise ValueError
        return cipher(secret, bytes(16)).decryptor().update(sealed)

    def verify(self, key, message, signature):
        return hmac.compare_digest(authenticated(key, message)[:16], signature)


class Two(One):
    """PIN/UV auth protocol two: a secret is the key for HMAC and that for AES."""

    number = 2

    def secret(self, z):
        return b"".join(HKDF(hashes.SHA256(), 32, bytes(32), info).derive(z) for info in (b"CTAP2 HMAC key", b"CTAP2 AES key"))

    def encrypt(self, secret, plain):
        iv = os.urandom(16)
        return iv + cipher(secret[32:], iv).encryptor().update(plain)

    def decrypt(self, secret, sealed):
        if len(sealed) < 16 or len(sealed) % 16:
            raise ValueError
        return cipher(secret[32:], sealed[:16]).decryptor().update(sealed[16:])

    def verify(self, key, message, signature):
        return hmac.compare_digest(authenticated(key[:32], message), signature)


def cipher(key, iv):
    return Cipher(algorithms.AES(key), modes.CBC(iv))
