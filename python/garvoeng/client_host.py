"""The computations for a PIN that the program leaves to its host (CTAP 2.1, sections 6.5.6 and 6.5.7), by `cryptography`."""
from __future__ import annotations

import os
from typing import Callable, Dict

from cryptography.hazmat.primitives import hashes, hmac
from cryptography.hazmat.primitives.asymmetric import ec
from cryptography.hazmat.primitives.ciphers import Cipher, algorithms, modes
from cryptography.hazmat.primitives.kdf.hkdf import HKDF


class BadPoint(ValueError):
    """The key sent a point that does not lie on the curve."""


def _bytes_of(point: ec.EllipticCurvePublicNumbers) -> bytes:
    return point.x.to_bytes(32, "big") + point.y.to_bytes(32, "big")


def _agree(key: bytes, iv: bytes, text: bytes) -> bytes:
    """A new public key on P-256, x and y, and the x of the product of its private key and the point `text`: 96 bytes."""
    if len(text) != 64:
        raise ValueError("a point has 64 bytes")
    x, y = (int.from_bytes(part, "big") for part in (text[:32], text[32:]))
    try:
        point = ec.EllipticCurvePublicNumbers(x, y, ec.SECP256R1()).public_key()
    except ValueError:
        raise BadPoint("the key's point does not lie on the curve") from None
    own = ec.generate_private_key(ec.SECP256R1())
    return _bytes_of(own.public_key().public_numbers()) + own.exchange(ec.ECDH(), point)


def _derive(key: bytes, iv: bytes, text: bytes) -> bytes:
    """HKDF-SHA-256 with a salt of 32 zeros, and `text` as its info: 32 bytes."""
    return HKDF(hashes.SHA256(), 32, bytes(32), text).derive(key)


def _encrypt(key: bytes, iv: bytes, text: bytes) -> bytes:
    encryptor = Cipher(algorithms.AES(key), modes.CBC(iv)).encryptor()
    return encryptor.update(text) + encryptor.finalize()


def _decrypt(key: bytes, iv: bytes, text: bytes) -> bytes:
    decryptor = Cipher(algorithms.AES(key), modes.CBC(iv)).decryptor()
    return decryptor.update(text) + decryptor.finalize()


def _seal(key: bytes, iv: bytes, text: bytes) -> bytes:
    """Encrypts under a new IV, which comes before the ciphertext."""
    iv = os.urandom(16)
    return iv + _encrypt(key, iv, text)


def _authenticate(key: bytes, iv: bytes, text: bytes) -> bytes:
    made = hmac.HMAC(key, hashes.SHA256())
    made.update(text)
    return made.finalize()


_OPERATIONS: Dict[str, Callable[[bytes, bytes, bytes], bytes]] = {
    "agree": _agree, "derive": _derive, "seal": _seal, "encrypt": _encrypt, "decrypt": _decrypt, "authenticate": _authenticate}


def computed(operation: str, key: bytes, iv: bytes, text: bytes) -> bytes:
    """The answer to a request of the program. Raises `BadPoint`, ValueError for sizes that the operation does not have, and KeyError for an
    unknown operation."""
    return _OPERATIONS[operation](key, iv, text)
