"""Signatures by `cryptography`: whether one is valid for a message under a public key."""
from __future__ import annotations

from functools import lru_cache
from typing import Callable

from cryptography.exceptions import InvalidSignature
from cryptography.hazmat.primitives import hashes
from cryptography.hazmat.primitives.asymmetric import ec, ed25519, padding, rsa

from .library import EDDSA, ES256, RS256

MAX_KEYS = 4096
"""How many public keys are kept from one sign-in to the next. The least used one is dropped."""


@lru_cache(MAX_KEYS)
def _checked_by(algorithm: int, x: bytes, y: bytes) -> Callable[[bytes, bytes], None]:
    """The function that verifies with this key: takes a signature and a message, as in `cryptography`. Making a key anew takes a quarter of
    the time of a verification. Raises ValueError if there is no such key."""
    if algorithm == ES256:
        es256 = ec.EllipticCurvePublicKey.from_encoded_point(ec.SECP256R1(), b"\x04" + x + y)
        digest = ec.ECDSA(hashes.SHA256())
        return lambda signature, message: es256.verify(signature, message, digest)
    if algorithm == EDDSA:
        return ed25519.Ed25519PublicKey.from_public_bytes(x).verify
    if algorithm == RS256:
        rs256 = rsa.RSAPublicNumbers(int.from_bytes(y, "big"), int.from_bytes(x, "big")).public_key()
        return lambda signature, message: rs256.verify(signature, message, padding.PKCS1v15(), hashes.SHA256())
    raise ValueError("the algorithm is not known")


def is_valid(algorithm: int, x: bytes, y: bytes, message: bytes, signature: bytes) -> bool:
    """Whether the signature is valid: ES256 over P-256, in DER, EdDSA over Ed25519, or RS256, which is PKCS #1 v1.5 with SHA-256; for RS256
    x is the modulus and y the public exponent."""
    try:
        _checked_by(algorithm, x, y)(signature, message)
    except (InvalidSignature, ValueError):
        return False
    return True
