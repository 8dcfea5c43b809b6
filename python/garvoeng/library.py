"""The proved calls and their numbers."""
from __future__ import annotations

from typing import Optional, Tuple

from . import _passkey

ABI_VERSION = 5
ES256 = -7
EDDSA = -8
RS256 = -257
MAX_ID = 1023

ACCEPTED = 0
REGISTRATION_OTHER_ID = 19
LAST_STEP = 99
NO_MEMORY = 127

PROFILES = ("strict", "open", "level3")
"""Which responses a relying party accepts, in the order of the library's numbers (docs/LIMITS.md)."""

FORMATS = ("none", "packed")
"""How a credential is attested, in the order of the library's numbers: not at all, or by a packed statement of its own key."""

if _passkey.ABI_VERSION != ABI_VERSION:
    raise ImportError("the proved library has another version than this package")


def refusal_text(is_registration: bool, answer: int) -> str:
    """The text for an answer; empty if it has none."""
    return _passkey.refusal_text(is_registration, answer)


def is_canonical(value: bytes) -> bool:
    """Whether the bytes are exactly one value in canonical CBOR (CTAP 2.1)."""
    return _passkey.is_canonical(value)


def key_from_cose(value: bytes) -> Optional[Tuple[int, bytes, bytes]]:
    """The algorithm, x and y of COSE_Key bytes; None if they are not a key in canonical CBOR."""
    return _passkey.key_from_cose(value)


def key_to_cose(algorithm: int, x: bytes, y: bytes) -> bytes:
    """COSE_Key bytes; empty if the key is out of its limits, or there was no memory."""
    return _passkey.key_to_cose(algorithm, (x, y))
