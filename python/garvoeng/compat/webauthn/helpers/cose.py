"""Numbers of algorithms (RFC 9053, section 2; RFC 8812, section 2)."""
from enum import IntEnum


class COSEAlgorithmIdentifier(IntEnum):
    """The algorithms that the steps know."""

    ECDSA_SHA_256 = -7
    EDDSA = -8
    RSASSA_PKCS1_v1_5_SHA_256 = -257
