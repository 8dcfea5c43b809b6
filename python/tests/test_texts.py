"""The text of each answer, as docs/REFUSALS.md has them."""
from garvoeng import library

SIGN_IN = [
    "the session is not open for sign-in",
    "the credential is not one that the session allows",
    "no credential with this id is registered",
    "the credential is not the user's",
    "the client data cannot be read",
    "the client data are not of a sign-in",
    "the challenge is not the session's",
    "the origin is not the relying party's",
    "token binding is used",
    "the authenticator data cannot be read, or they attest a credential",
    "the authenticator data are for another relying party",
    "the user was not present",
    "the user was not verified",
    "the signature is not valid",
    "the signature counter is not greater than the one stored",
    "the credential's eligibility for backup has changed",
    "the page is in another site's frame",
    "the page at the top is none that the relying party names",
]

REGISTRATION = [
    "the session is not open for registration",
    "the client data cannot be read",
    "the client data are not of a registration",
    "the challenge is not the session's",
    "the origin is not the relying party's",
    "token binding is used",
    "the attestation object cannot be read, or attests no credential",
    "the authenticator data are for another relying party",
    "the user was not present",
    "the user was not verified",
    "the key's algorithm was not offered",
    "the attestation statement's format is unknown",
    "the attestation statement is not valid",
    "the attestation is not accepted",
    "the credential is registered",
    "there is no room for another credential",
    "the page is in another site's frame",
    "the page at the top is none that the relying party names",
    "the response's id is not the attested credential's",
]

LIMITS = [
    "the rp id is not UTF-8",
    "an origin is not UTF-8",
    "the challenge is not of 32 bytes",
    "the algorithm of the credential's key is not known",
    "the x of the credential's key is out of its limits",
    "the y of the credential's key is out of its limits",
    "the algorithm of the verified key is not known",
    "the x of the verified key is out of its limits",
    "the y of the verified key is out of its limits",
    "the room for the message is too small",
    "the room for the signature is too small",
    "the profile is not known",
    "a top origin is not UTF-8",
]


def test_texts():
    assert [library.refusal_text(False, number) for number in range(1, 19)] == SIGN_IN
    assert [library.refusal_text(True, number) for number in range(1, 20)] == REGISTRATION
    assert [library.refusal_text(False, 101 + place) for place in range(len(LIMITS))] == LIMITS
    assert [library.refusal_text(True, 101 + place) for place in range(len(LIMITS))] == LIMITS
    assert library.refusal_text(False, 0) == "accepted" and library.refusal_text(True, 127) == "out of memory"
    others = [*range(20, 101), *range(101 + len(LIMITS), 127), 128, 256, 2**32 - 1]
    assert not any(library.refusal_text(which, number) for which in (False, True) for number in others)
    assert not library.refusal_text(False, 19)
