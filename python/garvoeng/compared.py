"""The bytes that each step looks at: those of the response beside those expected. They are only shown; nothing here verifies them."""
from __future__ import annotations

import json
import re
from typing import Any, Callable, Dict, List, NamedTuple, Optional, Sequence

from .decoded import algorithm_text
from .forms import to_text
from .records import Credential

Line = Dict[str, Optional[str]]

_NOT_THERE = "not there"
_OUTSIDE = re.compile(r"[^\x20-\x7e]")


class Asked(NamedTuple):
    """The signature that the library asked to be verified, and the result."""

    algorithm: int
    x: bytes
    y: bytes
    message: bytes
    signature: bytes
    valid: bool


class Facts(NamedTuple):
    """What is known of a response and its surroundings. `session` is of either kind, or None."""

    given: Dict[str, Any]
    session: Any
    credential: Optional[Credential]
    parts: Dict[str, Optional[bytes]]
    client_data: Dict[str, Any]
    auth: Dict[str, Any]
    attestation: Dict[str, Any]
    asked: Optional[Asked]
    rp_id_hash: bytes


def _escaped(letter: "re.Match[str]") -> str:
    units = letter[0].encode("utf-16-be", "surrogatepass").hex()
    return "".join(f"\\u{units[at:at + 4]}" for at in range(0, len(units), 4))


def _json_text(value: Any) -> str:
    """A JSON value in a single form, in which letters that look alike differ."""
    return _OUTSIDE.sub(_escaped, json.dumps(value, ensure_ascii=False, separators=(",", ":")))


def _text(of: str, value: str) -> Line:
    return {"of": of, "text": value, "hex": None}


def _json(of: str, value: Any) -> Line:
    return _text(of, _json_text(value))


def _bytes(of: str, value: Optional[bytes]) -> Line:
    return _text(of, _NOT_THERE) if value is None else {"of": of, "text": None, "hex": value.hex()}


def _digits(of: str, value: Optional[str]) -> Line:
    return _bytes(of, None if value is None else bytes.fromhex(value))


def _number(of: str, value: Optional[int]) -> Line:
    return {"of": of, "text": "null" if value is None else str(value), "hex": None if value is None else f"{value:08x}"}


def _flags(of: str, facts: Facts) -> Line:
    flags = facts.auth["flags"]
    return _text(of, _NOT_THERE) if flags is None else {"of": of, "text": flags["text"], "hex": flags["hex"]}


def _said(name: str, facts: Facts) -> Line:
    members, of = facts.client_data["members"] or {}, f"the client data's {name}"
    return _json(of, members[name]) if name in members else _text(of, _NOT_THERE)


def _listed(of: str, values: Sequence[Any]) -> List[Line]:
    return [_bytes(of, one) if isinstance(one, bytes) else _json(of, one) for one in values] or [_text(of, "none")]


def _session(facts: Facts) -> List[Line]:
    return [_text("the session", "none is open" if facts.session is None else "open, for this kind of response")]


def _readable(facts: Facts) -> List[Line]:
    return [_bytes("clientDataJSON", facts.parts["clientDataJSON"])]


def _challenge(facts: Facts) -> List[Line]:
    own = _text("the session's", _NOT_THERE) if facts.session is None else _json("the session's", to_text(facts.session.challenge))
    return [_said("challenge", facts), own]


def _origin(facts: Facts) -> List[Line]:
    return [_said("origin", facts), *_listed("an origin of the site's", facts.given["origins"])]


def _top_origin(facts: Facts) -> List[Line]:
    return [_said("topOrigin", facts), *_listed("a top origin that may frame the site", facts.given["top_origins"])]


def _frames(facts: Facts) -> List[Line]:
    return [_said("crossOrigin", facts), *_top_origin(facts)]


def _binding(facts: Facts) -> List[Line]:
    return [_said("tokenBinding", facts), _text("the profile", facts.given["profile"])]


def _party(facts: Facts) -> List[Line]:
    return [_digits("rpIdHash of the authenticator data", facts.auth["rp_id_hash"]),
            _bytes(f"SHA-256 of {_json_text(facts.given['rp_id'])}", facts.rp_id_hash)]


def _present(facts: Facts) -> List[Line]:
    return [_flags("the flags of the authenticator data", facts)]


def _present_once(facts: Facts) -> List[Line]:
    conditional = facts.session is not None and facts.session.conditional
    return [*_present(facts), _text("the session", "begun as conditional" if conditional else "not begun as conditional")]


def _verified(facts: Facts) -> List[Line]:
    required = facts.session is not None and facts.session.user_verification
    return [*_present(facts), _text("user verification", "required" if required else "not required")]


def _signature(facts: Facts, other: Line) -> List[Line]:
    """The signature that the library asked to be verified, and the result."""
    if facts.asked is None:
        return [other, _text("the verifier", "was not asked")]
    algorithm, x, y, message, signature, valid = facts.asked
    return [_text("the key's algorithm", algorithm_text(str(algorithm))), _bytes("the key's x", x), *([_bytes("the key's y", y)] if y else []),
            _bytes("the message: authenticator data, then SHA-256 of the client data", message),
            _bytes("SHA-256 of the client data", message[-32:]), *_readable(facts), _bytes("the signature", signature),
            _text("the verifier", "the signature is valid" if valid else "the signature is not valid")]


def _offered(facts: Facts) -> List[Line]:
    attested = facts.auth["attested"]
    found = _NOT_THERE if attested is None else attested["key"]["algorithm"] or _NOT_THERE
    offered = _NOT_THERE if facts.session is None else ", ".join(algorithm_text(str(one)) for one in facts.session.algorithms)
    return [_text("the key's algorithm", found), _text("offered", offered)]


def _other_id(facts: Facts) -> List[Line]:
    attested = facts.auth["attested"]
    return [_bytes("rawId", facts.parts["rawId"]), _digits("the attested credential's id", None if attested is None else attested["id"])]


def _format(facts: Facts) -> Line:
    return _text("the format", facts.attestation["format"] or _NOT_THERE)


def _known_format(facts: Facts) -> List[Line]:
    asked = facts.session is not None and facts.session.attestation
    return [_format(facts), _text("an attestation", "was asked for" if asked else "was not asked for")]


def _statement(facts: Facts) -> List[Line]:
    own = facts.attestation["signature"]
    return [_format(facts), _text("the statement", facts.attestation["statement"] or _NOT_THERE), *_signature(facts, _digits("signature", own))]


def _accepted(facts: Facts) -> List[Line]:
    return [_format(facts), _text("the site accepts no attestation", "yes" if facts.given["accept_none"] else "no"),
            _text("the site accepts self attestation", "yes" if facts.given["accept_self"] else "no")]


def _registered(facts: Facts) -> List[Line]:
    return [_bytes("the id", facts.parts["rawId"]), _text("a credential with this id", "is registered" if facts.given["registered"] else "is not registered")]


def _allowed(facts: Facts) -> List[Line]:
    return [_bytes("rawId", facts.parts["rawId"]), *_listed("a credential that the session allows", () if facts.session is None else facts.session.allow)]


def _known(facts: Facts) -> List[Line]:
    row = facts.credential
    return [_bytes("rawId", facts.parts["rawId"]), _bytes("the row's id", None if row is None else row.id),
            _text("the row", "none" if row is None else "retired" if row.retired else "not retired")]


def _user(facts: Facts) -> List[Line]:
    return [_bytes("the session's user handle", None if facts.session is None else facts.session.user),
            _bytes("the response's user handle", facts.parts["userHandle"]),
            _bytes("the row's user handle", None if facts.credential is None else facts.credential.user)]


def _eligible(facts: Facts) -> List[Line]:
    was = None if facts.credential is None else facts.credential.eligible
    said = "it is not known whether it was eligible (BE)" if was is None else "it was eligible (BE)" if was else "it was not eligible (BE)"
    return [*_present(facts), _text("the row", said)]


def _type(wanted: str) -> Callable[[Facts], List[Line]]:
    return lambda facts: [_said("type", facts), _json("expected", wanted)]


Compared = Callable[[Facts], List[Line]]
_OF_BOTH: Dict[str, Compared] = {
    "SessionNotOpen": _session, "UnreadableClientData": _readable, "WrongChallenge": _challenge, "WrongOrigin": _origin, "CrossOrigin": _frames,
    "WrongTopOrigin": _top_origin, "TokenBinding": _binding, "WrongRelyingParty": _party, "UserNotVerified": _verified,
}
_TABLES: Dict[str, Dict[str, Compared]] = {
    "registration": {
        **_OF_BOTH, "WrongType": _type("webauthn.create"), "UserNotPresent": _present_once, "AlgorithmNotOffered": _offered, "OtherId": _other_id,
        "BadAttestationObject": lambda facts: [_bytes("attestationObject", facts.parts["attestationObject"])], "UnknownFormat": _known_format,
        "BadStatement": _statement, "AttestationNotAccepted": _accepted, "CredentialRegistered": _registered,
        "TableFull": lambda facts: [_text("room for another credential", "none" if facts.given["full"] else "there is room")],
    },
    "sign-in": {
        **_OF_BOTH, "WrongType": _type("webauthn.get"), "UserNotPresent": _present, "CredentialNotAllowed": _allowed, "UnknownCredential": _known,
        "OtherUser": _user, "EligibilityChanged": _eligible,
        "BadAuthenticatorData": lambda facts: [_bytes("authenticatorData", facts.parts["authenticatorData"]), _flags("the flags", facts)],
        "BadSignature": lambda facts: _signature(facts, _bytes("signature", facts.parts["signature"])),
        "CounterNotGreater": lambda facts: [
            _number("the counter received", facts.auth["sign_count"]),
            _number("the counter stored", None if facts.credential is None else facts.credential.sign_count)],
    },
}


def compared_at(kind: str, name: str, facts: Facts) -> List[Line]:
    """What a step of this name looks at, as text and as hexadecimal digits; nothing for an unknown step."""
    found = _TABLES[kind].get(name)
    return [] if found is None else found(facts)
