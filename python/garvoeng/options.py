"""The options for a page: PublicKeyCredentialCreationOptionsJSON and PublicKeyCredentialRequestOptionsJSON (WebAuthn Level 3, section
5.1)."""
from __future__ import annotations

import json
from itertools import accumulate
from typing import Any, Dict, Iterable, Mapping, Optional, Sequence, Union

from . import forms, limits
from .answers import kind_of
from .errors import BadInput
from .records import Credential, RegistrationSession, SignInSession

REQUIREMENTS = ("required", "preferred", "discouraged")
ATTACHMENTS = ("platform", "cross-platform")
ATTESTATIONS = ("none", "indirect", "direct", "enterprise")
HINTS = ("security-key", "client-device", "hybrid")
MAX_OWN = 32_768
"""The greatest total size, in bytes, of the listed ids if a site gives no list."""

Requirement = Union[bool, str]
Ids = Iterable[Union[bytes, Credential]]


def _one_of(value: Any, what: str, texts: Sequence[str]) -> str:
    if not isinstance(value, str) or value not in texts:
        raise BadInput(f"{what} is one of {', '.join(texts)}: not {value!r}")
    return value


def _requirement_of(value: Requirement, what: str, if_false: str) -> str:
    """True means `required`; a text stands for itself."""
    if value is True or value is False:
        return "required" if value else if_false
    if not isinstance(value, str) or value not in REQUIREMENTS:
        raise BadInput(f"{what} is True, False or one of {', '.join(REQUIREMENTS)}: not {value!r}")
    return value


def user_verification_of(value: Requirement) -> str:
    """False means `preferred`."""
    return _requirement_of(value, "user_verification", "preferred")


def _extensions(value: Mapping[str, Any]) -> Dict[str, Any]:
    """Extensions as JSON values."""
    if not isinstance(value, Mapping):
        raise BadInput(f"extensions is a dict, as {{\"credProps\": True}}, and not {kind_of(value)}")
    extensions = dict(value)
    try:
        json.dumps(extensions, allow_nan=False)
    except (TypeError, ValueError, RecursionError) as error:
        raise BadInput(f"extensions has values of JSON alone, and bytes as texts of base64url: {error}") from None
    return extensions


def _more(timeout: Optional[int], hints: Sequence[str], extensions: Optional[Mapping[str, Any]]) -> Dict[str, Any]:
    made: Dict[str, Any] = {}
    if timeout is not None:
        if not isinstance(timeout, int) or isinstance(timeout, bool) or not 1 <= timeout < 2**32:
            raise BadInput(f"timeout is a whole number of milliseconds, from 1 to 2^32 - 1: not {timeout!r}")
        made["timeout"] = timeout
    listed = limits.check_list(hints, "hints", "texts, as [\"hybrid\"]")
    if listed:
        made["hints"] = [_one_of(hint, "each of hints", HINTS) for hint in listed]
    if extensions is not None:
        made["extensions"] = _extensions(extensions)
    return made


def of_creation(user_verification: str, resident_key: Requirement, authenticator_attachment: Optional[str], attestation: str, timeout: Optional[int],
                hints: Sequence[str], extensions: Optional[Mapping[str, Any]]) -> Dict[str, Any]:
    """The members of creation options that no verdict looks at, except through `user_verification` and `attestation` of the session
    (WebAuthn Level 2, section 5.4). Raises `BadInput`."""
    kept = _requirement_of(resident_key, "resident_key", "discouraged")
    selection: Dict[str, Any] = {"residentKey": kept, "requireResidentKey": kept == "required",
                                 "userVerification": user_verification}
    if authenticator_attachment is not None:
        selection["authenticatorAttachment"] = _one_of(authenticator_attachment, "authenticator_attachment", ATTACHMENTS)
    return {"authenticatorSelection": selection, "attestation": _one_of(attestation, "attestation", ATTESTATIONS),
            **_more(timeout, hints, extensions)}


def of_request(user_verification: str, timeout: Optional[int], hints: Sequence[str],
               extensions: Optional[Mapping[str, Any]]) -> Dict[str, Any]:
    """The same for request options (WebAuthn Level 2, section 5.5)."""
    return {"userVerification": user_verification, **_more(timeout, hints, extensions)}


def ids_of(ids: Ids, what: str, most: int = limits.MAX_LIST) -> "tuple[bytes, ...]":
    """The ids in a list of at most this many."""
    listed = limits.check_list(ids, what, "credentials or their ids")
    return limits.check_ids([one.id if isinstance(one, Credential) else one for one in listed], what, most)


def fitting(rows: Sequence[Credential], most: int = limits.MAX_LIST) -> Sequence[Credential]:
    """What is excluded if a site gives no list: the first of an account's credentials, as many as a list and a line have room for."""
    sizes = accumulate(len(row.id) for row in rows[:most])
    return rows[:sum(size <= MAX_OWN for size in sizes)]


def allowed(own: Sequence[Credential], most: int = limits.MAX_LIST) -> Sequence[Credential]:
    """What is listed if a site gives no list: all of an account's credentials, or none, so that any of them may answer."""
    return own if len(fitting(own, most)) == len(own) else ()


def user_entity(user: bytes, user_name: str, display_name: Optional[str]) -> Dict[str, str]:
    """A PublicKeyCredentialUserEntityJSON. The display name is the name, if not given."""
    limits.check_text(user_name, "user_name")
    if display_name is not None:
        limits.check_text(display_name, "display_name")
    return {"id": forms.to_text(user), "name": user_name, "displayName": display_name or user_name}


def _descriptors(ids: Ids) -> "list[Dict[str, Any]]":
    return [forms.descriptor(one.id, one.transports) if isinstance(one, Credential) else forms.descriptor(one) for one in ids]


def creation_options(rp: Dict[str, str], session: RegistrationSession, user_name: str, display_name: Optional[str], exclude: Ids,
                     more: Dict[str, Any]) -> Dict[str, Any]:
    """The options of a registration, with the members of `of_creation`."""
    return {
        "rp": rp,
        "user": user_entity(session.user, user_name, display_name),
        "challenge": forms.to_text(session.challenge),
        "pubKeyCredParams": [{"type": "public-key", "alg": number} for number in session.algorithms],
        "excludeCredentials": _descriptors(exclude),
        **more,
    }


def request_options(rp_id: str, session: SignInSession, allow: Ids, more: Dict[str, Any]) -> Dict[str, Any]:
    """The options of a sign-in, with the members of `of_request`."""
    return {"challenge": forms.to_text(session.challenge), "rpId": rp_id, "allowCredentials": _descriptors(allow), **more}
