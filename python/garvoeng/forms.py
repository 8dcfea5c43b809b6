"""The forms of JSON that pages and sites exchange (WebAuthn Level 3, section 5.1). All bytes are in base64url without padding."""
from __future__ import annotations

import base64
import re
from typing import Any, Dict, Mapping, Optional, Sequence, Tuple

from ._passkey import parts as _parts
from .errors import BadInput

MAX_TRANSPORTS = 16
"""How many transports a credential may have."""
MAX_SESSION = 2_875
"""The longest text of a session, in characters."""

RegistrationParts = Tuple[bytes, bytes, bytes]
SignInParts = Tuple[bytes, bytes, bytes, bytes, Optional[bytes]]

_REGISTRATION = ("rawId", "clientDataJSON", "attestationObject")
_SIGN_IN = ("rawId", "clientDataJSON", "authenticatorData", "signature", "userHandle")
_TRANSPORT = re.compile(r"[a-z0-9-]{1,32}")


def to_text(value: bytes) -> str:
    """Base64url without padding."""
    return base64.urlsafe_b64encode(value).rstrip(b"=").decode()


def from_text(text: Any, what: str) -> bytes:
    """The bytes of canonical base64url text without padding, at most 65,536 characters. Raises `BadInput`, which names `what`."""
    try:
        made: bytes = _parts({what: text}, {}, (what,), 1)[0]
    except ValueError as error:
        raise BadInput(str(error)) from None
    return made


def sealed(session: Optional[str]) -> str:
    """The text of a session of `StoredServer`. Any text that no begin returned becomes a session that the program does not know."""
    try:
        return session if session is not None and len(session) <= MAX_SESSION and from_text(session, "session") else ""
    except BadInput:
        return ""


def _plain(response: Mapping[str, Any]) -> Dict[str, Any]:
    """A response whose objects are dicts, after checking what the standard requires besides its parts."""
    if not isinstance(response, Mapping) or not isinstance(response.get("response"), Mapping):
        raise BadInput("response is missing")
    for name in ("id", "rawId", "type"):
        value = response.get(name)
        if not isinstance(value, str):
            raise BadInput(f"{name} is missing" if value is None else f"{name} is not a text")
    if response["id"] != response["rawId"]:
        raise BadInput("id is not rawId")
    if response["type"] != "public-key":
        raise BadInput("type is not public-key")
    if not isinstance(response.get("clientExtensionResults", {}), Mapping):
        raise BadInput("clientExtensionResults is not an object")
    if not isinstance(response.get("authenticatorAttachment"), (str, type(None))):
        raise BadInput("authenticatorAttachment is not a text")
    return {**response, "response": dict(response["response"])}


def _read(response: Mapping[str, Any], names: Tuple[str, ...], required: int) -> Any:
    """The bytes of these members."""
    try:
        try:
            # The form that browsers send is recognized at once, without the slower check of each member.
            raw_id = response["rawId"]
            if (type(raw_id) is str and response["id"] == raw_id and response["type"] == "public-key" and
                    type(response["clientExtensionResults"]) is dict and response.get("authenticatorAttachment") is None):
                return _parts(response, response["response"], names, required)
        except (KeyError, TypeError):
            pass
        plain = _plain(response)
        return _parts(plain, plain["response"], names, required)
    except ValueError as error:
        raise BadInput(str(error)) from None


def registration_parts(response: Mapping[str, Any]) -> RegistrationParts:
    """`rawId`, `clientDataJSON` and `attestationObject` of a RegistrationResponseJSON. Members with other names are ignored. Raises
    `BadInput`."""
    made: RegistrationParts = _read(response, _REGISTRATION, 3)
    return made


def sign_in_parts(response: Mapping[str, Any]) -> SignInParts:
    """`rawId`, `clientDataJSON`, `authenticatorData`, `signature` and `userHandle` of an AuthenticationResponseJSON. A user handle that is
    null counts as absent. Raises like `registration_parts`."""
    made: SignInParts = _read(response, _SIGN_IN, 4)
    return made


def transports_in(value: Any) -> Tuple[str, ...]:
    """The transports that a page sent (WebAuthn Level 2, section 5.8.4). Items that are not transports are left out, and so are all after
    the sixteenth."""
    listed = value[:MAX_TRANSPORTS] if isinstance(value, (list, tuple)) else ()
    return tuple(one for one in listed if isinstance(one, str) and _TRANSPORT.fullmatch(one))


def transports_of(response: Mapping[str, Any]) -> Tuple[str, ...]:
    """The transports in a RegistrationResponseJSON."""
    return transports_in(response["response"].get("transports"))


def descriptor(credential_id: bytes, transports: Sequence[str] = ()) -> Dict[str, Any]:
    """A PublicKeyCredentialDescriptorJSON."""
    made: Dict[str, Any] = {"type": "public-key", "id": to_text(credential_id)}
    return {**made, "transports": list(transports)} if transports else made
