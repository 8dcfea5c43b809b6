"""What a site keeps between calls, as values that a database can store."""
from __future__ import annotations

import json
from dataclasses import dataclass
from typing import Any, Dict, Iterable, Mapping, Optional, Tuple, Type, TypeVar, Union

from . import forms, library, limits
from .errors import BadInput, RowDamaged
from .library import EDDSA, ES256, RS256

Json = Union[str, Mapping[str, Any]]
"""JSON text, or the value that it has."""
_TIME = 2**53 - 1
Open = TypeVar("Open", "RegistrationSession", "SignInSession")


def _object(value: Any, what: str) -> Mapping[str, Any]:
    """The members of a JSON object."""
    if isinstance(value, str):
        try:
            value = json.loads(value)
        except (ValueError, RecursionError):
            raise BadInput(f"the {what} is not JSON") from None
    if not isinstance(value, Mapping):
        raise BadInput(f"the {what} is not an object")
    return value


def _bytes(said: Mapping[str, Any], name: str) -> bytes:
    return forms.from_text(said.get(name), name)


def _bytes_or_none(said: Mapping[str, Any], name: str) -> Optional[bytes]:
    """A member that may be null but may not be left out."""
    return None if name in said and said[name] is None else _bytes(said, name)


def _flag(said: Mapping[str, Any], name: str) -> bool:
    if not isinstance(said.get(name), bool):
        raise BadInput(f"{name} is not true or false")
    return bool(said[name])


def _flag_or_none(said: Mapping[str, Any], name: str) -> Optional[bool]:
    return None if name in said and said[name] is None else _flag(said, name)


def _whole(said: Mapping[str, Any], name: str, most: int) -> int:
    value = said.get(name)
    if type(value) is not int or not 0 <= value <= most:
        raise BadInput(f"{name} is not a whole number up to {most}")
    return value


def _time_or_none(said: Mapping[str, Any], name: str) -> Optional[int]:
    return None if name in said and said[name] is None else _whole(said, name, _TIME)


def _text_or_none(value: Optional[bytes]) -> Optional[str]:
    return None if value is None else forms.to_text(value)


def _members(value: Json, wanted: str) -> Mapping[str, Any]:
    """The members of a session in JSON. The member that only one kind has must be a list."""
    said = _object(value, "session")
    if not isinstance(said.get(wanted), list):
        raise BadInput(f"{wanted} is not an array")
    _flag(said, "user_verification")
    return said


@dataclass(frozen=True)
class RegistrationSession:
    """What a registration that has begun expects. It accepts one response; then the site deletes it."""

    challenge: bytes
    """32 bytes that no other session has."""
    user: bytes
    """The user handle of the account: 1 to 64 bytes."""
    user_verification: bool = False
    """Whether user verification is required."""
    algorithms: Tuple[int, ...] = (ES256, EDDSA, RS256)
    """The offered algorithms' COSE numbers."""
    conditional: bool = False
    """Whether a browser may answer by itself, so that the user need not be present. Only for the profile `level3`."""
    attestation: bool = True
    """Whether an attestation was asked for. If not, the profile `level3` does not look at the statement."""

    def to_json(self) -> Dict[str, Any]:
        """Returns the session as JSON values, with bytes in base64url."""
        return {"challenge": forms.to_text(self.challenge), "user": forms.to_text(self.user),
                "user_verification": bool(self.user_verification), "algorithms": list(self.algorithms),
                "conditional": bool(self.conditional), "attestation": bool(self.attestation)}

    @classmethod
    def from_json(cls, value: Json) -> "RegistrationSession":
        """Reads a session from the result of `to_json`, or from its text. Raises `BadInput`, also for a sign-in's."""
        said = _members(value, "algorithms")
        # An older session has neither.
        said = {"conditional": False, "attestation": True, **said}
        return cls(_bytes(said, "challenge"), _bytes(said, "user"), said["user_verification"], limits.check_algorithms(said["algorithms"]),
                   _flag(said, "conditional"), _flag(said, "attestation"))


@dataclass(frozen=True)
class SignInSession:
    """What a sign-in that has begun expects. It accepts one response; then the site deletes it."""

    challenge: bytes
    """32 bytes that no other session has."""
    user: Optional[bytes] = None
    """The user handle of the account, if it is known beforehand."""
    allow: Tuple[bytes, ...] = ()
    """The ids of the credentials that may answer; empty for any."""
    user_verification: bool = False
    """Whether user verification is required."""

    def to_json(self) -> Dict[str, Any]:
        """Returns the session as JSON values, with bytes in base64url."""
        return {"challenge": forms.to_text(self.challenge), "user": _text_or_none(self.user),
                "allow": [forms.to_text(one) for one in self.allow], "user_verification": bool(self.user_verification)}

    @classmethod
    def from_json(cls, value: Json) -> "SignInSession":
        """Reads a session from the result of `to_json`, or from its text. Raises `BadInput`, also for a registration's."""
        said = _members(value, "allow")
        return cls(_bytes(said, "challenge"), _bytes_or_none(said, "user"), tuple(forms.from_text(one, "allow") for one in said["allow"]),
                   said["user_verification"])


def open_session(kind: Type[Open], value: Json) -> Open:
    """The session in a row. Raises `BadInput`."""
    session = kind.from_json(value)
    if len(session.challenge) != 32:
        raise BadInput("the challenge is not of 32 bytes")
    return session


@dataclass(frozen=True)
class Credential:
    """A registered credential."""

    id: bytes
    user: bytes
    """The user handle."""
    algorithm: int
    """The public key's algorithm: -7 (ES256), -8 (EdDSA) or -257 (RS256)."""
    x: bytes
    """32 bytes; for RS256 the modulus, big-endian, 256, 384 or 512 bytes."""
    y: bytes
    """32 bytes; empty for EdDSA; for RS256 the public exponent, big-endian, 1 to 4 bytes."""
    sign_count: int
    """The signature counter received last."""
    eligible: Optional[bool]
    """Whether it is eligible for backup; None if that is not known."""
    retired: bool = False
    """Whether it can no longer sign in."""
    transports: Tuple[str, ...] = ()
    """How the authenticator can be reached, as the page reported it: for example `usb` or `internal` (WebAuthn Level 2, section 5.8.4).
    Used in later lists."""

    @classmethod
    def from_cose(cls, id: bytes, user: bytes, cose_key: bytes, sign_count: int, eligible: Optional[bool] = None,
                  retired: bool = False, transports: Iterable[str] = ()) -> "Credential":
        """Makes a credential from COSE_Key bytes (RFC 9052, section 7), which other libraries store. Raises `BadInput` if they are not a
        key of ES256, EdDSA or RS256 in canonical CBOR."""
        key = library.key_from_cose(bytes(cose_key))
        if key is None:
            raise BadInput("cose_key is not a COSE_Key of ES256, EdDSA or RS256 in canonical CBOR")
        return cls(bytes(id), bytes(user), *key, sign_count, eligible, retired, tuple(transports))

    @property
    def cose_key(self) -> bytes:
        """Returns the public key as COSE_Key bytes (RFC 9052, section 7), in canonical CBOR. Raises `BadInput` if the algorithm, x or y is
        out of its limits."""
        cose_key = library.key_to_cose(self.algorithm, self.x, self.y) if self.algorithm in (ES256, EDDSA, RS256) else b""
        if not cose_key:
            raise BadInput("the key is out of its limits")
        return cose_key

    def to_json(self) -> Dict[str, Any]:
        """Returns the credential as JSON values, with bytes in base64url."""
        return {"id": forms.to_text(self.id), "user": forms.to_text(self.user), "algorithm": self.algorithm, "x": forms.to_text(self.x),
                "y": forms.to_text(self.y), "sign_count": self.sign_count, "eligible": self.eligible, "retired": self.retired,
                "transports": list(self.transports)}

    @classmethod
    def from_json(cls, value: Json) -> "Credential":
        """Reads a credential from the result of `to_json`, or from its text. Members with other names are ignored. Raises `BadInput`."""
        return cls(*_credential_in(_object(value, "credential")))


def _credential_in(said: Mapping[str, Any]) -> Tuple[bytes, bytes, int, bytes, bytes, int, Optional[bool], bool, Tuple[str, ...]]:
    """The members of a credential in JSON, in the order of its fields."""
    algorithm, x, y, transports = said.get("algorithm"), _bytes(said, "x"), _bytes(said, "y"), said.get("transports")
    if type(algorithm) is not int:
        raise BadInput("algorithm is not a number")
    limits.check_key(algorithm, x, y)
    kept = forms.transports_in(transports)
    if not isinstance(transports, list) or list(kept) != transports:
        raise BadInput("transports are not a list of texts, as [\"usb\"]")
    return (limits.check_id(_bytes(said, "id"), "id"), limits.check_user(_bytes(said, "user")), algorithm, x, y,
            _whole(said, "sign_count", limits.MAX_COUNT), _flag_or_none(said, "eligible"), _flag(said, "retired"), kept)


@dataclass(frozen=True)
class KeptCredential(Credential):
    """A credential's row, and what is known of it. Values that were never kept are None."""

    aaguid: Optional[bytes] = None
    """The model of the authenticator, as it reports it: 16 bytes."""
    backed_up: Optional[bool] = None
    """Whether it was backed up at the last sign-in (BS). The file of `StoredServer` does not have it."""
    created_at: Optional[int] = None
    """When it was registered, in seconds since 1970."""
    used_at: Optional[int] = None
    """When it last signed in, in seconds since 1970; None if it never did."""

    def to_json(self) -> Dict[str, Any]:
        """Returns the row as JSON values, with bytes in base64url."""
        return {**super().to_json(), "aaguid": _text_or_none(self.aaguid), "backed_up": self.backed_up, "created_at": self.created_at,
                "used_at": self.used_at}

    @classmethod
    def from_json(cls, value: Json) -> "KeptCredential":
        """Reads a row from the result of `to_json`, or from its text. Raises `BadInput`, also for a mere `Credential`."""
        said = _object(value, "credential")
        aaguid = _bytes_or_none(said, "aaguid")
        return cls(*_credential_in(said), None if aaguid is None else limits.check_aaguid(aaguid), _flag_or_none(said, "backed_up"),
                   _time_or_none(said, "created_at"), _time_or_none(said, "used_at"))


def check_row(row: Credential) -> None:
    """Raises `RowDamaged` if a row from a host is not one that this package writes."""
    try:
        if isinstance(row, KeptCredential):
            KeptCredential.from_json(KeptCredential.to_json(row))
        else:
            Credential.from_json(Credential.to_json(row))
    except (AttributeError, BadInput, TypeError) as error:
        raise RowDamaged(row.id, str(error)) from None


def _told(accepted: Union["Registered", "SignedIn"]) -> Dict[str, Any]:
    """What the authenticator reported, as JSON values."""
    return {"user_verified": accepted.user_verified, "backed_up": accepted.backed_up, "flags": accepted.flags,
            "extensions": forms.to_text(accepted.extensions)}


@dataclass(frozen=True)
class Registered:
    """An accepted registration."""

    credential: Credential
    """What to store."""
    aaguid: bytes
    """The model of the authenticator, as it reports it: 16 bytes. Many keys send zeros."""
    format: str
    """How the credential is attested: `none`, or `packed`, a signature of its own key."""
    user_verified: bool
    """Whether the user was verified (UV)."""
    backed_up: bool
    """Whether the credential is backed up now (BS)."""
    flags: int
    """The flag bits of the authenticator data (WebAuthn Level 2, section 6.1)."""
    extensions: bytes
    """The authenticator's extension outputs, one CBOR map; empty if there are none."""


    def to_json(self) -> Dict[str, Any]:
        """Returns the registration as JSON values, with bytes in base64url."""
        return {"credential": self.credential.to_json(), "aaguid": forms.to_text(self.aaguid), "format": self.format, **_told(self)}

    @classmethod
    def from_json(cls, value: Json) -> "Registered":
        """Reads a registration from the result of `to_json`, or from its text. Raises `BadInput`, also for a sign-in."""
        said = _object(value, "registration")
        form = said.get("format")
        if not isinstance(form, str) or form not in library.FORMATS:
            raise BadInput(f"format is one of {', '.join(library.FORMATS)}")
        return cls(_credential_of(said, "credential"), limits.check_aaguid(_bytes(said, "aaguid")), form, _flag(said, "user_verified"),
                   _flag(said, "backed_up"), _whole(said, "flags", 255), _bytes(said, "extensions"))


def _credential_of(said: Mapping[str, Any], name: str) -> Credential:
    value = said.get(name)
    if not isinstance(value, Mapping):
        raise BadInput(f"{name} is not an object")
    return Credential.from_json(value)


@dataclass(frozen=True)
class SignedIn:
    """An accepted sign-in."""

    credential: Credential
    """The credential with the counter that was received. With `Server` this is what to store from now on; the other servers have stored
    it."""
    before: Optional[Credential]
    """With `Server`, the credential that was verified against. Store the new one only if the stored one still has this counter and isn't
    retired, in one transaction with the end of the session. None with a server that has done so."""
    backed_up: bool
    """Whether it is backed up now (BS)."""
    user_verified: bool
    """Whether the user was verified (UV)."""
    flags: int
    """The flag bits of the authenticator data (WebAuthn Level 2, section 6.1)."""
    extensions: bytes
    """The authenticator's extension outputs, one CBOR map; empty if there are none."""

    def to_json(self) -> Dict[str, Any]:
        """Returns the sign-in as JSON values, with bytes in base64url."""
        return {"credential": self.credential.to_json(), "before": None if self.before is None else self.before.to_json(), **_told(self)}

    @classmethod
    def from_json(cls, value: Json) -> "SignedIn":
        """Reads a sign-in from the result of `to_json`, or from its text. Raises `BadInput`, also for a registration."""
        said = _object(value, "sign-in")
        before = None if "before" in said and said["before"] is None else _credential_of(said, "before")
        return cls(_credential_of(said, "credential"), before, _flag(said, "backed_up"), _flag(said, "user_verified"),
                   _whole(said, "flags", 255), _bytes(said, "extensions"))
