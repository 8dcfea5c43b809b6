"""The limits of a relying party and its sessions. A value out of its limits is refused with `BadInput` at once, and not at each visitor's
response."""
from __future__ import annotations

import os
import re
from collections.abc import Iterable, Mapping
from typing import Any, List, Optional, Sequence, Tuple

from .answers import kind_of
from .errors import BadInput
from .library import EDDSA, ES256, MAX_ID, PROFILES, RS256

MAX_LIST = 64
"""The greatest number of credential ids in a list. Browsers accept no longer one."""
MAX_STRICT_LIST = 8
"""The same for a `StoredServer` with the profile `strict`."""
MAX_USER = 64
"""The greatest length of a user handle, in bytes (WebAuthn Level 2, section 5.4.3)."""

MAX_COUNT = 2**32 - 1
"""The greatest signature counter (WebAuthn Level 2, section 6.1)."""

_DOMAIN = re.compile(r"[a-z0-9_](?:[a-z0-9_-]*[a-z0-9_])?(?:\.[a-z0-9_](?:[a-z0-9_-]*[a-z0-9_])?)*")
_ORIGIN = re.compile(r"([a-z][a-z0-9+.-]*)://([a-z0-9._-]+|\[[0-9a-f:]+\])(?::([1-9][0-9]{0,4}))?")
_ANDROID = re.compile(r"android:apk-key-hash:[A-Za-z0-9_-]+")
_DEFAULT_PORTS = {"https": "443", "http": "80"}


def check_flag(value: Any, what: str) -> bool:
    if value is not True and value is not False:
        raise TypeError(f"{what} is True or False, and not {kind_of(value)}")
    return bool(value)


def check_text(value: Any, what: str) -> str:
    if not isinstance(value, str):
        raise TypeError(f"{what} is a str, and not {kind_of(value)}")
    return value


def check_bytes(value: Any, what: str, advice: str = "") -> bytes:
    """The bytes of a buffer. A number, which `bytes` takes for a length, is refused."""
    if not isinstance(value, (bytes, bytearray, memoryview)):
        raise TypeError(f"{what} is bytes{advice}, and not {kind_of(value)}")
    return bytes(value)


def check_list(value: Any, what: str, of: str) -> List[Any]:
    """The items of a list, or of another iterable. Bytes and text are refused, because their items are numbers and characters."""
    if isinstance(value, (str, bytes, bytearray, memoryview, Mapping)) or not isinstance(value, Iterable):
        raise TypeError(f"{what} is a list of {of}, and not {kind_of(value)}")
    return list(value)


def _check_rp_id(rp_id: str) -> None:
    """Checks a domain as browsers write it: 1 to 253 characters, and not an IP address (WebAuthn Level 2, section 4)."""
    if len(check_text(rp_id, "rp_id")) > 253 or not _DOMAIN.fullmatch(rp_id):
        raise BadInput(f"rp_id is a domain in lower case, as example.com: not {rp_id[:300]!r}")
    if rp_id.rsplit(".", 1)[-1].isdigit():
        raise BadInput(f"rp_id is a domain, as example.com, and not the IP address {rp_id}")


def _host_of(origin: str, what: str) -> str:
    """The host of an origin as browsers write it (RFC 6454, section 6.2); empty for an app's."""
    if _ANDROID.fullmatch(check_text(origin, f"each of {what}")):
        return ""
    found = _ORIGIN.fullmatch(origin)
    if found is None:
        raise BadInput(f"each of {what} is an origin in lower case and without a path, as https://example.com: not {origin!r}")
    scheme, host, port = found.groups()
    if port is not None and int(port) > 65_535:
        raise BadInput(f"{origin!r} of {what} has a port above 65535")
    if port is not None and port == _DEFAULT_PORTS.get(scheme):
        raise BadInput(f"browsers leave out the port of {origin!r}: write {origin[:origin.rindex(':')]} in {what}")
    return host if scheme in _DEFAULT_PORTS else ""


def check_party(rp_id: str, origins: Sequence[str]) -> Tuple[str, ...]:
    """Checks the origins of a relying party. If there are web origins, the host of at least one is the rp id or ends in it."""
    _check_rp_id(rp_id)
    listed = tuple(check_list(origins, "origins", "texts, as [\"https://example.com\"]"))
    if not listed:
        raise BadInput("origins is empty: write the origin of each page, as https://example.com")
    hosts = list(filter(None, (_host_of(origin, "origins") for origin in listed)))
    if hosts and not any(host == rp_id or host.endswith("." + rp_id) for host in hosts):
        raise BadInput(f"the host of an origin is {rp_id} or ends in .{rp_id}: not {', '.join(hosts)}")
    return listed


def check_origins(origins: Sequence[str], what: str) -> Tuple[str, ...]:
    """Checks origins of pages other than the site's."""
    listed = tuple(check_list(origins, what, "texts, as [\"https://example.com\"]"))
    for origin in listed:
        _host_of(origin, what)
    return listed


def is_origin(value: str) -> bool:
    """Whether a text is an origin in the form that browsers write."""
    try:
        _host_of(value, "it")
    except BadInput:
        return False
    return True


def check_top_origins(top_origins: Sequence[str]) -> Tuple[str, ...]:
    """Checks the origins of the pages that may have the site's in a frame (WebAuthn Level 3, section 5.8.1, `topOrigin`)."""
    return check_origins(top_origins, "top_origins")


def check_attestation(accept_none: bool, accept_self: bool) -> None:
    if not check_flag(accept_none, "accept_none") | check_flag(accept_self, "accept_self"):
        raise BadInput("accept_none and accept_self are both False: no registration could be accepted")


def check_profile(profile: str) -> int:
    """The library's number of a profile."""
    if not isinstance(profile, str) or profile not in PROFILES:
        raise BadInput(f"profile is one of {', '.join(PROFILES)}: not {profile!r}")
    return PROFILES.index(profile)


def check_user(user: bytes) -> bytes:
    handle = check_bytes(user, "user", ", the user handle, as secrets.token_bytes(32)")
    if not 1 <= len(handle) <= MAX_USER:
        raise BadInput(f"user, the user handle, has 1 to {MAX_USER} bytes, and not {len(handle)}")
    return handle


def check_id(value: bytes, what: str) -> bytes:
    """A credential's id."""
    credential_id = check_bytes(value, what, ", a credential id")
    if not 1 <= len(credential_id) <= MAX_ID:
        raise BadInput(f"{what}, a credential id, has 1 to {MAX_ID} bytes, and not {len(credential_id)}")
    return credential_id


def check_aaguid(value: bytes) -> bytes:
    aaguid = check_bytes(value, "aaguid")
    if len(aaguid) != 16:
        raise BadInput("aaguid is not of 16 bytes")
    return aaguid


def check_ids(ids: Sequence[bytes], what: str, most: int = MAX_LIST) -> Tuple[bytes, ...]:
    if len(ids) > most:
        raise BadInput(f"{what} has at most {most} credential ids, and not {len(ids)}")
    return tuple(check_id(one, f"each of {what}") for one in ids)


def check_algorithms(algorithms: Sequence[int]) -> Tuple[int, ...]:
    listed = tuple(check_list(algorithms, "algorithms", "numbers, as [ES256]"))
    if not listed or not all(type(number) is int and number in (ES256, EDDSA, RS256) for number in listed):
        raise BadInput("algorithms has one or more of ES256 (-7), EDDSA (-8) and RS256 (-257), and no other")
    return listed


def check_key(algorithm: int, x: bytes, y: bytes) -> None:
    """Checks the sizes of a public key's parts."""
    if algorithm not in (ES256, EDDSA, RS256):
        raise BadInput("a credential's algorithm is ES256 (-7), EDDSA (-8) or RS256 (-257)")
    fits = len(x) in (256, 384, 512) and 1 <= len(y) <= 4 if algorithm == RS256 else len(x) == 32 and len(y) == (32 if algorithm == ES256 else 0)
    if not fits:
        raise BadInput("the key is out of its limits: x and y have 32 bytes of ES256, 32 and none of EdDSA, 256, 384 or 512 and 1 to 4 of RS256")


def check_path(value: Any, what: str) -> str:
    """The path of a file, given as a str or a `pathlib.Path`."""
    path = os.fspath(value) if isinstance(value, os.PathLike) else value
    if not check_text(path, what) or "\0" in path:
        raise BadInput(f"{what} is the path of a file: not {path!r}")
    return str(path)


def check_whole(value: Any, what: str, least: int, most: int = 2**63 - 1) -> int:
    if not isinstance(value, int) or isinstance(value, bool):
        raise TypeError(f"{what} is a whole number, and not {kind_of(value)}")
    if not least <= value <= most:
        raise BadInput(f"{what} is a whole number from {least} to {most}, and not {value}")
    return value


def check_lifetime(seconds: Any, what: str = "lifetime") -> int:
    if not isinstance(seconds, int) or isinstance(seconds, bool):
        raise TypeError(f"{what} is a whole number of seconds, and not {kind_of(seconds)}")
    if seconds < 1:
        raise BadInput(f"{what} is 1 second or more, and not {seconds}")
    return seconds


def check_session(session: Any) -> Optional[str]:
    """The text of a session that a visitor sends back; None if there is none. No session is open for a text that no begin returned."""
    if session is not None and not isinstance(session, str):
        raise TypeError(f"session is the text that the begin gave, or None, and not {kind_of(session)}")
    return session


def check_credential(algorithm: int, sign_count: int) -> None:
    """Checks the values of a stored credential before they are written in fewer bits."""
    if algorithm not in (ES256, EDDSA, RS256):
        raise BadInput("a credential's algorithm is ES256 (-7), EDDSA (-8) or RS256 (-257)")
    if not 0 <= sign_count <= MAX_COUNT:
        raise BadInput("a signature counter is from 0 to 2^32 - 1")
