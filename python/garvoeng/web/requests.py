"""A visitor's request in the form that the web core takes, and the answer."""
from __future__ import annotations

import json
import re
from dataclasses import dataclass, field
from typing import Any, Callable, Dict, List, Mapping, Optional, Protocol, Sequence, Tuple

from ..errors import BadInput
from ..pages import MAX_BODY

SIGNED_IN, REGISTRATION, SIGN_IN = COOKIES = "garvoeng", "garvoeng_registration", "garvoeng_sign_in"
"""The cookies for a sign-in, for an open registration, and for an open sign-in ceremony."""
MAX_COOKIE = 4096
"""The longest cookie that is read, in characters."""
MAX_DIGITS = 64
"""The most digits of a number. No request needs longer ones, and converting them takes long."""


class Headers(Protocol):
    """A request's headers; `get` ignores case."""

    def get(self, name: str) -> Optional[str]:
        """The value of a header, or None."""


@dataclass(frozen=True)
class Request:
    """A request, as a framework passes it."""

    method: str
    path: str
    """The path below the address of the acts, without a leading slash: `register/begin`, or empty for the page."""
    headers: Headers
    cookies: Mapping[str, str]
    read: Callable[[int], Any] = lambda most: b""
    """Reads at most this many bytes of the body; the awaited core awaits the result. A mapping is a JSON object that was read before."""
    address: Optional[str] = None
    """The visitor's address, by which requests are counted."""
    native: Any = None
    """The framework's own request, which is passed to the functions of `Accounts`."""


@dataclass
class Answer:
    """The answer to a request."""

    status: int
    body: bytes
    headers: Dict[str, str]
    cookies: Dict[str, Optional[str]] = field(default_factory=dict)
    """The cookies to set, by their names without `__Host-`; None for those to delete."""
    is_secure: bool = False
    """Whether the cookies are only for https."""

    def lines(self) -> List[Tuple[str, str]]:
        """All headers by name, including those that set cookies."""
        return [*self.headers.items(), *(("Set-Cookie", cookie_line(name, value, self.is_secure)) for name, value in self.cookies.items())]


def cookie_name(name: str, is_secure: bool) -> str:
    """The cookie's name. A browser accepts `__Host-` only from this very host, by https (RFC 6265bis, section 4.1.3.2)."""
    return f"__Host-{name}" if is_secure else name


def cookie_line(name: str, value: Optional[str], is_secure: bool) -> str:
    made = f"{cookie_name(name, is_secure)}={value or ''}; HttpOnly; Path=/; SameSite=Lax"
    return made + ("; Secure" if is_secure else "") + ("" if value else "; Max-Age=0; Expires=Thu, 01 Jan 1970 00:00:00 GMT")


def check_site(headers: Headers, origins: Sequence[str]) -> bool:
    """Checks that a request that changes something comes from one of the site's own pages, by the headers of browsers (Fetch, section 3.2;
    Fetch Metadata, section 2.4). A request with neither is not from a browser that has passkeys."""
    origin, site = headers.get("Origin"), headers.get("Sec-Fetch-Site")
    if origin is not None:
        return origin in origins
    return site is None or site in ("same-origin", "none")


def check_head(headers: Headers) -> None:
    """Checks a request before its body is read. Only JSON is accepted: a form of another site can't send it."""
    content_type, length = headers.get("Content-Type") or "", headers.get("Content-Length")
    if content_type.split(";")[0].strip().lower() != "application/json":
        raise BadInput("the body is not application/json")
    if length and not re.fullmatch("[0-9]{1,18}", length):
        raise BadInput("Content-Length is not a number")
    if int(length or 0) > MAX_BODY:
        raise BadInput("the body is too long")


def _once(pairs: List[Tuple[str, Any]]) -> Dict[str, Any]:
    made = dict(pairs)
    if len(made) != len(pairs):
        raise BadInput("a member of the body stands twice")
    return made


def _number(digits: str) -> int:
    if len(digits) > MAX_DIGITS:
        raise BadInput("a number of the body is too long")
    return int(digits)


def _constant(name: str) -> Any:
    raise BadInput(f"{name} is not JSON")


def object_in(body: Any) -> Dict[str, Any]:
    """The JSON object in a body (RFC 8259): in UTF-8, each member only once."""
    if isinstance(body, Mapping):
        return dict(body)
    if len(body) > MAX_BODY:
        raise BadInput("the body is too long")
    try:
        value = json.loads(bytes(body).decode("utf-8"), object_pairs_hook=_once, parse_int=_number, parse_constant=_constant)
    except BadInput:
        raise
    except (ValueError, RecursionError):
        value = None
    if not isinstance(value, dict):
        raise BadInput("the body is no JSON object")
    return value
