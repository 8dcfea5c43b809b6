"""Files for the browser, limits, and checks of what a visitor sends, for `garvoeng.web`."""
from __future__ import annotations

from pathlib import Path
from typing import Any, Callable, Dict, Optional, Union

from .answers import refuse
from .errors import BadInput
from .forms import from_text
from .rate_limit import RateLimit

Limit = Callable[[Optional[str]], int]
"""Returns how many seconds an address has to wait."""
MAX_BODY = 128 * 1024
"""The largest visitor's request, in bytes."""
FRESH = 300
"""How many seconds after a sign-in a passkey may be added to the account, by default."""
SIGN_IN_AGAIN = "sign in again: a passkey is added right after a sign-in"
DAMAGED = "what is stored is damaged"
TOO_OFTEN = "too many requests: try again later"
TRY_AGAIN = "the site's storage did not answer: try again"
MAX_NAME = 64
"""The longest name of an account, in characters."""
_JOINERS = {0x200C: None, 0x200D: None}
FILES = {"": ("passkeys.html", "text/html"), **{name: (name, "text/javascript") for name in ("passkeys.js", "browser.js", "page.js")}}
"""The files and their types, by their paths."""


def limit_of(said: Union[Limit, bool, None]) -> Limit:
    """The limit that a site uses: a new `RateLimit` by default, and none if it is False."""
    if said is None:
        return RateLimit()
    if said is False:
        return lambda _: 0
    if not callable(said) or isinstance(said, type):
        raise BadInput(f"rate_limit is a RateLimit(), or False for none: not {said!r}")
    return said


def wait_of(limit: Limit, address: Optional[str]) -> int:
    """How many seconds an address has to wait."""
    wait = limit(address)
    if not isinstance(wait, int) or isinstance(wait, bool) or wait < 0:
        refuse("rate_limit", wait, "whole seconds, 0 for none", awaited_in="")
    return wait


def file(path: str) -> bytes:
    return Path(__file__).with_name(FILES[path][0]).read_bytes()


def name_in(said: Dict[str, Any]) -> str:
    """The name of an account or a passkey: 1 to 64 characters that can be printed, or join those around them."""
    name = said.get("name")
    if not isinstance(name, str) or not 1 <= len(name) <= MAX_NAME or not name.translate(_JOINERS) or not name.translate(_JOINERS).isprintable():
        raise BadInput(f"a name has 1 to {MAX_NAME} characters that can be printed")
    return name


def id_in(said: Dict[str, Any]) -> bytes:
    """The id of a credential."""
    return from_text(said.get("id"), "id")
