"""The current visitor, for a site's own views."""
from __future__ import annotations

from typing import Any, Optional

from ..web import Request, Visitor
from .server import core
from .sign_ins import Kept


def visitor(request: Any) -> Optional[Visitor]:
    """The visitor who is signed in, also if by a password, or None: has the account's user handle, and the time."""
    return core().visitor(Request("GET", "", request.headers, Kept(request.session), native=request))


def fresh(request: Any, seconds: float) -> bool:
    """Whether the visitor signed in at most this many seconds ago. Check it before a sensitive act; if it is false, the page calls
    `passkeys.signIn({ again: true })`."""
    found = visitor(request)
    return found is not None and found.is_fresh(seconds)
