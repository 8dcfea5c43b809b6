"""The functions for a site's accounts."""
from __future__ import annotations

import time
from dataclasses import dataclass, field
from typing import Any, Callable, Mapping, Optional, Union

from ..answers import kind_of
from ..limits import MAX_USER
from ..records import Registered, SignedIn


class Denied(Exception):
    """A function of `Accounts` raises it to turn a visitor away: the answer has its text and its status."""

    def __init__(self, text: str, status: int = 403) -> None:
        if type(status) is not int or not 400 <= status <= 499:
            raise TypeError(f"the status of Denied is a number from 400 to 499, and not {status!r}")
        self.text = text
        self.status = status
        super().__init__(text)


@dataclass(frozen=True)
class Visitor:
    """A visitor who is signed in."""

    user: bytes
    """The user handle of the account: 1 to 64 bytes."""
    name: Optional[str] = None
    """The account's name, which the browser shows with a passkey; None if the page sends it."""
    at: Optional[float] = None
    """When the visitor signed in, in seconds since 1970; None if that is not known, which is never fresh."""
    credential: Optional[bytes] = None
    """The id of the passkey that signed in; None if it was by other means."""
    number: Optional[str] = field(default=None, repr=False)
    """The number in the visitor's cookie, which only this visitor may have."""

    def is_fresh(self, seconds: float) -> bool:
        """Whether the visitor signed in at most this many seconds ago. If a sign-in is dated ahead of the clock, the difference counts."""
        return self.at is not None and abs(time.time() - self.at) <= seconds


class Accounts:
    """The site's accounts. Each function is optional, and takes the framework's own request first. If the core is awaited, a function's
    result may be awaited; otherwise that raises TypeError, as does any result of another type than stated. An exception other than `Denied`
    is raised, and the visitor is not signed in by this request."""

    def user_of(self, request: Any) -> Union[None, bytes, Visitor]:
        """Returns who is signed in by the site's own means: a user handle, a `Visitor` with the account's name and the time, or None.
        Without this function the core's own cookie decides. A passkey can be added only right after a sign-in, whose time must be in
        `Visitor.at` or the core's cookie. A session of the site's own that `signed_in` began does not end with its passkey by itself:
        `credential` of the core's `visitor` is None then."""
        return None

    def expected(self, request: Any) -> Optional[bytes]:
        """Returns the only user handle whose passkeys may sign in now, or None for any: if a passkey is the second factor, that of the
        account whose password was given."""
        return None

    def may_register(self, request: Any, name: str, user: Optional[bytes]) -> bool:
        """Returns whether a registration may begin for the account with this handle, or for a new one if it is None."""
        return True

    def create(self, request: Any, name: str, user: bytes) -> None:
        """Makes the account for a registered passkey, with its name and its user handle of 32 bytes. If it raises, the passkey is deleted
        again. If the site has `user_of` but not this function, nobody can make an account with a passkey."""

    def registered(self, request: Any, registered: Registered) -> None:
        """A passkey was stored."""

    def signed_in(self, request: Any, user: bytes, accepted: Union[SignedIn, Registered]) -> Optional[Mapping[str, Any]]:
        """A visitor has signed in, by a sign-in or by registering a new account: the place to begin a session of the site's own.
        The members of a mapping that it returns are added to the answer to the page."""
        return None

    def signed_out(self, request: Any) -> None:
        """A visitor signs out: the place to end the site's own session."""

    def refused(self, request: Any, error: Exception) -> None:
        """A registration or a sign-in was refused, by `Refused` or `Denied`. That is logged already; an exception from this
        function is logged too."""


def own(accounts: Any, name: str) -> Optional[Callable[..., Any]]:
    """The site's function of this name, if it has one."""
    found = getattr(accounts, name, None)
    if found is None or getattr(found, "__func__", None) is getattr(Accounts, name):
        return None
    if not callable(found):
        raise TypeError(f"{name} of the accounts is a function, and not {kind_of(found)}")
    return found  # type: ignore[no-any-return]


_FUNCTIONS = tuple(name for name in vars(Accounts) if not name.startswith("_"))


def check_accounts(accounts: Any) -> Any:
    """The object with the site's functions, or None. An object with none of them is refused, because everybody might register."""
    if isinstance(accounts, type) and issubclass(accounts, Accounts):
        raise TypeError(f"accounts is the class {accounts.__name__}, and not a value: write {accounts.__name__}()")
    found = [own(accounts, name) for name in _FUNCTIONS]
    if accounts is not None and not isinstance(accounts, Accounts) and not any(found):
        raise TypeError(f"accounts has one or more of {', '.join(_FUNCTIONS)}, and {kind_of(accounts)} has none")
    return accounts


def is_handle(value: Any) -> bool:
    """Whether a value is a user handle."""
    return isinstance(value, (bytes, bytearray, memoryview)) and 1 <= len(value) <= MAX_USER
