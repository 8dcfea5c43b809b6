"""The sign-ins of visitors: what their Django sessions contain, and what ends with them."""
from __future__ import annotations

import secrets
import time
from typing import Any, Iterator, Mapping, Optional

from django.conf import settings
from django.contrib.auth import BACKEND_SESSION_KEY

from ..web import requests as core_requests
from .models import Account
from .server import server

BACKEND = "garvoeng.django.backends.PasskeyBackend"
SIGNED_IN, AT, REGISTRATION, SIGN_IN, FIELDS = "garvoeng_signed_in", "garvoeng_signed_in_at", "garvoeng_registration", "garvoeng_sign_in", "garvoeng_fields"
"""The keys of a visitor's Django session: the number of the sign-in, its time, open ceremonies, and the fields of a new user."""
KEYS = dict(zip(core_requests.COOKIES, (SIGNED_IN, REGISTRATION, SIGN_IN)))
"""The session's key in place of each cookie of the acts."""


class Kept(Mapping[str, str]):
    """A Django session in the form of the cookies of the acts."""

    def __init__(self, session: Any) -> None:
        self._session = session

    def __getitem__(self, name: str) -> str:
        found = self._session[KEYS[name[len("__Host-"):] if name.startswith("__Host-") else name]]
        if not isinstance(found, str):
            raise KeyError(name)
        return found

    def __iter__(self) -> Iterator[str]:
        return (name for name, key in KEYS.items() if key in self._session)

    def __len__(self) -> int:
        return len(list(iter(self)))


def handle_of(user: Any) -> bytes:
    """The user handle of a user, which is made if there is none."""
    return bytes(Account.objects.get_or_create(user=user, defaults={"handle": secrets.token_bytes(32)})[0].handle)


def is_signed_in(request: Any) -> bool:
    """Whether the sign-in is still valid; one that was made with a passkey ends with it."""
    return request.session.get(BACKEND_SESSION_KEY) != BACKEND or server().signed_in(request.session.get(SIGNED_IN)) is not None


def _end_all(session: Any) -> None:
    begun = session.pop(REGISTRATION, None)
    number = begun.partition(".")[0] if isinstance(begun, str) else None
    for open_session in (number, session.pop(SIGN_IN, None), session.pop(SIGNED_IN, None)):
        if open_session is not None:
            server().abandon(open_session)


def logged_in(sender: Any, request: Any, user: Any, **_: Any) -> None:
    """Gives each sign-in a time, and one made with a passkey a number. What was open before ends."""
    session = getattr(request, "session", None)
    if session is None:
        return
    _end_all(session)
    session[AT] = int(time.time())
    credential = getattr(user, "garvoeng_credential", None)
    if credential is not None and session.get(BACKEND_SESSION_KEY) == BACKEND:
        session[SIGNED_IN] = server().keep_sign_in(handle_of(user), credential, lifetime=settings.SESSION_COOKIE_AGE)


def logged_out(sender: Any, request: Any, **_: Any) -> None:
    session = getattr(request, "session", None)
    if session is not None:
        _end_all(session)


def account_deleted(sender: Any, instance: Any, **_: Any) -> None:
    """Deletes a user's passkeys as well."""
    server().erase(bytes(instance.handle))
