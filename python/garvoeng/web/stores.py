"""What the web core stores beside the credentials: the sign-ins, the names of passkeys, and a secret."""
from __future__ import annotations

import os
import secrets
import threading
import time
from collections import OrderedDict
from typing import Any, Dict, Mapping, Optional, Protocol, Tuple

from ..answers import kind_of
from ..limits import check_flag, check_whole
from ..sql import SIGNED_IN, SqlServer
from ..sql_rows import KeptSignIn, Rows

MOST = 100_000
"""The most sign-ins in a `MemoryWebStore`; beyond it the oldest one ends."""


class WebStore(Protocol):
    """This storage's interface. Calls come from any thread."""

    looks_up: bool
    """Whether `signed_in` leaves out a visitor whose passkey is retired or deleted; if not, the core asks the server."""

    def secret(self) -> bytes:
        """Returns 32 bytes that all processes of the site have, and nobody else."""

    def keep_sign_in(self, user: bytes, credential: Optional[bytes] = None, *, lifetime: int = SIGNED_IN) -> str:
        """Stores that a visitor is signed in as this user for `lifetime` seconds. Returns a number that nobody can guess."""

    def signed_in(self, number: Optional[str]) -> Optional[KeptSignIn]:
        """The visitor who is signed in by this number, or None."""

    def abandon(self, number: Optional[str]) -> bool:
        """Ends a sign-in. Returns whether it was there."""

    def names(self, user: bytes) -> Mapping[bytes, str]:
        """A user's names for passkeys, by their ids."""

    def rename(self, user: bytes, credential: bytes, name: str) -> None:
        """Names a passkey. An empty name removes the name."""

    def erase(self, user: bytes) -> Any:
        """Ends a user's sign-ins, and forgets the names. A site calls it together with `erase` of the server that keeps the passkeys."""


class MemoryWebStore:
    """A `WebStore` in the memory of this process, which ends with it: for a site of one process."""

    looks_up = False

    def __init__(self, most: int = MOST) -> None:
        self._most = check_whole(most, "the most sign-ins", 1)
        self._secret = secrets.token_bytes(32)
        self._lock = threading.Lock()
        self._sign_ins: OrderedDict[str, Tuple[KeptSignIn, float]] = OrderedDict()
        self._names: Dict[bytes, Dict[bytes, str]] = {}

    def secret(self) -> bytes:
        return self._secret

    def keep_sign_in(self, user: bytes, credential: Optional[bytes] = None, *, lifetime: int = SIGNED_IN) -> str:
        number, now = os.urandom(16).hex(), time.time()
        with self._lock:
            self._sign_ins[number] = KeptSignIn(number, user, credential, int(now)), now + lifetime
            if len(self._sign_ins) > self._most:
                self._sign_ins.popitem(last=False)
        return number

    def signed_in(self, number: Optional[str]) -> Optional[KeptSignIn]:
        found = None if number is None else self._sign_ins.get(number)
        if found is None or number is None:
            return None
        kept, ends_at = found
        if ends_at > time.time():
            return kept
        self.abandon(number)
        return None

    def abandon(self, number: Optional[str]) -> bool:
        with self._lock:
            return number is not None and self._sign_ins.pop(number, None) is not None

    def names(self, user: bytes) -> Mapping[bytes, str]:
        return dict(self._names.get(user, {}))

    def rename(self, user: bytes, credential: bytes, name: str) -> None:
        with self._lock:
            named = self._names.setdefault(user, {})
            named.pop(credential, None)
            if name:
                named[credential] = name

    def erase(self, user: bytes) -> None:
        with self._lock:
            self._names.pop(user, None)
            for number in [number for number, (kept, _) in self._sign_ins.items() if kept.user == user]:
                del self._sign_ins[number]


class SqlWebStore:
    """A `WebStore` as rows in the tables of a `SqlServer`: either one that keeps the passkeys too (`looks_up`), or one beside another
    server."""

    def __init__(self, server: SqlServer, *, looks_up: bool = False) -> None:
        if not isinstance(server, SqlServer):
            raise TypeError(f"SqlWebStore takes a SqlServer, and not {kind_of(server)}")
        self.server = server
        self.looks_up = check_flag(looks_up, "looks_up")
        self._secret: Optional[bytes] = None

    def secret(self) -> bytes:
        if self._secret is None:
            self._secret = self.server.within(Rows.secret)
        return self._secret

    def keep_sign_in(self, user: bytes, credential: Optional[bytes] = None, *, lifetime: int = SIGNED_IN) -> str:
        return self.server.keep_sign_in(user, credential, lifetime=lifetime)

    def signed_in(self, number: Optional[str]) -> Optional[KeptSignIn]:
        if self.looks_up:
            return self.server.signed_in(number)
        return self.server.within(lambda rows: rows.signed_in(number, looks_up=False), writes=False)

    def abandon(self, number: Optional[str]) -> bool:
        return self.server.abandon(number)

    def names(self, user: bytes) -> Mapping[bytes, str]:
        return self.server.within(lambda rows: rows.names(user), writes=False)

    def rename(self, user: bytes, credential: bytes, name: str) -> None:
        self.server.within(lambda rows: rows.rename(user, credential, name))

    def erase(self, user: bytes) -> int:
        return self.server.erase(user)
