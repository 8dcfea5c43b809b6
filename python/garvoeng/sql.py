"""A relying party whose sessions and credentials are rows in SQLite or PostgreSQL, through DB-API (PEP 249): `sqlite3`, `psycopg`,
`psycopg2`, their pools, and an engine of SQLAlchemy over them. Each call is one transaction by the rules of docs/OPERATING.md, so any
number of processes may share a database."""
from __future__ import annotations

import inspect
import random
import time
from contextlib import contextmanager
from dataclasses import replace
from functools import partial
from typing import Any, Awaitable, Callable, Dict, Iterator, List, Mapping, Optional, Tuple, TypeVar

from . import limits, options, sql_connections
from .answers import in_thread, kind_of, refuse
from .errors import BadInput
from .forms import to_text
from .keeping import LIFETIME
from .options import Ids
from .records import Credential, KeptCredential, Registered, RegistrationSession, SignedIn, SignInSession
from .server import Server
from .sql_rows import KeptSignIn, Rows

__all__ = ["LIFETIME", "SIGNED_IN", "KeptSignIn", "Rows", "SqlServer"]

SIGNED_IN = 14 * 24 * 3600
"""How many seconds a visitor stays signed in by default."""
TRIES = 8
"""How often a transaction is tried if another one is in its way."""

Answered = TypeVar("Answered")
Awaited = Callable[..., Awaitable[Any]]
Hook = Callable[[Rows, Any], Any]
"""A site's function that changes its own rows in the transaction of a call: `rows.run(statement, *values)`, with `?` in place of each
value."""


def _awaited(call: Callable[..., Any]) -> Awaited:
    """A call in its awaited form."""
    async def made(*words: Any, **named: Any) -> Any:
        return await in_thread(call, *words, **named)

    made.__name__, made.__doc__ = f"{call.__name__}_async", f"`{call.__name__}`, awaited like `register_begin_async`."
    return made


class SqlServer:
    """`Server` with its sessions and credentials in the tables `garvoeng_credential` and `garvoeng_session`.

    `connect` is a pool (of psycopg_pool or psycopg2, or any object with `getconn` and `putconn`, or `connection`), an engine of SQLAlchemy,
    or a function that opens a connection, such as `lambda: sqlite3.connect("site.sqlite", timeout=30)` or `lambda:
    psycopg.connect(address)`, or a context manager of one. Each call takes one, and gives it back or closes it; it does not matter what
    rows the connection makes, or whether it commits by itself. `lifetime` is how many seconds a session stays open. Call `prepare` before
    the first call.

    Each call has an awaited form, whose name ends in `_async`. For these `connect` may also be a pool of psycopg_pool or asyncpg that is
    awaited, or a function that opens such a connection: `lambda: psycopg.AsyncConnection.connect(address)`, `lambda:
    asyncpg.connect(address)` or `lambda: aiosqlite.connect("site.sqlite", isolation_level=None)`.

    `on_registered(rows, registered)`, `on_signed_in(rows, signed_in)` and `on_erased(rows, user)` run in the transaction of the call that
    stores the change: an exception from one is raised, and then nothing is stored. If another transaction is in the way (a serialization
    failure or a deadlock), the call is repeated together with them, eight times at most.

    Raises what `Server` raises, and what the database raises; then nothing was changed, except that a commit whose answer was lost may or
    may not be done. Raises `RowDamaged` or `SessionDamaged` if the row that is asked for is damaged, and `Refused` with W15 if another
    sign-in with the credential was accepted meanwhile, or with G15 if its id was registered meanwhile.
    """

    tries = TRIES

    def __init__(self, server: Server, connect: Any, *, lifetime: int = LIFETIME, on_registered: Optional[Hook] = None,
                 on_signed_in: Optional[Hook] = None, on_erased: Optional[Hook] = None) -> None:
        if not isinstance(server, Server) or not sql_connections.can_connect(connect):
            raise TypeError("SqlServer takes a Server and a pool, an engine, or a function that opens a connection, as lambda: sqlite3.connect(file)")
        for hook, name in ((on_registered, "on_registered"), (on_signed_in, "on_signed_in"), (on_erased, "on_erased")):
            if hook is not None and not callable(hook):
                raise TypeError(f"{name} is a function of rows and what was done, and not {kind_of(hook)}")
        self.server = server
        self.origins, self.top_origins = server.origins, server.top_origins
        self.connect = connect
        self.lifetime = limits.check_lifetime(lifetime)
        self._on_registered, self._on_signed_in, self._on_erased = on_registered, on_signed_in, on_erased
        self._is_sqlite: Optional[bool] = None

    @contextmanager
    def transaction(self, *, writes: bool = True) -> Iterator[Rows]:
        """The rows, in a transaction: it commits at the end, and rolls back on an exception. One that only reads waits for nobody."""
        with sql_connections.borrowed(self.connect) as connection:
            if self._is_sqlite is None:
                self._is_sqlite = sql_connections.is_sqlite(connection)
            with sql_connections.transaction(connection, self._is_sqlite, writes) as cursor:
                yield Rows(cursor, self._is_sqlite, "?" if self._is_sqlite else "%s")

    def within(self, work: Callable[[Rows], Answered], *, writes: bool = True) -> Answered:
        """Returns the result of `work(rows)`, run in a transaction that is repeated if another one was in its way."""
        for tried in range(1, self.tries + 1):
            try:
                with self.transaction(writes=writes) as rows:
                    return work(rows)
            except Exception as error:
                if tried == self.tries or not sql_connections.is_retried(error):
                    raise
            time.sleep(random.random() * 0.005 * 2**tried)
        raise AssertionError("a call is made once or more")

    def _tell(self, name: str, hook: Optional[Hook], rows: Rows, told: Any) -> None:
        """Calls one of the site's hooks."""
        if hook is None:
            return
        said = hook(rows, told)
        if inspect.isawaitable(said):
            refuse(name, said, "None: it is not awaited", awaited_in="")
        # If it passed over an error of the database, the transaction has failed, and its commit would do nothing.
        rows.run("select 1").fetchone()

    def prepare(self) -> None:
        """Makes the tables, or brings those of an older version up to this one. Any number of processes may call it at once. Raises
        `BadInput` if they are of a later version."""
        self.within(Rows.prepare)

    # ---- registration

    def register_begin(self, user: bytes, user_name: str, display_name: Optional[str] = None, *, exclude: Optional[Ids] = None,
                       sign_in: Optional[str] = None, **how: Any) -> Tuple[Dict[str, Any], str]:
        """Returns the options for the page, and the session's id, which only this visitor may have. `how` is as in `Server.register_begin`;
        the account's passkeys are excluded, unless a list is given. With `sign_in`, a number from `keep_sign_in`, the registration belongs
        to that visitor: it can be finished only with the same number, while the visitor is signed in."""
        handle = limits.check_user(user)

        def begin(rows: Rows) -> Tuple[Dict[str, Any], str]:
            rows.lock(handle)
            if not rows.is_signed_in(handle, sign_in):
                raise BadInput("sign_in is the number of no open sign-in of this user")
            listed = options.fitting(rows.listed(handle)) if exclude is None else exclude
            made, session = self.server.register_begin(handle, user_name, display_name, exclude=listed, **how)
            return made, rows.begin(session, self.lifetime, sign_in)

        return self.within(begin)

    async def register_begin_async(self, user: bytes, user_name: str, display_name: Optional[str] = None,
                                   **how: Any) -> Tuple[Dict[str, Any], str]:
        """The same, awaited: a thread of the loop makes the call, with its own connection. If the wait is cancelled, the transaction may or
        may not be made."""
        return await in_thread(self.register_begin, user, user_name, display_name, **how)

    def register_complete(self, session: Optional[str], response: Mapping[str, Any], *, sign_in: Optional[str] = None) -> Registered:
        """Returns what a RegistrationResponseJSON registers, stores it, and closes the session. `sign_in` is the number given to the
        begin."""
        number = limits.check_session(session)

        def complete(rows: Rows) -> Registered:
            made = self.server.register_complete(rows.take(number, RegistrationSession, sign_in), response, is_registered=rows.has)
            rows.add(made.credential, made.backed_up, made.aaguid)
            self._tell("on_registered", self._on_registered, rows, made)
            return made

        return self.within(complete)

    async def register_complete_async(self, session: Optional[str], response: Mapping[str, Any], *,
                                      sign_in: Optional[str] = None) -> Registered:
        """The same, awaited like `register_begin_async`; what `verify` returns is awaited too, if it can be."""
        return await in_thread(self.register_complete, session, response, sign_in=sign_in)

    # ---- sign-in

    def authenticate_begin(self, *, user: Optional[bytes] = None, allow: Optional[Ids] = None, **how: Any) -> Tuple[Dict[str, Any], str]:
        """Returns the options for the page, and the session's id, which only this visitor may have. `how` is as in
        `Server.authenticate_begin`. If the account is known, its passkeys are listed, unless a list is given. If there are more than a list
        may have, any passkey that the browser finds may answer; it has to be the account's."""
        handle = None if user is None else limits.check_user(user)

        def begin(rows: Rows) -> Tuple[Dict[str, Any], str]:
            own = rows.listed(handle) if allow is None and handle is not None else []
            made, session = self.server.authenticate_begin(user=handle, allow=options.allowed(own) if allow is None else allow, **how)
            return made, rows.begin(session, self.lifetime)

        return self.within(begin)

    async def authenticate_begin_async(self, *, user: Optional[bytes] = None, **how: Any) -> Tuple[Dict[str, Any], str]:
        """The same, awaited like `register_begin_async`."""
        return await in_thread(self.authenticate_begin, user=user, **how)

    def authenticate_complete(self, session: Optional[str], response: Mapping[str, Any]) -> SignedIn:
        """Returns who signed in with an AuthenticationResponseJSON, stores the counter, and closes the session."""
        number = limits.check_session(session)

        def complete(rows: Rows) -> SignedIn:
            judged = self.server.authenticate_complete(rows.take(number, SignInSession), response, credential=partial(rows.credential, locks=True))
            rows.count(judged)
            signed_in = replace(judged, before=None)
            self._tell("on_signed_in", self._on_signed_in, rows, signed_in)
            return signed_in

        return self.within(complete)

    async def authenticate_complete_async(self, session: Optional[str], response: Mapping[str, Any]) -> SignedIn:
        """The same, awaited like `register_complete_async`."""
        return await in_thread(self.authenticate_complete, session, response)

    # ---- visitors who are signed in

    def keep_sign_in(self, user: bytes, credential: Optional[bytes] = None, *, lifetime: int = SIGNED_IN) -> str:
        """Stores that a visitor is signed in as this user, with this passkey or, if it is None, by other means. Returns the number for a
        cookie, 32 hex digits. The sign-in ends after `lifetime` seconds, by `abandon`, when the passkey is retired or deleted, and with the
        account."""
        identity, handle = None if credential is None else limits.check_id(credential, "credential"), limits.check_user(user)
        seconds = limits.check_lifetime(lifetime)
        return self.within(lambda rows: rows.keep_sign_in(handle, identity, seconds))

    def signed_in(self, number: Optional[str], *, fresh: Optional[int] = None) -> Optional[KeptSignIn]:
        """The visitor who is signed in by this number, or None; with `fresh`, only if that was at most this many seconds ago."""
        most = None if fresh is None else limits.check_lifetime(fresh, "fresh")
        return self.within(lambda rows: rows.signed_in(number, most), writes=False)

    # ---- sessions and credentials

    def rows(self, user: Optional[bytes] = None) -> List[KeptCredential]:
        """The credentials of a user, or all, including retired ones, in order of registration. A damaged row is left out and logged."""
        handle = None if user is None else limits.check_user(user)
        return self.within(lambda rows: rows.credentials(handle), writes=False)

    def add(self, credential: Credential, *, backed_up: Optional[bool] = None, aaguid: Optional[bytes] = None) -> None:
        """Stores a credential of another library (docs/COMING.md). Raises `Refused`, G15, if its id is registered, and `BadInput` if it is
        not one that a row may have."""
        told = None if aaguid is None else to_text(aaguid)
        KeptCredential.from_json({**Credential.to_json(credential), "backed_up": backed_up, "aaguid": told, "created_at": None, "used_at": None})
        self.within(lambda rows: rows.add(credential, backed_up, aaguid))

    def retire(self, credential: bytes, *, user: Optional[bytes] = None) -> bool:
        """Retires a credential: it can't sign in any more, and its id stays taken. Returns whether it could until now. The user's open
        registrations end. With `user`, a credential of another account is left as it is."""
        return self._changed(Rows.retire, credential, user)

    def retire_all(self, user: bytes) -> int:
        """Retires all of a user's credentials, and ends the user's open registrations. Returns how many could sign in until now."""
        handle = limits.check_user(user)
        return self.within(lambda rows: rows.retire_all(handle))

    def delete(self, credential: bytes, *, user: Optional[bytes] = None) -> bool:
        """Forgets a credential; anybody may register its id again. Returns whether it was there. The user's open registrations end. `user`
        is as in `retire`."""
        return self._changed(Rows.delete, credential, user)

    def _changed(self, change: Callable[[Rows, bytes, Optional[bytes]], bool], credential: bytes, user: Optional[bytes]) -> bool:
        identity, handle = limits.check_id(credential, "credential"), None if user is None else limits.check_user(user)
        return self.within(lambda rows: change(rows, identity, handle))

    def erase(self, user: bytes) -> int:
        """Forgets a user's credentials. Returns how many there were. The user's open sessions end, and visitors signed in as the user are
        signed out."""
        handle = limits.check_user(user)

        def erase(rows: Rows) -> int:
            erased = rows.erase(handle)
            self._tell("on_erased", self._on_erased, rows, handle)
            return erased

        return self.within(erase)

    def abandon(self, session: Optional[str]) -> bool:
        """Ends a session, or a sign-in of `keep_sign_in`. Returns whether it was there."""
        number = limits.check_session(session)
        return self.within(lambda rows: rows.end(number))

    # ---- awaited

    prepare_async, add_async, rows_async, abandon_async = _awaited(prepare), _awaited(add), _awaited(rows), _awaited(abandon)
    keep_sign_in_async, signed_in_async = _awaited(keep_sign_in), _awaited(signed_in)
    retire_async, retire_all_async, delete_async, erase_async = _awaited(retire), _awaited(retire_all), _awaited(delete), _awaited(erase)
