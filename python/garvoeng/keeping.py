"""A relying party whose sessions and credentials are in a storage of the site's own, and the interface that all servers with storage
share."""
from __future__ import annotations

import json
import logging
import os
import re
import time
from contextlib import suppress
from dataclasses import dataclass, replace
from typing import Any, Dict, List, Mapping, NoReturn, Optional, Protocol, Sequence, Tuple, Type, TypeVar, Union

from . import answers, limits, options
from .answers import in_thread
from .errors import BadInput, Refused, RowDamaged, SessionDamaged
from .library import EDDSA, ES256, RS256, refusal_text
from .options import Ids, Requirement
from .records import KeptCredential, Registered, RegistrationSession, SignedIn, SignInSession, check_row, open_session
from .server import Server

LIFETIME = 300
"""How many seconds a session stays open by default."""

Session = TypeVar("Session", RegistrationSession, SignInSession)
_log = logging.getLogger("garvoeng")
_NUMBER = re.compile(r"[0-9a-f]{32}")


class PasskeyServer(Protocol):
    """The common interface of `KeepingServer`, `SqlServer` and `StoredServer`. To change its storage, a site written for it changes only
    the line that makes the server. `session` is a text that only its visitor may have, or None: no session is open for any other text, and
    a value of another type raises TypeError."""

    @property
    def origins(self) -> Tuple[str, ...]:
        """The origins of the site's pages."""

    @property
    def top_origins(self) -> Tuple[str, ...]:
        """The origins of the pages that may have the site's in a frame."""

    def register_begin(self, user: bytes, user_name: str, display_name: Optional[str] = None, *, exclude: Optional[Ids] = None,
                       user_verification: Requirement = False, resident_key: Requirement = True,
                       algorithms: Sequence[int] = (ES256, EDDSA, RS256), authenticator_attachment: Optional[str] = None,
                       attestation: str = "none", conditional: bool = False, timeout: Optional[int] = None, hints: Sequence[str] = (),
                       extensions: Optional[Mapping[str, Any]] = None) -> Tuple[Dict[str, Any], str]:
        """As in `Server`. Excludes the account's passkeys, unless a list is given."""

    def register_complete(self, session: Optional[str], response: Mapping[str, Any]) -> Registered:
        """Returns what a RegistrationResponseJSON registers, stores it, and closes the session."""

    def authenticate_begin(self, *, user: Optional[bytes] = None, allow: Optional[Ids] = None, user_verification: Requirement = False,
                           timeout: Optional[int] = None, hints: Sequence[str] = (),
                           extensions: Optional[Mapping[str, Any]] = None) -> Tuple[Dict[str, Any], str]:
        """As in `Server`. If the account is known, its passkeys are listed, unless a list is given. If there are more than a list may have,
        any passkey that the browser finds may answer; it has to be the account's."""

    def authenticate_complete(self, session: Optional[str], response: Mapping[str, Any]) -> SignedIn:
        """Returns who signed in with an AuthenticationResponseJSON, stores the counter, and closes the session."""

    def rows(self, user: Optional[bytes] = None) -> Sequence[KeptCredential]:
        """The credentials of a user, or all, including retired ones, in order of registration."""

    def retire(self, credential: bytes, *, user: Optional[bytes] = None) -> bool:
        """Retires a credential: it can't sign in any more, and its id stays taken. Returns whether it could until now. Its user's open
        registrations end. With `user`, a credential of another account is left as it is."""

    def retire_all(self, user: bytes) -> int:
        """Retires all of a user's credentials, and ends the user's open registrations. Returns how many could sign in until now."""

    def delete(self, credential: bytes, *, user: Optional[bytes] = None) -> bool:
        """Forgets a credential; anybody may register its id again. Returns whether it was there. Its user's open registrations end. `user`
        is as in `retire`."""

    def erase(self, user: bytes) -> int:
        """Forgets a user's credentials, and ends the user's open registrations. Returns how many there were."""

    def abandon(self, session: Optional[str]) -> bool:
        """Ends a session. Returns whether it was open."""


@dataclass(frozen=True)
class OpenSession:
    """A session as a `Store` keeps it."""

    number: str
    """32 hexadecimal digits that only its visitor has."""
    kind: str
    """`registration` or `sign_in`."""
    user: Optional[bytes]
    """The user handle, if the account is known."""
    data: str
    """A text that `session` returns unchanged."""
    ends_at: int
    """Seconds since 1970. The server ignores a session that has ended; the store may delete it."""


class Store(Protocol):
    """A site's own storage: rows of an ORM, of a database, of a file. Each call is one change, done completely or not at all, even with
    concurrent calls: in a database, one transaction. Calls come from any thread, and are not awaited. The site may write other rows of its
    own in the same transaction."""

    def begin(self, session: OpenSession) -> None:
        """Adds a session."""

    def session(self, number: str) -> Optional[OpenSession]:
        """The session with this number, or None."""

    def register(self, number: str, row: KeptCredential) -> int:
        """Deletes the session, adds the row and returns 0. Returns 1 if the session is not there, and 15 if a row has the id, of any user,
        retired or not; then nothing is changed."""

    def sign_in(self, number: str, row: KeptCredential, sign_count: int) -> int:
        """Deletes the session, replaces the row with this id by the new one and returns 0. Returns 1 if the session is not there, and 15 if
        that row is not there, is retired, or has a `sign_count` other than this one; then nothing is changed."""

    def abandon(self, number: str) -> bool:
        """Deletes a session. Returns whether it was there."""

    def row(self, credential: bytes) -> Optional[KeptCredential]:
        """The row with this id, or None."""

    def rows(self, user: Optional[bytes]) -> Sequence[KeptCredential]:
        """The rows of a user, or all, in order of registration."""

    def retire(self, credential: bytes, user: Optional[bytes]) -> bool:
        """Sets `retired` of a row to true, if it is not, and deletes the sessions of its user whose kind is `registration`. Returns whether
        it did. With `user`, the row of another user is left as it is."""

    def retire_all(self, user: bytes) -> int:
        """Does the same for all rows of a user. Returns how many were not retired."""

    def delete(self, credential: bytes, user: Optional[bytes]) -> bool:
        """Deletes a row, and the sessions of its user whose kind is `registration`. Returns whether it was there. `user` is as in
        `retire`."""

    def erase(self, user: bytes) -> int:
        """Deletes a user's rows and sessions, all of them. Returns how many rows."""


def _check(row: KeptCredential) -> None:
    """Checks a row. Raises `RowDamaged`, and logs it."""
    try:
        check_row(row)
    except RowDamaged as damaged:
        _log.error("%s", damaged)
        raise


def _wrong(call: str, said: Any, wanted: str) -> NoReturn:
    answers.refuse(f"the store's {call}", said, wanted, awaited_in="")


class KeepingServer:
    """`Server` with its sessions and credentials in a `Store` of the site's own, for example `MemoryStore()`.

    `lifetime` is how many seconds a session stays open. Raises what `Server` raises, and what the store raises, in which case nothing
    changes. Raises TypeError if the store answers something other than it may, `RowDamaged` if the row that is asked for is damaged, and
    `Refused` with W15 if another sign-in with the credential was accepted meanwhile, or with G15 if its id was registered meanwhile.
    """

    def __init__(self, server: Server, store: Store, *, lifetime: int = LIFETIME) -> None:
        if not isinstance(server, Server) or not callable(getattr(store, "sign_in", None)):
            raise TypeError("KeepingServer takes a Server and a Store, as MemoryStore()")
        self.server = server
        self.origins, self.top_origins = server.origins, server.top_origins
        self.store = store
        self.lifetime = limits.check_lifetime(lifetime)

    # ---- sessions

    def _begun(self, kind: str, session: Union[RegistrationSession, SignInSession]) -> str:
        number = os.urandom(16).hex()
        self.store.begin(OpenSession(number, kind, session.user, json.dumps(session.to_json()), int(time.time()) + self.lifetime))
        return number

    def _opened(self, number: Optional[str], kind: str, read: Type[Session]) -> Optional[Session]:
        """The open session of this number and kind, or None. Raises `SessionDamaged`."""
        if number is None or not _NUMBER.fullmatch(number):
            return None
        found = self.store.session(number)
        if found is None:
            return None
        if not isinstance(found, OpenSession):
            _wrong("session", found, "an OpenSession or None")
        if found.kind != kind or found.number != number or found.ends_at <= time.time():
            return None
        try:
            return open_session(read, found.data)
        except BadInput as error:
            damaged = SessionDamaged(number, str(error))
            _log.error("%s", damaged)
            raise damaged from None

    # ---- what the store answers

    def _found(self, id: bytes) -> Optional[KeptCredential]:
        found = self.store.row(id)
        if found is not None and not isinstance(found, KeptCredential):
            _wrong("row", found, "a KeptCredential or None")
        return found

    def _row(self, id: bytes) -> Optional[KeptCredential]:
        """The row of an id, or None. Raises `RowDamaged`."""
        found = self._found(id)
        if found is not None:
            _check(found)
        return found

    def _check_written(self, call: str, is_registration: bool, said: Any, meanwhile: str) -> None:
        if type(said) is not int or said not in (0, 1, 15):
            _wrong(call, said, "0, 1 or 15")
        if said:
            raise Refused(is_registration, said, meanwhile if said == 15 else refusal_text(is_registration, said))

    def _count(self, call: str, said: Any) -> int:
        if type(said) is not int or said < 0:
            _wrong(call, said, "a whole number")
        return said

    # ---- registration

    def register_begin(self, user: bytes, user_name: str, display_name: Optional[str] = None, *, exclude: Optional[Ids] = None,
                       **how: Any) -> Tuple[Dict[str, Any], str]:
        """Returns the options for the page, and the session's number, which only this visitor may have. `how` is as in
        `Server.register_begin`; the account's passkeys are excluded, unless a list is given."""
        listed = options.fitting(self._own(limits.check_user(user))) if exclude is None else exclude
        made, session = self.server.register_begin(user, user_name, display_name, exclude=listed, **how)
        return made, self._begun("registration", session)

    async def register_begin_async(self, user: bytes, user_name: str, display_name: Optional[str] = None,
                                   **how: Any) -> Tuple[Dict[str, Any], str]:
        """The same, awaited: a thread of the loop makes the call."""
        return await in_thread(self.register_begin, user, user_name, display_name, **how)

    def register_complete(self, session: Optional[str], response: Mapping[str, Any]) -> Registered:
        """Returns what a RegistrationResponseJSON registers, stores it, and closes the session."""
        number = limits.check_session(session)
        made = self.server.register_complete(self._opened(number, "registration", RegistrationSession), response,
                                             is_registered=lambda id: self._found(id) is not None)
        assert number is not None
        row = KeptCredential(**vars(made.credential), aaguid=made.aaguid, backed_up=made.backed_up, created_at=int(time.time()))
        self._check_written("register", True, self.store.register(number, row), "the credential was registered meanwhile")
        return made

    async def register_complete_async(self, session: Optional[str], response: Mapping[str, Any]) -> Registered:
        """The same, awaited like `register_begin_async`; what `verify` returns is awaited too, if it can be."""
        return await in_thread(self.register_complete, session, response)

    # ---- sign-in

    def authenticate_begin(self, *, user: Optional[bytes] = None, allow: Optional[Ids] = None, **how: Any) -> Tuple[Dict[str, Any], str]:
        """Returns the options for the page, and the session's number, which only this visitor may have. `how` is as in
        `Server.authenticate_begin`. If the account is known, its passkeys are listed, unless a list is given. If there are more than a list
        may have, any passkey that the browser finds may answer; it has to be the account's."""
        own = [] if user is None or allow is not None else self._own(limits.check_user(user))
        made, session = self.server.authenticate_begin(user=user, allow=options.allowed(own) if allow is None else allow, **how)
        return made, self._begun("sign_in", session)

    async def authenticate_begin_async(self, **how: Any) -> Tuple[Dict[str, Any], str]:
        """The same, awaited like `register_begin_async`."""
        return await in_thread(self.authenticate_begin, **how)

    def authenticate_complete(self, session: Optional[str], response: Mapping[str, Any]) -> SignedIn:
        """Returns who signed in with an AuthenticationResponseJSON, stores the counter, and closes the session."""
        number = limits.check_session(session)
        found: List[Optional[KeptCredential]] = []

        def credential(id: bytes) -> Optional[KeptCredential]:
            found.append(self._row(id))
            return found[-1]

        signed_in = self.server.authenticate_complete(self._opened(number, "sign_in", SignInSession), response, credential=credential)
        assert number is not None
        [before] = found
        assert before is not None
        row = replace(before, sign_count=signed_in.credential.sign_count, eligible=signed_in.credential.eligible,
                      backed_up=signed_in.backed_up, used_at=int(time.time()))
        self._check_written("sign_in", False, self.store.sign_in(number, row, before.sign_count),
                            "another sign-in of this credential was accepted meanwhile, or it was retired")
        return replace(signed_in, before=None)

    async def authenticate_complete_async(self, session: Optional[str], response: Mapping[str, Any]) -> SignedIn:
        """The same, awaited like `register_complete_async`."""
        return await in_thread(self.authenticate_complete, session, response)

    # ---- sessions and credentials

    def rows(self, user: Optional[bytes] = None) -> List[KeptCredential]:
        """The credentials of a user, or all, including retired ones, in order of registration. A damaged row is left out and logged."""
        found = self.store.rows(None if user is None else limits.check_user(user))
        if not isinstance(found, (list, tuple)) or not all(isinstance(row, KeptCredential) for row in found):
            _wrong("rows", found, "a list of KeptCredential")
        listed = []
        for row in found:
            with suppress(RowDamaged):
                _check(row)
                listed.append(row)
        return listed

    def _own(self, user: bytes) -> List[KeptCredential]:
        """A user's passkeys that may sign in."""
        return [row for row in self.rows(user) if not row.retired]

    def retire(self, credential: bytes, *, user: Optional[bytes] = None) -> bool:
        """Retires a credential: it can't sign in any more, and its id stays taken. Returns whether it could until now. Its user's open
        registrations end. With `user`, a credential of another account is left as it is."""
        said = self.store.retire(limits.check_id(credential, "credential"), None if user is None else limits.check_user(user))
        return answers.is_true("the store's retire", said)

    def retire_all(self, user: bytes) -> int:
        """Retires all of a user's credentials, and ends the user's open registrations. Returns how many could sign in until now."""
        return self._count("retire_all", self.store.retire_all(limits.check_user(user)))

    def delete(self, credential: bytes, *, user: Optional[bytes] = None) -> bool:
        """Forgets a credential; anybody may register its id again. Returns whether it was there. Its user's open registrations end. `user`
        is as in `retire`."""
        said = self.store.delete(limits.check_id(credential, "credential"), None if user is None else limits.check_user(user))
        return answers.is_true("the store's delete", said)

    def erase(self, user: bytes) -> int:
        """Forgets a user's credentials, and ends the user's open sessions. Returns how many credentials there were."""
        return self._count("erase", self.store.erase(limits.check_user(user)))

    def abandon(self, session: Optional[str]) -> bool:
        """Ends a session. Returns whether it was open."""
        number = limits.check_session(session)
        return number is not None and bool(_NUMBER.fullmatch(number)) and answers.is_true("the store's abandon", self.store.abandon(number))
