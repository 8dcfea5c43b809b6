"""The rows of `SqlServer` within one transaction: the statements, and the checks of each row."""
from __future__ import annotations

import json
import logging
import re
import secrets
import time
from contextlib import suppress
from dataclasses import dataclass
from typing import Any, Dict, Iterable, List, Optional, Sequence, Tuple, Union

from . import limits
from .errors import BadInput, Refused, RowDamaged, SessionDamaged
from .forms import from_text, to_text, transports_in
from .records import Credential, KeptCredential, RegistrationSession, SignedIn, SignInSession, open_session

MIGRATIONS: Tuple[Tuple[str, ...], ...] = ((
    "create table garvoeng_credential (id {bytes} primary key, user_handle {bytes} not null, public_key {bytes} not null, "
    "sign_count bigint not null, backup_eligible integer null, retired integer not null, backed_up integer null, "
    "transports text not null default '', aaguid {bytes} null, created_at bigint not null, used_at bigint null)",
    "create index garvoeng_credential_by_user on garvoeng_credential (user_handle)",
    "create table garvoeng_session (id text primary key, data text not null, expires_at bigint not null)",
    "create index garvoeng_session_by_expiry on garvoeng_session (expires_at)",
),)
"""The statements that make the tables and later change them, for each version from 1 on."""

_COLUMNS = "id, user_handle, public_key, sign_count, backup_eligible, retired, transports, backed_up, aaguid, created_at, used_at"
_SESSION = re.compile(r"[0-9a-f]{32}")
_KINDS = {RegistrationSession: "algorithms", SignInSession: "allow"}
"""The member that only sessions of this kind have."""
_SIGNED_IN = "signed_in"
"""The member of a kept sign-in."""
_NAMES, _SECRET, _NEVER = "names", "secret", 2**53
_log = logging.getLogger("garvoeng")


@dataclass(frozen=True)
class KeptSignIn:
    """A visitor who is signed in."""

    number: str
    """A number only this visitor has."""
    user: bytes
    """The user handle."""
    credential: Optional[bytes]
    """The id of the passkey that signed in; None if it was by other means."""
    at: int
    """When, in seconds since 1970."""


def _flag(value: Any) -> Optional[bool]:
    return None if value is None else bool(value)


def _number(value: Optional[bool]) -> Optional[int]:
    return None if value is None else int(value)


def _whole(value: Any, what: str, most: int = 2**63 - 1) -> int:
    if type(value) is not int or not 0 <= value <= most:
        raise BadInput(f"{what} is not a whole number up to {most}")
    return value


def _read(row: Sequence[Any]) -> KeptCredential:
    identity, user, key = (limits.check_bytes(value, what) for value, what in zip(row, ("id", "user_handle", "public_key")))
    eligible, backed_up = (_flag(None if value is None else _whole(value, what, 1))
                           for value, what in ((row[4], "backup_eligible"), (row[7], "backed_up")))
    credential = Credential.from_cose(limits.check_id(identity, "id"), limits.check_user(user), key,
                                      _whole(row[3], "sign_count", limits.MAX_COUNT), eligible, bool(_whole(row[5], "retired", 1)),
                                      transports_in(limits.check_text(row[6], "transports").split(",")))
    return KeptCredential(**vars(credential), aaguid=None if row[8] is None else limits.check_aaguid(row[8]), backed_up=backed_up,
                          created_at=_whole(row[9], "created_at"), used_at=None if row[10] is None else _whole(row[10], "used_at"))


def _row(row: Sequence[Any]) -> KeptCredential:
    """The row of a credential. Raises `RowDamaged`."""
    try:
        return _read(row)
    except (BadInput, TypeError) as error:
        damaged = RowDamaged(bytes(row[0]) if isinstance(row[0], (bytes, memoryview)) else row[0], str(error))
    _log.error("%s", damaged)
    raise damaged


def _members(data: Any) -> Dict[str, Any]:
    """The members of a session's row; empty if it is damaged."""
    try:
        found = json.loads(data)
    except (TypeError, ValueError, RecursionError):
        return {}
    return found if isinstance(found, dict) else {}


def _names_of(user: bytes) -> str:
    """The id of the row with a user's names for passkeys."""
    return f"{_NAMES} {to_text(user)}"


def _check_session(number: Any) -> bool:
    return isinstance(number, str) and _SESSION.fullmatch(number) is not None


class Rows:
    """The rows within one transaction, through its cursor. `mark` is the driver's placeholder for a value in a statement."""

    def __init__(self, cursor: Any, is_sqlite: bool, mark: str) -> None:
        self.is_sqlite = is_sqlite
        self._cursor = cursor
        self._mark = mark

    def run(self, statement: str, *values: Any) -> Any:
        """Runs a statement, with `?` in place of each value. Returns the cursor."""
        self._cursor.execute(statement.replace("?", self._mark), values)
        return self._cursor

    # ---- tables

    def prepare(self) -> None:
        """Makes the tables, or brings those of an older version up to this one."""
        if not self.is_sqlite:
            self.run("select pg_advisory_xact_lock(hashtext('garvoeng'))")
        self.run("create table if not exists garvoeng_version (version integer not null)")
        found = self.run("select version from garvoeng_version").fetchone()
        version = 0 if found is None else found[0]
        if version > len(MIGRATIONS):
            raise BadInput(f"the tables are of version {version}, and this package knows {len(MIGRATIONS)}: install a later one")
        for statements in MIGRATIONS[version:]:
            for statement in statements:
                self.run(statement.format(bytes="blob" if self.is_sqlite else "bytea"))
        if found is None:
            self.run("insert into garvoeng_version values (?)", len(MIGRATIONS))
        else:
            self.run("update garvoeng_version set version = ?", len(MIGRATIONS))

    def lock(self, user: bytes) -> None:
        """Until the transaction ends, nobody else can change this account's rows. SQLite has one lock for all."""
        if not self.is_sqlite:
            self.run("select pg_advisory_xact_lock(hashtext(cast(? as text)))", f"garvoeng {to_text(user)}")

    # ---- sessions

    def _stored(self, data: Dict[str, Any], lifetime: int) -> str:
        """Stores a session under an id of 32 random hexadecimal digits, and deletes those that have ended."""
        now, number = int(time.time()), secrets.token_hex(16)
        self.run("delete from garvoeng_session where expires_at <= ?", now)
        self.run("insert into garvoeng_session values (?, ?, ?)", number, json.dumps(data), now + lifetime)
        return number

    def _found(self, number: Any) -> Optional[Dict[str, Any]]:
        """The members of the open session, or None."""
        if not _check_session(number):
            return None
        found = self.run("select data from garvoeng_session where id = ? and expires_at > ?", number, int(time.time())).fetchone()
        return None if found is None else _members(found[0])

    def begin(self, session: Union[RegistrationSession, SignInSession], lifetime: int, sign_in: Optional[str] = None) -> str:
        """Stores a session and the sign-in that it is bound to. Returns its id."""
        bound = {} if sign_in is None else {"sign_in": sign_in}
        return self._stored({**session.to_json(), **bound}, lifetime)

    def take(self, number: Any, kind: Any, sign_in: Optional[str] = None) -> Any:
        """The open session of this id and kind that is bound to this sign-in, if to any, or None. Its row is deleted if the transaction
        commits, so it answers once. Raises `SessionDamaged`."""
        found = self._found(number)
        if found is None or any(member in found for other, member in _KINDS.items() if other is not kind) or _SIGNED_IN in found:
            return None
        try:
            session = open_session(kind, found)
        except BadInput as error:
            damaged = SessionDamaged(number, str(error))
            _log.error("%s", damaged)
            raise damaged from None
        if session.user is not None:
            self.lock(session.user)
        if found.get("sign_in") != sign_in or not self.is_signed_in(session.user, sign_in):
            return None
        return session if self.end(number) else None

    def end(self, number: Any) -> bool:
        """Deletes a session. Returns whether it was there."""
        return _check_session(number) and bool(self.run("delete from garvoeng_session where id = ?", number).rowcount == 1)

    def end_of(self, user: bytes, members: Iterable[str]) -> None:
        """Deletes a user's sessions of the kinds with these members."""
        handle, place = to_text(user), "instr" if self.is_sqlite else "strpos"
        rows = self.run(f"select id, data from garvoeng_session where {place}(data, cast(? as text)) > 0", f'"{handle}"').fetchall()
        for number, data in rows:
            found = _members(data)
            if found.get("user") == handle and any(member in found for member in members):
                self.end(number)

    # ---- visitors who are signed in

    def keep_sign_in(self, user: bytes, credential: Optional[bytes], lifetime: int) -> str:
        """Stores that a visitor is signed in. Returns the number, which only this visitor may have."""
        return self._stored({_SIGNED_IN: int(time.time()), "user": to_text(user),
                             "credential": None if credential is None else to_text(credential)}, lifetime)

    def signed_in(self, number: Any, fresh: Optional[int] = None, *, looks_up: bool = True) -> Optional[KeptSignIn]:
        """The visitor who is signed in by this number, within the last `fresh` seconds; None if the sign-in ended, or its passkey is
        retired or deleted. The passkey is looked up unless another server has it."""
        found = self._found(number)
        if found is None or _SIGNED_IN not in found:
            return None
        try:
            credential = found.get("credential")
            kept = KeptSignIn(number, from_text(found.get("user"), "user"), None if credential is None else from_text(credential, "credential"),
                              _whole(found[_SIGNED_IN], _SIGNED_IN))
        except BadInput as error:
            _log.error("%s", SessionDamaged(number, str(error)))
            return None
        if fresh is not None and time.time() - kept.at > fresh:
            return None
        statement = "select 1 from garvoeng_credential where id = ? and user_handle = ? and retired = 0"
        is_open = kept.credential is None or not looks_up or self.run(statement, kept.credential, kept.user).fetchone() is not None
        return kept if is_open else None

    def is_signed_in(self, user: Optional[bytes], sign_in: Optional[str]) -> bool:
        """Whether this user is signed in by this number; true if there is none to check."""
        if sign_in is None:
            return True
        kept = self.signed_in(sign_in)
        return kept is not None and kept.user == user

    # ---- what is kept beside sessions, in rows whose ids no visitor has a number for

    def secret(self) -> bytes:
        """32 random bytes, which are made if there are none."""
        self.run("insert into garvoeng_session values (?, ?, ?) on conflict (id) do nothing", _SECRET,
                 json.dumps({_SECRET: to_text(secrets.token_bytes(32))}), _NEVER)
        found = self.run("select data from garvoeng_session where id = ?", _SECRET).fetchone()
        return from_text(_members(found[0]).get(_SECRET), _SECRET)

    def names(self, user: bytes) -> Dict[bytes, str]:
        """A user's names for passkeys, by their ids."""
        found = self.run("select data from garvoeng_session where id = ?", _names_of(user)).fetchone()
        named = None if found is None else _members(found[0]).get(_NAMES)
        return {from_text(id, "id"): str(name) for id, name in named.items()} if isinstance(named, dict) else {}

    def rename(self, user: bytes, id: bytes, name: str) -> None:
        """Names a passkey. An empty name removes the name."""
        self.lock(user)
        named = {to_text(one): text for one, text in self.names(user).items() if one != id}
        if name:
            named[to_text(id)] = name
        self.run("delete from garvoeng_session where id = ?", _names_of(user))
        if named:
            self.run("insert into garvoeng_session values (?, ?, ?)", _names_of(user), json.dumps({_NAMES: named, "user": to_text(user)}), _NEVER)

    # ---- credentials

    def credential(self, id: bytes, *, locks: bool = False) -> Optional[KeptCredential]:
        """If it locks, the row stays as it is until the transaction ends. Raises `RowDamaged`."""
        lock = " for update" if locks and not self.is_sqlite else ""
        row = self.run(f"select {_COLUMNS} from garvoeng_credential where id = ?{lock}", id).fetchone()
        return None if row is None else _row(row)

    def has(self, id: bytes) -> bool:
        """Whether a credential has the id, of any user, retired or not."""
        return self.run("select 1 from garvoeng_credential where id = ?", id).fetchone() is not None

    def credentials(self, user: Optional[bytes]) -> List[KeptCredential]:
        """The credentials of a user, or all, except for damaged rows."""
        which, values = ("", ()) if user is None else (" where user_handle = ?", (user,))
        rows = self.run(f"select {_COLUMNS} from garvoeng_credential{which} order by created_at, id", *values).fetchall()
        listed = []
        for row in rows:
            with suppress(RowDamaged):
                listed.append(_row(row))
        return listed

    def listed(self, user: bytes) -> List[KeptCredential]:
        """A user's passkeys that may sign in."""
        return [row for row in self.credentials(user) if not row.retired]

    def _owner(self, id: bytes, user: Optional[bytes]) -> Optional[bytes]:
        """The user of a credential, or none if it is missing or not of the named user. The user's account is then locked."""
        row = self.run("select user_handle from garvoeng_credential where id = ?", id).fetchone()
        owner = None if row is None else bytes(row[0]) if isinstance(row[0], (bytes, memoryview)) else b""
        if owner is None or user not in (None, owner):
            return None
        self.lock(owner)
        return owner

    def retire(self, id: bytes, user: Optional[bytes]) -> bool:
        """Also ends the user's open registrations."""
        owner = self._owner(id, user)
        if owner is None or self.run("update garvoeng_credential set retired = 1 where id = ? and retired = 0", id).rowcount != 1:
            return False
        self.end_of(owner, [_KINDS[RegistrationSession]])
        return True

    def retire_all(self, user: bytes) -> int:
        """Returns how many could sign in until now. Ends the user's open registrations."""
        self.lock(user)
        self.end_of(user, [_KINDS[RegistrationSession]])
        return int(self.run("update garvoeng_credential set retired = 1 where user_handle = ? and retired = 0", user).rowcount)

    def delete(self, id: bytes, user: Optional[bytes]) -> bool:
        """Also ends the user's open registrations."""
        owner = self._owner(id, user)
        if owner is None or self.run("delete from garvoeng_credential where id = ?", id).rowcount != 1:
            return False
        if id in self.names(owner):
            self.rename(owner, id, "")
        self.end_of(owner, [_KINDS[RegistrationSession]])
        return True

    def erase(self, user: bytes) -> int:
        """Returns how many credentials there were. Ends all of the user's sessions, and signs out each visitor who is signed in."""
        self.lock(user)
        self.end_of(user, [*_KINDS.values(), _SIGNED_IN])
        self.run("delete from garvoeng_session where id = ?", _names_of(user))
        return int(self.run("delete from garvoeng_credential where user_handle = ?", user).rowcount)

    def add(self, credential: Credential, backed_up: Optional[bool], aaguid: Optional[bytes], created_at: Optional[int] = None,
            used_at: Optional[int] = None) -> None:
        """Stores a credential, dated now unless a time is given. Raises `Refused`, G15, if its id is registered, to any user, retired or
        not."""
        added = self.run(
            "insert into garvoeng_credential values (?, ?, ?, ?, ?, ?, ?, ?, ?, ?, ?) on conflict (id) do nothing",
            credential.id, credential.user, credential.cose_key, credential.sign_count, _number(credential.eligible),
            int(credential.retired), _number(backed_up), ",".join(credential.transports), aaguid,
            int(time.time()) if created_at is None else created_at, used_at)
        if added.rowcount != 1:
            raise Refused(True, 15, "the credential was registered meanwhile")

    def count(self, signed_in: SignedIn) -> None:
        """Stores the results of a sign-in. Raises `Refused`, W15, if the stored counter is not the one that the verdict was given for."""
        new, old = signed_in.credential, signed_in.before
        assert old is not None
        written = self.run(
            "update garvoeng_credential set sign_count = ?, backup_eligible = ?, backed_up = ?, used_at = ? "
            "where id = ? and sign_count = ? and retired = 0",
            new.sign_count, _number(new.eligible), int(signed_in.backed_up), int(time.time()), old.id, old.sign_count)
        if written.rowcount != 1:
            raise Refused(False, 15, "another sign-in of this credential was accepted meanwhile, or it was retired")
