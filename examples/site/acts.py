"""The visitor's acts, over rows of a database or over the proved program with its own file."""
from __future__ import annotations

import os
import secrets
from pathlib import Path
from typing import Any, Dict, List, Mapping, Optional, Tuple

from accounts import Accounts, Taken, connect_to
from garvoeng import Credential, PasskeyServer, Server, StoredServer
from garvoeng.sql import SqlServer

PROGRAM = os.environ.get("PROGRAM", str(Path(__file__).resolve().parents[2] / "dist" / "passkey-site"))
"""The proved program that keeps credentials in its own file."""

Session = Optional[str]


class Acts:
    def __init__(self, server: PasskeyServer, accounts: Accounts) -> None:
        self.server = server
        self.accounts = accounts
        self.rows = accounts.rows
        """Stores the sign-ins."""

    def sign_in(self, user: bytes, passkey: bytes) -> str:
        """The number of a sign-in, for the visitor's cookie. It ends with its passkey, or else when the account retires any."""
        return self.rows.keep_sign_in(user, passkey if self.server is self.rows else None)

    def signed_in(self, number: Optional[str], fresh: Optional[int] = None) -> Optional[bytes]:
        """The user handle of the visitor, if the sign-in was at most `fresh` seconds ago."""
        kept = self.rows.signed_in(number, fresh=fresh)
        return None if kept is None else kept.user

    def sign_out(self, number: Optional[str], *sessions: Session) -> None:
        """Ends the sign-in, and open ceremonies."""
        self.rows.abandon(number)
        for session in sessions:
            if session is not None:
                self.server.abandon(session)

    def register_begin(self, name: str, visitor: Optional[bytes], verified: bool, resident: bool) -> Tuple[Dict[str, Any], Session]:
        """The options and the session. A name of another account is taken."""
        user = self.accounts.user_of(name)
        if user is not None and user != visitor:
            raise Taken("the name is another account's")
        return self.server.register_begin(user or secrets.token_bytes(32), name, user_verification=verified, resident_key=resident)

    def register_finish(self, session: Session, name: str, response: Mapping[str, Any]) -> Tuple[bytes, bytes]:
        """The account's user handle and the passkey's id."""
        made = self.server.register_complete(session, response).credential
        if not self.accounts.add(name, made.user):
            self.server.retire(made.id)
            raise Taken("the name is another account's")
        return made.user, made.id

    def sign_in_begin(self, name: str, verified: bool) -> Optional[Tuple[Dict[str, Any], Session]]:
        """The options and the session; None if no account has the name."""
        user = self.accounts.user_of(name) if name else None
        if name and user is None:
            return None
        return self.server.authenticate_begin(user=user, user_verification=verified)

    def sign_in_finish(self, session: Session, response: Mapping[str, Any]) -> Tuple[bytes, bytes, int]:
        """The account's user handle, the passkey's id and its counter."""
        said = self.server.authenticate_complete(session, response).credential
        return said.user, said.id, said.sign_count

    def passkeys(self, user: bytes) -> List[Credential]:
        """The passkeys of a user, by their ids."""
        return sorted(self.server.rows(user), key=lambda row: bytes(row.id))

    def retire(self, user: bytes, id: bytes) -> bool:
        """Retires a passkey of this user. Returns whether there is one with this id."""
        if id not in (row.id for row in self.server.rows(user)):
            return False
        self.server.retire(id, user=user)
        if self.server is not self.rows:
            self.rows.erase(user)
        return True


def acts_at(address: str, rp_id: str, origin: str, rp_name: str) -> Acts:
    """`program:FILE` is a file of the program; anything else is a SQLite file or a PostgreSQL address."""
    server = Server(rp_id, [origin], rp_name)
    if address.startswith("program:"):
        file = address[len("program:"):]
        return Acts(StoredServer(PROGRAM, file, rp_id, [origin], rp_name, shared=True), Accounts(SqlServer(server, connect_to(file + "-accounts"))))
    rows = SqlServer(server, connect_to(address))
    return Acts(rows, Accounts(rows))
