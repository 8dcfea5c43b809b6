"""Moves credentials into the tables of `garvoeng.sql`, and out of them:

    python -m garvoeng.move fido2|py_webauthn|simplewebauthn DATABASE < ROWS    from the rows of another library
    python -m garvoeng.move site FILE DATABASE                                  from a site's file, which `passkey-site` keeps
    python -m garvoeng.move to-site DATABASE FILE                               back into a site's file

DATABASE is a SQLite file or the address of a PostgreSQL database. FILE is a file that no process uses, or a backup. Sign-in counters,
retirement, times and transports are moved; open sessions are not. For `to-site`, `passkey-site --no-sums` must have made the file for the
same rp id.

ROWS has a line of JSON for each row; bytes are base64url text. For python-fido2: `user`, the user handle, `credential_data`, the bytes of
`AttestedCredentialData`, and `counter`. For py_webauthn: `user`, and the members of `VerifiedRegistration`: `credential_id`,
`credential_public_key`, `sign_count`, `credential_device_type`, `credential_backed_up`. For SimpleWebAuthn: `webauthnUserID`, `id`,
`publicKey`, `counter`, `deviceType`, `backedUp`. Each may have `transports`, and `account`, the primary key of a Django user: then
`garvoeng_account` gets the user's handle. Each row is moved by itself, and one that is there already is left as it is, so you can repeat the
command. A row that is not moved is reported by its line; then the status is 1."""
from __future__ import annotations

import json
import sqlite3
import sys
from typing import Any, Callable, Dict, Mapping, Optional, TextIO, Tuple

from .errors import BadInput, Refused
from .forms import from_text, transports_in
from .limits import check_credential, check_id, check_user
from .records import Credential
from .server import Server
from .sql import SqlServer
from .sql_rows import Rows

Moved = Tuple[Credential, Optional[bool], Optional[bytes]]


def _bytes(row: Mapping[str, Any], name: str) -> bytes:
    try:
        return from_text(row.get(name), name)
    except BadInput as error:
        raise BadInput(f"{error}: it has - and _ in place of + and /, and no = and no line ends") from None


def _count(row: Mapping[str, Any], name: str) -> int:
    count = row.get(name)
    if type(count) is not int:
        raise BadInput(f"{name} is a whole number, and not {count!r}")
    check_credential(-7, count)
    return count


def of_fido2(row: Mapping[str, Any]) -> Moved:
    """A row from python-fido2."""
    data = _bytes(row, "credential_data")
    size = int.from_bytes(data[16:18], "big")
    credential = Credential.from_cose(data[18:18 + size], _bytes(row, "user"), data[18 + size:], _count(row, "counter"),
                                      transports=transports_in(row.get("transports")))
    return credential, None, data[:16]


def _of_members(row: Mapping[str, Any], user: str, id: str, key: str, count: str, kind: str, kinds: Tuple[str, str], backed_up: str) -> Moved:
    """A row whose members have these names; `kinds` are the values for a credential of one device and of several."""
    single, several = kinds
    kind_said, backed_up_said = row.get(kind), row.get(backed_up)
    if kind_said not in (single, several, None) or not isinstance(backed_up_said, (bool, type(None))):
        raise BadInput(f"{kind} is {single}, {several} or null, and {backed_up} true, false or null")
    credential = Credential.from_cose(_bytes(row, id), _bytes(row, user), _bytes(row, key), _count(row, count),
                                      None if kind_said is None else kind_said == several, transports=transports_in(row.get("transports")))
    return credential, backed_up_said, None


def of_py_webauthn(row: Mapping[str, Any]) -> Moved:
    """A row from py_webauthn."""
    return _of_members(row, "user", "credential_id", "credential_public_key", "sign_count", "credential_device_type",
                       ("single_device", "multi_device"), "credential_backed_up")


def of_simplewebauthn(row: Mapping[str, Any]) -> Moved:
    """A row from SimpleWebAuthn."""
    return _of_members(row, "webauthnUserID", "id", "publicKey", "counter", "deviceType", ("singleDevice", "multiDevice"), "backedUp")


READERS: Dict[str, Callable[[Mapping[str, Any]], Moved]] = {"fido2": of_fido2, "py_webauthn": of_py_webauthn, "simplewebauthn": of_simplewebauthn}


def link(rows: Rows, account: Any, handle: bytes) -> None:
    """Gives a Django user a user handle, unless it has this one."""
    if type(account) not in (int, str):
        raise BadInput(f"account is the primary key of a user, a number or a text: not {account!r}")
    listed = "SELECT name FROM sqlite_master WHERE type = 'table' AND name = 'garvoeng_account'" if rows.is_sqlite else "SELECT to_regclass('garvoeng_account')"
    if not any(name for (name,) in rows.run(listed).fetchall()):
        raise BadInput("the database has no table garvoeng_account: run the site's migrate first")
    found = rows.run("SELECT user_id, handle FROM garvoeng_account WHERE user_id = ? OR handle = ?", account, handle).fetchall()
    if not found:
        rows.run("INSERT INTO garvoeng_account (user_id, handle) VALUES (?, ?)", account, handle)
    elif [(str(user), bytes(own)) for user, own in found] != [(str(account), handle)]:
        raise BadInput(f"the account {account} has another user handle, or another account has this one")


def moved(reader: Callable[[Mapping[str, Any]], Moved], server: SqlServer, lines: TextIO, told: Callable[[str], None]) -> bool:
    """Moves the rows in these lines. Returns whether each is there then."""
    counts = {"moved": 0, "there already": 0, "not moved": 0}
    for number, line in enumerate(lines, 1):
        try:
            row = json.loads(line)
            if not isinstance(row, dict):
                raise BadInput("the line is no JSON object")
            credential, backed_up, aaguid = reader(row)
            check_user(credential.user)
            check_id(credential.id, "the credential id")
            account = row.get("account")
            if account is not None:
                server.within(lambda rows: link(rows, account, credential.user))
            server.add(credential, backed_up=backed_up, aaguid=aaguid)
            counts["moved"] += 1
        except Refused:
            counts["there already"] += 1
        except (ValueError, RecursionError) as error:
            counts["not moved"] += 1
            told(f"line {number}: {error}")
    told(", ".join(f"{count} {what}" for what, count in counts.items()))
    return counts["not moved"] == 0


def _database(address: str) -> SqlServer:
    """The tables of a database, which are made if they are missing."""
    def connect() -> Any:
        if not address.startswith(("postgres:", "postgresql:")):
            return sqlite3.connect(address, timeout=30)
        import psycopg
        return psycopg.connect(address)

    server = SqlServer(Server("localhost", ["http://localhost"], verify=lambda *_: False), connect)
    server.prepare()
    return server


def _site(direction: str, source: str, target: str) -> bool:
    """Moves between a site's file and a database. Its module needs a system with POSIX locks."""
    from . import move_site
    if direction == "site":
        return move_site.to_database(source, _database(target), print)
    return move_site.to_file(_database(source), target, print)


def main() -> None:
    """Runs the command."""
    words = sys.argv[1:]
    if len(words) == 2 and words[0] in READERS:
        sys.exit(not moved(READERS[words[0]], _database(words[1]), sys.stdin, print))
    if len(words) == 3 and words[0] in ("site", "to-site"):
        try:
            sys.exit(not _site(*words))
        except BadInput as error:
            sys.exit(str(error))
    sys.exit(__doc__)


if __name__ == "__main__":
    main()
