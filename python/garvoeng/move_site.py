"""Moves the credentials of a site's file, which `passkey-site` keeps, into the tables of `garvoeng.sql`, and back."""
from __future__ import annotations

import fcntl
import shutil
import sqlite3
import tempfile
from contextlib import closing, contextmanager
from pathlib import Path
from typing import Any, BinaryIO, Callable, Iterator, List, Sequence, Tuple

from . import limits
from .errors import BadInput, Refused
from .forms import transports_in
from .records import KeptCredential
from .sql import Rows, SqlServer

VERSION = 4
"""The version of the file's tables that this module reads and writes (docs/SITE.md)."""

_LOCK = (0x4000_0000, 512)
"""The offset at which SQLite locks a file, and the number of bytes (the file format, section 1.5)."""
_RESERVED = 20
"""The offset in the header of how many bytes each page reserves: those of the checksums, if it has them (section 1.3)."""
_AT_ONCE = 1_000
"""The number of rows that one transaction moves."""
_ROWS = ("select place, id, user_handle, algorithm, x, y, sign_count, backup_eligible, retired, aaguid, created_at, used_at, transports "
         "from credential left join detail using (place) order by place")


@contextmanager
def _held(file: Path) -> Iterator[BinaryIO]:
    """The open file; meanwhile no other process can use it. The lock ends as soon as this process closes the file, however it was opened
    (POSIX, fcntl), so the file is read only through what this returns. Raises `BadInput` if a process uses it, or it does not exist."""
    try:
        opened = open(file, "r+b")
    except OSError as error:
        raise BadInput(f"{file} can't be opened: {error.strerror}") from None
    with opened:
        try:
            fcntl.lockf(opened, fcntl.LOCK_EX | fcntl.LOCK_NB, _LOCK[1], _LOCK[0])
        except OSError:
            raise BadInput(f"{file} is in use: end passkey-site, or take a backup that it has made") from None
        yield opened


def _checked(site: sqlite3.Connection, name: Path) -> None:
    """Raises `BadInput` if the file is not that of a site of this version."""
    try:
        version = [row[0] for row in site.execute("select version from site")]
    except sqlite3.DatabaseError as error:
        raise BadInput(f"{name} is no site's file: {error}") from None
    if version != [VERSION]:
        raise BadInput(f"{name} is of version {version}, and not {VERSION}: let this version's passkey-site open it once")


def _kept(row: Sequence[Any]) -> KeptCredential:
    """A row of the file. Raises `BadInput` or TypeError if it is not a credential's."""
    _, identity, user, algorithm, x, y, count, eligible, retired, aaguid, created, used, transports = row
    limits.check_key(algorithm, x, b"" if y is None else y)
    limits.check_credential(algorithm, count)
    known = tuple(transports.split(",")) if transports else ()
    if transports_in(list(known)) != known:
        raise BadInput("transports are not valid")
    return KeptCredential(limits.check_id(identity, "id"), limits.check_user(user), algorithm, x, y or b"", count,
                          None if eligible is None else bool(eligible), bool(retired), known, None if aaguid is None else limits.check_aaguid(aaguid),
                          None, created, used)


def _copied(file: Path, folder: str) -> Path:
    """A copy of the file and its log, so that reading changes neither."""
    copy = Path(folder) / "site.db"
    with _held(file) as opened, open(copy, "wb") as made:
        shutil.copyfileobj(opened, made)
        log = Path(f"{file}-wal")
        if log.exists():
            shutil.copyfile(log, f"{copy}-wal")
    return copy


def rows_of(file: str, told: Callable[[str], None]) -> Iterator[KeptCredential]:
    """The credentials of a site's file, in order of registration, read from a copy. A row that is not a credential is reported by its
    position, and left out. Raises `BadInput` if the file is in use, has another version, or is damaged."""
    with tempfile.TemporaryDirectory() as folder:
        # The log is beside the file that a link leads to.
        copy = _copied(Path(file).resolve(), folder)
        with closing(sqlite3.connect(copy)) as site:
            _checked(site, Path(file))
            if [row[0] for row in site.execute("pragma integrity_check")] != ["ok"]:
                raise BadInput(f"{file} is damaged")
            for row in site.execute(_ROWS):
                try:
                    yield _kept(row)
                except (BadInput, TypeError, ValueError) as error:
                    told(f"place {row[0]}: {error}")


def _added(server: SqlServer, kept: List[KeptCredential]) -> int:
    """How many of these were not in the tables before."""
    def add(rows: Any) -> int:
        added = 0
        for one in kept:
            try:
                rows.add(one, one.backed_up, one.aaguid, one.created_at, one.used_at)
                added += 1
            except Refused:
                pass
        return added

    return server.within(add)


def to_database(file: str, server: SqlServer, told: Callable[[str], None]) -> bool:
    """Moves a file's credentials into the tables. Returns whether each is there then. One that is there already is left as it is."""
    amiss: List[str] = []
    batch: List[KeptCredential] = []
    moved = found = 0

    def note(what: str) -> None:
        amiss.append(what)
        told(what)

    for one in rows_of(file, note):
        batch.append(one)
        if len(batch) == _AT_ONCE:
            moved, found, batch = moved + _added(server, batch), found + len(batch), []
    moved, found = moved + _added(server, batch), found + len(batch)
    told(f"{moved} moved, {found - moved} there already, {len(amiss)} not moved")
    return not amiss


def _written(site: sqlite3.Connection, one: KeptCredential) -> bool:
    """Writes a row. Returns whether it is new."""
    added = site.execute(
        "insert into credential (id, user_handle, algorithm, x, y, sign_count, backup_eligible, retired) values (?, ?, ?, ?, ?, ?, ?, ?) "
        "on conflict (id) do nothing",
        (one.id, one.user, one.algorithm, one.x, one.y or None, one.sign_count, None if one.eligible is None else int(one.eligible),
         int(one.retired)))
    if added.rowcount != 1:
        return False
    site.execute("insert or replace into detail values (?, ?, ?, ?, ?)",
                 (added.lastrowid, one.created_at, one.used_at, ",".join(one.transports), one.aaguid))
    return True


def _tabled(rows: Rows) -> Tuple[List[KeptCredential], int]:
    """The credentials in the tables, and how many rows are damaged. The logger `garvoeng` has the ids of those."""
    kept = rows.credentials(None)
    return kept, int(rows.run("select count(*) from garvoeng_credential").fetchone()[0]) - len(kept)


def to_file(server: SqlServer, file: str, told: Callable[[str], None]) -> bool:
    """Moves the tables' credentials, in one transaction, into a site's file that `passkey-site --no-sums` has made and that no process
    uses. Returns whether each is there then. One that is there already is left as it is."""
    path = Path(file)
    with _held(path) as opened:
        header = opened.read(_RESERVED + 1)
    kept, damaged = server.within(_tabled, writes=False)
    with closing(sqlite3.connect(path, timeout=0, isolation_level=None)) as site:
        try:
            site.execute("begin exclusive")
        except sqlite3.OperationalError:
            raise BadInput(f"{file} is in use: end passkey-site") from None
        except sqlite3.DatabaseError as error:
            raise BadInput(f"{file} is no site's file: {error}") from None
        _checked(site, path)
        if header[-1] != 0:
            raise BadInput(f"{file} has sums of its pages, which SQLite does not write: make it by passkey-site --no-sums")
        moved = sum(_written(site, one) for one in kept)
        site.execute("commit")
    told(f"{moved} moved, {len(kept) - moved} there already, {damaged} not moved")
    return damaged == 0
