"""Connections to a site's database, through DB-API (PEP 249): how a call gets one and gives it back."""
from __future__ import annotations

import inspect
import logging
from collections.abc import Mapping
from contextlib import contextmanager, suppress
from typing import Any, Callable, Iterator, Optional, Sequence, Tuple

from . import sql_awaited
from .answers import refuse

RETRIED = ("40001", "40P01")
"""The SQLSTATE values after which a transaction may be repeated: serialization failure and deadlock (PostgreSQL, appendix A)."""
_WANTED = "a pool, an engine, or a function that opens a connection, as lambda: sqlite3.connect(file)"
_log = logging.getLogger("garvoeng")


def can_connect(source: Any) -> bool:
    """Whether the value can provide connections."""
    return callable(source) or any(callable(getattr(source, name, None)) for name in ("getconn", "raw_connection", "connection", "acquire"))


def _pool_of(source: Any) -> Optional[Tuple[Callable[[], Any], Callable[[Any], Any]]]:
    """How a pool lends connections and takes them back: by `getconn` and `putconn`, as in psycopg_pool and psycopg2.pool, or by `acquire` and
    `release`, as in asyncpg; None if it is no pool. `pool.getconn` stands for the pool."""
    for lend, take in (("getconn", "putconn"), ("acquire", "release")):
        owner = getattr(source, "__self__", None) if getattr(source, "__name__", None) == lend else source
        if all(callable(getattr(owner, name, None)) for name in (lend, take)):
            return getattr(owner, lend), getattr(owner, take)
    return None


def _opened(source: Any) -> Any:
    """What `raw_connection` of an engine of SQLAlchemy returns, `connection` of a pool, or a function itself."""
    opens = next((getattr(source, name) for name in ("raw_connection", "connection") if callable(getattr(source, name, None))), source)
    return opens()


def _check(connection: Any) -> Any:
    """Refuses what is not a connection."""
    if not all(callable(getattr(connection, name, None)) for name in ("cursor", "commit", "rollback")):
        refuse("connect", connection, f"a connection of DB-API; connect is {_WANTED}", awaited_in="")
    return connection


def _close(connection: Any) -> Any:
    return connection.close()


def _given_back(give: Callable[[Any], Any], connection: Any) -> None:
    """What is committed stays committed, even if this fails."""
    try:
        give(connection)
    except Exception as error:
        _log.warning("a connection could not be given back: %s", error)


@contextmanager
def _within(opened: Any) -> Iterator[Any]:
    """The connection of a context manager. Even if the manager suppresses exceptions, those of a call are raised."""
    raised: Optional[BaseException] = None
    with opened as connection:
        try:
            yield _check(connection)
        except BaseException as error:
            raised = error
            raise
    if raised is not None:
        raise raised


@contextmanager
def _awaited(opened: Any, take: Callable[[Any], Any]) -> Iterator[Any]:
    """The connection of a call that is awaited, which `take` takes back or closes."""
    inner = sql_awaited.waited(opened) if inspect.isawaitable(opened) else opened
    try:
        yield sql_awaited.Connection(inner)
    finally:
        _given_back(lambda one: sql_awaited.waited(take(one)), inner)


@contextmanager
def borrowed(source: Any) -> Iterator[Any]:
    """A connection, which is given back or closed at the end."""
    pool = _pool_of(source)
    opened, take = (pool[0](), pool[1]) if pool is not None else (_opened(source), _close)
    if sql_awaited.is_awaited(opened):
        with _awaited(opened, take) as connection:
            yield connection
        return
    if not callable(getattr(opened, "cursor", None)) and callable(getattr(opened, "__enter__", None)):
        with _within(opened) as connection:
            yield connection
        return
    connection = _check(opened)
    try:
        yield connection
    finally:
        _given_back(take, connection)


def _tuples(_: Any) -> Callable[[Sequence[Any]], Tuple[Any, ...]]:
    """Rows as tuples, for psycopg's `row_factory`."""
    return tuple


def plain(row: Any) -> Optional[Tuple[Any, ...]]:
    """A row as a tuple, whatever type of rows the connection makes."""
    return None if row is None else tuple(row.values()) if isinstance(row, Mapping) else tuple(row)


def _cursor(connection: Any, on_sqlite: bool) -> Any:
    """A cursor whose rows are tuples, if it can be asked for them, as with sqlite3 and psycopg."""
    if on_sqlite:
        cursor = connection.cursor()
        cursor.row_factory = None
        return cursor
    try:
        return connection.cursor(row_factory=_tuples)
    except TypeError:
        return connection.cursor()


class Cursor:
    """A connection's cursor, whose rows are tuples."""

    def __init__(self, connection: Any, on_sqlite: bool) -> None:
        self._cursor = _cursor(connection, on_sqlite)

    def execute(self, statement: str, values: Sequence[Any] = ()) -> None:
        self._cursor.execute(statement, tuple(values))

    def fetchone(self) -> Optional[Tuple[Any, ...]]:
        return plain(self._cursor.fetchone())

    def fetchall(self) -> "list[Any]":
        return [plain(row) for row in self._cursor.fetchall()]

    def __iter__(self) -> "Iterator[Any]":
        return iter(self.fetchall())

    @property
    def rowcount(self) -> int:
        return int(self._cursor.rowcount)


def is_sqlite(connection: Any) -> bool:
    """Whether the database is SQLite, to which a text does not equal a number; PostgreSQL takes the literal as a number."""
    cursor = _cursor(connection, False)
    cursor.execute("select '1' = 1 as is_postgres")
    said = plain(cursor.fetchone())
    connection.rollback()
    # A row factory of sqlite3 may have left nothing of the row.
    return not said or not said[0]


@contextmanager
def transaction(connection: Any, on_sqlite: bool, writes: bool) -> Iterator[Cursor]:
    """A transaction, whatever the connection does by itself: it commits at the end, and rolls back on an exception. A connection that can't
    be rolled back is closed, so that no pool lends it again."""
    cursor, kept = Cursor(connection, on_sqlite), getattr(connection, "isolation_level", None)
    by_itself = not on_sqlite and bool(getattr(connection, "autocommit", False))

    def end(how: str) -> None:
        if by_itself:
            cursor.execute(how)
        else:
            getattr(connection, how)()

    try:
        if on_sqlite:
            connection.isolation_level = None
            cursor.execute("begin immediate" if writes else "begin")
        else:
            # Locked rows are read in their current state, not in that of the transaction's begin.
            cursor.execute("begin isolation level read committed" if by_itself else "set transaction isolation level read committed")
        yield cursor
        end("commit")
    except BaseException:
        try:
            end("rollback")
        except Exception:
            with suppress(Exception):
                connection.close()
        raise
    finally:
        if on_sqlite:
            with suppress(Exception):
                connection.isolation_level = kept


def is_retried(error: BaseException) -> bool:
    """Whether the transaction may be repeated, because another one was in its way."""
    found = [error, getattr(error, "orig", None), error.__cause__]
    return any(getattr(one, name, None) in RETRIED for one in found for name in ("sqlstate", "pgcode"))
