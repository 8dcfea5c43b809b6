"""Connections whose calls are awaited, for `garvoeng.sql`: those of psycopg, asyncpg and aiosqlite, and their pools. A call of `SqlServer`
that is awaited runs in a thread of the loop, and each of its statements on the loop."""
from __future__ import annotations

import inspect
import re
from typing import TYPE_CHECKING, Any, Coroutine, List, Optional, Sequence, Tuple

from .answers import loop_of_call, refuse

if TYPE_CHECKING:
    import asyncio

_DONE = re.compile(r"\d+$")


async def _coroutine(value: Any) -> Any:
    return await value


def _loop(opened: Any) -> asyncio.AbstractEventLoop:
    """The loop that waits for this call. Raises TypeError in a call that is not awaited; then a coroutine is closed."""
    loop = loop_of_call()
    if loop is None:
        if inspect.iscoroutine(opened):
            opened.close()
        raise TypeError("connect opens connections whose calls are awaited: they are for the calls whose names end in _async")
    return loop


def waited(value: Any) -> Any:
    """Waits in the thread of an awaited call until the loop has awaited the value. Raises TypeError in a call that is not awaited."""
    return _on(_loop(value), value)


def _on(loop: asyncio.AbstractEventLoop, value: Any) -> Any:
    import asyncio
    return asyncio.run_coroutine_threadsafe(_coroutine(value), loop).result()


def is_awaited(opened: Any) -> bool:
    """Whether what was opened is awaited, or is a connection whose calls are."""
    return inspect.isawaitable(opened) or inspect.iscoroutinefunction(getattr(opened, "commit", None)) or is_asyncpg(opened)


def is_asyncpg(connection: Any) -> bool:
    """Whether a connection has asyncpg's calls: it prepares statements, and has no commit."""
    return all(callable(getattr(connection, name, None)) for name in ("prepare", "fetchrow")) and not hasattr(connection, "commit")


class Connection:
    """A connection in DB-API's form."""

    def __init__(self, inner: Any) -> None:
        self.inner = inner
        self._loop = _loop(inner)
        self._is_asyncpg = is_asyncpg(inner)
        self.autocommit = self._is_asyncpg or bool(getattr(inner, "autocommit", False))
        self._check_level()

    def _check_level(self) -> None:
        """aiosqlite sets it in another thread than the connection's."""
        if hasattr(self.inner, "isolation_level") and hasattr(self.inner, "row_factory") and not hasattr(self.inner, "info"):
            if self.inner.isolation_level is not None:
                refuse("connect", self.inner, "a connection of aiosqlite that was opened with isolation_level=None", awaited_in="")

    @property
    def isolation_level(self) -> None:
        return None

    @isolation_level.setter
    def isolation_level(self, level: None) -> None:
        if level is not None:
            raise AssertionError("the level stays None")

    def run(self, work: Coroutine[Any, Any, Any]) -> Any:
        return _on(self._loop, work)

    def cursor(self) -> "Cursor":
        return Cursor(self)

    async def ran(self, statement: str, values: Sequence[Any]) -> Tuple[List[Any], int]:
        """The rows that a statement gives, and how many rows it changed."""
        if self._is_asyncpg:
            return await self._prepared(statement, values)
        cursor = await _coroutine(self.inner.execute(statement, tuple(values)))
        try:
            rows = [] if cursor.description is None else list(await cursor.fetchall())
            return rows, cursor.rowcount
        finally:
            await cursor.close()

    async def _prepared(self, statement: str, values: Sequence[Any]) -> Tuple[List[Any], int]:
        """asyncpg's parameters have numbers."""
        first, *rest = statement.split("%s")
        prepared = await self.inner.prepare(first + "".join(f"${number}{part}" for number, part in enumerate(rest, 1)))
        rows = await prepared.fetch(*values)
        counted = _DONE.search(prepared.get_statusmsg())
        return list(rows), int(counted[0]) if counted else -1

    def commit(self) -> None:
        self.run(self.inner.commit())

    def rollback(self) -> None:
        if not self._is_asyncpg:
            self.run(self.inner.rollback())
        elif self.inner.is_in_transaction():
            self.run(self.inner.execute("rollback"))

    def close(self) -> None:
        self.run(self.inner.close())


class Cursor:
    """What a statement gave, all of it."""

    row_factory: Any = None

    def __init__(self, connection: Connection) -> None:
        self._connection = connection
        self._rows: List[Any] = []
        self.rowcount = -1

    def execute(self, statement: str, values: Sequence[Any] = ()) -> None:
        self._rows, self.rowcount = self._connection.run(self._connection.ran(statement, values))

    def fetchone(self) -> Optional[Any]:
        return self._rows.pop(0) if self._rows else None

    def fetchall(self) -> List[Any]:
        rows, self._rows = self._rows, []
        return rows
