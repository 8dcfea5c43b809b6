"""The names of the site's accounts, as rows in SQLite or PostgreSQL."""
from __future__ import annotations

import sqlite3
from typing import Any, Callable, Optional

from garvoeng.sql import SqlServer


class Taken(Exception):
    """The name belongs to another account."""


def connect_to(address: str) -> Callable[[], Any]:
    """Returns a function that opens a connection to the SQLite file or the PostgreSQL database at this address."""
    if not address.startswith(("postgres:", "postgresql:")):
        return lambda: sqlite3.connect(address, timeout=30)
    import psycopg2
    return lambda: psycopg2.connect(address)


class Accounts:
    """The table beside those of `rows`, in the same transactions."""

    def __init__(self, rows: SqlServer) -> None:
        self.rows = rows
        with rows.transaction() as begun:
            begun.prepare()
            kind = "blob" if begun.is_sqlite else "bytea"
            begun.run(f"create table if not exists accounts (user_name text primary key, user_handle {kind} not null unique)")

    def user_of(self, name: str) -> Optional[bytes]:
        """The user handle for a name."""
        with self.rows.transaction() as begun:
            found = begun.run("select user_handle from accounts where user_name = ?", name).fetchone()
        return None if found is None else bytes(found[0])

    def add(self, name: str, user: bytes) -> bool:
        """Makes an account if there is none with this name. Returns whether the name is now this user's."""
        with self.rows.transaction() as begun:
            begun.run("insert into accounts values (?, ?) on conflict do nothing", name, user)
        return self.user_of(name) == user
