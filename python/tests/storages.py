"""The storages of a site, each by the line that makes its server: `STORAGES[name](folder)`."""
import os
import sqlite3
from pathlib import Path

import pytest

from garvoeng import KeepingServer, MemoryStore, Refused, Server, StoredServer
from garvoeng.sql import SqlServer

PROGRAM = os.environ.get("PROGRAM", str(Path(__file__).parents[2] / "dist" / "passkey-site"))
POSTGRES = os.environ.get("POSTGRES")
PARTY = "example.com", ["https://example.com"]


def outcome(call, *words):
    """Whether a call gives something, or the name of its refusal."""
    try:
        return bool(call(*words))
    except Refused as refused:
        return refused.name


def emptied(connection):
    """A database without the tables."""
    for table in ("version", "credential", "session"):
        connection.cursor().execute(f"drop table if exists garvoeng_{table}")
    connection.commit()
    connection.close()


def postgres(folder):
    module = pytest.importorskip("psycopg")
    if POSTGRES is None:
        pytest.skip("POSTGRES is not set")
    emptied(module.connect(POSTGRES))
    return SqlServer(Server(*PARTY), lambda: module.connect(POSTGRES))


def program(folder):
    if not Path(PROGRAM).exists():
        pytest.skip("PROGRAM is not there")
    return StoredServer(PROGRAM, str(folder / "site.db"), *PARTY)


STORAGES = {
    "memory": lambda folder: KeepingServer(Server(*PARTY), MemoryStore()),
    "sqlite": lambda folder: SqlServer(Server(*PARTY), lambda: sqlite3.connect(folder / "site.sqlite", timeout=30)),
    "postgres": postgres,
    "program": program,
}


@pytest.fixture(params=STORAGES)
def site(request, tmp_path):
    made = STORAGES[request.param](tmp_path)
    if hasattr(made, "prepare"):
        made.prepare()
    yield made
    if hasattr(made, "close"):
        made.close()
