"""`SqlServer` over connections whose calls are awaited: each kind, failures in the middle, and calls that are not awaited."""
import asyncio
import os
import threading

import pytest
from device import Device, changed
from storages import PARTY, emptied
from test_storages import USER, broken

from garvoeng import BadInput, Refused, Server
from garvoeng.sql import SqlServer

POSTGRES = os.environ.get("POSTGRES")


async def aiosqlite(folder):
    module = pytest.importorskip("aiosqlite")
    return lambda: module.connect(folder / "site.sqlite", timeout=30, isolation_level=None), None


async def aiosqlite_rows(folder):
    module = pytest.importorskip("aiosqlite")
    import sqlite3

    async def connect():
        connection = await module.connect(folder / "site.sqlite", timeout=30, isolation_level=None)
        connection.row_factory = sqlite3.Row
        return connection
    return connect, None


async def psycopg(_, **how):
    module = pytest.importorskip("psycopg")
    return lambda: module.AsyncConnection.connect(POSTGRES, **how), None


async def psycopg_by_itself(_):
    return await psycopg(_, autocommit=True)


async def psycopg_rows(_):
    return await psycopg(_, row_factory=pytest.importorskip("psycopg").rows.dict_row)


async def psycopg_pool(_):
    pool = pytest.importorskip("psycopg_pool").AsyncConnectionPool(POSTGRES, min_size=1, max_size=2, open=False)
    await pool.open()
    return pool, pool.close


async def asyncpg(_):
    module = pytest.importorskip("asyncpg")
    return lambda: module.connect(POSTGRES), None


async def asyncpg_pool(_):
    pool = await pytest.importorskip("asyncpg").create_pool(POSTGRES, min_size=1, max_size=2)
    return pool, pool.close


SOURCES = [aiosqlite, aiosqlite_rows, psycopg, psycopg_by_itself, psycopg_rows, psycopg_pool, asyncpg, asyncpg_pool]


def ran(source, tmp_path, act, **how):
    """Runs an act over a site whose connections come from this source."""
    if "sqlite" not in source.__name__:
        if POSTGRES is None:
            pytest.skip("POSTGRES is not set")
        emptied(pytest.importorskip("psycopg").connect(POSTGRES))

    async def visit():
        connect, close = await source(tmp_path)
        site = SqlServer(Server(*PARTY), connect, **how)
        try:
            await site.prepare_async()
            return await act(site)
        finally:
            if close is not None:
                await close()
    return asyncio.run(asyncio.wait_for(visit(), 100))


async def registered(site, device):
    options, session = await site.register_begin_async(USER, "ada")
    return await site.register_complete_async(session, device.register(options))


@pytest.mark.parametrize("source", SOURCES)
def test_visits(source, tmp_path):
    told, fails = [], []

    def hook(rows, made):
        rows.run("insert into garvoeng_session values (?, 'own', 99999999999)", f"own {len(told)}")
        told.append(made)
        if fails:
            raise ZeroDivisionError

    async def act(site):
        device = Device()
        made = await registered(site, device)
        options, session = await site.authenticate_begin_async(user=USER)
        good = device.sign_in(options)
        with pytest.raises(Refused, match="W14"):
            await site.authenticate_complete_async(session, changed(good, "signature", broken))
        fails.append(True)
        for _ in range(4):
            with pytest.raises(ZeroDivisionError):
                await site.authenticate_complete_async(session, good)
        fails.clear()
        assert [(row.id, row.sign_count) for row in await site.rows_async()] == [(device.id, 0)]
        found = await asyncio.gather(*(site.authenticate_complete_async(session, good) for _ in range(6)), return_exceptions=True)
        [said] = [one for one in found if not isinstance(one, Exception)]
        assert sorted(one.name for one in found if isinstance(one, Exception)) == ["W1"] * 5 and (told[0], said.credential.sign_count) == (made, 1)
        kept = await site.keep_sign_in_async(USER, device.id)
        assert (await site.signed_in_async(kept)).user == USER
        assert [len(rows) for rows in await asyncio.gather(*(site.rows_async(USER) for _ in range(8)))] == [1] * 8
        assert await site.retire_async(device.id) is True and await site.retire_async(device.id) is False
        assert await site.erase_async(USER) == 1 and await site.rows_async() == [] and await site.signed_in_async(kept) is None

    ran(source, tmp_path, act, on_registered=hook, on_signed_in=hook)


@pytest.mark.parametrize("source", SOURCES)
def test_verify_is_awaited(source, tmp_path):
    """So is what the site's own check of a signature waits for; one that says no is W14."""
    async def act(site):
        answers = [True, False]

        async def verify(*_):
            await asyncio.sleep(0)
            return answers.pop(0)

        device = Device()
        await registered(site, device)
        site.server = Server(*PARTY, verify=verify)
        for wanted in (1, "W14"):
            options, session = await site.authenticate_begin_async(user=USER)
            try:
                found = (await site.authenticate_complete_async(session, device.sign_in(options))).credential.sign_count
            except Refused as refused:
                found = refused.name
            assert found == wanted

    ran(source, tmp_path, act)


@pytest.mark.parametrize("source", SOURCES)
def test_calls_that_are_not_awaited(source, tmp_path):
    async def act(site):
        for call in (site.rows, site.prepare, lambda: site.register_begin(USER, "ada"), lambda: site.abandon("00" * 16)):
            with pytest.raises(TypeError, match="_async"):
                call()
        assert await site.rows_async() == []

    ran(source, tmp_path, act)


def test_a_level_of_aiosqlite(tmp_path):
    module = pytest.importorskip("aiosqlite")
    site = SqlServer(Server(*PARTY), lambda: module.connect(tmp_path / "site.sqlite"))
    with pytest.raises(TypeError, match="isolation_level=None"):
        asyncio.run(site.prepare_async())
    # Each of its connections is a thread, which goes on until it is closed.
    threads = [thread for thread in threading.enumerate() if isinstance(thread, module.Connection)]
    for thread in threads:
        thread.join(10)
    assert not any(thread.is_alive() for thread in threads)


def test_what_opens_nothing(tmp_path):
    async def nothing():
        return None

    async def fails():
        raise OSError("no database")

    for connect, error in ((nothing, (TypeError, AttributeError)), (fails, OSError)):
        with pytest.raises(error):
            asyncio.run(SqlServer(Server(*PARTY), connect).rows_async())
    with pytest.raises(BadInput):
        asyncio.run(SqlServer(Server(*PARTY), lambda: None).register_begin_async(b"", "ada"))
