"""The acts of `garvoeng.web` at each site: in no framework, by each storage, at once and awaited, and in each framework."""
import asyncio
import os

import pytest
from acts import ACTS
from sites import FRAMEWORKS
from storages import POSTGRES, PROGRAM, emptied
from web_core import ORIGIN, CoreSite, memory, sqlite

from garvoeng import Server, StoredServer
from garvoeng.sql import SqlServer


def program(folder):
    if not os.path.exists(PROGRAM):
        pytest.skip("PROGRAM is not there")
    return StoredServer(PROGRAM, str(folder / "site.db"), "localhost", [ORIGIN])


def postgres(folder):
    module = pytest.importorskip("psycopg")
    if POSTGRES is None:
        pytest.skip("POSTGRES is not set")
    emptied(module.connect(POSTGRES))
    server = SqlServer(Server("localhost", [ORIGIN]), lambda: module.connect(POSTGRES))
    server.prepare()
    return server


@pytest.fixture(scope="module")
def loop():
    made = asyncio.new_event_loop()
    yield made
    made.close()


def core(make, awaited):
    return lambda folder, loop: CoreSite(folder, server=make(folder), loop=loop if awaited else None, rate_limit=False)


SITES = {
    **{make.__name__ + (" awaited" if awaited else ""): core(make, awaited) for make in (sqlite, postgres, memory, program) for awaited in (False, True)},
    **{name: lambda folder, loop, made=made: made(folder, loop, rate_limit=False) for name, made in FRAMEWORKS.items()},
}


@pytest.mark.parametrize("act", ACTS, ids=lambda act: act.__name__)
@pytest.mark.parametrize("made", SITES)
def test_acts(made, act, tmp_path, loop):
    site = SITES[made](tmp_path, loop)
    try:
        act(site)
    finally:
        for one in (site, site.server):
            if hasattr(one, "close"):
                one.close()
