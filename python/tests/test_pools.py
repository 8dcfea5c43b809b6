"""`SqlServer` over each kind of what gives connections, and over connections and hooks that fail in the middle."""
import os
import queue
import sqlite3
import threading
from concurrent.futures import ThreadPoolExecutor
from contextlib import closing, contextmanager

import pytest
from device import Device, changed
from storages import PARTY, emptied, outcome
from test_storages import OTHER, USER, Visit, broken

from garvoeng import BadInput, Server
from garvoeng.signatures import is_valid
from garvoeng.sql import SqlServer

POSTGRES = os.environ.get("POSTGRES")


class Proxy:
    """What passes on each call to a connection, as those that trace do."""

    def __init__(self, inner):
        self.inner = inner

    def __getattr__(self, name):
        return getattr(self.inner, name)


class Pool:
    """A pool of a site's own, of one connection."""

    def __init__(self, opens):
        self.idle = queue.Queue()
        self.idle.put(opens())

    def getconn(self):
        return self.idle.get(timeout=20)

    def putconn(self, connection):
        self.idle.put(connection)


class Lending:
    """A pool that lends connections which `close` gives back."""

    def __init__(self, opens):
        self.opens = opens

    def connection(self):
        return self.opens()


class Row(sqlite3.Row):
    pass


class Connection(sqlite3.Connection):
    pass


def opens(folder, factory=None, kind=sqlite3.Connection, **how):
    def connect():
        connection = sqlite3.connect(folder / "site.sqlite", timeout=30, check_same_thread=False, factory=kind, **how)
        connection.row_factory = factory
        return connection
    return connect


def named(cursor, row):
    return dict(zip((column[0] for column in cursor.description), row))


def engine(address, **how):
    return pytest.importorskip("sqlalchemy").create_engine(address, **how)


SQLITE = {
    "function": opens, "a subclass": lambda folder: opens(folder, kind=Connection), "rows of sqlite3.Row": lambda folder: opens(folder, Row),
    "rows as dicts": lambda folder: opens(folder, named), "rows as None": lambda folder: opens(folder, lambda cursor, row: None),
    "no isolation level": lambda folder: opens(folder, isolation_level=None), "exclusive": lambda folder: opens(folder, isolation_level="EXCLUSIVE"),
    "proxy": lambda folder: lambda: Proxy(opens(folder)()), "context manager": lambda folder: lambda: closing(opens(folder)()),
    "own pool": lambda folder: Pool(opens(folder)), "its getconn": lambda folder: Pool(opens(folder)).getconn, "lending": lambda folder: Lending(opens(folder)),
    "an engine": lambda folder: engine(f"sqlite:///{folder / 'site.sqlite'}"), "its raw connection": lambda folder: engine(f"sqlite:///{folder / 'site.sqlite'}").raw_connection,
}


def psycopg():
    return pytest.importorskip("psycopg")


def pool(kind="", **how):
    module = pytest.importorskip("psycopg_pool")
    made = module.ConnectionPool(POSTGRES, min_size=1, max_size=2, timeout=20, **how)
    return {"": made, "connection": made.connection, "getconn": made.getconn}[kind], made.close


def pool2(**how):
    pytest.importorskip("psycopg2")
    import psycopg2.pool
    # One that has none left does not wait, but raises.
    made = psycopg2.pool.ThreadedConnectionPool(1, 8, POSTGRES, **how)
    return made, made.closeall


def engine2(**how):
    pytest.importorskip("psycopg2")
    made = engine(POSTGRES.replace("postgresql:", "postgresql+psycopg2:"), pool_size=2, max_overflow=0, **how)
    return made, made.dispose


def cursors2(name):
    pytest.importorskip("psycopg2")
    import psycopg2.extras
    return lambda: psycopg2.connect(POSTGRES, cursor_factory=getattr(psycopg2.extras, name))


def by_itself(module):
    def connect():
        connection = pytest.importorskip(module).connect(POSTGRES)
        connection.autocommit = True
        return connection
    return connect


LEVEL = {"options": "-c default_transaction_isolation=serializable"}
OF_POSTGRES = {
    "psycopg": lambda: lambda: psycopg().connect(POSTGRES), "psycopg, dicts": lambda: lambda: psycopg().connect(POSTGRES, row_factory=psycopg().rows.dict_row),
    "psycopg, by itself": lambda: by_itself("psycopg"), "psycopg2, by itself": lambda: by_itself("psycopg2"), "psycopg, serializable": lambda: lambda: psycopg().connect(POSTGRES, **LEVEL),
    "psycopg2, dicts": lambda: cursors2("RealDictCursor"), "psycopg2, named": lambda: cursors2("NamedTupleCursor"), "pool": pool, "pool.connection": lambda: pool("connection"),
    "pool.getconn": lambda: pool("getconn"), "pool, dicts": lambda: pool(kwargs={"row_factory": psycopg().rows.dict_row}), "pool, by itself": lambda: pool(kwargs={"autocommit": True}),
    "pool, serializable": lambda: pool(kwargs=LEVEL), "psycopg2.pool": pool2, "engine": engine2, "engine, by itself": lambda: engine2(isolation_level="AUTOCOMMIT"),
    "engine, serializable": lambda: engine2(isolation_level="SERIALIZABLE"), "raw_connection": lambda: (engine2()[0].raw_connection, lambda: None),
}
SOURCES = [*(("sqlite", name) for name in SQLITE), *(("postgres", name) for name in OF_POSTGRES)]


@pytest.fixture(params=SOURCES, ids=[" ".join(one) for one in SOURCES])
def source(request, tmp_path):
    kind, name = request.param
    if kind == "sqlite":
        yield SQLITE[name](tmp_path)
        return
    if POSTGRES is None:
        pytest.skip("POSTGRES is not set")
    emptied(psycopg().connect(POSTGRES))
    made = OF_POSTGRES[name]()
    yield made[0] if isinstance(made, tuple) else made
    if isinstance(made, tuple):
        made[1]()


class Broken(Exception):
    pass


def test_visits(source):
    """The same whatever gives the connections; each is given back, and no call is half of one."""
    told, fails = [], []

    def hook(rows, made):
        told.append(made)
        rows.run("insert into garvoeng_session values (?, 'own', 99999999999)", f"own {len(told)}")
        if fails:
            raise Broken

    site = SqlServer(Server(*PARTY), source, on_registered=hook, on_signed_in=hook)
    site.prepare()
    visit, device, late = Visit(site), Device(), Device(credential=b"late")
    made = visit.registers(device)
    options, session = site.authenticate_begin(user=USER)
    assert options["allowCredentials"][0]["transports"] == ["usb", "nfc"]
    good = device.sign_in(options)
    for _ in range(6):
        assert visit.refused(site.authenticate_complete, session, changed(good, "signature", broken)) == "W14"
    fails.append(True)
    for _ in range(6):
        with pytest.raises(Broken):
            site.authenticate_complete(session, good)
        with pytest.raises(Broken):
            visit.registers(late)
    fails.clear()
    assert [(row.id, row.sign_count) for row in site.rows()] == [(device.id, 0)]
    said = site.authenticate_complete(session, good)
    assert visit.refused(site.authenticate_complete, session, good) == "W1" and (told[0], told[-1]) == (made, said)
    with site.transaction(writes=False) as rows:
        assert rows.run("select id from garvoeng_session where data = 'own' order by id").fetchall() == sorted([("own 1",), (f"own {len(told)}",)])
    with ThreadPoolExecutor(4) as threads:
        assert list(threads.map(lambda _: len(site.rows(USER)), range(8))) == [1] * 8
    kept = site.keep_sign_in(USER, device.id)
    assert site.signed_in(kept).user == USER and site.erase(USER) == 1 and site.signed_in(kept) is None and site.rows() == []


class Shaky:
    """A connection of which some calls fail: the statement of a number, or commit, rollback or close."""

    def __init__(self, inner, fails, error, log):
        self.inner, self.fails, self.error, self.log, self.count = inner, fails, error, log, 0
        log.append(self)
        self.is_closed = False

    def __getattr__(self, name):
        return getattr(self.inner, name)

    def _may_fail(self, what):
        if what in self.fails:
            raise self.error

    def cursor(self, **how):
        shaky, inner = self, self.inner.cursor(**how)

        class Cursor:
            def __getattr__(self, name):
                return getattr(inner, name)

            def execute(self, statement, values=()):
                shaky.count += 1
                shaky._may_fail(shaky.count)
                inner.execute(statement, values)

            def __setattr__(self, name, value):
                setattr(inner, name, value)
        return Cursor()

    def commit(self):
        self._may_fail("commit")
        self.inner.commit()

    def rollback(self):
        self._may_fail("rollback")
        self.inner.rollback()

    def close(self):
        self.is_closed = True
        self.inner.close()
        self._may_fail("close")


def failing(error_of, **attributes):
    return type("DatabaseFailed", (Exception,), attributes)(error_of)


@pytest.fixture(params=["sqlite", "postgres"])
def connect(request, tmp_path):
    if request.param == "sqlite":
        return opens(tmp_path)
    if POSTGRES is None:
        pytest.skip("POSTGRES is not set")
    emptied(psycopg().connect(POSTGRES))
    return lambda: psycopg().connect(POSTGRES)


def test_connections_that_fail_in_the_middle(connect):
    """At each statement and at the commit, where the rollback fails too: the error is the database's, nothing has changed, and the
    connection is closed."""
    site, device, error = SqlServer(Server(*PARTY), connect), Device(), failing("lost")
    site.prepare()
    visit = Visit(site)
    visit.registers(device)
    options, session = site.authenticate_begin()
    asked, registration = site.register_begin(USER, "name")
    for call, words in ((site.authenticate_complete, (session, device.sign_in(options, user=USER))),
                        (site.register_complete, (registration, Device(credential=b"new").register(asked))), (site.retire, (device.id,)), (site.erase, (USER,))):
        before, said = site.rows(), None
        for what in ["commit", *range(1, 40)]:
            for fails in ({what}, {what, "rollback"}):
                log = []
                site.connect = lambda: Shaky(connect(), fails, error, log)
                try:
                    said = call(*words)
                except type(error) as raised:
                    assert raised is error
                assert [one.is_closed for one in log] == [True]
                site.connect = connect
                if said is not None:
                    break
                assert site.rows() == before, (call.__name__, what)
            if said is not None:
                break
        assert said and what > 3 and site.rows() != before, (call.__name__, what)


def test_what_could_not_be_rolled_back_is_not_lent_again(connect):
    """It is closed, and its pool gets it so; where it can't be given back what is committed stays so."""
    error, log = failing("lost"), []
    site = SqlServer(Server(*PARTY), connect)
    site.prepare()
    for fails, is_closed in (({3}, False), ({3, "rollback"}, True)):
        log.clear()
        lent = Pool(lambda: Shaky(connect(), fails, error, log))
        site.connect = lent
        with pytest.raises(type(error)):
            site.authenticate_begin()
        assert lent.idle.qsize() == 1 and log[0].is_closed is is_closed
    for source in (lambda: Shaky(connect(), {"close"}, error, log), Unwilling(connect)):
        site.connect = source
        options, session = site.authenticate_begin()
        site.connect = connect
        assert site.abandon(session)


class Unwilling(Pool):
    """A pool that does not take back."""

    def putconn(self, connection):
        connection.close()
        raise Broken


@contextmanager
def swallows(connect):
    """A context manager that passes over each exception."""
    connection = connect()
    try:
        yield connection
    except BaseException:
        pass
    finally:
        connection.close()


def test_a_context_manager_that_passes_over_exceptions(connect):
    """A refusal stays one, and what failed is no acceptance."""
    site, device = SqlServer(Server(*PARTY), lambda: swallows(connect)), Device()
    site.prepare()
    visit = Visit(site)
    visit.registers(device)
    options, session = site.authenticate_begin()
    assert visit.refused(site.authenticate_complete, session, changed(device.sign_in(options, user=USER), "signature", broken)) == "W14"
    assert visit.refused(visit.registers, device) == "G15"
    with pytest.raises(BadInput):
        site.register_begin(b"", "name")
    site._on_registered = lambda rows, made: 1 / 0
    with pytest.raises(ZeroDivisionError):
        visit.registers(Device(credential=b"new"))
    assert [row.id for row in site.rows()] == [device.id]


def test_hooks(connect):
    """With what is stored, in its transaction: they see it, and what they write stands or falls with it. What is awaited is refused."""
    own = []

    def registered(rows, made):
        assert rows.has(made.credential.id) and rows.run("select 1 where 1 = ?", 1).fetchall() == [(1,)]
        rows.run("insert into garvoeng_session values (?, 'own', 99999999999)", f"of {made.credential.id.decode()}")
        own.append(made)

    def erased(rows, user):
        assert user == USER and rows.credentials(USER) == []
        own.append(rows.run("delete from garvoeng_session where data = 'own'").rowcount)

    async def later(rows, made):
        pass

    site = SqlServer(Server(*PARTY), connect, on_registered=registered, on_erased=erased, on_signed_in=lambda rows, said: own.append(said))
    site.prepare()
    visit, device = Visit(site), Device(credential=b"key")
    made, said = visit.registers(device), visit.signs_in(device)
    assert own == [made, said] and site.erase(USER) == 1 and own.pop() == 1
    for name, acts in (("on_registered", lambda: visit.registers(Device(credential=b"x"))), ("on_signed_in", lambda: visit.signs_in(device)), ("on_erased", lambda: site.erase(USER))):
        site = visit.server = SqlServer(Server(*PARTY), connect, **{name: later})
        site._on_registered, kept = None, site._on_registered
        if name != "on_registered":
            visit.registers(device) if not site.rows() else None
        site._on_registered, before = kept, site.rows()
        with pytest.raises(TypeError, match=f"{name} answered a coroutine, and not None: it is not awaited"):
            acts()
        assert site.rows() == before
        with pytest.raises(TypeError, match=f"{name} is a function"):
            SqlServer(Server(*PARTY), connect, **{name: 7})


def test_a_hook_that_passes_over_an_error(connect):
    """Of PostgreSQL the transaction has failed by it: so has the call."""
    def hook(rows, made):
        try:
            rows.run("select nothing from nowhere")
        except Exception:
            pass

    site = SqlServer(Server(*PARTY), connect, on_registered=hook)
    site.prepare()
    is_sqlite = "sqlite3" in type(connect()).__module__
    if is_sqlite:
        assert Visit(site).registers(Device()) and len(site.rows()) == 1
    else:
        with pytest.raises(Exception, match="transaction is aborted"):
            Visit(site).registers(Device())
        assert site.rows() == []


RETRIED = [failing("serialization", sqlstate="40001"), failing("deadlock", sqlstate="40P01"), failing("of psycopg2", pgcode="40001"),
           failing("wrapped", orig=failing("inner", pgcode="40P01"))]
OTHERS = [failing("unique", sqlstate="23505"), failing("none"), failing("text", sqlstate=40001), Broken()]


def test_transactions_that_are_in_each_others_way(connect, monkeypatch):
    """Are made again, whole, with the hook, eight times at most; what else fails is not."""
    from garvoeng import sql
    waits, hooked, verified = [], [], []
    monkeypatch.setattr(sql, "time", type("Time", (), {"sleep": staticmethod(waits.append)}))

    def verify(*asked):
        from garvoeng.signatures import is_valid
        verified.append(True)
        return is_valid(*asked)

    site, device = SqlServer(Server(*PARTY, verify=verify), connect, on_signed_in=lambda rows, said: hooked.append(said)), Device()
    site.prepare()
    visit = Visit(site)
    visit.registers(device)
    for error in RETRIED:
        for times, what in ((1, 3), (2, 3), (2, "commit"), (7, 4)):
            log, left = [], [error] * times
            site.connect = lambda: Shaky(connect(), {what} if left and (left.pop() or True) else {}, error, log)
            options, session = SqlServer(site.server, connect).authenticate_begin()
            waits.clear(), hooked.clear(), verified.clear()
            said = site.authenticate_complete(session, device.sign_in(options, user=USER))
            assert len(log) == times + 1 and len(waits) == times and all(one.is_closed for one in log) and 0 <= max(waits) <= 0.64
            assert hooked[-1] == said and len(hooked) == len(verified) == (times + 1 if what == "commit" else 1)
            assert said.credential.sign_count == device.count == site.rows()[0].sign_count
    for error, tries in ((RETRIED[0], 8), *((error, 1) for error in OTHERS)):
        log = []
        site.connect = lambda: Shaky(connect(), {3}, error, log)
        with pytest.raises(type(error)):
            site.authenticate_begin()
        assert len(log) == tries and all(one.is_closed for one in log)


def test_what_can_not_connect():
    server = Server(*PARTY)
    for wrong in (None, "postgresql://", 7, {}, object()):
        with pytest.raises(TypeError, match="SqlServer takes a Server and a pool, an engine, or a function"):
            SqlServer(server, wrong)
    class Odd:
        def __enter__(self):
            return self

        def __exit__(self, *_):
            pass

    async def later():
        pass

    for wrong in (lambda: None, lambda: 7, lambda: "x", Odd, lambda: engine("sqlite://").connect()):
        with pytest.raises(TypeError, match="connect answered an? .*, and not a connection|connect answered None"):
            SqlServer(server, wrong).rows()
    with pytest.raises(TypeError, match="_async"):
        SqlServer(server, later).rows()


@pytest.mark.skipif(POSTGRES is None, reason="POSTGRES is not set")
@pytest.mark.parametrize("level", ["read committed", "repeatable read", "serializable"])
def test_at_once_at_each_level(level):
    """Whatever the default of the database: no more than refusals, and what waits sees what was done meanwhile."""
    def connect():
        return psycopg().connect(POSTGRES, options=f"-c default_transaction_isolation={level.replace(' ', chr(92) + ' ')}")

    emptied(psycopg().connect(POSTGRES))
    site, device = SqlServer(Server(*PARTY), connect), Device()
    site.prepare()
    visit = Visit(site)
    visit.registers(device)

    for _ in range(3):
        begun = [site.authenticate_begin() for _ in range(6)]
        devices = [device.sign_in(options, user=USER) for options, _ in begun]
        with ThreadPoolExecutor(6) as threads:
            said = list(threads.map(lambda pair: outcome(site.authenticate_complete, pair[0][1], pair[1]), zip(begun, devices)))
        assert True in said and set(said) <= {True, "W15"}
    original, is_begun, goes_on = site.server.register_begin, threading.Event(), threading.Event()

    def slow(*words, **how):
        is_begun.set()
        assert goes_on.wait(30)
        return original(*words, **how)

    site.server.register_begin = slow
    with ThreadPoolExecutor(2) as threads:
        begins = threads.submit(site.register_begin, USER, "name")
        assert is_begun.wait(30)
        erases = threads.submit(SqlServer(Server(*PARTY), connect).erase, USER)
        threading.Event().wait(0.3)
        goes_on.set()
        (options, session), erased = begins.result(), erases.result()
    assert erased == 1 and visit.refused(site.register_complete, session, Device().register(options)) == "G1" and site.rows() == []


@pytest.mark.skipif(POSTGRES is None, reason="POSTGRES is not set")
def test_hooks_that_lock_each_other_out():
    """A deadlock of the site's own rows is made again, and both are accepted."""
    def connect():
        return psycopg().connect(POSTGRES)

    emptied(connect())
    barrier, calls = threading.Barrier(2), []

    def hook(rows, said):
        calls.append(said)
        first, second = (USER, OTHER) if said.credential.user == USER else (OTHER, USER)
        rows.run("select pg_advisory_xact_lock(hashtext(?))", f"own {first!r}")
        if len(calls) <= 2:
            barrier.wait(20)
        rows.run("select pg_advisory_xact_lock(hashtext(?))", f"own {second!r}")

    site, devices = SqlServer(Server(*PARTY), connect, on_signed_in=hook), {USER: Device(credential=b"one"), OTHER: Device(credential=b"two")}
    site.prepare()
    for user, device in devices.items():
        Visit(site).registers(device, user)
    with ThreadPoolExecutor(2) as threads:
        said = list(threads.map(lambda user: Visit(site).signs_in(devices[user], user), devices))
    assert [one.credential.sign_count for one in said] == [1, 1] and len(calls) >= 3


@pytest.mark.skipif(POSTGRES is None, reason="POSTGRES is not set")
def test_the_row_that_is_judged_is_locked():
    """Between the verdict and its writing nobody deletes the credential and registers its id for somebody else."""
    emptied(psycopg().connect(POSTGRES))
    tried = []

    def verify(*words):
        with psycopg().connect(POSTGRES) as other:
            other.execute("set lock_timeout = '200ms'")
            try:
                other.execute("delete from garvoeng_credential")
            except psycopg().errors.LockNotAvailable as error:
                tried.append(error)
        return is_valid(*words)

    site = SqlServer(Server(*PARTY, verify=verify), lambda: psycopg().connect(POSTGRES))
    site.prepare()
    visit, device = Visit(site), Device()
    visit.registers(device)
    options, session = site.authenticate_begin(user=USER)
    assert site.authenticate_complete(session, device.sign_in(options)).credential.sign_count == 1 and len(tried) == 1
