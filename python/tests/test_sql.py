"""`garvoeng.sql` over SQLite, and over the PostgreSQL of POSTGRES by psycopg and psycopg2."""
import json
import os
import sqlite3
import threading
import time
from concurrent.futures import ThreadPoolExecutor
from contextlib import closing

import pytest
from device import BE, BS, UP, UV, Device, changed

from garvoeng import BadInput, Credential, KeptCredential, Refused, RegistrationSession, Server, SignInSession, sql, sql_rows
from garvoeng.forms import to_text
from garvoeng.sql import SqlServer

USER, OTHER = b"account 7", b"account 8"
POSTGRES = os.environ.get("POSTGRES")


def connection_of(kind, tmp_path):
    if kind == "sqlite3":
        return lambda: sqlite3.connect(tmp_path / "site.sqlite", timeout=30)
    module = pytest.importorskip(kind)
    if POSTGRES is None:
        pytest.skip("POSTGRES is not set")
    return lambda: module.connect(POSTGRES)


@pytest.fixture(params=["sqlite3", "psycopg", "psycopg2"])
def connect(request, tmp_path):
    connect = connection_of(request.param, tmp_path)
    with closing(connect()) as connection:
        for table in ("version", "credential", "session"):
            connection.cursor().execute(f"drop table if exists garvoeng_{table}")
        connection.commit()
    return connect


@pytest.fixture
def site(connect):
    site = SqlServer(Server("example.com", ["https://example.com"]), connect)
    site.prepare()
    return site


def registered(site, device, user=USER, **more):
    options, session = site.register_begin(user, "name")
    made = device.register(options, **more)
    made["response"]["transports"] = ["usb", "nfc"]
    return site.register_complete(session, made)


def begun(site, device, **more):
    options, session = site.authenticate_begin(**more)
    return session, device.sign_in(options, user=USER)


def refusal(call):
    with pytest.raises(Refused) as caught:
        call()
    return caught.value.name


def rows_of(connect, table):
    with closing(connect()) as connection:
        cursor = connection.cursor()
        cursor.execute(f"select * from garvoeng_{table}")
        return [tuple(bytes(value) if isinstance(value, memoryview) else value for value in row) for row in cursor.fetchall()]


def run(connect, statement):
    with closing(connect()) as connection:
        connection.cursor().execute(statement)
        connection.commit()


def test_rows(site, connect):
    """What is written, in the columns that garvoeng/sql of JavaScript has too."""
    device, before = Device(), int(time.time())
    made = registered(site, device)
    [row] = rows_of(connect, "credential")
    assert row[:9] == (device.id, USER, device.cose_key(), 0, 0, 0, 0, "usb,nfc", device.aaguid)
    assert before <= row[9] <= time.time() and row[10] is None and rows_of(connect, "session") == []
    assert made.credential.transports == ("usb", "nfc") and rows_of(connect, "version") == [(1,)]
    begun = int(time.time())
    options, session = site.authenticate_begin(user=USER)
    assert options["allowCredentials"] == [{"type": "public-key", "id": options["allowCredentials"][0]["id"], "transports": ["usb", "nfc"]}]
    [(number, data, expires_at)] = rows_of(connect, "session")
    assert number == session and len(session) == 32 and begun + 300 <= expires_at <= time.time() + 300
    assert set(json.loads(data)) == {"challenge", "user", "allow", "user_verification"}
    said = site.authenticate_complete(session, device.sign_in(options))
    [row] = rows_of(connect, "credential")
    assert (row[3], row[4], row[6]) == (1, 0, 0) and row[10] >= before and said.credential.sign_count == 1
    assert rows_of(connect, "session") == []
    [stored] = site.rows(USER)
    assert stored == KeptCredential(**vars(said.credential), aaguid=device.aaguid, backed_up=False, created_at=row[9], used_at=row[10])
    assert stored.created_at <= stored.used_at and site.rows(OTHER) == []


def test_each_session_is_accepted_once(site, connect):
    device = Device()
    registered(site, device)
    session, response = begun(site, device)
    bad = changed(response, "signature", lambda value: value[:-1] + bytes([value[-1] ^ 1]))
    assert refusal(lambda: site.authenticate_complete(session, bad)) == "W14"
    assert len(rows_of(connect, "session")) == 1
    site.authenticate_complete(session, response)
    assert refusal(lambda: site.authenticate_complete(session, response)) == "W1"
    options, session = site.register_begin(OTHER, "name")
    another = Device(credential=b"another")
    made = another.register(options)
    site.register_complete(session, made)
    assert refusal(lambda: site.register_complete(session, made)) == "G1"
    assert site.abandon(site.authenticate_begin()[1]) and rows_of(connect, "session") == []


def test_sessions_of_the_other_kind_and_hostile_ones(site, connect):
    device = Device()
    registered(site, device)
    options, session = site.register_begin(USER, "name")
    _, response = begun(site, device)
    assert refusal(lambda: site.authenticate_complete(session, response)) == "W1"
    assert len(rows_of(connect, "session")) == 2
    for hostile in (None, "", "0" * 31, "0" * 33, "0" * 32, "A" * 32, session.upper(), session + "\n", "\0" * 32, "' or 1=1 --",
                    "\ud800" * 32, "%s", "?"):
        assert refusal(lambda: site.authenticate_complete(hostile, response)) == "W1"
        assert refusal(lambda: site.register_complete(hostile, Device(credential=b"x").register(options))) == "G1"
        assert not site.abandon(hostile)
    assert len(rows_of(connect, "session")) == 2


def test_sessions_end(site, connect):
    device = Device()
    registered(site, device)
    session, response = begun(site, device)
    run(connect, f"update garvoeng_session set expires_at = {int(time.time())}")
    assert refusal(lambda: site.authenticate_complete(session, response)) == "W1"
    assert len(rows_of(connect, "session")) == 1
    site.authenticate_begin()
    assert session not in [row[0] for row in rows_of(connect, "session")] and len(rows_of(connect, "session")) == 1
    short = SqlServer(site.server, connect, lifetime=7)
    _, session = short.authenticate_begin()
    assert max(row[2] for row in rows_of(connect, "session") if row[0] == session) - time.time() <= 7


def test_a_counter_that_changed_meanwhile(site, connect):
    """The row is another one between the verdict and the write: nothing is written, and the session stays."""
    device = Device()
    registered(site, device)
    for change in ("sign_count = 5", "retired = 1"):
        run(connect, "update garvoeng_credential set sign_count = 0, retired = 0")
        session, response = begun(site, device)
        original = sql.Rows.credential

        def credential(rows, id, **how):
            found = original(rows, id, **how)
            rows.run(f"update garvoeng_credential set {change}")
            return found

        sql.Rows.credential = credential
        try:
            assert refusal(lambda: site.authenticate_complete(session, response)) == "W15"
        finally:
            sql.Rows.credential = original
        assert rows_of(connect, "credential")[0][3] == 0 and session in [row[0] for row in rows_of(connect, "session")]


def test_ids_stay_taken(site, connect):
    device = Device()
    registered(site, device)
    assert not site.retire(device.id, user=OTHER) and not site.retire(b"another") and not site.rows()[0].retired
    assert site.retire(device.id, user=USER) and site.rows(USER)[0].retired and not site.retire(device.id)
    with pytest.raises(Refused, match="G15") as caught:
        registered(site, device)
    assert "meanwhile" not in caught.value.text
    session, response = begun(site, device)
    assert refusal(lambda: site.authenticate_complete(session, response)) == "W3"
    assert site.authenticate_begin(user=USER)[0]["allowCredentials"] == []
    stored = Credential(device.id, OTHER, -7, device.x, device.y, 0, None)
    assert refusal(lambda: site.add(stored)) == "G15"
    original = sql.Rows.credential
    sql.Rows.credential = lambda rows, id: None
    try:
        assert refusal(lambda: registered(site, device)) == "G15"
    finally:
        sql.Rows.credential = original
    assert [row.user for row in site.rows(USER)] == [USER] and len(rows_of(connect, "credential")) == 1


def test_moved_rows_sign_in(site):
    device = Device()
    site.add(Credential.from_cose(device.id, USER, device.cose_key(), 0, True, transports=["internal"]), backed_up=True, aaguid=bytes(16))
    [row] = site.rows(USER)
    assert (row.backed_up, row.aaguid, row.used_at) == (True, bytes(16), None)
    options, session = site.authenticate_begin(user=USER)
    said = site.authenticate_complete(session, device.sign_in(options, flags=UP | UV | BE))
    [row] = site.rows(USER)
    assert not row.backed_up and said.credential.eligible and row.sign_count == 1
    options, session = site.authenticate_begin(user=USER)
    site.authenticate_complete(session, device.sign_in(options, flags=UP | UV | BE | BS))
    assert site.rows(USER)[0].backed_up


def test_lists(site):
    """Of more credentials than a list may have none is listed, and the account's still signs in; one of another account does not."""
    devices = [Device(credential=b"%d" % number) for number in range(3)]
    for device in devices:
        registered(site, device)
    stored = site.rows(USER)[0]
    options, _ = site.register_begin(USER, "name")
    assert len(options["excludeCredentials"]) == 3
    for number in range(3, 64):
        site.add(Credential(b"%d" % number, USER, -7, stored.x, stored.y, 0, None))
    assert len(site.authenticate_begin(user=USER)[0]["allowCredentials"]) == 64
    site.add(Credential(b"64", USER, -7, stored.x, stored.y, 0, None))
    options, _ = site.register_begin(USER, "name")
    assert len(options["excludeCredentials"]) == 64
    options, session = site.authenticate_begin(user=USER)
    assert options["allowCredentials"] == []
    assert site.authenticate_complete(session, devices[2].sign_in(options)).credential.id == b"2"
    stranger = Device(credential=b"stranger")
    registered(site, stranger, OTHER)
    options, session = site.authenticate_begin(user=USER)
    assert refusal(lambda: site.authenticate_complete(session, stranger.sign_in(options))) == "W4"


def test_at_once(site, connect):
    """Of responses over one session, and of sign-ins over one counter, one is accepted, by any number of connections."""
    device = Device()
    registered(site, device)
    for _ in range(5):
        session, response = begun(site, device)
        with ThreadPoolExecutor(8) as pool:
            said = list(pool.map(lambda _: outcome(lambda: site.authenticate_complete(session, response)), range(8)))
        assert said.count(None) == 1 and set(said) <= {None, "W1", "W15"}
    again = Device()
    again.key, again.x, again.y, again.count = device.key, device.x, device.y, device.count
    (first, one), (second, other) = begun(site, device), begun(site, again)
    barrier = threading.Barrier(2)

    def answer(session, response):
        barrier.wait()
        return outcome(lambda: site.authenticate_complete(session, response))

    with ThreadPoolExecutor(2) as pool:
        said = list(pool.map(answer, (first, second), (one, other)))
    assert sorted(said, key=str) == [None, "W15"] or sorted(said, key=str) == ["W15", None]
    fresh = Device(credential=b"fresh")
    pairs = []
    for _ in range(4):
        options, session = site.register_begin(USER, "name")
        pairs.append((session, fresh.register(options)))
    with ThreadPoolExecutor(4) as pool:
        said = list(pool.map(lambda pair: outcome(lambda: site.register_complete(*pair)), pairs))
    assert said.count(None) == 1 and set(said) == {None, "G15"}


def outcome(call):
    try:
        call()
    except Refused as refused:
        return refused.name


def test_tables(connect):
    """They are made once, by whoever comes first, and those of a later version are left as they are."""
    site = SqlServer(Server("example.com", ["https://example.com"]), connect)
    with ThreadPoolExecutor(6) as pool:
        list(pool.map(lambda _: site.prepare(), range(6)))
    registered(site, Device())
    site.prepare()
    assert len(site.rows(USER)) == 1 and rows_of(connect, "version") == [(1,)]
    run(connect, "update garvoeng_version set version = 2")
    with pytest.raises(BadInput):
        site.prepare()
    assert rows_of(connect, "version") == [(2,)]


def test_tables_of_an_older_version(connect, monkeypatch):
    site = SqlServer(Server("example.com", ["https://example.com"]), connect)
    site.prepare()
    monkeypatch.setattr(sql_rows, "MIGRATIONS", (*sql_rows.MIGRATIONS, ("alter table garvoeng_session add column origin text",)))
    site.prepare()
    site.prepare()
    assert rows_of(connect, "version") == [(2,)]
    monkeypatch.setattr(sql_rows, "MIGRATIONS", (*sql_rows.MIGRATIONS, ("alter table garvoeng_session add column other text", "no statement")))
    with pytest.raises(Exception, match="syntax|no"):
        site.prepare()
    assert rows_of(connect, "version") == [(2,)]
    run(connect, "insert into garvoeng_session values ('x', 'y', 1, 'z')")


def test_what_fails_changes_nothing(site, connect):
    """An exception within a call rolls back, and its connection is closed."""
    device = Device()
    registered(site, device)
    session, response = begun(site, device)
    opened = []

    class Watched:
        def __init__(self, connection):
            opened.append(connection)

    for name in ("count", "credential", "take"):
        original = getattr(sql.Rows, name)

        def fail(*_, **how):
            raise MemoryError

        setattr(sql.Rows, name, fail)
        try:
            with pytest.raises(MemoryError):
                site.authenticate_complete(session, response)
        finally:
            setattr(sql.Rows, name, original)
        assert len(rows_of(connect, "session")) == 1 and rows_of(connect, "credential")[0][3] == 0
    with pytest.raises(BadInput):
        site.authenticate_complete(session, {})
    with pytest.raises(BadInput):
        site.register_begin(b"", "name")
    assert site.authenticate_complete(session, response).credential.sign_count == 1


def test_each_connection_is_closed(site):
    opened, closed = [], []
    connect = site.connect

    class Counted:
        def __init__(self):
            self.inner = connect()
            opened.append(self)
            Counted.__module__ = type(self.inner).__module__

        def __getattr__(self, name):
            return getattr(self.inner, name)

        def __setattr__(self, name, value):
            if name == "inner":
                object.__setattr__(self, name, value)
            else:
                setattr(self.inner, name, value)

        def close(self):
            closed.append(self)
            self.inner.close()

    site.connect = Counted
    device = Device()
    registered(site, device)
    session, response = begun(site, device)
    site.authenticate_complete(session, response)
    refusal(lambda: site.authenticate_complete(session, response))
    assert len(opened) == len(closed) == 5


def test_sessions_are_of_their_kind(site):
    with site.transaction() as rows:
        number = rows.begin(RegistrationSession(bytes(32), USER), 300)
        other = rows.begin(SignInSession(bytes(32), USER), 300)
    with site.transaction() as rows:
        assert rows.take(number, RegistrationSession).user == USER and rows.take(number, RegistrationSession) is None
        assert rows.take(other, SignInSession).user == USER


def test_eligibility_is_kept_once_it_is_known(site):
    """Of a moved row it is not known; the first sign-in tells it, and from then on it stays (W16)."""
    device = Device()
    site.add(Credential.from_cose(device.id, USER, device.cose_key(), 0))
    assert site.rows()[0].eligible is None
    options, session = site.authenticate_begin(user=USER)
    site.authenticate_complete(session, device.sign_in(options, flags=UP | UV | BE))
    assert site.rows()[0].eligible is True
    options, session = site.authenticate_begin(user=USER)
    assert refusal(lambda: site.authenticate_complete(session, device.sign_in(options, flags=UP | UV))) == "W16"


def test_an_account_lists_its_own(site):
    """Neither list has another account's credentials, nor those that are retired."""
    mine, theirs, old = Device(credential=b"mine"), Device(credential=b"theirs"), Device(credential=b"old")
    for device, user in ((mine, USER), (theirs, OTHER), (old, USER)):
        registered(site, device, user)
    assert site.retire(old.id)
    for user, device in ((USER, mine), (OTHER, theirs)):
        wanted = [{"type": "public-key", "id": to_text(device.id), "transports": ["usb", "nfc"]}]
        assert site.register_begin(user, "name")[0]["excludeCredentials"] == wanted
        assert site.authenticate_begin(user=user)[0]["allowCredentials"] == wanted
    assert site.authenticate_begin()[0]["allowCredentials"] == []
