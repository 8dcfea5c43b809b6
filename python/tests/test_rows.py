"""`garvoeng.sql`: rows that are damaged, what ends with a passkey and with an account, who is signed in, and a site's slips."""
import json
import pickle
import threading
import time
from concurrent.futures import ThreadPoolExecutor
from dataclasses import replace

import pytest
from device import Device
from test_options import slips
from test_sql import OTHER, USER, begun, connect, outcome, refusal, registered, rows_of, run, site

from garvoeng import BadInput, Credential, Refused, RowDamaged, Server, SessionDamaged, sql
from garvoeng.forms import to_text
from garvoeng.sql import SqlServer

__all__ = ["connect", "site"]


def sessions(connect):
    return {row[0] for row in rows_of(connect, "session")}


def test_sessions_that_are_damaged(site, connect, caplog):
    """Each is named, logged, and left as it is."""
    device = Device()
    registered(site, device)
    for begin, complete in ((lambda: begun(site, device, user=USER), site.authenticate_complete),
                            (lambda: (site.register_begin(USER, "name")[1], device.sign_in({"challenge": "AA"})), site.register_complete)):
        session, response = begin()
        data = json.loads(next(row[1] for row in rows_of(connect, "session") if row[0] == session))
        if complete == site.register_complete:
            response = Device(credential=b"x").register({"challenge": data["challenge"]})
        for wrong in ("{", "[]", "null", "7", "", "{}", {**data, "challenge": to_text(bytes(31))}, {**data, "challenge": to_text(bytes(33))},
                      {**data, "challenge": ""}, {**data, "user": 7}, {**data, "user_verification": 1}, {**data, "challenge": None}):
            text = wrong if isinstance(wrong, str) else json.dumps(wrong)
            run(connect, f"update garvoeng_session set data = '{text}' where id = '{session}'")
            caplog.clear()
            with pytest.raises(SessionDamaged) as caught:
                complete(session, response)
            assert caught.value.session == session and not isinstance(caught.value, BadInput) and session not in str(caught.value)
            assert [record.getMessage() for record in caplog.records if record.name == "garvoeng"] == [str(caught.value)]
            assert str(pickle.loads(pickle.dumps(caught.value))) == str(caught.value)
        run(connect, f"update garvoeng_session set data = '{json.dumps(data)}' where id = '{session}'")
        complete(session, response)
    assert rows_of(connect, "session") == []


DAMAGED = ["public_key = {bytes}", "public_key = user_handle", "sign_count = -1", "sign_count = 4294967296", "retired = 2", "backup_eligible = 7",
           "backed_up = -1", "created_at = -1", "used_at = -5", "aaguid = public_key", "aaguid = {bytes}"]
DAMAGED_SQLITE = ["sign_count = 'text'", "sign_count = 1.5", "sign_count = x'00'", "user_handle = 'text'", "user_handle = 5", "public_key = 'text'",
                  "transports = x'00'", "aaguid = 'text'", "created_at = 'x'", "retired = 'x'", "user_handle = x''"]


def test_rows_that_are_damaged(site, connect, caplog):
    """Named, where exactly that one is asked for, and left out of each list; logged both times. The account's others go on."""
    broken, whole, other = Device(credential=b"broken"), Device(credential=b"whole"), Device(credential=b"other")
    for device, user in ((broken, USER), (whole, USER), (other, OTHER)):
        registered(site, device, user)
    is_sqlite = isinstance(rows_of(connect, "credential")[0][2], bytes) and "sqlite3" in type(connect()).__module__
    empty, name = ("x''", "x'62726f6b656e'") if is_sqlite else ("'\\x'", "'\\x62726f6b656e'")
    for change in DAMAGED + (DAMAGED_SQLITE if is_sqlite else []):
        before = rows_of(connect, "credential")
        run(connect, f"update garvoeng_credential set {change.format(bytes=empty)} where id = {name}")
        assert rows_of(connect, "credential") != before, change
        caplog.clear()
        assert {row.id for row in site.rows()} == {b"whole", b"other"} and [row.id for row in site.rows(USER)] == [b"whole"], change
        assert [row["id"] for row in site.register_begin(USER, "name")[0]["excludeCredentials"]] == [to_text(b"whole")]
        assert [row["id"] for row in site.authenticate_begin(user=USER)[0]["allowCredentials"]] == [to_text(b"whole")]
        logged = {record.getMessage() for record in caplog.records if record.name == "garvoeng"}
        assert len(logged) == 1 and f"credential {to_text(b'broken')} is damaged" in logged.pop()
        options, session = site.authenticate_begin()
        with pytest.raises(RowDamaged) as caught:
            site.authenticate_complete(session, broken.sign_in(options, user=USER))
        assert caught.value.id == b"broken" and not isinstance(caught.value, BadInput)
        assert str(pickle.loads(pickle.dumps(caught.value))) == str(caught.value)
        assert refusal(lambda: registered(site, broken, OTHER)) == "G15"
        assert site.authenticate_complete(session, whole.sign_in(options, user=USER)).credential.id == b"whole"
        assert site.delete(b"broken") and not site.delete(b"broken")
        registered(site, broken)


def test_what_ends_with_a_passkey(site, connect):
    """Retired or deleted: the open registrations of the account. With all of its passkeys: all that it has begun, and each that is signed in."""
    mine, theirs = Device(credential=b"mine"), Device(credential=b"theirs")
    for device, user in ((mine, USER), (theirs, OTHER)):
        registered(site, device, user)

    def opened(user):
        return (site.register_begin(user, "name")[1], site.authenticate_begin(user=user)[1], site.keep_sign_in(user))

    for end in ("retire", "retire_all", "delete", "erase"):
        run(connect, "delete from garvoeng_session")
        registration, sign_in, kept = opened(USER)
        others = {*opened(OTHER), site.authenticate_begin()[1]}
        assert not (site.retire(mine.id, user=OTHER) or site.delete(mine.id, user=OTHER) or site.retire(b"none") or site.delete(b"none"))
        assert site.erase(b"nobody") == site.retire_all(b"nobody") == 0 and sessions(connect) == {registration, sign_in, kept} | others
        if end == "erase":
            assert site.erase(USER) == 1 and site.rows(USER) == [] and len(site.rows()) == 1
        else:
            assert getattr(site, end)(USER if end == "retire_all" else mine.id)
            assert [row.retired for row in site.rows(USER)] == ([] if end == "delete" else [True])
        assert sessions(connect) == (set() if end == "erase" else {sign_in, kept}) | others
        with pytest.raises(Refused, match="G1 "):
            site.register_complete(registration, Device(credential=b"x").register({"challenge": "AA"}))
        if end.startswith("retire"):
            assert not site.retire(mine.id) and site.retire_all(USER) == 0 and site.delete(mine.id)
        registered(site, mine)


def test_a_session_that_only_names_a_user_stays(site, connect):
    """A list that has an id which is spelled as the handle, and one that another program wrote."""
    registered(site, Device())
    _, session = site.authenticate_begin(allow=[USER])
    run(connect, f"insert into garvoeng_session values ('x', '\"{to_text(USER)}\"', {int(time.time()) + 99})")
    assert site.erase(USER) == 1 and sessions(connect) == {session, "x"}


def test_who_is_signed_in(site, connect):
    device = Device()
    registered(site, device)
    before = int(time.time())
    kept, plain = site.keep_sign_in(USER, device.id), site.keep_sign_in(USER)
    after, found = time.time(), site.signed_in(kept)
    assert (found.number, found.user, found.credential) == (kept, USER, device.id) and before <= found.at <= after
    assert site.signed_in(plain).credential is None and site.signed_in(kept, fresh=5) == found
    run(connect, f"update garvoeng_session set data = replace(data, '{found.at}', '{found.at - 9}')")
    assert site.signed_in(kept).at == found.at - 9 and site.signed_in(kept, fresh=20) and site.signed_in(kept, fresh=8) is None
    _, open_session = site.authenticate_begin(user=USER)
    for hostile in (None, 7, "", "0" * 32, open_session, site.register_begin(USER, "name")[1], kept.upper(), [kept]):
        assert site.signed_in(hostile) is None
    assert refusal(lambda: site.authenticate_complete(kept, device.sign_in({"challenge": "AA"}, user=USER))) == "W1"
    assert refusal(lambda: site.register_complete(kept, Device(credential=b"x").register({"challenge": "AA"}))) == "G1"
    for wrong in (OTHER, b"x"):
        assert site.signed_in(site.keep_sign_in(wrong, device.id)) is None
    run(connect, f"update garvoeng_session set expires_at = {int(time.time())} where id = '{plain}'")
    assert site.signed_in(plain) is None and site.signed_in(kept)
    assert site.retire(device.id) and site.signed_in(kept) is None
    run(connect, "update garvoeng_credential set retired = 0")
    assert site.signed_in(kept) and site.abandon(kept) and site.signed_in(kept) is None and not site.abandon(kept)
    for words in (("text",), (USER, "text"), (5,), (USER, 5), (USER, b"")):
        with pytest.raises((TypeError, BadInput), match="user|credential"):
            site.keep_sign_in(*words)


def test_a_registration_of_a_sign_in(site):
    """It is finished with the number that began it, while that is signed in, and one without a number without any."""
    device = Device()
    registered(site, device)
    mine, other, theirs = site.keep_sign_in(USER, device.id), site.keep_sign_in(USER, device.id), site.keep_sign_in(OTHER)
    for wrong in (theirs, "0" * 32, "x", 7):
        with pytest.raises(BadInput, match="sign_in is the number of no open sign-in"):
            site.register_begin(USER, "name", sign_in=wrong)
    options, session = site.register_begin(USER, "name", sign_in=mine)
    plain, free = site.register_begin(USER, "name")
    made, second = Device(credential=b"second"), Device(credential=b"third")
    for number in (None, other, theirs, "", "x"):
        assert refusal(lambda: site.register_complete(session, made.register(options), sign_in=number)) == "G1"
    assert refusal(lambda: site.register_complete(free, second.register(plain), sign_in=mine)) == "G1"
    site.register_complete(session, made.register(options), sign_in=mine)
    site.register_complete(free, second.register(plain))
    options, session = site.register_begin(USER, "name", sign_in=mine)
    site.abandon(mine)
    assert refusal(lambda: site.register_complete(session, Device(credential=b"late").register(options), sign_in=mine)) == "G1"
    assert len(site.rows()) == 3


def test_an_account_that_is_deleted_meanwhile(site):
    """Beside registrations that finish at once: none is left to it."""
    for _ in range(6):
        begun = []
        for number in range(4):
            options, session = site.register_begin(USER, "name")
            begun.append((session, Device(credential=b"%d" % number).register(options)))
        with ThreadPoolExecutor(6) as pool:
            calls = [lambda pair=pair: outcome(lambda: site.register_complete(*pair)) for pair in begun]
            calls[2:2] = [lambda: site.erase(USER)]
            said = [one.result() for one in [pool.submit(call) for call in calls]]
        assert site.rows(USER) == [] and set(said[:2] + said[3:]) <= {None, "G1"} and said.count(None) == said[2]


def test_an_account_that_is_deleted_while_a_registration_begins(site, connect):
    """The deletion waits for the begin, and ends it."""
    original, begun, goes_on = sql.Rows.begin, threading.Event(), threading.Event()

    def begin(rows, *words):
        number = original(rows, *words)
        begun.set()
        assert goes_on.wait(30)
        return number

    sql.Rows.begin = begin
    try:
        with ThreadPoolExecutor(2) as pool:
            calls = [pool.submit(site.register_begin, USER, "name")]
            assert begun.wait(30)
            calls.append(pool.submit(site.erase, USER))
            time.sleep(0.3)
            goes_on.set()
            assert [call.result() for call in calls][1] == 0
    finally:
        sql.Rows.begin = original
    assert rows_of(connect, "session") == []


def test_slips_of_a_site(site):
    """Each is told by the parameter's name, and no session begins."""
    with site.transaction() as rows:
        before = rows.run("select count(*) from garvoeng_session").fetchone()
    slips(site, listed=False)
    for call in (site.retire, site.delete):
        for wrong in ("text", 5, None, [1]):
            with pytest.raises(TypeError, match="credential is bytes"):
                call(wrong)
        for wrong in ("text", 5, [1]):
            with pytest.raises(TypeError, match="user is bytes"):
                call(b"id", user=wrong)
    for call in (site.rows, site.retire_all, site.erase):
        for wrong in ("text", 5, [1]):
            with pytest.raises(TypeError, match="user is bytes"):
                call(wrong)
    for call, name in ((lambda: site.keep_sign_in(USER, lifetime=True), "lifetime"), (lambda: site.keep_sign_in(USER, lifetime="5"), "lifetime"),
                       (lambda: site.signed_in("0" * 32, fresh="5"), "fresh"), (lambda: site.signed_in(None, fresh=True), "fresh")):
        with pytest.raises(TypeError, match=f"{name} is"):
            call()
    for call in (lambda: site.keep_sign_in(USER, lifetime=-5), lambda: site.signed_in(None, fresh=0)):
        with pytest.raises(BadInput, match="is 1 second or more"):
            call()
    stored = Credential(b"id", USER, -7, bytes(32), bytes(32), 0, None)
    for wrong, how in ((stored, {"aaguid": b"short"}), (stored, {"backed_up": 1}), (replace(stored, sign_count=-1), {}), (replace(stored, user=b""), {}),
                       (replace(stored, retired=None), {}), (replace(stored, transports=["a,b"]), {}), (replace(stored, id=b""), {})):
        with pytest.raises(BadInput):
            site.add(wrong, **how)
    assert site.rows() == []
    with site.transaction() as rows:
        assert rows.run("select count(*) from garvoeng_session").fetchone() == before
    for words in ((None, site.connect), (site.server, "file"), ("x", None)):
        with pytest.raises(TypeError, match="SqlServer takes a Server"):
            SqlServer(*words)


def test_connections_that_are_awaited():
    """They are for awaited calls."""
    class Awaited:
        async def commit(self):
            pass

    async def connect():
        return Awaited()

    for opens in (connect, Awaited):
        site = SqlServer(Server("example.com", ["https://example.com"]), opens)
        with pytest.raises(TypeError, match="connect opens connections whose calls are awaited: they are for the calls whose names end in _async$"):
            site.authenticate_begin()


def test_lists_of_the_caller(site):
    """A list that is given stands in place of the account's own."""
    registered(site, Device())
    assert len(site.register_begin(USER, "name")[0]["excludeCredentials"]) == 1
    assert site.register_begin(USER, "name", exclude=[])[0]["excludeCredentials"] == []
    assert [row["id"] for row in site.authenticate_begin(user=USER, allow=[b"x"])[0]["allowCredentials"]] == [to_text(b"x")]
    assert site.authenticate_begin(user=USER, allow=[])[0]["allowCredentials"] == []
