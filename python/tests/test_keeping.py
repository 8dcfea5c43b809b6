"""`KeepingServer` over stores that answer what is no answer, that fail, and that change between the verdict and the write."""
import threading
from dataclasses import replace

import pytest
from device import Device
from test_storages import USER, Visit

from garvoeng import BadInput, Credential, KeepingServer, KeptCredential, MemoryStore, OpenSession, Refused, RowDamaged, Server, SessionDamaged
from garvoeng.forms import to_text

PARTY = "example.com", ["https://example.com"]


class Spoilt(MemoryStore):
    """A store of which one call is another."""

    def __init__(self):
        super().__init__()
        self.by = {}

    def __getattribute__(self, name):
        by = object.__getattribute__(self, "by") if name not in ("by", "__class__") and "by" in object.__getattribute__(self, "__dict__") else {}
        return by.get(name) or object.__getattribute__(self, name)


@pytest.fixture
def store():
    return Spoilt()


@pytest.fixture
def visit(store):
    return Visit(KeepingServer(Server(*PARTY), store))


async def answers_later(*_):
    return 0


CODES = [lambda *_: None, lambda *_: True, lambda *_: False, lambda *_: 2, lambda *_: -1, lambda *_: "0", lambda *_: 0.0, lambda *_: [], answers_later]
FLAGS = [lambda *_: None, lambda *_: 1, lambda *_: 0, lambda *_: "True", lambda *_: [], answers_later]
COUNTS = [lambda *_: None, lambda *_: True, lambda *_: -1, lambda *_: "1", lambda *_: 1.0, answers_later]
ROWS = [lambda *_: None, lambda *_: 7, lambda *_: "rows", lambda *_: [None], lambda *_: [{}], lambda *_: iter([]), lambda *_: [Credential(b"", b"", -7, b"", b"", 0, None)],
        answers_later]
FOUND = [lambda *_: 7, lambda *_: {}, lambda *_: "x", lambda *_: True, answers_later]


@pytest.mark.parametrize("call, answers, acts", [
    ("register", CODES, lambda visit: visit.registers(Device(credential=b"new"))), ("sign_in", CODES, lambda visit: visit.signs_in(Device())),
    ("row", FOUND, lambda visit: visit.registers(Device(credential=b"new"))), ("session", FOUND, lambda visit: visit.registers(Device(credential=b"new"))),
    ("rows", ROWS, lambda visit: visit.server.rows()), ("rows", ROWS, lambda visit: visit.server.register_begin(USER, "name")),
    ("retire", FLAGS, lambda visit: visit.server.retire(b"x")), ("delete", FLAGS, lambda visit: visit.server.delete(b"x")),
    ("abandon", FLAGS, lambda visit: visit.server.abandon("0" * 32)), ("retire_all", COUNTS, lambda visit: visit.server.retire_all(USER)),
    ("erase", COUNTS, lambda visit: visit.server.erase(USER))])
def test_what_is_no_answer(visit, store, call, answers, acts):
    """It is told by the call's name, and counts as none, also where it would be true."""
    device = Device()
    visit.registers(device)
    for by in answers:
        other = Device()
        other.key, other.x, other.y = device.key, device.x, device.y
        store.by = {call: by}
        with pytest.raises(TypeError, match=f"the store's {call} answered "):
            (visit.signs_in(other) if call == "sign_in" else acts(visit))
        store.by = {}
    assert [row.id for row in store.rows(None)] == [device.id] and store.row(device.id).sign_count == 0


class Broken(Exception):
    pass


@pytest.mark.parametrize("call", ["begin", "session", "register", "sign_in", "row", "rows"])
def test_a_store_that_fails(visit, store, call):
    """What it raises is raised, and nothing has changed."""
    device, new = Device(), Device(credential=b"new")
    visit.registers(device)

    def fails(*_):
        raise Broken

    store.by = {call: fails}
    acts = {"register": lambda: visit.registers(new), "rows": lambda: visit.server.register_begin(USER, "name")}.get(call, lambda: visit.signs_in(device))
    with pytest.raises(Broken):
        acts()
    store.by = {}
    assert [row.id for row in visit.server.rows()] == [device.id] and visit.server.rows()[0].sign_count == 0
    assert visit.signs_in(device).credential.sign_count == device.count


def test_what_came_between(visit, store):
    """The row that was changed, retired or deleted after the verdict, the session that was ended, and the id that was registered."""
    device = Device()
    for change, name in ((lambda: store.retire(device.id, None), "W15"), (lambda: store.delete(device.id, None), "W15"), (lambda: store.erase(USER), "W1"),
                         (lambda: store.sign_in(visit.server.authenticate_begin()[1], KeptCredential(**{**vars(store.row(device.id)), "sign_count": 9}), 0), "W15")):
        store.erase(USER)
        device.count = 0
        visit.registers(device)
        options, session = visit.server.authenticate_begin(user=USER)
        original = store.sign_in

        def sign_in(number, row, count):
            store.by = {}
            change()
            return original(number, row, count)

        store.by = {"sign_in": sign_in}
        assert visit.refused(visit.server.authenticate_complete, session, device.sign_in(options)) == name
        found = store.row(device.id)
        assert found is None or found.retired or found.sign_count == 9
    store.erase(USER)
    for change, name in ((lambda: store.abandon(session), "G1"), (lambda: visit.registers(device), "G15")):
        options, session = visit.server.register_begin(USER, "name")
        original = store.register

        def register(number, row):
            store.by = {}
            change()
            return original(number, row)

        store.by = {"register": register}
        assert visit.refused(visit.server.register_complete, session, Device().register(options)) == name
    assert [row.x for row in visit.server.rows()] == [device.x]


def test_sessions_of_a_careless_store(visit, store):
    """Whatever the store gives back, a session that has ended, is of the other kind or of another number is not open."""
    device = Device()
    visit.registers(device)
    options, session = visit.server.authenticate_begin()
    good, found = device.sign_in(options, user=USER), store.session(session)
    for change in ({"ends_at": found.ends_at - 301}, {"ends_at": 0}, {"kind": "registration"}, {"kind": "sign_out"}, {"kind": ""}, {"number": "0" * 32}):
        store.by = {"session": lambda _, change=change: OpenSession(**{**vars(found), **change})}
        assert visit.refused(visit.server.authenticate_complete, session, good) == "W1"
    for data in ("", "{", "[]", "null", "{}", found.data.replace('"challenge": "', '"challenge": "AAAA'), found.data.replace("false", "0")):
        store.by = {"session": lambda _, data=data: OpenSession(**{**vars(found), "data": data})}
        with pytest.raises(SessionDamaged) as caught:
            visit.server.authenticate_complete(session, good)
        assert caught.value.session == session and session not in str(caught.value)
    asked = []
    store.by = {"session": asked.append}
    for text in ("", "x", "0" * 31, "0" * 33, session + "\n", session.upper() + "A", "'"):
        assert visit.refused(visit.server.authenticate_complete, text, good) == "W1" and not visit.server.abandon(text)
    assert asked == []
    store.by = {}
    assert visit.server.authenticate_complete(session, good)


@pytest.mark.parametrize("change", [
    {"x": b"x"}, {"y": "text"}, {"algorithm": 5}, {"sign_count": -1}, {"sign_count": 2**32}, {"sign_count": "7"}, {"user": b""}, {"user": "text"}, {"retired": None},
    {"retired": 0}, {"eligible": "no"}, {"transports": 5}, {"aaguid": b"short"}, {"backed_up": 2}, {"created_at": -1}, {"used_at": "now"}], ids=str)
def test_rows_that_are_damaged(visit, store, change, caplog):
    """Named, where exactly that one is asked for, and left out of each list; logged both times. The account's others go on."""
    broken, whole = Device(credential=b"broken"), Device(credential=b"whole")
    for device in (broken, whole):
        visit.registers(device)
    row = store.row(b"broken")
    store.by = {"row": lambda id: replace(row, **change) if id == b"broken" else MemoryStore.row(store, id),
                "rows": lambda user: [replace(one, **change) if one.id == b"broken" else one for one in MemoryStore.rows(store, user)]}
    server = visit.server
    for listed in (server.rows(), server.rows(USER)):
        assert [one.id for one in listed] == [b"whole"]
    for options, name in ((server.register_begin(USER, "name")[0], "excludeCredentials"), (server.authenticate_begin(user=USER)[0], "allowCredentials")):
        assert [one["id"] for one in options[name]] == [to_text(b"whole")]
    assert set(caplog.messages) == {caplog.messages[0]} and f"credential {to_text(b'broken')} is damaged" in caplog.messages[0]
    options, session = server.authenticate_begin()
    caplog.clear()
    with pytest.raises(RowDamaged) as caught:
        server.authenticate_complete(session, broken.sign_in(options, user=USER))
    assert caught.value.id == b"broken" and caplog.messages == [str(caught.value)]
    assert server.authenticate_complete(session, whole.sign_in(options, user=USER)).credential.id == b"whole"
    begun, other = server.register_begin(b"other", "name")
    assert visit.refused(server.register_complete, other, Device(credential=b"broken").register(begun)) == "G15"


def test_sessions_that_have_ended_go(store, monkeypatch):
    import garvoeng.memory as memory
    server = KeepingServer(Server(*PARTY), store, lifetime=1)
    for _ in range(5):
        server.authenticate_begin()
    monkeypatch.setattr(memory, "time", type("Later", (), {"time": staticmethod(lambda: 2**40)}))
    server.authenticate_begin()
    assert len(store._sessions) == 1


def test_slips_of_a_site():
    for words in ((None, MemoryStore()), (Server(*PARTY), None), (Server(*PARTY), {}), (Server(*PARTY), MemoryStore), (MemoryStore(), Server(*PARTY))):
        if words[1] is not MemoryStore:
            with pytest.raises(TypeError, match="KeepingServer takes a Server and a Store"):
                KeepingServer(*words)
    for wrong, error in ((0, BadInput), (-1, BadInput), ("300", TypeError), (1.5, TypeError), (True, TypeError), (None, TypeError)):
        with pytest.raises(error, match="lifetime is"):
            KeepingServer(Server(*PARTY), MemoryStore(), lifetime=wrong)


def test_many_threads():
    """One acceptance of each session, and no row is lost."""
    visit, accepted = Visit(KeepingServer(Server(*PARTY), MemoryStore())), []

    def acts(number):
        device = Device(credential=b"%d" % number)
        visit.registers(device, b"%d" % number)
        options, session = visit.server.authenticate_begin()
        response = device.sign_in(options, user=b"%d" % number)
        for _ in range(3):
            try:
                accepted.append(visit.server.authenticate_complete(session, response).credential.id)
            except Refused:
                pass

    threads = [threading.Thread(target=acts, args=(number,)) for number in range(12)]
    [thread.start() for thread in threads]
    [thread.join() for thread in threads]
    assert len(accepted) == len(set(accepted)) == 12 == len(visit.server.rows())
