"""`garvoeng.move`: rows of python-fido2, py_webauthn and SimpleWebAuthn, and what is none."""
import io
import json
import sqlite3
import subprocess
import sys

import pytest
from device import EDDSA, ES256, RS256, Device
from hostile import VALUES

from garvoeng import Server, move
from garvoeng.forms import to_text
from garvoeng.sql import SqlServer

USER = b"account 7"


def fido2_row(device, **more):
    data = device.aaguid + len(device.id).to_bytes(2, "big") + device.id + device.cose_key()
    return {"user": to_text(USER), "credential_data": to_text(data), "counter": device.count, **more}


def py_webauthn_row(device, **more):
    return {"user": to_text(USER), "credential_id": to_text(device.id), "credential_public_key": to_text(device.cose_key()),
            "sign_count": device.count, "credential_device_type": "single_device", "credential_backed_up": False, **more}


def simplewebauthn_row(device, **more):
    return {"webauthnUserID": to_text(USER), "id": to_text(device.id), "publicKey": to_text(device.cose_key()), "counter": device.count,
            "deviceType": "singleDevice", "backedUp": False, **more}


KINDS = [("fido2", fido2_row), ("py_webauthn", py_webauthn_row), ("simplewebauthn", simplewebauthn_row)]
# The members that have the key, the user and the counter.
NAMES = {"fido2": ("credential_data", "user", "counter"), "py_webauthn": ("credential_public_key", "user", "sign_count"),
         "simplewebauthn": ("publicKey", "webauthnUserID", "counter")}


@pytest.fixture
def server(tmp_path):
    made = SqlServer(Server("example.com", ["https://example.com"]), lambda: sqlite3.connect(tmp_path / "site.sqlite", timeout=30))
    made.prepare()
    return made


@pytest.mark.parametrize("kind, row_of", KINDS)
def test_rows_sign_in(tmp_path, server, kind, row_of):
    devices = [Device(algorithm, credential=b"credential %d" % algorithm) for algorithm in (ES256, EDDSA, RS256)]
    lines = "".join(json.dumps(row_of(device, transports=["usb"])) + "\n" for device in devices)
    for wanted in ("3 moved, 0 there already, 0 not moved\n", "0 moved, 3 there already, 0 not moved\n"):
        done = subprocess.run([sys.executable, "-m", "garvoeng.move", kind, str(tmp_path / "site.sqlite")], input=lines,
                              capture_output=True, text=True)
        assert (done.stdout, done.returncode) == (wanted, 0), done.stderr
    for device in devices:
        options, session = server.authenticate_begin(user=USER)
        assert {tuple(one["transports"]) for one in options["allowCredentials"]} == {("usb",)}
        assert server.authenticate_complete(session, device.sign_in(options)).credential.sign_count == 1


def test_what_a_row_says(server):
    """All that a library kept is there then, also of ids of 255, 256 and more bytes."""
    for size in (1, 255, 256, 300, 1023):
        device, said = Device(credential=bytes([size % 251]) * size), []
        device.count = 2**32 - 2
        assert move.moved(move.of_fido2, server, io.StringIO(json.dumps(fido2_row(device, transports=["usb", "nfc"]))), said.append), said
        [row] = [row for row in server.rows(USER) if row.id == device.id]
        assert (row.eligible, row.backed_up, row.aaguid, row.used_at) == (None, None, device.aaguid, None)
        assert (row.sign_count, row.transports, row.cose_key) == (2**32 - 2, ("usb", "nfc"), device.cose_key())
    for number, (kind, backed_up, eligible) in enumerate((("single_device", False, False), ("multi_device", False, True), ("multi_device", True, True),
                                                          (None, None, None))):
        device = Device(credential=b"of py_webauthn %d" % number)
        text = json.dumps(py_webauthn_row(device, credential_device_type=kind, credential_backed_up=backed_up, transports=["internal", "hybrid"]))
        assert move.moved(move.of_py_webauthn, server, io.StringIO(text), [].append)
        [row] = [row for row in server.rows(USER) if row.id == device.id]
        assert (row.eligible, row.backed_up, row.aaguid) == (eligible, backed_up, None)
        assert row.transports == ("internal", "hybrid")
        again = Device(credential=b"of simplewebauthn %d" % number)
        kinds = {"single_device": "singleDevice", "multi_device": "multiDevice", None: None}
        text = json.dumps(simplewebauthn_row(again, deviceType=kinds[kind], backedUp=backed_up, transports=["internal"]))
        assert move.moved(move.of_simplewebauthn, server, io.StringIO(text), [].append)
        [row] = [row for row in server.rows(USER) if row.id == again.id]
        assert (row.eligible, row.backed_up, row.transports) == (eligible, backed_up, ("internal",))
    for wrong in ({"deviceType": "multi_device"}, {"deviceType": 1}, {"backedUp": 1}, {"backedUp": "true"}):
        assert not move.moved(move.of_simplewebauthn, server, io.StringIO(json.dumps(simplewebauthn_row(Device(credential=b"w"), **wrong))), [].append)


def accounts_of(server):
    return server.within(lambda rows: [(str(user), bytes(handle)) for user, handle in rows.run("select user_id, handle from garvoeng_account order by 1").fetchall()])


def test_accounts(server):
    """A row that names a Django user gives this user its handle, once."""
    row, said = simplewebauthn_row(Device(), account=7), []

    def moved(**more):
        said.clear()
        return move.moved(move.of_simplewebauthn, server, io.StringIO(json.dumps({**row, **more})), said.append)

    assert not moved() and "garvoeng_account: run" in said[0] and server.rows() == []
    server.within(lambda rows: rows.run("create table garvoeng_account (id integer primary key, user_id bigint unique, handle blob unique)"))
    assert moved() and accounts_of(server) == [("7", USER)] and len(server.rows()) == 1
    assert moved() and said == ["0 moved, 1 there already, 0 not moved"] and accounts_of(server) == [("7", USER)]
    for more in ({"account": 8}, {"webauthnUserID": to_text(b"another")}):
        assert not moved(id=to_text(b"second"), **more) and "has another user handle" in said[0]
    for account in (True, 1.5, [], {}):
        assert not moved(id=to_text(b"second"), account=account) and "primary key" in said[0]
    assert accounts_of(server) == [("7", USER)] and len(server.rows()) == 1
    assert moved(id=to_text(b"second"), account="7") and len(server.rows()) == 2


@pytest.mark.parametrize("kind, row_of", KINDS)
def test_what_is_no_row(server, kind, row_of):
    """It is told by its line, and the others are moved."""
    good, said = row_of(Device()), []
    key, user, name = NAMES[kind]
    wrong = [*VALUES, *({**good, key: value} for value in VALUES), {**good, user: ""}, {**good, user: to_text(bytes(65))},
             {**good, key: good[key] + "AAAA"}, {**good, key: good[key][:-4]}]
    lines = [json.dumps(one) for one in wrong] + ["", "{", "[" * 100_000, json.dumps(good)]
    assert not move.moved(move.READERS[kind], server, io.StringIO("\n".join(lines)), said.append)
    assert said[-1] == f"1 moved, 0 there already, {len(lines) - 1} not moved"
    assert len(said) == len(lines) and len(server.rows()) == 1
    for member in good:
        for value in VALUES:
            move.moved(move.READERS[kind], server, io.StringIO(json.dumps({**good, member: value})), said.append)
    assert all(1 <= len(row.user) <= 64 and 1 <= len(row.id) <= 1023 for row in server.rows())
    for count in (-1, 2**32, True, None, "1", 1.0):
        assert not move.moved(move.READERS[kind], server, io.StringIO(json.dumps({**row_of(Device(credential=b"x")), name: count})), said.append)


def test_words():
    for words in ([], ["fido2"], ["other", "site.sqlite"], ["fido2", "a", "b"]):
        done = subprocess.run([sys.executable, "-m", "garvoeng.move", *words], capture_output=True, text=True)
        assert done.returncode == 1 and "garvoeng.move" in done.stderr
