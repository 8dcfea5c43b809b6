"""`garvoeng.move site` and `to-site`: credentials from a site's file into tables, and back."""
import io
import os
import sqlite3
import subprocess
import sys
from contextlib import closing

import pytest
from device import EDDSA, ES256, RS256, Device
from test_stored import ORIGIN, PROGRAM, USER, refusal, registers, rows, stored

from garvoeng import BadInput, move_site
from garvoeng.forms import to_text

pytest.importorskip("fcntl")


def ran(*words):
    done = subprocess.run([sys.executable, "-m", "garvoeng.move", *map(str, words)], capture_output=True, text=True, stdin=subprocess.DEVNULL)
    return done.returncode, done.stdout + done.stderr


def devices():
    return [Device(algorithm, credential=b"credential %d" % algorithm) for algorithm in (ES256, EDDSA, RS256)]


@pytest.fixture
def keys(tmp_path):
    """Three passkeys of a file, whose last one is retired."""
    keys = devices()
    with stored(tmp_path) as site:
        for device in keys:
            options, session = site.register_begin(USER, "name")
            site.register_complete(session, {**device.register(options), "transports": ["usb", "nfc"]})
        options, session = site.authenticate_begin(user=USER)
        site.authenticate_complete(session, keys[0].sign_in(options))
        assert site.retire(keys[2].id)
    return keys


def made(file, *options):
    """A site's file without credentials."""
    subprocess.run([PROGRAM, "--rp-id=example.com", f"--origin={ORIGIN}", *options, "--", str(file)], input=b"", check=True)


def signs_in(server, device, user=USER):
    options, session = server.authenticate_begin(user=user)
    return server.authenticate_complete(session, device.sign_in(options))


def bytes_of(folder):
    return {name: (folder / name).read_bytes() for name in ("site.db", "site.db-wal") if (folder / name).exists()}


def told_of(kept):
    return [(one.id, one.user, one.cose_key, one.sign_count, one.eligible, one.retired, one.transports, one.aaguid, one.created_at, one.used_at)
            for one in kept]


def test_there_and_back(tmp_path, keys):
    """Everything that the file has arrives, once; what signs in goes on in the tables, and in a new file after them."""
    with stored(tmp_path) as site:
        before = told_of(site.rows(USER))
    held = bytes_of(tmp_path)
    for wanted in ("3 moved, 0 there already, 0 not moved\n", "0 moved, 3 there already, 0 not moved\n"):
        assert ran("site", tmp_path / "site.db", tmp_path / "site.sqlite") == (0, wanted)
    assert bytes_of(tmp_path) == held
    server = rows(tmp_path)
    assert sorted(told_of(server.rows(USER))) == sorted(before)
    assert signs_in(server, keys[0]).credential.sign_count == 2
    assert refusal(signs_in, server, keys[2], None) == "W3"
    other = tmp_path / "other"
    other.mkdir()
    made(other / "site.db", "--no-sums")
    for wanted in ("3 moved, 0 there already, 0 not moved\n", "0 moved, 3 there already, 0 not moved\n"):
        assert ran("to-site", tmp_path / "site.sqlite", other / "site.db") == (0, wanted)
    with stored(other) as site:
        assert sorted(told_of(site.rows(USER))) == sorted(told_of(server.rows(USER)))
        assert signs_in(site, keys[0]).credential.sign_count == 3
        assert refusal(signs_in, site, keys[2], None) == "W3"
        # an id that was moved is taken, and new ones are added behind
        options, session = site.register_begin(b"somebody else", "name")
        assert refusal(site.register_complete, session, Device(credential=keys[2].id).register(options)) == "G15"
        registers(site, Device(credential=b"a new one"))
    with stored(other) as site:
        assert len(site.rows(USER)) == 4


def test_a_log_is_read_too(tmp_path, keys):
    """Of a program that was killed what it has told is moved, and file and log stay."""
    site = stored(tmp_path)
    registers(site, Device(credential=b"in the log alone"))
    site._process._kill()
    site._process._waited(10)
    held = bytes_of(tmp_path)
    assert len(held["site.db-wal"]) > 1000
    assert ran("site", tmp_path / "site.db", tmp_path / "site.sqlite") == (0, "4 moved, 0 there already, 0 not moved\n")
    assert bytes_of(tmp_path) == held


def test_through_a_link(tmp_path, keys):
    """The log stands beside the file that a link leads to."""
    site = stored(tmp_path)
    registers(site, Device(credential=b"in the log alone"))
    site._process._kill()
    site._process._waited(10)
    links = tmp_path / "links"
    links.mkdir()
    (links / "site.db").symlink_to("again.db")
    (links / "again.db").symlink_to(tmp_path / "site.db")
    assert ran("site", links / "site.db", tmp_path / "site.sqlite") == (0, "4 moved, 0 there already, 0 not moved\n")


LOCKS = "import fcntl, sys; fcntl.lockf(open(sys.argv[1], 'r+b'), fcntl.LOCK_EX | fcntl.LOCK_NB, 512, 0x40000000)"


def test_it_is_held_until_its_log_is_copied(tmp_path, keys, monkeypatch):
    """No process gets the file while it and its log are read, and each does afterwards."""
    found, copyfile = [], move_site.shutil.copyfile

    def another():
        found.append(subprocess.run([sys.executable, "-c", LOCKS, str(tmp_path / "site.db")], capture_output=True).returncode)

    def copied(source, target):
        another()
        copyfile(source, target)

    monkeypatch.setattr(move_site.shutil, "copyfile", copied)
    assert len(list(move_site.rows_of(str(tmp_path / "site.db"), [].append))) == 3
    another()
    assert found == [1, 0]


def test_a_backup(tmp_path, keys):
    with stored(tmp_path) as site:
        site.backup(str(tmp_path / "copy.db"))
    assert ran("site", tmp_path / "copy.db", tmp_path / "site.sqlite") == (0, "3 moved, 0 there already, 0 not moved\n")


def test_what_is_refused(tmp_path, keys):
    """By a word that says what to do; and nothing is moved."""
    file, database = tmp_path / "site.db", tmp_path / "site.sqlite"
    with stored(tmp_path) as site:
        assert len(site.rows(USER)) == 3
        status, said = ran("site", file, database)
        assert status == 1 and "is in use: end passkey-site" in said
        assert ran("to-site", database, file)[0] == 1
    assert rows(tmp_path).rows() == []
    other = tmp_path / "other"
    other.mkdir()
    for name, content in (("empty", b""), ("text", b"no file of a site" * 1000)):
        (other / name).write_bytes(content)
        for words in (("site", other / name, database), ("to-site", database, other / name)):
            status, said = ran(*words)
            assert status == 1 and "no site's file" in said, said
    status, said = ran("site", other / "nothing", database)
    assert status == 1 and "can't be opened: No such file" in said
    with closing(sqlite3.connect(other / "tables")) as tables:
        tables.execute("create table site (version integer)")
        tables.execute("insert into site values (3)")
        tables.commit()
    status, said = ran("site", other / "tables", database)
    assert status == 1 and "let this version's passkey-site open it once" in said
    made(other / "site.db")
    status, said = ran("to-site", database, other / "site.db")
    assert status == 1 and "make it by passkey-site --no-sums" in said
    for words in ((), ("site",), ("site", file), ("else", file, database), ("site", file, database, "more")):
        assert ran(*words)[0] == 1
    assert rows(tmp_path).rows() == []


def test_a_damaged_row(tmp_path, keys):
    """It is told by its place, and the others are moved."""
    changes = ("algorithm = -9", "x = x'00'", "id = x''", "user_handle = x''", "sign_count = -1", "sign_count = 4294967296", "y = x'00'")
    for number, change in enumerate(changes):
        folder = tmp_path / str(number)
        folder.mkdir()
        (folder / "site.db").write_bytes((tmp_path / "site.db").read_bytes())
        with closing(sqlite3.connect(folder / "site.db")) as site:
            site.execute(f"update credential set {change} where place = 1")
            site.commit()
        said = []
        assert not move_site.to_database(str(folder / "site.db"), rows(folder), said.append)
        assert said[0].startswith("place 1: ") and said[1] == "2 moved, 0 there already, 1 not moved", change
    with closing(sqlite3.connect(tmp_path / "site.db")) as site:
        site.execute("update detail set transports = 'no transport,' where place = 2")
        site.commit()
    said = []
    assert not move_site.to_database(str(tmp_path / "site.db"), rows(tmp_path), said.append)
    assert said[0].startswith("place 2: ")


def test_a_file_whose_pages_disagree(tmp_path, keys):
    """Each row can be read, but not by its id: the file is damaged, and nothing of it is moved."""
    name = tmp_path / "site.db"
    with closing(sqlite3.connect(name)) as site:
        [(root,)] = site.execute("select rootpage from sqlite_master where type = 'index' and sql like '%(id)%'")
        [(size,)] = site.execute("pragma page_size")
    held = bytearray(name.read_bytes())
    at = held.index(keys[0].id, (root - 1) * size, root * size)
    held[at] ^= 1
    name.write_bytes(held)
    assert ran("site", name, tmp_path / "site.sqlite") == (1, f"{name} is damaged\n")
    assert rows(tmp_path).rows() == []


def test_it_is_held_while_it_is_written(tmp_path, keys, monkeypatch):
    """From the first look on nobody else begins to write."""
    made(tmp_path / "new.db", "--no-sums")
    check = move_site._checked

    def checked(site, name):
        with closing(sqlite3.connect(name, timeout=0, isolation_level=None)) as other, pytest.raises(sqlite3.OperationalError, match="locked"):
            other.execute("begin immediate")
        check(site, name)

    monkeypatch.setattr(move_site, "_checked", checked)
    assert move_site.to_file(rows(tmp_path), str(tmp_path / "new.db"), [].append)


def test_a_damaged_row_of_the_tables(tmp_path, keys):
    """It is counted, and its id is told; the others are moved."""
    assert ran("site", tmp_path / "site.db", tmp_path / "site.sqlite")[0] == 0
    with closing(sqlite3.connect(tmp_path / "site.sqlite")) as tables:
        tables.execute("update garvoeng_credential set sign_count = -1 where id = ?", [keys[1].id])
        tables.commit()
    made(tmp_path / "new.db", "--no-sums")
    status, said = ran("to-site", tmp_path / "site.sqlite", tmp_path / "new.db")
    assert status == 1 and said.startswith("2 moved, 0 there already, 1 not moved\n") and f"credential {to_text(keys[1].id)} is damaged" in said
    with closing(sqlite3.connect(tmp_path / "site.db")) as site:
        site.execute("update detail set aaguid = x'0102' where place = 1")
        site.commit()
    said = []
    assert [one.id for one in move_site.rows_of(str(tmp_path / "site.db"), said.append)] == [keys[1].id, keys[2].id] and said == ["place 1: aaguid is not of 16 bytes"]


def test_many(tmp_path, keys, monkeypatch):
    """More than one transaction takes."""
    monkeypatch.setattr(move_site, "_AT_ONCE", 2)
    said = []
    assert move_site.to_database(str(tmp_path / "site.db"), rows(tmp_path), said.append)
    assert said == ["3 moved, 0 there already, 0 not moved"]


def test_a_lock_of_another_process(tmp_path, keys):
    """What holds SQLite's lock keeps it out, in both directions."""
    with closing(sqlite3.connect(tmp_path / "site.db", isolation_level=None)) as holder:
        holder.execute("begin exclusive")
        assert ran("to-site", tmp_path / "site.sqlite", tmp_path / "site.db")[0] == 1


def test_bad_input_is_told_of_a_folder(tmp_path):
    with pytest.raises(BadInput):
        list(move_site.rows_of(str(tmp_path), io.StringIO().write))
    assert os.listdir(tmp_path) == []
