"""`StoredServer` with `shared`, over the program of PROGRAM: several processes with one program, and what ends in the midst of it."""
import json
import multiprocessing
import os
import random
import signal
import socket
import stat
import subprocess
import sys
import threading
import time
import urllib.error
import urllib.request
from concurrent.futures import ThreadPoolExecutor
from pathlib import Path

import pytest
from device import EDDSA, Device

from garvoeng import Refused, StoredServer, StoreFailed, broker

PROGRAM = os.environ.get("PROGRAM", str(Path(__file__).parents[2] / "dist" / "passkey-site"))
pytestmark = pytest.mark.skipif(not Path(PROGRAM).exists(), reason="PROGRAM is not there")


@pytest.fixture(autouse=True)
def folder(tmp_path, monkeypatch):
    monkeypatch.setenv("XDG_RUNTIME_DIR", str(tmp_path))
    return tmp_path


def server(folder, **more):
    return StoredServer(PROGRAM, str(folder / "site.db"), "example.com", ["https://example.com"], shared=True, timeout=20, **more)


def registered(site, device, user=b"account 7"):
    options, session = site.register_begin(user, "name")
    return site.register_complete(session, device.register(options))


def signed_in(site, device):
    options, session = site.authenticate_begin(user=b"account 7")
    return site.authenticate_complete(session, device.sign_in(options)).credential.sign_count


def running(file, name):
    """The processes of this name that have a word with this file."""
    found = []
    for path in Path("/proc").glob("[0-9]*/cmdline"):
        try:
            words = path.read_bytes().split(b"\0")
        except OSError:
            continue
        if str(file).encode() in words and (os.path.basename(words[0]) == b"passkey-site") == (name == "program"):
            found.append(int(path.parent.name))
    return found


def until(call, seconds=60):
    for _ in range(int(seconds * 20)):
        if call():
            return True
        time.sleep(0.05)
    return False


def answers(site):
    """Whether it does. A call that came while the broker was ending fails."""
    try:
        site.rows()
    except StoreFailed:
        return False
    return True


def worker(folder, number):
    """Registers and signs in until `ends` is there; what was accepted is told."""
    site, device, made, count = server(folder), Device(EDDSA, credential=b"key of %d" % number), False, 0
    told = open(folder / f"told-{number}", "w")
    while not (folder / "ends").exists():
        try:
            if not made:
                registered(site, device)
                made = True
            accepted = signed_in(site, device)
            assert accepted > count
            count = accepted
            told.write(f"{count}\n")
            told.flush()
        except StoreFailed:
            time.sleep(0.02)
        except Refused as refused:
            # The registration was committed, whose answer did not come. No session ends with the program.
            assert refused.name == "G15", refused
            made = True
    site.close()


def test_workers_that_are_killed(folder):
    """Four workers, of which one, the program or the broker is killed again and again: one program at a time, and no acceptance is
    lost or told twice."""
    context = multiprocessing.get_context("fork")
    workers = {number: context.Process(target=worker, args=(folder, number), daemon=True) for number in range(4)}
    for one in workers.values():
        one.start()
    draw, file, most, names = random.Random(1), folder / "site.db", 0, 3
    accepted = {}

    def signed():
        return [len(path.read_text().splitlines()) for path in folder.glob("told-*")]

    for _ in range(16):
        # However slow the machine is, they sign in between.
        before = sum(signed())
        time.sleep(0.4)
        assert until(lambda: sum(signed()) >= before + 4)
        programs = running(file, "program")
        most = max(most, len(programs))
        choice = draw.randrange(3)
        if choice == 0:
            number = draw.choice(list(workers))
            workers[number].kill()
            workers.pop(number).join()
            names += 1
            workers[names] = context.Process(target=worker, args=(folder, names), daemon=True)
            workers[names].start()
        else:
            for pid in programs if choice == 1 else running(file, "broker"):
                try:
                    os.kill(pid, signal.SIGKILL)
                except ProcessLookupError:
                    pass
    assert until(lambda: sum(count > 0 for count in signed()) >= 4)
    (folder / "ends").touch()
    for one in workers.values():
        one.join(120)
        assert one.exitcode == 0
    for number in range(names + 1):
        told = folder / f"told-{number}"
        counts = [int(line) for line in told.read_text().splitlines()] if told.exists() else []
        assert counts == sorted(set(counts))
        if counts:
            accepted[number] = counts[-1]
    assert len(accepted) >= 4 and most <= 1
    with server(folder) as site:
        rows = {row.id: row.sign_count for row in site.rows()}
    for number, count in accepted.items():
        assert rows[b"key of %d" % number] >= count


def serving(folder, number, begun, ends):
    """A worker that signs in until it is told to end, and tells how often; no call fails."""
    site, device, count = server(folder), Device(EDDSA, credential=b"key of %d" % number), 0
    registered(site, device)
    begun.set()
    while not ends.is_set():
        count += 1
        assert signed_in(site, device) == count
    site.close()
    (folder / f"told-{number}").write_text(str(count))


def test_a_rolling_restart(folder):
    """Each of four workers is replaced by a new one that was started before: no call fails, and one program has served all."""
    context, workers, programs = multiprocessing.get_context("fork"), [], set()

    def started(number):
        begun, ends = context.Event(), context.Event()
        process = context.Process(target=serving, args=(folder, number, begun, ends), daemon=True)
        process.start()
        assert begun.wait(60)
        programs.update(running(folder / "site.db", "program"))
        return process, ends

    workers = [started(number) for number in range(4)]
    for number in range(4, 8):
        workers.append(started(number))
        process, ends = workers.pop(0)
        ends.set()
        process.join(60)
        assert process.exitcode == 0
    for process, ends in workers:
        ends.set()
    for process, _ in workers:
        process.join(60)
        assert process.exitcode == 0
    assert len(programs) == 1
    with server(folder) as site:
        rows = {row.id: row.sign_count for row in site.rows()}
    assert rows == {b"key of %d" % number: int((folder / f"told-{number}").read_text()) for number in range(8)}


def one_call(folder, number, together):
    together.wait(60)
    site = server(folder)
    registered(site, Device(EDDSA, credential=b"key of %d" % number))
    together.wait(60)
    assert len(running(folder / "site.db", "program")) == len(running(folder / "site.db", "broker")) == 1
    together.wait(60)
    site.close()


def test_brokers_that_race(folder):
    """Where several processes begin at once, with a socket that nobody listens on, one broker is started, and no call fails."""
    context = multiprocessing.get_context("fork")
    path = broker.path_of(server(folder)._words)
    for turn in range(3):
        with socket.socket(socket.AF_UNIX) as left:
            path.unlink(missing_ok=True)
            left.bind(str(path))
        together = context.Barrier(6)
        starting = [context.Process(target=one_call, args=(folder, 10 * turn + number, together), daemon=True) for number in range(6)]
        for process in starting:
            process.start()
        for process in starting:
            process.join(90)
        assert [process.exitcode for process in starting] == [0] * 6
        assert until(lambda: not running(folder / "site.db", "broker") and not running(folder / "site.db", "program"))
    with server(folder) as site:
        assert len(site.rows()) == 18


def test_what_a_kill_leaves(folder):
    """Broker and program are killed: their socket stays, and the next process starts them again."""
    site, device = server(folder), Device(EDDSA)
    registered(site, device)
    path = broker.path_of(site._words)
    for pid in (*running(folder / "site.db", "broker"), *running(folder / "site.db", "program")):
        os.kill(pid, signal.SIGKILL)
    assert until(lambda: not running(folder / "site.db", "broker") and not running(folder / "site.db", "program")) and path.is_socket()
    with server(folder) as other:
        assert signed_in(other, device) == 1 and len(running(folder / "site.db", "broker")) == 1
    assert until(lambda: answers(site)) and site.rows()[0].sign_count == 1
    site.close()


def test_deep_lines_shift_no_answer(folder):
    """Beside one that sends lines which nest so deep that an answer's id may be null, each has its own answers, in order."""
    device = Device(EDDSA)
    with server(folder) as one, server(folder) as other:
        registered(one, device)
        path = str(broker.path_of(one._words))
        with socket.socket(socket.AF_UNIX) as hostile:
            hostile.settimeout(60)
            hostile.connect(path)
            answers = hostile.makefile("rb")
            for depth in (1, 100, 126, 127, 700, 5_000, 20_000):
                for opened, closed in ((b"[", b"]"), (b'{"a":', b"}")):
                    if depth * len(opened + closed) > 60_000:
                        continue
                    deep = opened * depth + b"1" + closed * depth
                    hostile.sendall(b'{"act":"rows","x":%b,"id":7}\n{"id":8,"act":"rows","x":%b}\n{"id":9,"act":"status"}\n' % (deep, deep))
                    assert signed_in(one, device) and other.status()["credentials"] == 1 and [row.id for row in one.rows()] == [device.id]
                    said = [json.loads(answers.readline()) for _ in range(3)]
                    assert said[0].get("id") in (7, None) and said[1].get("id") in (8, None) and "status" in said[2] and said[2]["id"] == 9
        assert signed_in(other, device)


def test_it_ends_with_the_last_and_starts_again(folder):
    one, other, device = server(folder), server(folder), Device(EDDSA)
    registered(one, device)
    assert signed_in(other, device) == 1 and signed_in(one, device) == 2
    assert len(running(folder / "site.db", "program")) == 1
    one.close()
    time.sleep(broker.IDLE + 1.5)
    assert signed_in(other, device) == 3
    other.close()
    assert until(lambda: not running(folder / "site.db", "program") and not running(folder / "site.db", "broker"))
    assert signed_in(one, device) == 4
    one.close()


def test_who_may_connect(folder, monkeypatch):
    with server(folder) as site:
        site.rows()
        path = broker.path_of(site._words)
        assert stat.S_IMODE(path.stat().st_mode) == 0o600 and stat.S_IMODE(path.parent.stat().st_mode) == 0o700
    monkeypatch.setattr(os, "geteuid", lambda: 12345)
    with pytest.raises(OSError):
        broker.path_of(["program", "file"])
    monkeypatch.undo()
    monkeypatch.setenv("XDG_RUNTIME_DIR", str(folder))
    for mode in (0o755, *(0o700 | 1 << bit for bit in range(6))):
        (folder / "garvoeng").chmod(mode)
        with pytest.raises(StoreFailed, match="not this user's alone"):
            server(folder).rows()


def test_a_folder_whose_path_is_too_long(folder, monkeypatch):
    long = folder / ("x" * 100)
    long.mkdir()
    monkeypatch.setenv("XDG_RUNTIME_DIR", str(long))
    with pytest.raises(StoreFailed, match="107 bytes: name a shorter folder in XDG_RUNTIME_DIR"):
        server(folder).rows()


def test_the_broker_asks_who_it_is(folder, monkeypatch):
    """A socket that another user listens on is not trusted, and one that connects is let go."""
    (folder / "garvoeng").mkdir(mode=0o700)
    site = server(folder)
    with socket.socket(socket.AF_UNIX) as theirs:
        theirs.bind(str(broker.path_of(site._words)))
        theirs.listen()
        monkeypatch.setattr(broker, "_user_of", lambda _: os.geteuid() + 1)
        with pytest.raises(StoreFailed, match="another user's"):
            site.rows()
    site._words[-1] = str(folder / "other.db")
    made = broker._Broker(broker.path_of(site._words), site._words)
    with socket.socket(socket.AF_UNIX) as stranger:
        stranger.connect(str(made.path))
        made._accept()
        assert made.peers == {} and stranger.recv(1) == b""
    made._end(True)


def test_hostile_connections(folder):
    """Who sends what is no line is let go, and the others go on."""
    device = Device(EDDSA)
    with server(folder) as site:
        registered(site, device)
        path = str(broker.path_of(site._words))
        for hostile in (b"\n", b"garbage\n", b"[]\n", b"\0" * 100 + b"\n", b"{" + b"x" * 70_000, b"{" + b"x" * 70_000 + b"\n", b'{"id":1}\n\n'):
            with socket.socket(socket.AF_UNIX) as stranger:
                stranger.settimeout(60)
                stranger.connect(path)
                try:
                    stranger.sendall(hostile)
                    while stranger.recv(65_536):
                        pass
                except ConnectionError:
                    pass
            assert signed_in(site, device)
        for partial in (b'{"id":1,"act":"rows"', b"", b'{"id":1,"act":"rows"}\n{"id":2'):
            with socket.socket(socket.AF_UNIX) as stranger:
                stranger.connect(path)
                stranger.sendall(partial)
            assert signed_in(site, device)
        mute = [socket.socket(socket.AF_UNIX) for _ in range(60)]
        for stranger in mute:
            stranger.connect(path)
        assert signed_in(site, device)
        for stranger in mute:
            stranger.close()
        deaf = socket.socket(socket.AF_UNIX)
        deaf.connect(path)
        deaf.settimeout(20)
        try:
            for _ in range(3_000):
                deaf.sendall(b'{"id":1,"act":"rows"}\n')
        except OSError:
            pass
        assert signed_in(site, device)
        deaf.close()


def test_what_the_program_says(folder):
    """Why it can't start is told to the one that asked, and another may try again."""
    alone = StoredServer(PROGRAM, str(folder / "site.db"), "example.com", ["https://example.com"])
    alone.rows()
    shared = server(folder)
    with pytest.raises(StoreFailed, match="in use"):
        shared.rows()
    alone.close()
    assert shared.rows() == []
    shared.close()
    with pytest.raises(StoreFailed):
        StoredServer("/no/program", str(folder / "none.db"), "example.com", ["https://example.com"], shared=True, timeout=2).rows()


def test_the_program_that_fails_is_started_anew(folder):
    """A program that answers `failed` is ended, for all."""
    script = folder / "failing"
    script.write_text(f"""#!/bin/sh
if [ -e {folder}/failed ]; then exec {PROGRAM} "$@"; fi
read line
touch {folder}/failed
echo '{{"id":1,"failed":"disk I/O error"}}'
while read line; do echo '{{"id":2,"failed":"disk I/O error"}}'; done
""")
    script.chmod(0o755)
    one = StoredServer(str(script), str(folder / "site.db"), "example.com", ["https://example.com"], shared=True, timeout=20)
    with pytest.raises(StoreFailed, match="disk"):
        one.rows()
    assert until(lambda: answers(one)) and one.rows() == []
    one.close()


def answering(site, said):
    """A broker that answers the first line by these bytes, and has gone then."""
    path = broker.path_of(site._words)
    listening = socket.socket(socket.AF_UNIX)
    listening.bind(str(path))
    listening.listen()

    def answer():
        peer, _ = listening.accept()
        peer.recv(65_536)
        path.unlink()
        listening.close()
        peer.sendall(said)
        peer.close()

    thread = threading.Thread(target=answer, daemon=True)
    thread.start()
    return thread


@pytest.mark.parametrize("said", [b'{"id":1,"rows":[', b"", b'{"id":1,"rows":[]}\n{"id":2,"rows":[]}\n', b"[]\n", b"!a note\n{", b"\xff\n"])
def test_an_answer_that_is_cut_off(folder, said):
    """The call fails at once, and the next one, of whichever thread, goes on with another program."""
    site = server(folder)
    answering(site, said)
    found, took = [], []

    def call():
        began = time.monotonic()
        try:
            found.append(site.rows())
        except StoreFailed as failed:
            found.append(str(failed))
        took.append(time.monotonic() - began)

    for wanted in ([StoreFailed, list] if b"}\n{" not in said else [list, list]):
        calling = threading.Thread(target=call, daemon=True)
        calling.start()
        calling.join(60)
        assert not calling.is_alive() and isinstance(found[-1], str if wanted is StoreFailed else wanted), found
    assert took[0] < 15 and found[-1] == []
    site.close()


CUT = """#!{python}
import os, sys, time
if os.path.exists("{folder}/began"):
    os.execv("{program}", ["{program}", *sys.argv[1:]])
open("{folder}/began", "w").close()
for _ in range(8):
    sys.stdin.buffer.readline()
os.write(1, b'{{"id":1,"rows":[')
open("{folder}/cut", "w").close()
{then}
"""


@pytest.mark.parametrize("then", ["", "time.sleep(600)", "os.fork() or time.sleep(60)", "killed"])
def test_threads_that_wait_for_an_answer_that_is_cut_off(folder, then):
    """The program writes half a line, and ends, says nothing more, leaves its pipe to another, or is killed: no thread waits longer than
    the limit, and the next call has another program."""
    script = folder / "passkey"
    script.write_text(CUT.format(python=sys.executable, folder=folder, program=PROGRAM, then="time.sleep(600)" if then == "killed" else then))
    script.chmod(0o755)
    site = StoredServer(str(script), str(folder / "site.db"), "example.com", ["https://example.com"], shared=True, timeout=5)
    with ThreadPoolExecutor(8) as pool:
        began = time.monotonic()
        calls = [pool.submit(answers, site) for _ in range(8)]
        if then == "killed":
            assert until((folder / "cut").exists)
            for pid in running(folder / "site.db", "broker"):
                # Of the processes that name the file one is the broker, and the other one its program.
                if "garvoeng.broker" not in Path(f"/proc/{pid}/cmdline").read_text():
                    os.kill(pid, signal.SIGKILL)
        assert [call.result(60) for call in calls].count(False) >= 1
    # A call may meet the broker while it ends.
    assert any(answers(site) for _ in range(4)) and site.rows() == []
    assert time.monotonic() - began < broker.ENDING
    site.close()


@pytest.mark.parametrize("shared", [True, False])
def test_a_fork_after_a_call(folder, shared):
    """Parent and child both go on, again and again; without `shared` the child has no program, and the parent's goes on."""
    device = Device(EDDSA)
    site = StoredServer(PROGRAM, str(folder / "site.db"), "example.com", ["https://example.com"], shared=shared, timeout=20)
    registered(site, device)
    for count in range(1, 21):
        child = os.fork()
        if child == 0:
            signal.alarm(30)
            try:
                if shared:
                    assert [row.id for row in site.rows()] == [device.id]
                    site.close()
            except BaseException:
                os._exit(1)
            os._exit(0)
        calling = threading.Thread(target=lambda: signed_in(site, device), daemon=True)
        calling.start()
        calling.join(60)
        assert not calling.is_alive() and site.rows()[0].sign_count == count
        assert os.waitpid(child, 0)[1] == 0
    # A child that lives holds nothing that the parent's program waits for.
    child = os.fork()
    if child == 0:
        time.sleep(60)
        os._exit(0)
    began = time.monotonic()
    site.close()
    assert time.monotonic() - began < 15 and (shared or not running(folder / "site.db", "program"))
    os.kill(child, signal.SIGKILL)
    os.waitpid(child, 0)


SITE = """
import sys
sys.path[:0] = {path!r}
from flask import Flask
from garvoeng import StoredServer
from garvoeng.flask import passkeys
server = StoredServer({program!r}, {file!r}, "example.com", ["https://example.com"], shared=True, timeout=10)
server.status()

app = Flask("site")
app.register_blueprint(passkeys(server), url_prefix="/passkeys")
app.get("/")(lambda: str(server.status()["credentials"]))
"""


def test_workers_of_a_loaded_site(folder):
    """gunicorn with --preload over Flask, and a call at the import: each worker answers each request, and passkeys' own."""
    pytest.importorskip("gunicorn")
    pytest.importorskip("flask")
    (folder / "loaded_site.py").write_text(SITE.format(path=sys.path, program=PROGRAM, file=str(folder / "site.db")))
    with socket.socket() as free:
        free.bind(("127.0.0.1", 0))
        port = free.getsockname()[1]
    site = subprocess.Popen([sys.executable, "-m", "gunicorn", "--preload", "-w", "3", "-b", f"127.0.0.1:{port}", "loaded_site:app"], cwd=folder,
                            stdout=subprocess.DEVNULL, stderr=subprocess.DEVNULL)
    try:
        def ask(number=0):
            begins = urllib.request.Request(f"http://127.0.0.1:{port}/passkeys/sign-in/begin", b"{}", {"Content-Type": "application/json"})
            try:
                with urllib.request.urlopen(begins if number % 2 else f"http://127.0.0.1:{port}/", timeout=20) as answer:
                    return answer.status, b"challenge" in answer.read() if number % 2 else answer.read()
            except urllib.error.HTTPError as error:
                return error.code, b""
            except OSError:
                return None

        assert until(ask)
        with ThreadPoolExecutor(6) as pool:
            assert set(pool.map(ask, range(60))) == {(200, b"0"), (200, True)}
    finally:
        site.terminate()
        try:
            site.wait(60)
        finally:
            site.kill()
