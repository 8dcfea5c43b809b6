"""`python -m garvoeng.client` at a terminal, and the keys that python-fido2 finds."""
import fcntl
import json
import os
import pty
import select
import signal
import socket
import subprocess
import sys
import termios
import time
from collections import namedtuple
from pathlib import Path
from types import SimpleNamespace

import pytest
from client_keys import CLIENTS, ORIGIN, OTHER, PIN, PROGRAM, RP_ID, WRONG, Site, client_of
from pin_key import Cable, PinKey

from garvoeng import client_commands
from garvoeng.client import HidMissing, KeyLost, SecurityKey, security_keys

# The command, over keys in its own process: the words of sys.argv after the first, which says how many keys there are and how each is.
BEHIND = f"""
import sys, json
sys.path[:0] = [{CLIENTS!r}, {str(Path(client_commands.__file__).parents[1])!r}]
from pin_key import Cable, PinKey
from garvoeng import client_commands
class Plugged(Cable):
    vendor, product, name = 0x1050, 0x0407, "a key"
    def __enter__(self): return self
    def __exit__(self, *_): pass
keys = []
for place, how in enumerate(json.loads(sys.argv[1])):
    presence = how.pop("presence", True)
    users = how.pop("users", 0)
    keys.append(Plugged(PinKey(presence=presence, **how)))
    keys[-1].path = f"/dev/hidraw{{place}}"
    for number in range(users):
        keys[-1].key.new_credential("example.com", {{"id": bytes([number]), "name": f"name {{number}}", "displayName": f"User {{number}}\\x1b[2J"}}, -7, True, 1)
client_commands.security_keys = lambda: keys
status = client_commands.main(sys.argv[2:])
if any(one.key.running for one in keys): print("the key still waits", file=sys.stderr)
sys.exit(status)
"""


def takes_the_terminal():
    """For a command that Ctrl-C reaches: where the tests run in the background SIGINT is ignored."""
    fcntl.ioctl(2, termios.TIOCSCTTY, 0)
    signal.signal(signal.SIGINT, signal.SIG_DFL)


class Terminal:
    """A command at a terminal of its own, with standard output apart."""

    def __init__(self, *words, keys=({"pin": PIN},), stdin=None, program=PROGRAM):
        if not Path(PROGRAM).exists():
            pytest.skip("CLIENT_PROGRAM is not there")
        own, theirs = pty.openpty()
        self.own, self.seen = own, ""
        command = [sys.executable, "-B", "-c", BEHIND, json.dumps(list(keys)), "--program", program, *words]
        self.process = subprocess.Popen(command, stdin=theirs if stdin is None else subprocess.PIPE, stdout=subprocess.PIPE, stderr=theirs, start_new_session=True,
                                        preexec_fn=takes_the_terminal)
        os.close(theirs)
        if stdin is not None:
            self.process.stdin.write(stdin.encode())
            self.process.stdin.close()

    def sees(self, text):
        """Waits for this on the terminal."""
        until = time.monotonic() + 60
        while text not in self.seen:
            ready, _, _ = select.select([self.own], [], [], max(until - time.monotonic(), 0))
            try:
                data = os.read(self.own, 4096) if ready else b""
            except OSError:
                data = b""
            assert data, (text, self.seen)
            self.seen += data.decode()
        at = self.seen.index(text) + len(text)
        before, self.seen = self.seen[:at], self.seen[at:]
        return before

    def types(self, text):
        os.write(self.own, text.encode())

    def ends(self):
        """The status, standard output, and what else the terminal shows."""
        output = self.process.stdout.read()
        status = self.process.wait(20)
        while select.select([self.own], [], [], 0)[0]:
            try:
                self.seen += os.read(self.own, 4096).decode()
            except OSError:
                break
        os.close(self.own)
        assert "Traceback" not in self.seen and "still waits" not in self.seen, self.seen
        return status, output.decode(), self.seen


def test_registers_at_a_terminal():
    """The PIN is asked for without echo, wrong ones too, and the touch is told; the response alone is on standard output."""
    terminal = Terminal("register", "--origin", ORIGIN, "--rp-id", RP_ID, "--user", "alex", "--resident", "required", "--verification", "required")
    shown = terminal.sees("PIN of the key (8 attempts left): ")
    terminal.types(WRONG + "\n")
    shown += terminal.sees("That was not the PIN.") + terminal.sees("PIN of the key (7 attempts left): ")
    terminal.types(PIN + "\n")
    shown += terminal.sees("Touch the key.")
    status, output, rest = terminal.ends()
    assert status == 0 and PIN not in shown + rest + output and WRONG not in shown + rest
    made = json.loads(output)
    assert made["type"] == "public-key" and set(made["response"]) >= {"clientDataJSON", "attestationObject"}


def test_signs_in_at_a_terminal():
    terminal = Terminal("sign-in", "--origin", ORIGIN, "--rp-id", RP_ID, keys=[{"pin": PIN, "users": 2}])
    terminal.sees("PIN of the key")
    terminal.types(PIN + "\n")
    shown = terminal.sees("Which one, 1 to 2? ")
    assert "1: User 1?[2J" in shown and "2: User 0?[2J" in shown
    terminal.types("2\n")
    status, output, _ = terminal.ends()
    assert status == 0 and json.loads(output)["response"]["userHandle"] == "AA"


def test_options_of_a_site():
    """By standard input, from a site that verifies the response."""
    site = Site(client_of(Cable(PinKey())))
    options, session = site.server.register_begin(b"user", "alex", user_verification="discouraged")
    status, output, _ = Terminal("register", "--origin", ORIGIN, "--options", "-", keys=[{}], stdin=json.dumps(options)).ends()
    assert status == 0 and site.server.register_complete(session, json.loads(output), is_registered=lambda _: False).credential.user == b"user"


def test_pins_at_a_terminal():
    terminal = Terminal("set-pin", keys=[{}])
    terminal.sees("New PIN: "), terminal.types(PIN + "\n"), terminal.sees("New PIN again: "), terminal.types(PIN + "\n")
    assert terminal.ends()[:2] == (0, "")
    terminal = Terminal("set-pin", keys=[{}])
    terminal.sees("New PIN: "), terminal.types(PIN + "\n"), terminal.sees("New PIN again: "), terminal.types(OTHER + "\n")
    status, output, seen = terminal.ends()
    assert (status, output) == (1, "") and "the two PINs differ" in seen
    terminal = Terminal("change-pin")
    terminal.sees("New PIN: "), terminal.types(OTHER + "\n"), terminal.sees("New PIN again: "), terminal.types(OTHER + "\n")
    terminal.sees("PIN of the key"), terminal.types(PIN + "\n")
    assert terminal.ends()[:2] == (0, "")


def test_ctrl_c_at_a_terminal():
    """While the key waits for a touch, and while the PIN is asked for."""
    terminal = Terminal("register", "--origin", ORIGIN, keys=[{"presence": None}])
    terminal.sees("Touch the key.")
    terminal.types("\x03")
    assert terminal.ends()[:2] == (130, "")
    terminal = Terminal("register", "--origin", ORIGIN)
    terminal.sees("PIN of the key")
    terminal.types("\x03")
    assert terminal.ends()[:2] == (130, "")
    terminal = Terminal("register", "--origin", ORIGIN)
    terminal.sees("PIN of the key")
    terminal.types("\x04")
    status, output, seen = terminal.ends()
    assert (status, output) == (1, "") and "cancelled" in seen


def test_list_and_information():
    two = [{"pin": PIN}, {}]
    assert Terminal("list", keys=two).ends()[:2] == (0, "/dev/hidraw0 1050:0407 a key\n/dev/hidraw1 1050:0407 a key\n")
    for place, is_set in enumerate((True, False)):
        status, output, _ = Terminal("--key", f"/dev/hidraw{place}", "information", keys=two).ends()
        assert status == 0 and json.loads(output)["options"]["clientPin"] is is_set


@pytest.mark.parametrize("words, how, status, text", [
    (["list"], {"keys": []}, 3, "no security key is there"),
    (["information"], {"keys": [{}, {}]}, 3, "name one by --key: /dev/hidraw0, /dev/hidraw1"),
    (["--key", "/dev/hidraw7", "information"], {}, 3, "no security key is at /dev/hidraw7"),
    (["register", "--origin", "https://other.example", "--rp-id", RP_ID], {}, 1, "rp_id_not_of_origin"),
    (["sign-in", "--origin", ORIGIN, "--verification", "discouraged"], {}, 1, "refused"),
    (["register", "--origin", ORIGIN, "--options", "/none"], {}, 2, "/none"),
    (["register", "--origin", ORIGIN, "--options", "-"], {"stdin": "[]"}, 2, "no object"),
    (["register", "--origin", ORIGIN, "--options", "-"], {"stdin": "{"}, 2, "-"),
    (["set-pin", "more"], {}, 2, "unrecognized"), ([], {}, 2, "COMMAND"), (["register"], {}, 2, "--origin"),
    (["information"], {"program": "/none"}, 4, "can't be started"), (["information"], {"program": "/bin/false"}, 4, "ended"),
    (["--help"], {}, 0, ""),
])
def test_statuses(words, how, status, text):
    found, output, seen = Terminal(*words, **how).ends()
    assert found == status and text in seen
    assert (output == "") is (status != 0) and (status != 0 or "130 Ctrl-C" in output)


def test_standard_output_that_is_full():
    command = [sys.executable, "-B", "-c", BEHIND, json.dumps([{}]), "list"]
    with open("/dev/full", "w") as full:
        done = subprocess.run(command, stdout=full, stderr=subprocess.PIPE, text=True)
    assert done.returncode == 5 and "standard output" in done.stderr and "Traceback" not in done.stderr


def test_the_module_runs():
    done = subprocess.run([sys.executable, "-B", "-m", "garvoeng.client", "--help"], capture_output=True, text=True,
                          env={**os.environ, "PYTHONPATH": str(Path(client_commands.__file__).parents[1])})
    assert done.returncode == 0 and "statuses: 0 done" in done.stdout and done.stderr == ""


# ---- keys of the machine

Descriptor = namedtuple("Descriptor", "path vid pid report_size_in report_size_out")


class Wire:
    """What python-fido2 gives for an open device, over a socket: its packets begin with the report's number."""

    def __init__(self):
        self.ours, self.far = socket.socketpair(socket.AF_UNIX, socket.SOCK_SEQPACKET)
        self.handle = self.ours.fileno()

    def write_packet(self, packet):
        self.ours.send(b"\0" + packet)

    def read_packet(self):
        data = self.ours.recv(64)
        if not data:
            raise OSError(5, "Input/output error")
        return data

    def close(self):
        self.ours.close()


def test_a_key_by_hid(monkeypatch):
    """Registers over a device of python-fido2's form; TimeoutError where it says nothing, OSError where it is gone."""
    wires = []
    found = [Descriptor("/dev/hidraw9", 1, 2, 64, 64), Descriptor("/dev/hidraw1", 3, 4, 64, 64), Descriptor("/dev/hidraw2", 5, 6, 32, 32)]
    fake = SimpleNamespace(list_descriptors=lambda: found, open_connection=lambda descriptor: wires.append(Wire()) or wires[-1])
    monkeypatch.setitem(sys.modules, "fido2.hid", fake)
    keys = security_keys()
    assert [(one.path, one.vendor, one.product, one.name) for one in keys] == [("/dev/hidraw1", 3, 4, None), ("/dev/hidraw9", 1, 2, None)]
    assert repr(keys[0]).startswith("<SecurityKey /dev/hidraw1 0003:0004")
    device = PinKey()
    write = SecurityKey.write

    def written(key, packet):
        write(key, packet)
        data = wires[-1].far.recv(65)
        assert len(data) == 65 and data[0] == 0
        for each in device.packet(data[1:]):
            wires[-1].far.send(each)

    monkeypatch.setattr(SecurityKey, "write", written)
    with keys[0] as key, client_of(key) as one:
        assert not Site(one).register(user_verification="discouraged").user_verified
        with pytest.raises(TimeoutError):
            key.read(0.01)
        wires[-1].far.close()
        with pytest.raises(OSError):
            key.read(1)
        monkeypatch.setattr(SecurityKey, "write", write)
        with pytest.raises(KeyLost, match="the key is gone"):
            one.information()
    assert len(wires) == 1 and wires[0].ours.fileno() == -1
    keys[0].close()


def test_a_key_that_may_not_be_opened(monkeypatch):
    def denied(descriptor):
        raise PermissionError(13, "Permission denied")

    monkeypatch.setitem(sys.modules, "fido2.hid", SimpleNamespace(list_descriptors=lambda: [Descriptor("/dev/hidraw0", 1, 2, 64, 64)], open_connection=denied))
    with client_of(security_keys()[0]) as one, pytest.raises(KeyLost, match="Permission denied"):
        one.information()


def test_python_fido2_of_this_machine():
    """What it is here: a list, whose keys are there or not."""
    pytest.importorskip("fido2.hid")
    assert all(isinstance(one, SecurityKey) and one.path.startswith("/dev/") for one in security_keys())


def test_python_fido2_that_is_missing(monkeypatch, capsys):
    monkeypatch.setitem(sys.modules, "fido2.hid", None)
    monkeypatch.setitem(sys.modules, "fido2", None)
    with pytest.raises(HidMissing, match="pip install fido2"):
        security_keys()
    assert client_commands.main(["list"]) == 3 and "pip install fido2" in capsys.readouterr().err
