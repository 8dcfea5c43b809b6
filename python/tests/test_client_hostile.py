"""`garvoeng.client` where the key lies, is pulled out or keeps silent, and where the program is none."""
import itertools
import os
import random
import signal
import sys
import threading
import time
import traceback

import pytest
from client_keys import ORIGIN, PIN, RP_ID, WRONG, Lines, Site, client_of, pin_hash, plugged
from pin_key import Cable, PinKey
from pin_key_parts import write
from test_client import User, refused

from garvoeng import BadInput, Refused, Server, client, client_host, client_program
from garvoeng.client import Client, ClientFailed, ClientRefused, KeyLost
from garvoeng.forms import to_text

KIND = {"protocols": (2, 1), "packed": True}


@pytest.fixture
def soon(monkeypatch):
    """What waits for a key that says nothing waits for a short time."""
    monkeypatch.setattr(client, "CANCEL_SECONDS", 0.03)


def ended(call):
    """How a call ends: accepted, or by what it is refused. No text has the PIN."""
    try:
        call()
    except (ClientRefused, KeyLost, ClientFailed, Refused, BadInput) as error:
        text = "".join(traceback.format_exception(type(error), error, error.__traceback__))
        assert PIN not in text and pin_hash(PIN).hex() not in text
        return type(error).__name__, getattr(error, "name", "")
    return "accepted", ""


class Turned:
    """Turns one byte of what the key sends."""

    def __init__(self):
        self.count, self.place, self.by = 0, None, 0

    def __call__(self, _, packet):
        number, self.count = self.count, self.count + 1
        if self.place is None or number != self.place // 64:
            return packet
        turned = bytearray(packet)
        turned[self.place % 64] ^= self.by
        return bytes(turned)

    def packets(self, call):
        """How many a call takes, and how long a call may take where one is wrong: some times as long."""
        self.count, self.place = 0, None
        began = time.monotonic()
        call()
        return self.count, max(0.05, 3 * (time.monotonic() - began))


def fresh(key):
    """The key after a power cycle, with all attempts at its PIN."""
    key.power_cycle()
    key.retries = 8
    key.heard.clear()


@pytest.mark.parametrize("act", ["register", "sign_in"])
@pytest.mark.parametrize("by", [0x01, 0xFF])
def test_each_byte_turned(act, by, soon, monkeypatch):
    """Each byte of each packet of a ceremony with a PIN: a refusal by name of the client's or of the site's, or what the key made, told
    as it is. No line out has the PIN, and the key is told it in no other way."""
    lines, turn = Lines(monkeypatch), Turned()
    key, cable, site = plugged(**KIND, change=turn)
    with site.client as one:
        made = site.register()
        call = (lambda: site.register(resident_key=False)) if act == "register" else (lambda: site.sign_in(allow=[made.credential.id]))
        count, one.timeout = turn.packets(call)
        found = {}
        for place in range(64 * count):
            turn.count, turn.place, turn.by = 0, place, by
            fresh(key)
            lines.kept.clear()
            how = ended(call)
            found.setdefault(how, []).append(place)
            lines.tell_no(PIN.encode(), pin_hash(PIN), *[protocol.token for protocol in key.protocols.values()])
            assert all(PIN.encode() not in message and pin_hash(PIN) not in message for message in key.heard)
        fresh(key)
        turn.place, one.timeout = None, 10.0
        assert ended(call) == ("accepted", "")
    assert {name for name, _ in found} <= {"accepted", "ClientRefused", "Refused"}, found.keys()
    assert {name for how, name in found if how == "ClientRefused"} >= {"timeout", "channel_dead", "not_readable"}, found.keys()
    kept = {one.id: one for one in key.credentials.values()}
    for row in site.table.values():
        assert row.user == kept[row.id].user["id"] and row.cose_key == write(kept[row.id].cose_key())
    # Which is what is not signed: padding, what getInfo tells beside what decides, and the token where another one is as good.
    assert len(found[("accepted", "")]) < 64 * count // 2


def test_each_packet_lost_or_twice(soon):
    """A packet that is lost, or comes twice, or in another's place."""
    lost, twice, zeros, last = (lambda p, _: None), (lambda p, _: (p, p)), (lambda p, _: bytes(64)), (lambda p, before: before)
    for change in (lost, twice, zeros, last):
        before = [bytes(64)]
        at = [None, 0]

        class Odd(Cable):
            def send(self, packets):
                for packet in packets:
                    number, at[1] = at[1], at[1] + 1
                    said = change(packet, before[0]) if number == at[0] else packet
                    before[0] = packet
                    for each in said if isinstance(said, tuple) else (said,) if said else ():
                        self.coming.put(each)

        key = PinKey(pin=PIN, **KIND)
        with client_of(Odd(key)) as one:
            site = Site(one)
            began = time.monotonic()
            site.register()
            count, at[1], one.timeout = at[1], 0, max(0.05, 3 * (time.monotonic() - began))
            for place in range(count):
                at[:] = [place, 0]
                key.power_cycle()
                assert ended(site.register)[0] in ("accepted", "ClientRefused")
            at[0], one.timeout = None, 10.0
            key.power_cycle()
            assert site.register().user_verified


def test_pulled_out(soon):
    """At each packet, in and out; plugged in again it goes on."""
    key, cable, site = plugged(**KIND)
    read, write = cable.read, cable.write
    with site.client:
        for name, call in (("read", read), ("write", write)):
            done, left = False, 0
            while not done:
                left += 1
                rest = [left]

                def once(value, call=call, rest=rest):
                    rest[0] -= 1
                    if rest[0] == 0:
                        cable.unplug()
                    return call(value)

                setattr(cable, name, once)
                done = ended(site.register) != ("KeyLost", "")
                cable.read, cable.write, cable.is_plugged = read, write, True
                key.power_cycle()
                while not cable.coming.empty():
                    cable.coming.get()
            assert left > 10
        assert site.register().user_verified


def test_rubbish(soon):
    """A key that sends anything at all."""
    chance = random.Random(7)

    class Rubbish:
        def __init__(self, sends):
            self.sends, self.channel = sends, b"\xff" * 4

        def write(self, packet):
            self.channel = packet[:4]

        def read(self, timeout):
            return self.sends(self.channel)

    def headed(channel):
        return channel + bytes([chance.choice((0x90, 0xBB, 0xBF, 0x86, 0, 1))]) + bytes(chance.randrange(3) for _ in range(3)) + chance.randbytes(56)

    for sends, name in ((lambda channel: chance.randbytes(64), "ClientRefused"), (headed, "ClientRefused"), (lambda channel: bytes(64), "ClientRefused"),
                        (lambda channel: b"", "KeyLost"), (lambda channel: bytes(63), "KeyLost"), (lambda channel: bytes(65), "KeyLost")):
        with client_of(Rubbish(sends), timeout=0.2) as one:
            began = time.monotonic()
            assert ended(lambda: one.information())[0] == name
            assert time.monotonic() - began < 20


def test_rubbish_in_a_channel(soon):
    """Replies of a key that opened a channel: no CBOR, CBOR of another kind, statuses, and errors of the device."""
    chance = random.Random(8)
    replies = [b"", b"\0", b"\0\xa0", b"\0\xa1\x01\x80", b"\0\xff", b"\0" + b"\x9f" * 100, b"\0" + b"\xa1\x01" * 200, b"\0\x81" * 50,
               *[b"\0" + chance.randbytes(chance.randrange(200)) for _ in range(20)],
               *[bytes([status]) for status in (1, 0x11, 0x21, 0x2D, 0x2E, 0x31, 0x32, 0x33, 0x34, 0x36, 0x3C, 0x3F, 0x7F, 0xFF)]]
    told, names = [b""], set()

    class Lies(PinKey):
        def ended(self, status, content=b""):
            if len(self.heard) > self.lies_from:
                channel, self.working, self.running = self.working, None, None
                return self.packets(channel, 0x10, told[0])
            return super().ended(status, content)

    for lies_from in range(5):
        key = Lies(pin=PIN)
        key.lies_from = lies_from
        with client_of(Cable(key), timeout=0.5) as one:
            site = Site(one)
            for told[0] in replies:
                key.heard.clear()
                key.power_cycle()
                how, name = ended(site.register)
                assert how == "ClientRefused", (lies_from, told[0], how, name)
                names.add(name)
    assert "not_readable" in names and "pin_blocked" in names


def test_errors_of_the_device():
    """By their codes; the first is told apart, as of a key without CTAP 2."""
    for code in (1, 2, 3, 5, 6, 0x0B, 0x7F):
        key = PinKey(pin=PIN)
        key.asked = lambda call, key=key, code=code: key.error(key.working, code)
        with client_of(Cable(key)) as one:
            assert refused(one.information)[0] == ("u2f_only" if code == 1 else "device_error")


def test_a_point_that_is_none():
    """Of the curve: refused by name, before anything is computed of the PIN."""
    key, _, site = plugged()
    for protocol in key.protocols.values():
        protocol.public_key = lambda: {1: 2, 3: -25, -1: 1, -2: bytes(32), -3: b"\1" * 32}
    with site.client:
        assert refused(site.register)[0] == "bad_point" and key.retries == 8


def test_a_key_that_keeps_silent(soon):
    key, cable, site = plugged(how={"timeout": 0.2})
    cable.change = lambda number, packet: None
    with site.client as one:
        for call in (one.information, site.register, lambda: one.set_pin(PIN)):
            assert refused(call)[0] == "timeout"


def test_ctrl_c(soon):
    """The key is told to give up, wherever it comes, and the next call is answered."""
    key, cable, site = plugged()
    read = cable.read

    def interrupted(timeout):
        if key.running is not None:
            raise KeyboardInterrupt
        return read(timeout)

    key.presence = None
    with site.client as one:
        cable.read = interrupted
        with pytest.raises(KeyboardInterrupt):
            site.register()
        cable.read = read
        assert key.running is None and key.working is None
        key.presence = True
        assert site.register().user_verified
        one._touch = lambda: signal.raise_signal(signal.SIGINT)
        key.presence = None
        # Where the tests run in the background SIGINT is ignored.
        before = signal.signal(signal.SIGINT, signal.default_int_handler)
        with pytest.raises(KeyboardInterrupt):
            site.sign_in()
        signal.signal(signal.SIGINT, before)
        assert key.running is None
        one._touch, key.presence = None, True
        assert site.sign_in().user_verified


@pytest.mark.parametrize("name", ["pin", "touch", "choose"])
def test_what_is_called_fails(name):
    """What the caller's own functions raise is raised, and the key gives up."""
    class Own(Exception):
        pass

    def fails(*_):
        raise Own

    key, cable, site = plugged()
    with site.client:
        site.register(b"1"), site.register(b"2")
    site.client = client_of(cable, **{name: fails})
    key.presence = None if name == "touch" else True
    with site.client, pytest.raises(Own):
        site.sign_in()
    assert key.running is None


# ---- the program

ANSWERS = {
    "no JSON": "print('{', flush=True)", "no state": "print('{\"id\":1}', flush=True)", "another id": "print('{\"id\":7,\"state\":\"waits\"}', flush=True)",
    "a list": "print('[]', flush=True)", "a number": "print('1', flush=True)", "half a line": "sys.stdout.write('{\"id\":1')",
    "two lines": "print('{\"id\":1,\"state\":\"waits\"}\\n{}', flush=True)", "nothing": "pass", "no text": "sys.stdout.buffer.write(b'\\xff\\xfe\\n')",
    "another state": "print('{\"id\":1,\"send\":[],\"state\":\"none\"}', flush=True)", "another act's end": "print('{\"id\":1,\"send\":[],\"state\":\"pin_set\"}', flush=True)",
    "packets of 63 bytes": f"print('{{\"id\":1,\"send\":[\"{to_text(bytes(63))}\"],\"state\":\"waits\"}}', flush=True)",
    "packets that are none": "print('{\"id\":1,\"send\":[7],\"state\":\"waits\"}', flush=True)",
    "an object of packets": "print('{\"id\":1,\"send\":{},\"state\":\"waits\"}', flush=True)",
    "an ask of nothing": "print('{\"id\":1,\"send\":[],\"state\":\"asks\"}', flush=True)",
    "an ask of another kind": "print('{\"id\":1,\"send\":[],\"state\":\"asks\",\"operation\":\"open\",\"key\":\"\",\"iv\":\"\",\"text\":\"\"}', flush=True)",
    "an ask of another size": "print('{\"id\":1,\"send\":[],\"state\":\"asks\",\"operation\":\"encrypt\",\"key\":\"AA\",\"iv\":\"\",\"text\":\"\"}', flush=True)",
    "deep": "print('[' * 100000, flush=True)", "long": "sys.stdout.write('1' * 3000000); sys.stdout.flush()",
    "no credentials": "print('{\"id\":1,\"send\":[],\"state\":\"choose\"}', flush=True)", "no response": "print('{\"id\":1,\"send\":[],\"state\":\"registered\"}', flush=True)",
}


def script(path, body):
    path.write_text(f"#!{sys.executable}\nimport sys, time\nline = sys.stdin.readline()\n{body}\n")
    path.chmod(0o755)
    return str(path)


@pytest.mark.parametrize("what", ANSWERS)
def test_a_program_that_is_none(what, tmp_path, soon):
    one = Client(Cable(PinKey(pin=PIN)), ORIGIN, program=script(tmp_path / "program", ANSWERS[what]), pin=lambda *_: PIN, choose=lambda *_: 0, timeout=1.0)
    options, _ = Server(RP_ID, [ORIGIN]).register_begin(b"user", "name")
    with one, pytest.raises(ClientFailed) as error:
        one.create(options)
    assert PIN not in str(error.value)


def test_a_program_that_can_not_be_started(tmp_path):
    for program in (str(tmp_path / "none"), str(tmp_path), [str(tmp_path / "none"), "client"]):
        with pytest.raises(ClientFailed, match="can't be started"):
            Client(Cable(PinKey()), ORIGIN, program=program).information()


def test_a_program_that_says_why(tmp_path):
    one = Client(Cable(PinKey()), ORIGIN, program=script(tmp_path / "program", "print('out of memory', file=sys.stderr); sys.exit(3)"))
    with one, pytest.raises(ClientFailed, match="ended before it answered: out of memory"):
        one.information()


def test_a_program_that_keeps_silent(tmp_path, monkeypatch):
    monkeypatch.setattr(client_program, "ANSWER_SECONDS", 0.2)
    one = Client(Cable(PinKey()), ORIGIN, program=script(tmp_path / "program", "time.sleep(60)"))
    with one, pytest.raises(ClientFailed, match="did not answer in 0.2 seconds"):
        one.information()


def doing_at(read, place, act):
    """A cable's `read` by which this is done once the packet at this place, from 1, has come."""
    places = itertools.count(1)

    def reading(timeout):
        packet = read(timeout)
        if next(places) == place:
            act()
        return packet
    return reading


def test_a_program_that_is_killed(soon):
    """At each line: named, the key gives up, and the next call starts it again."""
    key, cable, site = plugged(**KIND)
    read = cable.read
    with site.client as one:
        site.register()
        left = 0
        while True:
            left += 1
            cable.read = doing_at(read, left, lambda: (one._program.process.kill(), one._program.process.wait()))
            if ended(site.register) != ("ClientFailed", ""):
                break
            assert key.running is None
        assert left > 10
        cable.read = read
        assert site.register().user_verified


def test_a_program_that_is_killed_while_the_key_waits(soon):
    key, cable, site = plugged()
    key.presence = None
    with site.client as one:
        user = User(key, lambda: (one._program.process.kill(), one._program.process.wait(), one.cancel()))
        assert ended(site.register) in (("ClientFailed", ""), ("ClientRefused", "cancelled"))
        user.join()
        assert key.running is None
        key.presence = True
        assert site.register().user_verified


def test_programs_end_with_their_clients():
    one = client_of(Cable(PinKey(pin=PIN)))
    with one:
        one.information()
        process = one._program.process
        assert process.poll() is None
    assert process.poll() == 0
    assert one.information()["versions"] and one._program.process.poll() is None
    one.close()
    one.close()


def test_forms():
    """Errors go through pickle, and tell what is there."""
    import pickle
    error = pickle.loads(pickle.dumps(ClientRefused("status", "the key refused", 0x19)))
    assert (error.name, error.text, error.status, str(error)) == ("status", "the key refused", 0x19, "status: the key refused")
    assert PIN not in repr(Client(Cable(PinKey()), ORIGIN, pin=lambda *_: PIN))


def test_mathematics():
    """Vectors of the standards: RFC 4231 case 2, SP 800-38A F.2.5, RFC 5869 A.1's form against HMAC."""
    computed = client_host.computed
    assert computed("authenticate", b"Jefe", b"", b"what do ya want for nothing?").hex() == "5bdcc146bf60754e6a042426089575c75a003f089d2739839dec58b964ec3843"
    key = bytes.fromhex("603deb1015ca71be2b73aef0857d77811f352c073b6108d72d9810a30914dff4")
    iv, text = bytes(range(16)), bytes.fromhex("6bc1bee22e409f96e93d7e117393172a")
    assert computed("encrypt", key, iv, text).hex() == "f58c4c04d6e5f1ba779eabfb5f7bfbd6" and computed("decrypt", key, iv, computed("encrypt", key, iv, text)) == text
    sealed = computed("seal", key, b"", text)
    assert computed("decrypt", key, sealed[:16], sealed[16:]) == text and computed("seal", key, b"", text) != sealed
    extracted = computed("authenticate", bytes(32), b"", b"secret")
    assert computed("derive", b"secret", b"", b"info") == computed("authenticate", extracted, b"", b"info\x01")
    for operation, sizes in (("encrypt", (31, 16, 16)), ("encrypt", (32, 15, 16)), ("decrypt", (32, 16, 15)), ("agree", (0, 0, 63))):
        with pytest.raises(ValueError):
            computed(operation, *map(bytes, sizes))
    with pytest.raises(client_host.BadPoint):
        computed("agree", b"", b"", bytes(64))


def test_threads_of_cancel():
    """Cancels at any moment: the call ends as cancelled or with its answer, and the key is left free."""
    key, _, site = plugged()
    ends = set()
    with site.client as one:
        for place in range(60):
            timer = threading.Timer(place * 0.0007, one.cancel)
            timer.start()
            ends.add(ended(site.register))
            timer.join()
            assert key.running is None
        assert site.register().user_verified
    assert ends <= {("accepted", ""), ("ClientRefused", "cancelled")} and len(ends) == 2


def test_cancelled_between_a_packet_and_its_line():
    """After each packet that the key sent, before the program is told it."""
    key, cable, site = plugged()
    read, place = cable.read, 0
    with site.client as one:
        how = None
        while how != ("accepted", ""):
            place += 1
            cable.read = doing_at(read, place, one.cancel)
            how = ended(site.register)
            assert how in (("accepted", ""), ("ClientRefused", "cancelled")) and key.running is None
        assert place > 5 and site.register().user_verified


def test_wrong_pins_stand_nowhere(monkeypatch, caplog):
    lines = Lines(monkeypatch)
    _, _, site = plugged(how={"pin": lambda retries, wrong: WRONG + "secret"})
    with site.client:
        with pytest.raises(ClientRefused) as error:
            site.register()
    text = "".join(traceback.format_exception(type(error.value), error.value, error.value.__traceback__))
    assert "0000secret" not in text and "0000secret" not in caplog.text
    lines.tell_no(b"0000secret", pin_hash("0000secret"))
    assert os.environ.get("PIN") is None
