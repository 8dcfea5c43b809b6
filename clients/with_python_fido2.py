"""python-fido2 against `softkey`: ./with_python_fido2.py PROGRAM [WORDS of the program ..] [many=COUNT]"""
import hashlib
import os
import sys
import threading
import time
from collections import Counter, defaultdict

from cryptography.exceptions import InvalidSignature
from fido2.cose import CoseKey
from fido2.ctap import CtapError
from fido2.ctap2 import CTAP2
from fido2.hid import CTAPHID, CtapHidDevice
from fido2.hid.base import HidDescriptor

from softkey_host import EDDSA, ES256, Softkey, times
from webauthn_acts import webauthn_acts

RP = {"id": "login.example", "name": "Example"}


class Connection:
    """What python-fido2 takes for a HID device."""

    def __init__(self, key):
        self.key = key

    def write_packet(self, packet):
        self.key.packet(bytes(packet))

    def read_packet(self):
        while not self.key.packets:
            self.key.line("wait")
            time.sleep(0.01)
        return self.key.packets.popleft()

    def close(self):
        pass


class Client:
    """A client by python-fido2, which counts what it did."""

    def __init__(self, program, words):
        self.key = Softkey(program, *words)
        self.done = Counter()
        self.seconds = defaultdict(list)
        self.open()
        self.uv = "no-uv" not in words
        self.format = "packed" if "self-attestation" in words else "none"
        assert self.ctap.info.options["uv"] == self.uv

    def open(self):
        """Opens a channel of the device."""
        self.device = CtapHidDevice(HidDescriptor("softkey", 0, 0, 64, 64), Connection(self.key))
        self.ctap = CTAP2(self.device)

    def counted(self, what, begun):
        """A ceremony is done, which began then."""
        self.done[what] += 1
        self.seconds[what].append(time.perf_counter() - begun)

    def hash(self):
        return hashlib.sha256(os.urandom(16)).digest()

    def register(self, alg, user, resident, uv=None, exclude=None):
        options = {"rk": resident}
        if uv is not None:
            options["uv"] = uv
        begun = time.perf_counter()
        client_data_hash = self.hash()
        made = self.ctap.make_credential(
            client_data_hash, RP, {"id": user, "name": "user"}, [{"type": "public-key", "alg": alg}], exclude, options=options
        )
        data = made.auth_data.credential_data
        assert data.public_key[3] == alg and made.auth_data.counter == 0
        assert made.auth_data.is_user_present() and made.auth_data.is_user_verified() == bool(uv)
        assert made.fmt == self.format
        if made.fmt == "packed":
            data.public_key.verify(bytes(made.auth_data) + client_data_hash, made.att_statement["sig"])
            self.done["attestation verified"] += 1
        self.counted(f"registered {alg}, {'resident' if resident else 'not resident'}, uv {uv}", begun)
        return data

    def sign_in(self, credentials, allow, uv=None):
        """All assertions of one sign-in, each with its signature verified by this client."""
        begun = time.perf_counter()
        client_data_hash = self.hash()
        listed = [{"type": "public-key", "id": c.credential_id} for c in credentials] if allow else None
        options = {"uv": uv} if uv is not None else None
        got = self.ctap.get_assertions(RP["id"], client_data_hash, listed, options=options)
        by_id = {c.credential_id: c for c in credentials}
        for one in got:
            by_id[one.credential["id"]].public_key.verify(bytes(one.auth_data) + client_data_hash, one.signature)
            assert one.auth_data.is_user_present() and one.auth_data.is_user_verified() == bool(uv)
        self.counted(f"signed in {'with' if allow else 'without'} a list, uv {uv}", begun)
        self.done["assertions verified"] += len(got)
        return got

    def refused(self, status, what, call, *arguments, **named):
        try:
            call(*arguments, **named)
        except CtapError as error:
            assert error.code == status, (what, error.code)
            self.done[what] += 1
            return
        raise AssertionError(what)


def acts(client):
    key = client.key
    made = []
    verifications = (None, False, True) if client.uv else (None, False)
    for alg in (ES256, EDDSA):
        for resident in (False, True):
            for uv in verifications:
                made.append(client.register(alg, os.urandom(16), resident, uv))
    residents = [c for i, c in enumerate(made) if i // len(verifications) % 2 == 1]
    for uv in verifications:
        for one in made:
            assert len(client.sign_in([one], True, uv)) == 1
        got = client.sign_in(residents, False, uv)
        assert len(got) == len(residents) and got[0].number_of_credentials == len(residents)
    if not client.uv:
        client.refused(0x2C, "verification not configured", client.register, ES256, b"x", False, True)
    payload = os.urandom(7609)
    assert client.device.call(CTAPHID.PING, payload) == payload
    client.done["PING of 7,609 bytes"] += 1
    excluded = [{"type": "public-key", "id": made[0].credential_id}]
    client.refused(0x19, "excluded credential", client.register, ES256, b"y", False, exclude=excluded)
    key.consent = (False, False)
    client.refused(0x27, "declined registration", client.register, ES256, b"z", False)
    client.refused(0x27, "declined sign-in", client.sign_in, made[:1], True)
    key.consent = None
    cancel = threading.Event()
    cancel.set()
    client.refused(0x2D, "cancelled", client.ctap.make_credential, client.hash(), RP, {"id": b"c", "name": "c"},
                   [{"type": "public-key", "alg": ES256}], event=cancel)
    assert ["cancelled"] in key.told
    key.consent = (True, True)
    timed_out(client)
    webauthn_acts(client)
    interrupted(client, made[0])
    restarted(client, made, residents)


def timed_out(client):
    """A message that stays without its end is given up, and the next one is answered."""
    channel = client.device._channel_id.to_bytes(4, "big")
    client.key.packet((channel + bytes([0x81, 0, 100])).ljust(64, b"\0"))
    client.key.line("expire")
    packet = client.key.packets.popleft()
    assert packet[:8] == channel + bytes([0xBF, 0, 1, 5])
    client.done["timed out"] += 1


def interrupted(client, credential):
    """A signature that comes after the request's end is refused, and the counter has not grown."""
    key = client.key
    before = client.sign_in([credential], True)[0].auth_data.counter
    key.consent = None
    channel = client.device._channel_id.to_bytes(4, "big")
    from fido2 import cbor
    message = b"\x02" + cbor.encode({1: RP["id"], 2: client.hash(), 3: [{"type": "public-key", "id": credential.credential_id}]})
    header, seq = channel + bytes([0x90]) + len(message).to_bytes(2, "big"), 0
    answer = []
    while message:
        body, message = message[: 64 - len(header)], message[64 - len(header):]
        answer = key.packet((header + body).ljust(64, b"\0"))
        header, seq = channel + bytes([seq]), seq + 1
    assert answer[-1][0] == "waits"
    asked = key.line("decide 1 0 " + " ".join(["00" * 32] * 5))
    assert asked[0][0] == "sign"
    assert key.line("packet " + (channel + bytes([0x91])).ljust(64, b"\0").hex())[0] == ["cancelled"]
    assert key.line("signature " + "00" * 64)[0][0] == "error"
    key.packets.clear()
    key.consent = (True, True)
    assert client.sign_in([credential], True)[0].auth_data.counter == before + 1
    client.done["signature after a cancel refused"] += 1


def restarted(client, made, residents):
    """Over a restart each credential signs in, its counter one higher, and the resident ones are found."""
    before = [client.sign_in([one], True)[0].auth_data.counter for one in made]
    client.key.restart()
    client.open()
    assert [client.sign_in([one], True)[0].auth_data.counter for one in made] == [counter + 1 for counter in before]
    assert len(client.sign_in(residents, False)) == len(residents)
    client.refused(0x19, "excluded credential after a restart", client.register, ES256, b"y", False,
                   exclude=[{"type": "public-key", "id": made[0].credential_id}])
    client.done["restart between"] += 1


def full(client):
    """256 credentials, and no room for another; a reset makes room."""
    client.ctap.reset()
    client.done["reset"] += 1
    for number in range(256):
        client.register(ES256, number.to_bytes(2, "big"), False)
    client.refused(0x28, "key full", client.register, ES256, b"one more", False)
    client.ctap.reset()
    client.done["reset"] += 1
    client.refused(0x2E, "no credential after a reset", client.ctap.get_assertion, RP["id"], client.hash())


def many(client, count):
    """Sign-ins in a row; the counter has grown by one at each."""
    one = client.register(EDDSA, b"many", False)
    begun = time.perf_counter()
    for number in range(count):
        assert client.sign_in([one], True)[0].auth_data.counter == number + 1
    return (time.perf_counter() - begun) / count


def main():
    words = [word for word in sys.argv[2:] if not word.startswith("many=")]
    count = next((int(word[5:]) for word in sys.argv[2:] if word.startswith("many=")), 1000)
    client = Client(sys.argv[1], words)
    try:
        acts(client)
        full(client)
        before, _ = client.key.memory()
        one = many(client, count)
    except InvalidSignature:
        sys.exit("a signature is not valid")
    now, most = client.key.memory()
    assert client.key.close() == 0
    configuration = " ".join(words) or "uv"
    for what, count in sorted(client.done.items()):
        each = f" | {times(client.seconds[what])}" if what in client.seconds else ""
        print(f"python-fido2 | {configuration} | {what} | {count}{each}")
    client.key.figures("python-fido2", configuration)
    print(f"python-fido2 | {configuration} | a sign-in in a row | {one * 1000:.2f} ms")
    print(f"python-fido2 | {configuration} | memory of the process before these, after them, and the most | {before} kB | {now} kB | {most} kB")


main()
