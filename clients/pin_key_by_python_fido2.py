#!/usr/bin/python3
"""The key of `pin_key.py`, or `softkey pin`, judged by python-fido2's client: PINs, tokens and pinUvAuthParam by both protocols, statuses,
and CTAPHID: ./pin_key_by_python_fido2.py [PROGRAM]. The last line is 'N passed, M failed'; the status is 0 where nothing failed."""
import hashlib
import os
import struct
import sys

from fido2 import cbor
from fido2.client import Fido2Client
from fido2.ctap import CtapError
from fido2.ctap2 import Ctap2
from fido2.ctap2.pin import ClientPin, PinProtocolV1, PinProtocolV2
from fido2.hid import CTAPHID, CtapHidDevice
from fido2.hid.base import HidDescriptor
from fido2.server import Fido2Server

import pin_key_parts as parts
from pin_key import Cable, PinKey
from softkey_pins import SoftPinKey

RP_ID, ORIGIN = "login.example", "https://login.example"
RP, USER, ALG = {"id": RP_ID, "name": "Example"}, {"id": b"user", "name": "alex", "displayName": "Alex"}, [{"type": "public-key", "alg": -7}]
PIN, OTHER = "1234", "séame ouvre-toi"
PROTOCOLS = {1: PinProtocolV1, 2: PinProtocolV2}
MC, GA = ClientPin.PERMISSION.MAKE_CREDENTIAL, ClientPin.PERMISSION.GET_ASSERTION
PIN_INVALID, PIN_BLOCKED, PIN_AUTH_INVALID, PIN_AUTH_BLOCKED = 0x31, 0x32, 0x33, 0x34


class Connection:
    """What python-fido2 takes for a HID device."""

    def __init__(self, key):
        self.cable = Cable(key)

    def write_packet(self, packet):
        self.cable.write(packet)

    def read_packet(self):
        return self.cable.read(5)

    def close(self):
        pass


class Client:
    """python-fido2's client of a key, by one protocol."""

    # softkey, where it is the key
    program = None

    def __init__(self, number, pin=None, **how):
        self.number = number
        self.key = SoftPinKey(self.program, how.get("packed", False)) if self.program else PinKey(pin=pin, **how)
        self.connect()
        if self.program and pin is not None:
            self.pin.set_pin(pin)

    def connect(self):
        self.device = CtapHidDevice(HidDescriptor("key", 0, 0, 64, 64), Connection(self.key))
        self.ctap = Ctap2(self.device)
        self.protocol = PROTOCOLS[self.number]()
        self.pin = ClientPin(self.ctap, self.protocol)

    def cycle(self):
        self.key.power_cycle()
        self.connect()

    def param(self, token, hash):
        return self.protocol.authenticate(token, hash)

    def register(self, token=None, rp=RP, **options):
        hash = hashlib.sha256(os.urandom(8)).digest()
        by = (self.param(token, hash), self.number) if token else (None, None)
        made = self.ctap.make_credential(hash, rp, USER, ALG, None, None, options or None, *by)
        assert made.auth_data.is_user_verified() == bool(token or options.get("uv"))
        return made.auth_data.credential_data

    def sign_in(self, data, token=None, listed=True, **options):
        hash = hashlib.sha256(os.urandom(8)).digest()
        by = (self.param(token, hash), self.number) if token else (None, None)
        allow = [{"type": "public-key", "id": data.credential_id}] if listed else None
        got = self.ctap.get_assertions(RP_ID, hash, allow, None, options or None, *by)
        for one in got:
            assert one.auth_data.is_user_verified() == bool(token or options.get("uv"))
        got[0].verify(hash, data.public_key)
        return got


def refused(call, *arguments, **named):
    """The status with which a call is refused."""
    try:
        call(*arguments, **named)
    except CtapError as error:
        return int(error.code)
    return None


def pins(number):
    """Set, changed, told, and taken."""
    client = Client(number)
    assert client.ctap.info.options["clientPin"] is False
    assert refused(client.pin.get_pin_token, PIN, MC, RP_ID) == 0x35 and refused(client.pin.change_pin, PIN, OTHER) == 0x35
    client.register()
    client.pin.set_pin(PIN)
    assert client.ctap.get_info().options["clientPin"] is True
    assert refused(client.pin.set_pin, OTHER) == PIN_AUTH_INVALID
    client.pin.change_pin(PIN, OTHER)
    assert refused(client.pin.get_pin_token, PIN, MC, RP_ID) == PIN_INVALID and client.pin.get_pin_retries() == (7, False)
    assert len(client.pin.get_pin_token(OTHER, MC, RP_ID)) == 32 and client.pin.get_pin_retries() == (8, False)
    assert refused(client.pin.change_pin, PIN, PIN) == PIN_INVALID and client.pin.get_pin_retries() == (7, False)


def policies(number):
    client = Client(number, min_pin_length=6)
    assert client.ctap.info.min_pin_length == 6
    assert refused(client.pin.set_pin, "12345") == 0x37 and refused(client.pin.set_pin, "é" * 5) == 0x37
    assert refused(client.pin.set_pin, "1" * 64) == 0x37 and refused(client.pin.set_pin, "1" * 65) == 2
    client.pin.set_pin("é" * 6)
    assert refused(client.pin.change_pin, "é" * 6, "12345") == 0x37 and client.pin.get_pin_retries()[0] == 8


def wrong_pins(number):
    """Three in a row need a power cycle; at the last retry the PIN is blocked, the right one too."""
    client = Client(number, PIN)
    said = []
    for attempt in range(8):
        said.append(refused(client.pin.get_pin_token, "0000", MC, RP_ID))
        if said[-1] == PIN_AUTH_BLOCKED:
            left = 7 - attempt
            assert client.pin.get_pin_retries() == (left, True)
            assert refused(client.pin.get_pin_token, PIN, MC, RP_ID) == PIN_AUTH_BLOCKED and client.pin.get_pin_retries() == (left, True)
            client.cycle()
            assert client.pin.get_pin_retries() == (left, False)
    assert said == [0x31, 0x31, 0x34, 0x31, 0x31, 0x34, 0x31, 0x32], said
    assert client.pin.get_pin_retries()[0] == 0
    for cycle in (False, True):
        if cycle:
            client.cycle()
        assert refused(client.pin.get_pin_token, PIN, MC, RP_ID) == refused(client.pin.change_pin, PIN, OTHER) == PIN_BLOCKED


def counted_first(number):
    """A right PIN sets the count back; the key pair is new after a wrong one, and not after a right one."""
    client = Client(number, PIN)
    agreed = lambda: client.ctap.client_pin(number, 2)[1]
    first = agreed()
    client.pin.get_pin_token(PIN, MC, RP_ID)
    assert agreed() == first
    for _ in range(2):
        assert refused(client.pin.get_pin_token, "0000", MC, RP_ID) == PIN_INVALID
    assert agreed() != first
    client.pin.get_pin_token(PIN, MC, RP_ID)
    for _ in range(2):
        assert refused(client.pin.get_pin_token, "0000", MC, RP_ID) == PIN_INVALID


def ceremonies(number):
    """By a token; each token serves one presence, its permission, its rp id, and ends with the next one and with the power."""
    client = Client(number, PIN)
    token = lambda permissions=MC, rp_id=RP_ID: client.pin.get_pin_token(PIN, permissions, rp_id)
    assert refused(client.register) == 0x36
    made = client.register(token(), rk=True)
    got = client.sign_in(made, token(GA))
    assert got[0].auth_data.counter == 1 and got[0].user == {"id": b"user"}
    assert client.sign_in(made, token(GA), listed=False)[0].credential["id"] == made.credential_id
    assert client.sign_in(made) and client.sign_in(made, listed=False)
    assert refused(client.register, token(GA)) == PIN_AUTH_INVALID and refused(client.sign_in, made, token(MC)) == PIN_AUTH_INVALID
    assert refused(client.register, token(MC, "other.example")) == PIN_AUTH_INVALID
    assert refused(client.register, os.urandom(32)) == PIN_AUTH_INVALID
    used = token(MC | GA)
    client.register(used)
    assert refused(client.sign_in, made, used) == PIN_AUTH_INVALID
    older, newer = token(), token()
    assert refused(client.register, older) == PIN_AUTH_INVALID
    client.register(newer)
    kept = token()
    client.cycle()
    assert refused(client.register, kept) == PIN_AUTH_INVALID
    kept = token()
    client.pin.change_pin(PIN, OTHER)
    assert refused(client.register, kept) == PIN_AUTH_INVALID
    for permissions, status in ((0, 2), (4, 0x40), (MC | 8, 0x40)):
        assert refused(client.pin.get_pin_token, OTHER, permissions, RP_ID) == status
    assert refused(client.pin.get_pin_token, OTHER, MC) == 0x14


def other_protocol(number):
    """A token of the one is none of the other."""
    client = Client(number, PIN)
    token = client.pin.get_pin_token(PIN, MC, RP_ID)
    hash = bytes(32)
    param = PROTOCOLS[3 - number]().authenticate(token, hash)
    assert refused(client.ctap.make_credential, hash, RP, USER, ALG, None, None, None, param, 3 - number) == PIN_AUTH_INVALID
    assert refused(client.ctap.make_credential, hash, RP, USER, ALG, None, None, None, param) == 0x14


def one_protocol(number):
    """A key has one of them."""
    client = Client(number, PIN, protocols=(number,))
    assert client.ctap.info.pin_uv_protocols == [number]
    assert refused(client.ctap.client_pin, 3 - number, 2) == 2
    client.register(client.pin.get_pin_token(PIN, MC, RP_ID))


def older_key(number):
    """Without pinUvAuthToken: getPinToken, whose token is for both commands and any rp id, until the power ends."""
    client = Client(number, PIN, token=None, versions=("FIDO_2_0",))
    token = client.pin.get_pin_token(PIN, MC, RP_ID)
    made = client.register(token)
    client.sign_in(made, token)
    assert refused(client.ctap.client_pin, number, 9) == 0x3E
    client.cycle()
    assert refused(client.sign_in, made, token) == PIN_AUTH_INVALID


def built_in(number):
    client = Client(number, uv=True)
    made = client.register(client.pin.get_uv_token(MC, RP_ID))
    client.sign_in(made, client.pin.get_uv_token(GA, RP_ID))
    client.sign_in(client.register(uv=True), uv=True)
    client.key.finger = False
    assert refused(client.pin.get_uv_token, MC, RP_ID) == 0x3F and client.pin.get_uv_retries()[0] == 2
    assert refused(client.register, uv=True) == 0x27
    assert refused(client.pin.get_uv_token, MC, RP_ID) == 0x3C and client.pin.get_uv_retries()[0] == 0
    client.key.finger = True
    assert refused(client.pin.get_uv_token, MC, RP_ID) == 0x3C
    assert refused(Client(number, uv=False).pin.get_uv_token, MC, RP_ID) == 0x30


def by_fido2_client(number):
    """python-fido2's client and server, which verifies challenge, origin, flags and signature."""
    client = Client(number, PIN, protocols=(number,), packed=True)
    browser, server = Fido2Client(client.device, ORIGIN), Fido2Server(RP)
    for alg in (-7, -8):
        options, state = server.register_begin(USER, resident_key=True, user_verification="required")
        options["publicKey"]["pubKeyCredParams"] = [{"type": "public-key", "alg": alg}]
        made = browser.make_credential(options["publicKey"], pin=PIN)
        data = server.register_complete(state, made.client_data, made.attestation_object)
        data.credential_data.public_key.verify(bytes(data) + made.client_data.hash, made.attestation_object.att_statement["sig"])
        options, state = server.authenticate_begin([data.credential_data], user_verification="required")
        got = browser.get_assertion(options["publicKey"], pin=PIN).get_response(0)
        server.authenticate_complete(state, [data.credential_data], got.credential_id, got.client_data, got.authenticator_data, got.signature)


def several(number):
    """The newest first, names where the user is verified; another command ends it."""
    client = Client(number, PIN)
    users = [{"id": bytes([place]), "name": f"user {place}"} for place in range(3)]
    hash = bytes(32)
    for user in users:
        token = client.pin.get_pin_token(PIN, MC, RP_ID)
        client.ctap.make_credential(hash, RP, user, ALG, None, None, {"rk": True}, client.param(token, hash), number)
    token = client.pin.get_pin_token(PIN, GA, RP_ID)
    got = client.ctap.get_assertions(RP_ID, hash, None, None, None, client.param(token, hash), number)
    assert got[0].number_of_credentials == 3 and [one.user for one in got] == users[::-1]
    assert [one.user for one in client.ctap.get_assertions(RP_ID, hash)] == [{"id": user["id"]} for user in users[::-1]]
    assert refused(client.ctap.get_next_assertion) == 0x30
    client.ctap.get_assertion(RP_ID, hash)
    client.ctap.get_info()
    assert refused(client.ctap.get_next_assertion) == 0x30


def protection(number):
    """credProtect: a credential that wants verification is not found without."""
    client = Client(number, PIN)
    hash, made = bytes(32), {}
    for level in (1, 2, 3):
        token = client.pin.get_pin_token(PIN, MC, RP_ID)
        user = {"id": bytes([level]), "name": "name"}
        wanted = {"credProtect": level, "hmac-secret": True}
        one = client.ctap.make_credential(hash, RP, user, ALG, None, wanted, {"rk": True}, client.param(token, hash), number)
        assert one.auth_data.extensions == wanted
        made[level] = one.auth_data.credential_data
    assert len(client.sign_in(made[1], listed=False)) == 1
    assert len(client.sign_in(made[3], client.pin.get_pin_token(PIN, GA, RP_ID), listed=False)) == 3
    assert client.sign_in(made[2]) and refused(client.sign_in, made[3]) == 0x2E


def requests(number):
    """Lists, options, algorithms and messages that the key refuses."""
    client = Client(number)
    hash, made = bytes(32), client.register(rk=True)
    listed = [{"type": "public-key", "id": made.credential_id}]
    ask = client.ctap.make_credential
    assert refused(ask, hash, RP, USER, ALG, listed) == 0x19 and refused(ask, hash, {"id": "other.example"}, USER, ALG, listed) is None
    assert refused(ask, hash, RP, USER, [{"type": "public-key", "alg": -257}]) == 0x26
    for options in ({"uv": True}, {"up": False}):
        assert refused(ask, hash, RP, USER, ALG, None, None, options) == 0x2C
    assert refused(client.ctap.get_assertion, "none.example", hash) == 0x2E
    assert refused(client.ctap.get_assertion, RP_ID, hash, None, None, {"rk": True}) == 0x2B
    assert client.ctap.get_assertion(RP_ID, hash, None, None, {"up": False}).auth_data.flags == 0
    assert refused(client.ctap.send_cbor, 1, {1: hash}) == 0x14 and refused(client.ctap.send_cbor, 1, {1: 7}) == 0x11
    assert client.device.call(CTAPHID.CBOR, b"\x01\xa1\x18\x01\x00") == b"\x12" and client.device.call(CTAPHID.CBOR, b"\x77") == b"\x01"
    assert refused(ask, hash, RP, USER, ALG, None, None, None, b"", number) == 0x35
    assert refused(ask, hash, RP, {"id": b"u", "name": "n" * 1200}, ALG) == 0x39
    client.key.presence = False
    assert refused(client.register) == refused(client.sign_in, made) == 0x27


def transport(number):
    """PING, channels, a message that breaks off, one that comes in between, and a request that is given up."""
    client = Client(number)
    payload = os.urandom(7609)
    assert client.device.call(CTAPHID.PING, payload) == payload and client.device.call(CTAPHID.PING, b"") == b""
    key, own = client.key, client.device._channel_id
    packet = lambda channel, *head: key.packet((struct.pack(">I", channel) + bytes(head)).ljust(64, b"\0"))
    said = lambda packets: [(each[4], each[7]) for each in packets]
    assert said(packet(own ^ 1, 0x90, 0, 1, 4)) == [(0xBF, 0x0B)] and said(packet(0, 0x90, 0, 1, 4)) == [(0xBF, 0x0B)]
    assert said(packet(own, 0xBE, 0, 0)) == [(0xBF, 0x01)] and said(packet(own, 0x90, 0xFF, 0xFF)) == [(0xBF, 0x03)]
    assert packet(own, 0x00) == [] and packet(own, 0x90, 0, 100) == []
    other = packet(0xFFFFFFFF, 0x86, 0, 8, *range(8))[0]
    assert other[:15] == b"\xff\xff\xff\xff\x86\x00\x11" + bytes(range(8)) and other[15:19] != struct.pack(">I", own)
    assert said(packet(int.from_bytes(other[15:19], "big"), 0x90, 0, 1, 4)) == [(0xBF, 0x06)]
    assert said(packet(own, 0x01)) == [(0xBF, 0x04)] and packet(own, 0x00) == [] and packet(own, 0x90, 0, 100) == []
    assert said(packet(own, 0x90, 0, 100)) == [(0xBF, 0x04)] and packet(own, 0x90, 0, 100) == [] and said(key.expire()) == [(0xBF, 0x05)]
    key.presence = None
    request = b"\x02" + cbor.encode({1: RP_ID, 2: bytes(32)})
    sends = PinKey.packets(own, 0x10, request)
    assert [said(key.packet(each)) for each in sends] == [[(0xBB, 2)]] and said(key.keepalive()) == [(0xBB, 2)]
    assert said(packet(own, 0x91, 0, 0)) == [(0x90, 0x2D)] and packet(own, 0x91, 0, 0) == []
    assert said(key.packet(sends[0])) == [(0xBB, 2)] and said(key.touch()) == [(0x90, 0x2E)] and key.touch() == []
    u2f = PinKey(u2f_only=True, capabilities=0)
    opened = u2f.packet(b"\xff\xff\xff\xff\x86\x00\x08".ljust(64, b"\0"))[0]
    assert opened[23] == 0 and said(u2f.packet(opened[15:19] + b"\x90\x00\x01\x04".ljust(60, b"\0"))) == [(0xBF, 0x01)]


def own_cbor(_):
    """Canonical CBOR is written as python-fido2 writes it, and what is not canonical is not read."""
    for value in (0, 23, 24, 255, 256, 65535, 65536, 2**32, -1, -24, -25, -256, -257, b"", b"x" * 24, "é" * 20, [1, [2, {3: True}]],
                  {1: 0, 24: 1, 256: 2, -1: 3, -25: 4, b"": 5, "a": 6, "aa": 7, "b": 8}, False):
        assert parts.write(value) == cbor.encode(value) and parts.read(parts.write(value)) == value, value
    for wrong in ("1800", "190018", "1a0000ffff", "1b00000000ffffffff", "5801", "a2010101", "a202000100", "a201000100", "9f", "f6", "f7", "c000",
                  "818181818100", "0000", "", "61ff", "a16161", "1c"):
        try:
            parts.read(bytes.fromhex(wrong))
        except parts.NotCanonical:
            continue
        raise AssertionError(wrong)


# what each key has
BOTH = (pins, wrong_pins, counted_first, ceremonies, other_protocol, by_fido2_client)
ONLY_HERE = (own_cbor, policies, one_protocol, older_key, built_in, several, protection, requests, transport)


def main():
    passed = failed = 0
    Client.program = sys.argv[1] if len(sys.argv) > 1 else None
    acts = BOTH if Client.program else BOTH + ONLY_HERE
    for act in acts:
        for number in (1, 2):
            try:
                act(number)
                passed += 1
            except Exception as error:
                failed += 1
                line = error.__traceback__.tb_next.tb_lineno
                print(f"FAILED: {act.__name__} by protocol {number}, line {line}: {type(error).__name__} {error}")
    print(f"{passed} passed, {failed} failed")
    return failed != 0


sys.exit(main())
