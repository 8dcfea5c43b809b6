#!/usr/bin/python3
"""Hostile requests and lines to `softkey pin`: ./softkey_pin_hostile.py PROGRAM. Params turned in each byte and of each length, members of
other types, unknown protocols and subcommands, bytes that are no request, lines out of turn, and requests that are cancelled while the
host computes. The last line is 'N passed, M failed'; the status is 0 where nothing failed."""
import hashlib
import os
import sys

from fido2.ctap2.pin import PinProtocolV1, PinProtocolV2

from pin_key import PinKey
from pin_key_parts import read, write
from softkey_host import public_words
from softkey_pins import PinSoftkey, answer

PROTOCOLS = {1: PinProtocolV1(), 2: PinProtocolV2()}
PIN, WRONG, RP_ID, HASH = "1234", "0000", "login.example", hashlib.sha256(b"client data").digest()
MC, GA = 1, 2
OTHERS = (0, -1, b"b", "t", [1], {1: 1}, True)
NO_WORDS = " ".join(["00" * 32] * 4)


class Key:
    """A key, and a channel of it."""

    def __init__(self, number, *words):
        self.key, self.number, self.protocol = PinSoftkey(PROGRAM, *words), number, PROTOCOLS[number]
        self.open()

    def open(self):
        self.key.packet(b"\xff\xff\xff\xff\x86\x00\x08".ljust(64, b"\0"))
        self.channel = int.from_bytes(self.key.packets.popleft()[15:19], "big")

    def send(self, message):
        """What the key says to each packet of a message."""
        return [self.key.packet(each) for each in PinKey.packets(self.channel, 0x10, message)]

    def received(self):
        """The message that came back."""
        first = self.key.packets.popleft()
        assert first[4] == 0x90, first.hex()
        size, data = int.from_bytes(first[5:7], "big"), first[7:]
        while len(data) < size:
            data += self.key.packets.popleft()[5:]
        assert not self.key.packets
        return data[:size]

    def call(self, message):
        self.send(message)
        return self.received()

    def status(self, command, members):
        return self.call(bytes([command]) + write(members))[0]

    def told(self, command, members):
        reply = self.call(bytes([command]) + write(members))
        assert reply[0] == 0, reply.hex()
        return read(reply[1:]) if len(reply) > 1 else {}

    # ---- clientPIN

    def agreed(self):
        """This client's public key, and the secret."""
        return self.protocol.encapsulate(self.told(6, {1: self.number, 2: 2})[1])

    def retries(self):
        return self.told(6, {2: 1})[3]

    def sealed(self, secret, pin):
        return self.protocol.encrypt(secret, hashlib.sha256(pin.encode()).digest()[:16])

    def setting(self, pin=PIN):
        """A setPIN."""
        public, secret = self.agreed()
        new = self.protocol.encrypt(secret, pin.encode().ljust(64, b"\0"))
        return {1: self.number, 2: 3, 3: public, 4: self.protocol.authenticate(secret, new), 5: new}

    def changing(self, old=PIN, new=PIN):
        public, secret = self.agreed()
        sealed, hash = self.protocol.encrypt(secret, new.encode().ljust(64, b"\0")), self.sealed(secret, old)
        return {1: self.number, 2: 4, 3: public, 4: self.protocol.authenticate(secret, sealed + hash), 5: sealed, 6: hash}

    def asking(self, pin=PIN, permissions=MC | GA):
        """A getPinUvAuthTokenUsingPinWithPermissions, and the secret."""
        public, secret = self.agreed()
        return {1: self.number, 2: 9, 3: public, 6: self.sealed(secret, pin), 9: permissions, 10: RP_ID}, secret

    def token(self, permissions=MC | GA):
        request, secret = self.asking(permissions=permissions)
        return self.protocol.decrypt(secret, self.told(6, request)[2])

    def try_pin(self, pin):
        return self.status(6, self.asking(pin)[0])

    def send_to(self, request, operation):
        """Sends a request of clientPIN, and computes up to the ask of an operation."""
        said = [self.key.line("packet " + each.hex()) for each in PinKey.packets(self.channel, 0x10, b"\x06" + write(request))][-1]
        assert said[0][0] == "computes"
        secret = os.urandom(32)
        words = [secret, *public_words(secret)[:2], os.urandom(32)]
        said = self.key.line(" ".join(["compute", *(word.hex() for word in words)]))
        while said[-1][1] != operation:
            said = self.key.line("answer " + answer(*said[-1][1:]))
        return said

    # ---- ceremonies

    def creating(self, param=None, **options):
        made = {1: HASH, 2: {"id": RP_ID}, 3: {"id": b"u"}, 4: [{"alg": -7, "type": "public-key"}]}
        return self.with_param(made, 7, param, options)

    def getting(self, param=None, **options):
        return self.with_param({1: RP_ID, 2: HASH}, 5, param, options)

    def with_param(self, made, place, param, options):
        if options:
            made[place] = options
        if param is not None:
            made[place + 1], made[place + 2] = param, self.number
        return made

    def param(self, token):
        return self.protocol.authenticate(token, HASH)

    def with_pin(self):
        assert self.status(6, self.setting()) == 0
        return self


def turned(bytes_):
    """The bytes with each of them turned, one at a time."""
    for place in range(len(bytes_)):
        yield bytes_[:place] + bytes([bytes_[place] ^ 1 << place % 8]) + bytes_[place + 1:]


def params(key):
    """A param that is turned in a byte, or has another length, is none; the right one still is."""
    request = key.setting()
    for param in turned(request[4]):
        assert key.status(6, {**request, 4: param}) == 0x33
    key.with_pin()
    request = key.changing()
    for param in turned(request[4]):
        assert key.status(6, {**request, 4: param}) == 0x33
    assert key.retries() == 8 and key.status(6, request) == 0
    token = key.token()
    right = key.param(token)
    for param in [*turned(right), *(os.urandom(length) for length in range(1, 65))]:
        assert key.status(1, key.creating(param)) == 0x33 and key.status(2, key.getting(param)) == 0x33
    assert key.status(1, key.creating(right[:-1])) == 0x33 and key.status(1, key.creating(right + b"\0")) == 0x33
    assert key.status(1, key.creating(right, rk=True)) == 0 and key.status(1, key.creating(right)) == 0x33
    hash = key.param(key.token())
    assert key.status(2, {**key.getting(hash), 2: hashlib.sha256(b"another").digest()}) == 0x33
    assert key.status(2, {**key.getting(hash), 1: "other.example"}) == 0x33 and key.status(2, key.getting(hash)) == 0


def hashes(key):
    """pinHashEnc turned in a byte, or of another length, counts as a wrong PIN."""
    key.with_pin()
    request, _ = key.asking()
    for place in range(len(request[6])):
        request, _ = key.asking()
        hash = list(turned(request[6]))[place]
        assert key.status(6, {**request, 6: hash}) == 0x31 and key.retries() == 7
        assert key.try_pin(PIN) == 0 and key.retries() == 8
    for length in range(0, 65):
        if length != len(request[6]):
            request, _ = key.asking()
            assert key.status(6, {**request, 6: bytes(length)}) == 0x31 and key.try_pin(PIN) == 0
    for length in [*range(0, 80 if key.number == 2 else 64), 96, 128, 1024]:
        public, secret = key.agreed()
        new, hash = os.urandom(length), key.sealed(secret, PIN)
        request = {1: key.number, 2: 4, 3: public, 4: key.protocol.authenticate(secret, new + hash), 5: new, 6: hash}
        assert key.status(6, request) == 2, length
    assert key.retries() == 8


def pins(key):
    """From 4 code points to 63 bytes."""
    for pin, status in (("123", 0x37), ("é" * 3, 0x37), ("", 0x37), ("1" * 64, 0x37), ("é" * 4, 0)):
        assert key.status(6, key.setting(pin)) == status, pin
    for pin, status in (("1" * 63, 0), ("12\0", 0x37), ("😀" * 4, 0), ("1" * 4, 0)):
        old = "é" * 4 if pin == "1" * 63 else "1" * 63 if pin != "1" * 4 else "😀" * 4
        assert key.status(6, key.changing(old, pin)) == status, pin
    public, secret = key.agreed()
    assert key.status(6, key.setting()) == 0x33


def types(key):
    """Members of another type, unknown protocols and subcommands, and members that are missing."""
    key.with_pin()
    full = {**key.changing(), 9: 3, 10: RP_ID}
    for member, right in full.items():
        for other in OTHERS:
            if type(other) is not type(right) and not (type(right) is int and other == 0 and other is not True):
                assert key.status(6, {**full, member: other}) == 0x11, (member, other)
    for part in (1, 3, -1, -2, -3):
        assert key.status(6, {**full, 3: {name: value for name, value in full[3].items() if name != part}}) == 0x11
    for part, other in ((1, 1), (3, -7), (-1, 2)):
        assert key.status(6, {**full, 3: {**full[3], part: other}}) == 2
    assert key.status(6, {**full, 3: {**full[3], -2: bytes(31)}}) == 0x11
    assert key.status(6, {**full, 3: {**full[3], -2: bytes(32)}}) == 2
    for subcommand, needs in ((2, (1,)), (3, (1, 3, 4, 5)), (4, (1, 3, 4, 5, 6)), (5, (1, 3, 6)), (9, (1, 3, 6, 9, 10))):
        for missing in needs:
            members = {name: value for name, value in full.items() if name != missing}
            if subcommand == 5:
                members.pop(9, None), members.pop(10, None)
            assert key.status(6, {**members, 2: subcommand}) == 0x14, (subcommand, missing)
        for protocol in (0, 3, 2**32, 2**64 - 1):
            members = {name: value for name, value in full.items() if subcommand != 5 or name < 9}
            assert key.status(6, {**members, 1: protocol, 2: subcommand}) == 2
    for subcommand in (0, 6, 7, 8, 10, 2**64 - 1):
        assert key.status(6, {**full, 2: subcommand}) == 0x3E
    assert key.status(6, {1: key.number}) == 0x14 and key.status(6, {**full, 2: 1, 77: [{"x": b"y"}]}) == 0
    assert key.status(6, {**key.asking()[0], 2: 5}) == 2
    for permissions, status in ((0, 2), (4, 0x40), (8, 0x40), (64, 0x40), (2**64 - 1, 0x40)):
        assert key.status(6, key.asking(permissions=permissions)[0]) == status
    assert key.retries() == 8
    right = key.param(key.token())
    for command, request, place in ((1, key.creating(right), 8), (2, key.getting(right), 6)):
        for other in OTHERS:
            if not isinstance(other, bytes):
                assert key.status(command, {**request, place: other}) == 0x11
            if type(other) is not int or other < 0:
                assert key.status(command, {**request, place + 1: other}) == 0x11
        for protocol in (0, 3, 2**64 - 1):
            assert key.status(command, {**request, place + 1: protocol}) == 2
        assert key.status(command, {**request, place + 1: 3 - key.number}) == 0x33
        del request[place + 1]
        assert key.status(command, request) == 0x14
    assert key.status(1, key.creating(right)) == 0


def bytes_that_are_none(key):
    """Each front of a request, bytes after it, and each byte turned: a status, and the key goes on."""
    key.with_pin()
    for message in (b"\x06" + write(key.asking()[0]), b"\x01" + write(key.creating(bytes(32))), b"\x02" + write(key.getting(bytes(32)))):
        for length in range(1, len(message)):
            assert key.call(message[:length]) == b"\x12"
        assert key.call(message + b"\0") == b"\x12"
        for place in range(1, len(message)):
            reply = key.call(message[:place] + bytes([message[place] ^ 0x40]) + message[place + 1:])
            assert reply[0] != 0 or message[0] == 6, place
            key.key.line("power")
            key.open()
    assert key.call(b"\x06") == b"\x12" and key.call(b"\x06\x01") == b"\x11" and key.call(b"\x06\xa0") == b"\x14"
    assert key.call(b"\x77") == b"\x01"


def without_token(key):
    """What is asked for without a token, or by an empty param."""
    assert key.status(1, key.creating(rk=True)) == 0
    for request in (key.creating(uv=True), key.creating(up=False)):
        assert key.status(1, request) == 0x2C
    assert key.status(2, key.getting(uv=True)) == 0x2C and key.status(2, key.getting(uv=False)) == 0
    assert key.status(1, key.creating(b"")) == 0x35 and key.status(2, key.getting(b"")) == 0x35
    key.with_pin()
    for request in (key.creating(), key.creating(uv=True), key.creating(rk=True)):
        assert key.status(1, request) == 0x36
    assert key.status(1, key.creating(b"")) == 0x31 and key.status(2, key.getting(b"")) == 0x31
    key.key.consent = (False, True)
    assert key.status(1, key.creating(b"")) == 0x27
    param = key.param(key.token())
    assert key.status(1, key.creating(param)) == 0x27
    key.key.consent = (True, True)
    data = key.told(2, key.getting())[2]
    assert data[32] == 0x01
    # up false: the token stays
    data = key.told(2, key.getting(param, up=False))[2]
    assert data[32] == 0x04
    data = key.told(2, key.getting(param, uv=False))[2]
    assert data[32] == 0x05
    assert key.status(2, key.getting(param)) == 0x33
    param = key.param(key.token())
    assert key.key.line("over") == [] and key.status(1, key.creating(param)) == 0x33
    info = read(key.call(b"\x04")[1:])
    assert info[1] == ["FIDO_2_0", "FIDO_2_1"] and info[6] == [2, 1] and info[5] == 7609
    assert info[4] == {"rk": True, "up": True, "clientPin": True, "pinUvAuthToken": True}
    param = key.param(key.token())
    assert key.call(b"\x07") == b"\x00" and key.status(1, key.creating(param)) == 0x33
    assert read(key.call(b"\x04")[1:])[4]["clientPin"] is False and key.retries() == 8
    assert key.status(6, key.asking()[0]) == 0x35 and key.status(2, key.getting()) == 0x2E


def out_of_turn(key):
    """Lines that no request waits for, and requests while the host computes for another."""
    line, other = key.key.line, key.channel
    key.open()
    decision = "decide 1 1 " + " ".join(["11" * 32] * 5)
    for text in (decision, "signature 00", "compute " + NO_WORDS, "answer 00", "answer -", "wait"):
        assert line(text)[0][0] == "error", text
    for text in ("compute", "compute 00", "answer", "answer 0", "power 1", "over 1", "load-pin", "load-pin 0", "load-pin 00"):
        assert line(text)[0][0] == "error", text
    key.with_pin()
    packets = PinKey.packets(key.channel, 0x10, b"\x06" + write(key.asking()[0]))
    said = [line("packet " + each.hex()) for each in packets][-1]
    assert said == [["computes", f"{key.channel:08x}"]]
    for text in (decision, "signature 00", "answer 00"):
        assert line(text)[0][0] == "error", text
    assert line("compute " + NO_WORDS)[-1][:2] == ["ask", "agree"]
    for text in (decision, "signature 00", "compute " + NO_WORDS):
        assert line(text)[0][0] == "error", text
    for channel in (key.channel, other):
        packet = (channel.to_bytes(4, "big") + b"\x90\x00\x01\x04").ljust(64, b"\0")
        assert line("packet " + packet.hex())[0][1][8:16] == "bf000106"
    assert line("wait")[0][1][8:16] == "bb000102"
    key.key.packets.clear()
    line("answer 00")
    assert key.received() == b"\x02" and key.retries() == 8
    # another size of an answer
    for left, operation in ((7, "decrypt"), (6, "encrypt" if key.number == 1 else "seal")):
        key.send_to(key.asking()[0], operation)
        line("answer 0011")
        assert key.received() == b"\x7f" and key.retries() == left
    assert key.try_pin(PIN) == 0 and key.retries() == 8


def cancelled(key):
    """A request that is cancelled, or whose channel begins anew, while the host computes: the try that was counted is."""
    key.with_pin()
    anew = (key.channel.to_bytes(4, "big") + b"\x86\x00\x08").ljust(64, b"\0")
    cancel = (key.channel.to_bytes(4, "big") + b"\x91").ljust(64, b"\0")
    left = 8
    for packet, told in ((cancel, "cancelled"), (anew, "aborted")):
        for operation in ("agree", "decrypt"):
            key.send_to(key.asking(WRONG)[0], operation)
            assert key.key.line("packet " + packet.hex())[0] == [told]
            if told == "cancelled":
                assert key.received() == b"\x2d"
            key.key.packets.clear()
            assert key.key.line("answer -")[0][0] == "error"
            left -= operation == "decrypt"
            assert key.retries() == left
    for status in (0x31, 0x31, 0x34):
        left -= 1
        assert key.try_pin(WRONG) == status and key.retries() == left
    assert key.try_pin(PIN) == 0x34 and key.key.line("power") == []
    key.open()
    key.send_to(key.asking(WRONG)[0], "decrypt")
    assert key.key.line("power") == []
    key.key.packets.clear()
    key.open()
    left -= 1
    assert key.retries() == left == 2 and key.try_pin(PIN) == 0 and key.retries() == 8
    param = key.param(key.token())
    message = b"\x01" + write(key.creating(param))
    said = [key.key.line("packet " + each.hex()) for each in PinKey.packets(key.channel, 0x10, message)][-1]
    assert said[0][0] == "computes"
    assert key.key.line("packet " + cancel.hex())[0] == ["cancelled"] and key.received() == b"\x2d"
    # granted, and cancelled before the user decides
    key.key.consent = None
    said = key.send(message)[-1]
    assert said[-1][0] == "waits"
    assert key.key.line("packet " + cancel.hex())[0] == ["cancelled"] and key.received() == b"\x2d"
    key.key.consent = (True, False)
    assert key.status(1, key.creating(param)) == 0


def restarted(key):
    """PIN and retries stay over a restart, tokens do not; a key without a PIN saves so."""
    key.key.restart()
    key.open()
    key.with_pin()
    assert key.status(1, key.creating(key.param(key.token()), rk=True)) == 0
    param = key.param(key.token())
    assert key.try_pin(WRONG) == 0x31 and key.retries() == 7
    key.key.restart()
    key.open()
    assert key.retries() == 7 and key.status(1, key.creating(param)) == 0x33 and key.status(6, key.setting()) == 0x33
    data = key.told(2, key.getting(key.param(key.token())))[2]
    assert data[32] == 0x05 and key.retries() == 8


def main():
    passed = failed = 0
    for act in (params, hashes, pins, types, bytes_that_are_none, without_token, out_of_turn, cancelled, restarted):
        for number in (1, 2):
            key = Key(number)
            try:
                act(key)
                assert key.key.close() == 0
                passed += 1
            except Exception as error:
                failed += 1
                print(f"FAILED: {act.__name__} by protocol {number}, line {error.__traceback__.tb_next.tb_lineno}: {type(error).__name__} {error}")
    print(f"{passed} passed, {failed} failed")
    return failed != 0


PROGRAM = sys.argv[1]
sys.exit(main())
