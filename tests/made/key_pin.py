#!/usr/bin/python3
"""Prints tests/crates/pin_tests/key_pin_made.rt.txt: requests of clientPIN as a client makes them, by Python's cryptography, in an
order, and what an authenticator answers to each, worked by hand from CTAP 2.1, section 6.5.

A line is the order's name; what is done (pin, verify, spend, end, power, reset, restart, over); the request; the host's words
(what stands for the private key, x, y, token); what the host is asked, in order, with its answers; the reply; and what is saved
afterwards. Bytes are in hexadecimal digits, and `-` is nothing."""
import hashlib
import hmac

from cryptography.hazmat.primitives import hashes
from cryptography.hazmat.primitives.asymmetric import ec
from cryptography.hazmat.primitives.ciphers import Cipher, algorithms, modes
from cryptography.hazmat.primitives.kdf.hkdf import HKDF

ZEROS = bytes(16)


def sha256(data):
    return hashlib.sha256(data).digest()


def private_key(name):
    return ec.derive_private_key(int.from_bytes(sha256(name.encode()), "big") >> 1, ec.SECP256R1())


def point(key):
    numbers = key.public_key().public_numbers()
    return numbers.x.to_bytes(32, "big"), numbers.y.to_bytes(32, "big")


def aes(key, iv):
    return Cipher(algorithms.AES(key), modes.CBC(iv))


def encrypt(key, iv, text):
    return aes(key, iv).encryptor().update(text)


def decrypt(key, iv, text):
    return aes(key, iv).decryptor().update(text)


def tag(key, message):
    return hmac.new(key, message, "sha256").digest()


def hkdf(z, info):
    return HKDF(hashes.SHA256(), 32, bytes(32), info).derive(z)


def padded(pin):
    return pin + bytes(64 - len(pin))


def ask(operation, key, iv, text, answer):
    return f"{operation}:{key.hex()}:{iv.hex()}:{text.hex()}:{answer.hex()}"


def shown(value):
    if value is None:
        return "-"
    return value.hex() if isinstance(value, bytes) else str(value)


class Client:
    """One that knows the public key of a key pair, and what both compute by it."""

    def __init__(self, name, protocol, pair):
        self.protocol, self.own = protocol, private_key(name + " client")
        self.z = self.own.exchange(ec.ECDH(), pair.public_key())
        if protocol == 1:
            self.hmac = self.aes = sha256(self.z)
        else:
            self.hmac, self.aes = hkdf(self.z, b"CTAP2 HMAC key"), hkdf(self.z, b"CTAP2 AES key")
        self.count = 0

    def seal(self, text):
        if self.protocol == 1:
            return encrypt(self.aes, ZEROS, text)
        self.count += 1
        iv = sha256(b"iv %d" % self.count + text)[:16]
        return iv + encrypt(self.aes, iv, text)

    def tag(self, key, message):
        return tag(key, message)[: 16 if self.protocol == 1 else 32]


class Order:
    """Requests in an order, to one authenticator."""

    def __init__(self, name, protocol):
        self.name, self.protocol = f"{name}, protocol {protocol}", protocol
        self.steps, self.pair, self.pin, self.token = 0, None, None, None
        self.client, self.given = None, None

    def words(self):
        self.steps += 1
        return f"{self.name} {self.steps}"

    def line(self, what, request, words, asks, reply, retries):
        saved = bytes([1, retries]) + (sha256(self.pin)[:16] if self.pin is not None else b"")
        print("|".join([self.name, what, request, words, " ".join(asks), reply, saved.hex()]))

    def pin_request(self, subcommand, reply, retries, order="", key=None, param=None, new_pin=None, pin_hash=None, permissions=None,
                    rp_id=None, protocol="own", kind=(2, -25, 1)):
        """A request of clientPIN. `key` is the client that makes it."""
        words = self.words()
        if self.pair is None:
            self.pair = words
        x, y = point(private_key(words))
        token = bytes([self.steps]) * 32
        peer = point(key.own) if key else None
        request = [self.protocol if protocol == "own" else protocol, subcommand] + (list(kind) + list(peer) if peer else [None] * 5)
        request += [param, new_pin, pin_hash, permissions, rp_id]
        if key and not order:
            # It is refused before they are looked at.
            request[5:10] = ["01*32", "02*32", *("00" if each is not None else None for each in request[7:10])]
        asks = self.asks(key, peer, new_pin or b"", pin_hash or b"", token) if key else {}
        asks = [asks[each] for each in order.split()]
        if callable(reply):
            reply = reply(self, token)
        self.line("pin", ":".join(map(shown, request)), ":".join(self.shown_words(words, x, y)), asks, reply, retries)
        return token

    @staticmethod
    def secret(words):
        """What stands for the private key."""
        return bytes([0x80 | int(words.split()[-1])]) * 32

    def shown_words(self, words, x, y):
        """The coordinates only where the key pair is taken."""
        secret, token = f"{0x80 | self.steps:02x}*32", f"{self.steps:02x}*32"
        return (secret, x.hex(), y.hex(), token) if self.pair == words else (secret, "00*32", "00*32", token)

    def asks(self, client, peer, new_pin, pin_hash, token):
        """What the host is asked, each by a name: by the authenticator's own key pair, whatever the client computed."""
        pair, two = private_key(self.pair), self.protocol == 2
        z = pair.exchange(ec.ECDH(), client.own.public_key())
        mac, key = (hkdf(z, b"CTAP2 HMAC key"), hkdf(z, b"CTAP2 AES key")) if two else (sha256(z), sha256(z))
        message, iv = new_pin + pin_hash, sha256(b"iv " + token)[:16] if two else ZEROS
        sealed = encrypt(key, iv, token)
        self.sealed = iv + sealed if two else sealed
        made = {
            "agree": ask("agree", self.secret(self.pair), b"", peer[0] + peer[1], b"".join(point(pair)) + z),
            "mac": ask("derive", z, b"", b"CTAP2 HMAC key", mac),
            "aes": ask("derive", z, b"", b"CTAP2 AES key", key),
            "authenticate": ask("authenticate", mac, b"", message, tag(mac, message)),
            "token": ask("seal", key, b"", token, self.sealed) if two else ask("encrypt", key, iv, token, sealed),
        }
        for name, sealed in (("pin", new_pin), ("hash", pin_hash)):
            iv, text = (sealed[:16], sealed[16:]) if two else (ZEROS, sealed)
            if len(text) % 16 == 0 and text:
                made[name] = ask("decrypt", key, iv, text, decrypt(key, iv, text))
        return made

    # ---- what is done

    def agreement(self, retries):
        """getKeyAgreement: the client that knows the public key from then on."""
        words = f"{self.name} {self.steps + 1}"
        pair = self.pair or words

        def reply(*_):
            x, y = point(private_key(pair))
            return "00a101a5010203381820012158" + "20" + x.hex() + "225820" + y.hex()

        self.pin_request(2, reply, retries)
        self.client = Client(self.name, self.protocol, private_key(pair))

    begun = property(lambda self: "agree" if self.protocol == 1 else "agree mac aes")

    def set_pin(self, pin, reply, retries, order=None, text=None, sealed=None, param=None, kept=None, **more):
        client = self.client
        sealed = client.seal(padded(pin) if text is None else text) if sealed is None else sealed
        param = client.tag(client.hmac, sealed) if param is None else param
        if reply == "00":
            self.pin = pin if kept is None else kept
        self.pin_request(3, reply, retries, self.begun + " authenticate pin" if order is None else order, client, param, sealed, **more)

    def change_pin(self, old, new, reply, retries, order=None, text=None, hashed=None, param=None, **more):
        client = self.client
        sealed = client.seal(padded(new) if text is None else text)
        hashed = client.seal(sha256(old)[:16]) if hashed is None else hashed
        param = client.tag(client.hmac, sealed + hashed) if param is None else param
        if reply == "00":
            self.pin, self.token = new, None
        self.pin_request(4, reply, retries, self.begun + " authenticate hash pin" if order is None else order, client, param, sealed, hashed, **more)
        if reply in ("31", "32", "34") and (order is None or "hash" in order):
            self.pair = None

    def wrong_change(self, pin, new, reply, retries):
        self.change_pin(pin, new, reply, retries, self.begun + " authenticate hash")

    def take_token(self, pin, retries, permissions=None, rp_id=None):
        """The right PIN: a token."""
        self.try_pin(pin, lambda order, token: ("00a1025820" if self.protocol == 1 else "00a1025830") + order.sealed.hex(), retries,
                     self.begun + " hash token", permissions=permissions, rp_id=rp_id)

    def try_pin(self, pin, reply, retries, order=None, hashed=None, permissions=None, rp_id=None, subcommand=None, **more):
        client = self.client
        hashed = client.seal(sha256(pin)[:16]) if hashed is None else hashed
        order = self.begun + " hash" if order is None else order
        which = (5 if permissions is None else 9) if subcommand is None else subcommand
        token = self.pin_request(which, reply, retries, order, client, None, None, hashed, permissions, rp_id, **more)
        if callable(reply):
            self.token = token
        elif reply in ("31", "32", "34") and "hash" in order:
            self.pair = None

    def wrong_pin(self, reply, retries):
        self.try_pin(b"0000", reply, retries)

    def verify(self, reply, retries, permission=1, rp_id="example.com", token=None, param=None, protocol="own", order=None):
        token = token or self.token
        hashed = sha256(self.name.encode())
        asks = [ask("authenticate", self.token, b"", hashed, tag(self.token, hashed))] if order is None else []
        if param is None:
            param = tag(token, hashed)[: 16 if self.protocol == 1 else 32]
        request = ":".join(map(shown, [self.protocol if protocol == "own" else protocol, param, permission, rp_id, hashed]))
        self.line("verify", request, "", asks, reply, retries)

    def do(self, what, retries):
        if what in ("power", "reset", "restart"):
            self.pair = None
        if what == "reset":
            self.pin = None
        self.line(what, "", "", [], "", retries)

    def told(self, told, retries):
        self.pin_request(1, "00a203%02x04%s" % (told, "f5" if self.blocked else "f4"), retries)

    blocked = False


def life(protocol):
    """A PIN is set, tried and changed."""
    order = Order("a life", protocol)
    order.told(8, 8)
    order.agreement(8)
    order.try_pin(b"1234", "35", 8, "")
    order.change_pin(b"1234", b"5678", "35", 8, "")
    order.set_pin(b"1234", "00", 8)
    order.set_pin(b"5678", "33", 8, "")
    order.take_token(b"1234", 8)
    order.verify("granted", 8)
    order.verify("granted", 8, permission=2)
    order.verify("33", 8, rp_id="other.example")
    order.do("spend", 8)
    order.verify("33", 8)
    order.take_token(b"1234", 8, 3, "a.example.com")
    old = order.token
    order.verify("33", 8)
    order.verify("granted", 8, rp_id="a.example.com")
    order.take_token(b"1234", 8, 2, "example.com")
    order.verify("33", 8, token=old, rp_id="a.example.com")
    order.verify("33", 8)
    order.verify("granted", 8, permission=2)
    order.wrong_pin("31", 7)
    order.told(7, 7)
    order.verify("granted", 7, permission=2)
    order.agreement(7)
    old = order.token
    order.change_pin(b"1234", b"\xc3\xa9t\xc3\xa9 \xf0\x9f\x94\x91", "00", 8)
    order.token = None
    order.verify("33", 8, token=old, permission=2, order="")
    order.try_pin(b"1234", "31", 7)
    order.agreement(7)
    order.take_token(b"\xc3\xa9t\xc3\xa9 \xf0\x9f\x94\x91", 8)
    order.verify("granted", 8)
    order.do("end", 8)
    order.verify("33", 8, order="")
    order.take_token(b"\xc3\xa9t\xc3\xa9 \xf0\x9f\x94\x91", 8)
    order.do("power", 8)
    order.verify("33", 8, order="")
    order.agreement(8)
    order.take_token(b"\xc3\xa9t\xc3\xa9 \xf0\x9f\x94\x91", 8)
    order.do("restart", 8)
    order.verify("33", 8, order="")
    order.agreement(8)
    order.take_token(b"\xc3\xa9t\xc3\xa9 \xf0\x9f\x94\x91", 8)
    order.do("reset", 8)
    order.verify("33", 8, order="")
    order.agreement(8)
    order.try_pin(b"1234", "35", 8, "")
    order.set_pin(b"4321", "00", 8)
    order.take_token(b"4321", 8)


def wrong_pins(protocol):
    """Wrong PINs, to the last retry."""
    order = Order("wrong PINs", protocol)
    order.agreement(8)
    order.set_pin(b"1234", "00", 8)
    left = 8
    for which in range(8):
        if which % 3 == 0 and which:
            order.blocked = True
            order.told(left, left)
            order.agreement(left)
            order.try_pin(b"1234", "34", left, "")
            order.change_pin(b"1234", b"5678", "34", left, "")
            order.do("power" if which == 3 else "restart", left)
            order.blocked = False
            order.told(left, left)
        order.agreement(left)
        left -= 1
        third = which % 3 == 2
        status = "32" if left == 0 else "34" if third else "31"
        if which % 2:
            order.wrong_change(b"0000", b"5678", status, left)
        else:
            order.wrong_pin(status, left)
    order.agreement(0)
    order.try_pin(b"1234", "32", 0, "")
    order.change_pin(b"1234", b"5678", "32", 0, "")
    order.do("power", 0)
    order.told(0, 0)
    order.agreement(0)
    order.try_pin(b"1234", "32", 0, "")
    order.do("restart", 0)
    order.agreement(0)
    order.set_pin(b"5678", "33", 0, "")
    order.do("reset", 8)
    order.agreement(8)
    order.set_pin(b"5678", "00", 8)


def in_a_row(protocol):
    """A right PIN between wrong ones, and an old key after a wrong one."""
    order = Order("in a row", protocol)
    order.agreement(8)
    order.set_pin(b"1234", "00", 8)
    for _ in range(3):
        order.wrong_pin("31", 7)
        stale = order.client
        order.agreement(7)
        fresh, order.client = order.client, stale
        order.change_pin(b"1234", b"5678", "33", 7, order.begun + " authenticate")
        order.client = fresh
        order.wrong_pin("31", 6)
        order.agreement(6)
        order.take_token(b"1234", 8)
    stale = order.client
    order.wrong_pin("31", 7)
    order.client = stale
    order.try_pin(b"1234", "31", 6)
    order.try_pin(b"1234", "34", 5)
    order.blocked = True
    order.told(5, 5)


def new_pins(protocol):
    """New PINs that are not allowed, and those that just are."""
    order = Order("new PINs", protocol)
    order.agreement(8)
    for pin in (b"", b"123", b"\xc3\xa9" * 3, b"\xf0\x9f\x94\x91" * 3, b"1" * 64, b"\x80" * 8):
        order.set_pin(pin, "37", 8)
    for size in (16, 48, 80, 128):
        order.set_pin(b"1234", "02", 8, order.begun + " authenticate", text=bytes(size))
    order.set_pin(b"1234", "33", 8, order.begun + " authenticate", param=bytes(16))
    order.set_pin(b"1234", "33", 8, order.begun + " authenticate", param=b"")
    order.set_pin(b"12\x0034", "00", 8)
    order.change_pin(b"12\x0034", b"123", "37", 8)
    order.wrong_pin("31", 7)
    order.agreement(7)
    order.change_pin(b"12\x0034", b"2" * 64, "37", 8)
    order.change_pin(b"12\x0034", b"", "02", 8, order.begun + " authenticate hash", text=bytes(48))
    order.change_pin(b"12\x0034", b"1" * 63, "00", 8)
    order.change_pin(b"1" * 63, b"\xc3\xa9" * 4, "00", 8)
    order.change_pin(b"\xc3\xa9" * 4, b"5678", "33", 8, order.begun + " authenticate", param=bytes(32))
    order.take_token(b"\xc3\xa9" * 4, 8)


def sizes(protocol):
    """pinHashEnc of a size that no hash of a PIN has: a try like another."""
    order = Order("sizes of pinHashEnc", protocol)
    order.agreement(8)
    order.set_pin(b"1234", "00", 8)
    for hashed in (b"", bytes(8), bytes(48), bytes(17 if protocol == 2 else 32), bytes(16 if protocol == 2 else 15)):
        order.try_pin(b"1234", "31", 7, order.begun + "", hashed=hashed)
        order.pair = None
        order.agreement(7)
        order.take_token(b"1234", 8)
    order.change_pin(b"1234", b"5678", "31", 7, order.begun + " authenticate", hashed=bytes(64))


def scopes(protocol):
    """Permissions, rp ids, and what may be missing."""
    order = Order("scopes", protocol)
    order.agreement(8)
    order.set_pin(b"1234", "00", 8)
    order.try_pin(b"1234", "02", 8, "", permissions=0, rp_id="example.com")
    for permissions in (4, 5, 8, 16, 32, 63, 64, 1 << 32, (1 << 64) - 1):
        order.try_pin(b"1234", "40", 8, "", permissions=permissions, rp_id="example.com")
    order.try_pin(b"1234", "14", 8, "", permissions=1)
    order.try_pin(b"1234", "14", 8, "", subcommand=9, rp_id="example.com")
    order.try_pin(b"1234", "02", 8, "", subcommand=5, permissions=1)
    order.try_pin(b"1234", "02", 8, "", subcommand=5, rp_id="example.com")
    order.try_pin(b"1234", "14", 8, "", subcommand=5, protocol=None)
    for number in (0, 3, 1 << 40):
        order.try_pin(b"1234", "02", 8, "", protocol=number)
        order.set_pin(b"1234", "02", 8, "", protocol=number)
        order.pin_request(2, "02", 8, protocol=number)
    order.pin_request(2, "14", 8, protocol=None)
    for subcommand in (0, 6, 7, 8, 10, 99):
        order.try_pin(b"1234", "3e", 8, "", subcommand=subcommand)
    for kind in ((1, -25, 1), (2, -7, 1), (2, -25, 2), (-2, -25, 1), (2, 25, 1)):
        order.try_pin(b"1234", "02", 8, "", kind=kind)
    for permissions in (1, 2, 3):
        order.take_token(b"1234", 8, permissions, "example.com")
        order.verify("granted" if permissions & 1 else "33", 8)
        order.verify("granted" if permissions & 2 else "33", 8, permission=2)
        order.verify("33", 8, rp_id="example.co")
        order.verify("33", 8, rp_id="")
    order.verify("14", 8, protocol=None, order="")
    order.verify("02", 8, protocol=3, order="")
    order.verify("33", 8, protocol=3 - protocol, order="")
    order.verify("33", 8, param=bytes(16))
    order.verify("33", 8, param=b"")
    order.do("over", 8)
    order.verify("granted", 8)


print("//! Requests of clientPIN that Python's cryptography makes, and their replies: tests/made/key_pin.py prints this file.")
print()
print("use test_words::Table;")
print()
print("/// An order's name, what is done, the request, the words, what is asked, the reply, what is saved.")
print('pub const MADE: Table = r#"', end="")
for number in (1, 2):
    for made in (life, wrong_pins, in_a_row, new_pins, sizes, scopes):
        made(number)
print('"#;')
