"""libfido2, called by ctypes, against `softkey`: ./with_libfido2.py PROGRAM [WORDS of the program ..] [many=COUNT]"""
import ctypes
import hashlib
import os
import sys
import time
from collections import Counter, defaultdict

from softkey_host import EDDSA, ES256, Softkey, times

fido = ctypes.CDLL("libfido2.so.1")
OMIT, FALSE, TRUE = 0, 1, 2
RX = -2
OPEN = ctypes.CFUNCTYPE(ctypes.c_void_p, ctypes.c_char_p)
CLOSE = ctypes.CFUNCTYPE(None, ctypes.c_void_p)
READ = ctypes.CFUNCTYPE(ctypes.c_int, ctypes.c_void_p, ctypes.POINTER(ctypes.c_ubyte), ctypes.c_size_t, ctypes.c_int)
WRITE = ctypes.CFUNCTYPE(ctypes.c_int, ctypes.c_void_p, ctypes.POINTER(ctypes.c_ubyte), ctypes.c_size_t)


class Functions(ctypes.Structure):
    """fido_dev_io_t"""

    _fields_ = [("open", OPEN), ("close", CLOSE), ("read", READ), ("write", WRITE)]


POINTERS = "fido_dev_new fido_cred_new fido_assert_new es256_pk_new eddsa_pk_new fido_cred_id_ptr fido_cred_pubkey_ptr fido_assert_id_ptr"
for name in POINTERS.split():
    getattr(fido, name).restype = ctypes.c_void_p
for name in ("fido_cred_id_len", "fido_cred_pubkey_len", "fido_assert_id_len", "fido_assert_count"):
    getattr(fido, name).restype = ctypes.c_size_t
fido.fido_cred_fmt.restype = ctypes.c_char_p
fido.fido_dev_has_uv.restype = ctypes.c_bool
fido.fido_assert_sigcount.restype = ctypes.c_uint32


def pointer(value):
    return ctypes.c_void_p(value)


def ok(status, what):
    if status != 0:
        raise AssertionError(f"{what}: {status}")


def option(value):
    return OMIT if value is None else TRUE if value else FALSE


class Client:
    """A client by libfido2, which counts what it did."""

    def __init__(self, program, words):
        self.key = Softkey(program, *words)
        self.uv = "no-uv" not in words
        self.format = b"packed" if "self-attestation" in words else b"none"
        self.done = Counter()
        self.seconds = defaultdict(list)
        self.cancels = False
        self.functions = Functions(OPEN(lambda path: 1), CLOSE(lambda handle: None), READ(self.read), WRITE(self.write))
        fido.fido_init(0)
        self.open()

    def open(self):
        """Opens a channel of the device."""
        self.device = pointer(fido.fido_dev_new())
        ok(fido.fido_dev_set_io_functions(self.device, ctypes.byref(self.functions)), "io functions")
        ok(fido.fido_dev_open(self.device, b"softkey"), "open")
        assert fido.fido_dev_has_uv(self.device) == self.uv

    def close(self):
        """Closes the device."""
        fido.fido_dev_close(self.device)
        fido.fido_dev_free(ctypes.byref(self.device))

    def counted(self, what, begun):
        """A ceremony is done, which began then."""
        self.done[what] += 1
        self.seconds[what].append(time.perf_counter() - begun)

    def read(self, handle, buffer, size, milliseconds):
        """Gives the next packet; where the user does not decide, a keepalive, and a cancel where one is asked for."""
        if not self.key.packets:
            if milliseconds == 0:
                return -1
            if self.cancels:
                self.cancels = False
                fido.fido_dev_cancel(self.device)
            else:
                time.sleep(0.01)
                self.key.line("wait")
        if not self.key.packets:
            return -1
        packet = self.key.packets.popleft()
        ctypes.memmove(buffer, packet, 64)
        return 64

    def write(self, handle, buffer, size):
        """Takes a report: its number, which is 0, and a packet."""
        report = ctypes.string_at(buffer, size)
        assert report[0] == 0
        self.key.packet(report[1:].ljust(64, b"\0"))
        return size

    def register(self, alg, user, resident, uv=None, exclude=None):
        """A registration's status, and the credential."""
        begun = time.perf_counter()
        one = pointer(fido.fido_cred_new())
        fido.fido_cred_set_type(one, alg)
        fido.fido_cred_set_clientdata_hash(one, hashlib.sha256(os.urandom(16)).digest(), ctypes.c_size_t(32))
        fido.fido_cred_set_rp(one, b"login.example", b"Example")
        fido.fido_cred_set_user(one, user, ctypes.c_size_t(len(user)), b"user", None, None)
        fido.fido_cred_set_rk(one, option(resident or None))
        fido.fido_cred_set_uv(one, option(uv))
        if exclude is not None:
            fido.fido_cred_exclude(one, exclude, ctypes.c_size_t(len(exclude)))
        status = fido.fido_dev_make_cred(self.device, one, None)
        made = None
        if status == 0:
            assert fido.fido_cred_fmt(one) == self.format
            if self.format == b"packed":
                ok(fido.fido_cred_verify_self(one), "attestation")
                self.done["attestation verified"] += 1
            id = ctypes.string_at(fido.fido_cred_id_ptr(one), fido.fido_cred_id_len(one))
            public = ctypes.string_at(fido.fido_cred_pubkey_ptr(one), fido.fido_cred_pubkey_len(one))
            made = (alg, id, public)
            self.counted(f"registered {alg}, {'resident' if resident else 'not resident'}, uv {uv}", begun)
        fido.fido_cred_free(ctypes.byref(one))
        return status, made

    def sign_in(self, credentials, allow, uv=None):
        """A sign-in's status and counters, with each signature verified by libfido2."""
        begun = time.perf_counter()
        one = pointer(fido.fido_assert_new())
        fido.fido_assert_set_clientdata_hash(one, hashlib.sha256(os.urandom(16)).digest(), ctypes.c_size_t(32))
        fido.fido_assert_set_rp(one, b"login.example")
        fido.fido_assert_set_up(one, OMIT)
        fido.fido_assert_set_uv(one, option(uv))
        for _, id, _ in credentials if allow else []:
            fido.fido_assert_allow_cred(one, id, ctypes.c_size_t(len(id)))
        status = fido.fido_dev_get_assert(self.device, one, None)
        counters = []
        if status == 0:
            by_id = {id: (alg, public) for alg, id, public in credentials}
            for number in range(fido.fido_assert_count(one)):
                index = ctypes.c_size_t(number)
                id = ctypes.string_at(fido.fido_assert_id_ptr(one, index), fido.fido_assert_id_len(one, index))
                alg, public = by_id[id]
                kind = "es256" if alg == ES256 else "eddsa"
                held = pointer(getattr(fido, kind + "_pk_new")())
                ok(getattr(fido, kind + "_pk_from_ptr")(held, public, ctypes.c_size_t(len(public))), "public key")
                ok(fido.fido_assert_verify(one, index, alg, held), "assertion")
                getattr(fido, kind + "_pk_free")(ctypes.byref(held))
                counters.append(fido.fido_assert_sigcount(one, index))
            self.counted(f"signed in {'with' if allow else 'without'} a list, uv {uv}", begun)
            self.done["assertions verified"] += len(counters)
        fido.fido_assert_free(ctypes.byref(one))
        return status, counters

    def refused(self, status, what, found):
        assert found[0] == status, (what, found[0])
        self.done[what] += 1


def acts(client):
    key = client.key
    made, residents = [], []
    verifications = (None, False, True) if client.uv else (None, False)
    for alg in (ES256, EDDSA):
        for resident in (False, True):
            for verification in verifications:
                status, one = client.register(alg, os.urandom(16), resident, verification)
                ok(status, "registration")
                made.append(one)
                if resident:
                    residents.append(one)
    for verification in verifications:
        for one in made:
            status, counters = client.sign_in([one], True, verification)
            assert status == 0 and len(counters) == 1, status
        status, counters = client.sign_in(residents, False, verification)
        assert status == 0 and len(counters) == len(residents), (status, len(counters))
    client.refused(0x19, "excluded credential", client.register(ES256, b"y", False, exclude=made[0][1]))
    key.consent = (False, False)
    client.refused(0x27, "declined registration", client.register(ES256, b"z", False))
    client.refused(0x27, "declined sign-in", client.sign_in(made[:1], True))
    key.consent = None
    client.cancels = True
    client.refused(0x2D, "cancelled", client.register(ES256, b"c", False))
    assert ["cancelled"] in key.told
    key.consent = (True, True)
    timed_out(client)
    restarted(client, made, residents)


def timed_out(client):
    """The user does not decide in time: libfido2 gives the request up, and the next one, on a new channel, is answered."""
    client.key.consent = None
    client.key.told.clear()
    fido.fido_dev_set_timeout(client.device, 50)
    status, _ = client.register(ES256, b"t", False)
    assert status == RX, status
    fido.fido_dev_set_timeout(client.device, -1)
    ok(fido.fido_dev_cancel(client.device), "cancel")
    assert ["cancelled"] in client.key.told
    client.done["timed out, and cancelled"] += 1
    client.key.consent = (True, True)
    client.close()
    client.key.packets.clear()
    client.open()


def restarted(client, made, residents):
    """Over a restart each credential signs in, its counter one higher, and the resident ones are found."""
    before = [client.sign_in([one], True)[1][0] for one in made]
    client.close()
    client.key.restart()
    client.open()
    assert [client.sign_in([one], True)[1][0] for one in made] == [counter + 1 for counter in before]
    status, counters = client.sign_in(residents, False)
    assert status == 0 and len(counters) == len(residents), status
    client.refused(0x19, "excluded credential after a restart", client.register(ES256, b"y", False, exclude=made[0][1]))
    client.done["restart between"] += 1


def full(client):
    ok(fido.fido_dev_reset(client.device), "reset")
    client.done["reset"] += 1
    for number in range(256):
        ok(client.register(ES256, number.to_bytes(2, "big"), False)[0], "registration")
    client.refused(0x28, "key full", client.register(ES256, b"one more", False))
    ok(fido.fido_dev_reset(client.device), "reset")
    client.done["reset"] += 1
    client.refused(0x2E, "no credential after a reset", client.sign_in([], False))


def many(client, count):
    _, one = client.register(EDDSA, b"many", False)
    begun = time.perf_counter()
    for number in range(count):
        assert client.sign_in([one], True) == (0, [number + 1])
    return (time.perf_counter() - begun) / count


def main():
    words = [word for word in sys.argv[2:] if not word.startswith("many=")]
    count = next((int(word[5:]) for word in sys.argv[2:] if word.startswith("many=")), 1000)
    client = Client(sys.argv[1], words)
    acts(client)
    full(client)
    before, _ = client.key.memory()
    one = many(client, count)
    client.close()
    now, most = client.key.memory()
    assert client.key.close() == 0
    configuration = " ".join(words) or "uv"
    for what, count in sorted(client.done.items()):
        each = f" | {times(client.seconds[what])}" if what in client.seconds else ""
        print(f"libfido2 | {configuration} | {what} | {count}{each}")
    client.key.figures("libfido2", configuration)
    print(f"libfido2 | {configuration} | a sign-in in a row | {one * 1000:.2f} ms")
    print(f"libfido2 | {configuration} | memory of the process before these, after them, and the most | {before} kB | {now} kB | {most} kB")


main()
