#!/usr/bin/python3
"""The key of `pin_key.py`, or `softkey pin`, judged by libfido2, called by ctypes: a PIN set, changed and refused, and ceremonies with it:
./pin_key_by_libfido2.py [PROGRAM]. The last line is 'N passed, M failed'; the status is 0 where nothing failed."""
import ctypes
import os
import sys

from pin_key import Cable, PinKey
from pin_key_parts import sha256
from softkey_pins import SoftPinKey

fido = ctypes.CDLL("libfido2.so.1")
OPEN = ctypes.CFUNCTYPE(ctypes.c_void_p, ctypes.c_char_p)
CLOSE = ctypes.CFUNCTYPE(None, ctypes.c_void_p)
READ = ctypes.CFUNCTYPE(ctypes.c_int, ctypes.c_void_p, ctypes.POINTER(ctypes.c_ubyte), ctypes.c_size_t, ctypes.c_int)
WRITE = ctypes.CFUNCTYPE(ctypes.c_int, ctypes.c_void_p, ctypes.POINTER(ctypes.c_ubyte), ctypes.c_size_t)
ES256, TRUE = -7, 2
PIN, OTHER = b"1234", "séame ouvre-toi".encode()
PIN_INVALID, PIN_BLOCKED, PIN_AUTH_INVALID, PIN_AUTH_BLOCKED, PIN_REQUIRED = 0x31, 0x32, 0x33, 0x34, 0x36
KINDS = ({"protocols": (1,)}, {"protocols": (2,)}, {"protocols": (1,), "token": None})
for name in "fido_dev_new fido_cred_new fido_assert_new es256_pk_new fido_cred_id_ptr fido_cred_pubkey_ptr".split():
    getattr(fido, name).restype = ctypes.c_void_p
for name in ("fido_cred_id_len", "fido_cred_pubkey_len", "fido_assert_count"):
    getattr(fido, name).restype = ctypes.c_size_t


class Functions(ctypes.Structure):
    """fido_dev_io_t"""

    _fields_ = [("open", OPEN), ("close", CLOSE), ("read", READ), ("write", WRITE)]


class Client:
    """libfido2's client of a key."""

    def __init__(self, key, cable=None):
        self.key, self.cable = key, cable or Cable(key)
        self.functions = Functions(OPEN(lambda path: 1), CLOSE(lambda handle: None), READ(self.read), WRITE(self.write))
        self.open()

    def open(self):
        self.device = ctypes.c_void_p(fido.fido_dev_new())
        assert fido.fido_dev_set_io_functions(self.device, ctypes.byref(self.functions)) == 0
        assert fido.fido_dev_open(self.device, b"key") == 0

    def set_pin(self, pin):
        assert fido.fido_dev_set_pin(self.device, pin, None) == 0
        self.cycle()

    def cycle(self):
        fido.fido_dev_close(self.device)
        self.key.power_cycle()
        self.open()

    def read(self, handle, buffer, size, milliseconds):
        try:
            ctypes.memmove(buffer, self.cable.read(max(milliseconds, 0) / 1000), 64)
        except TimeoutError:
            return -1
        return 64

    def write(self, handle, buffer, size):
        self.cable.write(ctypes.string_at(buffer, size)[1:].ljust(64, b"\0"))
        return size

    def retries(self):
        count = ctypes.c_int()
        assert fido.fido_dev_get_retry_count(self.device, ctypes.byref(count)) == 0
        return count.value

    def register(self, pin, verify=True):
        """The status, and the credential's id and key; libfido2 verifies the attestation, if it is to."""
        one = ctypes.c_void_p(fido.fido_cred_new())
        fido.fido_cred_set_type(one, ES256)
        fido.fido_cred_set_clientdata_hash(one, sha256(os.urandom(8)), ctypes.c_size_t(32))
        fido.fido_cred_set_rp(one, b"login.example", b"Example")
        fido.fido_cred_set_user(one, b"user", ctypes.c_size_t(4), b"alex", None, None)
        fido.fido_cred_set_rk(one, TRUE)
        status, made = fido.fido_dev_make_cred(self.device, one, pin), None
        if status == 0:
            assert not verify or (fido.fido_cred_verify_self(one) == 0 and (fido.fido_cred_flags(one) & 0xFF) == 0x45)
            made = (ctypes.string_at(fido.fido_cred_id_ptr(one), fido.fido_cred_id_len(one)),
                    ctypes.string_at(fido.fido_cred_pubkey_ptr(one), fido.fido_cred_pubkey_len(one)))
        fido.fido_cred_free(ctypes.byref(one))
        return status, made

    def sign_in(self, made, pin, listed, verify=True):
        """The status; libfido2 verifies the signature, if it is to."""
        id, point = made
        one, public = ctypes.c_void_p(fido.fido_assert_new()), ctypes.c_void_p(fido.es256_pk_new())
        fido.fido_assert_set_clientdata_hash(one, sha256(os.urandom(8)), ctypes.c_size_t(32))
        fido.fido_assert_set_rp(one, b"login.example")
        if listed:
            fido.fido_assert_allow_cred(one, id, ctypes.c_size_t(len(id)))
        if pin:
            fido.fido_assert_set_uv(one, TRUE)
        status = fido.fido_dev_get_assert(self.device, one, pin)
        if status == 0 and verify:
            assert fido.es256_pk_from_ptr(public, point, ctypes.c_size_t(len(point))) == 0 and fido.fido_assert_count(one) == 1
            assert fido.fido_assert_verify(one, ctypes.c_size_t(0), ES256, public) == 0
        fido.fido_assert_free(ctypes.byref(one))
        return status


def pins(client):
    assert fido.fido_dev_set_pin(client.device, PIN, None) == 0 and fido.fido_dev_set_pin(client.device, OTHER, None) == PIN_AUTH_INVALID
    assert fido.fido_dev_set_pin(client.device, OTHER, b"0000") == PIN_INVALID and client.retries() == 7
    assert fido.fido_dev_set_pin(client.device, OTHER, PIN) == 0 and client.retries() == 8
    assert client.register(PIN)[0] == PIN_INVALID and client.register(OTHER)[0] == 0 and client.register(None)[0] == PIN_REQUIRED


def ceremonies(client):
    client.set_pin(PIN)
    status, made = client.register(PIN)
    assert status == 0
    for pin in (PIN, None):
        for listed in (True, False):
            assert client.sign_in(made, pin, listed) == 0
    assert client.sign_in(made, b"0000", True) == PIN_INVALID and client.retries() == 7


def wrong_pins(client):
    client.set_pin(PIN)
    said = []
    for _ in range(8):
        said.append(client.register(b"0000")[0])
        if said[-1] == PIN_AUTH_BLOCKED:
            assert client.register(PIN)[0] == PIN_AUTH_BLOCKED
            client.cycle()
    assert said == [0x31, 0x31, 0x34, 0x31, 0x31, 0x34, 0x31, 0x32] and client.retries() == 0
    assert client.register(PIN)[0] == PIN_BLOCKED


def main():
    fido.fido_init(0)
    passed = failed = 0
    keys = [(kind, lambda kind=kind: PinKey(packed=True, algorithms=(ES256,), **kind)) for kind in KINDS]
    if len(sys.argv) > 1:
        keys = [(sys.argv[1], lambda: SoftPinKey(sys.argv[1], packed=True))]
    for act in (pins, ceremonies, wrong_pins):
        for kind, key in keys:
            try:
                act(Client(key()))
                passed += 1
            except Exception as error:
                failed += 1
                print(f"FAILED: {act.__name__}, {kind}, line {error.__traceback__.tb_next.tb_lineno}: {type(error).__name__} {error}")
    print(f"{passed} passed, {failed} failed")
    return failed != 0


if __name__ == "__main__":
    sys.exit(main())
