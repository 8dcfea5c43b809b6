"""A host of `softkey pin`: what the key asks it to compute of a PIN (CTAP 2.1, sections 6.5.6 and 6.5.7), by `cryptography`, and the key
with the calls of `pin_key.PinKey`."""
import os

from cryptography.hazmat.primitives import hashes
from cryptography.hazmat.primitives.asymmetric import ec
from cryptography.hazmat.primitives.kdf.hkdf import HKDF

from pin_key_parts import authenticated, cipher
from softkey_host import Softkey, es256_key, public_words


def agree(key, iv, text):
    """The key's own point, and the x of the product of the private key that the secret `key` stands for and the point `text`."""
    x, y = (int.from_bytes(part, "big") for part in (text[:32], text[32:]))
    peer = ec.EllipticCurvePublicNumbers(x, y, ec.SECP256R1()).public_key()
    return b"".join(public_words(key)[:2]) + es256_key(key).exchange(ec.ECDH(), peer)


def encrypt(key, iv, text):
    encryptor = cipher(key, iv).encryptor()
    return encryptor.update(text) + encryptor.finalize()


def decrypt(key, iv, text):
    decryptor = cipher(key, iv).decryptor()
    return decryptor.update(text) + decryptor.finalize()


def seal(key, iv, text):
    iv = os.urandom(16)
    return iv + encrypt(key, iv, text)


OPERATIONS = {
    "agree": agree,
    "derive": lambda key, iv, text: HKDF(hashes.SHA256(), 32, bytes(32), text).derive(key),
    "seal": seal, "encrypt": encrypt, "decrypt": decrypt,
    "authenticate": lambda key, iv, text: authenticated(key, text)}


def answer(operation, *words):
    """The word that answers `ask`: nothing where the point does not lie on the curve, or a text has no whole blocks."""
    try:
        return OPERATIONS[operation](*(b"" if word == "-" else bytes.fromhex(word) for word in words)).hex() or "-"
    except ValueError:
        return "-"


class PinSoftkey(Softkey):
    """The process of a security key that takes PINs, and its user."""

    def __init__(self, program, *words):
        # of each request that was computed for, the operations that were asked
        self.asked = []
        super().__init__(program, "pin", *words)

    def compute(self):
        """Computes for the request that waits for it."""
        secret, token = os.urandom(32), os.urandom(32)
        said = self.line(" ".join(["compute", *(word.hex() for word in (secret, *public_words(secret)[:2], token))]))
        self.asked.append([])
        while said and said[-1][0] == "ask":
            self.asked[-1].append(said[-1][1])
            said = self.line("answer " + answer(*said[-1][1:]))
        return said

    def packet(self, packet):
        """A packet of 64 bytes reaches the device; a request that is complete is computed for, and decided on."""
        said = self.line("packet " + packet.hex())
        if any(words[0] == "computes" for words in said):
            said = said + self.compute()
        if self.consent is not None and any(words[0] == "waits" for words in said):
            said = said + self.decide()
        return said

    def restart(self):
        """The process ends, and another one begins with what it saved."""
        saved, pin = self.line("save")
        assert (saved[0], pin[0]) == ("saved", "pin") and self.close() == 0
        self.begin()
        assert self.line("load " + saved[1]) == [] and self.line("load-pin " + pin[1]) == []


class SoftPinKey:
    """The key with the calls of `pin_key.PinKey`."""

    def __init__(self, program, packed=False):
        self.key = PinSoftkey(program, *["self-attestation"] * packed)

    def packet(self, packet):
        self.key.packet(packet)
        sent = list(self.key.packets)
        self.key.packets.clear()
        return sent

    def power_cycle(self):
        assert self.key.line("power") == []

    def close(self):
        assert self.key.close() == 0
