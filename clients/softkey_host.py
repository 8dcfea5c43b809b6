"""A host of `softkey`: the cable, the user, and where signatures are made (by `cryptography`)."""
import os
import statistics
import subprocess
import time
from collections import defaultdict, deque

from cryptography.hazmat.primitives import hashes, serialization
from cryptography.hazmat.primitives.asymmetric import ec, ed25519

ORDER = 0xFFFFFFFF00000000FFFFFFFFFFFFFFFFBCE6FAADA7179E84F3B9CAC2FC632551
ES256, EDDSA = -7, -8


def es256_key(secret):
    """The private key of ES256 that a secret of 32 bytes stands for."""
    return ec.derive_private_key(int.from_bytes(secret, "big") % (ORDER - 1) + 1, ec.SECP256R1())


def eddsa_key(secret):
    """The private key of EdDSA that a secret of 32 bytes stands for."""
    return ed25519.Ed25519PrivateKey.from_private_bytes(secret)


def public_words(secret):
    """The public keys of a secret: x and y of ES256, x of EdDSA."""
    point = es256_key(secret).public_key().public_numbers()
    edwards = eddsa_key(secret).public_key().public_bytes(serialization.Encoding.Raw, serialization.PublicFormat.Raw)
    return [point.x.to_bytes(32, "big"), point.y.to_bytes(32, "big"), edwards]


def signature(alg, secret, message):
    """A signature of the message."""
    if alg == ES256:
        return es256_key(secret).sign(message, ec.ECDSA(hashes.SHA256()))
    return eddsa_key(secret).sign(message)


def times(each):
    """The median and the least of times in seconds."""
    return f"{statistics.median(each) * 1e6:.0f} µs, at least {min(each) * 1e6:.0f} µs"


class Softkey:
    """The process of a security key, and its user.

    `consent` is what the user gives to a request that waits, present and verified; None where the user does not decide.
    """

    def __init__(self, program, *words):
        self.command = [program, *words]
        self.process = None
        self.consent = (True, True)
        self.packets = deque()
        # of each line's name, how long each took
        self.seconds = defaultdict(list)
        self.signings = 0
        # the last lines that it told, beside packets
        self.told = deque(maxlen=100)
        self.handed = None
        self.begin()

    def begin(self):
        """Begins the process."""
        self.process = subprocess.Popen(self.command, stdin=subprocess.PIPE, stdout=subprocess.PIPE)
        self.packets.clear()

    def line(self, text):
        """Sends a line and reads its answer, up to the line of a dot."""
        begun = time.perf_counter()
        answer = self.answer(text)
        self.seconds[text.split(" ", 1)[0]].append(time.perf_counter() - begun)
        for words in answer:
            if words[0] == "out":
                self.packets.append(bytes.fromhex(words[1]))
            else:
                self.told.append(words)
        return answer

    def answer(self, text):
        """The answer to a line, as words of lines."""
        self.process.stdin.write(text.encode() + b"\n")
        self.process.stdin.flush()
        answer = []
        while True:
            line = self.process.stdout.readline().decode().rstrip("\n")
            if line == ".":
                break
            if line == "" and self.process.poll() is not None:
                raise OSError("softkey has ended")
            answer.append(line.split(" "))
        return answer

    def decide(self):
        """The user decides on the request that waits; what is to be signed is signed."""
        present, verified = self.consent
        id, secret = self.handed or (os.urandom(32), os.urandom(32))
        words = [id, secret, *public_words(secret)]
        answer = self.line(f"decide {int(present)} {int(verified)} " + " ".join(word.hex() for word in words))
        for words in answer:
            if words[0] == "sign":
                signed = signature(int(words[1]), bytes.fromhex(words[2]), bytes.fromhex(words[3]))
                self.signings += 1
                answer = answer + self.line("signature " + signed.hex())
        return answer

    def packet(self, packet):
        """A packet of 64 bytes reaches the device; a request that is complete is decided on."""
        answer = self.line("packet " + packet.hex())
        if self.consent is not None and any(words[0] == "waits" for words in answer):
            answer = answer + self.decide()
        return answer

    def restart(self):
        """The process ends, and another one begins with what it saved."""
        saved = self.line("save")[0]
        assert saved[0] == "saved" and self.close() == 0
        self.begin()
        assert self.line("load " + saved[1]) == []

    def memory(self):
        """The memory of the process and the most that it was, in kB."""
        with open(f"/proc/{self.process.pid}/status") as status:
            kept = dict(line.split(":", 1) for line in status)
        return kept["VmRSS"].split()[0], kept["VmHWM"].split()[0]

    def close(self):
        """Ends the process."""
        self.process.stdin.close()
        return self.process.wait()

    def figures(self, client, configuration):
        """Lines of a table: each line's number and times."""
        for name, each in sorted(self.seconds.items()):
            print(f"{client} | {configuration} | line {name} | {len(each)} | {times(each)}")
