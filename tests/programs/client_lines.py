#!/usr/bin/python3
"""Drives the program of crates/client_main as a host does, over softkey: tests/programs/client_lines.py PROGRAM SOFTKEY [COUNT].
Registrations and sign-ins with real signatures, verified by our own server and by python-fido2; choices and cancellations; hostile
lines; each byte of each packet of the key changed; each state with each act; and COUNT ceremonies in a row (10,000 if not said)
with memory that stays level. The last line is 'N passed, M failed'."""
import hashlib
import json
import os
import random
import subprocess
import sys
import time
from collections import Counter
from pathlib import Path

top = Path(__file__).resolve().parents[2]
subprocess.run([top / "python" / "prepare"], check=True)
sys.path[:0] = [str(top / "tests" / "shared"), str(top / "python"), str(top / "clients")]
from cryptography.hazmat.primitives import serialization  # noqa: E402
from cryptography.hazmat.primitives.asymmetric import ec, ed25519  # noqa: E402
from fido2.client import ClientData  # noqa: E402
from fido2.ctap2 import AttestationObject, AuthenticatorData  # noqa: E402
from fido2.server import Fido2Server  # noqa: E402
from fido2.webauthn import PublicKeyCredentialRpEntity  # noqa: E402

from asked_by_lines import Checks, Program  # noqa: E402
from garvoeng import EDDSA, ES256, Server  # noqa: E402
from garvoeng.forms import from_text, to_text  # noqa: E402
from softkey_host import Softkey  # noqa: E402

RP_ID, ORIGIN, USER = "example.com", "https://login.example.com", b"account 7"
MAX_LINE = 65_536
GOES_ON = ("waits", "touch")
REFUSALS = {"not_readable", "u2f_only", "device_error", "channel_dead", "cancelled", "status", "no_verification", "bad_point",
            "no_protocol", "option_not_offered", "message_too_long", "id_too_long", "list_too_long", "unfit", "too_many_replies",
            "pin_not_offered", "pin_not_set", "power_cycle", "pin_blocked"}


class Client(Program):
    """The program."""

    def memory(self):
        with open(f"/proc/{self.process.pid}/status") as status:
            return int(dict(line.split(":", 1) for line in status)["VmRSS"].split()[0])


class Host:
    """A client, a key on its cable, and a site."""

    def __init__(self, program, softkey, *words):
        self.client, self.key = Client([program]), Softkey(softkey, *words)
        self.server, self.table = Server(RP_ID, [ORIGIN], profile="level3"), {}
        self.heard, self.change = [], None

    def carry(self, answer):
        """Carries packets both ways, until the client waits for something else; a packet of the key may be changed on the way."""
        while True:
            for packet in answer["send"]:
                self.key.packet(from_text(packet, "send"))
            if answer["state"] not in GOES_ON or not self.key.packets:
                return answer
            packet = self.key.packets.popleft()
            self.heard.append(packet)
            if self.change is not None:
                packet = self.change(len(self.heard) - 1, packet)
            answer = self.client.ask("packet", packet=to_text(packet))

    def act(self, act, **members):
        self.heard = []
        self.key.packets.clear()
        return self.carry(self.client.ask(act, nonce=to_text(os.urandom(8)), **members))

    def register(self, user=USER, **how):
        """A registration: the site's options and session, and what the client answered."""
        options, session = self.server.register_begin(user, "alex", "Alex", **how)
        return options, session, self.act("register", origin=ORIGIN, options=options)

    def registered(self, user=USER, **how):
        """One that is taken by the site."""
        _, session, answer = self.register(user, **how)
        made = self.server.register_complete(session, answer["response"], is_registered=self.table.__contains__)
        self.table[made.credential.id] = made.credential
        return made, answer["response"]

    def sign_in(self, **how):
        options, session = self.server.authenticate_begin(**how)
        return session, self.act("sign_in", origin=ORIGIN, options=options)

    def judged(self, session, response):
        done = self.server.authenticate_complete(session, response, credential=self.table.get)
        self.table[done.credential.id] = done.credential
        return done

    def close(self):
        self.key.close()
        return self.client.ended()


class Tests(Checks):
    def __init__(self, program, softkey, count):
        super().__init__(program)
        self.softkey, self.count = softkey, count

    def host(self, *words):
        return Host(self.program, self.softkey, *words)

    def refused(self, what, answer, name, **more):
        found = {key: value for key, value in answer.items() if key not in ("text", "send")}
        self.check(what, found, {"state": "refused", "name": name, **more})


def by_python_fido2(made, response, challenge):
    """The same registration as python-fido2 reads it, and its public key."""
    parts = response["response"]
    data = ClientData(from_text(parts["clientDataJSON"], ""))
    assert data.get("type") == "webauthn.create" and data.challenge == challenge and data.data["origin"] == ORIGIN
    attested = AttestationObject(from_text(parts["attestationObject"], ""))
    assert bytes(attested.auth_data) == from_text(parts["authenticatorData"], "")
    credential = attested.auth_data.credential_data
    assert credential.credential_id == made.credential.id == from_text(response["rawId"], "") and response["id"] == response["rawId"]
    assert attested.auth_data.rp_id_hash == hashlib.sha256(RP_ID.encode()).digest()
    assert parts["publicKeyAlgorithm"] == credential.public_key[3]
    return credential


def spki(credential, algorithm):
    """The key's SubjectPublicKeyInfo by `cryptography`."""
    if algorithm == ES256:
        x, y = (int.from_bytes(credential.public_key[n], "big") for n in (-2, -3))
        key = ec.EllipticCurvePublicNumbers(x, y, ec.SECP256R1()).public_key()
    else:
        key = ed25519.Ed25519PublicKey.from_public_bytes(credential.public_key[-2])
    return key.public_bytes(serialization.Encoding.DER, serialization.PublicFormat.SubjectPublicKeyInfo)


def sign_in_by_python_fido2(credential, response, challenge):
    parts = response["response"]
    data = ClientData(from_text(parts["clientDataJSON"], ""))
    server = Fido2Server(PublicKeyCredentialRpEntity(RP_ID, "Example"), verify_origin=lambda origin: origin == ORIGIN)
    state = {"challenge": to_text(challenge), "user_verification": None}
    return server.authenticate_complete(state, [credential], from_text(response["rawId"], ""), data,
                                        AuthenticatorData(from_text(parts["authenticatorData"], "")), from_text(parts["signature"], ""))


def ceremonies(tests):
    """Registrations and sign-ins, by both algorithms, over each configuration of the key."""
    for words in ((), ("no-uv",), ("self-attestation",)):
        host = tests.host(*words)
        for algorithm in (ES256, EDDSA):
            for resident in (True, False):
                for verified in (True, False) if "no-uv" not in words else (False,):
                    for attestation in ("none", "direct"):
                        what = f"{words} {algorithm} {resident} {verified} {attestation}"
                        made, response = host.registered(os.urandom(16), algorithms=(algorithm,), resident_key=resident,
                                                         user_verification=verified, attestation=attestation, extensions={"credProps": True})
                        stored = made.credential
                        packed = "self-attestation" in words and attestation == "direct"
                        tests.check(f"registered {what}", (made.credential.algorithm, made.format, made.user_verified),
                                    (algorithm, "packed" if packed else "none", "no-uv" not in words))
                        tests.check(f"its outputs {what}", response["clientExtensionResults"], {"credProps": {"rk": resident}})
                        tests.check(f"its type {what}", (response["type"], response["authenticatorAttachment"],
                                                         response["response"]["transports"]), ("public-key", "cross-platform", ["usb"]))
                        data = json.loads(from_text(response["response"]["clientDataJSON"], ""))
                        credential = by_python_fido2(made, response, from_text(data["challenge"], ""))
                        tests.check(f"its key {what}", from_text(response["response"]["publicKey"], ""), spki(credential, algorithm))
                        begun, answer = host.sign_in(user=stored.user, allow=[stored.id], user_verification=verified)
                        tests.check(f"answered {what}", answer["state"], "signed_in")
                        done = host.judged(begun, answer["response"])
                        tests.check(f"signed in {what}", (done.credential.id, done.user_verified), (stored.id, "no-uv" not in words))
                        sign_in_by_python_fido2(credential, answer["response"], begun.challenge)
        tests.check(f"ended {words}", host.close(), (0, b""))


def options_of_all_kinds(tests):
    """The rp id's default, excluded credentials, algorithms that are not known, and requirements that a key can't meet."""
    host = tests.host("no-uv")
    made, _ = host.registered()
    options, session, answer = host.register(exclude=[made.credential.id])
    tests.refused("an excluded credential", answer, "status", status=0x19)
    host.key.consent = (True, True)
    options["excludeCredentials"] = []
    options["pubKeyCredParams"] = [{"type": "public-key", "alg": alg} for alg in (-35, -36, EDDSA)]
    tests.check("algorithms that are not known are passed over",
                host.act("register", origin=ORIGIN, options=options)["response"]["response"]["publicKeyAlgorithm"], EDDSA)
    for parameters, name in (([{"type": "public-key", "alg": -35}], "unfit"), ([{"type": "other", "alg": -7}], "unfit")):
        tests.refused("no algorithm is left", host.act("register", origin=ORIGIN, options={**options, "pubKeyCredParams": parameters}), name)
    tests.check("without algorithms ES256", host.act("register", origin=ORIGIN, options={**options, "pubKeyCredParams": []})
                ["response"]["response"]["publicKeyAlgorithm"], ES256)
    plain = {**options, "rp": {"name": "Example"}, "user": {**options["user"], "id": to_text(b"u" * 64)}}
    answer = host.act("register", origin="https://example.com:8443", options=plain)
    tests.check("the rp id is the origin's host", answer["state"], "registered")
    tests.refused("another host", host.act("register", origin="https://example.org", options=options), "rp_id_not_of_origin")
    for origin in ("http://example.com", "https://example.com/", "example.com", "https://EXAMPLE.com", "https://127.0.0.1", ""):
        tests.refused(f"the origin {origin}", host.act("register", origin=origin, options=options), "bad_origin")
        tests.refused(f"the origin {origin}", host.act("sign_in", origin=origin, options={"challenge": "AA", "rpId": RP_ID}), "bad_origin")
    for size in (0, 65):
        tests.refused(f"a user handle of {size}", host.act("register", origin=ORIGIN, options={
            **options, "user": {"id": to_text(bytes(size)), "name": "n", "displayName": "d"}}), "unfit")
    answer = host.register(user_verification=True)[2]
    tests.refused("a key that can't verify", answer, "no_verification")
    tests.refused("a PIN for a key without", host.act("set_pin", new_pin="1234"), "pin_not_offered")
    tests.refused("another PIN for a key without", host.act("change_pin", new_pin="1234"), "pin_not_offered")
    _, answer = host.sign_in(allow=[b"unknown"])
    tests.refused("no credential", answer, "status", status=0x2E)
    for policy in (1, "userVerificationOptional"):
        answer = host.act("register", origin=ORIGIN, options={**options, "extensions": {"credentialProtectionPolicy": policy, "other": 1}})
        tests.check("a policy", answer["state"] in ("registered", "refused"))
    found = host.act("information")
    tests.check("what the key tells", [found["state"], found["versions"], from_text(found["aaguid"], "")],
                ["information", ["FIDO_2_0"], b"garvoeng softkey"])
    names = {"state", "send", "versions", "extensions", "aaguid", "options", "max_message", "protocols", "max_credentials_in_list",
             "max_credential_id_length", "transports", "algorithms", "min_pin_length", "firmware_version", "remaining_credentials"}
    tests.check("each of its members", set(found), names)
    tests.check("ended", host.close(), (0, b""))


def choices(tests):
    """Several accounts: one is chosen, by its number."""
    host = tests.host()
    made = {user: host.registered(user)[0] for user in (b"first", b"second", b"third")}
    for number in range(3):
        session, answer = host.sign_in(user_verification=True)
        tests.check("a choice", answer["state"], "choose")
        users = [from_text(one["user_id"], "") for one in answer["credentials"]]
        tests.check("of all", sorted(users), sorted(made))
        tests.check("their ids", [from_text(one["id"], "") for one in answer["credentials"]], [made[user].credential.id for user in users])
        for wrong in (3, 2**63, -1, "0", None):
            tests.check(f"the choice of {wrong}", host.client.ask("choose", number=wrong)["state"], "error")
        tests.check("a packet meanwhile", host.client.ask("packet", packet=to_text(bytes(64)))["state"], "error")
        answer = host.carry(host.client.ask("choose", number=number))
        done = host.judged(session, answer["response"])
        tests.check("the one that was chosen", done.credential.user, users[number])
    session, answer = host.sign_in()
    tests.refused("cancelled", host.client.ask("cancel"), "cancelled", status=0x2D)
    tests.check("nothing is under way", host.client.ask("choose", number=0)["state"], "error")
    tests.check("ended", host.close(), (0, b""))


def cancelled(tests):
    """Keepalives and CTAPHID_CANCEL, while the user does not touch the key; a new act drops what was under way."""
    host = tests.host()
    host.key.consent = None
    answer = host.register()[2]
    tests.check("the key waits", answer["state"], "waits")
    host.key.line("wait")
    answer = host.carry({"send": [], "state": "waits"})
    tests.check("the user is to touch it", answer["state"], "touch")
    answer = host.client.ask("cancel")
    tests.check("a cancel", (answer["state"], len(answer["send"])), ("waits", 1))
    tests.refused("cancelled", host.carry(answer), "cancelled", status=0x2D)
    host.key.consent = (True, True)
    host.client.ask("information", nonce=to_text(bytes(8)))
    tests.check("a new act in place of one", host.act("information")["state"], "information")
    host.client.ask("information", nonce=to_text(bytes(8)))
    tests.refused("cancelled before there is a channel", host.client.ask("cancel"), "cancelled", status=0x2D)
    host.key.consent = (False, True)
    tests.refused("a user that denies", host.register()[2], "status", status=0x27)
    host.close()


def hostile_lines(tests):
    """Lines that are none: each is answered by an error, and what is under way goes on."""
    host, client = tests.host(), None
    client = host.client
    chance = random.Random(7)
    options, _ = host.server.register_begin(USER, "alex")
    good = {"id": 1, "act": "register", "origin": ORIGIN, "options": options, "nonce": to_text(bytes(8))}
    line = json.dumps(good).encode()

    def is_error(what, line, number=None):
        answer = client.raw(line)
        tests.check(what, (answer["id"], answer["state"], answer["send"]), (number, "error", []))

    for size in (0, 1, 2, 63, 64, 1000, 65_536):
        for _ in range(20):
            is_error(f"{size} random bytes", bytes(chance.choice([b for b in range(256) if b != 10]) for _ in range(size)))
    # The number of a line that is not read is found, where it stands whole before the line's end.
    whole = line.index(b",") + 1
    for cut in range(len(line)):
        is_error(f"cut at {cut}", line[:cut], 1 if cut >= whole else None)
    is_error("65,537 bytes", b" " * (MAX_LINE + 1))
    is_error("65,537 bytes of a line", line + b" " * (MAX_LINE + 1 - len(line)), 1)
    is_error("1,000,000 bytes", b"x" * 1_000_000)
    is_error("nested", b"[" * 30_000)
    is_error("nested", b'{"id":1,"act":' + b"[" * 200 + b"]" * 200 + b"}", 1)
    for depth, wanted in ((31, "the act has no such member"), (32, "the line nests too deep")):
        told = client.raw(json.dumps({**good, "other": json.loads("[" * depth + "]" * depth)}).encode())
        tests.check(f"nested {depth} deep in the object", told["text"], wanted)
    is_error("a lone surrogate", b'{"id":1,"act":"\\ud800"}', 1)
    for number, wanted in ((-1, None), (2**64, None), (1.5, None), ("1", None), (None, None), ([], None)):
        is_error(f"id {number}", json.dumps({**good, "id": number}).encode(), wanted)
    for wrong in ({"act": "none"}, {"act": 1}, {"act": None}, {"other": 1}, {"nonce": to_text(bytes(7))}, {"nonce": to_text(bytes(9))},
                  {"nonce": "AAAAAAAAAA="}, {"nonce": None}, {"built_in": 1}, {"origin": None}, {"origin": 7}, {"options": None},
                  {"options": []}, {"options": {}}, {"packet": ""}, {"pin": "1"}):
        is_error(f"{wrong}", json.dumps({**good, **wrong}).encode(), 1)
    for name in ("rp", "user", "challenge"):
        for wrong in (None, 7, [], "=", {}):
            if name != "rp" or wrong != {}:
                is_error(f"options.{name} {wrong}", json.dumps({**good, "options": {**options, name: wrong}}).encode(), 1)
    for name in ("pubKeyCredParams", "excludeCredentials", "authenticatorSelection", "extensions", "attestation"):
        is_error(f"options.{name}", json.dumps({**good, "options": {**options, name: 7}}).encode(), 1)
    for size in (0, 1, 63, 65):
        is_error(f"a packet of {size}", json.dumps({"id": 5, "act": "packet", "packet": to_text(bytes(size))}).encode(), 5)
    for act, members in (("packet", {"packet": to_text(bytes(64))}), ("pin", {"pin": "1234"}), ("computed", {"bytes": ""}), ("choose", {"number": 0}),
                         ("cancel", {})):
        tests.check(f"{act} while nothing is under way", client.ask(act, **members)["state"], "error")
    widest = line + b" " * (MAX_LINE - len(line))
    tests.check("65,536 bytes", client.raw(widest)["state"], "waits")
    for act, members in (("pin", {"pin": "1234"}), ("computed", {"bytes": ""}), ("choose", {"number": 0})):
        tests.check(f"{act} while a packet is waited for", client.ask(act, **members)["state"], "error")
    answer = host.act("register", origin=ORIGIN, options=options)
    tests.check("a registration between them", answer["state"], "registered")
    tests.check("the end in the middle of a line", ended_in_a_line(tests.program, line), (0, "waits"))
    tests.check("ended", host.close(), (0, b""))


def ended_in_a_line(program, line):
    done = subprocess.run([program], input=line, capture_output=True, check=False)
    return done.returncode, json.loads(done.stdout)["state"]


def changed_packets(tests):
    """Each byte of each packet from the key changed: the act ends by a name, or goes on as if nothing had come; or what the key is
    believed to have said is other bytes of the response."""
    host = tests.host()
    for act in ("register", "sign_in", "information"):
        host.table.clear()
        host.registered(b"one")
        def ceremony():
            if act == "register":
                options, _ = host.server.register_begin(b"two", "alex", algorithms=(ES256,), resident_key=False)
                return host.act("register", origin=ORIGIN, options=options)
            if act == "sign_in":
                return host.sign_in(allow=[next(iter(host.table))])[1]
            return host.act("information")
        host.change = None
        ceremony()
        count, found = len(host.heard), Counter()
        for place in range(count):
            for byte in range(64):
                if act == "register":
                    # A key has room for so many credentials.
                    host.key.close()
                    host.key.begin()
                for turn in (0x01, 0x80, 0xFF):
                    def change(at, packet):
                        return packet[:byte] + bytes([packet[byte] ^ turn]) + packet[byte + 1:] if at == place else packet
                    host.change = change
                    answer = ceremony()
                    name = answer["state"] if answer["state"] != "refused" else answer["name"]
                    found[name] += 1
                    if answer["state"] == "refused" and name not in REFUSALS or answer["state"] == "error":
                        tests.check(f"{act}, packet {place}, byte {byte}, {turn}", answer, "a refusal by name")
                    tests.passed += 1
                    # The key is left where it was: what waits there is dropped by the next INIT.
                    host.key.line("expire")
        host.change = None
        print(f"{act}: {count} packets, each byte changed in three ways: {dict(found)}")
        tests.check(f"{act} after all", ceremony()["state"], {"register": "registered", "sign_in": "signed_in"}.get(act, act))
    tests.check("ended", host.close(), (0, b""))


def in_a_row(tests):
    """Many ceremonies in a row, with memory that stays level."""
    host = tests.host()
    made, _ = host.registered(b"one")
    levels = []
    for number in range(tests.count):
        if number % 10 == 0:
            host.table.clear()
            made, _ = host.registered(b"one")
        else:
            session, answer = host.sign_in(allow=[made.credential.id])
            host.judged(session, answer["response"])
        if number in (tests.count // 10, tests.count - 1):
            levels.append(host.client.memory())
    tests.passed += tests.count
    print(f"{tests.count} ceremonies; memory after a tenth and after all: {levels} kB")
    tests.check("memory stays level", levels[-1] <= levels[0] + 64)
    tests.check("ended", host.close(), (0, b""))


def words(tests):
    """The command line."""
    for word, wanted in (("--help", 0), ("--version", 0), ("--other", 2), ("word", 2)):
        done = subprocess.run([tests.program, word], capture_output=True, check=False, stdin=subprocess.DEVNULL)
        tests.check(f"the status of {word}", done.returncode, wanted)
        tests.check(f"where {word} is told", (bool(done.stdout), bool(done.stderr)), (wanted == 0, wanted != 0))


def main():
    tests = Tests(sys.argv[1], sys.argv[2], int(sys.argv[3]) if len(sys.argv) > 3 else 10_000)
    for part in (words, ceremonies, options_of_all_kinds, choices, cancelled, hostile_lines, changed_packets, in_a_row):
        begun = time.monotonic()
        part(tests)
        print(f"{part.__name__}: {time.monotonic() - begun:.0f} s")
    return tests.verdict()


sys.exit(main())
