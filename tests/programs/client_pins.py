#!/usr/bin/python3
"""Drives the program of crates/client_main over a key with a PIN (clients/pin_key.py), and over `softkey pin` where it is named:
tests/programs/client_pins.py PROGRAM [SOFTKEY]. PINs set, changed, wrong and blocked, registrations and sign-ins by them and by the key's own
verification, by both protocols, with and without permissions; and what stands in the lines: the PIN, its hash and what is computed of them
in none but those that ask the host. The last line is 'N passed, M failed'."""
import hashlib
import os
import subprocess
import sys
from collections import deque
from pathlib import Path

top = Path(__file__).resolve().parents[2]
subprocess.run([top / "python" / "prepare"], check=True)
sys.path[:0] = [str(top / "tests" / "shared"), str(top / "python"), str(top / "clients")]
from asked_by_lines import Checks, Program  # noqa: E402
from garvoeng import Server  # noqa: E402
from garvoeng.client_host import computed  # noqa: E402
from garvoeng.forms import from_text, to_text  # noqa: E402
from pin_key import PinKey  # noqa: E402
from softkey_pins import SoftPinKey  # noqa: E402

RP_ID, ORIGIN = "example.com", "https://login.example.com"
PIN, OTHER, WRONG = "a PIN of mine", "séame ouvre-toi", "0000"


def bytes_in(value):
    """The bytes of each text of a value of JSON, as it stands and out of base64url."""
    if isinstance(value, dict):
        value = list(value.items())
    if isinstance(value, (list, tuple)):
        for one in value:
            yield from bytes_in(one)
    elif isinstance(value, str):
        yield value.encode()
        try:
            yield from_text(value, "")
        except Exception:  # it is no base64url
            return


class Host(Program):
    """A client, a key and a site; the user enters these PINs, one after the other."""

    def __init__(self, tests, key, **how):
        super().__init__([tests.program])
        self.tests, self.key, self.how, self.pins = tests, key, how, []
        self.secrets, self.asked, self.needs = set(), 0, []
        self.server, self.table = Server(RP_ID, [ORIGIN], profile="level3"), {}

    def hides(self, *secrets):
        """From now on these stand in no line that does not ask."""
        self.secrets.update(secret for secret in secrets if len(secret) >= 4)

    def hides_pin(self, pin):
        raw = pin.encode()
        self.hides(raw, raw.ljust(64, b"\0"), hashlib.sha256(raw).digest()[:16])

    def ask(self, act, **members):
        answer = super().ask(act, **members)
        if answer["state"] != "asks":
            told = b"\0".join([self.said, *bytes_in(answer)])
            self.tests.check("no secret is told", [secret for secret in self.secrets if secret in told], [])
        return answer

    def act(self, act, **members):
        """The end of an act."""
        self.needs, coming = [], deque()
        answer = self.ask(act, nonce=to_text(os.urandom(8)), **members)
        while True:
            for packet in answer["send"]:
                coming.extend(self.key.packet(from_text(packet, "")))
            if answer["state"] in ("waits", "touch"):
                answer = self.ask("packet", packet=to_text(coming.popleft()))
            elif answer["state"] == "needs_pin":
                self.needs.append((answer["retries"], answer["wrong"]))
                pin = self.pins.pop(0)
                self.hides_pin(pin)
                answer = self.ask("pin", pin=pin)
            elif answer["state"] == "asks":
                self.asked += 1
                key, iv, text = (from_text(answer[name], "") for name in ("key", "iv", "text"))
                made = computed(answer["operation"], key, iv, text)
                if answer["operation"] in ("derive", "decrypt"):
                    self.hides(made)
                if answer["operation"] == "agree":
                    self.hides(made[64:], hashlib.sha256(made[64:]).digest())
                answer = self.ask("computed", bytes=to_text(made))
            else:
                return answer

    def register(self, *pins, user=b"account 7", **how):
        self.pins = list(pins)
        options, session = self.server.register_begin(user, "alex", "Alex", **{"user_verification": True, **how})
        answer = self.act("register", origin=ORIGIN, options=options, **self.how)
        if answer["state"] != "registered":
            return answer
        made = self.server.register_complete(session, answer["response"], is_registered=self.table.__contains__)
        self.table[made.credential.id] = made.credential
        return made

    def sign_in(self, *pins, **how):
        self.pins = list(pins)
        options, session = self.server.authenticate_begin(user_verification=True, **how)
        answer = self.act("sign_in", origin=ORIGIN, options=options, **self.how)
        if answer["state"] != "signed_in":
            return answer
        return self.server.authenticate_complete(session, answer["response"], credential=self.table.get)

    def set_pin(self, new):
        self.hides_pin(new)
        return self.act("set_pin", new_pin=new)

    def change_pin(self, new, *pins):
        self.hides_pin(new)
        self.pins = list(pins)
        return self.act("change_pin", new_pin=new)

    def end(self):
        self.tests.check("the end", self.ended(), (0, b""))


class Tests(Checks):
    def refused(self, what, answer, name):
        self.check(what, (answer["state"], answer.get("name")), ("refused", name))


class PrefersOne(SoftPinKey):
    """`softkey pin`, whose getInfo is turned so that it prefers protocol one."""

    def packet(self, packet):
        return [sent.replace(b"\x06\x82\x02\x01", b"\x06\x82\x01\x02") for sent in super().packet(packet)]


def ceremonies(tests, key, kind):
    """A first PIN, another one, and ceremonies by it."""
    host = Host(tests, key)
    tests.refused(f"no PIN yet {kind}", host.register(), "no_verification")
    tests.refused(f"none to change {kind}", host.change_pin(OTHER), "pin_not_set")
    for new, name in (("123", "pin_too_short"), ("1" * 64, "pin_too_long"), ("1234\0", "pin_ends_in_zero")):
        tests.refused(f"the PIN {new!r} {kind}", host.set_pin(new), name)
    tests.check(f"set {kind}", host.set_pin(PIN)["state"], "pin_set")
    tests.refused(f"set again {kind}", host.set_pin(PIN), "pin_already_set")
    made = host.register(PIN)
    tests.check(f"registered {kind}", (made.user_verified, host.needs), (True, [(8, False)]))
    done = host.sign_in(WRONG, OTHER, PIN, allow=[made.credential.id], user=b"account 7")
    tests.check(f"signed in {kind}", (done.user_verified, host.needs), (True, [(8, False), (7, True), (6, True)]))
    tests.check(f"changed {kind}", (host.change_pin(OTHER, WRONG, PIN)["state"], [wrong for _, wrong in host.needs]), ("pin_set", [False, True]))
    done = host.sign_in(OTHER)
    tests.check(f"signed in by the other PIN {kind}", (done.user_verified, done.credential.user), (True, b"account 7"))
    tests.refused(f"after three wrong ones {kind}", host.sign_in(WRONG, WRONG, WRONG), "power_cycle")
    tests.refused(f"before it is plugged in anew {kind}", host.sign_in(OTHER), "power_cycle")
    host.key.power_cycle()
    tests.check(f"and then {kind}", host.sign_in(OTHER).user_verified)
    tests.check("the host was asked", host.asked > 0)
    host.end()


def blocked(tests):
    """A key that is blocked for good, and one that is cancelled while its PIN is asked for."""
    host = Host(tests, PinKey(pin=PIN, pin_retries=2))
    tests.refused("the last attempt", host.register(WRONG, WRONG), "pin_blocked")
    tests.refused("no attempt is left", host.register(PIN), "pin_blocked")
    host.end()


def built_in(tests):
    """The key's own verification, by a token and by the option `uv`, and the PIN in its place."""
    for token in (True, None):
        for use, needs in ((None, []), (False, [(8, False)])):
            host = Host(tests, PinKey(pin=PIN, uv=True, token=token), **({} if use is None else {"built_in": use}))
            made = host.register(PIN)
            tests.check(f"registered {token} {use}", (made.user_verified, host.needs), (True, needs))
            done = host.sign_in(PIN, allow=[made.credential.id], user=b"account 7")
            tests.check(f"signed in {token} {use}", (done.user_verified, host.needs), (True, needs))
            host.end()


def main():
    tests = Tests(sys.argv[1])
    for protocols in ((1,), (2,), (2, 1), (3, 1)):
        for token in (True, None):
            ceremonies(tests, PinKey(protocols=protocols, token=token), (protocols, token))
    for key in (SoftPinKey, PrefersOne) if len(sys.argv) > 2 else ():
        ceremonies(tests, key(sys.argv[2]), key.__name__)
    blocked(tests)
    built_in(tests)
    return tests.verdict()


sys.exit(main())
