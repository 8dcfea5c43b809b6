"""What the tests of `garvoeng.client` are made over: the key of clients/pin_key.py, the program, and a site that verifies."""
import base64
import hashlib
import os
import re
import sys
from pathlib import Path

import pytest

from garvoeng import ES256, Server
from garvoeng.client import Client
from garvoeng.client_program import Program

TOP = Path(__file__).parents[2]
PROGRAM = os.environ.get("CLIENT_PROGRAM", str(TOP / "dist" / "passkey-client"))
SOFTKEY = os.environ.get("SOFTKEY", str(TOP / "dist" / "softkey"))
CLIENTS = os.environ.get("CLIENTS", str(TOP / "clients"))
if not Path(CLIENTS, "pin_key.py").exists():
    pytest.skip("CLIENTS is not there", allow_module_level=True)
sys.path.insert(0, CLIENTS)

from pin_key import Cable, PinKey  # noqa: E402

RP_ID, ORIGIN, USER = "example.com", "https://login.example.com", b"account 7"
PIN, OTHER, WRONG = "a PIN of mine", "séame ouvre-toi", "0000"
KINDS = [pytest.param({"protocols": (number,), "token": token}, id=f"protocol {number}{'' if token else ', getPinToken'}")
         for number in (1, 2) for token in (True, None)]


def client_of(cable, **how):
    """A client by the program, which knows the PIN."""
    if not Path(PROGRAM).exists():
        pytest.skip("CLIENT_PROGRAM is not there")
    return Client(cable, ORIGIN, program=PROGRAM, **{"pin": lambda retries, wrong: PIN, "timeout": 10.0, **how})


class Site:
    """A site by `Server`, with its table, and a client before it."""

    def __init__(self, client):
        self.client, self.table = client, {}
        self.server = Server(RP_ID, [ORIGIN])

    def register(self, user=USER, **how):
        options, session = self.server.register_begin(user, "alex", "Alex", attestation="direct", **{"user_verification": True, **how})
        made = self.server.register_complete(session, self.client.create(options), is_registered=self.table.__contains__)
        self.table[made.credential.id] = made.credential
        return made

    def sign_in(self, **how):
        """A key tells no user of a credential that isn't resident, so that the site has to know him, as it does where it lists ids."""
        known = self.table.get(how.get("allow", [b""])[0])
        if known is not None:
            how = {"user": known.user, **how}
        options, session = self.server.authenticate_begin(**{"user_verification": True, **how})
        done = self.server.authenticate_complete(session, self.client.get(options), credential=self.table.get)
        self.table[done.credential.id] = done.credential
        return done


def plugged(pin=PIN, *, change=None, how=None, **kind):
    """A key, its cable, and a site with a client of it."""
    key = PinKey(pin=pin, **{"algorithms": (ES256,), **kind})
    cable = Cable(key, change)
    return key, cable, Site(client_of(cable, **(how or {})))


class Lines:
    """Keeps each line of the program, in and out, while it is entered."""

    def __init__(self, monkeypatch):
        self.kept = []
        ask = Program.ask

        def asked(program, act, **members):
            answer = ask(program, act, **members)
            self.kept.append((act, members, dict(answer)))
            return answer

        monkeypatch.setattr(Program, "ask", asked)

    def texts(self):
        """Each text of each line out but of `asks`."""
        for _, _, answer in self.kept:
            if answer["state"] != "asks":
                yield from texts_of(answer)

    def tell_no(self, *secrets):
        """That none of these stands in what the program tells, as a text or as bytes."""
        for text in self.texts():
            read = base64.urlsafe_b64decode(text + "==") if re.fullmatch(r"(?:[\w-]{4})*(?:[\w-]{2,3})?", text, re.ASCII) else b""
            for secret in secrets:
                assert secret not in text.encode() and secret not in read, text


def texts_of(value):
    if isinstance(value, str):
        yield value
    elif isinstance(value, dict):
        for name, one in value.items():
            yield name
            yield from texts_of(one)
    elif isinstance(value, list):
        for one in value:
            yield from texts_of(one)


def pin_hash(pin):
    return hashlib.sha256(pin.encode()).digest()[:16]
