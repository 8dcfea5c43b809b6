"""Prints the ceremonies of recorded.json, which Chromium made, and ceremonies of RSA keys that `cryptography` made, as
lines for c/ceremonies.c: ceremonies.py. A word is bytes in hexadecimal after =, or - for none."""
import json
from pathlib import Path

from device import RS256, Device
from garvoeng.forms import from_text, to_text

RECORDED = json.loads((Path(__file__).parent / "recorded.json").read_text())
USER = b"account 7"


def word(value):
    """A word: of bytes, of base64url, or of a flag."""
    if value is None or value is False:
        return "-"
    return "=" + (b"" if value is True else from_text(value, "word") if isinstance(value, str) else value).hex()


def told(kind, *values):
    print(kind, *map(word, values))


def registration(session, made, is_attested):
    numbers = bytes(-number % 256 for number in session["algorithms"])
    told("registration", session["user_verification"], numbers, session["challenge"], session["user"], made["rawId"],
         made["response"]["attestationObject"], made["response"]["clientDataJSON"], is_attested)


def sign_in(session, made):
    response = made["response"]
    told("sign-in", session["user_verification"], session["challenge"], session["user"], *(session["allow"] or [None]),
         response.get("userHandle"), response["authenticatorData"], response["signature"], response["clientDataJSON"])


def of_rsa(bits, exponent):
    """Two registrations of a key, the second attested by itself, and two sign-ins after each, with the account known and
    not."""
    device = Device(RS256, rp_id="localhost", origin=RECORDED["origin"], bits=bits, exponent=exponent)
    session = {"challenge": to_text(b"\1" * 32), "user": to_text(USER), "user_verification": True, "algorithms": [RS256]}
    for packed in (False, True):
        registration(session, device.register(session, packed=packed), packed)
        for account, handle in ((session["user"], None), (None, USER)):
            begun = {**session, "user": account, "allow": [to_text(device.id)]}
            sign_in(begun, device.sign_in(begun, user=handle))


told("party", b"localhost", RECORDED["origin"].encode())
for visit in RECORDED["visits"]:
    registration(visit["registration"]["session"], visit["registration"]["response"], False)
    for line in visit["sign_ins"]:
        sign_in(line["session"], line["response"])
for bits, exponent in ((2048, 65537), (2048, 3), (3072, 65537), (4096, 65537)):
    of_rsa(bits, exponent)
