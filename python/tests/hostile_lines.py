"""Prints the responses of hostile.py with what this package answers, for hosts in other languages: hostile_lines.py. The first
line has the relying party, its sessions and the credential, each further one a call, a response, and the answer: null where it is
accepted, else the refusal's name, or the text of `BadInput`. A number that JSON does not have is written as 1e999."""
import json
import re

from device import Device
from hostile import changes, passed_over

from garvoeng import BadInput, Refused, Server
from garvoeng.forms import to_text

# A text in base64url may have the same letters.
NO_NUMBER = re.compile(r"(?<=[\s\[:,])(-?)(?:NaN|Infinity)(?=[\s,\]}])")
RP_ID, ORIGIN, USER = "example.com", "https://example.com", b"account 7"


def line(**members):
    text = json.dumps(members)
    print(text if no_nan(members) else NO_NUMBER.sub(r"\g<1>1e999", text))


def no_nan(value):
    try:
        json.dumps(value, allow_nan=False)
    except ValueError:
        return False
    return True


def answer(call, response):
    try:
        call(response)
    except (Refused, BadInput) as refused:
        return refused.name if isinstance(refused, Refused) else refused.text
    return None


server, device = Server(RP_ID, [ORIGIN]), Device()
begun, session = server.register_begin(USER, "name")
made = device.register(begun)


def register(response):
    return server.register_complete(session, response, is_registered=lambda _: False)


credential = register(made).credential
asked, other = server.authenticate_begin(user=USER, allow=[device.id])
signed = device.sign_in(asked, user=USER)


def sign_in(response):
    return server.authenticate_complete(other, response, credential={credential.id: credential}.get)


line(rp_id=RP_ID, origin=ORIGIN,
     registration={"challenge": to_text(session.challenge), "user": to_text(USER), "user_verification": False,
                   "algorithms": list(session.algorithms)},
     sign_in={"challenge": to_text(other.challenge), "user": to_text(USER), "allow": [to_text(device.id)], "user_verification": False},
     credential={"id": to_text(credential.id), "user": to_text(USER), "algorithm": credential.algorithm, "x": to_text(credential.x),
                 "y": to_text(credential.y), "sign_count": 0, "eligible": False})
for name, call, good in (("registration", register, made), ("sign_in", sign_in, signed)):
    for table in (changes, passed_over):
        for what, response in table(good):
            line(call=name, what=what, response=response, answer=answer(call, response))
