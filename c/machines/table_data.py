"""Writes what c/machines/table.c judges, as C: table_data.py > table_data.h. The malformed responses of
tests/crates/site_tests/malformed.rt.txt, what Chromium and Firefox made (recorded.json, firefox.json), and RSA keys of Python's
`cryptography`.

A record is its kind, flags (16 bits), the key's algorithm and the counter (32 bits each), and its members, each a size of 16
bits and its bytes; numbers are little-endian. A change is kind 3, the member and how it is changed, and applies to the record
before it. Kind 0 ends a group."""
import json
import re
import struct
import subprocess
import sys
from pathlib import Path

here = Path(__file__).resolve().parent
top = here.parents[1]
subprocess.run([top / "python" / "prepare"], check=True)
sys.path[:0] = [str(top / "python"), str(top / "python" / "tests")]
from device import RS256, Device  # noqa: E402
from garvoeng.forms import from_text, to_text  # noqa: E402

SIGN_IN, REGISTRATION, CHANGE, END = 1, 2, 3, 0
HOW = {"01": 1, "80": 2, "cut": 3}
OPEN, SESSION, UV = 1, 2, 4
USER, ALLOW, CREDENTIAL, KNOWN, ELIGIBLE, RESPONSE_USER, VERIFIED = 8, 16, 32, 64, 128, 512, 1024
LEVEL3, FRAMED, ASKED, CONDITIONAL = 2048, 4096, 8192, 16384
ACCEPTED, OFFERED, FREE = 8 | 16, {-7: 32, -8: 64, -257: 128}, 256


def record(kind, flags, algorithm, count, *members):
    return struct.pack("<BHiI", kind, flags, algorithm, count) + b"".join(struct.pack("<H", len(one)) + one for one in members)


def text(value):
    return b"" if value is None else from_text(value, "member")


def key_of(data):
    """Algorithm, x and y of the COSE key in authenticator data with an attested credential."""
    key = data[55 + int.from_bytes(data[53:55], "big"):]
    if key[3:5] == b"\x03\x26":
        return -7, key[10:42], key[45:77]
    if key[3:5] == b"\x03\x27":
        return -8, key[10:42], b""
    size = int.from_bytes(key[9:11], "big")
    exponent = key[11 + size:]
    return -257, key[11:11 + size], exponent[2:2 + (exponent[1] & 15)]


def attested(item):
    """The authenticator data of an attestation object."""
    at = item.index(b"hauthData") + 9
    return item[at + (2 if item[at] == 0x58 else 3):]


def visited(rp_id, origin, visit):
    """A registration and the sign-ins after it."""
    session, made = visit["registration"]["session"], visit["registration"]["response"]
    item, user = text(made["response"]["attestationObject"]), text(session["user"])
    data, id = attested(item), text(made["rawId"])
    algorithm, x, y = key_of(data)
    flags = OPEN | SESSION | ACCEPTED | FREE | (UV if session["user_verification"] else 0)
    for offered in session["algorithms"]:
        flags |= OFFERED[offered]
    for more in (0, LEVEL3, LEVEL3 | FRAMED | ASKED | CONDITIONAL):
        yield record(REGISTRATION, flags | more, algorithm, 0, rp_id, origin, text(session["challenge"]), user, id, x, y, item,
                     text(made["response"]["clientDataJSON"]), b"", b"")
    count = int.from_bytes(data[33:37], "big")
    for line in visit["sign_ins"]:
        session, answer = line["session"], line["response"]["response"]
        allow, handle = session["allow"], answer.get("userHandle")
        flags = OPEN | SESSION | CREDENTIAL | KNOWN | (UV if session["user_verification"] else 0)
        flags |= (USER if session["user"] else 0) | (ALLOW if allow else 0) | (ELIGIBLE if data[32] & 8 else 0)
        flags |= RESPONSE_USER if handle is not None else 0
        signed = text(answer["authenticatorData"])
        for more in (0, LEVEL3, LEVEL3 | FRAMED):
            yield record(SIGN_IN, flags | more, algorithm, count, rp_id, origin, text(session["challenge"]), text(session["user"]),
                         text(allow[0]) if allow else b"", id, user, x, y, id, text(handle), signed, text(answer["signature"]),
                         text(answer["clientDataJSON"]), b"", b"")
        count = int.from_bytes(signed[33:37], "big")


def recorded(file):
    made = json.loads(file.read_text())
    for visit in made["visits"]:
        yield from visited(b"localhost", made["origin"].encode(), visit)


def rsa():
    origin = "https://localhost"
    for bits, exponent in ((2048, 65537), (2048, 3), (3072, 65537), (4096, 65537)):
        device = Device(RS256, rp_id="localhost", origin=origin, bits=bits, exponent=exponent)
        session = {"challenge": to_text(b"\1" * 32), "user": to_text(b"account 7"), "user_verification": True, "algorithms": [RS256]}
        for packed in (False, True):
            visit = {"registration": {"session": session, "response": device.register(session, packed=packed)}, "sign_ins": []}
            for account, handle in ((session["user"], None), (None, b"account 7")):
                begun = {**session, "user": account, "allow": [to_text(device.id)]}
                visit["sign_ins"].append({"session": begun, "response": device.sign_in(begun, user=handle)})
            yield from visited(b"localhost", origin.encode(), visit)


def bytes_of(word):
    if word.startswith("'"):
        return word[1:].encode()
    digits, _, times = word.partition("*")
    return bytes.fromhex(digits) * int(times or 1)


def malformed():
    lines = re.findall(r'^(?:.*r#")?([a-z-]+)\|([a-z_]+)\|([a-z0-9]+)\|(.*?)(?:"#;)?$',
                       (top / "tests" / "crates" / "site_tests" / "malformed.rt.txt").read_text(), re.M)
    x, y, challenge, flags = b"\x11" * 32, b"\x33" * 32, bytes(7) + b"\1" + bytes(24), SESSION | VERIFIED
    members = {"sign-in": ("credential", "user", "auth_data", "signature", "client_data", "message", "verified"),
               "none": ("object", "client_data", "message", "verified"), "packed": ("object", "client_data", "message", "verified")}
    for kind, names in members.items():
        parts = {name: b"" for name in names}
        for _, name, how, rest in (line for line in lines if line[0] == kind):
            if how == "is":
                parts[name] += b"".join(map(bytes_of, [rest] if rest.startswith("'") else rest.split()))
        values = list(parts.values())
        party = (b"abc", b"https://abc", challenge, b"\1")
        if kind == "sign-in":
            first = 9
            yield record(SIGN_IN, flags | USER | CREDENTIAL | RESPONSE_USER, -7, 0, *party, b"", b"\x0a", b"\1", x, y, *values)
        else:
            first = 7
            yield record(REGISTRATION, flags | ACCEPTED | OFFERED[-7] | OFFERED[-8] | FREE, -7, 0, *party, b"\x0a\x0b", x, y, *values)
        for _, name, how, _ in (line for line in lines if line[0] == kind):
            if how != "is":
                yield struct.pack("<BBB", CHANGE, first + names.index(name), HOW[how])


def shown(name, records):
    data = b"".join(records) + bytes([END])
    print(f"static const unsigned char {name}[] = {{")
    for at in range(0, len(data), 32):
        print(",".join(map(str, data[at:at + 32])) + ",")
    print("};")


shown("malformed", malformed())
shown("chromium", recorded(top / "python" / "tests" / "recorded.json"))
shown("firefox", recorded(here / "firefox.json"))
shown("rsa", rsa())
