"""Responses as a hostile page sends them: each is a response of a device with one thing changed. `Server`, `StoredServer` and
the program over lines are tried with the same ones."""
import json

from garvoeng.forms import from_text, to_text


def nested(depth, of=list):
    """A list or an object that nests so deep."""
    value = of()
    for _ in range(depth - 1):
        value = [value] if of is list else {"id": value}
    return value


VALUES = [
    None, True, False, 0, 1, -1, 7.5, 1e308, float("nan"), float("inf"), float("-inf"), 2**53 + 1, 2**64, -2**63 - 1, 10**400,
    "", "A", "AA", "AAAAA", "=", "====", "public-key", "Public-Key", "public-key ", "publickey", "null", "undefined", "\0",
    "\ud800", "\udfff\ud800", "\u212a", "\uff21\uff21", "e\u0301", "\r\n", " ", "A" * 1_400, "A" * 65_536, "A" * 70_001, "-" * 88,
    "{}", "[]", '{"id":1}', "__proto__", "toString", "\u2028", "'", '"', "\\", "<script>", "%00", "../" * 9,
    [], [[]], [None], [0] * 32, ["AA"], ["AA", "AA"], list(range(256)), {}, {"": ""}, {"id": "AA"}, {"length": 32},
    {"0": 65, "length": 1}, {"type": "Buffer", "data": [65, 65]}, {"__proto__": {}}, {"toString": "AA"},
    nested(20), nested(126), nested(200), nested(300), nested(700), nested(20, dict), nested(200, dict), nested(700, dict),
]
"""JSON's values of each kind, at sizes and depths that readers stumble over."""

SPELLINGS = [
    lambda text: text + "=", lambda text: text + "==", lambda text: text + "=" * 40, lambda text: "=" + text,
    lambda text: text + " ", lambda text: " " + text, lambda text: text + "\n", lambda text: text[:9] + "\r\n" + text[9:],
    lambda text: text + "\0", lambda text: text[:-1], lambda text: text[1:], lambda text: text + "A", lambda text: text + "AA",
    lambda text: text + "AAAA", lambda text: text * 2, lambda text: text.swapcase(), lambda text: text[::-1],
    lambda text: text.replace("A", "\uff21") + "\uff21", lambda text: "data:," + text, lambda text: text[:4] + "+" + text[5:],
    lambda text: text[:4] + "/" + text[5:], lambda text: text[:4] + "." + text[5:], lambda text: text[:4] + "%2D" + text[5:],
    lambda text: text + "\u200b", lambda text: "\ufeff" + text, lambda text: json.dumps(text), lambda text: list(text),
    lambda text: {"base64url": text}, lambda text: from_text(text, "it").hex(), lambda text: "0x" + from_text(text, "it").hex(),
    lambda text: list(from_text(text, "it")), lambda text: text + text[-1], lambda text: text.upper(),
]
"""Other spellings of bytes than the one."""


def trailing_bits(text):
    """The same bytes with bits set that no byte has, where the text leaves some."""
    letters = "ABCDEFGHIJKLMNOPQRSTUVWXYZabcdefghijklmnopqrstuvwxyz0123456789-_"
    return [text[:-1] + letters[letters.index(text[-1]) + 1]] if len(text) % 4 else []


def client_data_changes(text):
    """Client data that says something else, or nothing."""
    said = json.loads(from_text(text, "client data"))
    for name in ("type", "challenge", "origin"):
        for value in VALUES:
            yield f"{name} in the client data is {value!r:.40}", to_text(json.dumps({**said, name: value}).encode())
        yield f"no {name} in the client data", to_text(json.dumps({**said, name: 0, "": said[name]}).encode())
    whole = from_text(text, "client data")
    for change in (whole[:-1], whole + b"}", b"[" + whole + b"]", b"", b"null", b"\xff" + whole, whole.replace(b'"', b"'"),
                   whole.decode().encode("utf-16"), b"[" * 10_000, b'{"a":' * 5_000, whole + b"\0"):
        yield f"client data is {change!r:.40}", to_text(change)


def changes(response):
    """Pairs of what was changed and the response. Each differs in a member that the standard fixes."""
    parts = response["response"]
    for value in [*VALUES, *map(json.dumps, (response, parts))]:
        yield f"the response is {value!r:.40}", value
        yield f"its parts are {value!r:.40}", {**response, "response": value}
    for name in ("id", "rawId", "type"):
        yield f"no {name}", {key: value for key, value in response.items() if key != name}
        for value in VALUES:
            if value != response[name]:
                yield f"{name} is {value!r:.40}", {**response, name: value}
        for number, spelling in enumerate(SPELLINGS):
            if name != "type":
                yield f"{name} in spelling {number}", {**response, name: spelling(response[name])}
    for value in VALUES:
        if not isinstance(value, dict):
            yield f"clientExtensionResults is {value!r:.40}", {**response, "clientExtensionResults": value}
        if not isinstance(value, (str, type(None))):
            yield f"authenticatorAttachment is {value!r:.40}", {**response, "authenticatorAttachment": value}
    for name, text in parts.items():
        def told(what, value):
            return f"{name} {what}", {**response, "response": {**parts, name: value}}
        if name != "userHandle":
            yield f"no {name}", {**response, "response": {key: value for key, value in parts.items() if key != name}}
        for value in VALUES:
            if not (name == "userHandle" and value is None):
                yield told(f"is {value!r:.40}", value)
        for number, spelling in enumerate(SPELLINGS):
            yield told(f"in spelling {number}", spelling(text))
        for value in trailing_bits(text):
            yield told("with trailing bits", value)
    for what, value in client_data_changes(parts["clientDataJSON"]):
        yield what, {**response, "response": {**parts, "clientDataJSON": value}}


def passed_over(response):
    """The same of members that no site has to look at: each such response says the same."""
    parts = response["response"]
    for value in VALUES:
        yield f"an unknown member is {value!r:.40}", {**response, "extra": value, "response": {**parts, "extra": value}}
        yield f"the public key is {value!r:.40}", {**response, "response": {**parts, "publicKey": value, "transports": value}}
        if isinstance(value, dict):
            yield f"extension results are {value!r:.40}", {**response, "clientExtensionResults": value}
        if isinstance(value, (str, type(None))):
            yield f"the attachment is {value!r:.40}", {**response, "authenticatorAttachment": value}
