"""The contents of a response for display, as JSON values. Nothing here verifies it: the library does."""
from __future__ import annotations

import base64
import json
import struct
from typing import Any, Callable, Dict, List, NamedTuple, Optional, Sequence, Tuple

IsCanonical = Callable[[bytes], bool]

_DEEPEST = 16
# What nests deeper is no readable client data either.
_DEEPEST_SHOWN = 126
_FLAGS = (("UP", "user present"), ("RFU1", "reserved"), ("UV", "user verified"), ("BE", "eligible for backup"),
          ("BS", "backed up now"), ("RFU2", "reserved"), ("AT", "a credential is attested"), ("ED", "extensions follow"))
_KEY_TYPES = {"1": "OKP", "2": "EC2", "3": "RSA"}
_ALGORITHMS = {"-7": "ES256", "-8": "EdDSA", "-35": "ES384", "-36": "ES512", "-37": "PS256", "-257": "RS256", "-65535": "RS1"}
_CURVES = {"1": "P-256", "2": "P-384", "3": "P-521", "6": "Ed25519", "7": "Ed448"}


class Special(NamedTuple):
    """A CBOR item that has no Python value: a tag, a float, another simple value."""

    text: str


class Entries:
    """A CBOR map. Its keys may be any items, and may repeat."""

    def __init__(self, pairs: Sequence[Tuple[Any, Any]]) -> None:
        self.pairs = pairs

    def get(self, key: Any) -> Any:
        """The value of the first pair whose key is this number or text, or `Special` without a text."""
        return next((value for one, value in self.pairs if type(one) is type(key) and one == key), _ABSENT)


_ABSENT = Special("")


def _fault(at: int) -> ValueError:
    return ValueError(f"at byte {at} no CBOR can be read")


def _simple(value: bytes, number: int, start: int, end: int) -> Any:
    size = end - start
    if size >= 2:
        return Special(_float(struct.unpack({2: ">e", 4: ">f", 8: ">d"}[size], value[start:end])[0]))
    return {20: False, 21: True, 22: None}.get(number, Special(f"simple({number})"))


def _float(number: float) -> str:
    if number != number or number in (float("inf"), float("-inf")):
        return "NaN" if number != number else "Infinity" if number > 0 else "-Infinity"
    return str(int(number)) if number.is_integer() and abs(number) < 1e21 else repr(number)


def item_at(value: bytes, at: int, depth: int = 0) -> Tuple[Any, int]:
    """The CBOR item at an offset, and where it ends. Raises ValueError if there is none."""
    if depth > _DEEPEST or at >= len(value) or value[at] & 31 > 27:
        raise _fault(at)
    major, short = value[at] >> 5, value[at] & 31
    end = at + 1 + (0 if short < 24 else 1 << (short - 24))
    if end > len(value):
        raise _fault(at)
    number = short if short < 24 else int.from_bytes(value[at + 1:end], "big")
    if major in (0, 1):
        return (number if major == 0 else -1 - number), end
    if major in (2, 3):
        if end + number > len(value):
            raise _fault(at)
        return _string(value[end:end + number], major == 3), end + number
    if major in (4, 5):
        return _list(value, end, number, depth, major == 5)
    if major == 7:
        return _simple(value, number, at + 1, end), end
    tagged, end = item_at(value, end, depth + 1)
    return Special(f"{number}({diagnostic(tagged)})"), end


def _string(value: bytes, is_text: bool) -> Any:
    if not is_text:
        return value
    try:
        return value.decode()
    except UnicodeDecodeError:
        return Special("a text that is not UTF-8")


def _list(value: bytes, end: int, count: int, depth: int, is_map: bool) -> Tuple[Any, int]:
    made: List[Any] = []
    for _ in range(2 * count if is_map else count):
        one, end = item_at(value, end, depth + 1)
        made.append(one)
    return (Entries(list(zip(made[::2], made[1::2]))) if is_map else made), end


def diagnostic(value: Any) -> str:
    """An item in diagnostic notation (RFC 8949, section 8)."""
    if isinstance(value, Special):
        return value.text
    if isinstance(value, bytes):
        return f"h'{value.hex()}'"
    if isinstance(value, list):
        return f"[{', '.join(map(diagnostic, value))}]"
    if isinstance(value, Entries):
        return "{" + ", ".join(f"{diagnostic(key)}: {diagnostic(one)}" for key, one in value.pairs) + "}"
    return json.dumps(value, ensure_ascii=False)


def algorithm_text(number: str) -> str:
    """The algorithm that a COSE key or a statement names, in diagnostic notation, with its name."""
    return f"{_ALGORITHMS[number]} ({number})" if number in _ALGORITHMS else number


def _algorithm_in(value: Any) -> Optional[str]:
    return None if value is _ABSENT else algorithm_text(diagnostic(value))


def _refuse(name: str) -> None:
    raise ValueError(name)


def _nests(value: Any, depth: int) -> bool:
    inner = value.values() if isinstance(value, dict) else value if isinstance(value, list) else None
    return inner is not None and (depth == 0 or any(_nests(one, depth - 1) for one in inner))


def shallow(value: Any) -> Any:
    """A JSON value for display, with None in place of one that nests too deep to show."""
    return None if _nests(value, _DEEPEST_SHOWN) else value


def client_data_of(value: bytes) -> Dict[str, Any]:
    """The client data: its text, its members if it is a JSON object, and what is wrong with it if it is not."""
    made: Dict[str, Any] = {"size": len(value), "text": None, "members": None, "fault": None}
    try:
        made["text"] = value.decode()
    except UnicodeDecodeError:
        return {**made, "fault": "it is not UTF-8"}
    try:
        said = json.loads(made["text"], parse_constant=_refuse)
    except RecursionError:
        return {**made, "fault": "it nests too deep"}
    except ValueError:
        return {**made, "fault": "it is not JSON"}
    if not isinstance(said, dict):
        return {**made, "fault": "it is not an object of JSON"}
    return {**made, "fault": "it nests too deep"} if _nests(said, _DEEPEST_SHOWN + 1) else {**made, "members": said}


def flags_text(byte: int) -> str:
    """The names of the flags that are set."""
    return ", ".join(name for bit, (name, _) in enumerate(_FLAGS) if byte >> bit & 1) or "none is set"


def _flags_of(byte: int) -> Dict[str, Any]:
    bits = [{"name": name, "means": means, "set": bool(byte >> bit & 1)} for bit, (name, means) in enumerate(_FLAGS)]
    return {"hex": f"{byte:02x}", "text": flags_text(byte), "bits": bits}


def _key_member(label: Any, value: Any, is_rsa: bool) -> Dict[str, str]:
    shown = value.hex() if isinstance(value, bytes) else diagnostic(value)
    at = label if type(label) is int else None
    if at == 1:
        return {"name": "key type", "value": _KEY_TYPES.get(shown, shown)}
    if at == 3:
        return {"name": "algorithm", "value": algorithm_text(shown)}
    if at == -1 and not is_rsa:
        return {"name": "curve", "value": _CURVES.get(shown, shown)}
    names = {-1: "modulus", -2: "exponent"} if is_rsa else {-2: "x", -3: "y"}
    return {"name": names[at] if at in names else f"label {diagnostic(label)}", "value": shown}


def _key_of(value: bytes, item: Any, is_canonical: IsCanonical) -> Dict[str, Any]:
    pairs, own = (item.pairs, item) if isinstance(item, Entries) else ((), Entries(()))
    return {"size": len(value), "cose": value.hex(), "canonical": is_canonical(value), "algorithm": _algorithm_in(own.get(3)),
            "members": [_key_member(label, one, own.get(1) == 3) for label, one in pairs], "diagnostic": diagnostic(item)}


def _attested_of(value: bytes, is_canonical: IsCanonical) -> Tuple[Dict[str, Any], int]:
    """The attested credential data, from byte 37 of the authenticator data on, and where they end."""
    if len(value) < 55:
        raise ValueError(f"at byte {len(value)} it ends, before the credential id")
    size = int.from_bytes(value[53:55], "big")
    end = 55 + size
    if end > len(value):
        raise ValueError(f"at byte {len(value)} it ends, within the credential id of {size} bytes")
    key, after = item_at(value, end)
    return {"aaguid": value[37:53].hex(), "id": value[55:end].hex(), "key": _key_of(value[end:after], key, is_canonical)}, after


def authenticator_data_of(value: bytes, is_canonical: IsCanonical) -> Dict[str, Any]:
    """Authenticator data as far as they can be read, and what is wrong if they can't. `is_canonical` is the library's."""
    made: Dict[str, Any] = {"size": len(value), "rp_id_hash": None, "flags": None, "sign_count": None, "attested": None,
                            "extensions": None, "fault": None}
    if len(value) < 37:
        return {**made, "fault": f"they have {len(value)} bytes, and not 37 or more"}
    byte, end = value[32], 37
    made.update(rp_id_hash=value[:32].hex(), flags=_flags_of(byte), sign_count=int.from_bytes(value[33:37], "big"))
    try:
        if byte & 0x40:
            made["attested"], end = _attested_of(value, is_canonical)
        if byte & 0x80:
            item, after = item_at(value, end)
            own, end = value[end:after], after
            made["extensions"] = {"size": len(own), "canonical": is_canonical(own), "diagnostic": diagnostic(item)}
        if end < len(value):
            made["fault"] = f"{len(value) - end} bytes follow: {value[end:].hex()}"
    except ValueError as error:
        made["fault"] = str(error)
    return made


def _pem(value: bytes) -> str:
    text = base64.b64encode(value).decode()
    lines = "\n".join(text[at:at + 64] for at in range(0, len(text), 64))
    return f"-----BEGIN CERTIFICATE-----\n{lines}\n-----END CERTIFICATE-----"


def attestation_of(value: bytes, is_canonical: IsCanonical) -> Tuple[Dict[str, Any], bytes]:
    """An attestation object as far as it can be read: its format and its statement, with the certificates as they are, and its
    authenticator data."""
    made: Dict[str, Any] = {"size": len(value), "canonical": is_canonical(value), "format": None, "statement": None, "algorithm": None,
                            "signature": None, "certificates": [], "auth_data": None, "fault": None}
    try:
        item, end = item_at(value, 0)
    except ValueError as error:
        return {**made, "fault": str(error)}, b""
    if not isinstance(item, Entries):
        return {**made, "fault": "it is no map"}, b""
    form, statement, auth_data = item.get("fmt"), item.get("attStmt"), item.get("authData")
    own = statement if isinstance(statement, Entries) else Entries(())
    signature, listed = own.get("sig"), own.get("x5c")
    certificates = [one for one in listed if isinstance(one, bytes)] if isinstance(listed, list) else []
    made.update(
        format=None if form is _ABSENT else diagnostic(form), statement=None if statement is _ABSENT else diagnostic(statement),
        algorithm=_algorithm_in(own.get("alg")), signature=signature.hex() if isinstance(signature, bytes) else None,
        certificates=[{"size": len(one), "pem": _pem(one)} for one in certificates],
        auth_data=auth_data.hex() if isinstance(auth_data, bytes) else None, fault=f"{len(value) - end} bytes follow it" if end < len(value) else None)
    return made, auth_data if isinstance(auth_data, bytes) else b""
