"""Explains one response step by step, as the library verifies it: python -m garvoeng.explain [--json] FILE

FILE is a case in JSON, as the inspector shows it: `response`, as a browser's `toJSON()` returns it, `rp_id`, `origins` and `session`, as
`to_json` of a session returns it, or null. A sign-in also has the row as `credential`, or null: `id`, `user`, `sign_count`, `eligible`,
`retired`, and its key as `algorithm`, `x` and `y`, as `cose_key`, or as `spki_key`, which a browser's `getPublicKey()` returns. Give
`top_origins`, `profile`, `accept_none`, `accept_self`, `registered` and `full` if they differ from the defaults. Bytes are base64url text.
The output lists each step of WebAuthn, section 7.1 or 7.2, in the order of the verdict, and the bytes that decided the step that refuses.
The status is 0 if the response is accepted, 1 if it is refused, and 2 if it is not judged."""
from __future__ import annotations

import hashlib
import json
import sys
from functools import lru_cache
from pathlib import Path
from typing import Any, Dict, List, Mapping, Optional, Sequence, Tuple

from cryptography.exceptions import UnsupportedAlgorithm
from cryptography.hazmat.primitives.asymmetric.ec import EllipticCurvePublicKey
from cryptography.hazmat.primitives.asymmetric.ed25519 import Ed25519PublicKey
from cryptography.hazmat.primitives.asymmetric.rsa import RSAPublicKey
from cryptography.hazmat.primitives.serialization import Encoding, PublicFormat, load_der_public_key

from .compared import Asked, Facts, compared_at
from .decoded import attestation_of, authenticator_data_of, client_data_of, shallow
from .errors import BadInput, Refused, RowDamaged
from .forms import from_text, to_text
from .library import EDDSA, ES256, RS256, is_canonical
from .records import Credential, RegistrationSession, SignInSession
from .server import Server
from .signatures import is_valid

REGISTRATION = "registration"
SIGN_IN = "sign-in"

_PARTS = ("clientDataJSON", "attestationObject", "authenticatorData", "signature", "userHandle")
_MEMBERS = ("response", "rp_id", "origins", "top_origins", "profile", "accept_none", "accept_self", "session", "registered", "full", "credential")
_SESSIONS = {REGISTRATION: ("challenge", "user", "user_verification", "algorithms", "conditional", "attestation"),
             SIGN_IN: ("challenge", "user", "user_verification", "allow")}
_ROW = ("id", "user", "cose_key", "spki_key", "algorithm", "x", "y", "sign_count", "eligible", "retired")
_STATUS = {"accepted": 0, "refused": 1, "not judged": 2}


@lru_cache(1)
def steps() -> Dict[str, List[Dict[str, Any]]]:
    """The steps of each kind in the order of the verdict, with what each checks and what to do if it refuses."""
    made: Dict[str, List[Dict[str, Any]]] = json.loads((Path(__file__).parent / "steps.json").read_text(encoding="utf-8"))
    return made


def kind_of(response: Any) -> Optional[str]:
    """The kind of a response; None if it is of neither kind."""
    parts = response.get("response") if isinstance(response, Mapping) else None
    if not isinstance(parts, Mapping):
        return None
    if "attestationObject" in parts:
        return REGISTRATION
    return SIGN_IN if "signature" in parts or "authenticatorData" in parts else None


def _parts_of(response: Mapping[str, Any]) -> Dict[str, Optional[bytes]]:
    """The bytes of a response's members that are base64url; None for the others."""
    made: Dict[str, Optional[bytes]] = {}
    for name, text in (("rawId", response.get("rawId")), *((name, response["response"].get(name)) for name in _PARTS)):
        try:
            made[name] = from_text(text, name)
        except BadInput:
            made[name] = None
    return made


def _check_names(value: Any, what: str, names: Sequence[str]) -> None:
    if not isinstance(value, Mapping):
        raise BadInput(f"{what} is no object")
    for name in value:
        if name not in names:
            raise BadInput(f"{what} has no member {name}: it has {', '.join(names)}")


def _session_of(session: Any, kind: str) -> Any:
    if session is None:
        return None
    _check_names(session, "session", _SESSIONS[kind])
    if kind == REGISTRATION:
        return RegistrationSession.from_json({"user": "", "user_verification": False, "algorithms": [-7, -8, -257], **session})
    return SignInSession.from_json({"user": None, "allow": [], "user_verification": False, **session})


def _key_of(value: bytes) -> Tuple[int, bytes, bytes]:
    """The algorithm, x and y in SubjectPublicKeyInfo (RFC 5280, section 4.1)."""
    def digits(number: int) -> bytes:
        return number.to_bytes((number.bit_length() + 7) // 8, "big")

    try:
        key = load_der_public_key(value)
    except (ValueError, UnsupportedAlgorithm):
        key = None
    if isinstance(key, EllipticCurvePublicKey) and key.curve.name == "secp256r1":
        point = key.public_numbers()
        return ES256, point.x.to_bytes(32, "big"), point.y.to_bytes(32, "big")
    if isinstance(key, Ed25519PublicKey):
        return EDDSA, key.public_bytes(Encoding.Raw, PublicFormat.Raw), b""
    if isinstance(key, RSAPublicKey):
        numbers = key.public_numbers()
        return RS256, digits(numbers.n), digits(numbers.e)
    raise BadInput("spki_key is not the SubjectPublicKeyInfo of a key of ES256, EdDSA or RS256")


def _row_of(row: Any) -> Optional[Credential]:
    """The row of a sign-in, with the names used in JSON. Its key is given as COSE_Key bytes, as a browser returns it, or by its numbers."""
    if row is None:
        return None
    _check_names(row, "credential", _ROW)
    own: Dict[str, Any] = {"user": "", "y": "", "sign_count": 0, "eligible": None, "retired": False, **row}
    names = (from_text(own.get("id"), "credential.id"), from_text(own["user"], "credential.user"))
    rest = (own["sign_count"], own["eligible"], own["retired"])
    if "cose_key" in own:
        return Credential.from_cose(*names, from_text(own["cose_key"], "credential.cose_key"), *rest)
    if "spki_key" in own:
        algorithm, x, y = _key_of(from_text(own["spki_key"], "credential.spki_key"))
        return Credential(*names, algorithm, x, y, *rest)
    return Credential(*names, own.get("algorithm", 0), from_text(own.get("x"), "credential.x"), from_text(own["y"], "credential.y"), *rest)


def _judged(given: Mapping[str, Any], kind: str, session: Any, credential: Optional[Credential], asked: List[Asked]) -> Credential:
    """The credential to store, if the library accepts. The signature that it asked to be verified is added to `asked`."""
    def verify(algorithm: int, x: bytes, y: bytes, message: bytes, signature: bytes) -> bool:
        valid = is_valid(algorithm, x, y, message, signature)
        asked.append(Asked(algorithm, x, y, message, signature, valid))
        return valid

    registered: bool = given["registered"]
    server = Server(given["rp_id"], given["origins"], accept_none=given["accept_none"], accept_self=given["accept_self"],
                    profile=given["profile"], top_origins=given["top_origins"], verify=verify)
    if kind == REGISTRATION:
        return server.register_complete(session, given["response"], is_registered=lambda _: registered, is_full=given["full"]).credential
    return server.authenticate_complete(session, given["response"], credential=lambda _: credential).credential


def _stored_in(credential: Credential) -> Dict[str, Any]:
    """What to store if the response is accepted, in the form of `credential` in a case."""
    return {"id": to_text(credential.id), "user": to_text(credential.user), "algorithm": credential.algorithm, "x": to_text(credential.x),
            "y": to_text(credential.y), "sign_count": credential.sign_count, "eligible": credential.eligible, "retired": credential.retired}


def _client_of(given: Mapping[str, Any], kind: str, parts: Mapping[str, Optional[bytes]]) -> Dict[str, Any]:
    """What the client says besides the parts that are verified."""
    def digits(name: str) -> Optional[str]:
        value = parts[name]
        return None if value is None else value.hex()

    response = given["response"]
    made = {"id": digits("rawId"), "attachment": shallow(response.get("authenticatorAttachment")),
            "transports": shallow(response["response"].get("transports")), "extension_results": shallow(response.get("clientExtensionResults"))}
    return made if kind == REGISTRATION else {**made, "user_handle": digits("userHandle"), "signature": digits("signature")}


def _state(at: int, failed: int) -> str:
    return "not reached" if failed < 0 or at > failed else "failed" if at == failed else "passed"


def _told(kind: str, verdict: str, failed: int, facts: Optional[Facts]) -> List[Dict[str, Any]]:
    """The steps with their states: those before the one that refuses have passed, and those after it are not reached."""
    return [{"number": step["number"], "code": step["code"], "name": step["name"], "standard": step["standard"], "asks": step["asks"],
             "state": _state(at, failed), "refusal": step["text"], "when": step["when"], "advice": step["advice"],
             "bytes": [] if facts is None or verdict == "not judged" else compared_at(kind, step["name"], facts)}
            for at, step in enumerate(steps()[kind])]


def explain(case: Any) -> Dict[str, Any]:
    """Explains a response, as JSON values. `case` has the members listed above. The result has `kind`, `verdict` (`accepted`, `refused`, or
    `not judged`, and then `fault` says why), `refusal`, `steps`, each with `number`, `name`, `asks`, `state` (`passed`, `failed` or `not
    reached`) and `bytes`, which are `of` something, as `text` or in `hex`; `credential`, the one to store; and what is `decoded`."""
    kind = kind_of(case.get("response")) if isinstance(case, Mapping) else None
    if kind is None:
        return {"kind": None, "verdict": "not judged", "fault": "this is no response of a registration or a sign-in: its member response has neither "
                "attestationObject nor signature", "refusal": None, "credential": None, "decoded": None, "steps": []}
    given = {"top_origins": [], "profile": "level3", "accept_none": True, "accept_self": True, "registered": False, "full": False, "rp_id": None,
             "origins": None, **case}
    asked: List[Asked] = []
    session: Any = None
    row, stored, refused, fault = None, None, None, None
    try:
        _check_names(case, "what is given", _MEMBERS)
        session, row = _session_of(case.get("session"), kind), _row_of(case.get("credential")) if kind == SIGN_IN else None
        stored = _judged(given, kind, session, row, asked)
    except Refused as error:
        refused = error
    except (BadInput, RowDamaged, TypeError, MemoryError) as error:
        fault = str(error)
    verdict = "accepted" if stored is not None else "refused" if refused is not None else "not judged"
    numbers = [step["number"] for step in steps()[kind]]
    failed = len(numbers) if stored is not None else -1 if refused is None else numbers.index(refused.number)
    facts, decoded = _facts_of(given, kind, session, row, asked)
    return {
        "kind": kind, "verdict": verdict, "fault": fault, "steps": _told(kind, verdict, failed, facts),
        "refusal": None if refused is None else {"number": refused.number, "code": refused.name, "name": refused.step, "text": refused.text},
        "credential": None if stored is None else _stored_in(stored), "decoded": decoded,
    }


def _facts_of(given: Dict[str, Any], kind: str, session: Any, row: Optional[Credential], asked: List[Asked]) -> Tuple[Facts, Dict[str, Any]]:
    """What the steps look at, and the same for display."""
    parts = _parts_of(given["response"])
    attestation, data = attestation_of(parts["attestationObject"] or b"", is_canonical) if kind == REGISTRATION else ({}, parts["authenticatorData"] or b"")
    client_data, auth = client_data_of(parts["clientDataJSON"] or b""), authenticator_data_of(data, is_canonical)
    facts = Facts(given, session, row, parts, client_data, auth, attestation, asked[-1] if asked else None,
                  hashlib.sha256(str(given["rp_id"]).encode("utf-8", "surrogatepass")).digest())
    return facts, {"client": _client_of(given, kind, parts), "client_data": client_data, "authenticator_data": auth,
                   "attestation": attestation if kind == REGISTRATION else None}


def text_of(told: Mapping[str, Any]) -> str:
    """The result of `explain` as text lines."""
    refusal, fault = told["refusal"], told["fault"]
    said = told["verdict"] if refusal is None else f"{told['verdict']} {refusal['code']} {refusal['name']}: {refusal['text']}"
    lines = [f"{told['kind'] or 'response'} {said}" + ("" if fault is None else f": {fault}")]
    for step in told["steps"]:
        lines.append(f"{step['state']:13}{step['code']:5}{step['asks']} ({step['standard']})")
        if step["state"] == "failed":
            compared = [f"{one['of']}: " + ", in bytes ".join(part for part in (one["text"], one["hex"]) if part is not None) for one in step["bytes"]]
            lines += [" " * 18 + line for line in (*compared, f"it is refused where: {step['when']}", f"what to do: {step['advice']}")]
    return "\n".join(lines)


def main(words: Sequence[str]) -> int:
    """Explains the case in a file, and returns the status."""
    names = [word for word in words if word != "--json"]
    if len(names) != 1:
        print(__doc__, file=sys.stderr)
        return 2
    try:
        case = json.loads(Path(names[0]).read_text(encoding="utf-8"))
    except (OSError, ValueError, RecursionError) as error:
        print(f"{names[0]}: {error}", file=sys.stderr)
        return 2
    told = explain(case)
    print(json.dumps(told, indent=1) if "--json" in words else text_of(told))
    return _STATUS[told["verdict"]]


if __name__ == "__main__":
    sys.exit(main(sys.argv[1:]))
