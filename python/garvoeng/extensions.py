"""Three extensions (WebAuthn Level 3, sections 10.1.3 to 10.1.5): what a begin takes as `extensions`, and what the client answered.

    from garvoeng import extensions
    options, session = server.register_begin(user, name, extensions={**extensions.cred_props(), **extensions.prf()})
    ...
    results = extensions.results_of(response)

Nothing signs the results: a visitor can send others. The results of `prf` are secrets, which a page need not send."""
from __future__ import annotations

from dataclasses import dataclass
from typing import Any, Dict, Mapping, Optional, Sequence

from . import limits
from .answers import kind_of
from .errors import BadInput
from .forms import from_text, to_text

PRF_SIZE = 32
"""The size of a result of `prf`, in bytes."""


@dataclass(frozen=True)
class ExtensionResults:
    """What the client answered; None where it said nothing."""

    discoverable: Optional[bool]
    """Whether the credential is discoverable (`credProps.rk`)."""
    prf_enabled: Optional[bool]
    """Whether the credential has a pseudo-random function."""
    prf_first: Optional[bytes]
    """Its result for the first input: 32 bytes."""
    prf_second: Optional[bytes]
    """Its result for the second input."""
    large_blob_supported: Optional[bool]
    """Whether the credential can keep a large blob."""
    large_blob: Optional[bytes]
    """The blob that was read."""
    large_blob_written: Optional[bool]
    """Whether a blob was written."""


def _inputs(first: bytes, second: Optional[bytes]) -> Dict[str, str]:
    made = {"first": to_text(limits.check_bytes(first, "first"))}
    return made if second is None else {**made, "second": to_text(limits.check_bytes(second, "second"))}


def cred_props() -> Dict[str, Any]:
    """Asks whether the new credential is discoverable."""
    return {"credProps": True}


def prf(first: Optional[bytes] = None, second: Optional[bytes] = None, *,
        by_credential: Optional[Mapping[bytes, Sequence[bytes]]] = None) -> Dict[str, Any]:
    """Asks for a pseudo-random function, and for its results for one or two inputs. In a sign-in, `by_credential` has the inputs, one or
    two, of listed credentials by their ids."""
    made: Dict[str, Any] = {}
    if first is not None:
        made["eval"] = _inputs(first, second)
    elif second is not None:
        raise BadInput("second is given without first")
    if by_credential is not None:
        if not isinstance(by_credential, Mapping):
            raise BadInput(f"by_credential is a dict of inputs by credential ids, and not {kind_of(by_credential)}")
        made["evalByCredential"] = {to_text(limits.check_id(id, "each key of by_credential")): _listed(inputs) for id, inputs in by_credential.items()}
    return {"prf": made}


def _listed(inputs: Sequence[bytes]) -> Dict[str, str]:
    if not isinstance(inputs, (list, tuple)) or not 1 <= len(inputs) <= 2:
        raise BadInput("each value of by_credential is a list of one or two inputs")
    return _inputs(inputs[0], inputs[1] if len(inputs) == 2 else None)


def large_blob_support(required: bool = False) -> Dict[str, Any]:
    """Asks for a credential that can keep a large blob; if it is required, none is made without."""
    return {"largeBlob": {"support": "required" if limits.check_flag(required, "required") else "preferred"}}


def large_blob_read() -> Dict[str, Any]:
    """Asks for the credential's blob in a sign-in."""
    return {"largeBlob": {"read": True}}


def large_blob_write(blob: bytes) -> Dict[str, Any]:
    """Stores a blob with the credential in a sign-in that lists this credential alone."""
    return {"largeBlob": {"write": to_text(limits.check_bytes(blob, "blob"))}}


def _object(value: Any, what: str) -> Mapping[str, Any]:
    if value is None:
        return {}
    if not isinstance(value, Mapping):
        raise BadInput(f"{what} is not an object")
    return value


def _flag(value: Mapping[str, Any], name: str, what: str) -> Optional[bool]:
    found = value.get(name)
    if found is not None and not isinstance(found, bool):
        raise BadInput(f"{what}.{name} is not true or false")
    return found


def _bytes(value: Mapping[str, Any], name: str, what: str) -> Optional[bytes]:
    found = value.get(name)
    return None if found is None else from_text(found, f"{what}.{name}")


def _output(value: Mapping[str, Any], name: str) -> Optional[bytes]:
    found = _bytes(value, name, "clientExtensionResults.prf.results")
    if found is not None and len(found) != PRF_SIZE:
        raise BadInput(f"clientExtensionResults.prf.results.{name} has {len(found)} bytes, and not {PRF_SIZE}")
    return found


def results_of(response: Any) -> ExtensionResults:
    """The results in a RegistrationResponseJSON or an AuthenticationResponseJSON. Other extensions are ignored. Raises `BadInput` for a
    result that is not in its form."""
    results = _object(_object(response, "the response").get("clientExtensionResults"), "clientExtensionResults")
    properties, function, blob = (_object(results.get(name), f"clientExtensionResults.{name}") for name in ("credProps", "prf", "largeBlob"))
    outputs = _object(function.get("results"), "clientExtensionResults.prf.results")
    first, second = _output(outputs, "first"), _output(outputs, "second")
    if first is None and second is not None:
        raise BadInput("clientExtensionResults.prf.results has second without first")
    return ExtensionResults(
        _flag(properties, "rk", "clientExtensionResults.credProps"), _flag(function, "enabled", "clientExtensionResults.prf"), first, second,
        _flag(blob, "supported", "clientExtensionResults.largeBlob"), _bytes(blob, "blob", "clientExtensionResults.largeBlob"),
        _flag(blob, "written", "clientExtensionResults.largeBlob"))
