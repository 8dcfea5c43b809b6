"""python-fido2's server (0.9) over the proved steps: `from garvoeng.compat.fido2 import Fido2Server` in place of `from fido2.server import
Fido2Server`.

Begins and values are python-fido2's own, and so are attestation statements (`verify_attestation`). A response is verified by section 7.1 or
7.2 of WebAuthn: if it does not pass a step, ValueError says which. Keys of ES256, EdDSA and RS256 are offered, and challenges have 32
bytes."""
from __future__ import annotations

from importlib import import_module
from typing import Any, Sequence

from .. import EDDSA, ES256, RS256, BadInput, Credential, Refused, RegistrationSession, RowDamaged, Server, SignInSession, answers
from ..forms import from_text

_Fido2Server: Any = import_module("fido2.server").Fido2Server
_encode = import_module("fido2.cbor").encode
_ALGORITHMS = (ES256, EDDSA, RS256)
_ANYBODY = b"\0"
"""A user handle. It is not compared, because python-fido2's calls have none."""


class _Judged:
    """Raises ValueError in place of a refusal, like python-fido2."""

    def __enter__(self) -> None:
        pass

    def __exit__(self, kind: Any, error: Any, _: Any) -> None:
        if isinstance(error, (Refused, RowDamaged)):
            raise ValueError(str(error)) from error


class Fido2Server(_Fido2Server):  # type: ignore[misc]
    """A relying party. The parameters are those of python-fido2's `Fido2Server`; `verify_origin` returns True or False."""

    def __init__(self, rp: Any, attestation: Any = None, verify_origin: Any = None, verify_attestation: Any = None) -> None:
        super().__init__(rp, attestation, verify_origin, verify_attestation)
        listed: Any = self.allowed_algorithms
        self.allowed_algorithms: Any = [one for one in listed if one.alg in _ALGORITHMS]

    def _judge(self, client_data: Any) -> Server:
        """Runs the steps for the page that the client data name, if its origin is one of the site's."""
        origin = client_data.get("origin")
        if not isinstance(origin, str) or not answers.is_true("verify_origin", self._verify(origin)):
            raise ValueError("Invalid origin in ClientData.")
        return Server(self.rp.id, [origin])

    def _session(self, state: Any) -> Any:
        challenge, required = from_text(state["challenge"], "challenge"), state["user_verification"] == "required"
        if len(challenge) != 32:
            raise BadInput(f"the challenge has {len(challenge)} bytes, and not 32")
        return challenge, required

    def register_complete(self, state: Any, client_data: Any, attestation_object: Any) -> Any:
        """Returns the authenticator data of a registration. Raises ValueError with the first step of section 7.1 that does not pass. The
        site itself checks whether the id is registered already."""
        challenge, required = self._session(state)
        offered = tuple(one.alg for one in self.allowed_algorithms)
        session = RegistrationSession(challenge, _ANYBODY, required, offered, False, False)
        attested = attestation_object.auth_data.credential_data
        with _Judged():
            self._judge(client_data).register_complete_parts(session, bytes(attestation_object), bytes(client_data),
                                                             raw_id=b"" if attested is None else attested.credential_id, is_registered=False)
        if self.attestation not in (None, "none"):
            self._verify_attestation(attestation_object, client_data.hash)
        return attestation_object.auth_data

    def authenticate_complete(self, state: Any, credentials: Sequence[Any], credential_id: bytes, client_data: Any, auth_data: Any, signature: bytes) -> Any:
        """Returns the credential that signed in. Raises ValueError with the first step of section 7.2 that does not pass. The site itself
        compares counters, because python-fido2's credentials have none."""
        challenge, required = self._session(state)
        session = SignInSession(challenge, _ANYBODY, (), required)
        found = next((one for one in credentials if one.credential_id == credential_id), None)
        stored = None if found is None else Credential.from_cose(found.credential_id, _ANYBODY, _encode(dict(found.public_key)), 0)
        with _Judged():
            self._judge(client_data).authenticate_complete_parts(session, stored, bytes(credential_id), None, bytes(auth_data), bytes(signature), bytes(client_data))
        return found
