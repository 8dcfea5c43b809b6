"""The calls of py_webauthn (2) over the proved steps: `from garvoeng.compat.webauthn import ..` in place of `from webauthn import ..`, and
the same for `helpers`, `helpers.structs`, `helpers.cose` and `helpers.exceptions`."""
from __future__ import annotations

import os
from typing import Any, Callable, List, Mapping, Optional, Sequence, TypeVar, Union
from uuid import UUID

from ... import BadInput, Credential, Refused, RegistrationSession, RowDamaged, Server, SignInSession
from ...forms import from_text, to_text
from ...limits import check_flag, check_user
from .helpers import base64url_to_bytes, options_to_json, options_to_json_dict, parse_authentication_credential_json, parse_registration_credential_json
from .helpers.cose import COSEAlgorithmIdentifier
from .helpers.exceptions import InvalidAuthenticationResponse, InvalidRegistrationResponse, WebAuthnException
from .helpers.structs import (
    AttestationConveyancePreference, AuthenticationCredential, AuthenticatorSelectionCriteria, CredentialDeviceType, PublicKeyCredentialCreationOptions,
    PublicKeyCredentialDescriptor, PublicKeyCredentialHint, PublicKeyCredentialParameters, PublicKeyCredentialRequestOptions, PublicKeyCredentialRpEntity,
    PublicKeyCredentialUserEntity, RegistrationCredential, ResidentKeyRequirement, UserVerificationRequirement, VerifiedAuthentication, VerifiedRegistration,
)

__all__ = ["base64url_to_bytes", "generate_authentication_options", "generate_registration_options", "options_to_json", "options_to_json_dict",
           "verify_authentication_response", "verify_registration_response"]

_ALL = tuple(COSEAlgorithmIdentifier)
_ANYBODY = b"\0"
"""A user handle. It is not compared, because py_webauthn's calls have none."""
_OTHER_RP_ID = ("G8", "W11")
"""The steps at which another rp id of a list may still match the response."""
Judged = TypeVar("Judged")


def _challenge(challenge: Optional[bytes]) -> bytes:
    made = os.urandom(32) if challenge is None else challenge
    if not isinstance(made, bytes) or len(made) != 32:
        raise BadInput("challenge is not of 32 bytes: leave it out, and random ones are made")
    return made


def generate_registration_options(*, rp_id: str, rp_name: str, user_name: str, user_id: Optional[bytes] = None, user_display_name: Optional[str] = None,
                                  challenge: Optional[bytes] = None, timeout: int = 60_000,
                                  attestation: AttestationConveyancePreference = AttestationConveyancePreference.NONE,
                                  authenticator_selection: Optional[AuthenticatorSelectionCriteria] = None,
                                  exclude_credentials: Optional[Sequence[PublicKeyCredentialDescriptor]] = None,
                                  supported_pub_key_algs: Optional[Sequence[COSEAlgorithmIdentifier]] = None,
                                  hints: Optional[Sequence[PublicKeyCredentialHint]] = None) -> PublicKeyCredentialCreationOptions:
    """Returns the options for the page, for `options_to_json`. Without `user_id` its 64 bytes are random."""
    if not rp_id or not rp_name or not user_name:
        raise ValueError("rp_id, rp_name and user_name cannot be an empty string")
    algorithms = _algorithms(supported_pub_key_algs)
    selection = authenticator_selection
    if selection is not None and selection.resident_key == ResidentKeyRequirement.REQUIRED:
        selection.require_resident_key = True
    return PublicKeyCredentialCreationOptions(
        rp=PublicKeyCredentialRpEntity(id=rp_id, name=rp_name),
        user=PublicKeyCredentialUserEntity(id=os.urandom(64) if user_id is None else check_user(user_id), name=user_name, display_name=user_display_name or user_name),
        challenge=_challenge(challenge), pub_key_cred_params=[PublicKeyCredentialParameters(type="public-key", alg=one) for one in algorithms], timeout=timeout,
        exclude_credentials=list(exclude_credentials or ()), authenticator_selection=selection, hints=None if hints is None else list(hints), attestation=attestation)


def generate_authentication_options(*, rp_id: str, challenge: Optional[bytes] = None, timeout: int = 60_000,
                                    allow_credentials: Optional[Sequence[PublicKeyCredentialDescriptor]] = None,
                                    user_verification: UserVerificationRequirement = UserVerificationRequirement.PREFERRED) -> PublicKeyCredentialRequestOptions:
    """The options for the page, for `options_to_json`."""
    if not rp_id:
        raise ValueError("rp_id cannot be an empty string")
    return PublicKeyCredentialRequestOptions(challenge=_challenge(challenge), timeout=timeout, rp_id=rp_id, allow_credentials=list(allow_credentials or ()),
                                             user_verification=user_verification)


def _algorithms(listed: Optional[Sequence[int]]) -> List[COSEAlgorithmIdentifier]:
    """The items of the list that the steps know, in its order."""
    known = [COSEAlgorithmIdentifier(one) for one in (_ALL if listed is None else listed) if one in _ALL]
    if not known:
        raise BadInput("supported_pub_key_algs has none of ES256 (-7), EdDSA (-8) and RS256 (-257)")
    return known


def _judged(rp_id: Union[str, Sequence[str]], origins: Union[str, Sequence[str]], judge: Callable[[Server], Judged], error: Callable[[str], WebAuthnException]) -> Judged:
    """The result of `judge` for the first rp id that is the response's."""
    ids = [rp_id] if isinstance(rp_id, str) else list(rp_id)
    listed = [origins] if isinstance(origins, str) else list(origins)
    if not ids:
        raise BadInput("expected_rp_id is empty")
    for one in ids:
        try:
            return judge(Server(one, listed))
        except Refused as refused:
            if refused.name not in _OTHER_RP_ID or one is ids[-1]:
                raise error(str(refused)) from refused
        except RowDamaged as damaged:
            raise error(str(damaged)) from damaged
    raise AssertionError


def verify_registration_response(*, credential: Union[str, Mapping[str, Any], RegistrationCredential], expected_challenge: bytes,
                                 expected_rp_id: Union[str, Sequence[str]], expected_origin: Union[str, Sequence[str]], require_user_presence: bool = True,
                                 require_user_verification: bool = False, supported_pub_key_algs: Optional[Sequence[COSEAlgorithmIdentifier]] = None,
                                 attestation: AttestationConveyancePreference = AttestationConveyancePreference.NONE,
                                 pem_root_certs_bytes_by_fmt: Optional[Mapping[Any, Any]] = None) -> VerifiedRegistration:
    """Verifies a registration by section 7.1. Raises `InvalidRegistrationResponse` with the first step that does not pass, and
    `InvalidJSONStructure` if the response is not WebAuthn's JSON. The site itself checks whether the id is registered already.

    The attestation statement is verified if `attestation`, which py_webauthn's call does not have, says that the options asked for one:
    then `none` and packed self attestation are accepted. `pem_root_certs_bytes_by_fmt` has to be empty."""
    if pem_root_certs_bytes_by_fmt:
        raise BadInput("pem_root_certs_bytes_by_fmt: attestation by certificates is not verified")
    made = parse_registration_credential_json(credential)
    session = RegistrationSession(expected_challenge, _ANYBODY, check_flag(require_user_verification, "require_user_verification"), tuple(map(int, _algorithms(supported_pub_key_algs))),
                                  not check_flag(require_user_presence, "require_user_presence"), attestation != AttestationConveyancePreference.NONE)
    told = _judged(expected_rp_id, expected_origin, lambda server: server.register_complete_parts(
        session, made.response.attestation_object, made.response.client_data_json, raw_id=made.raw_id, is_registered=False), InvalidRegistrationResponse)
    return VerifiedRegistration(
        credential_id=told.credential.id, credential_public_key=told.credential.cose_key, sign_count=told.credential.sign_count, aaguid=str(UUID(bytes=told.aaguid)), fmt=told.format,
        credential_type="public-key", user_verified=told.user_verified, attestation_object=made.response.attestation_object,
        credential_device_type=_device_type(told.credential), credential_backed_up=told.backed_up)


def verify_authentication_response(*, credential: Union[str, Mapping[str, Any], AuthenticationCredential], expected_challenge: bytes,
                                   expected_rp_id: Union[str, Sequence[str]], expected_origin: Union[str, Sequence[str]], credential_public_key: bytes,
                                   credential_current_sign_count: int, require_user_verification: bool = False,
                                   credential_id: Optional[bytes] = None, user_id: Optional[bytes] = None) -> VerifiedAuthentication:
    """Verifies a sign-in by section 7.2. Raises `InvalidAuthenticationResponse` with the first step that does not pass, and
    `InvalidJSONStructure` if the response is not WebAuthn's JSON. Store `new_sign_count`.

    py_webauthn's call takes neither the id nor the user handle of the stored credential: with `credential_id` the response has to name it,
    and with `user_id` the response must have this user handle."""
    made = parse_authentication_credential_json(credential)
    handle = made.response.user_handle
    user = user_id if user_id is not None else handle if handle is not None else _ANYBODY
    stored = Credential.from_cose(made.raw_id if credential_id is None else credential_id, user, credential_public_key, credential_current_sign_count)
    session = SignInSession(expected_challenge, user, (), check_flag(require_user_verification, "require_user_verification"))
    told = _judged(expected_rp_id, expected_origin, lambda server: server.authenticate_complete_parts(
        session, stored, made.raw_id, handle, made.response.authenticator_data, made.response.signature, made.response.client_data_json), InvalidAuthenticationResponse)
    return VerifiedAuthentication(credential_id=told.credential.id, new_sign_count=told.credential.sign_count, credential_device_type=_device_type(told.credential),
                                  credential_backed_up=told.backed_up, user_verified=told.user_verified)


def _device_type(credential: Credential) -> CredentialDeviceType:
    return CredentialDeviceType.MULTI_DEVICE if credential.eligible else CredentialDeviceType.SINGLE_DEVICE
