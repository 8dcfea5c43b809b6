"""Values of py_webauthn to JSON and back."""
from __future__ import annotations

import json
from typing import Any, Callable, Dict, Mapping, Optional, TypeVar, Union

from .... import BadInput, forms
from .exceptions import InvalidJSONStructure
from .structs import (
    AuthenticationCredential, AuthenticatorAssertionResponse, AuthenticatorAttestationResponse, PublicKeyCredentialCreationOptions, PublicKeyCredentialDescriptor,
    PublicKeyCredentialRequestOptions, RegistrationCredential,
)

Parts = TypeVar("Parts")


def base64url_to_bytes(val: str) -> bytes:
    """The bytes of base64url without padding. Raises ValueError."""
    return forms.from_text(val, "the value")


def bytes_to_base64url(val: bytes) -> str:
    """Base64url without padding."""
    return forms.to_text(val)


def _descriptor(one: PublicKeyCredentialDescriptor) -> Dict[str, Any]:
    return forms.descriptor(one.id, [str(transport) for transport in one.transports or ()])


def options_to_json_dict(options: Union[PublicKeyCredentialCreationOptions, PublicKeyCredentialRequestOptions]) -> Dict[str, Any]:
    """Options as JSON values, in the form of `parseCreationOptionsFromJSON` and `parseRequestOptionsFromJSON`."""
    made: Dict[str, Any] = {"challenge": forms.to_text(options.challenge)}
    if options.timeout is not None:
        made["timeout"] = options.timeout
    if isinstance(options, PublicKeyCredentialRequestOptions):
        return {**made, "rpId": options.rp_id, "allowCredentials": [_descriptor(one) for one in options.allow_credentials or ()],
                "userVerification": str(options.user_verification)}
    made.update({
        "rp": {"id": options.rp.id, "name": options.rp.name},
        "user": {"id": forms.to_text(options.user.id), "name": options.user.name, "displayName": options.user.display_name},
        "pubKeyCredParams": [{"type": one.type, "alg": int(one.alg)} for one in options.pub_key_cred_params],
        "excludeCredentials": [_descriptor(one) for one in options.exclude_credentials or ()], "attestation": str(options.attestation),
    })
    selection = options.authenticator_selection
    if selection is not None:
        said = {"authenticatorAttachment": selection.authenticator_attachment, "residentKey": selection.resident_key, "userVerification": selection.user_verification}
        made["authenticatorSelection"] = {**{name: str(value) for name, value in said.items() if value is not None},
                                          "requireResidentKey": bool(selection.require_resident_key)}
    if options.hints is not None:
        made["hints"] = [str(one) for one in options.hints]
    return made


def options_to_json(options: Union[PublicKeyCredentialCreationOptions, PublicKeyCredentialRequestOptions]) -> str:
    """Options as JSON for the page."""
    return json.dumps(options_to_json_dict(options))


def _parts(said: Any, read: Callable[[Mapping[str, Any]], Parts]) -> Parts:
    """The parts of a response, from JSON values or their text."""
    try:
        made = json.loads(said) if isinstance(said, (str, bytes)) else said
    except (ValueError, RecursionError) as error:
        raise InvalidJSONStructure(f"Unable to decode credential as JSON: {error}") from error
    if not isinstance(made, Mapping):
        raise InvalidJSONStructure("Credential was not a JSON object")
    try:
        return read(made)
    except BadInput as error:
        raise InvalidJSONStructure(str(error)) from error


def parse_registration_credential_json(json_val: Union[str, Mapping[str, Any], RegistrationCredential]) -> RegistrationCredential:
    """A registration's response from the page's JSON, or from its text. Raises `InvalidJSONStructure`."""
    if isinstance(json_val, RegistrationCredential):
        return json_val
    transports: Optional[Any] = None

    def read(said: Mapping[str, Any]) -> forms.RegistrationParts:
        nonlocal transports
        parts = forms.registration_parts(said)
        transports = list(forms.transports_of(said))
        return parts

    raw_id, client_data, attestation_object = _parts(json_val, read)
    return RegistrationCredential(id=forms.to_text(raw_id), raw_id=raw_id, response=AuthenticatorAttestationResponse(client_data, attestation_object, transports))


def parse_authentication_credential_json(json_val: Union[str, Mapping[str, Any], AuthenticationCredential]) -> AuthenticationCredential:
    """A sign-in's response from the page's JSON, or from its text. Raises `InvalidJSONStructure`."""
    if isinstance(json_val, AuthenticationCredential):
        return json_val
    raw_id, client_data, auth_data, signature, user = _parts(json_val, forms.sign_in_parts)
    return AuthenticationCredential(id=forms.to_text(raw_id), raw_id=raw_id, response=AuthenticatorAssertionResponse(client_data, auth_data, signature, user))
