"""Values of py_webauthn (WebAuthn Level 2, sections 5.2, 5.4, 5.5 and 5.8)."""
from __future__ import annotations

from dataclasses import dataclass
from enum import Enum
from typing import List, Optional

from .cose import COSEAlgorithmIdentifier


class _Text(str, Enum):
    """A text from the standard."""

    def __str__(self) -> str:
        return str(self.value)


class AttestationConveyancePreference(_Text):
    NONE = "none"
    INDIRECT = "indirect"
    DIRECT = "direct"
    ENTERPRISE = "enterprise"


class AuthenticatorAttachment(_Text):
    PLATFORM = "platform"
    CROSS_PLATFORM = "cross-platform"


class AuthenticatorTransport(_Text):
    USB = "usb"
    NFC = "nfc"
    BLE = "ble"
    INTERNAL = "internal"
    CABLE = "cable"
    HYBRID = "hybrid"


class CredentialDeviceType(_Text):
    SINGLE_DEVICE = "single_device"
    MULTI_DEVICE = "multi_device"


class PublicKeyCredentialHint(_Text):
    SECURITY_KEY = "security-key"
    CLIENT_DEVICE = "client-device"
    HYBRID = "hybrid"


class PublicKeyCredentialType(_Text):
    PUBLIC_KEY = "public-key"


class ResidentKeyRequirement(_Text):
    DISCOURAGED = "discouraged"
    PREFERRED = "preferred"
    REQUIRED = "required"


class UserVerificationRequirement(_Text):
    REQUIRED = "required"
    PREFERRED = "preferred"
    DISCOURAGED = "discouraged"


@dataclass
class AuthenticatorSelectionCriteria:
    authenticator_attachment: Optional[AuthenticatorAttachment] = None
    resident_key: Optional[ResidentKeyRequirement] = None
    require_resident_key: Optional[bool] = False
    user_verification: Optional[UserVerificationRequirement] = UserVerificationRequirement.PREFERRED


@dataclass
class PublicKeyCredentialDescriptor:
    id: bytes
    type: PublicKeyCredentialType = PublicKeyCredentialType.PUBLIC_KEY
    transports: Optional[List[AuthenticatorTransport]] = None


@dataclass
class PublicKeyCredentialParameters:
    type: str
    alg: COSEAlgorithmIdentifier


@dataclass
class PublicKeyCredentialRpEntity:
    name: str
    id: Optional[str] = None


@dataclass
class PublicKeyCredentialUserEntity:
    id: bytes
    name: str
    display_name: str


@dataclass
class PublicKeyCredentialCreationOptions:
    rp: PublicKeyCredentialRpEntity
    user: PublicKeyCredentialUserEntity
    challenge: bytes
    pub_key_cred_params: List[PublicKeyCredentialParameters]
    timeout: Optional[int] = None
    exclude_credentials: Optional[List[PublicKeyCredentialDescriptor]] = None
    authenticator_selection: Optional[AuthenticatorSelectionCriteria] = None
    hints: Optional[List[PublicKeyCredentialHint]] = None
    attestation: AttestationConveyancePreference = AttestationConveyancePreference.NONE


@dataclass
class PublicKeyCredentialRequestOptions:
    challenge: bytes
    timeout: Optional[int] = None
    rp_id: Optional[str] = None
    allow_credentials: Optional[List[PublicKeyCredentialDescriptor]] = None
    user_verification: Optional[UserVerificationRequirement] = UserVerificationRequirement.PREFERRED


@dataclass
class AuthenticatorAttestationResponse:
    client_data_json: bytes
    attestation_object: bytes
    transports: Optional[List[str]] = None


@dataclass
class AuthenticatorAssertionResponse:
    client_data_json: bytes
    authenticator_data: bytes
    signature: bytes
    user_handle: Optional[bytes] = None


@dataclass
class RegistrationCredential:
    id: str
    raw_id: bytes
    response: AuthenticatorAttestationResponse
    authenticator_attachment: Optional[AuthenticatorAttachment] = None
    type: PublicKeyCredentialType = PublicKeyCredentialType.PUBLIC_KEY


@dataclass
class AuthenticationCredential:
    id: str
    raw_id: bytes
    response: AuthenticatorAssertionResponse
    authenticator_attachment: Optional[AuthenticatorAttachment] = None
    type: PublicKeyCredentialType = PublicKeyCredentialType.PUBLIC_KEY


@dataclass
class VerifiedRegistration:
    credential_id: bytes
    credential_public_key: bytes
    sign_count: int
    aaguid: str
    fmt: str
    credential_type: str
    user_verified: bool
    attestation_object: bytes
    credential_device_type: CredentialDeviceType
    credential_backed_up: bool


@dataclass
class VerifiedAuthentication:
    credential_id: bytes
    new_sign_count: int
    credential_device_type: CredentialDeviceType
    credential_backed_up: bool
    user_verified: bool
