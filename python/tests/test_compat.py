"""The calls of python-fido2 and py_webauthn over the steps: what Chromium recorded is taken as by `Server`, and a response with one thing wrong is
refused as those libraries say it."""
import json
from pathlib import Path

import pytest
from device import AT, BE, BS, UP, UV, Device

from garvoeng import EDDSA, ES256, RS256, BadInput
from garvoeng.compat import webauthn
from garvoeng.compat.webauthn import generate_authentication_options, generate_registration_options, options_to_json, verify_authentication_response, verify_registration_response
from garvoeng.compat.webauthn.helpers import base64url_to_bytes, bytes_to_base64url, parse_registration_credential_json
from garvoeng.compat.webauthn.helpers.cose import COSEAlgorithmIdentifier
from garvoeng.compat.webauthn.helpers.exceptions import InvalidAuthenticationResponse, InvalidJSONStructure, InvalidRegistrationResponse
from garvoeng.compat.webauthn.helpers.structs import (
    AttestationConveyancePreference, AuthenticatorAttachment, AuthenticatorSelectionCriteria, AuthenticatorTransport, CredentialDeviceType, PublicKeyCredentialDescriptor,
    PublicKeyCredentialHint, ResidentKeyRequirement, UserVerificationRequirement,
)
from garvoeng.forms import from_text, to_text

RECORDED = json.loads((Path(__file__).parent / "recorded.json").read_text())
PARTY = {"expected_rp_id": "localhost", "expected_origin": RECORDED["origin"]}
SITE = {"expected_rp_id": "example.com", "expected_origin": "https://example.com"}


def session_of(made):
    return {"expected_challenge": from_text(made["session"]["challenge"], "it"), "require_user_verification": made["session"]["user_verification"], **PARTY}


def test_what_chromium_recorded():
    signed_in = 0
    for visit in RECORDED["visits"]:
        made = visit["registration"]
        for form in (made["response"], json.dumps(made["response"]), parse_registration_credential_json(made["response"])):
            registered = verify_registration_response(credential=form, supported_pub_key_algs=made["session"]["algorithms"], **session_of(made))
        assert bytes_to_base64url(registered.credential_id) == made["response"]["id"] and registered.fmt == "none" and len(registered.aaguid) == 36
        count = registered.sign_count
        for one in visit["sign_ins"]:
            told = verify_authentication_response(credential=one["response"], credential_public_key=registered.credential_public_key, credential_current_sign_count=count,
                                                  user_id=b"account 7", credential_id=registered.credential_id, **session_of(one))
            assert told.credential_id == registered.credential_id and told.credential_device_type == registered.credential_device_type
            count = told.new_sign_count
            signed_in += 1
    assert signed_in == 64


@pytest.fixture(params=[ES256, EDDSA, RS256])
def device(request):
    return Device(request.param)


def another_of(device):
    """A device with another id and another key of the same algorithm."""
    return Device(device.algorithm, credential=b"another id", bits=3072)


def options(challenge):
    return {"challenge": to_text(challenge)}


def registered(device, flags=UP | UV):
    challenge = b"c" * 32
    return verify_registration_response(credential=device.register(options(challenge), flags=flags | AT), expected_challenge=challenge, **SITE)


@pytest.mark.parametrize("flags, kind, backed_up", [(UP | UV, CredentialDeviceType.SINGLE_DEVICE, False), (UP | UV | BE, CredentialDeviceType.MULTI_DEVICE, False), (UP | BE | BS, "multi_device", True)])
def test_a_visit_of_py_webauthn(device, flags, kind, backed_up):
    made = registered(device, flags)
    assert (made.credential_device_type, made.credential_backed_up, made.user_verified) == (kind, backed_up, bool(flags & UV))
    asked = generate_authentication_options(rp_id="example.com", allow_credentials=[PublicKeyCredentialDescriptor(made.credential_id, transports=[AuthenticatorTransport.USB])])
    said = json.loads(options_to_json(asked))
    assert said["allowCredentials"] == [{"type": "public-key", "id": to_text(made.credential_id), "transports": ["usb"]}] and said["userVerification"] == "preferred"
    told = verify_authentication_response(credential=device.sign_in(said, flags=flags), expected_challenge=asked.challenge, credential_public_key=made.credential_public_key,
                                          credential_current_sign_count=made.sign_count, **SITE)
    assert (told.credential_id, told.credential_device_type, told.credential_backed_up) == (device.id, kind, backed_up)


def test_a_registration_with_one_thing_wrong(device):
    challenge = b"c" * 32
    response, right = device.register(options(challenge)), {"expected_challenge": challenge, **SITE}
    for more, step in (({"expected_challenge": b"d" * 32}, "G4"), ({"expected_origin": ["https://www.example.com"]}, "G5"), ({"expected_rp_id": "www.example.com", "expected_origin": ["https://example.com", "https://www.example.com"]}, "G8"),
                       ({"supported_pub_key_algs": [one for one in COSEAlgorithmIdentifier if one != device.algorithm]}, "G11")):
        with pytest.raises(InvalidRegistrationResponse, match=step):
            verify_registration_response(credential=response, **{**right, **more})
    with pytest.raises(InvalidRegistrationResponse, match="G10"):
        verify_registration_response(credential=device.register(options(challenge), flags=UP | AT), require_user_verification=True, **right)
    with pytest.raises(InvalidRegistrationResponse, match="G9"):
        verify_registration_response(credential=device.register(options(challenge), flags=UV | AT), **right)
    for more in ({"supported_pub_key_algs": [-7 - 100]}, {"expected_rp_id": []}, {"expected_rp_id": "https://example.com"}, {"expected_origin": []}, {"expected_challenge": b"short"}, {"require_user_verification": "no"},
                 {"require_user_presence": 0}, {"pem_root_certs_bytes_by_fmt": {"packed": [b"root"]}}):
        with pytest.raises((BadInput, TypeError, ValueError)):
            verify_registration_response(credential=response, **{**right, **more})
    for said in ("{", "[]", "null", 5, {}, {**response, "rawId": "AA"}, {**response, "response": {}}, json.dumps(response)[:-1]):
        with pytest.raises(InvalidJSONStructure):
            verify_registration_response(credential=said, **right)


def test_a_sign_in_with_one_thing_wrong(device):
    made, challenge = registered(device), b"e" * 32
    response = device.sign_in(options(challenge), user=b"account 7")
    right = {"expected_challenge": challenge, "credential_public_key": made.credential_public_key, "credential_current_sign_count": 0, **SITE}
    other = registered(another_of(device))
    for more, step in (({"expected_challenge": b"d" * 32}, "W7"), ({"expected_origin": "https://www.example.com"}, "W8"), ({"credential_public_key": other.credential_public_key}, "W14"), ({"credential_id": other.credential_id}, "W3"),
                       ({"credential_current_sign_count": 2 ** 31}, "W15"), ({"expected_rp_id": ["www.example.com"], "expected_origin": ["https://example.com", "https://www.example.com"]}, "W11")):
        with pytest.raises(InvalidAuthenticationResponse, match=step):
            verify_authentication_response(credential=response, **{**right, **more})
    with pytest.raises(InvalidAuthenticationResponse, match="W4"):
        verify_authentication_response(credential=response, user_id=b"nobody", **right)
    assert verify_authentication_response(credential=response, user_id=b"account 7", **right).credential_id == device.id
    for more in ({"credential_public_key": b"key"}, {"credential_current_sign_count": -1}, {"credential_current_sign_count": "0"}, {"require_user_verification": None}):
        with pytest.raises((BadInput, TypeError, ValueError, InvalidAuthenticationResponse)):
            verify_authentication_response(credential=response, **{**right, **more})
    assert verify_authentication_response(credential=response, **right).credential_id == device.id
    assert verify_authentication_response(credential=device.sign_in(options(challenge)), **right).credential_id == device.id


def test_of_several_rp_ids_the_right_one_is_found(device):
    challenge = b"c" * 32
    both = {"expected_rp_id": ["www.example.com", "example.com"], "expected_origin": ["https://example.com", "https://www.example.com"]}
    assert verify_registration_response(credential=device.register(options(challenge)), expected_challenge=challenge, **both).credential_id == device.id


def test_options_of_py_webauthn():
    made = generate_registration_options(
        rp_id="example.com", rp_name="A site", user_name="anna", user_id=b"account 7", attestation=AttestationConveyancePreference.DIRECT, hints=[PublicKeyCredentialHint.HYBRID],
        authenticator_selection=AuthenticatorSelectionCriteria(AuthenticatorAttachment.PLATFORM, ResidentKeyRequirement.REQUIRED, user_verification=UserVerificationRequirement.REQUIRED),
        exclude_credentials=[PublicKeyCredentialDescriptor(b"id")], supported_pub_key_algs=[COSEAlgorithmIdentifier.EDDSA])
    said = webauthn.options_to_json_dict(made)
    assert base64url_to_bytes(said.pop("challenge")) == made.challenge and len(made.challenge) == 32
    assert said == {
        "timeout": 60000, "rp": {"id": "example.com", "name": "A site"}, "user": {"id": to_text(b"account 7"), "name": "anna", "displayName": "anna"},
        "pubKeyCredParams": [{"type": "public-key", "alg": -8}], "excludeCredentials": [{"type": "public-key", "id": to_text(b"id")}], "attestation": "direct", "hints": ["hybrid"],
        "authenticatorSelection": {"authenticatorAttachment": "platform", "residentKey": "required", "userVerification": "required", "requireResidentKey": True},
    }
    assert len(generate_registration_options(rp_id="example.com", rp_name="A site", user_name="anna").user.id) == 64
    for more in ({"rp_id": ""}, {"user_id": b""}, {"user_id": "text"}, {"challenge": b"short"}, {"supported_pub_key_algs": []}):
        with pytest.raises((ValueError, TypeError)):
            generate_registration_options(**{"rp_id": "example.com", "rp_name": "A site", "user_name": "anna", **more})


# ---- python-fido2

def server_of_fido2(**how):
    pytest.importorskip("fido2.server")
    from fido2.webauthn import PublicKeyCredentialRpEntity

    from garvoeng.compat.fido2 import Fido2Server
    return Fido2Server(PublicKeyCredentialRpEntity("example.com", "A site"), **how)


def parts_of(response):
    from fido2.client import ClientData
    from fido2.ctap2 import AttestationObject, AuthenticatorData
    parts = {name: from_text(text, name) for name, text in response["response"].items() if name in ("clientDataJSON", "attestationObject", "authenticatorData", "signature")}
    made = {"clientDataJSON": ClientData, "attestationObject": AttestationObject, "authenticatorData": AuthenticatorData}
    return {name: made.get(name, bytes)(value) for name, value in parts.items()}


def registers(server, device, flags=UP | UV, **how):
    begun, state = server.register_begin({"id": b"account 7", "name": "name"}, **how)
    parts = parts_of(device.register(options(begun["publicKey"]["challenge"]), flags=flags | AT))
    return state, parts["clientDataJSON"], parts["attestationObject"]


def signs_in(server, device, flags=UP | UV, **how):
    begun, state = server.authenticate_begin(**how)
    parts = parts_of(device.sign_in(options(begun["publicKey"]["challenge"]), flags=flags))
    return state, parts["clientDataJSON"], parts["authenticatorData"], parts["signature"]


def test_a_visit_of_python_fido2(device):
    server = server_of_fido2()
    begun, _ = server.register_begin({"id": b"account 7", "name": "name"})
    assert {one.alg for one in begun["publicKey"]["pubKeyCredParams"]} <= {ES256, EDDSA, RS256}
    stored = server.register_complete(*registers(server, device)).credential_data
    for _ in range(2):
        state, client_data, auth_data, signature = signs_in(server, device, credentials=[stored])
        assert server.authenticate_complete(state, [stored], device.id, client_data, auth_data, signature) is stored


def test_python_fido2_with_one_thing_wrong(device):
    server = server_of_fido2()
    state, client_data, attestation_object = registers(server, device)
    other_state, other_data, other_object = registers(server, another_of(device))
    for words in ((other_state, client_data, attestation_object), ({**state, "challenge": to_text(b"short")}, client_data, attestation_object), (state, other_data, attestation_object)):
        with pytest.raises(ValueError):
            server.register_complete(*words)
    with pytest.raises(ValueError, match="G10"):
        server.register_complete(*registers(server, device, UP, user_verification="required"))
    with pytest.raises(ValueError, match="G9"):
        server.register_complete(*registers(server, device, UV))
    stored, another = (server.register_complete(*registers(server, one)).credential_data for one in (device, another_of(device)))
    state, client_data, auth_data, signature = signs_in(server, device)
    theirs = signs_in(server, device)
    for words, step in (((theirs[0], [stored], device.id, client_data, auth_data, signature), "W7"), ((state, [another], device.id, client_data, auth_data, signature), "W3"), ((state, [], device.id, client_data, auth_data, signature), "W3"),
                        ((state, [stored], another.credential_id, client_data, auth_data, signature), "W3"), ((state, [another], another.credential_id, client_data, auth_data, signature), "W14"),
                        ((state, [stored], device.id, client_data, theirs[2], signature), "W14"), ((state, [stored], device.id, client_data, auth_data, theirs[3]), "W14"), ((state, [stored], device.id, client_data, auth_data, b""), "W14")):
        with pytest.raises(ValueError, match=step):
            server.authenticate_complete(*words)
    assert server.authenticate_complete(state, [another, stored], device.id, client_data, auth_data, signature) is stored


@pytest.mark.parametrize("answer", [False, None, 1, "yes", (False, "why")])
def test_an_origin_that_is_not_verified(answer):
    server = server_of_fido2(verify_origin=lambda origin: answer)
    with pytest.raises((ValueError, TypeError)):
        server.register_complete(*registers(server, Device(ES256)))


def test_attestation_stays_with_python_fido2():
    seen = []
    server = server_of_fido2(attestation="direct", verify_attestation=lambda *words: seen.append(words))
    words = registers(server, Device(ES256))
    server.register_complete(*words)
    assert [one[0] for one in seen] == [words[2]]

    def refuse(*_):
        raise ValueError("not attested")

    with pytest.raises(ValueError, match="not attested"):
        server_of_fido2(attestation="direct", verify_attestation=refuse).register_complete(*words)
