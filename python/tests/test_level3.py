"""What WebAuthn Level 3 asks more than Level 2, or less: frames, conditional creation, statements that nobody asked for."""
import pytest
from device import AT, BE, BS, ED, UP, UV, Device
from test_server import CRED_PROTECT, USER, free, refusal

from garvoeng import BadInput, Credential, RegistrationSession, Server

ORIGIN = "https://example.com"
PAGES = ("https://one.example", "https://two.example")
ABSENT = {}
# What client data say of a frame, and the step that refuses it: without leave, and where the two pages may frame.
FRAMES = [
    (ABSENT, None, None),
    ({"crossOrigin": False}, None, None),
    ({"crossOrigin": True}, 17, 18),
    ({"crossOrigin": True, "topOrigin": "https://one.example"}, 17, None),
    ({"crossOrigin": True, "topOrigin": "https://two.example"}, 17, None),
    ({"topOrigin": "https://two.example"}, 17, None),
    ({"crossOrigin": False, "topOrigin": "https://two.example"}, 17, None),
    ({"crossOrigin": True, "topOrigin": "https://three.example"}, 17, 18),
    ({"crossOrigin": True, "topOrigin": "https://two.example/"}, 17, 18),
    ({"crossOrigin": True, "topOrigin": "https://two.exampl"}, 17, 18),
    ({"crossOrigin": True, "topOrigin": ""}, 17, 18),
    ({"crossOrigin": True, "topOrigin": ORIGIN}, 17, 18),
    ({"crossOrigin": True, "topOrigin": None}, 17, 18),
    ({"crossOrigin": True, "topOrigin": [PAGES[0]]}, 17, 18),
    ({"topOrigin": None}, 17, 18),
    ({"topOrigin": "https://three.example"}, 17, 18),
    ({"crossOrigin": "true", "topOrigin": "https://one.example"}, 17, 17),
    ({"crossOrigin": "false"}, 17, 17),
    ({"crossOrigin": None}, 17, 17),
    ({"crossOrigin": 0}, 17, 17),
    ({"crossOrigin": {}}, 17, 17),
]


def server_of(profile="level3", **more):
    return Server("example.com", [ORIGIN], profile=profile, **more)


def registers(server, device, begin=None, **made):
    options, session = server.register_begin(USER, "name", **(begin or {}))
    return server.register_complete(session, device.register(options, **made), is_registered=free)


def signs_in(server, device):
    credential = Credential(device.id, USER, device.algorithm, device.x, device.y, device.count, None)
    options, session = server.authenticate_begin(user=USER)
    return server.authenticate_complete(session, device.sign_in(options), credential={device.id: credential}.get)


@pytest.mark.parametrize("said, alone, framed", FRAMES)
def test_frames(said, alone, framed):
    device = Device()
    device.said = said
    for kind, call in (("G", registers), ("W", signs_in)):
        for server, step in ((server_of(), alone), (server_of(top_origins=PAGES), framed)):
            if step is None:
                call(server, device)
            else:
                assert refusal(lambda: call(server, device)) == f"{kind}{step}"
        for profile in ("strict", "open"):
            call(server_of(profile), device)
            call(server_of(profile, top_origins=PAGES), device)


def test_one_page_is_not_the_other():
    device = Device()
    device.said = {"crossOrigin": True, "topOrigin": PAGES[1]}
    signs_in(server_of(top_origins=PAGES[1:]), device)
    assert refusal(lambda: signs_in(server_of(top_origins=PAGES[:1]), device)) == "W18"
    many = [f"https://page{number}.example" for number in range(40)]
    for origin in (many[0], many[20], many[39]):
        device.said["topOrigin"] = origin
        signs_in(server_of(top_origins=many), device)


def test_the_order_of_steps():
    """The origin comes before the frame, the frame before token binding and the rest."""
    device = Device(origin="https://other.example")
    device.said = {"crossOrigin": True, "topOrigin": PAGES[0], "tokenBinding": {"status": "present"}}
    assert refusal(lambda: signs_in(server_of(), device)) == "W8"
    assert refusal(lambda: registers(server_of(), device)) == "G5"
    device.origin, device.rp_id = ORIGIN, "other.example"
    assert refusal(lambda: signs_in(server_of(), device)) == "W17"
    assert refusal(lambda: registers(server_of(), device)) == "G17"
    assert refusal(lambda: signs_in(server_of(top_origins=PAGES[1:]), device)) == "W18"
    assert refusal(lambda: registers(server_of(top_origins=PAGES[1:]), device)) == "G18"
    assert refusal(lambda: signs_in(server_of(top_origins=PAGES), device)) == "W11"
    assert refusal(lambda: registers(server_of(top_origins=PAGES), device)) == "G8"
    assert refusal(lambda: signs_in(server_of("open"), device)) == "W9"
    assert refusal(lambda: registers(server_of("open"), device)) == "G6"
    device.said = {"tokenBinding": {"status": "present"}}
    device.rp_id = "example.com"
    signs_in(server_of(), device)


def test_presence_is_waived_for_conditional_creation_alone():
    for flags in (AT, UV | AT):
        made = registers(server_of(), Device(), {"conditional": True}, flags=flags)
        assert made.flags == flags and made.user_verified == bool(flags & UV)
        assert refusal(lambda: registers(server_of(), Device(), flags=flags)) == "G9"
        for profile in ("strict", "open"):
            assert refusal(lambda: registers(server_of(profile), Device(), {"conditional": True}, flags=flags)) == "G9"
    assert refusal(lambda: registers(server_of(), Device(), {"conditional": True, "user_verification": True}, flags=AT)) == "G10"
    assert registers(server_of(), Device(), {"conditional": True}, flags=UP | AT).flags == UP | AT


@pytest.mark.parametrize("fmt", ["fido-u2f", "apple", "android-key", "tpm", "packed"])
def test_statements_that_nobody_asked_for(fmt):
    statement = b"\xa1\x63x5c\x81\x42\x01\x02" if fmt != "packed" else b"\xa3\x63alg\x26\x63sig\x41\x07\x63x5c\x81\x42\x01\x02"
    device = Device()

    def call(server, **begin):
        options, session = server.register_begin(USER, "name", **begin)
        response = device.register(options)
        data = device.auth_data(UP | UV | AT, 0, attested=True)
        head = b"\xa3\x63fmt" + bytes([0x60 + len(fmt)]) + fmt.encode() + b"\x67attStmt" + statement + b"\x68authData"
        from device import byte_string
        from garvoeng.forms import to_text
        response["response"]["attestationObject"] = to_text(head + byte_string(data))
        return server.register_complete(session, response, is_registered=free)

    wanted = "G13" if fmt == "packed" else "G12"
    assert call(server_of()).format == "none"
    assert call(server_of(accept_self=False)).credential.id == device.id
    assert refusal(lambda: call(server_of(accept_none=False))) == "G14"
    for asked in ("direct", "indirect", "enterprise"):
        assert refusal(lambda: call(server_of(), attestation=asked)) == wanted
    for profile in ("strict", "open"):
        assert refusal(lambda: call(server_of(profile))) == wanted


def test_an_attestation_that_was_asked_for_is_verified():
    asked = []

    def verify(*parts):
        asked.append(parts)
        return False
    server, device = server_of(verify=verify), Device()
    assert registers(server, device, packed=True).format == "none" and asked == []
    assert refusal(lambda: registers(server, device, {"attestation": "direct"}, packed=True)) == "G13"
    assert len(asked) == 1
    assert registers(server_of(), device, {"attestation": "direct"}, packed=True).format == "packed"


def test_backup_and_extensions_are_as_in_the_open_profile():
    assert refusal(lambda: registers(server_of(), Device(), flags=UP | UV | AT | BS)) == "G7"
    made = registers(server_of(), Device(), flags=UP | UV | AT | BE | BS | ED, outputs=CRED_PROTECT)
    assert (made.credential.eligible, made.backed_up, made.extensions) == (True, True, CRED_PROTECT)
    assert registers(server_of(), Device(credential=bytes(range(1, 94)) * 11)).credential.id[:2] == b"\x01\x02"


def test_parameters():
    server = Server("example.com", [ORIGIN])
    assert (server.profile, server.top_origins) == ("level3", ())
    assert server_of(top_origins=list(PAGES)).top_origins == PAGES
    for bad in ("Level3", "", None, 2, b"open", ["open"]):
        with pytest.raises(BadInput):
            server_of(bad)
    for bad in ("https://one.example", b"x", ["https://one.example/"], ["HTTPS://ONE.EXAMPLE"], [""], [7], [b"https://one.example"]):
        is_texts = isinstance(bad, list) and all(isinstance(origin, str) for origin in bad)
        with pytest.raises(BadInput if is_texts else TypeError, match="top_origins"):
            server_of(top_origins=bad)
    for bad in ("", "Direct", None, True):
        with pytest.raises(BadInput):
            server.register_begin(USER, "name", attestation=bad)
    options, session = server.register_begin(USER, "name")
    assert (options["attestation"], session.attestation, session.conditional) == ("none", False, False)
    for asked in ("indirect", "direct", "enterprise"):
        options, session = server.register_begin(USER, "name", attestation=asked, conditional=True)
        assert (options["attestation"], session.attestation, session.conditional) == (asked, True, True)


def test_sessions_in_json():
    for conditional in (False, True):
        for attestation in (False, True):
            session = RegistrationSession(bytes(32), USER, conditional=conditional, attestation=attestation)
            assert RegistrationSession.from_json(session.to_json()) == session
    older = {name: value for name, value in session.to_json().items() if name not in ("conditional", "attestation")}
    read = RegistrationSession.from_json(older)
    assert (read.conditional, read.attestation) == (False, True)
    for name in ("conditional", "attestation"):
        for bad in (None, 1, "true"):
            with pytest.raises(BadInput):
                RegistrationSession.from_json({**session.to_json(), name: bad})


def test_what_browsers_are_told():
    server = Server("example.com", [ORIGIN, "https://example.org", "android:apk-key-hash:abc"])
    kept, gone = Credential(b"\1", USER, -7, b"", b"", 0, None), Credential(b"\2", USER, -7, b"", b"", 0, None, retired=True)
    assert server.related_origins() == {"origins": [ORIGIN, "https://example.org"]}
    assert server.signal_unknown_credential(b"\xff\xfe") == {"rpId": "example.com", "credentialId": "__4"}
    assert server.signal_all_accepted(USER, [kept, gone, b"\3"]) == {
        "rpId": "example.com", "userId": "YWNjb3VudCA3", "allAcceptedCredentialIds": ["AQ", "Aw"]}
    assert server.signal_user_details(USER, "new", "New") == {
        "rpId": "example.com", "userId": "YWNjb3VudCA3", "name": "new", "displayName": "New"}
    with pytest.raises(BadInput):
        server.signal_all_accepted(b"", [])
