"""What hosts ask of options, transports, sessions in JSON, and look-ups that are awaited."""
import asyncio
import json

import pytest
from hostile import VALUES
from test_extension import USER, Broken, Ceremony, party

from garvoeng import RS256, BadInput, Credential, Refused, RegistrationSession, Server, SignInSession, forms
from garvoeng.forms import to_text


def test_creation_options():
    options, session = party().register_begin(
        USER, "name", user_verification="discouraged", resident_key="preferred", authenticator_attachment="cross-platform", timeout=60_000,
        hints=["security-key", "hybrid"], extensions={"credProps": True})
    assert options["authenticatorSelection"] == {"residentKey": "preferred", "requireResidentKey": False, "userVerification": "discouraged",
                                                 "authenticatorAttachment": "cross-platform"}
    assert (options["timeout"], options["hints"], options["extensions"]) == (60_000, ["security-key", "hybrid"], {"credProps": True})
    assert session.user_verification is False
    for value, wanted, asked in ((True, "required", True), (False, "preferred", False), ("required", "required", True),
                                 ("preferred", "preferred", False)):
        options, session = party().register_begin(USER, "name", user_verification=value)
        assert (options["authenticatorSelection"]["userVerification"], session.user_verification) == (wanted, asked)
        options, session = party().authenticate_begin(user_verification=value)
        assert (options["userVerification"], session.user_verification) == (wanted, asked)
    for value, wanted in ((True, "required"), (False, "discouraged"), ("discouraged", "discouraged"), ("required", "required")):
        selection = party().register_begin(USER, "name", resident_key=value)[0]["authenticatorSelection"]
        assert (selection["residentKey"], selection["requireResidentKey"]) == (wanted, wanted == "required")
        assert "authenticatorAttachment" not in selection


def test_request_options():
    stored = Credential(b"one", USER, -7, bytes(32), bytes(32), 0, None, transports=("usb", "nfc"))
    options, session = party().authenticate_begin(allow=[stored, b"two"], timeout=1, hints=("hybrid",), extensions={"appid": "x"})
    assert options["allowCredentials"] == [{"type": "public-key", "id": to_text(b"one"), "transports": ["usb", "nfc"]},
                                           {"type": "public-key", "id": to_text(b"two")}]
    assert session.allow == (b"one", b"two") and (options["timeout"], options["hints"], options["extensions"]) == (1, ["hybrid"], {"appid": "x"})
    assert set(party().authenticate_begin()[0]) == {"challenge", "rpId", "allowCredentials", "userVerification"}
    options, _ = party().register_begin(USER, "name", exclude=iter([stored]))
    assert options["excludeCredentials"] == [{"type": "public-key", "id": to_text(b"one"), "transports": ["usb", "nfc"]}]


REQUIREMENTS = (True, False, "required", "preferred", "discouraged")
NONE = ("Required", "", 7, [], "none", b"required")
VALUES_OF_OPTIONS = [
    ("user_verification", REQUIREMENTS, (*NONE, None)), ("resident_key", REQUIREMENTS, (*NONE, None)),
    ("authenticator_attachment", ("platform", "cross-platform", None), NONE),
    ("timeout", (1, 2**32 - 1, None), (0, -1, 2**32, 2**64 + 1, 1.0, "1", True)),
    ("hints", ([], (), ["hybrid"], ["security-key", "client-device"]), (["Hybrid"], [None], [7], ["hybrid", "other"])),
    ("extensions", (None, {}, {"a": 1}, {"a": [1.5, None, True, {"b": "x"}]}),
     ([], "x", 7, {"x": float("nan")}, {"x": [float("inf")]}, {"prf": {"eval": {"first": b"salt"}}}, {"x": object()}, {(): 1}))]
"""Of each parameter of options what is one of its values, and what is none."""


@pytest.mark.parametrize("name, good, bad", VALUES_OF_OPTIONS)
def test_values_of_options(name, good, bad):
    for value in good:
        party().register_begin(USER, "name", **{name: value})
    for value in bad:
        with pytest.raises(BadInput):
            party().register_begin(USER, "name", **{name: value})
        if name not in ("resident_key", "authenticator_attachment"):
            with pytest.raises(BadInput):
                party().authenticate_begin(**{name: value})


def test_transports():
    """Those that a page tells are kept, and what is none is left out; they decide nothing."""
    one = Ceremony()
    for value in VALUES:
        made = {**one.made, "response": {**one.made["response"], "transports": value}}
        assert all(isinstance(text, str) and len(text) <= 32 for text in one.register(made).credential.transports)
    for value, wanted in ((["usb", "nfc"], ("usb", "nfc")), (["usb", 7, "USB", "", "a,b", "x" * 33, "smart-card"], ("usb", "smart-card")),
                          (["usb"] * 99, ("usb",) * 16), ("usb", ()), (None, ()), ({"usb": 1}, ())):
        made = {**one.made, "response": {**one.made["response"], "transports": value}}
        assert one.register(made).credential.transports == wanted == forms.transports_in(value)
    stored = one.register({**one.made, "response": {**one.made["response"], "transports": ["usb"]}}).credential
    said = one.server.authenticate_complete(one.session, one.response, credential=lambda _: stored)
    assert said.credential.transports == ("usb",)


def test_awaited():
    """The forms whose look-ups are awaited say what the others say, and raise what the look-up raises."""
    one = Ceremony()

    async def find(identity):
        await asyncio.sleep(0)
        return {one.device.id: one.credential}.get(identity)

    async def is_registered(identity):
        await asyncio.sleep(0)
        return identity != one.device.id

    async def is_taken(identity):
        return True

    async def fail(_):
        raise Broken

    async def acts():
        assert await one.server.register_complete_async(one.begun, one.made, is_registered=is_registered) == one.register()
        assert await one.server.authenticate_complete_async(one.session, one.response, credential=find) == one.sign_in()
        for wrong, name in ((is_taken, "G15"),):
            with pytest.raises(Refused) as caught:
                await one.server.register_complete_async(one.begun, one.made, is_registered=wrong)
            assert caught.value.name == name
        told = {**one.made, "response": {**one.made["response"], "transports": ["usb", "nfc"]}}
        said = await one.server.register_complete_async(one.begun, told, is_registered=is_registered)
        assert said.credential.transports == ("usb", "nfc")
        with pytest.raises(Refused, match="G16"):
            await one.server.register_complete_async(one.begun, one.made, is_registered=is_registered, is_full=True)
        with pytest.raises(Broken):
            await one.server.register_complete_async(one.begun, one.made, is_registered=fail)
        with pytest.raises(Broken):
            await one.server.authenticate_complete_async(one.session, one.response, credential=fail)
        with pytest.raises(BadInput):
            await one.server.authenticate_complete_async(one.session, {}, credential=fail)

    asyncio.run(acts())


def test_sessions_in_json():
    for session in (RegistrationSession(bytes(32), USER), RegistrationSession(bytes(32), b"", True, (RS256,)), SignInSession(bytes(32)),
                    SignInSession(bytes(32), USER, (b"a", bytes(1023)), True), SignInSession(bytes(32), b"")):
        kind = type(session)
        assert kind.from_json(session.to_json()) == session == kind.from_json(json.dumps(session.to_json()))
        other = SignInSession if kind is RegistrationSession else RegistrationSession
        with pytest.raises(BadInput):
            other.from_json(session.to_json())
        for name in session.to_json():
            without = {key: one for key, one in session.to_json().items() if key != name}
            if name in ("conditional", "attestation"):
                assert kind.from_json(without).challenge == session.challenge
            else:
                with pytest.raises(BadInput):
                    kind.from_json(without)
            for value in (None, 7, "A", "=", [7], ["A"], {}, "AA==", True, "required", 1, [None], [True]):
                hostile = {**session.to_json(), name: value}
                try:
                    read = kind.from_json(hostile)
                except BadInput:
                    continue
                assert read.to_json() == hostile
    for algorithms in ([], {}, "-7", None):
        with pytest.raises(BadInput):
            RegistrationSession.from_json({**RegistrationSession(bytes(32), USER).to_json(), "algorithms": algorithms})
    for number in (7, -9, -37, 2**32 - 7, -7.0, True):
        with pytest.raises(BadInput):
            RegistrationSession.from_json({**RegistrationSession(bytes(32), USER).to_json(), "algorithms": [-7, number]})
    for hostile in ("", "{", "[]", "null", "7", None, 7, [], {}, "[" * 100_000, b"{}"):
        for kind in (RegistrationSession, SignInSession):
            with pytest.raises(BadInput):
                kind.from_json(hostile)


NO_LISTS = (7, "ab", b"ab", None, {b"ab": 1}, bytearray(b"ab"))
SLIPS = [
    ("user", (5, [1, 2], "account", None, 1.0, True, [b"x"]), "user is bytes, the user handle, as secrets.token_bytes"),
    ("user_name", (5, None, b"name", ["name"]), "user_name is a str, and not"), ("display_name", (5, b"name", []), "display_name is a str, and not"),
    ("exclude", NO_LISTS, "exclude is a list of credentials or their ids, and not"),
    ("exclude", ([5], [None], ["ab"], [[1, 2]], [b"x", 7]), "each of exclude is bytes, a credential id, and not"),
    ("allow", NO_LISTS, "allow is a list of credentials or their ids, and not"),
    ("allow", ([5], [None], ["ab"], [[1, 2]], [b"x", 7]), "each of allow is bytes, a credential id, and not"),
    ("conditional", (0, 1, None, "yes", []), "conditional is True or False, and not"), ("hints", (7, "hybrid", None), "hints is a list of texts"),
    ("algorithms", (-7, None, "ES256"), "algorithms is a list of numbers")]
"""Of each parameter of the begins, what is a slip of the site's, and what tells it."""


def slips(party, listed=True):
    """Each slip is told by the parameter's name, in each begin that has it."""
    registering = {"user": USER, "user_name": "name"}
    for name, values, told in SLIPS:
        for value in values:
            if value is None and name in ("exclude", "allow") and not listed:
                continue
            if name != "allow":
                with pytest.raises(TypeError, match=told):
                    party.register_begin(**{**registering, name: value})
            if name in ("allow", "hints", "user") and not (name == "user" and value is None):
                with pytest.raises(TypeError, match=told):
                    party.authenticate_begin(**{name: value})


def test_slips_of_a_site():
    slips(party())
    for how in ({"accept_none": 1}, {"accept_self": None}, {"rp_name": 5}, {"verify": True}, {"top_origins": "https://example.com"},
                {"top_origins": [7]}):
        with pytest.raises(TypeError, match=f"{list(how)[0]}"):
            party(**how)
    with pytest.raises(BadInput, match="accept_none and accept_self are both False"):
        party(accept_none=False, accept_self=False)
    for origins in ("https://example.com", 7, None, b"x"):
        with pytest.raises(TypeError, match="origins is a list of texts"):
            Server("example.com", origins)
    for origin, told in (("https://example.com:443", "write https://example.com in origins"), ("https://example.com/", "without a path"),
                         ("https://example.com:70000", "a port above 65535"), ("https://other.com", "example.com or ends in .example.com")):
        with pytest.raises(BadInput, match=told):
            Server("example.com", [origin])
    one = Ceremony()
    with pytest.raises(TypeError, match="is_full is True or False"):
        one.register(is_full=1)
    for call in (lambda: party().signal_unknown_credential("text"), lambda: party().signal_all_accepted(USER, b"ab"),
                 lambda: party().signal_user_details(USER, 5), lambda: party().signal_all_accepted(5, [])):
        with pytest.raises(TypeError, match="credential_id|credentials|user_name|user"):
            call()


def test_halves_of_a_challenge():
    """All 32 bytes are drawn: no half of one is in another, nor are its own the same."""
    halves = [half for _ in range(20) for session in (party().register_begin(USER, "name")[1], party().authenticate_begin()[1])
              for half in (session.challenge[:16], session.challenge[16:])]
    assert len(set(halves)) == 80 and all(len(half) == 16 for half in halves)
