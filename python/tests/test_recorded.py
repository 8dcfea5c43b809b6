"""Registrations and sign-ins that a real browser made (python/record): accepted with the verdict of `cryptography` and
never without it."""
import json
from pathlib import Path

import pytest

from garvoeng import Refused, RegistrationSession, Server, SignInSession
from garvoeng.forms import from_text

RECORDED = json.loads((Path(__file__).parent / "recorded.json").read_text())
VISITS = RECORDED["visits"]


def server(**more):
    return Server("localhost", [RECORDED["origin"]], **more)


def bytes_of(value, name):
    return None if value is None else from_text(value, name)


def registration_session(line):
    return RegistrationSession(bytes_of(line["challenge"], "challenge"), bytes_of(line["user"], "user"),
                               line["user_verification"], tuple(line["algorithms"]))


def sign_in_session(line):
    return SignInSession(bytes_of(line["challenge"], "challenge"), bytes_of(line["user"], "user"),
                         tuple(bytes_of(one, "allow") for one in line["allow"]), line["user_verification"])


def registered(relying_party, visit):
    line = visit["registration"]
    return relying_party.register_complete(registration_session(line["session"]), line["response"],
                                           is_registered=lambda _: False).credential


def sign_in(relying_party, line, credential):
    return relying_party.authenticate_complete(sign_in_session(line["session"]), line["response"],
                                               credential={credential.id: credential}.get)


def has_extensions(data):
    return data[32] & 0x80 != 0


def test_there_are_enough():
    assert len(VISITS) == 32 and sum(len(visit["sign_ins"]) for visit in VISITS) == 64


@pytest.mark.parametrize("visit", VISITS, ids=lambda visit: "-".join(map(str, visit["kind"])))
def test_visit(visit):
    credential = registered(server(), visit)
    for line in visit["sign_ins"]:
        with pytest.raises(Refused) as caught:
            sign_in(server(verify=lambda *asked: False), line, credential)
        assert caught.value.name == "W14"
        signed_in = sign_in(server(), line, credential)
        assert signed_in.credential.sign_count > credential.sign_count
        with pytest.raises(Refused) as caught:
            sign_in(server(), line, signed_in.credential)
        assert caught.value.name == "W15"
        credential = signed_in.credential


def test_what_is_said():
    """Flags and extensions are those of the bytes that the browser sent."""
    for visit in VISITS:
        line = visit["registration"]
        made = server().register_complete(registration_session(line["session"]), line["response"], is_registered=lambda _: False)
        sent = from_text(line["response"]["response"]["authenticatorData"], "authenticatorData")
        assert (made.flags, made.aaguid, made.format) == (sent[32], sent[37:53], "none")
        assert (made.user_verified, made.backed_up) == (bool(sent[32] & 4), bool(sent[32] & 16))
        assert sent.endswith(made.extensions) and bool(made.extensions) == has_extensions(sent)
        assert sent == sent[:55] + made.credential.id + made.credential.cose_key + made.extensions
        for line in visit["sign_ins"]:
            said = sign_in(server(), line, made.credential)
            sent = data_of(line)
            assert (said.flags, said.user_verified, said.backed_up) == (sent[32], bool(sent[32] & 4), bool(sent[32] & 16))
            assert sent == sent[:37] + said.extensions


def data_of(line):
    return from_text(line["response"]["response"]["authenticatorData"], "authenticatorData")


def test_extensions_are_refused_by_the_strict_profile():
    """The browser adds `credProtect` to resident credentials, and what the page asks for: the strict profile refuses
    those responses and no other."""
    counts = {True: 0, False: 0}
    for visit in VISITS:
        credential = registered(server(), visit)
        for line, call in [(visit["registration"], lambda party: registered(party, visit))] + [
                (line, lambda party, line=line: sign_in(party, line, credential)) for line in visit["sign_ins"]]:
            is_refused = False
            try:
                call(server(profile="strict"))
            except Refused as caught:
                assert caught.name in ("G7", "W10")
                is_refused = True
            assert is_refused == has_extensions(data_of(line))
            counts[is_refused] += 1
    assert counts == {True: 56, False: 40}
