"""What a host's own functions answer: `verify`, `is_registered` and `credential`. What is neither True nor False signs nobody in."""
import asyncio
import gc
import warnings
from unittest.mock import Mock

import pytest
from device import Device
from test_stored import ORIGIN, USER, rows, stored

from garvoeng import Refused, Server

UNTRUE = {
    "a tuple": (False, "why"), "a str": "invalid", "a Mock": Mock(), "an int": 1, "a list": [], "None": None, "a dict": {}, "a float": 1.0,
    "a bytes": b"\x01", "a type": object}


async def coroutine(*_):
    return True


@pytest.fixture(autouse=True)
def no_warning():
    """No coroutine is left that nobody awaited."""
    with warnings.catch_warnings(record=True) as heard:
        warnings.simplefilter("always")
        yield
        gc.collect()
    assert not [one for one in heard if "never awaited" in str(one.message)]


def thief(device):
    """Another key under the same id."""
    other = Device(credential=device.id)
    other.count = device.count
    return other


class Plain:
    """`Server` over a dict."""

    def __init__(self, verify):
        self.table, self.server = {}, Server("example.com", [ORIGIN], verify=verify)
        self.register_begin, self.authenticate_begin = self.server.register_begin, self.server.authenticate_begin

    def register_complete(self, session, response):
        made = self.server.register_complete(session, response, is_registered=lambda id: id in self.table)
        self.table[made.credential.id] = made.credential
        return made

    def authenticate_complete(self, session, response):
        return self.server.authenticate_complete(session, response, credential=self.table.get)

    async def register_complete_async(self, session, response):
        async def is_registered(id):
            return id in self.table
        made = await self.server.register_complete_async(session, response, is_registered=is_registered)
        self.table[made.credential.id] = made.credential
        return made

    async def authenticate_complete_async(self, session, response):
        async def credential(id):
            return self.table.get(id)
        return await self.server.authenticate_complete_async(session, response, credential=credential)

    def kept(self):
        return dict(self.table)


class OfRows:
    def __init__(self, folder, verify):
        self.sql = rows(folder)
        self.sql.server.verify = verify

    def __getattr__(self, name):
        return getattr(self.sql, name)

    def kept(self):
        with self.sql.transaction() as rows:
            return rows.credentials(None), rows.run("select count(*) from garvoeng_session").fetchone()


class OfProgram:
    def __init__(self, folder, verify):
        self.stored = stored(folder, verify=verify)

    def __getattr__(self, name):
        return getattr(self.stored, name)

    def kept(self):
        return self.stored.rows(), self.stored.status()["commits"]


@pytest.fixture(params=["server", "rows", "program"])
def party(request, tmp_path):
    """A relying party whose `verify` is set by `answers`; the device that is registered there."""
    from garvoeng.signatures import is_valid
    said = {"by": is_valid}

    def verify(*asked):
        return said["by"](*asked)

    made = {"server": lambda: Plain(verify), "rows": lambda: OfRows(tmp_path, verify), "program": lambda: OfProgram(tmp_path, verify)}[request.param]()
    device = Device()
    options, session = made.register_begin(USER, "name")
    made.register_complete(session, device.register(options))

    def answers(by):
        said["by"] = by

    made.answers, made.device = answers, device
    yield made
    if request.param == "program":
        made.close()


@pytest.mark.parametrize("kind", [*UNTRUE, "a coroutine"])
def test_what_is_neither_true_nor_false_is_no_verdict(party, kind):
    """A thief is not signed in, nothing is stored, and the session stays open for the right response."""
    options, session = party.authenticate_begin(user=USER)
    response = thief(party.device).sign_in(options)
    packed, other = party.register_begin(b"another", "name", attestation="direct")
    made = Device(credential=b"fresh").register(packed, packed=True, message=b"another")
    before = party.kept()
    party.answers(coroutine if kind == "a coroutine" else lambda *_: UNTRUE[kind])
    for call, words in ((party.authenticate_complete, (session, response)), (party.register_complete, (other, made))):
        with pytest.raises(TypeError, match=f"verify answered {kind}, and not True or False"):
            call(*words)
    assert party.kept() == before
    if kind != "a coroutine":
        for call, words in ((party.authenticate_complete_async, (session, response)), (party.register_complete_async, (other, made))):
            with pytest.raises(TypeError, match=f"verify answered {kind}, and not True or False"):
                asyncio.run(call(*words))
    party.answers(lambda *_: False)
    for call, words, name in ((party.authenticate_complete, (session, response), "W14"), (party.register_complete, (other, made), "G13")):
        with pytest.raises(Refused, match=name):
            call(*words)
    party.answers(lambda *_: True)
    assert party.authenticate_complete(session, response) and party.register_complete(other, made)


def test_a_verify_that_is_awaited(party):
    """By the awaited forms: it is asked for the signature, awaited by the loop, and True or False counts."""
    from garvoeng.signatures import is_valid
    asked, loops = [], set()

    async def verify(*words):
        await asyncio.sleep(0)
        loops.add(asyncio.get_running_loop())
        asked.append(words)
        return is_valid(*words)

    async def wrong(*words):
        return "valid"

    async def fails(*words):
        raise KeyError("no verifier")

    async def acts():
        options, session = party.authenticate_begin(user=USER)
        for by, error, name in ((verify, Refused, "W14"), (wrong, TypeError, "verify answered a str, and not True"), (fails, KeyError, "no")):
            party.answers(by)
            with pytest.raises(error, match=name):
                await party.authenticate_complete_async(session, thief(party.device).sign_in(options))
        party.answers(verify)
        assert await party.authenticate_complete_async(session, party.device.sign_in(options))
        packed, session = party.register_begin(b"another", "name", attestation="direct")
        fresh = Device(credential=b"fresh")
        with pytest.raises(Refused, match="G13"):
            await party.register_complete_async(session, fresh.register(packed, packed=True, message=b"another"))
        assert (await party.register_complete_async(session, fresh.register(packed, packed=True))).credential.id == fresh.id
        assert loops == {asyncio.get_running_loop()}

    asyncio.run(acts())
    assert [len(words) for words in asked] == [5] * 4


def test_an_answer_is_for_the_signature_that_was_asked_for():
    """What `verify` said of one signature counts for no other, if the verdict asks for another when it is called again."""
    from garvoeng import answers
    words = iter([(1, b"one"), (1, b"other")])

    async def verify(*asked):
        return True

    assert asyncio.run(answers.judged(verify, lambda by: by(*next(words)))) is False


def test_look_ups():
    """A coroutine in a call that is not awaited, and what is no answer, are told by their names."""
    party, device = Server("example.com", [ORIGIN]), Device()
    options, session = party.register_begin(USER, "name")
    response = device.register(options)
    for kind, answer in {**UNTRUE, "a coroutine": None}.items():
        said = coroutine if kind == "a coroutine" else lambda _: answer
        advice = "; .* ends in _async" if kind == "a coroutine" else "$"
        with pytest.raises(TypeError, match=f"is_registered answered {kind}, and not True or False{advice}"):
            party.register_complete(session, response, is_registered=said)
        if kind != "a coroutine":
            with pytest.raises(TypeError, match="is_registered answered"):
                asyncio.run(party.register_complete_async(session, response, is_registered=said))
    stored = party.register_complete(session, response, is_registered=lambda _: False).credential
    options, session = party.authenticate_begin()
    response = device.sign_in(options, user=USER)
    for kind, answer in {**UNTRUE, "a coroutine": None}.items():
        if kind == "None":
            continue
        said = coroutine if kind == "a coroutine" else lambda _: answer
        with pytest.raises(TypeError, match=f"credential answered {kind}, and not a Credential or None"):
            party.authenticate_complete(session, response, credential=said)
    assert asyncio.run(party.authenticate_complete_async(session, response, credential=lambda _: stored)).credential.id == device.id
