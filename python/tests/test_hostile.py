"""What hosts, visitors and other processes do to the package."""
import json
import multiprocessing
import pickle
from collections import UserDict
from collections.abc import Mapping
from concurrent.futures import ProcessPoolExecutor
from types import MappingProxyType

import pytest
from device import Device
from hostile import changes, nested, passed_over

from garvoeng import BadInput, Credential, Refused, RowDamaged, Server, StoredServer, StoreFailed
from garvoeng.forms import from_text, to_text

USER = b"account 7"
RP_ID, ORIGIN = "example.com", "https://example.com"


def test_hostile_values():
    """Each is a named refusal; none that differs in a member that the standard fixes is accepted."""
    server, device = Server(RP_ID, [ORIGIN]), Device()
    begun, session = server.register_begin(USER, "name")
    made = device.register(begun)

    def register(response):
        return server.register_complete(session, response, is_registered=lambda _: False)

    find = {device.id: register(made).credential}.get
    asked, other = server.authenticate_begin(user=USER, allow=[device.id])
    response = device.sign_in(asked, user=USER)

    def sign_in(response):
        return server.authenticate_complete(other, response, credential=find)

    tried, wrong = 0, []
    for call, good in ((register, made), (sign_in, response)):
        for what, hostile in changes(good):
            tried += 1
            try:
                call(hostile)
            except (Refused, BadInput) as refused:
                assert str(refused)
            except Exception as error:  # noqa: BLE001
                wrong.append((what, repr(error)))
            else:
                wrong.append((what, "accepted"))
        for _, same in passed_over(good):
            tried += 1
            assert call(same)
    assert wrong == [] and tried >= 2_000


class Read(Mapping):
    """A mapping that is no dict."""

    def __init__(self, inner):
        self.inner = inner

    def __getitem__(self, name):
        return self.inner[name]

    def __iter__(self):
        return iter(self.inner)

    def __len__(self):
        return len(self.inner)


def test_mappings_that_are_no_dicts():
    """The response, its parts and the extensions' results may be other mappings, and texts of a class of their own."""
    server, device = Server(RP_ID, [ORIGIN]), Device()
    options, session = server.register_begin(USER, "name")
    made = device.register(options)
    text = type("Text", (str,), {})
    for response in (Read(made), MappingProxyType(made), UserDict(made), {**made, "response": Read(made["response"])},
                     {**made, "clientExtensionResults": Read({})}, Read({**made, "response": Read(made["response"])}),
                     {name: text(value) if isinstance(value, str) else value for name, value in made.items()}):
        assert server.register_complete(session, response, is_registered=lambda _: False).credential.id == device.id
        for wrong in ("id", "rawId", "type"):
            with pytest.raises(BadInput):
                server.register_complete(session, Read({**response, wrong: "AA"}), is_registered=lambda _: False)


def test_members_that_nest_as_deep_as_each_other():
    """No comparison goes so deep that it ends the call otherwise than by `BadInput`."""
    server, device = Server(RP_ID, [ORIGIN]), Device()
    options, session = server.register_begin(USER, "name")
    made = device.register(options)
    for depth in (10, 900, 10_000):
        for of in (list, dict):
            for names in (("id", "rawId"), ("id", "rawId", "type"), ("type",), ("clientExtensionResults",), ("authenticatorAttachment",)):
                hostile = {**made, **{name: nested(depth, of) for name in names}}
                if names == ("clientExtensionResults",) and of is dict:
                    assert server.register_complete(session, hostile, is_registered=lambda _: False)
                    continue
                with pytest.raises(BadInput):
                    server.register_complete(session, hostile, is_registered=lambda _: False)


@pytest.mark.parametrize("text", ["AA==", "AA=", "A", "AB", "AAB", "A A", "AA\n", "+A", "/A", "\uff21A", "AAAAA", "=", "AA-_="])
def test_one_spelling(text):
    with pytest.raises(BadInput):
        from_text(text, "it")


def test_each_value_is_read():
    for size in range(70):
        for value in (bytes(size), b"\xff" * size, bytes(range(size))):
            assert from_text(to_text(value), "it") == value
    for bits in range(256):
        assert from_text(to_text(bytes([bits])), "it") == bytes([bits])
        assert from_text(to_text(bytes([9, bits])), "it") == bytes([9, bits])


def test_each_spelling_but_one():
    """Of the texts of two, three and four letters those are taken that `to_text` writes, and no other; nor is one with another letter
    anywhere."""
    letters = "ABCDEFGHIJKLMNOPQRSTUVWXYZabcdefghijklmnopqrstuvwxyz0123456789-_"
    for front, count in (("", 256), ("k", 1024), ("Az", 4096)):
        taken = []
        for first in letters:
            for second in letters:
                text = front + first + second
                try:
                    value = from_text(text, "it")
                except BadInput:
                    continue
                assert to_text(value) == text
                taken.append(value)
        assert len(set(taken)) == len(taken) == count
    others = [chr(number) for number in range(300) if chr(number) not in letters] + ["\ud800", "\uff21", "\U0001f511"]
    for size in (2, 3, 4, 6, 7, 8):
        for at in range(size):
            for other in others:
                with pytest.raises(BadInput, match="it is not base64url"):
                    from_text("A" * at + other + "A" * (size - at - 1), "it")


def test_size_of_a_response():
    """65,536 characters in all, and not one more."""
    server, tried = Server(RP_ID, [ORIGIN]), 0
    for length in range(16, 24):
        device = Device(credential=bytes(length))
        options, session = server.register_begin(USER, "name")
        made = device.register(options)
        fits = 65_536 - len(made["rawId"]) - len(made["response"]["attestationObject"])
        for size, error in ((fits, Refused), (fits + 1, BadInput), (fits + 2, BadInput)):
            if size % 4 != 1:
                tried += 1
                made["response"]["clientDataJSON"] = "A" * size
                with pytest.raises(error) as caught:
                    server.register_complete(session, made, is_registered=lambda _: False)
                assert error is Refused or str(caught.value) == "the response is too long"
    assert tried > 16


def refused(is_registration, number):
    raise Refused(is_registration, number, "a text")


@pytest.mark.parametrize("error", [Refused(False, 14, "a text"), Refused(True, 3, "a text"), BadInput("a text", 103), BadInput("a text"),
                                   StoreFailed("the program has ended: the file is in use")])
def test_errors_between_processes(error):
    again = pickle.loads(pickle.dumps(error))
    assert type(again) is type(error) and str(again) == str(error) and vars(again) == vars(error)


def test_refused_in_a_pool():
    # A process that is forked while another thread holds a lock may wait for it for ever.
    with ProcessPoolExecutor(1, mp_context=multiprocessing.get_context("spawn")) as pool:
        with pytest.raises(Refused) as caught:
            pool.submit(refused, False, 7).result(60)
        assert caught.value.name == "W7"
        assert pool.submit(abs, -1).result(60) == 1


@pytest.mark.parametrize("rp_id", ["https://example.com", "example.com/", "Example.com", "", "example.com:443", "example..com", ".com",
                                   "127.0.0.1", "a" * 254, "ex\u00e4mple.com", "example.com.", None, b"example.com", "-a.com", "a b"])
def test_rp_ids_that_are_none(rp_id):
    error = BadInput if isinstance(rp_id, str) else TypeError
    with pytest.raises(error, match="rp_id is a"):
        Server(rp_id, ["https://example.com"])
    with pytest.raises(error, match="rp_id is a"):
        StoredServer("program", "file", rp_id, ["https://example.com"])


@pytest.mark.parametrize("origins", [
    [], "https://example.com", ["https://example.com/"], ["https://example.com/login"], ["https://Example.com"], ["HTTPS://example.com"],
    ["example.com"], [""], [None], ["https://example.com:443"], ["http://example.com:80"], ["https://example.com:0443"],
    ["https://example.com:70000"], ["https://user@example.com"], ["https://example.com?x"], ["https://example.com#x"], ["null"], ["*"],
    ["https://*.example.com"], ["https://other.com"], ["https://notexample.com"], ["https://example.com.evil.com"], ["https://com"],
    ["https://example.com", "https://example.com/"], ["https://ex\u00e4mple.com"], ["https://example.com "], [b"https://example.com"]])
def test_origins_that_are_none(origins):
    is_texts = isinstance(origins, list) and all(isinstance(origin, str) for origin in origins)
    error, told = BadInput if is_texts else TypeError, "origins|origin is example.com or ends in"
    with pytest.raises(error, match=told):
        Server("example.com", origins)
    with pytest.raises(error, match=told):
        StoredServer("program", "file", "example.com", origins)


@pytest.mark.parametrize("rp_id, origins", [
    ("example.com", ["https://example.com:8443"]), ("example.com", ["https://a.b.example.com"]), ("localhost", ["http://localhost:8080"]),
    ("example.com", ["https://example.com", "https://example.org"]), ("intern", ["https://intern"]),
    ("example.com", ["android:apk-key-hash:4cE-bpyJg3DJr7kIGjMkZBPmkpXhuL9bXwGkpHv3Zgk"]), ("xn--exmple-cua.com", ["https://xn--exmple-cua.com"]),
    ("example.com", ["https://example.com", "chrome-extension://abcdefghijklmnop"])])
def test_parties(rp_id, origins):
    assert Server(rp_id, origins).origins == tuple(origins)
    StoredServer("program", "file", rp_id, origins)


def test_limits():
    server, device = Server(RP_ID, [ORIGIN]), Device()
    for user in (b"", bytes(65)):
        with pytest.raises(BadInput):
            server.register_begin(user, "name")
        with pytest.raises(BadInput):
            server.authenticate_begin(user=user)
    for user in (b"1", bytes(64)):
        assert server.register_begin(user, "name")[1].user == user == server.authenticate_begin(user=user)[1].user
    for ids in ([b"x"] * 65, [b""], [bytes(1024)], [b"x", b""], [b"x", bytes(1024)], [b"x", b"y", b""]):
        with pytest.raises(BadInput):
            server.authenticate_begin(allow=ids)
        with pytest.raises(BadInput):
            server.register_begin(USER, "name", exclude=ids)
    ids = [bytes(1023)] * 64
    assert len(server.authenticate_begin(allow=ids)[1].allow) == 64
    options, session = server.authenticate_begin()
    response = device.sign_in(options, user=USER)
    for algorithm, count in ((-7, -1), (-7, 2**32), (-7, 2**32 + 5), (2**32 - 7, 0), (-9, 0), (0, 0)):
        wrong = Credential(device.id, USER, algorithm, device.x, device.y, count, None)
        with pytest.raises(RowDamaged):
            server.authenticate_complete(session, response, credential=lambda _: wrong)
    last = Credential(device.id, USER, -7, device.x, device.y, 2**32 - 1, None)
    with pytest.raises(Refused) as caught:
        server.authenticate_complete(session, response, credential=lambda _: last)
    assert caught.value.name == "W15"


def test_what_is_no_session():
    """A text counts as none, whatever it says, since the page's visitor may have written it; another kind of value is the site's slip."""
    server, device = Server(RP_ID, [ORIGIN]), Device()
    options, registration = server.register_begin(USER, "name")
    made = device.register(options)
    credential = server.register_complete(registration, made, is_registered=lambda _: False).credential
    asked, session = server.authenticate_begin(user=USER)
    response = device.sign_in(asked)
    calls = ((lambda begun: server.register_complete(begun, made, is_registered=lambda _: False), "G1", "RegistrationSession", registration, session),
             (lambda begun: server.authenticate_complete(begun, response, credential=lambda _: credential), "W1", "SignInSession", session, registration))
    for call, name, kind, own, other in calls:
        for text in (None, "", "text", json.dumps(own.to_json()), json.dumps(other.to_json())):
            with pytest.raises(Refused) as caught:
                call(text)
            assert caught.value.name == name
        for wrong in (other, own.to_json(), b"", b"text", 0, 7, True, [own], (own,), object(), Server):
            with pytest.raises(TypeError, match=f"session is a {kind} or None, and not .*: {kind}.from_json reads one that was kept as JSON"):
                call(wrong)
        assert call(own).credential.id == device.id
