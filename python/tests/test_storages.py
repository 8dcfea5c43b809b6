"""One site over each storage: the same code, the same answers, the same refusals."""
import asyncio
import time
from collections import UserDict
from concurrent.futures import ThreadPoolExecutor

import pytest
from device import AT, BE, BS, ED, UP, UV, Device, changed
from storages import outcome, site

from garvoeng import BadInput, Credential, KeptCredential, Refused, Registered, SignedIn
from garvoeng.forms import to_text

__all__ = ["site"]
USER, OTHER = b"account 7", b"account 8"


def broken(value):
    return value[:-1] + bytes([value[-1] ^ 1])


class Visit:
    """What a site does, and its answers. It knows no storage."""

    def __init__(self, server):
        self.server = server

    def registers(self, device, user=USER, **how):
        options, session = self.server.register_begin(user, "name", **how)
        return self.server.register_complete(session, self.response(device, options))

    def response(self, device, options, **how):
        made = device.register(options, **how)
        made["response"]["transports"] = ["usb", "no text", 7, "nfc"]
        return made

    def signs_in(self, device, user=USER, **how):
        options, session = self.server.authenticate_begin(**how)
        return self.server.authenticate_complete(session, device.sign_in(options, user=user))

    def lists(self, user=USER, **how):
        """The ids of both lists, which the account's passkeys are in, if no other is given."""
        exclude, allow = {"exclude": how["ids"]} if how else {}, {"allow": how["ids"]} if how else {}
        return [[row["id"] for row in listed] for listed in (self.server.register_begin(user, "name", **exclude)[0]["excludeCredentials"],
                                                             self.server.authenticate_begin(user=user, **allow)[0]["allowCredentials"])]

    def refused(self, call, *words, **named):
        """The refusal's name."""
        with pytest.raises(Refused) as caught:
            call(*words, **named)
        assert caught.value.name == ("G" if caught.value.is_registration else "W") + str(caught.value.number)
        return caught.value.name


def registration(visit):
    """A Registered, the same of each."""
    for algorithm, packed in ((-7, True), (-8, False), (-257, False)):
        device = Device(algorithm, credential=b"%d" % -algorithm)
        options, session = visit.server.register_begin(USER, "name", "Display Name", attestation="direct")
        assert options["user"] == {"id": to_text(USER), "name": "name", "displayName": "Display Name"} and isinstance(session, str)
        outputs = b"\xa1\x6bcredProtect\x02"
        made = visit.server.register_complete(session, visit.response(device, options, packed=packed, flags=UP | UV | AT | ED | BE | BS, outputs=outputs))
        stored = Credential(device.id, USER, algorithm, device.x, device.y, 0, True, transports=("usb", "nfc"))
        assert made == Registered(stored, device.aaguid, "packed" if packed else "none", True, True, UP | UV | AT | ED | BE | BS, outputs)
        assert Registered.from_json(made.to_json()) == made


def sign_in(visit):
    """A SignedIn, the same of each: the credential as it is stored, and nothing to be written."""
    for algorithm in (-7, -8, -257):
        device = Device(algorithm, credential=b"%d" % -algorithm)
        options, session = visit.server.register_begin(USER, "name")
        visit.server.register_complete(session, visit.response(device, options, flags=UP | UV | AT | BE))
        for known in ({}, {"user": USER}, {"allow": [device.id]}):
            options, session = visit.server.authenticate_begin(**known)
            said = visit.server.authenticate_complete(session, device.sign_in(options, user=USER, flags=UP | BE | BS | ED, outputs=b"\xa1\x61a\x01"))
            stored = Credential(device.id, USER, algorithm, device.x, device.y, device.count, True, transports=("usb", "nfc"))
            assert said == SignedIn(stored, None, True, False, UP | BE | BS | ED, b"\xa1\x61a\x01")
            assert type(said.credential) is Credential and SignedIn.from_json(said.to_json()) == said


def rows(visit):
    """What is known of each, in order of registration, of a user or of all."""
    assert visit.server.rows() == visit.server.rows(USER) == []
    devices, before = [Device(credential=name) for name in (b"b", b"a", b"c")], int(time.time())
    for device, user in zip(devices, (USER, USER, OTHER)):
        visit.registers(device, user)
    visit.signs_in(devices[0])
    found, after = visit.server.rows(), time.time()
    assert sorted(row.id for row in found) == [b"a", b"b", b"c"] and {row.id for row in visit.server.rows(USER)} == {b"a", b"b"}
    assert [row.id for row in visit.server.rows(OTHER)] == [b"c"] and visit.server.rows(b"nobody") == []
    for row in found:
        device = next(one for one in devices if one.id == row.id)
        used = row.used_at
        assert isinstance(row, KeptCredential) and before <= row.created_at <= after and row.backed_up in (None, False)
        assert (used is None) == (device is not devices[0]) and (used is None or before <= used <= after)
        assert (row.user, row.x, row.y, row.sign_count, row.transports, row.aaguid, row.eligible, row.retired) == (
            OTHER if row.id == b"c" else USER, device.x, device.y, device.count, ("usb", "nfc"), device.aaguid, False, False)
        assert KeptCredential.from_json(row.to_json()) == row


def own_lists(visit):
    """Neither list has another account's passkeys nor retired ones; a list that is given stands in their place."""
    assert visit.lists() == [[], []]
    for name, user in ((b"mine", USER), (b"theirs", OTHER), (b"old", USER)):
        visit.registers(Device(credential=name), user)
    assert visit.server.retire(b"old") and visit.lists() == [[to_text(b"mine")]] * 2 and visit.lists(OTHER) == [[to_text(b"theirs")]] * 2
    assert visit.lists(ids=[]) == [[], []] and visit.lists(ids=[b"x"]) == [[to_text(b"x")]] * 2
    assert visit.lists(ids=visit.server.rows(OTHER)) == [[to_text(b"theirs")]] * 2
    options, _ = visit.server.register_begin(USER, "name")
    assert options["excludeCredentials"] == [{"type": "public-key", "id": to_text(b"mine"), "transports": ["usb", "nfc"]}]
    assert visit.server.authenticate_begin()[0]["allowCredentials"] == []


def long_lists(visit):
    """Of more ids than there is room for the first are excluded, and none listed: any of the account's may answer."""
    devices = [Device(credential=b"%01023d" % at) for at in range(33)]
    for device in devices[:32]:
        visit.registers(device)
    assert [len(listed) for listed in visit.lists()] == [32, 32]
    visit.registers(devices[32])
    assert [len(listed) for listed in visit.lists()] == [32, 0]
    stranger = Device(credential=b"stranger")
    visit.registers(stranger, OTHER)
    options, session = visit.server.authenticate_begin(user=USER)
    assert visit.refused(visit.server.authenticate_complete, session, stranger.sign_in(options, user=OTHER)) == "W4"
    assert visit.server.authenticate_complete(session, devices[32].sign_in(options, user=USER)).credential.id == devices[32].id


def refusals_of_registrations(visit):
    """By number, in the order of the steps; a refusal leaves the session open."""
    device = Device()
    options, session = visit.server.register_begin(USER, "name", user_verification=True, algorithms=[-7])
    good = visit.response(device, options)
    for number, response in ((4, visit.response(Device(), {**options, "challenge": "AA"})),
                             (5, visit.response(Device(origin="https://other.com"), options)), (8, visit.response(Device(rp_id="other.com"), options)),
                             (9, visit.response(device, options, flags=UV | AT)), (10, visit.response(device, options, flags=UP | AT)),
                             (11, visit.response(Device(-8), options)), (19, {**good, "id": "AAAA", "rawId": "AAAA"})):
        assert visit.refused(visit.server.register_complete, session, response) == f"G{number}"
    with pytest.raises(BadInput, match="response is missing"):
        visit.server.register_complete(session, {})
    assert visit.server.register_complete(session, good).credential.id == device.id
    assert visit.refused(visit.server.register_complete, session, good) == "G1"
    # Whichever of the two ids is registered, it is refused because they differ.
    options, session = visit.server.register_begin(OTHER, "name")
    for attested, named in ((b"new", device.id), (device.id, b"new"), (b"new", b"ne"), (b"new", b"new ")):
        response = {**visit.response(Device(credential=attested), options), "id": to_text(named), "rawId": to_text(named)}
        assert visit.refused(visit.server.register_complete, session, response) == "G19"
    assert visit.refused(visit.registers, device, OTHER) == "G15" and visit.server.retire(device.id)
    assert visit.refused(visit.registers, device) == "G15"


def refusals_of_sign_ins(visit):
    device, other = Device(), Device(credential=b"other")
    visit.registers(device)
    visit.registers(other, OTHER)
    options, session = visit.server.authenticate_begin(user=USER, user_verification=True)
    good = device.sign_in(options, user=USER)
    unknown = Device(credential=b"unknown")
    for name, response in (("W2", other.sign_in(options, user=OTHER)), ("W2", unknown.sign_in(options, user=USER)), ("W4", device.sign_in(options, user=OTHER)),
                           ("W7", device.sign_in({**options, "challenge": "AA"}, user=USER)), ("W12", device.sign_in(options, user=USER, flags=UV)),
                           ("W13", device.sign_in(options, user=USER, flags=UP)), ("W14", changed(good, "signature", broken)),
                           ("W16", device.sign_in(options, user=USER, flags=UP | UV | BE))):
        assert visit.refused(visit.server.authenticate_complete, session, response) == name
    with pytest.raises(BadInput, match="response is missing"):
        visit.server.authenticate_complete(session, {})
    assert visit.server.authenticate_complete(session, good).credential.sign_count == 1
    assert visit.refused(visit.server.authenticate_complete, session, good) == "W1"
    device.count = 0
    assert visit.refused(visit.signs_in, device) == "W15" and visit.server.rows(USER)[0].sign_count == 1
    assert visit.refused(visit.signs_in, unknown) == "W3" and visit.server.retire(device.id)
    assert visit.refused(visit.signs_in, device) == "W3"


def retirement(visit):
    """Whether it signed in until now; of one account, where that is named; its open registrations end, and nothing of others."""
    for end in ("retire", "retire_all", "delete"):
        for device, user in ((Device(credential=b"mine"), USER), (Device(credential=b"theirs"), OTHER)):
            if device.id not in [row.id for row in visit.server.rows()]:
                visit.registers(device, user)
        options, mine = visit.server.register_begin(USER, "name")
        others, theirs = visit.server.register_begin(OTHER, "name", exclude=[])
        made, more = Device(credential=b"new").register(options), Device(credential=b"more %s" % end.encode()).register(others)
        if end == "retire_all":
            assert visit.server.retire_all(b"nobody") == 0 and [visit.server.retire_all(USER), visit.server.retire_all(USER)] == [1, 0]
        else:
            call = getattr(visit.server, end)
            assert not call(b"mine", user=OTHER) and not call(b"none") and not call(b"none", user=USER)
            assert [call(b"mine", user=USER), call(b"mine", user=USER), call(b"mine")] == [True, False, False]
        assert [row.retired for row in visit.server.rows(USER)] == ([] if end == "delete" else [True])
        assert visit.refused(visit.server.register_complete, mine, made) == "G1"
        visit.server.register_complete(theirs, more)
        if end != "delete":
            assert visit.server.delete(b"mine")


def erasure(visit):
    """How many they were; their ids may be registered again; a registration that has begun ends, and another account's stays."""
    keys = [Device(credential=b"%d" % at) for at in range(3)]
    for device in keys:
        visit.registers(device)
    visit.registers(Device(credential=b"theirs"), OTHER)
    assert visit.server.retire(b"1")
    options, session = visit.server.register_begin(USER, "name")
    asked, open_session = visit.server.authenticate_begin(user=USER)
    made = Device(credential=b"late").register(options)
    assert visit.server.erase(b"nobody") == 0 and [visit.server.erase(USER), visit.server.erase(USER)] == [3, 0]
    assert visit.server.rows(USER) == [] and [row.id for row in visit.server.rows()] == [b"theirs"]
    assert visit.refused(visit.server.register_complete, session, made) == "G1"
    assert visit.refused(visit.server.authenticate_complete, open_session, keys[0].sign_in(asked, user=USER)) in ("W1", "W3")
    for device, user in zip(keys, (OTHER, USER, OTHER)):
        assert visit.registers(device, user).credential.user == user


def abandonment(visit):
    device = Device()
    visit.registers(device)
    options, session = visit.server.authenticate_begin()
    makes, registration = visit.server.register_begin(OTHER, "name")
    assert [visit.server.abandon(one) for one in (session, session, registration, registration)] == [True, False, True, False]
    assert visit.refused(visit.server.authenticate_complete, session, device.sign_in(options, user=USER)) == "W1"
    assert visit.refused(visit.server.register_complete, registration, Device(credential=b"new").register(makes)) == "G1"


def sessions_of_other_kinds(visit):
    """A text that is no open session of this kind is refused by the first step; what is no text is the site's slip. None changes a thing."""
    device = Device()
    visit.registers(device)
    options, session = visit.server.authenticate_begin()
    makes, registration = visit.server.register_begin(OTHER, "name")
    good, made = device.sign_in(options, user=USER), Device(credential=b"new").register(makes)
    texts = [None, "", "0" * 32, "A", "=", session + "\n", session[:-1], session.upper() + "0", "\ud800", "\0" * 32, "' or 1=1 --", "%s", "?", "x" * 70_000,
             '{"challenge":"AA","user":null,"allow":[],"user_verification":false}']
    for text in [*texts, registration]:
        assert visit.refused(visit.server.authenticate_complete, text, good) == "W1"
    for text in [*texts, session]:
        assert visit.refused(visit.server.register_complete, text, made) == "G1"
    assert [visit.server.abandon(text) for text in texts] == [False] * len(texts)
    for wrong in (0, 7, True, 1.5, 10**40, b"", session.encode(), [session], {}, {"session": session}, object(), UserDict(), Visit):
        for call in (lambda: visit.server.authenticate_complete(wrong, good), lambda: visit.server.register_complete(wrong, made),
                     lambda: visit.server.abandon(wrong)):
            with pytest.raises(TypeError, match="session is the text that the begin gave, or None, and not "):
                call()
    assert visit.server.authenticate_complete(session, good).credential.id == device.id
    assert visit.server.register_complete(registration, made).credential.id == b"new"


def kinds_of_the_host(visit):
    """Each slip is told by the parameter's name, and nothing begins or ends by it."""
    device = Device()
    visit.registers(device)
    for wrong in ("text", 5, [1], bytearray):
        for call in (visit.server.rows, visit.server.retire_all, visit.server.erase, lambda user: visit.server.retire(device.id, user=user),
                     lambda user: visit.server.delete(device.id, user=user), lambda user: visit.server.authenticate_begin(user=user),
                     lambda user: visit.server.register_begin(user, "name")):
            with pytest.raises(TypeError, match="user is bytes"):
                call(wrong)
    for wrong in ("text", 5, None, [1]):
        for call in (visit.server.retire, visit.server.delete):
            with pytest.raises(TypeError, match="credential is bytes"):
                call(wrong)
    for wrong in (b"", bytes(65)):
        for call in (visit.server.rows, visit.server.retire_all, visit.server.erase, lambda user: visit.server.register_begin(user, "name")):
            with pytest.raises(BadInput, match="1 to 64 bytes"):
                call(wrong)
    with pytest.raises(TypeError, match="unexpected keyword argument"):
        visit.server.register_begin(USER, "name", userVerification=True)
    assert [row.retired for row in visit.server.rows()] == [False]


def at_once(visit):
    """Of responses over one session one is accepted, and of registrations of one id one."""
    device = Device()
    visit.registers(device)

    for _ in range(3):
        options, session = visit.server.authenticate_begin()
        response = device.sign_in(options, user=USER)
        with ThreadPoolExecutor(6) as pool:
            said = list(pool.map(lambda _: outcome(visit.server.authenticate_complete, session, response), range(6)))
        assert said.count(True) == 1 and set(said) <= {True, "W1", "W15"}
    begun = [visit.server.register_begin(USER, "name", exclude=[]) for _ in range(4)]
    pairs = [(session, Device(credential=b"fresh").register(options)) for options, session in begun]
    with ThreadPoolExecutor(4) as pool:
        said = list(pool.map(lambda pair: outcome(visit.server.register_complete, *pair), pairs))
    assert said.count(True) == 1 and set(said) == {True, "G15"} and len(visit.server.rows(USER)) == 2


def awaited(visit):
    """The same, awaited."""
    async def acts():
        device = Device()
        options, session = await visit.server.register_begin_async(USER, "name")
        made = await visit.server.register_complete_async(session, visit.response(device, options))
        options, session = await visit.server.authenticate_begin_async(user=USER)
        said = await visit.server.authenticate_complete_async(session, device.sign_in(options))
        assert made.credential.id == said.credential.id == device.id and said.before is None
        with pytest.raises(TypeError, match="session is the text"):
            await visit.server.authenticate_complete_async(7, device.sign_in(options))

    asyncio.run(acts())


SITE = [registration, sign_in, rows, own_lists, long_lists, refusals_of_registrations, refusals_of_sign_ins, retirement, erasure, abandonment,
        sessions_of_other_kinds, kinds_of_the_host, at_once, awaited]


@pytest.mark.parametrize("acts", SITE, ids=lambda acts: acts.__name__)
def test_storages(site, acts):
    acts(Visit(site))
