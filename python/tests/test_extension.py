"""The extension module: what it holds and gives back, threads, interpreters beside the first, and objects that lie. tests/packages/python runs
these by Debian's debug build of Python with the address sanitizer too."""
import gc
import json
import os
import random
import subprocess
import sys
import threading
import time
import tracemalloc
from dataclasses import replace
from pathlib import Path

import pytest
from device import AT, ED, UP, UV, Device, changed

import garvoeng
from garvoeng import EDDSA, ES256, BadInput, Credential, Refused, RowDamaged, Server, SignedIn, _passkey, forms, server, signatures

USER, ORIGIN = b"account 7", "https://example.com"
CRED_PROTECT = b"\xa1\x6bcredProtect\x02"


def party(**more):
    return Server("example.com", [ORIGIN], **more)


class Ceremony:
    """A registration with a packed statement and a sign-in, with all their parts."""

    def __init__(self, algorithm=ES256, **more):
        self.server, self.device = party(**more), Device(algorithm)
        options, self.begun = self.server.register_begin(USER, "name", attestation="direct")
        self.made = self.device.register(options, packed=True, flags=UP | UV | AT | ED, outputs=CRED_PROTECT)
        self.credential = self.register().credential
        options, self.session = self.server.authenticate_begin(user=USER, allow=[self.credential])
        self.response = self.device.sign_in(options, user=USER, flags=UP | UV | ED, outputs=CRED_PROTECT)

    def register(self, made=None, **more):
        return self.server.register_complete(self.begun, made or self.made, is_registered=lambda _: False, **more)

    def sign_in(self, response=None, **more):
        stored = replace(self.credential, **more)
        return self.server.authenticate_complete(self.session, response or self.response, credential=lambda _: stored)

    def parts(self):
        raw_id, client_data, auth_data, signature, user = forms.sign_in_parts(self.response)
        return [self.session, self.credential, raw_id, user, auth_data, signature, client_data]


def ended(call):
    try:
        return call()
    except (Refused, BadInput, RowDamaged, TypeError, ValueError, OverflowError, IndexError, SystemError, Broken) as error:
        return error


class Broken(Exception):
    """What a host's own objects raise."""


def breaking(*_):
    raise Broken


class Lying(bytes):
    """Bytes that say other things of themselves."""

    def __len__(self):
        return 10**9

    def __getitem__(self, at):
        return breaking()

    __iter__ = __bytes__ = __hash__ = breaking

    def __eq__(self, other):
        return True


class Untrue:
    __bool__ = breaking


class Unhashed(str):
    __hash__ = breaking


class Iterated:
    def __init__(self, values):
        self.values = values

    def __iter__(self):
        yield from self.values


class Endless:
    def __iter__(self):
        yield b"x"
        breaking()


def every_way(one):
    """Calls that are accepted, refused at each of the module's own branches, or raise."""
    bad = changed(one.response, "signature", lambda value: value[:-1] + bytes([value[-1] ^ 1]))
    forged = changed(one.made, "attestationObject", lambda value: value.replace(b"credProtect\x02", b"credProtect\x01"))
    unread = changed(one.made, "attestationObject", lambda value: value[:-1])
    parts = one.parts()
    nameless = {**one.response, "response": {name: value for name, value in one.response["response"].items() if name != "userHandle"}}
    yield lambda: one.sign_in(nameless)
    yield one.register
    yield one.sign_in
    yield lambda: one.register(forged)
    yield lambda: one.register(unread)
    yield lambda: one.register({**one.made, "rawId": 7})
    yield lambda: one.register({**one.made, "response": {**one.made["response"], "clientDataJSON": "A"}})
    yield lambda: one.sign_in(bad)
    yield lambda: one.sign_in({**one.response, "response": {**one.response["response"], "signature": "\ud800"}})
    yield lambda: one.sign_in({**one.response, "response": {**one.response["response"], "signature": "A" * 65_536}})
    yield lambda: one.sign_in(x=bytes(31))
    yield lambda: one.sign_in(sign_count=9)
    yield lambda: one.sign_in(eligible=Untrue())
    yield lambda: one.sign_in(algorithm=7)
    for verify in (breaking, lambda *_: Untrue(), lambda *_: 0, lambda: True):
        server = party(verify=verify)
        yield lambda server=server: server.authenticate_complete_parts(*parts)
        yield lambda server=server: server.register_complete(one.begun, one.made, is_registered=lambda _: False)
    for at in range(2, 7):
        for value in (None, 7, "text", [256], [0] * 9, bytearray(9), memoryview(b"x"), Endless(), Lying(parts[at] or b"")):
            yield lambda at=at, value=value: one.server.authenticate_complete_parts(*parts[:at], value, *parts[at + 1:])
    for allow in (None, 7, [None], [b"x", "y"], Endless(), Iterated([one.credential.id]), [b"x"] * 500):
        yield lambda allow=allow: one.server.authenticate_complete_parts(replace(one.session, allow=allow), *parts[1:])
    for name in ("id", "user", "x", "y", "algorithm", "sign_count", "retired"):
        for value in (None, "text", [1], Untrue(), 10**400, 1.5, bytearray(3)):
            yield lambda name=name, value=value: one.sign_in(**{name: value})
    for name in ("challenge", "user", "user_verification", "algorithms"):
        for value in (None, "text", [1], Untrue(), bytearray(3), 7):
            yield lambda name=name, value=value: one.server.register_complete(
                replace(one.begun, **{name: value}), one.made, is_registered=lambda _: False)
    for words in ((ES256, (one.credential.x, "text")), (ES256, (one.credential.x,)), (ES256, 7), (2**40, (b"", b"")), (7, (b"", b""))):
        yield lambda words=words: _passkey.key_to_cose(*words)
    for call in (_passkey.key_from_cose, _passkey.is_canonical):
        for words in ((), (7,), (None,), (b"",), (b"", b""), (bytearray(b"\xa0"),)):
            yield lambda call=call, words=words: call(*words)
    yield lambda: Credential.from_cose(b"id", USER, one.credential.cose_key, 0)
    for text in (7, None, "A", "A!", "AB", "AAB", "AA", "\ud800", "A" * 65_537):
        yield lambda text=text: forms.from_text(text, "it")
    for words in ((), ({}, {}, ("it",), 10**400), ({}, {}, ("it",), None), ({}, {}, 7, 1), ([], {}, ("it",), 1), ({"it": "AA"}, [], ("it", "other"), 2),
                  ({"it": "AA"}, {}, (7,), 1), ({"it": "AA"}, {}, ([],), 1), ({Broken(): 1}, {}, (Unhashed(),), 1)):
        yield lambda words=words: _passkey.parts(*words)
    for words in ((True,), (Untrue(), 1), (True, "1"), (False, 14), (True, 16), (False, 10**6)):
        yield lambda words=words: _passkey.refusal_text(*words)
    yield from misused(one)


def misused(one):
    """The two calls of the module with words that the package never hands in."""
    parts = (USER, USER, b"example.com", bytes(32), *[b"x"] * 8)
    good = (Credential, SignedIn, server._MEMBERS, lambda *_: True, one.credential, (), None, (1, True, False, True, ES256, 0, False), parts, (ORIGIN.encode(),), (), ())
    for at, values in ((1, (7, object, None)), (2, ((), ("id",), 7)), (7, ((), None, (True,) * 7, (1, True, False, True, 2**40, 0, False),
                                                                         (1, True, False, True, ES256, -1, False), (256, True, False, True, ES256, 0, False),
                                                                         (-1, True, False, True, ES256, 0, False), ("1", True, False, True, ES256, 0, False),
                                                                         (1, True, False, True, ES256, 2**32, False))),
                       (8, ((), parts[:-1], (*parts, b"x"), list(parts), None)), (9, ([], None, (None,), ("text",), (bytearray(3),) * 20)), (10, ([], None, (None,), ("text",))),
                       (11, ([], None, (None,)))):
        for value in values:
            yield lambda at=at, value=value: _passkey.assertion(*good[:at], value, *good[at + 1:])
    told = (b"id", b"example.com", bytes(32), USER, b"{}", b"x")
    flags = (1, *(True,) * 10)
    for at, values in ((1, ((), flags[:-1], (1, *(Untrue(),) * 10), (256, *flags[1:]), (-1, *flags[1:]), None)),
                       (2, ((), told[:-1], (*told, b"x"), None, (*told[:-1], None))), (3, ([], (None,))), (4, ([], (None,), ("text",)))):
        for value in values:
            words = [lambda *_: True, flags, told, (ORIGIN.encode(),), ()]
            words[at] = value
            yield lambda words=words: _passkey.registration(*words)


@pytest.fixture
def frozen():
    """What is there already is none of the collector's, which then takes little time."""
    gc.collect()
    gc.freeze()
    tracemalloc.start(1)
    yield
    tracemalloc.stop()
    gc.unfreeze()


def held_now():
    """Blocks of memory, bytes, also of large blocks, and, by a debug build, references."""
    gc.collect()
    return sys.getallocatedblocks(), tracemalloc.get_traced_memory()[0], getattr(sys, "gettotalrefcount", int)()


@pytest.mark.parametrize("algorithm", [ES256, EDDSA])
def test_memory_is_level(algorithm, frozen):
    """Each way in and out, packed statements and extensions too, many times: nothing is kept."""
    for call in every_way(Ceremony(algorithm)):
        for _ in range(4):
            ended(call)
            before = held_now()
            for _ in range(20):
                ended(call)
            grown = [new - old for new, old in zip(held_now(), before)]
            if grown[0] < 10 and grown[1] < 320 and grown[2] < 10:
                break
        assert grown[0] < 10 and grown[1] < 320 and grown[2] < 10, (call, grown)


def test_references_are_given_back(frozen):
    """What is handed in has as many references after a call as before it."""
    one = Ceremony()
    parts, calls = one.parts(), list(every_way(one))
    held = [Credential, SignedIn, server._MEMBERS, *server._MEMBERS, one.server.verify, forms._SIGN_IN, forms._REGISTRATION, ES256, b"",
            one.credential.transports, one.response, one.response["response"], *one.response["response"].values(), one.made, *parts[2:], one.credential, one.credential.id, one.credential.user, one.credential.x, one.credential.y, one.session.challenge,
            one.session.allow, one.begun.challenge, one.begun.user, one.server._origins_bytes, one.server._rp_id_bytes, None, True, False]
    for call in calls:
        before = [sys.getrefcount(value) for value in held]
        for _ in range(40):
            ended(call)
        gc.collect()
        after = [sys.getrefcount(value) for value in held]
        assert all(abs(new - old) < 20 for old, new in zip(before, after)), (before, after)


def test_hostile_objects_are_refused_or_read():
    """Nothing of a host's own objects ends the process, and what lies of its length is read as the bytes that it has."""
    one = Ceremony()
    parts = one.parts()
    said = [ended(call) for call in every_way(one)]
    assert len(said) > 120
    truth = one.server.authenticate_complete_parts(*parts)
    for at in range(2, 7):
        lying = one.server.authenticate_complete_parts(*parts[:at], Lying(parts[at]), *parts[at + 1:])
        assert lying.credential == truth.credential and lying.extensions == CRED_PROTECT
    for value in (bytearray(parts[4]), memoryview(parts[4]), list(parts[4])):
        assert one.server.authenticate_complete_parts(*parts[:4], value, *parts[5:]).credential.sign_count == 1
    for error in (TypeError, TypeError):
        with pytest.raises(error):
            one.server.authenticate_complete_parts(*parts[:4], "text", *parts[5:])
        with pytest.raises(error):
            one.server.authenticate_complete_parts(*parts[:5], None, *parts[6:])


def test_words_that_the_package_never_hands_in():
    """Too few parts, too many, and None where a part has to be there raise, and so does a number that is longer than its member."""
    tried = [call for call in misused(Ceremony()) if not isinstance(ended(call), int)]
    assert len(tried) > 20 and all(isinstance(ended(call), (TypeError, OverflowError, SystemError, Broken)) for call in tried)
    parts = (USER, USER, b"example.com", bytes(32), *[b"x"] * 8)
    for numbers, error in (((ES256, 0), None), ((ES256, -1), OverflowError), ((ES256, 2**32), OverflowError), ((ES256, 2**64), OverflowError),
                           ((2**32 + ES256, 0), OverflowError), ((ES256, 1.0), TypeError)):
        for lent, origins, allow, wrong in ((parts, (b"x",), (), None), (parts[:-1], (b"x",), (), TypeError), ((*parts, b"x"), (b"x",), (), TypeError),
                                            ((None, None, *parts[2:]), (), (), None), ((*parts[:2], None, *parts[3:]), (), (), TypeError),
                                            (parts, (None,), (), TypeError), (parts, (b"x",), (None,), TypeError), (parts, (), ("x",), TypeError)):
            def call():
                return _passkey.assertion(Credential, SignedIn, server._MEMBERS, lambda *_: True, None, (), None,
                                          (1, True, False, True, *numbers, False), lent, origins, (), allow)

            if error or wrong:
                with pytest.raises((error or wrong, wrong or error)):
                    call()
            else:
                assert isinstance(call(), int)
    told = (b"id", b"example.com", bytes(32), USER, b"{}", b"x")
    for lent, origins, wrong in ((told, (b"x",), None), ((None, *told[1:]), (), TypeError), (told[:-1], (), TypeError), ((*told, b"x"), (), TypeError),
                                 ((told[0], None, *told[2:]), (), TypeError), (told, (None,), TypeError)):
        if wrong:
            with pytest.raises(wrong):
                _passkey.registration(lambda *_: True, (1, *(True,) * 11), lent, origins, ())
        else:
            assert isinstance(_passkey.registration(lambda *_: True, (1, *(True,) * 11), lent, origins, ()), int)


def test_kinds_and_names_that_are_none():
    """Of a sign-in that is accepted: what is no type of instances with members, and names that are too few or no texts, raise."""
    one = Ceremony()
    raw_id, client_data, auth_data, signature, handle = forms.sign_in_parts(one.response)
    stored = one.credential
    lent = (USER, handle, b"example.com", one.session.challenge, stored.id, stored.user, stored.x, stored.y, raw_id, client_data, auth_data, signature)

    def call(credential_type=Credential, kind=SignedIn, names=server._MEMBERS):
        return _passkey.assertion(credential_type, kind, names, lambda *_: True, stored, (), None,
                                  (1, True, False, True, ES256, 0, False), lent, (ORIGIN.encode(),), (), ())

    assert call().credential.sign_count == 1
    for wrong in ({"credential_type": 7}, {"kind": 7}, {"kind": None}, {"kind": object}, {"credential_type": int}, {"names": ()}, {"names": None},
                  {"names": server._MEMBERS[:-1]}, {"names": (7,) * 15}):
        with pytest.raises((TypeError, AttributeError, IndexError, SystemError)):
            call(**wrong)
    for names in ((7,), (None,), ([],), ("it", 7)):
        with pytest.raises(TypeError):
            _passkey.parts({"it": "AA", 7: "AA", None: "AA"}, {7: "AA"}, names, 1)


def test_a_buffer_that_changes_is_read_once():
    """A buffer that the host changes while its signature is verified is judged as it was handed in."""
    one = Ceremony()
    data = bytearray(one.parts()[4])

    def verify(algorithm, x, y, message, signature):
        data[32] = 0
        data[33:] = b""
        return signatures.is_valid(algorithm, x, y, message, signature)

    server = party(verify=verify)
    parts = one.parts()
    said = server.authenticate_complete_parts(*parts[:4], data, *parts[5:])
    assert len(data) == 33 and (said.credential.sign_count, said.extensions, said.flags) == (1, CRED_PROTECT, UP | UV | ED)


def test_a_host_that_changes_what_it_handed_in():
    """A list that is emptied, and a response that is cleared, while the host's own code runs in the call."""
    one = Ceremony()
    parts, allowed = one.parts(), [one.credential.id]

    def verify(*_):
        allowed.clear()
        gc.collect()
        return True

    begun = replace(one.session, allow=allowed)
    assert party(verify=verify).authenticate_complete_parts(begun, *parts[1:]).credential.sign_count == 1 and allowed == []

    response = json.loads(json.dumps(one.response))

    def find(_):
        response["response"].clear()
        response.clear()
        return one.credential

    assert one.server.authenticate_complete(one.session, response, credential=find).credential.sign_count == 1

    class Key(str):
        """A member's name that changes the dict in which it is looked for."""
        hash_of = "type"

        def __hash__(self):
            return hash(self.hash_of)

        def __eq__(self, other):
            hostile.clear()
            return False

    for name in ("id", "rawId", "type", "response", "clientExtensionResults", "authenticatorAttachment"):
        hostile = {}
        Key.hash_of = name
        hostile[Key("other")] = 1
        for member, value in one.response.items():
            if member != name:
                hostile[member] = value
        ended(lambda: one.server.authenticate_complete(one.session, hostile, credential=lambda _: one.credential))


def test_threads():
    """Verdicts of several threads at once: each as it is by itself, and the interpreter is given up in the calls."""
    one = Ceremony()
    good, parts = one.sign_in(), one.parts()
    bad = [*parts[:5], parts[5][:-1] + bytes([parts[5][-1] ^ 1]), parts[6]]
    wrong = []

    def judge(seed):
        draw = random.Random(seed)
        for _ in range(300):
            if draw.random() < 0.5:
                if one.server.authenticate_complete_parts(*parts) != good:
                    wrong.append("another verdict")
            else:
                try:
                    one.server.authenticate_complete_parts(*bad)
                    wrong.append("accepted")
                except Refused as refused:
                    if refused.name != "W14":
                        wrong.append(refused.name)

    threads = [threading.Thread(target=judge, args=(seed,)) for seed in range(8)]
    for thread in threads:
        thread.start()
    for thread in threads:
        thread.join()
    assert wrong == []


def test_others_run_in_a_call():
    """Where nobody else makes a thread give the interpreter up, its calls do: another thread runs meanwhile."""
    one, interval, rejecting = Ceremony(), sys.getswitchinterval(), party(verify=lambda *_: False)
    long = changed(one.response, "clientDataJSON", lambda value: value[:-1] + b',"more":"' + b"x" * 40_000 + b'"}')
    parts, until = [one.session, one.credential, *forms.sign_in_parts(long)], time.monotonic() + 30
    parts[3:7] = parts[6], parts[4], parts[5], parts[3]
    created = changed(one.made, "clientDataJSON", lambda value: value[:-1] + b',"more":"' + b"x" * 20_000 + b'"}')
    raw_id, client_data, attestation_object = forms.registration_parts(created)
    for call in (lambda: rejecting.authenticate_complete_parts(*parts),
                 lambda: rejecting.register_complete_parts(one.begun, attestation_object, client_data, raw_id=raw_id, is_registered=False)):
        waits, ran = threading.Lock(), []
        waits.acquire()
        other = threading.Thread(target=lambda: ran.append(waits.acquire()))
        other.start()
        time.sleep(0.1)
        sys.setswitchinterval(1000)
        try:
            waits.release()
            while not ran and time.monotonic() < until:
                assert ended(call).name in ("W14", "G13")
            assert ran
        finally:
            sys.setswitchinterval(interval)
            other.join()


IN_ANOTHER = """
import sys
sys.path[:0] = {path}
import types
fake = types.ModuleType("garvoeng")
fake.__path__ = [{package}]
sys.modules["garvoeng"] = fake
from garvoeng import _passkey
assert _passkey.ABI_VERSION == 5
assert _passkey.parts({{"it": "AAEC"}}, {{}}, ("it",), 1) == (bytes([0, 1, 2]),)
assert _passkey.refusal_text(False, 14) == "the signature is not valid"
try:
    _passkey.parts({{"it": "!"}}, {{}}, ("it",), 1)
    raise SystemExit("accepted")
except ValueError as error:
    assert str(error) == "it is not base64url"
"""


def test_interpreters_beside_the_first():
    """Each interpreter has a module of its own, in turn and at once."""
    pytest.importorskip("_xxsubinterpreters")
    package = str(__import__("pathlib").Path(_passkey.__file__).parent)
    script = IN_ANOTHER.format(path=sys.path, package=repr(package))
    whole = f"import _xxsubinterpreters as them\nimport sys\nsys.path[:0] = {sys.path!r}\nimport garvoeng\nscript = {script!r}\n" + """
for _ in range(3):
    ids = [them.create() for _ in range(4)]
    for one in ids:
        them.run_string(one, script)
    for one in ids:
        them.destroy(one)
garvoeng.forms.from_text("AAEC", "it")
try:
    garvoeng.forms.from_text("!", "it")
except garvoeng.BadInput:
    print("done")
"""
    said = subprocess.run([sys.executable, "-c", whole], capture_output=True, text=True)
    assert said.stdout == "done\n", said.stderr


@pytest.mark.parametrize("forget", [int, getattr(sys, "_clear_type_cache", int)])
def test_each_allocation_that_fails(frozen, forget):
    """Of each call every allocation is refused, one at a time: it raises MemoryError, or says what it says otherwise; nothing is kept. So
    too where types are looked through anew, by which CPython drops what was raised before it."""
    memory = pytest.importorskip("_testcapi")
    one = Ceremony(verify=lambda *_: True)
    parts, registration, sign_in = one.parts(), forms.registration_parts(one.made), forms.sign_in_parts(one.response)
    many = replace(one.session, allow=(one.credential.id,) * 20)
    copied = [bytearray(part) if part and index > 1 else part for index, part in enumerate(parts)]
    calls = [lambda: one.server.authenticate_complete_parts(*parts), lambda: one.server.authenticate_complete_parts(*copied),
             lambda: one.server.authenticate_complete_parts(many, *parts[1:]),
             lambda: one.server.register_complete_parts(one.begun, registration[2], registration[1], raw_id=registration[0], is_registered=False),
             lambda: forms.sign_in_parts(one.response), lambda: forms.registration_parts(one.made), lambda: _passkey.refusal_text(False, 14),
             lambda: _passkey.key_from_cose(one.device.cose_key()), lambda: _passkey.key_to_cose(ES256, (one.device.x, one.device.y)),
             lambda: _passkey.is_canonical(bytearray(one.device.cose_key()))]
    assert sign_in[0] == one.device.id
    for call in calls:
        wanted, grown = call(), [10**6] * 3
        for _ in range(5):
            refused, before = 0, held_now()
            for number in range(200):
                forget()
                memory.set_nomemory(number, number + 1)
                try:
                    said = call()
                except MemoryError:
                    said = None
                memory.remove_mem_hooks()
                refused += said is None
                assert said is None or said == wanted
            assert 1 <= refused < 150
            grown = [new - old for new, old in zip(held_now(), before)]
            if grown[0] < 10 and grown[1] < 1_000 and grown[2] < 10:
                break
        else:
            pytest.fail(f"{call} keeps {grown}")


@pytest.mark.skipif(sys.platform != "linux", reason="RLIMIT_AS")
def test_no_memory():
    """Where memory is refused a call raises MemoryError, or is made; it is never wrong, and nothing ends the process."""
    one = """
import resource, sys
sys.path[:0] = {path!r}
from test_extension import Ceremony
one = Ceremony(verify=lambda *_: True)
one.sign_in()
long = {{**one.response, "response": {{**one.response["response"], "clientDataJSON": "A" * 60_000}}}}
from garvoeng import Refused
_, soft = resource.getrlimit(resource.RLIMIT_AS)
now = int(open("/proc/self/statm").read().split()[0]) * resource.getpagesize()
wanted = set()
for room in range(0, 2_000_000, 20_000):
    resource.setrlimit(resource.RLIMIT_AS, (now + room, soft))
    fill = []
    try:
        while True:
            fill.append(bytearray(10_000))
    except MemoryError:
        pass
    while len(fill) > 1:
        try:
            said = one.sign_in(long)
            wanted.add("accepted")
        except (MemoryError, Refused) as error:
            wanted.add(type(error).__name__)
        fill.pop()
resource.setrlimit(resource.RLIMIT_AS, (soft, soft))
del fill
assert one.sign_in().credential.sign_count == 1
print(sorted(wanted))
"""
    path = [str(__import__("pathlib").Path(__file__).parent)]
    said = subprocess.run([sys.executable, "-c", one.format(path=path)], capture_output=True, text=True)
    assert said.stdout == "['MemoryError', 'Refused']\n", said.stderr


IN_INTERPRETERS = """
import sys
code = '''
import sys
sys.path[:0] = PATHS
from garvoeng import Server
server = Server("example.com", ["https://example.com"], verify=lambda *_: False)
options, session = server.register_begin(b"account", "ada")
assert len(session.challenge) == 32
'''.replace("PATHS", repr(sys.path))
if sys.version_info < (3, 12):
    import _xxsubinterpreters as interpreters
    kinds = [{}]
elif sys.version_info < (3, 13):
    import _xxsubinterpreters as interpreters
    kinds = [{"isolated": False}, {"isolated": True}]
else:
    import _interpreters as interpreters
    kinds = ["legacy", "isolated"]
for kind in kinds * 2:
    made = interpreters.create(**kind) if isinstance(kind, dict) else interpreters.create(kind)
    assert interpreters.run_string(made, code) is None
    interpreters.destroy(made)
print("each")
"""


def interpreters():
    """This one, and later ones that the machine has. A debug build's module is for that build alone."""
    if hasattr(sys, "gettotalrefcount"):
        return [sys.executable]
    debian = [Path("/usr/bin", name) for name in ("python3.12", "python3.13")]
    return [sys.executable, *map(str, filter(Path.exists, debian)), *map(str, sorted(Path.home().glob(".pyenv/versions/3.1[2-9].*/bin/python3")))]


@pytest.mark.parametrize("python", interpreters())
def test_interpreters(python):
    """From 3.12 on each may have a lock of its own."""
    done = subprocess.run([python, "-c", IN_INTERPRETERS], capture_output=True, text=True, timeout=100, check=False,
                          env={**os.environ, "PYTHONPATH": str(Path(garvoeng.__file__).resolve().parents[1])})
    assert (done.stdout, done.returncode) == ("each\n", 0), done.stderr
