"""`StoredServer` over the program of PROGRAM: what its options ask, and the forms that are awaited, of `SqlServer` too."""
import asyncio
import os
import re
import sqlite3
import sys
import threading
import time
from contextlib import suppress
from pathlib import Path

import pytest
from device import AT, BE, BS, ED, ES256, UP, UV, Device, changed
from test_options import REQUIREMENTS, VALUES_OF_OPTIONS, slips

from garvoeng import BadInput, Credential, Refused, Server, StoredServer, StoreFailed
from garvoeng.forms import from_text, to_text
from garvoeng.sql import SqlServer

PROGRAM = os.environ.get("PROGRAM", str(Path(__file__).parents[2] / "dist" / "passkey-site"))
USER, ORIGIN = b"account 7", "https://example.com"
# credProtect, as the authenticator tells it
OUTPUTS = bytes.fromhex("a16b6372656450726f7465637402")


def stored(path, **how):
    if not Path(PROGRAM).exists():
        pytest.skip("PROGRAM is not there")
    return StoredServer(PROGRAM, str(path / "site.db"), "example.com", [ORIGIN], **how)


def rows(path):
    made = SqlServer(Server("example.com", [ORIGIN]), lambda: sqlite3.connect(path / "site.sqlite", timeout=30))
    made.prepare()
    return made


@pytest.fixture
def site(tmp_path):
    with stored(tmp_path) as made:
        yield made


def number(options):
    """The number of a session, with which its challenge begins."""
    return int.from_bytes(from_text(options["challenge"], "challenge")[:8], "big")


def registers(site, device, user=USER, **how):
    options, session = site.register_begin(user, "name", **how)
    return site.register_complete(session, device.register(options))


def refusal(call, *words, **how):
    with pytest.raises(Refused) as refused:
        call(*words, **how)
    return refused.value.name


def test_metrics(site):
    """Each line is one that Prometheus reads, and says what `status` says."""
    registers(site, Device(ES256))
    options, session = site.register_begin(USER, "name")
    assert refusal(site.register_complete, session, Device(ES256).register(options)) == "G15"
    status, lines = site.status(), site.metrics().splitlines()
    assert site.metrics().endswith("\n")
    samples = dict(line.rsplit(" ", 1) for line in lines if not line.startswith("# TYPE "))
    assert all(re.fullmatch(r'garvoeng_[a-z_]+(\{[a-z]+="[0-9A-Za-z.+-]+"\})?', name) for name in samples)
    named = {name.split("{")[0] for name in samples} | {"garvoeng_sign_ins_refused_total"}
    assert {line.split()[2] for line in lines if line.startswith("# TYPE ")} == named
    assert samples['garvoeng_registrations_refused_total{step="G15"}'] == "1" and samples["garvoeng_registrations_total"] == "1"
    assert samples[f'garvoeng_info{{version="{status["version"]}"}}'] == "1" and samples["garvoeng_credentials"] == "1"
    assert float(samples["garvoeng_last_commit_seconds"]) == status["last_commit_microseconds"] / 1_000_000


def test_creation_options_are_those_of_server(site):
    """All but the challenge, of each parameter."""
    for how in ({}, {"user_verification": "discouraged", "resident_key": "preferred", "authenticator_attachment": "platform", "timeout": 60_000,
                     "hints": ["hybrid"], "extensions": {"credProps": True}}, {"exclude": [b"one", b"two"], "algorithms": [-8, -257]},
                *({"user_verification": value, "resident_key": value} for value in REQUIREMENTS)):
        for names in (("name",), ("name", "Display Name")):
            options, _ = site.register_begin(USER, *names, **how)
            wanted, _ = Server("example.com", [ORIGIN]).register_begin(USER, *names, **how)
            assert {**options, "challenge": wanted["challenge"]} == wanted


def test_request_options_are_those_of_server(site):
    for how in ({}, {"user": USER}, {"allow": [b"one"], "timeout": 1, "hints": ("security-key",), "extensions": {"appid": "x"}},
                *({"user_verification": value} for value in REQUIREMENTS)):
        options, _ = site.authenticate_begin(**how)
        wanted, _ = Server("example.com", [ORIGIN]).authenticate_begin(**how)
        assert {**options, "challenge": wanted["challenge"]} == wanted


@pytest.mark.parametrize("name, good, bad", VALUES_OF_OPTIONS)
def test_values_of_options(site, name, good, bad):
    """What is none is refused, and no session begins."""
    begun = [number(site.register_begin(USER, "name", **{name: value})[0]) for value in good]
    for value in bad:
        with pytest.raises(BadInput):
            site.register_begin(USER, "name", **{name: value})
        if name not in ("resident_key", "authenticator_attachment"):
            with pytest.raises(BadInput):
                site.authenticate_begin(**{name: value})
    assert [*begun, number(site.authenticate_begin()[0])] == list(range(1, len(good) + 2))


def test_verification_is_the_programs_to_judge(site):
    for value, registers in ((True, False), ("required", False), (False, True), ("preferred", True), ("discouraged", True)):
        device = Device(credential=b"id of " + str(value).encode())
        options, session = site.register_begin(USER, "name", user_verification=value)
        made = device.register(options, flags=UP | AT)
        if registers:
            assert site.register_complete(session, made).user_verified is False
        else:
            with pytest.raises(Refused, match="G10"):
                site.register_complete(session, made)
            site.register_complete(session, device.register(options))
        options, session = site.authenticate_begin(user_verification=value)
        response = device.sign_in(options, user=USER, flags=UP)
        if registers:
            assert site.authenticate_complete(session, response).user_verified is False
        else:
            with pytest.raises(Refused, match="W13"):
                site.authenticate_complete(session, response)


def test_lists(site):
    """Ids, and credentials by their ids, 64 at most; an id that isn't listed is refused."""
    one, other = Device(credential=b"one"), Device(credential=b"other")
    made = []
    for device in (one, other):
        options, session = site.register_begin(USER, "name", exclude=made)
        assert [row["id"] for row in options["excludeCredentials"]] == [to_text(row.id) for row in made]
        made.append(site.register_complete(session, device.register(options)).credential)
    for listed in ([made[0]], [made[0].id]):
        options, session = site.authenticate_begin(allow=listed)
        with pytest.raises(Refused, match="W2"):
            site.authenticate_complete(session, other.sign_in(options, user=USER))
        assert site.authenticate_complete(session, one.sign_in(options, user=USER)).credential.id == b"one"
    for ids in ([b"x"] * 65, [b""], [bytes(1024)], [Credential(b"", USER, -7, b"", b"", 0, None)]):
        with pytest.raises(BadInput):
            site.authenticate_begin(allow=ids)
        with pytest.raises(BadInput):
            site.register_begin(USER, "name", exclude=ids)
    listed = [b"one", *(b"%d" % at for at in range(63))]
    for ids in (listed, [*listed[1:], b"one"]):
        options, session = site.authenticate_begin(user=bytes(64), allow=ids)
        assert [row["id"] for row in options["allowCredentials"]] == list(map(to_text, ids)) and len(session) == 2_875
        assert refusal(site.authenticate_complete, session, other.sign_in(options, user=USER)) == "W2"
        assert refusal(site.authenticate_complete, session, one.sign_in(options, user=USER)) == "W4"
    options, session = site.authenticate_begin(allow=listed)
    assert site.authenticate_complete(session, one.sign_in(options, user=USER)).credential.id == b"one"
    assert len(site.register_begin(USER, "name", exclude=listed)[0]["excludeCredentials"]) == 64


@pytest.mark.parametrize("profile, attestation, wanted", [("level3", "none", "none"), ("level3", "direct", "packed"), ("open", "none", "packed"),
                                                          ("strict", "none", "packed")])
def test_the_format_is_that_of_what_counts(tmp_path, profile, attestation, wanted):
    with stored(tmp_path, profile=profile) as site:
        options, session = site.register_begin(USER, "name", attestation=attestation)
        assert site.register_complete(session, Device().register(options, packed=True)).format == wanted


def test_a_copy_without_the_last_change(tmp_path):
    """It is refused by what was known then; the file itself is not."""
    with stored(tmp_path) as site:
        options, session = site.register_begin(USER, "name")
        site.register_complete(session, Device(credential=b"one").register(options))
        site.backup(str(tmp_path / "copy.db"))
        assert site.retire(b"one")
        known = site.known
        assert known == site.status()["known"] > 0
    with stored(tmp_path, at_least=known) as site:
        assert [row.retired for row in site.rows()] == [True] and site.known == known
    (tmp_path / "copy.db").rename(tmp_path / "site.db")
    site = stored(tmp_path, at_least=known)
    with pytest.raises(StoreFailed, match="older copy"):
        site.rows()
    with suppress(StoreFailed):
        site.close()
    with stored(tmp_path) as site:
        assert [row.retired for row in site.rows()] == [False]


def test_what_is_known_of_a_credential(tmp_path):
    """It is kept with the credential, given back in options, told by rows, and gone with the credential."""
    began, (one, two, three) = int(time.time()), (Device(credential=name) for name in (b"one", b"two", b"three"))
    # The first has a statement whose signature is asked for, so what the page told is handed in twice.
    told = {one: ["usb", "no text", 7, "nfc", "ble"], two: ["internal", "hybrid"], three: None}
    kept = {one: ("usb", "nfc", "ble"), two: ("internal", "hybrid"), three: ()}
    with stored(tmp_path) as site:
        for device, transports in told.items():
            options, session = site.register_begin(USER, "name", exclude=[b"one"], attestation="direct")
            assert options["excludeCredentials"][0].get("transports") == (None if device is one else list(kept[one]))
            response = device.register(options, packed=device is one)
            if transports is not None:
                response["response"]["transports"] = transports
            made = site.register_complete(session, response)
            assert (made.format, made.aaguid) == ("packed" if device is one else "none", device.aaguid)
            assert made.credential.transports == kept[device]
        options, session = site.authenticate_begin(allow=[b"three", b"two", b"one"])
        assert [row.get("transports") for row in options["allowCredentials"]] == [None, list(kept[two]), list(kept[one])]
        assert [row.used_at for row in site.rows()] == [None, None, None]
        site.authenticate_complete(session, one.sign_in(options, user=USER))
    with stored(tmp_path) as site:
        first, second, third = rows = site.rows(USER)
        assert [(row.transports, row.aaguid) for row in rows] == [(kept[device], device.aaguid) for device in (one, two, three)]
        assert began <= first.created_at <= first.used_at <= time.time() and second.used_at is third.used_at is None
        assert site.delete(b"one") and site.rows() == [second, third]
    file = sqlite3.connect(tmp_path / "site.db")
    assert file.execute("select place from detail").fetchall() == [(2,), (3,)]


async def visit(server, number):
    """Registers and signs in, awaited; what was accepted, and what is refused."""
    device, user = Device(credential=b"credential %d" % number), b"account %d" % number
    options, session = await server.register_begin_async(user, "name", "Display Name", hints=["hybrid"], attestation="direct")
    assert options["hints"] == ["hybrid"] and options["user"]["displayName"] == "Display Name"
    made = await server.register_complete_async(session, device.register(options, packed=True, flags=UP | UV | AT | ED,
                                                                         outputs=b"\xa1\x6bcredProtect\x02"))
    assert (made.credential.id, made.credential.user, made.format) == (device.id, user, "packed")
    options, session = await server.authenticate_begin_async(user=user, timeout=9)
    assert options["timeout"] == 9
    response = device.sign_in(options)
    bad = changed(response, "signature", lambda value: value[:-1] + bytes([value[-1] ^ 1]))
    for wrong, number_of, name in ((bad, session, "W14"), (response, None, "W1")):
        with pytest.raises(Refused, match=name):
            await server.authenticate_complete_async(number_of, wrong)
    said = await server.authenticate_complete_async(session, response)
    with pytest.raises(Refused, match="W1"):
        await server.authenticate_complete_async(session, response)
    with pytest.raises(BadInput):
        await server.authenticate_complete_async(session, {})
    with pytest.raises(BadInput):
        await server.register_begin_async(b"", "name")
    return said


@pytest.mark.parametrize("make", [stored, rows])
def test_awaited(tmp_path, make):
    """Many at once, each as it is by itself."""
    server = make(tmp_path)

    async def acts():
        return await asyncio.gather(*(visit(server, number) for number in range(8)))

    said = asyncio.run(acts())
    assert len(said) == 8 == len(server.rows()) and {row.sign_count for row in server.rows()} == {1}
    assert {one.credential.sign_count for one in said} == {1} and {one.before for one in said} == {None}
    if make is stored:
        server.close()


@pytest.mark.parametrize("make", [stored, rows])
def test_others_run_while_one_waits(tmp_path, make, monkeypatch):
    """While the program, or the database, takes its time the loop goes on; the call is made in another thread."""
    server, ticks = make(tmp_path), []
    inner, goes_on = type(server).authenticate_begin, threading.Event()

    def slow(self, **how):
        assert threading.current_thread() is not threading.main_thread() and goes_on.wait(30)
        return inner(self, **how)

    monkeypatch.setattr(type(server), "authenticate_begin", slow)

    async def acts():
        waiting = asyncio.ensure_future(server.authenticate_begin_async())
        for _ in range(5):
            await asyncio.sleep(0.01)
            ticks.append(waiting.done())
        goes_on.set()
        return await waiting

    options, _ = asyncio.run(acts())
    assert ticks == [False] * 5 and options["rpId"] == "example.com"
    if make is stored:
        server.close()


def test_a_program_that_does_not_answer(tmp_path):
    script = tmp_path / "silent"
    script.write_text(f"#!{sys.executable}\nimport sys, time\nsys.stdin.readline()\ntime.sleep(600)\n")
    script.chmod(0o755)
    server = StoredServer(str(script), str(tmp_path / "none.db"), "example.com", [ORIGIN], timeout=0.5)

    async def acts():
        began = time.monotonic()
        said = await asyncio.gather(*(server.authenticate_begin_async() for _ in range(3)), return_exceptions=True)
        assert [type(one) for one in said] == [StoreFailed] * 3 and time.monotonic() - began < 30

    asyncio.run(acts())
    with suppress(StoreFailed):
        server.close()


def test_an_account_lists_its_own(site):
    """As `SqlServer` does: neither list has another account's passkeys nor retired ones; a list that is given stands in their place."""
    def lists(user=USER, **how):
        allow = {"allow": how["listed"]} if how else {}
        exclude = {"exclude": how["listed"]} if how else {}
        return ([row["id"] for row in site.register_begin(user, "name", **exclude)[0]["excludeCredentials"]],
                [row["id"] for row in site.authenticate_begin(user=user, **allow)[0]["allowCredentials"]])

    assert lists() == ([], [])
    for name, user in ((b"mine", USER), (b"theirs", b"account 8"), (b"old", USER)):
        registers(site, Device(credential=name), user)
    assert site.retire(b"old") and lists() == ([to_text(b"mine")],) * 2 and lists(b"account 8") == ([to_text(b"theirs")],) * 2
    assert lists(listed=[]) == ([], []) and lists(listed=[b"x"]) == ([to_text(b"x")],) * 2
    assert site.authenticate_begin()[0]["allowCredentials"] == []
    for at in range(63):
        registers(site, Device(credential=b"%d" % at))
    assert [len(listed) for listed in lists()] == [64, 64]
    registers(site, Device(credential=b"63"))
    assert [len(listed) for listed in lists()] == [64, 0]
    assert site.erase(USER) == 66 and site.erase(USER) == 0 and lists() == ([], []) and len(site.rows()) == 1


def test_an_account_of_long_ids(site):
    """More than a line has room for: the first are excluded, and any that the browser finds may answer."""
    devices = [Device(credential=b"%01023d" % at) for at in range(33)]
    for device in devices[:32]:
        registers(site, device)
    assert len(site.authenticate_begin(user=USER)[0]["allowCredentials"]) == 32
    registers(site, devices[32])
    assert [row["id"] for row in site.register_begin(USER, "name")[0]["excludeCredentials"]] == [to_text(one.id) for one in devices[:32]]
    options, session = site.authenticate_begin(user=USER)
    assert options["allowCredentials"] == [] and site.authenticate_complete(session, devices[32].sign_in(options)).credential.user == USER


def test_lists_of_the_strict_profile(tmp_path):
    with stored(tmp_path, profile="strict") as site:
        for at in range(9):
            registers(site, Device(credential=b"%d" % at))
        assert [len(site.register_begin(USER, "name")[0]["excludeCredentials"]), len(site.authenticate_begin(user=USER)[0]["allowCredentials"])] == [8, 0]
        assert len(site.authenticate_begin(allow=[b"0"] * 8)[0]["allowCredentials"]) == 8
        with pytest.raises(BadInput, match="at most 8 credential ids"):
            site.authenticate_begin(allow=[b"0"] * 9)


def test_slips_of_a_site(site):
    """Each is told by the parameter's name, and no session begins."""
    slips(site, listed=False)
    for call in (site.retire, site.delete):
        for wrong in ("text", 5, None, [1]):
            with pytest.raises(TypeError, match="credential is bytes"):
                call(wrong)
        with pytest.raises(BadInput, match="credential, a credential id, has 1 to"):
            call(b"")
    for call in (site.rows, site.erase, site.retire_all):
        for wrong in ("text", 5, [1]):
            with pytest.raises(TypeError, match="user is bytes"):
                call(wrong)
    assert number(site.authenticate_begin()[0]) == 1
    for how in ({"existing": 1}, {"wary": None}, {"shared": "yes"}, {"rp_name": 5}, {"accept_none": 0}, {"verify": 7}):
        with pytest.raises(TypeError, match=list(how)[0]):
            StoredServer("program", "file", "example.com", [ORIGIN], **how)
    # With None or an empty text no copy would be refused.
    for how in ({"at_least": None}, {"at_least": ""}, {"at_least": False}, {"at_least": "7"}, {"at_least": 1.5}, {"max_credentials": "5"}, {"max_credentials": True}):
        with pytest.raises(TypeError, match=f"{list(how)[0]} is a whole number"):
            StoredServer("program", "file", "example.com", [ORIGIN], **how)
    for words, told in ((("", "file"), "program is the path"), (("program", ""), "file is the path"), (("program", "a\0b"), "file is the path")):
        with pytest.raises(BadInput, match=told):
            StoredServer(*words, "example.com", [ORIGIN])
    for words, told in (((None, "file"), "program is a str"), (("program", b"file"), "file is a str"), (("program", 5), "file is a str")):
        with pytest.raises(TypeError, match=told):
            StoredServer(*words, "example.com", [ORIGIN])
    for how, told in (({"accept_none": False, "accept_self": False}, "both False"), ({"log": "some"}, "log is True, False"), ({"log": 1}, "log is True, False"),
                      ({"at_least": -1}, "at_least is"), ({"max_credentials": 0}, "max_credentials is"), ({"max_credentials": 1_000_001}, "max_credentials is"),
                      ({"timeout": 0}, "timeout is"), ({"timeout": -1}, "timeout is"), ({"timeout": None}, "timeout is"), ({"timeout": "30"}, "timeout is"),
                      ({"timeout": True}, "timeout is"), ({"timeout": float("nan")}, "timeout is")):
        with pytest.raises(BadInput, match=told):
            StoredServer("program", "file", "example.com", [ORIGIN], **how)


def test_answers_in_another_order(tmp_path):
    """Each call takes the answer of its own line's number: a program that answers two lines the other way round fails both."""
    script = tmp_path / "reversed"
    script.write_text(f"""#!{sys.executable}
import json, sys
lines = [json.loads(sys.stdin.readline()) for _ in range(2)]
for line in reversed(lines):
    print(json.dumps({{"id": line["id"], "rows": []}}), flush=True)
sys.stdin.readline()
""")
    script.chmod(0o755)
    server = StoredServer(str(script), str(tmp_path / "none.db"), "example.com", [ORIGIN], timeout=5)

    async def acts():
        return await asyncio.gather(*(asyncio.to_thread(server.rows) for _ in range(2)), return_exceptions=True)

    assert [type(one) for one in asyncio.run(acts())] == [StoreFailed] * 2
    with suppress(StoreFailed):
        server.close()


@pytest.mark.parametrize("flags, backed_up, user_verified", [(UP | UV | BE, False, True), (UP | BE | BS, True, False), (UP | UV | BE | BS, True, True)])
def test_what_a_sign_in_says(site, flags, backed_up, user_verified):
    device = Device()
    options, session = site.register_begin(USER, "name")
    site.register_complete(session, device.register(options, flags=UP | UV | BE | AT))
    options, session = site.authenticate_begin()
    said = site.authenticate_complete(session, device.sign_in(options, user=USER, flags=flags))
    assert (said.backed_up, said.user_verified, said.flags) == (backed_up, user_verified, flags)


def test_level_3_over_the_program(tmp_path):
    """The second of two pages that may frame, presence at a conditional registration, statements, and the other profiles."""
    def registers(site, device, begin=None, **made):
        options, session = site.register_begin(USER, "name", **(begin or {}))
        return site.register_complete(session, device.register(options, **made))

    pages = ("https://one.example", "https://two.example")
    for number, (top_origins, step) in enumerate((((), "G17"), (pages[:1], "G18"), (pages, None))):
        (tmp_path / str(number)).mkdir()
        with stored(tmp_path / str(number), top_origins=top_origins) as site:
            framed = Device(credential=b"framed")
            framed.said = {"crossOrigin": True, "topOrigin": pages[1]}
            if step is None:
                registers(site, framed)
            else:
                assert refusal(registers, site, framed) == step
            alone = Device(credential=b"alone")
            assert refusal(registers, site, alone, flags=AT) == "G9"
            assert registers(site, alone, {"conditional": True}, flags=AT).flags == AT
            wrong = Device(credential=b"wrong")
            assert registers(site, wrong, packed=True, message=b"another").format == "none"
            other = Device(credential=b"other")
            assert refusal(registers, site, other, {"attestation": "direct"}, packed=True, message=b"another") == "G13"
    for profile, step in (("strict", "G7"), ("open", None)):
        (tmp_path / profile).mkdir()
        with stored(tmp_path / profile, profile=profile) as site:
            framed = Device()
            framed.said = {"crossOrigin": True, "topOrigin": pages[1]}
            if step is None:
                registers(site, framed, flags=UP | UV | AT | ED, outputs=OUTPUTS)
            else:
                assert refusal(registers, site, framed, flags=UP | UV | AT | ED, outputs=OUTPUTS) == step
                registers(site, framed)


def test_what_is_no_session(site):
    """What no begin gave, or gave for the other ceremony, is an unknown session, and nothing else."""
    device = Device()
    registers(site, device)
    signs, sign_in = site.authenticate_begin()
    makes, registration = site.register_begin(USER, "name")
    answer, made = device.sign_in(signs, user=USER), Device(credential=b"other").register(makes)
    changed_ones = [text[:at] + ("A" if text[at] != "A" else "B") + text[at + 1:] for text in (sign_in, registration) for at in range(len(text))]
    # The last letter of a text may have bits that no byte has.
    others = [None, "", "A", "=", sign_in + "A", sign_in + "AA", sign_in[:-1], sign_in + "=", sign_in + "\n", "\ud800", "\u00e9", "A" * 2_875, "A" * 70_000, sign_in * 900]
    for text in [*others, *changed_ones, registration]:
        assert (refusal(site.authenticate_complete, text, answer), site.abandon(text) if text is not registration else False) == ("W1", False), text
    for text in [*others, *changed_ones, sign_in]:
        assert refusal(site.register_complete, text, made) == "G1", text
    assert site.authenticate_complete(sign_in, answer).credential.user == USER and site.register_complete(registration, made).credential.id == b"other"


def test_a_kept_text(tmp_path):
    """It is of no use once it was accepted or abandoned, over a restart too, and of another file's site never."""
    device, other = Device(), Device(credential=b"other")
    with stored(tmp_path) as site:
        options, accepted = site.register_begin(USER, "name")
        made = device.register(options)
        site.register_complete(accepted, made)
        options, abandoned = site.authenticate_begin()
        answer = device.sign_in(options, user=USER)
        assert (site.abandon(abandoned), site.abandon(abandoned)) == (True, False)
        signs, sign_in = site.authenticate_begin()
        makes, registration = site.register_begin(USER, "name")
    (tmp_path / "another").mkdir()
    with stored(tmp_path / "another") as site:
        registers(site, device)
        assert refusal(site.authenticate_complete, sign_in, device.sign_in(signs, user=USER)) == "W1" and site.abandon(sign_in) is False
        assert refusal(site.register_complete, registration, other.register(makes)) == "G1"
    with stored(tmp_path, existing=True) as site:
        assert (refusal(site.register_complete, accepted, made), refusal(site.authenticate_complete, abandoned, answer)) == ("G1", "W1")
        answer = device.sign_in(signs, user=USER)
        assert site.authenticate_complete(sign_in, answer).credential.sign_count == device.count
        assert refusal(site.authenticate_complete, sign_in, answer) == "W1"
        assert site.register_complete(registration, other.register(makes)).credential.id == b"other"


@pytest.mark.parametrize("end", ["retire", "delete", "retire_all", "erase"])
def test_what_ends_registrations(tmp_path, end):
    """Those of the user that have begun, over a restart too; his sign-ins, those of others and what begins later go on."""
    mine, theirs = Device(credential=b"mine"), Device(credential=b"theirs")
    with stored(tmp_path) as site:
        registers(site, mine)
        registers(site, theirs, b"another")
        begun = {user: site.register_begin(user, "name", exclude=[]) for user in (USER, b"another")}
        made = {user: Device(credential=b"new of " + user).register(options) for user, (options, _) in begun.items()}
        signs, sign_in = site.authenticate_begin(user=b"another")
        call, named = getattr(site, end), b"mine" if end in ("retire", "delete") else USER
        assert [call(named), call(named)] == [1, 0]
        assert [row.retired for row in site.rows(USER)] == ([True] if end.startswith("retire") else [])
        assert refusal(site.register_complete, begun[USER][1], made[USER]) == "G1"
    with stored(tmp_path) as site:
        assert refusal(site.register_complete, begun[USER][1], made[USER]) == "G1"
        assert site.register_complete(begun[b"another"][1], made[b"another"]).credential.user == b"another"
        assert site.authenticate_complete(sign_in, theirs.sign_in(signs)).credential.user == b"another"
        registers(site, Device(credential=b"later"))
        assert [row.id for row in site.rows(USER)][-1] == b"later"


def test_its_last_second(tmp_path):
    """A session is open for so many seconds, by the clock, and not in the next."""
    device = Device()
    with stored(tmp_path, lifetime=3) as site:
        registers(site, device)
        while True:
            time.sleep(1 - time.time() % 1)
            began, (options, session), (makes, registration) = int(time.time()), site.authenticate_begin(), site.register_begin(USER, "name")
            wrong = changed(device.sign_in(options, user=USER), "signature", lambda data: bytes(len(data)))
            time.sleep(max(0, began + 2.3 - time.time()))
            early = refusal(site.authenticate_complete, session, wrong)
            if time.time() < began + 3:
                break
        time.sleep(max(0, began + 3.1 - time.time()))
        assert [early, refusal(site.authenticate_complete, session, wrong), site.abandon(session)] == ["W14", "W1", False]
        assert refusal(site.register_complete, registration, Device(credential=b"late").register(makes)) == "G1"
