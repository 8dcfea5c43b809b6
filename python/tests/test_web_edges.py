"""`garvoeng.web`: who is not signed in by a request, and whose passkey answers."""
import pytest
from web_core import CoreSite, device, memory, registered, signed_in, sqlite

from garvoeng.forms import to_text
from garvoeng.web import Accounts, Denied


class Closed(Accounts):
    """A site that turns away whoever signs in."""

    is_closed = False

    def signed_in(self, request, user, accepted):
        if self.is_closed:
            raise Denied("closed", 409)


@pytest.mark.parametrize("make", [sqlite, memory])
def test_who_is_denied_is_not_signed_in(make, tmp_path):
    """Neither by a sign-in nor by a registration: no cookie is given, and no sign-in is kept. Who was signed in before is so still."""
    accounts = Closed()
    site, key = CoreSite(tmp_path, accounts, make(tmp_path)), device()
    before, keeps = site.visitor(), []
    registered(before, key)
    keep = site.core.store.keep_sign_in
    site.core.store.keep_sign_in = lambda *words, **named: (keeps.append(words), keep(*words, **named))[1]
    accounts.is_closed = True
    visitor = site.visitor()
    assert signed_in(visitor, key)[1] == (409, {"error": "closed"}) and site.who(visitor) is None and "garvoeng" not in visitor.jar
    assert registered(site.visitor(), device(b"another"))[0] == 409
    assert signed_in(before, key)[1][0] == 409 and site.who(before) == key.user and keeps == []


@pytest.mark.parametrize("make", [sqlite, memory])
def test_again_is_for_the_same_account(make, tmp_path):
    """A passkey of another account does not answer, and nobody becomes another one."""
    site, mine, theirs = CoreSite(tmp_path, server=make(tmp_path)), device(), device(b"theirs")
    visitor = site.visitor()
    registered(visitor, mine)
    registered(site.visitor(), theirs, "bob")
    options = visitor("sign-in/begin", {"again": True})[1]
    assert [one["id"] for one in options["allowCredentials"]] == [to_text(mine.id)]
    assert visitor("sign-in/finish", theirs.sign_in(options, user=theirs.user))[1]["refusal"] in ("W2", "W4") and site.who(visitor) == mine.user


@pytest.mark.parametrize("sent, status", [
    ({"Sec-Fetch-Site": "same-origin"}, 200), ({"Sec-Fetch-Site": "none"}, 200), ({}, 200), ({"Sec-Fetch-Site": "same-site"}, 403), ({"Sec-Fetch-Site": "cross-site"}, 403),
    ({"Sec-Fetch-Site": ""}, 403), ({"Origin": "null"}, 403), ({"Origin": ""}, 403), ({"Origin": "http://localhost:8001", "Sec-Fetch-Site": "same-origin"}, 403),
    ({"Origin": "http://localhost:8000", "Sec-Fetch-Site": "cross-site"}, 200)], ids=str)
def test_whose_page_asks(sent, status, tmp_path):
    assert CoreSite(tmp_path, server=memory()).visitor()("sign-in/begin", {}, headers=sent)[0] == status


def test_a_changed_cookie_of_a_registration(tmp_path):
    """Each part of it is sealed: who has a copy makes no other account's registration of it, nor one that nobody began."""
    site, key = CoreSite(tmp_path, server=memory()), device()
    visitor, other = site.visitor(), site.visitor()
    registered(visitor, key)
    registered(other, device(b"other"), "bob")
    made = device(b"a thief's").register(visitor("register/begin", {"name": "ada"})[1])
    session, told, code = visitor.jar["garvoeng_registration"].split(".")
    other("register/begin", {"name": "bob"})
    number = other.jar["garvoeng"]
    for text in ((session, to_text(b'["ada", null]'), code), (session, to_text(f'["ada", "{number}"]'.encode()), code), (session, to_text(b'["eve", null]'), code),
                 (other.jar["garvoeng_registration"].split(".")[0], told, code), (session, told, code[:-1]), (session, told, ""), (session, told), (session, "", code)):
        for jar in ({}, {"garvoeng": number}, {"garvoeng": visitor.jar["garvoeng"]}):
            thief = site.visitor({**jar, "garvoeng_registration": ".".join(text)})
            assert thief("register/finish", made)[1]["refusal"] == "G1", (text, jar)
    assert len(site.server.rows()) == 2 and visitor("register/finish", made)[0] == 200


@pytest.mark.parametrize("body, status", [
    (b'{"a": %s}' % (b"9" * 64), 200), (b'{"a": %s}' % (b"9" * 65), 400), (b'{"a": [{"b": -%s}]}' % (b"9" * 65), 400), (b'{"a": 1, "a": 1}', 400), (b'{"b": {"a": 1, "a": 2}}', 400),
    (b'{"b": [{"a": 1}, {"a": 2}]}', 200), (b'{"again": false, "again": true}', 400), (b'{"a": NaN}', 400), (b'{"a": -Infinity}', 400), (b'\xef\xbb\xbf{}', 400), (b'{"a": "\xff"}', 400),
    (b"[]", 400), (b"", 400), (b"{}" + b" " * 131_070, 200), (b"{}" + b" " * 131_071, 400)], ids=lambda value: str(value)[:40])
def test_bodies(body, status, tmp_path):
    assert CoreSite(tmp_path, server=memory()).visitor()("sign-in/begin", raw=body)[0] == status
