"""`garvoeng.flask` and `garvoeng.django`, by their own test clients: what visitors do, and what hostile ones send."""
import logging

import pytest
from device import changed
from hostile import VALUES, changes
from web_core import Later, device, later, signed_in
from web_sites import FlaskSite, adds_nothing, opened, registered, site

from garvoeng.forms import from_text, to_text

__all__ = ["site"]



def test_a_visit(site):
    visitor, other, key = site.visitor(), site.visitor(), device()
    for path, kind in (("", b"<!doctype html>"), ("passkeys.js", b"const passkeys"), ("browser.js", b"export const register"), ("page.js", b"element")):
        status, said = visitor(path)
        assert status == 200 and kind in said
    assert visitor("list")[0] == visitor("retire", {"id": "AA"})[0] == 401
    status, said = registered(visitor, key)
    assert (status, said["id"]) == (200, to_text(key.id))
    [listed] = visitor("list")[1]
    assert (listed["id"], listed["retired"]) == (to_text(key.id), False)
    second = device(b"second")
    assert registered(visitor, second)[0] == 200 and second.user == key.user
    assert len(visitor("list")[1]) == 2
    assert visitor("sign-out", {}) == (200, {}) and visitor("list")[0] == 401
    response, (status, _) = signed_in(other, key)
    assert status == 200 and len(other("list")[1]) == 2
    assert other("sign-in/finish", response)[1]["refusal"] == "W1"
    assert other("retire", {"id": to_text(second.id)}) == (200, {"retired": True})
    assert other("retire", {"id": to_text(second.id)}) == (200, {"retired": False})
    _, (status, said) = signed_in(site.visitor(), second)
    assert (status, said["refusal"]) == (403, "W3")
    assert [row.sign_count for row in site.server.rows(key.user) if row.id == key.id] == [1]


def test_visitors_have_their_own(site):
    """A session is its visitor's, and a passkey its account's."""
    ada, eve, key, own = site.visitor(), site.visitor(), device(), device(b"eve")
    registered(ada, key, "ada")
    registered(eve, own, "eve")
    assert key.user != own.user
    assert eve("retire", {"id": to_text(key.id)}) == (200, {"retired": False})
    assert [row.retired for row in site.server.rows(key.user)] == [False] and len(eve("list")[1]) == 1
    response, (status, _) = signed_in(ada, key)
    assert status == 200
    _, options = ada("sign-in/begin", {})
    assert eve("sign-in/finish", key.sign_in(options, user=key.user))[0] == 403
    _, options = ada("register/begin", {"name": "x"})
    assert eve("register/finish", device(b"third").register(options))[0] == 403
    assert registered(site.visitor(), device(), "bob")[1]["refusal"] == "G15"


def test_hostile_bodies(site):
    visitor, key = site.visitor(), device()
    registered(visitor, key)
    for path in ("register/begin", "register/finish", "sign-in/begin", "sign-in/finish", "retire", "sign-out"):
        for raw in (b"", b"null", b"[]", b"7", b"{", b"\xff", b"[" * 30_000, b"{}" * 9, b'{"id":' * 9_000):
            assert visitor(path, raw=raw)[0] == 400, (path, raw[:9])
        for kind in ("text/plain", "application/x-www-form-urlencoded", "application/jsonx", "", "multipart/form-data; boundary=x"):
            assert visitor(path, raw=b"{}", content_type=kind)[0] == 400, (path, kind)
        assert visitor(path, raw=b'{"a":"' + b"A" * 140_000 + b'"}')[0] == 400
        assert visitor(path)[0] in (404, 405)
    for value in VALUES:
        assert visitor("retire", {"id": value})[0] in (200, 400)
        stranger = site.visitor()
        status, _ = stranger("register/begin", {"name": value})
        can_be = isinstance(value, str) and 1 <= len(value) <= 64 and value.isprintable()
        # Django's users have names of fewer letters.
        assert status == (200 if can_be else 400) or (status, can_be, isinstance(site, FlaskSite)) == (400, True, False), value
    assert [(row["id"], row["retired"]) for row in visitor("list")[1]] == [(to_text(key.id), False)]


def test_hostile_responses(site):
    """Each is answered by 400 or 403, and nobody is signed in by it."""
    visitor, key = site.visitor(), device()
    registered(visitor, key)
    visitor("sign-out", {})
    _, options = visitor("sign-in/begin", {})
    good = key.sign_in(options, user=key.user)
    tried = list(changes(good))
    for what, hostile in tried[::4]:
        if isinstance(hostile, dict):
            assert visitor("sign-in/finish", hostile)[0] in (400, 403), what
    forged = changed(good, "signature", lambda value: value[:-1] + bytes([value[-1] ^ 1]))
    assert visitor("sign-in/finish", forged)[1]["refusal"] == "W14"
    assert visitor("list")[0] == 401
    assert visitor("sign-in/finish", good)[0] == 200 and visitor("list")[0] == 200


def test_what_a_visitor_keeps(site):
    """A session that was refused is kept, so that it may be answered again, and none that was closed."""
    visitor, key = site.visitor(), device()
    account = {"garvoeng"} if isinstance(site, FlaskSite) else {"garvoeng_signed_in", "garvoeng_signed_in_at"}
    status, options = visitor("register/begin", {"name": "ada"})
    assert visitor.kept() == {"garvoeng_registration"}
    assert visitor("register/finish", changed(key.register(options), "clientDataJSON", lambda _: b"{"))[0] == 403
    assert visitor.kept() == {"garvoeng_registration"}
    key.user = from_text(options["user"]["id"], "user")
    assert visitor("register/finish", key.register(options))[0] == 200 and visitor.kept() == account
    status, options = visitor("sign-in/begin", {})
    response = key.sign_in(options, user=key.user)
    assert visitor("sign-in/finish", changed(response, "signature", lambda value: value[:-1] + bytes([value[-1] ^ 1])))[0] == 403
    assert visitor.kept() == account | {"garvoeng_sign_in"}
    assert visitor("sign-in/finish", response)[0] == 200 and visitor.kept() == account
    assert visitor("sign-out", {})[0] == 200 and visitor.kept() == set()


def test_sign_out_ends_what_is_open(site):
    """Whoever kept the cookies from before is not signed in, and finishes neither the registration nor the sign-in."""
    visitor, key = site.visitor(), device()
    registered(visitor, key)
    made, response = opened(visitor, key)
    thief = visitor.copied()
    assert thief("list")[0] == 200 and thief.who() not in ("", "AnonymousUser")
    assert visitor("sign-out", {}) == (200, {}) and visitor.kept() == set()
    for kept in (thief, visitor):
        adds_nothing(site, kept, key, made, 1)
        assert kept("sign-in/finish", response)[1]["refusal"] == "W1"
    assert site.run("select count(*) from garvoeng_session where id <> 'secret'")[0][0] == 0


@pytest.mark.parametrize("end", ["retire", "delete", "erase"])
def test_a_cookie_does_not_outlive_its_passkey(site, end):
    """Nor does a registration that was begun before; a visitor with another passkey of the account stays, and begins again."""
    visitor, other, key, second = site.visitor(), site.visitor(), device(), device(b"second")
    registered(visitor, key)
    registered(visitor, second)
    again = site.visitor()
    assert signed_in(other, second)[1][0] == signed_in(again, key)[1][0] == 200
    made, _ = opened(visitor, key)
    theirs = device(b"theirs").register(other("register/begin", {"name": "ada"})[1])
    eve = site.visitor()
    registered(eve, device(b"eve"), "eve")
    if end == "erase":
        assert site.server.erase(key.user) == 2
    else:
        assert getattr(site.server, end)(key.id, user=key.user) and not getattr(site.server, end)(key.id, user=key.user)
    left = {"retire": 2, "delete": 1, "erase": 0}[end]
    adds_nothing(site, visitor, key, made, left)
    assert again("list")[0] == 401 and again.who() in ("", "AnonymousUser")
    assert other("register/finish", theirs)[1]["refusal"] == "G1" and len(site.server.rows(key.user)) == left
    if end == "erase":
        adds_nothing(site, other, key, theirs, 0)
        assert other("sign-in/finish", second.sign_in(other("sign-in/begin", {})[1], user=key.user))[1]["refusal"] == "W3"
    else:
        assert registered(other, device(b"third"))[0] == 200 and len(other("list")[1]) == left + 1
    assert eve("list")[0] == 200 and registered(eve, device(b"more"))[0] == 200


def test_a_passkey_is_added_right_after_a_sign_in(site, monkeypatch):
    visitor, key = site.visitor(), device()
    registered(visitor, key)
    _, options = visitor("register/begin", {"name": "ada"})
    from garvoeng.django import sign_ins
    for ahead, status in ((240, 200), (310, 401)):
        later(monkeypatch, ahead)
        monkeypatch.setattr(sign_ins, "time", Later(ahead))
        said = visitor("register/begin", {"name": "ada"})
        assert said[0] == status and visitor("list")[0] == 200
    assert said[1]["error"].startswith("sign in again")
    assert signed_in(visitor, key)[1][0] == 200 and registered(visitor, device(b"second"))[0] == 200


def test_a_registration_is_its_sign_ins(site):
    """Finished neither after another sign-in in its place, nor by a second visitor of the account, nor by who signed in meanwhile."""
    visitor, other, key = site.visitor(), site.visitor(), device()
    registered(visitor, key)
    made, _ = opened(visitor, key)
    before = visitor.copied()
    assert signed_in(visitor, key)[1][0] == 200
    for one in (visitor, before):
        assert one("register/finish", made)[1]["refusal"] == "G1"
    assert visitor("list")[0] == 200
    if isinstance(site, FlaskSite):
        assert before("list")[0] == 401
        made, _ = opened(visitor, key)
        signed_in(other, key)
        other.jar["garvoeng_registration"] = visitor.jar["garvoeng_registration"]
        assert other("register/finish", made)[1]["refusal"] == "G1"
    stranger = site.visitor()
    _, options = stranger("register/begin", {"name": "bob"})
    assert signed_in(stranger, key)[1][0] == 200
    assert stranger("register/finish", device(b"bob").register(options))[1]["refusal"] == "G1"
    assert len(site.server.rows()) == 1


def test_damaged_rows(site, caplog):
    """They are the site's fault, are logged, and are left out of lists."""
    visitor, key, second = site.visitor(), device(), device(b"second")
    registered(visitor, key)
    registered(visitor, second)
    site.run(f"update garvoeng_credential set public_key = user_handle where id = x'{key.id.hex()}'")
    assert [row["id"] for row in visitor("list")[1]] == [to_text(second.id)]
    assert visitor("register/begin", {"name": "ada"})[0] == 200
    status, options = visitor("sign-in/begin", {})
    with caplog.at_level(logging.ERROR, "garvoeng"):
        caplog.clear()
        assert visitor("sign-in/finish", key.sign_in(options, user=key.user)) == (500, {"error": "what is stored is damaged"})
    assert any(to_text(key.id) in record.getMessage() and record.name == "garvoeng" for record in caplog.records)
    status, options = visitor("sign-in/begin", {})
    site.run("""update garvoeng_session set data = replace(data, '"challenge": "', '"challenge": "AAAA')""")
    assert visitor("sign-in/finish", second.sign_in(options, user=key.user))[0] == 500
    assert signed_in(visitor, second)[1][0] == 200
