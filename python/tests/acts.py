"""What visitors do at a site, whichever framework it is in: each act takes a site that has no passkeys yet. `site.name` is the framework,
`site.server` its server, `site.who(visitor)` the user handle of who is signed in."""
from device import changed
from hostile import VALUES, changes
from web_core import device, registered, signed_in

from garvoeng.forms import from_text, to_text

POSTED = ("register/begin", "register/finish", "sign-in/begin", "sign-in/finish", "rename", "retire", "sign-out")
OTHER_KEY = b"a thief's"


def flipped(response, name="signature"):
    return changed(response, name, lambda value: value[:-1] + bytes([value[-1] ^ 1]))


def the_seven(site):
    """Registration, sign-in and sign-out, begun and finished, the list, names, retirement."""
    visitor, other, key, second = site.visitor(), site.visitor(), device(), device(b"second")
    assert visitor("list")[0] == visitor("retire", {"id": "AA"})[0] == visitor("rename", {"id": "AA", "name": "x"})[0] == 401
    assert site.who(visitor) is None
    status, said = registered(visitor, key)
    assert (status, said["id"]) == (200, to_text(key.id)) and site.who(visitor) == key.user
    assert registered(visitor, second)[0] == 200 and second.user == key.user
    listed = visitor("list")[1]
    assert [row["id"] for row in listed] == [to_text(key.id), to_text(second.id)] or len({row["created"] for row in listed}) == 1
    assert {(row["name"], row["model"], row["used"], row["retired"]) for row in listed} == {(None, None, None, False)}
    assert all(abs(row["created"] - site.now()) < 60 for row in listed)
    assert visitor("rename", {"id": to_text(key.id), "name": "my \u0646\u200c\u0627 key"}) == (200, {"renamed": True})
    assert [row["name"] for row in visitor("list")[1] if row["id"] == to_text(key.id)] == ["my \u0646\u200c\u0627 key"]
    assert visitor("sign-out", {}) == (200, {}) and visitor("list")[0] == 401 and site.who(visitor) is None
    response, (status, said) = signed_in(other, key)
    assert status == 200 and said["user"] in (to_text(key.user), "ada") and site.who(other) == key.user
    assert not [name for name in other.jar if name.endswith(("garvoeng_sign_in", "garvoeng_registration"))]
    assert [row["used"] is not None for row in other("list")[1]].count(True) == 1
    assert other("sign-in/finish", response)[1]["refusal"] == "W1"
    assert other("retire", {"id": to_text(second.id)}) == (200, {"retired": True})
    assert other("retire", {"id": to_text(second.id)}) == (200, {"retired": False})
    assert signed_in(site.visitor(), second)[1][1]["refusal"] == "W3"


def cookies_and_headers(site):
    """HttpOnly, SameSite=Lax, of the whole host and of no domain; answers are kept by nobody."""
    visitor, key = site.visitor(), device()
    status, options = visitor("register/begin", {"name": "ada"})
    lines, headers = list(visitor.cookies), [visitor.headers]
    assert visitor("register/finish", key.register(options))[0] == 200
    lines += visitor.cookies
    visitor("sign-in/begin", {})
    lines += visitor.cookies
    headers.append(visitor.headers)
    visitor("sign-out", {})
    lines += visitor.cookies
    assert lines
    for line in lines:
        parts = {part.strip().lower() for part in line.split(";")[1:]}
        if "csrftoken" not in line and not line.startswith('sessionid="";'):
            assert {"httponly", "path=/", "samesite=lax"} <= parts and not any(part.startswith("domain") for part in parts), line
    for one in headers:
        assert "no-store" in one["cache-control"] and "cookie" in one["vary"].lower() and one["x-content-type-options"] == "nosniff"
    assert visitor("nothing")[0] == 404 and visitor("register/begin")[0] in (404, 405) and visitor("../list")[0] == 404
    if not site.has_page:
        return
    status, page = visitor("")
    assert status == 200 and b"<!doctype html>" in page.lower() and visitor.headers["content-type"].startswith("text/html")
    policy = visitor.headers["content-security-policy"]
    assert "default-src 'none'" in policy and "frame-ancestors 'none'" in policy and "unsafe" not in policy
    for path, part in (("passkeys.js", b"const passkeys"), ("browser.js", b"export const register"), ("page.js", b"element")):
        status, script = visitor(path)
        assert status == 200 and part in script and visitor.headers["content-type"].startswith("text/javascript")


def hostile_bodies(site):
    """Wrong types, too long, nested, not UTF-8, members that stand twice: 400, and nothing changes."""
    visitor, key = site.visitor(), device()
    assert registered(visitor, key)[0] == 200
    for path in POSTED:
        for raw in (b"", b"null", b"[]", b"7", b"{", b"\xff", b"[" * 30_000, b"{}" * 9, b'{"id":' * 9_000, b'{"a":1,"a":1}', b'{"b":{"a":1,"a":2}}',
                    b'{"a":NaN}', b'{"a":-Infinity}', b'{"a":' + b"9" * 5_000 + b"}", '{"a":"b"}'.encode("utf-16"), b"\xef\xbb\xbf{}",
                    b'{"a":"\xed\xa0\x80"}', b'{"a":"' + b"A" * 140_000 + b'"}'):
            assert visitor(path, raw=raw)[0] == 400, (path, raw[:20])
        for kind in ("text/plain", "application/x-www-form-urlencoded", "application/jsonx", "", None, "multipart/form-data; boundary=x"):
            assert visitor(path, raw=b"{}", content_type=kind)[0] in (400, 415), (path, kind)
    for value in VALUES:
        assert visitor("retire", {"id": value})[0] in (200, 400) and visitor("rename", {"id": value, "name": "x"})[0] in (200, 400)
        status, said = visitor("rename", {"id": to_text(key.id), "name": value})
        assert status == (200 if isinstance(value, str) and 1 <= len(value) <= 64 and value.isprintable() else 400), value
    [row] = visitor("list")[1]
    assert row["retired"] is False


def hostile_responses(site):
    """400 or 403 each, and nobody is signed in; the session that was refused can still be answered, once."""
    visitor, key = site.visitor(), device()
    registered(visitor, key)
    visitor("sign-out", {})
    _, options = visitor("sign-in/begin", {})
    good = key.sign_in(options, user=key.user)
    for what, hostile in list(changes(good))[::40]:
        if isinstance(hostile, dict):
            assert visitor("sign-in/finish", hostile)[0] in (400, 403), what
    assert visitor("sign-in/finish", flipped(good))[1]["refusal"] == "W14" and visitor("list")[0] == 401
    assert visitor("sign-in/finish", good)[0] == 200 and visitor("list")[0] == 200
    assert visitor("sign-in/finish", good)[1]["refusal"] == "W1"


def other_sites(site):
    """What a browser says of a page of another site is refused; of the site's own, and of who is no browser, it is not."""
    visitor, key = site.visitor(), device()
    registered(visitor, key)
    for headers in ({"Origin": "https://evil.example"}, {"Origin": "null"}, {"Origin": "http://localhost:8001"}, {"Origin": ""},
                    {"Origin": "http://localhost:8000.evil.example"}, {"Sec-Fetch-Site": "cross-site"}, {"Sec-Fetch-Site": "same-site"},
                    {"Origin": "https://evil.example", "Sec-Fetch-Site": "same-origin"}, {"Sec-Fetch-Site": "x"}):
        for path in POSTED:
            status, said = visitor(path, {}, headers=headers)
            assert status == 403 and "refusal" not in said, (path, headers)
    assert visitor("list")[0] == 200
    for headers in ({"Origin": "http://localhost:8000"}, {"Sec-Fetch-Site": "same-origin"}, {"Sec-Fetch-Site": "none"}, {},
                    {"Origin": "http://localhost:8000", "Sec-Fetch-Site": "cross-site"}):
        assert visitor("sign-in/begin", {}, headers=headers)[0] == 200, headers
    assert visitor("sign-out", {}, headers={"Origin": "http://localhost:8000"}) == (200, {}) and visitor("list")[0] == 401


def opened(visitor, key):
    """The visitor's open registration and sign-in, and responses to both."""
    status, options = visitor("register/begin", {"name": "ada"})
    assert status == 200, options
    return device(OTHER_KEY).register(options), key.sign_in(visitor("sign-in/begin", {})[1], user=key.user)


def adds_nothing(site, visitor, key, made, count):
    """Whoever has these cookies is nobody, and what was begun is not finished."""
    assert visitor("list")[0] == 401 and site.who(visitor) is None
    status, said = visitor("register/finish", made)
    assert (status, said["refusal"]) == (403, "G1")
    assert len(site.server.rows(key.user)) == count and visitor("list")[0] == 401


def kept_after_sign_out(site):
    visitor, key = site.visitor(), device()
    registered(visitor, key)
    made, response = opened(visitor, key)
    thief = visitor.copied()
    assert thief("list")[0] == 200 and site.who(thief) == key.user
    assert visitor("sign-out", {}) == (200, {})
    for kept in (thief, visitor):
        adds_nothing(site, kept, key, made, 1)
        assert kept("sign-in/finish", response)[1]["refusal"] == "W1"
    assert not [name for name in visitor.jar if "garvoeng" in name]
    stranger, late = site.visitor(), device(b"late")
    options = stranger("register/begin", {"name": "bob"})[1]
    kept = stranger.copied()
    assert stranger("sign-out", {}) == (200, {})
    assert kept("register/finish", late.register(options))[1]["refusal"] == "G1" and len(site.server.rows()) == 1


def kept_after_its_passkey(site, end):
    """A kept cookie, and a registration that was begun before, end with the passkey; a visitor by another one of the account stays."""
    visitor, other, key, second = site.visitor(), site.visitor(), device(), device(b"second")
    registered(visitor, key)
    registered(visitor, second)
    assert signed_in(other, second)[1][0] == signed_in(visitor, key)[1][0] == 200
    made, _ = opened(visitor, key)
    theirs = device(b"theirs").register(other("register/begin", {"name": "ada"})[1])
    if end == "erase":
        assert site.server.erase(key.user) == 2
    else:
        assert getattr(site.server, end)(key.id, user=key.user)
    left = {"retire": 2, "delete": 1, "erase": 0}[end]
    adds_nothing(site, visitor, key, made, left)
    assert other("register/finish", theirs)[1]["refusal"] == "G1" and len(site.server.rows(key.user)) == left
    assert other("list")[0] == (401 if end == "erase" else 200)


def kept_after_retirement(site):
    kept_after_its_passkey(site, "retire")


def kept_after_deletion(site):
    kept_after_its_passkey(site, "delete")


def kept_after_erasure(site):
    kept_after_its_passkey(site, "erase")


def two_tabs(site):
    """The later begin counts; the earlier one's response is refused, and takes nothing from the later one."""
    visitor, key = site.visitor(), device()
    first, second = (visitor("register/begin", {"name": "ada"})[1] for _ in range(2))
    assert visitor("register/finish", device().register(first))[1]["refusal"] == "G4"
    key.user = from_text(second["user"]["id"], "user")
    assert visitor("register/finish", key.register(second))[0] == 200
    first, second = (visitor("sign-in/begin", {})[1] for _ in range(2))
    assert visitor("sign-in/finish", key.sign_in(first, user=key.user))[1]["refusal"] == "W7"
    assert visitor("sign-in/finish", key.sign_in(second, user=key.user))[0] == 200
    made, _ = opened(visitor, key)
    assert signed_in(visitor, key)[1][0] == 200, "in the second tab"
    assert visitor("register/finish", made)[1]["refusal"] == "G1" and len(site.server.rows(key.user)) == 1


def stolen_sessions(site):
    """Of another visitor's, and of another account's, nothing is finished."""
    ada, eve, key, own = site.visitor(), site.visitor(), device(), device(b"eve")
    registered(ada, key, "ada")
    registered(eve, own, "eve")
    assert key.user != own.user
    assert eve("retire", {"id": to_text(key.id)}) == (200, {"retired": False})
    assert eve("rename", {"id": to_text(key.id), "name": "eve's"}) == (200, {"renamed": False})
    assert [row["name"] for row in ada("list")[1]] == [None] and len(eve("list")[1]) == 1
    options = ada("sign-in/begin", {})[1]
    assert eve("sign-in/finish", key.sign_in(options, user=key.user))[1]["refusal"] == "W1"
    options = ada("register/begin", {"name": "x"})[1]
    assert eve("register/finish", device(b"third").register(options))[1]["refusal"] == "G1"
    for name in [name for name in ada.jar if name.endswith("garvoeng_registration")]:
        eve.jar[name] = ada.jar[name]
    stranger = site.visitor({name: value for name, value in ada.jar.items() if not name.endswith("garvoeng")} if site.has_cookies else {})
    for one in (eve, stranger):
        assert one("register/finish", device(b"third").register(options))[1]["refusal"] == "G1"
    assert len(site.server.rows(key.user)) == 1
    assert registered(site.visitor(), device(), "bob")[1]["refusal"] == "G15"
    begun, late = site.visitor(), device(b"late")
    options = begun("register/begin", {"name": "bob"})[1]
    assert signed_in(begun, key)[1][0] == 200
    assert begun("register/finish", late.register(options))[1]["refusal"] == "G1", "who signed in meanwhile"
    assert len(site.server.rows()) == 2


def forged_cookies(site):
    """What no begin gave is no session, whatever it says."""
    visitor, key = site.visitor(), device()
    registered(visitor, key)
    options = visitor("register/begin", {"name": "ada"})[1]
    made = device(OTHER_KEY).register(options)
    if site.has_cookies:
        [name] = [name for name in visitor.jar if name.endswith("garvoeng_registration")]
        session, told, code = visitor.jar[name].split(".")
        for text in (f"{session}.{to_text(b'[x, null]')}.{code}", f"{session}.{to_text(b'[' + bytes([34, 34]) + b', null]')}.{code}", session, f"{session}..{code}", f"{session}.{told}.",
                     f"{session}.{told}.{code[:-1]}", f".{told}.{code}", f"{told}.{session}.{code}", code, ".", "..", "x" * 5_000):
            visitor.jar[name] = text
            assert visitor("register/finish", made)[1]["refusal"] == "G1", text
        visitor.jar[name] = f"{session}.{told}.{code}"
    for value in ("", "0" * 32, "A" * 32, "%00", "' or 1=1 --", "x" * 2_000, to_text(key.user), "secret", f"names {to_text(key.user)}"):
        stranger = site.visitor({one: value for one in ("garvoeng", "garvoeng_registration", "garvoeng_sign_in")})
        assert stranger("list")[0] == 401 and site.who(stranger) is None
        assert stranger("register/finish", made)[1]["refusal"] == "G1"
        assert stranger("sign-in/finish", key.sign_in(options, user=key.user))[1]["refusal"] == "W1"
        assert stranger("sign-out", {})[0] == 200
    assert len(site.server.rows()) == 1 and visitor("list")[0] == 200


def again(site):
    """Who is signed in is asked for his own passkey; it is for nobody else."""
    visitor, key, other = site.visitor(), device(), device(b"other")
    assert visitor("sign-in/begin", {"again": True})[0] == 401
    registered(visitor, key)
    registered(site.visitor(), other, "eve")
    options = visitor("sign-in/begin", {"again": True})[1]
    assert [row["id"] for row in options["allowCredentials"]] == [to_text(key.id)]
    assert visitor("sign-in/finish", other.sign_in(options, user=other.user))[1]["refusal"] == "W2"
    before = visitor.copied()
    assert before("list")[0] == 200
    assert visitor("sign-in/finish", key.sign_in(options, user=key.user))[0] == 200 and site.who(visitor) == key.user
    # A user of Django's who signs in again has the session that he had.
    assert before("list")[0] == (401 if site.has_cookies else 200), "the sign-in before ends"
    assert visitor("sign-in/begin", {"again": "yes"})[1]["allowCredentials"] == []


ACTS = (the_seven, cookies_and_headers, hostile_bodies, hostile_responses, other_sites, kept_after_sign_out, kept_after_retirement,
        kept_after_deletion, kept_after_erasure, two_tabs, stolen_sessions, forged_cookies, again)
