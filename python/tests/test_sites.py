"""What each framework has of its own: hooks that read a body, users of Flask-Login, dependencies, tokens, bodies without a length."""
import asyncio

import pytest
from acts import adds_nothing, opened
from sites import AioHttpSite, FastApiSite, FlaskLoginSite, FlaskSite, StarletteSite
from web_core import ORIGIN, Users, device, registered, signed_in

from garvoeng import Server
from garvoeng.forms import from_text

FRESH = {"X-User": "ada", "X-Age": "5"}


@pytest.fixture
def loop():
    made = asyncio.new_event_loop()
    yield made
    made.close()


@pytest.mark.parametrize("make", [FlaskSite, StarletteSite, FastApiSite, AioHttpSite])
def test_accounts_in_each(make, tmp_path, loop):
    """The site's functions are given the framework's own request."""
    users = Users()
    site = make(tmp_path, loop, accounts=users)
    visitor, key = site.visitor(), device()
    status, options = visitor("register/begin", {}, headers=FRESH)
    assert status == 200 and from_text(options["user"]["id"], "user") == b"ada" * 8
    key.user = b"ada" * 8
    made = key.register(options)
    assert visitor("register/finish", made)[1]["refusal"] == "G1"
    assert visitor("register/finish", made, headers=FRESH)[0] == 200
    assert signed_in(visitor, key)[1][1]["next"] == "/home" and len(visitor("list", headers=FRESH)[1]) == 1
    assert registered(site.visitor(), device(b"new"), "carl")[0] == 200 and list(users.made) == ["carl"]
    assert registered(site.visitor(), device(b"newer"), "carl")[0] == 409
    visitor("sign-out", {})
    assert users.heard[-1] == ("signed_out",)
    if hasattr(site, "close"):
        site.close()


@pytest.mark.parametrize("make", [StarletteSite, FastApiSite, AioHttpSite])
def test_a_verify_that_is_awaited(make, tmp_path, loop, monkeypatch):
    from garvoeng import sql
    from garvoeng.signatures import is_valid

    async def verify(*words):
        await asyncio.sleep(0)
        return is_valid(*words)

    monkeypatch.setattr("web_core.Server", lambda *words, **how: Server(*words, **how, verify=verify))
    assert sql.Server is Server
    site = make(tmp_path, loop)
    visitor, key = site.visitor(), device()
    registered(visitor, key)
    from acts import flipped
    response = key.sign_in(visitor("sign-in/begin", {})[1], user=key.user)
    assert visitor("sign-in/finish", flipped(response))[1]["refusal"] == "W14" and visitor("sign-in/finish", response)[0] == 200
    if hasattr(site, "close"):
        site.close()


def test_a_middleware_of_starlette_that_reads(tmp_path, loop, monkeypatch):
    """One that hands the body on changes nothing; where the body is gone the request ends."""
    import garvoeng.starlette
    monkeypatch.setattr(garvoeng.starlette, "_SECONDS", 0.5)
    site, seen = StarletteSite(tmp_path, loop), []
    inner = site.app

    async def reads(scope, receive, send):
        message = await receive()
        seen.append(message["body"])

        async def again():
            return message

        await inner(scope, again, send)

    async def takes(scope, receive, send):
        await receive()
        await inner(scope, receive, send)

    async def leaves(scope, receive, send):
        async def gone():
            return {"type": "http.disconnect"}

        await inner(scope, gone, send)

    site.app = reads
    assert registered(site.visitor(), device())[0] == 200 and all(seen)
    for hook in (takes, leaves):
        site.app = hook
        assert site.visitor()("sign-out", {}) == (400, {"error": "the body did not come, or was read before"})


def test_a_body_of_starlette_without_end(tmp_path, loop):
    site, taken = StarletteSite(tmp_path, loop), []
    inner = site.app

    async def endless(scope, receive, send):
        scope = {**scope, "headers": [pair for pair in scope["headers"] if pair[0] != b"content-length"]}

        async def more():
            taken.append(1)
            assert len(taken) < 1000
            return {"type": "http.request", "body": b"[" * 1000, "more_body": True}

        await inner(scope, more, send)

    site.app = endless
    assert site.visitor()("sign-out", {}) == (400, {"error": "the body is too long"})


def test_under_a_front_path(tmp_path, loop):
    """As Starlette has it up to 0.32 and from 0.33 on, and behind a proxy's path."""
    from garvoeng.starlette import Passkeys
    from web_core import sqlite
    site = StarletteSite(tmp_path, loop)
    for scope in ({"path": "/list", "root_path": "/passkeys"}, {"path": "/passkeys/list", "root_path": "/passkeys"}, {"path": "/list", "root_path": ""},
                  {"path": "/x/passkeys/list", "root_path": "/x/passkeys"}):
        inner = Passkeys(sqlite(tmp_path))

        async def app(base, receive, send, inner=inner, scope=scope):
            await inner({**base, **scope}, receive, send)

        site.app = app
        assert site.visitor()("list") == (401, {"error": "nobody is signed in"}), scope
    with pytest.raises(RuntimeError, match="answers http, and not websocket"):
        loop.run_until_complete(Passkeys(sqlite(tmp_path))({"type": "websocket"}, None, None))


def test_a_dependency_of_fastapi(tmp_path, loop):
    """An endpoint that wants a fresh sign-in, by a dependency of the site's own."""
    fastapi = pytest.importorskip("fastapi")
    from garvoeng.starlette import Passkeys
    from web_core import sqlite
    site = FastApiSite(tmp_path, loop)
    passkeys, app = Passkeys(sqlite(tmp_path)), fastapi.FastAPI()
    app.mount("/passkeys", passkeys)

    @app.get("/weighty")
    async def weighty(visitor=fastapi.Depends(passkeys.visitor)):
        return {"is_fresh": visitor is not None and visitor.is_fresh(60)}

    site.app, visitor, key = app, site.visitor(), device()
    ask = lambda: site.send("GET", "/weighty", {"Cookie": "; ".join(f"{name}={value}" for name, value in visitor.jar.items())}, None)[2]  # noqa: E731
    assert ask() == b'{"is_fresh":false}'
    registered(visitor, key)
    assert ask() == b'{"is_fresh":true}'


def test_a_middleware_of_aiohttp_that_reads(tmp_path, loop):
    from aiohttp import web
    seen = []

    @web.middleware
    async def reads(request, handler):
        seen.append(await request.read())
        answer = await handler(request)
        seen.append(await request.read())
        return answer

    @web.middleware
    async def reads_after(request, handler):
        answer = await handler(request)
        seen.append(await request.read())
        return answer

    for number, hook in enumerate((reads, reads_after)):
        (tmp_path / str(number)).mkdir()
        site = AioHttpSite(tmp_path / str(number), loop, middlewares=[hook])
        assert registered(site.visitor(), device())[0] == 200 and site.visitor()("sign-out", {}) == (200, {}) and seen[-1] == b"{}"
        site.close()


def test_users_of_flask_login(tmp_path):
    """Who signed in by a password gets a passkey, and signs in by it; both ways are one user."""
    site, key = FlaskLoginSite(tmp_path), device()
    site.users["ada"] = site.User("ada", b"ada" * 8)
    visitor = site.visitor()
    visitor.at("/enter/ada")
    assert visitor.at("/user") == "ada"
    status, options = visitor("register/begin", {})
    assert status == 200 and options["user"]["name"] == "ada" and from_text(options["user"]["id"], "user") == b"ada" * 8
    key.user = b"ada" * 8
    assert visitor("register/finish", key.register(options))[0] == 200
    visitor("sign-out", {})
    assert visitor.at("/user") == ""
    assert signed_in(visitor, key)[1][0] == 200 and visitor.at("/user") == "ada" and site.who(visitor) == key.user
    made, _ = opened(visitor, key)
    thief = visitor.copied()
    thief = site.visitor(thief.jar)
    assert thief.at("/user") == "ada"
    visitor.at("/leave")
    for one in (thief, visitor):
        adds_nothing(site, site.visitor(one.jar), key, made, 1)
        assert one.at("/user") == ""


def test_a_user_of_flask_login_goes_with_the_passkey(tmp_path):
    """A kept session of Flask's does not outlive the passkey that began it, nor sign-out; one by a password outlives it."""
    site, key = FlaskLoginSite(tmp_path), device()
    visitor, other = site.visitor(), site.visitor()
    registered(visitor, key)
    assert visitor.at("/user") == "ada"
    other.at("/enter/ada")
    assert other.at("/user") == "ada"
    thief = site.visitor(visitor.jar)
    made, _ = opened(thief, key)
    without = site.visitor({name: value for name, value in visitor.jar.items() if name == "session"})
    assert without.at("/user") == "", "the session alone is nobody"
    kept = site.visitor(visitor.jar)
    visitor("sign-out", {})
    assert kept.at("/user") == "" and visitor.at("/user") == ""
    adds_nothing(site, site.visitor(thief.jar), key, made, 1)
    assert signed_in(visitor, key)[1][0] == 200 and visitor.at("/user") == "ada"
    kept = site.visitor(visitor.jar)
    site.server.retire(key.id)
    assert kept.at("/user") == "" and kept("list")[0] == 401 and visitor.at("/user") == ""
    assert other.at("/user") == "ada" and other("list")[0] == 200


def test_a_password_after_a_passkey(tmp_path):
    """Who enters by a password where a passkey signed in before is one by a password: no passkey's end ends that."""
    site, key = FlaskLoginSite(tmp_path), device()
    visitor = site.visitor()
    registered(visitor, key)
    assert visitor.at("/user") == "ada"
    visitor.at("/enter/ada")
    assert visitor.at("/user") == "ada"
    site.server.retire(key.id)
    assert visitor.at("/user") == "ada" and visitor("list")[0] == 200


def test_a_user_of_flask_login_who_may_not(tmp_path):
    site, key = FlaskLoginSite(tmp_path), device()
    registered(site.visitor(), key)
    site.User.is_active = False
    visitor = site.visitor()
    assert signed_in(visitor, key)[1] == (403, {"error": "the account may not sign in"}) and visitor.at("/user") == ""
    site.users.clear()
    assert signed_in(visitor, key)[1][0] == 403 and visitor("list")[0] == 401


@pytest.mark.parametrize("make", [FlaskSite, StarletteSite, AioHttpSite])
def test_a_sign_out_of_the_sites_own(make, tmp_path, loop):
    site, key = make(tmp_path, loop), device()
    visitor = site.visitor()
    registered(visitor, key)
    made, response = opened(visitor, key)
    thief = visitor.copied()
    site.leave(visitor)
    adds_nothing(site, thief, key, made, 1)
    assert thief("sign-in/finish", response)[1]["refusal"] == "W1"
    if hasattr(site, "close"):
        site.close()


def test_flask_step_up(tmp_path, monkeypatch):
    from garvoeng.flask import fresh
    from web_core import later
    site, key = FlaskSite(tmp_path), device()
    site.app.get("/fresh", endpoint="fresh")(lambda: str(fresh(60)))
    visitor = site.visitor()
    ask = lambda: site.send("GET", "/fresh", {"Cookie": "; ".join(f"{name}={value}" for name, value in visitor.jar.items())}, None)[2]  # noqa: E731
    assert ask() == b"False"
    registered(visitor, key)
    assert ask() == b"True"
    later(monkeypatch, 100)
    assert ask() == b"False" and signed_in(visitor, key)[1][0] == 200 and ask() == b"True"


def test_tokens(tmp_path):
    """Where Flask-WTF looks at each post, the script is told its token; else none."""
    import sys
    import types
    site = FlaskSite(tmp_path)
    assert site.visitor()("token") == (200, {})
    site.app.extensions["csrf"] = object()
    module = types.ModuleType("flask_wtf.csrf")
    module.generate_csrf = lambda: "a token"
    sys.modules.update({"flask_wtf": types.ModuleType("flask_wtf"), "flask_wtf.csrf": module})
    try:
        assert site.visitor()("token") == (200, {"header": "X-CSRFToken", "token": "a token"})
    finally:
        del sys.modules["flask_wtf"], sys.modules["flask_wtf.csrf"]


def test_https_in_each(tmp_path, loop, monkeypatch):
    """Cookies of this host alone."""
    monkeypatch.setattr("sites.sqlite", lambda folder: __import__("web_core").sqlite(folder, (ORIGIN, "https://localhost")))
    for make in (FlaskSite, StarletteSite, FastApiSite, AioHttpSite):
        (tmp_path / make.name).mkdir()
        site = make(tmp_path / make.name, loop)
        visitor = site.visitor()
        assert registered(visitor, device())[0] == 200
        assert set(visitor.jar) == {"__Host-garvoeng"} and all("Secure" in line for line in visitor.cookies) and visitor("list")[0] == 200
        if hasattr(site, "close"):
            site.close()


def test_a_body_of_aiohttp_without_a_length(tmp_path, loop):
    """No more of it is read than a request may have."""
    site, sent = AioHttpSite(tmp_path, loop), []

    async def parts(count):
        for _ in range(count):
            sent.append(1)
            yield b" " * 1024

    async def asked(count):
        headers = {"Content-Type": "application/json"}
        async with site.client.post(site.running.make_url("/passkeys/sign-out"), data=parts(count), headers=headers) as answer:
            return answer.status, await answer.json()

    assert loop.run_until_complete(asked(3)) == (400, {"error": "the body is no JSON object"})
    assert loop.run_until_complete(asked(200)) == (400, {"error": "the body is too long"})
    site.close()
