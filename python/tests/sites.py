"""Sites in each framework, in this process, with the interface of `CoreSite`."""
import asyncio
import time

import pytest
from web_core import asking, sqlite

PREFIX = "/passkeys/"


class Site:
    has_cookies = has_page = True
    prefix = PREFIX
    now = staticmethod(time.time)

    def visitor(self, jar=()):
        return asking(lambda method, path, headers, body: self.send(method, self.prefix + path, headers, body), dict(jar))

    def leave(self, visitor):
        assert asking(self.send, dict(visitor.jar))("/end")[0] == 200

    def who(self, visitor):
        status, said = asking(self.send, dict(visitor.jar))("/who")
        assert status == 200, said
        return bytes.fromhex(said.decode()) or None


class FlaskSite(Site):
    name = "flask"

    def __init__(self, folder, loop=None, accounts=None, **how):
        flask = pytest.importorskip("flask")
        from garvoeng.flask import end, passkeys, signed_in
        self.server, self.app = sqlite(folder), flask.Flask("site")
        self.app.register_blueprint(passkeys(self.server, accounts=accounts, **how), url_prefix="/passkeys")
        self.app.get("/who")(lambda: (signed_in() or b"").hex())
        self.app.get("/end", endpoint="end")(lambda: (end(), "")[1])

    def send(self, method, path, headers, body):
        headers = dict(headers)
        said = self.app.test_client(use_cookies=False).open(path, method=method, data=body, content_type=headers.pop("Content-Type", None), headers=headers)
        return said.status_code, list(said.headers.items()), said.get_data()


class FlaskLoginSite(FlaskSite):
    """Over users of Flask-Login, in rows of the site's own."""

    name = "flask-login"

    def __init__(self, folder, loop=None, **how):
        flask, login = pytest.importorskip("flask"), pytest.importorskip("flask_login")
        from garvoeng.flask import LoginAccounts
        from garvoeng.web import Denied
        self.users = {}

        class User(login.UserMixin):
            def __init__(self, id, handle):
                self.id, self.handle = id, handle

        def make(name, handle):
            if name in self.users:
                raise Denied("the name is another account's", 409)
            self.users[name] = User(name, handle)

        by_handle = lambda handle: next((user for user in self.users.values() if user.handle == handle), None)  # noqa: E731
        super().__init__(folder, accounts=LoginAccounts(lambda user: user.handle, by_handle, make, lambda user: user.id), **how)
        self.app.secret_key = "secret"
        self.app.config["SESSION_COOKIE_SAMESITE"] = "Lax"
        manager = login.LoginManager(self.app)
        manager.user_loader(self.users.get)

        def enter(name):
            flask.session.pop("_user_id", None)
            login.login_user(self.users[name])
            return ""

        self.app.get("/enter/<name>", endpoint="enter")(enter)
        self.app.get("/leave", endpoint="leave")(lambda: (login.logout_user(), "")[1])
        self.app.get("/user", endpoint="user")(lambda: login.current_user.get_id() or "")
        self.User = User

    def visitor(self, jar=()):
        made = super().visitor(jar)
        made.at = lambda path: asking(self.send, made.jar)(path)[1].decode()
        return made


class AsgiSite(Site):
    """One loop for all requests of the site."""

    def start(self, app, loop):
        self.app, self.loop = app, loop

    def send(self, method, path, headers, body):
        return self.loop.run_until_complete(self.sent(method, path, headers, body))

    async def sent(self, method, path, headers, body):
        path, _, query = path.partition("?")
        scope = {"type": "http", "asgi": {"version": "3.0"}, "http_version": "1.1", "method": method, "path": path, "raw_path": path.encode(), "scheme": "http",
                 "query_string": query.encode(), "root_path": "", "server": ("localhost", 8000), "client": ("127.0.0.1", 5000),
                 "headers": [(name.lower().encode("latin-1"), value.encode("latin-1")) for name, value in
                             {**headers, **({"Content-Length": str(len(body))} if body is not None else {})}.items()]}
        told, parts = {}, [{"type": "http.request", "body": body or b"", "more_body": False}]

        async def receive():
            if parts:
                return parts.pop(0)
            await asyncio.sleep(3600)

        async def send(message):
            if message["type"] == "http.response.start":
                told.update(status=message["status"], headers=[(name.decode("latin-1"), value.decode("latin-1")) for name, value in message["headers"]])
            else:
                told["body"] = told.get("body", b"") + message.get("body", b"")

        await self.app(scope, receive, send)
        return told["status"], told["headers"], told["body"]


class StarletteSite(AsgiSite):
    name = "starlette"

    def __init__(self, folder, loop, accounts=None, **how):
        starlette = pytest.importorskip("starlette.applications")
        from starlette.responses import PlainTextResponse
        from starlette.routing import Mount, Route

        from garvoeng.starlette import Passkeys
        self.server = sqlite(folder)
        passkeys = Passkeys(self.server, accounts, **how)

        async def who(request):
            return PlainTextResponse((await passkeys.signed_in(request) or b"").hex())

        async def end(request):
            await passkeys.end(request)
            return PlainTextResponse("")

        self.start(starlette.Starlette(routes=[Mount("/passkeys", passkeys), Route("/who", who), Route("/end", end)]), loop)


class FastApiSite(AsgiSite):
    name = "fastapi"

    def __init__(self, folder, loop, accounts=None, **how):
        fastapi = pytest.importorskip("fastapi")
        from garvoeng.starlette import Passkeys
        self.server = sqlite(folder)
        passkeys = Passkeys(self.server, accounts, **how)
        app = fastapi.FastAPI()
        app.mount("/passkeys", passkeys)

        @app.get("/who", response_class=fastapi.responses.PlainTextResponse)
        async def who(user=fastapi.Depends(passkeys.signed_in)):
            return (user or b"").hex()

        self.start(app, loop)


class AioHttpSite(Site):
    name = "aiohttp"

    def __init__(self, folder, loop, accounts=None, middlewares=(), **how):
        aiohttp, utils = pytest.importorskip("aiohttp"), pytest.importorskip("aiohttp.test_utils")
        from aiohttp import web

        from garvoeng.aiohttp import Passkeys
        self.server, self.loop = sqlite(folder), loop
        passkeys = Passkeys(self.server, accounts, **how)

        async def who(request):
            return web.Response(text=(await passkeys.signed_in(request) or b"").hex())

        async def end(request):
            await passkeys.end(request)
            return web.Response()

        async def started():
            app = web.Application(middlewares=middlewares)
            app.add_subapp("/passkeys/", passkeys.app)
            app.router.add_get("/who", who)
            app.router.add_get("/end", end)
            self.running = utils.TestServer(app)
            await self.running.start_server()
            self.client = aiohttp.ClientSession(cookie_jar=aiohttp.DummyCookieJar())

        loop.run_until_complete(started())

    def send(self, method, path, headers, body):
        async def sent():
            # The client's own form of a body has a type, if none is said.
            skipped = {"skip_auto_headers": ["Content-Type", "User-Agent"]}
            async with self.client.request(method, self.running.make_url("/").join(type(self.running.make_url("/"))(path)), data=body, headers=headers, **skipped) as answer:
                return answer.status, list(answer.headers.items()), await answer.read()
        return self.loop.run_until_complete(sent())

    def close(self):
        async def ended():
            await self.client.close()
            await self.running.close()
        self.loop.run_until_complete(ended())


class DjangoSite(Site):
    """Where a visitor's cookies stand in his session; each post has the token that Django asks for."""

    name = "django"
    has_cookies = False

    def __init__(self, folder, loop=None, **how):
        pytest.importorskip("django")
        from web_sites import DjangoSite as Emptied
        self.server = Emptied(None).server

    def send(self, method, path, headers, body):
        from django.test import Client
        client, headers = Client(enforce_csrf_checks=True), dict(headers)
        kind, named = headers.pop("Content-Type", ""), {f"HTTP_{name.upper().replace('-', '_')}": value for name, value in headers.items()}
        said = client.generic(method, path, body or b"", kind, **named)
        lines = [line.split(": ", 1)[1] for line in said.cookies.output().splitlines()]
        return said.status_code, [*said.items(), *(("Set-Cookie", line) for line in lines)], said.content

    def visitor(self, jar=()):
        ask = super().visitor(jar)

        def posted(path, body=None, content_type="application/json", raw=None, headers=()):
            token = {}
            if body is not None or raw is not None:
                said = ask("token")[1]
                token = {said["header"]: said["token"]}
            said = ask(path, body, content_type, raw, {**token, **dict(headers)})
            posted.headers, posted.cookies = ask.headers, ask.cookies
            return said

        posted.jar, posted.copied = ask.jar, lambda: self.visitor(ask.jar)
        return posted

    def who(self, visitor):
        status, said = asking(self.send, dict(visitor.jar))("/handle")
        return bytes.fromhex(said.decode()) or None


class DjangoRestSite(DjangoSite):
    name = "django-rest"
    prefix, has_page = "/api/passkeys/", False

    def __init__(self, folder, loop=None, **how):
        pytest.importorskip("rest_framework")
        super().__init__(folder)


FRAMEWORKS = {site.name: site for site in (FlaskSite, FlaskLoginSite, StarletteSite, FastApiSite, AioHttpSite, DjangoSite, DjangoRestSite)}
