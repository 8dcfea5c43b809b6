"""A site in no framework, over any storage, and what its visitors do. The sites of frameworks have the same interface: `visitor()` gives a
function that asks, whose `jar` has the visitor's cookies."""
import json
import sqlite3
import time
from http.cookies import SimpleCookie

from device import Device

from garvoeng import KeepingServer, MemoryStore, Server
from garvoeng.forms import from_text
from garvoeng.sql import SqlServer
from garvoeng.web import Accounts, Passkeys, Request

ORIGIN = "http://localhost:8000"


def sqlite(folder, origins=(ORIGIN,), **how):
    def connect():
        connection = sqlite3.connect(str(folder / "site.sqlite"), timeout=30)
        connection.execute("pragma synchronous = off")
        return connection
    server = SqlServer(Server("localhost", origins, **how), connect)
    server.prepare()
    return server


def memory(folder=None, origins=(ORIGIN,), **how):
    return KeepingServer(Server("localhost", origins, **how), MemoryStore())


def asking(send, jar):
    """A visitor who sends requests by `send(method, path, headers, body)`, which gives status, headers as pairs, and body."""
    def ask(path, body=None, content_type="application/json", raw=None, headers=()):
        data = raw if raw is not None else None if body is None else json.dumps(body).encode()
        sent = {**({} if data is None or content_type is None else {"Content-Type": content_type}), **dict(headers)}
        if jar:
            sent["Cookie"] = "; ".join(f"{name}={value}" for name, value in jar.items())
        status, got, text = send("GET" if data is None else "POST", path, sent, data)
        ask.headers = {name.lower(): value for name, value in got}
        ask.cookies = [value for name, value in got if name.lower() == "set-cookie"]
        for line in ask.cookies:
            [(name, morsel)] = SimpleCookie(line).items()
            if morsel.value and morsel["max-age"] != "0":
                jar[name] = morsel.value
            else:
                jar.pop(name, None)
        return status, json.loads(text) if ask.headers.get("content-type", "").startswith("application/json") else text

    ask.jar = jar
    ask.copied = lambda: asking(send, dict(jar))
    return ask


class Headers(dict):
    """Headers, whose names have no capital letters."""

    def get(self, name, default=None):
        return super().get(name.lower(), default)


class CoreSite:
    name = "core"

    def __init__(self, folder, accounts=None, server=None, loop=None, **how):
        self.server = server if server is not None else sqlite(folder)
        self.core, self.loop = Passkeys(self.server, accounts, **how), loop

    def request(self, method, path, headers, body):
        headers = Headers({name.lower(): value for name, value in headers.items()})
        cookies = {name: morsel.value for name, morsel in SimpleCookie(headers.get("cookie", "")).items()}
        request = Request(method, path, headers, cookies, lambda most: (body or b"")[:most], headers.get("x-address"))
        object.__setattr__(request, "native", request)
        return request

    def send(self, method, path, headers, body):
        request = self.request(method, path, headers, body)
        answer = self.core.answer(request) if self.loop is None else self.loop.run_until_complete(self.core.answer_async(request))
        return answer.status, answer.lines(), answer.body

    def visitor(self, jar=()):
        return asking(self.send, dict(jar))

    has_cookies = has_page = True
    now = staticmethod(time.time)

    def who(self, visitor):
        request = self.request("GET", "who", {"cookie": "; ".join(f"{name}={value}" for name, value in visitor.jar.items())}, None)
        found = self.core.visitor(request) if self.loop is None else self.loop.run_until_complete(self.core.visitor_async(request))
        return None if found is None else found.user


class Users(Accounts):
    """A site that has users: who is signed in stands in a header, with the time if there is one."""

    def __init__(self):
        self.made, self.heard, self.second = {}, [], None

    def user_of(self, request):
        from garvoeng.web import Visitor
        name = request.headers.get("x-user")
        if name is None:
            return None
        age = request.headers.get("x-age")
        return Visitor(name.encode() * 8, name, None if age is None else time.time() - float(age))

    def expected(self, request):
        return self.second

    def may_register(self, request, name, user):
        self.heard.append(("may_register", name, user))
        return name != "nobody"

    def create(self, request, name, user):
        from garvoeng.web import Denied
        if name in self.made:
            raise Denied("the name is another account's", 409)
        self.made[name] = user

    def registered(self, request, registered):
        self.heard.append(("registered", registered.credential.id))

    def signed_in(self, request, user, accepted):
        self.heard.append(("signed_in", user))
        return {"next": "/home"}

    def signed_out(self, request):
        self.heard.append(("signed_out",))

    def refused(self, request, error):
        self.heard.append(("refused", getattr(error, "name", "Denied")))


def device(identity=b"credential", origin=ORIGIN, **how):
    return Device(credential=identity, rp_id="localhost", origin=origin, **how)


def registered(visitor, key, name="ada", **how):
    status, options = visitor("register/begin", {"name": name}, **how)
    if status != 200:
        return status, options
    key.user = from_text(options["user"]["id"], "user")
    return visitor("register/finish", key.register(options), **how)


def signed_in(visitor, key, **how):
    status, options = visitor("sign-in/begin", {}, **how)
    assert status == 200, options
    response = key.sign_in(options, user=key.user)
    return response, visitor("sign-in/finish", response, **how)


class Later:
    """A clock that is ahead."""

    def __init__(self, seconds):
        self.seconds = seconds

    def time(self):
        return time.time() + self.seconds


def later(monkeypatch, seconds):
    """All clocks of the package are ahead."""
    from garvoeng import keeping, memory, sql_rows
    from garvoeng.web import accounts, stores
    for module in (keeping, memory, sql_rows, accounts, stores):
        monkeypatch.setattr(module, "time", Later(seconds))
