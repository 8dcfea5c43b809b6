"""Passkeys for a site in Flask: a blueprint with a page and the requests that the page makes (`garvoeng.web`).

    app.register_blueprint(passkeys(server), url_prefix="/passkeys")

`signed_in()` then returns the visitor's user handle, or None, and `fresh(300)` whether the visitor signed in within five minutes. For
Flask-Login pass `accounts=LoginAccounts(..)`.
"""
from __future__ import annotations

import time
from importlib import import_module
from typing import Any, Callable, Mapping, Optional

from flask import Blueprint, Response, after_this_request, current_app, g, request, session

from .web import PATHS, Accounts, Denied, Passkeys, Request, Visitor

_AT, _BY = "garvoeng_signed_in_at", "garvoeng_by_passkey"


def _read(most: int) -> bytes:
    # A body without a length is read only up to the limit, unless the site has read it before.
    return request.get_data() if request.content_length is not None else request.stream.read(most) or request.get_data()


def _asked(path: str = "") -> Request:
    return Request(request.method, path, request.headers, request.cookies, _read, request.remote_addr, request)


def _core() -> Passkeys:
    core: Optional[Passkeys] = current_app.extensions.get("garvoeng")
    if core is None:
        raise RuntimeError("no blueprint of garvoeng.flask is registered: app.register_blueprint(passkeys(server), url_prefix=..)")
    return core


def visitor() -> Optional[Visitor]:
    """The visitor who is signed in, or None: if nobody signed in, if the visitor signed out, or if the passkey was retired or deleted
    since. Looked up once for each request."""
    if "garvoeng_visitor" not in g:
        g.garvoeng_visitor = _core().visitor(_asked())

        @after_this_request
        def varied(response: Response) -> Response:
            response.vary.add("Cookie")
            return response
    found: Optional[Visitor] = g.garvoeng_visitor
    return found


def signed_in() -> Optional[bytes]:
    """The visitor's user handle, or None."""
    found = visitor()
    return None if found is None else found.user


def fresh(seconds: float) -> bool:
    """Whether the visitor signed in at most this many seconds ago. Check it before a sensitive act; if it is false, the page calls
    `passkeys.signIn({ again: true })`."""
    found = visitor()
    return found is not None and found.is_fresh(seconds)


def end() -> None:
    """Ends the visitor's sign-in. Call it from the site's own sign-out; Flask-Login's does so by itself."""
    _core().end(_asked())
    g.pop("garvoeng_visitor", None)


def passkeys(server: Any, name: str = "passkeys", *, accounts: Any = None, **how: Any) -> Blueprint:
    """The blueprint, one for each application: the acts of `garvoeng.web` at its root; for `url_for` they are `passkeys.page`,
    `passkeys.list` and so on. `how` is as in `garvoeng.web.Passkeys`: `fresh`, `signed_in_for`, `rate_limit`, `registration` .. Behind a
    proxy the visitor's address is that of `X-Forwarded-For` if the site uses werkzeug's `ProxyFix`."""
    core, blueprint = Passkeys(server, accounts, **how), Blueprint(name, __name__)

    @blueprint.record_once
    def recorded(state: Any) -> None:
        if state.app.extensions.setdefault("garvoeng", core) is not core:
            raise RuntimeError("an application has one blueprint of garvoeng.flask")

    def answered(path: str) -> Response:
        answer = core.answer(_asked(path))
        g.pop("garvoeng_visitor", None)
        return Response(answer.body, answer.status, answer.lines())

    for path, method in PATHS.items():
        endpoint = path.replace("/", "_").replace("-", "_").replace(".", "_") or "page"
        blueprint.add_url_rule(f"/{path}", endpoint, answered, defaults={"path": path}, methods=[method])

    @blueprint.get("/token")
    def token() -> "dict[str, str]":
        """The token that Flask-WTF requires of a post, if the site uses it."""
        if "csrf" not in current_app.extensions:
            return {}
        return {"header": "X-CSRFToken", "token": import_module("flask_wtf.csrf").generate_csrf()}

    if isinstance(accounts, LoginAccounts):
        blueprint.record_once(accounts.watch)
    return blueprint


def _login() -> Any:
    return import_module("flask_login")


class LoginAccounts(Accounts):
    """The users of Flask-Login. `handle_of(user)` returns the user handle that the site keeps with a user, for example 32 random bytes, and
    `user_by(handle)` the user with a handle, or None. `make(name, handle)` makes a user, if a passkey may make one, and raises `Denied` if
    the name is taken. `name_of(user)` is what a browser shows.

    A user who signed in with a passkey is logged out when it is retired or deleted."""

    def __init__(self, handle_of: Callable[[Any], bytes], user_by: Callable[[bytes], Any],
                 make: Optional[Callable[[str, bytes], None]] = None, name_of: Callable[[Any], str] = str) -> None:
        self.handle_of, self.user_by, self.name_of = handle_of, user_by, name_of
        if make is not None:
            setattr(self, "create", lambda request, name, user: make(name, user))

    def watch(self, state: Any) -> None:
        _login().user_logged_in.connect(self._logged_in, state.app)
        _login().user_logged_out.connect(self._logged_out, state.app)
        state.app.before_request(self._ends)

    def _logged_in(self, app: Any, **_: Any) -> None:
        end()
        session[_AT] = int(time.time())
        session.pop(_BY, None)

    def _logged_out(self, app: Any, **_: Any) -> None:
        end()
        session.pop(_AT, None)
        session.pop(_BY, None)

    def _ends(self) -> None:
        """Logs out a user whose passkey is retired or deleted, or whose sign-in was ended."""
        if session.get(_BY):
            found = visitor()
            if found is None or found.credential is None:
                _login().logout_user()

    def user_of(self, request: Any) -> Optional[Visitor]:
        user = _login().current_user
        return Visitor(self.handle_of(user), self.name_of(user), session.get(_AT)) if user.is_authenticated else None

    def signed_in(self, request: Any, user: bytes, accepted: Any) -> Optional[Mapping[str, Any]]:
        found = self.user_by(user)
        if found is None or not _login().login_user(found):
            raise Denied("the account may not sign in")
        session[_BY] = True
        return None

    def signed_out(self, request: Any) -> None:
        _login().logout_user()
