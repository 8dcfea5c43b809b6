"""The requests of a site with passkeys, without a framework: JSON and cookies in, JSON and cookies out.

    core = Passkeys(server, accounts)
    answer = core.answer(Request(method, path, headers, cookies, read, address, native))
    visitor = core.visitor(request)

`garvoeng.flask`, `garvoeng.django`, `garvoeng.starlette` and `garvoeng.aiohttp` build on it. `server` keeps the passkeys: a `SqlServer`, a
`KeepingServer` or a `StoredServer`. Each act except `list` is a POST of a JSON object. `register/begin` (with `name`) and `sign-in/begin`
answer options. `register/finish` and `sign-in/finish` take the browser's response and answer `id` and `user`. The others are `sign-out`;
`list`, which answers `id`, `name`, `model`, `created`, `used`, `backed_up` and `retired` of each passkey; `rename`, which takes `id` and
`name`; and `retire`, which takes `id`. `sign-in/begin` with `"again": true` is for a visitor who is signed in and has to sign in afresh.
The empty path is a page, `passkeys.js` the script for the site's pages.

Answers: 400 for invalid input, 401 if nobody is signed in or a fresher sign-in is needed, 403 for a refusal (`refusal` is its name), for a
visitor who may not do this, and for a page of another site, 429 with Retry-After for an address that asks too often, 500 for a damaged row.
"""
from __future__ import annotations

from typing import Any, Callable, Mapping, Optional, Sequence, Union

from .. import limits, pages
from ..answers import kind_of
from ..errors import BadInput
from ..keeping import PasskeyServer
from ..server import Server
from ..sql import SIGNED_IN, SqlServer
from .accounts import Accounts, Denied, Visitor, check_accounts
from .acts import PATHS, Visit
from .driving import AT_ONCE, AWAITED, at_once
from .models import MODELS
from .requests import Answer, Request
from .stores import MemoryWebStore, SqlWebStore, WebStore

__all__ = ["MODELS", "Accounts", "Answer", "Denied", "MemoryWebStore", "Passkeys", "Request", "SqlWebStore", "Visitor", "WebStore", "PATHS"]

_LEAST_SECRET = 32
_CALLS = ("secret", "keep_sign_in", "signed_in", "abandon", "names", "rename", "erase")


def _policy(top_origins: Sequence[str]) -> str:
    """The page's Content-Security-Policy: the page loads only the site's own files, and only the `top_origins` may have it in a frame."""
    frames = " ".join(top_origins) or "'none'"
    return ("default-src 'none'; script-src 'self'; connect-src 'self'; style-src 'self'; img-src 'self'; font-src 'self'; base-uri 'none'; "
            f"form-action 'none'; frame-ancestors {frames}")


def _store_of(server: PasskeyServer) -> WebStore:
    if isinstance(server, SqlServer):
        return SqlWebStore(server, looks_up=True)
    return MemoryWebStore()


def _checked(store: Any) -> WebStore:
    if isinstance(store, type) or not all(callable(getattr(store, name, None)) for name in _CALLS):
        raise TypeError(f"store is a WebStore, as MemoryWebStore(), and not {kind_of(store)}")
    return store  # type: ignore[no-any-return]


def _secret(value: Union[str, bytes, None]) -> Optional[bytes]:
    if value is None:
        return None
    if not isinstance(value, (str, bytes)):
        raise TypeError(f"secret is a text or bytes, and not {kind_of(value)}")
    made = value.encode() if isinstance(value, str) else value
    if len(made) < _LEAST_SECRET:
        raise BadInput(f"secret is too short: write {_LEAST_SECRET} random characters or more")
    return made


def _how(how: Optional[Mapping[str, Any]], call: str, *words: Any) -> Mapping[str, Any]:
    """The parameters of a begin besides the account. They are tried once, so that a site's mistake shows before its visitors meet it."""
    if how is not None and not isinstance(how, Mapping):
        raise TypeError(f"the options of {call} are a dict, as {{\"user_verification\": True}}, and not {kind_of(how)}")
    made = dict(how or {})
    for name in ("user", "exclude", "allow", "sign_in"):
        if name in made:
            raise TypeError(f"{name} of {call} is the core's")
    getattr(Server("localhost", ["http://localhost"], verify=lambda *_: False), call)(*words, **made)
    return made


class Passkeys:
    """The acts over a server and the site's accounts; `accounts` is any `Accounts` or None.

    `store` keeps the sign-ins, and the names of passkeys. By default these are the tables of a `SqlServer`; with another server, this
    process's memory, which suits a site of one process. Other sites pass `SqlWebStore(SqlServer(..))`, or their own. `secret`, of 32 bytes
    or more, signs the cookie of an open registration; by default it is the store's.

    A sign-in ends after `signed_in_for` seconds, by `sign-out`, and when its passkey is retired or deleted. A passkey can be added for
    `fresh` seconds after a sign-in, and only by the sign-in that began its registration. Cookies are HttpOnly and SameSite=Lax, and if an
    origin of the server is https also Secure, with `__Host-` before the name. A request that changes something has to be JSON, and come
    from a page at an origin of the server or of `trusted_origins`. `rate_limit` is a `RateLimit()` by default, and False for none.

    `registration` and `sign_in` are parameters for `register_begin` and `authenticate_begin`, such as `{"user_verification": True}`.
    `models` has the names of authenticators by their aaguid, and `translate(text)` returns the text of an error in the visitor's language.

    Raises `TypeError` and `BadInput` for values that are out of their limits.
    """

    def __init__(self, server: PasskeyServer, accounts: Any = None, *, store: Optional[WebStore] = None, secret: Union[str, bytes, None] = None,
                 fresh: int = pages.FRESH, signed_in_for: int = SIGNED_IN, rate_limit: Union[pages.Limit, bool, None] = None,
                 trusted_origins: Sequence[str] = (), registration: Optional[Mapping[str, Any]] = None,
                 sign_in: Optional[Mapping[str, Any]] = None, models: Mapping[str, str] = MODELS,
                 translate: Callable[[str], str] = str) -> None:
        if isinstance(server, Server) or not callable(getattr(server, "authenticate_complete", None)):
            raise TypeError("Passkeys takes a server that keeps passkeys, as SqlServer(Server(..), connect)")
        self.server: Any = server
        self.accounts = check_accounts(accounts)
        self.store = _store_of(server) if store is None else _checked(store)
        self.secret = _secret(secret)
        self.fresh = limits.check_lifetime(fresh, "fresh")
        self.signed_in_for = limits.check_lifetime(signed_in_for, "signed_in_for")
        self.limit = pages.limit_of(rate_limit)
        self.trusted = (*server.origins, *limits.check_origins(trusted_origins, "trusted_origins"))
        self.is_secure = any(origin.startswith("https://") for origin in server.origins)
        self.policy = _policy(server.top_origins)
        self.registration = _how(registration, "register_begin", b"0", "0")
        self.sign_in = _how(sign_in, "authenticate_begin")
        if not isinstance(models, Mapping) or not callable(translate):
            raise TypeError("models is a dict of names by their aaguid, and translate a function of a text")
        self.models = models
        self.translate = translate

    def answer(self, request: Request) -> Answer:
        """Answers a request. Raises what the storage and the site's functions raise."""
        return at_once(Visit(self, request, AT_ONCE).answered())

    async def answer_async(self, request: Request) -> Answer:
        """The same, awaited: a thread of the loop makes the server's calls, the loop those of the site's functions."""
        return await Visit(self, request, AWAITED).answered()

    def visitor(self, request: Request) -> Optional[Visitor]:
        """The visitor who is signed in, or None. For a step-up, check `visitor.is_fresh(seconds)`."""
        return at_once(Visit(self, request, AT_ONCE).visitor())

    async def visitor_async(self, request: Request) -> Optional[Visitor]:
        """The same, awaited."""
        return await Visit(self, request, AWAITED).visitor()

    def end(self, request: Request) -> None:
        """Ends the visitor's sign-in and open ceremonies. Call it from the site's own sign-out. The old cookies sign nobody in any more."""
        at_once(Visit(self, request, AT_ONCE).end())

    async def end_async(self, request: Request) -> None:
        """The same, awaited."""
        await Visit(self, request, AWAITED).end()
