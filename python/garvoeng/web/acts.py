"""The visitor's requests, act by act. Each call is awaited, whether or not it waits (`driving`)."""
from __future__ import annotations

import hmac
import json
import logging
import secrets
from dataclasses import replace
from hashlib import sha256
from typing import TYPE_CHECKING, Any, Awaitable, Callable, Dict, List, Mapping, Optional, Tuple

from .. import pages
from ..answers import is_true, refuse
from ..errors import BadInput, Refused, RowDamaged, SessionDamaged
from ..forms import from_text, to_text
from ..library import refusal_text
from ..stored import StoreFailed
from .accounts import Denied, Visitor, is_handle, own
from .driving import Calls
from .models import model_of
from .requests import MAX_COOKIE, REGISTRATION, SIGN_IN, SIGNED_IN, Answer, Request, check_head, check_site, cookie_name, object_in

if TYPE_CHECKING:
    from . import Passkeys

Json = Dict[str, Any]
NOBODY = "nobody is signed in"
_PURPOSE = b"garvoeng registration 1 "
_MOST_LOGGED = 100
_log = logging.getLogger("garvoeng")


class _Told(Exception):
    """Carries the answer to the request."""

    def __init__(self, status: int, text: str, **headers: str) -> None:
        self.status, self.text, self.headers = status, text, {name.replace("_", "-"): value for name, value in headers.items()}


def _logged(text: Any) -> str:
    """A visitor's text in a form fit for a log, in which nothing ends a line."""
    return text[:_MOST_LOGGED] if isinstance(text, str) and text[:_MOST_LOGGED].isprintable() and text else "-"


class Visit:
    """One request."""

    def __init__(self, core: Passkeys, request: Request, calls: Calls) -> None:
        self.core, self.request, self.calls = core, request, calls
        self.server, self.store = core.server, core.store
        self.cookies: Dict[str, Optional[str]] = {}
        self.said: Json = {}

    # ---- the answer

    async def answered(self) -> Answer:
        path, method = self.request.path, PATHS.get(self.request.path)
        headers: Dict[str, str] = {}
        try:
            if method is None:
                raise _Told(404, "there is no such page")
            if self.request.method != method and (self.request.method, method) != ("HEAD", "GET"):
                raise _Told(405, "the method is another", Allow=method)
            if path in pages.FILES:
                return self._file()
            status, value = 200, await ACTS[path][1](self)
        except _Told as told:
            status, value, headers = told.status, {"error": self._text(told.text)}, told.headers
        except Refused as refused:
            status, value = 403, {"error": self._text(str(refused)), "refusal": refused.name}
        except BadInput as bad:
            status, value = 400, {"error": self._text(str(bad))}
        except Denied as denied:
            status, value = denied.status, {"error": denied.text}
        except (RowDamaged, SessionDamaged):
            status, value = 500, {"error": self._text(pages.DAMAGED)}
        except StoreFailed as failed:
            _log.error("%s", failed)
            status, value = 503, {"error": self._text(pages.TRY_AGAIN)}
        headers = {"Content-Type": "application/json", "Cache-Control": "no-store", "Vary": "Cookie",
                   "X-Content-Type-Options": "nosniff", **headers}
        return Answer(status, json.dumps(value).encode(), headers, self.cookies, self.core.is_secure)

    def _text(self, text: str) -> str:
        return self.core.translate(text)

    def _file(self) -> Answer:
        headers = {"Content-Type": f"{pages.FILES[self.request.path][1]}; charset=utf-8", "X-Content-Type-Options": "nosniff",
                   "Content-Security-Policy": self.core.policy}
        return Answer(200, pages.file(self.request.path), headers, {}, self.core.is_secure)

    async def _posted(self) -> Json:
        """The JSON object of a request that changes something."""
        wait = pages.wait_of(self.core.limit, self.request.address)
        if wait:
            raise _Told(429, pages.TOO_OFTEN, Retry_After=str(wait))
        if not check_site(self.request.headers, self.core.trusted):
            raise _Told(403, "the request is not of a page of this site: its origin is none of the server's")
        check_head(self.request.headers)
        self.said = object_in(await self.calls.site(self.request.read, pages.MAX_BODY + 1))
        return self.said

    def _cookie(self, name: str) -> Optional[str]:
        found = self.request.cookies.get(cookie_name(name, self.core.is_secure))
        return found if found and found.isascii() and len(found) <= MAX_COOKIE else None

    # ---- the site's functions

    def _function(self, name: str) -> Optional[Callable[..., Any]]:
        return own(self.core.accounts, name)

    async def _of_site(self, name: str, *words: Any) -> Any:
        """The result of one of the site's functions; None if there is none."""
        function = self._function(name)
        return None if function is None else await self.calls.site(function, self.request.native, *words)

    async def _tell(self, name: str, *words: Any) -> None:
        said = await self._of_site(name, *words)
        if said is not None:
            self._wrong(name, said, "None")

    def _wrong(self, name: str, said: Any, wanted: str) -> Any:
        refuse(f"{name} of the accounts", said, wanted, awaited_in="a site whose core is awaited")

    async def _refused(self, kind: str, session: Optional[str], error: Exception) -> None:
        """Logs a refusal (docs/OPERATING.md), and calls the site's function."""
        said = f"{error.name} {error.step}" if isinstance(error, Refused) else "by the site"
        # Whoever has the whole session could act as the visitor, so a log shows only its front.
        _log.warning("%s refused %s session %s credential %s address %s: %s", kind, said, _logged((session or "")[:8]),
                     _logged(self.said.get("id")), _logged(self.request.address), getattr(error, "text", error))
        try:
            await self._tell("refused", error)
        except Exception:
            _log.exception("refused of the accounts failed")

    # ---- who is signed in

    async def _kept(self) -> Optional[Visitor]:
        """The visitor who is signed in by the core's own cookie."""
        number = self._cookie(SIGNED_IN)
        kept = None if number is None else await self.calls.of(self.store, "signed_in", number)
        if kept is None:
            return None
        if kept.credential is not None and not self.store.looks_up:
            rows = await self.calls.of(self.server, "rows", kept.user)
            if not any(row.id == kept.credential and not row.retired for row in rows):
                return None
        return Visitor(kept.user, None, kept.at, kept.credential, kept.number)

    async def visitor(self) -> Optional[Visitor]:
        """The visitor who is signed in, by the site's own function if it has one."""
        function = self._function("user_of")
        kept = await self._kept()
        if function is None:
            return kept
        said = await self.calls.site(function, self.request.native)
        if said is None:
            return None
        told = Visitor(said) if is_handle(said) else said
        if not isinstance(told, Visitor) or not is_handle(told.user):
            self._wrong("user_of", said, "a user handle of 1 to 64 bytes, a Visitor or None")
        visitor = Visitor(bytes(told.user), told.name, told.at)
        if kept is None or kept.user != visitor.user:
            return visitor
        # A sign-in that no passkey began is as old as the site says.
        times = [at for at in (visitor.at, None if kept.credential is None else kept.at) if at is not None]
        return replace(visitor, at=max(times, default=None), credential=kept.credential, number=kept.number)

    async def _wanted(self) -> Visitor:
        visitor = await self.visitor()
        if visitor is None:
            raise _Told(401, NOBODY)
        return visitor

    async def _signs_in(self, user: bytes, accepted: Any) -> Json:
        """Signs the visitor in. Returns what the site adds to the answer."""
        more = await self._of_site("signed_in", user, accepted)
        if more is not None and not isinstance(more, Mapping):
            self._wrong("signed_in", more, "a mapping or None")
        await self._keeps(user, accepted.credential.id)
        return dict(more or {})

    async def _keeps(self, user: bytes, credential: Optional[bytes]) -> str:
        """Stores a sign-in in place of the one in the visitor's cookie. Returns its number."""
        number: str = await self.calls.of(self.store, "keep_sign_in", user, credential, lifetime=self.core.signed_in_for)
        await self._ends(self._cookie(SIGNED_IN))
        self.cookies[SIGNED_IN] = number
        return number

    async def _ends(self, number: Optional[str]) -> None:
        if number is not None:
            await self.calls.of(self.store, "abandon", number)

    # ---- registration

    async def _code(self, text: str) -> str:
        secret = self.core.secret or await self.calls.of(self.store, "secret")
        return to_text(hmac.new(secret, _PURPOSE + text.encode(), sha256).digest())

    async def _begun(self) -> Tuple[Optional[str], str, Optional[str]]:
        """The open registration in the visitor's cookie: its session, the account's name, and the sign-in that began it. The session is
        None if there is none that this site made."""
        text, _, code = (self._cookie(REGISTRATION) or "").rpartition(".")
        if not text or not hmac.compare_digest(code.encode(), (await self._code(text)).encode()):
            return None, "", None
        session, _, told = text.rpartition(".")
        name, number = json.loads(from_text(told, "registration"))
        return session, name, number

    async def _beginner(self) -> Tuple[bytes, str, Optional[Visitor]]:
        """The user handle and name for a registration that begins, and the visitor, if one is signed in."""
        visitor = await self.visitor()
        name = visitor.name if visitor is not None and visitor.name is not None else pages.name_in(self.said)
        if visitor is None:
            if self._function("user_of") is not None and self._function("create") is None:
                raise _Told(401, NOBODY)
        elif not visitor.is_fresh(self.core.fresh):
            raise _Told(401, pages.SIGN_IN_AGAIN)
        may = await self._of_site("may_register", name, None if visitor is None else visitor.user)
        if self._function("may_register") is not None and not is_true("may_register of the accounts", may):
            raise Denied(self._text("a passkey may not be registered"))
        if visitor is None:
            return secrets.token_bytes(32), name, None
        if visitor.number is None:
            visitor = replace(visitor, number=await self._keeps(visitor.user, None))
        return visitor.user, name, visitor

    async def register_begin(self) -> Json:
        await self._posted()
        try:
            user, name, visitor = await self._beginner()
        except Denied as denied:
            await self._refused("registration", None, denied)
            raise
        number = None if visitor is None else visitor.number
        options, session = await self.calls.of(self.server, "register_begin", user, name, **self.core.registration, **self._bound(number))
        text = f"{session}.{to_text(json.dumps([name, number], ensure_ascii=False).encode())}"
        self.cookies[REGISTRATION] = f"{text}.{await self._code(text)}"
        return dict(options)

    def _bound(self, number: Optional[str]) -> Json:
        """The sign-in for a server that stores sign-ins too, which checks it in the transaction of the call."""
        return {"sign_in": number} if number is not None and self.store.looks_up else {}

    async def _is_by(self, number: Optional[str]) -> bool:
        """Whether the visitor is the one who began a registration: with this sign-in, or not signed in."""
        visitor = await self.visitor()
        return visitor is None if number is None else visitor is not None and visitor.number == number

    async def register_finish(self) -> Json:
        said = await self._posted()
        session, name, number = await self._begun()
        try:
            if not await self._is_by(number):
                raise Refused(True, 1, refusal_text(True, 1))
            made = await self.calls.of(self.server, "register_complete", session, said, **self._bound(number))
            self.cookies[REGISTRATION] = None
            user, id = made.credential.user, made.credential.id
            try:
                if number is None:
                    await self._tell("create", name, user)
                elif not await self._is_by(number):
                    raise Refused(True, 1, refusal_text(True, 1))
            except BaseException:
                await self.calls.of(self.server, "delete", id)
                raise
            await self._tell("registered", made)
            more = await self._signs_in(user, made) if number is None else {}
        except (Refused, Denied) as error:
            await self._refused("registration", session, error)
            raise
        return {**more, "id": to_text(id)}

    # ---- sign-in

    async def _expected(self) -> Optional[bytes]:
        said = await self._of_site("expected")
        if said is not None and not is_handle(said):
            self._wrong("expected", said, "a user handle of 1 to 64 bytes or None")
        return None if said is None else bytes(said)

    async def sign_in_begin(self) -> Json:
        said = await self._posted()
        user = await self._expected()
        if user is None and said.get("again") is True:
            user = (await self._wanted()).user
        options, session = await self.calls.of(self.server, "authenticate_begin", user=user, **self.core.sign_in)
        self.cookies[SIGN_IN] = session
        return dict(options)

    async def sign_in_finish(self) -> Json:
        said, session = await self._posted(), self._cookie(SIGN_IN)
        try:
            who = await self.calls.of(self.server, "authenticate_complete", session, said)
            self.cookies[SIGN_IN] = None
            expected = await self._expected()
            if expected is not None and expected != who.credential.user:
                raise Denied(self._text("the passkey is another account's"))
            more = await self._signs_in(who.credential.user, who)
        except (Refused, Denied) as error:
            await self._refused("sign-in", session, error)
            raise
        return {"user": to_text(who.credential.user), **more}

    async def end(self) -> None:
        """Ends the visitor's sign-in and open ceremonies."""
        await self._ends(self._cookie(SIGNED_IN))
        for session in ((await self._begun())[0], self._cookie(SIGN_IN)):
            if session is not None:
                await self.calls.of(self.server, "abandon", session)

    async def sign_out(self) -> Json:
        await self._posted()
        await self.end()
        self.cookies.update({SIGNED_IN: None, REGISTRATION: None, SIGN_IN: None})
        await self._tell("signed_out")
        return {}

    # ---- the account's passkeys

    async def listed(self) -> List[Json]:
        user = (await self._wanted()).user
        rows, names = await self.calls.of(self.server, "rows", user), await self.calls.of(self.store, "names", user)
        return [{"id": to_text(row.id), "name": names.get(row.id), "model": model_of(row.aaguid, self.core.models),
                 "created": row.created_at, "used": row.used_at, "backed_up": row.backed_up, "retired": row.retired} for row in rows]

    async def rename(self) -> Json:
        said, user = await self._posted(), (await self._wanted()).user
        id, name = pages.id_in(said), pages.name_in(said)
        if not any(row.id == id for row in await self.calls.of(self.server, "rows", user)):
            return {"renamed": False}
        await self.calls.of(self.store, "rename", user, id, name)
        return {"renamed": True}

    async def retire(self) -> Json:
        said, user = await self._posted(), (await self._wanted()).user
        return {"retired": await self.calls.of(self.server, "retire", pages.id_in(said), user=user)}


Act = Callable[[Visit], Awaitable[Any]]
ACTS: Dict[str, Tuple[str, Act]] = {
    "register/begin": ("POST", Visit.register_begin), "register/finish": ("POST", Visit.register_finish),
    "sign-in/begin": ("POST", Visit.sign_in_begin), "sign-in/finish": ("POST", Visit.sign_in_finish), "sign-out": ("POST", Visit.sign_out),
    "list": ("GET", Visit.listed), "rename": ("POST", Visit.rename), "retire": ("POST", Visit.retire),
}
"""The acts by their paths, with the method of each."""
PATHS: Dict[str, str] = {**dict.fromkeys(pages.FILES, "GET"), **{path: method for path, (method, _) in ACTS.items()}}
"""The paths below the address of the acts, including the page's, with the method of each."""
