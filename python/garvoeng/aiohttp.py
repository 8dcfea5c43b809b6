"""Passkeys for a site in aiohttp: an application with a page and the requests that the page makes (`garvoeng.web`).

    passkeys = Passkeys(server)
    app.add_subapp("/passkeys/", passkeys.app)

`await passkeys.signed_in(request)` then returns the visitor's user handle, or None.
"""
from __future__ import annotations

from functools import partial
from typing import Any, Optional

from aiohttp.web import Application, Request, Response
from multidict import CIMultiDict

from . import web


async def _read(request: Request, most: int) -> bytes:
    """Up to this many bytes of the body, also if a middleware has read it before. It can be read again."""
    if request._read_bytes is None:
        body = b""
        while len(body) < most and not request.content.at_eof():
            body += await request.content.read(most - len(body))
        request._read_bytes = body
    return request._read_bytes


class Passkeys:
    """The acts of `garvoeng.web`, as the application `app`. `server`, `accounts` and `how` are as in `garvoeng.web.Passkeys`; the functions
    of `Accounts` get aiohttp's request and may be `async`. The visitor's address is `request.remote`."""

    def __init__(self, server: Any, accounts: Any = None, **how: Any) -> None:
        self.core = web.Passkeys(server, accounts, **how)
        self.app = Application()
        for path, method in web.PATHS.items():
            self.app.router.add_route(method, f"/{path}", partial(self._answered, path))

    def _asked(self, request: Request, path: str = "") -> web.Request:
        return web.Request(request.method, path, request.headers, request.cookies, lambda most: _read(request, most), request.remote, request)

    async def _answered(self, path: str, request: Request) -> Response:
        answer = await self.core.answer_async(self._asked(request, path))
        response = Response(body=answer.body, status=answer.status, headers=CIMultiDict(answer.lines()))
        if not request.content.at_eof():
            # If the head is refused, the body is not read, and the connection ends.
            response.force_close()
        return response

    async def visitor(self, request: Request) -> Optional[web.Visitor]:
        """The visitor who is signed in, or None. Check `visitor.is_fresh(300)` before a sensitive act."""
        return await self.core.visitor_async(self._asked(request))

    async def signed_in(self, request: Request) -> Optional[bytes]:
        """The visitor's user handle, or None."""
        found = await self.visitor(request)
        return None if found is None else found.user

    async def end(self, request: Request) -> None:
        """Ends the visitor's sign-in. Call it from the site's own sign-out."""
        await self.core.end_async(self._asked(request))
