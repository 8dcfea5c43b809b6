"""Passkeys for a site in Starlette or FastAPI: an application to mount, with a page and the requests that the page makes (`garvoeng.web`).

    passkeys = Passkeys(server)
    app.mount("/passkeys", passkeys)

`await passkeys.signed_in(request)` then returns the visitor's user handle, or None. It can also be a dependency in FastAPI: `user: bytes |
None = Depends(passkeys.signed_in)`.
"""
from __future__ import annotations

import asyncio
from typing import Any, Optional

from starlette.requests import ClientDisconnect, HTTPConnection, Request
from starlette.responses import Response

from . import web
from .errors import BadInput

_SECONDS = 30
"""Seconds that a body may take."""


async def _body(request: Request, most: int) -> bytes:
    body = b""
    async for part in request.stream():
        body += part
        if len(body) >= most:
            break
    return body


class Passkeys:
    """The acts of `garvoeng.web` as an ASGI application. `server`, `accounts` and `how` are as in `garvoeng.web.Passkeys`; the functions of
    `Accounts` get Starlette's request and may be `async`. The visitor's address is the one that the web server reports (`--proxy-headers`
    of uvicorn)."""

    def __init__(self, server: Any, accounts: Any = None, **how: Any) -> None:
        self.core = web.Passkeys(server, accounts, **how)

    def _asked(self, request: HTTPConnection, method: str = "GET", path: str = "") -> web.Request:
        async def read(most: int) -> bytes:
            assert isinstance(request, Request)
            try:
                return await asyncio.wait_for(_body(request, most), _SECONDS)
            except (asyncio.TimeoutError, ClientDisconnect, RuntimeError):
                raise BadInput("the body did not come, or was read before") from None

        return web.Request(method, path, request.headers, request.cookies, read, request.client.host if request.client else None, request)

    async def __call__(self, scope: Any, receive: Any, send: Any) -> None:
        """Answers a request."""
        if scope["type"] != "http":
            raise RuntimeError(f"garvoeng.starlette answers http, and not {scope['type']}")
        path = scope["path"]
        # From version 0.33 on, Starlette cuts the front off by `root_path`.
        root = scope.get("root_path", "")
        path = path[len(root):] if root and path.startswith(root + "/") else path
        answer = await self.core.answer_async(self._asked(Request(scope, receive), scope["method"], path.lstrip("/")))
        response = Response(answer.body, answer.status)
        for name, value in answer.lines():
            response.headers.append(name, value)
        await response(scope, receive, send)

    async def visitor(self, request: HTTPConnection) -> Optional[web.Visitor]:
        """The visitor who is signed in, or None. Check `visitor.is_fresh(300)` before a sensitive act."""
        return await self.core.visitor_async(self._asked(request))

    async def signed_in(self, request: HTTPConnection) -> Optional[bytes]:
        """The visitor's user handle, or None."""
        found = await self.visitor(request)
        return None if found is None else found.user

    async def end(self, request: HTTPConnection) -> None:
        """Ends the visitor's sign-in. Call it from the site's own sign-out."""
        await self.core.end_async(self._asked(request))
