"""The views of the app."""
from __future__ import annotations

from contextlib import nullcontext
from typing import Any, Dict

from django.conf import settings
from django.db import transaction
from django.http import HttpResponse, JsonResponse
from django.http.request import RawPostDataException, UnreadablePostError
from django.middleware.csrf import CsrfViewMiddleware, get_token
from django.template import TemplateDoesNotExist
from django.template.loader import render_to_string
from django.views.decorators.csrf import csrf_exempt, ensure_csrf_cookie
from django.views.decorators.http import require_GET

from ..errors import BadInput
from ..web import Answer, Denied, Request
from .server import core, database
from .sign_ins import KEYS, Kept

TEMPLATE = "garvoeng/passkeys.html"


class _Token(CsrfViewMiddleware):
    """Django's own check of a post's token, which answers why it is not valid."""

    def _reject(self, request: Any, reason: str) -> str:  # type: ignore[override]
        return reason


def check_token(request: Any) -> None:
    """Checks Django's token in a post."""
    check = _Token(lambda _: HttpResponse())
    check.process_request(request)
    reason = check.process_view(request, None, (), {})
    if reason:
        raise Denied(str(reason))


def body_of(request: Any) -> Any:
    """The body of a post."""
    try:
        return request.body
    except (RawPostDataException, UnreadablePostError):
        raise BadInput("the body did not come, or was read before") from None


def answer_to(request: Any, path: str, read: Any = body_of) -> Answer:
    """Answers with the result of an act; the visitor's session has what the cookies would have. A registration and its user are one
    transaction."""
    def posted(_: int) -> Any:
        check_token(request)
        request.garvoeng_body = read(request)
        return request.garvoeng_body

    asked = Request(request.method, path, request.headers, Kept(request.session), posted, request.META.get("REMOTE_ADDR"), request)
    with transaction.atomic(using=database()) if path == "register/finish" else nullcontext():
        answer = core().answer(asked)
    for name, value in answer.cookies.items():
        if value is None:
            request.session.pop(KEYS[name], None)
        else:
            request.session[KEYS[name]] = value
    answer.cookies = {}
    return answer


def with_token(request: Any, response: Any) -> Any:
    """The response with the token's cookie, if a sign-in changed it."""
    return _Token(lambda _: HttpResponse()).process_response(request, response)


@csrf_exempt
def act(request: Any, path: str) -> HttpResponse:
    answer = answer_to(request, path)
    response = HttpResponse(answer.body, status=answer.status)
    for name, value in answer.lines():
        response[name] = value
    return with_token(request, response)  # type: ignore[no-any-return]


@require_GET
@ensure_csrf_cookie
def page(request: Any, path: str = "") -> HttpResponse:
    """A file, or the page from the site's template."""
    response = act(request, path)
    if path == "":
        try:
            response.content = render_to_string(TEMPLATE, {}, request)
        except TemplateDoesNotExist:
            pass
    return response


@require_GET
@ensure_csrf_cookie
def token(request: Any) -> JsonResponse:
    """Django's token for the script, wherever the site keeps it."""
    made: Dict[str, str] = {"header": settings.CSRF_HEADER_NAME[len("HTTP_"):].replace("_", "-"), "token": get_token(request)}
    return JsonResponse(made, headers={"Cache-Control": "no-store"})
