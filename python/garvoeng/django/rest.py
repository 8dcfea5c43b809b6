"""The acts as views of Django REST framework, with the site's own authentication, throttles, renderers and exceptions.

    urlpatterns = [.., path("api/passkeys/", include("garvoeng.django.rest"))]

Permissions and throttles are those of `PasskeyView`, which a site may change. A site that issues tokens names in `GARVOENG["accounts"]` a
subclass of `DjangoAccounts` whose `signed_in` returns one.
"""
from __future__ import annotations

import json
from typing import Any

from django.urls import path
from rest_framework.parsers import BaseParser
from rest_framework.permissions import AllowAny
from rest_framework.response import Response
from rest_framework.views import APIView

from ..pages import FILES, MAX_BODY
from ..web import PATHS
from .views import answer_to, token, with_token

app_name = "garvoeng_rest"


class BodyParser(BaseParser):  # type: ignore[misc]
    """Leaves the body as it is, for the act to read: `request.data` has its bytes."""

    media_type = "application/json"

    def parse(self, stream: Any, media_type: Any = None, parser_context: Any = None) -> Any:
        return stream.read(MAX_BODY + 1)


class PasskeyView(APIView):  # type: ignore[misc]
    """One act of `garvoeng.web`, by its path."""

    permission_classes = [AllowAny]
    parser_classes = [BodyParser]
    path = ""

    def _answered(self, request: Any) -> Response:
        answer = answer_to(request._request, self.path, lambda _: request.data or b"")
        headers = {name: value for name, value in answer.lines() if name != "Content-Type"}
        return with_token(request._request, Response(json.loads(answer.body), answer.status, headers=headers))

    def get(self, request: Any) -> Response:
        return self._answered(request)

    def post(self, request: Any) -> Response:
        return self._answered(request)


urlpatterns = [path("token", token), *(path(act, PasskeyView.as_view(path=act)) for act in PATHS if act not in FILES)]
