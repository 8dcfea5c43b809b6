"""Sign-ins that end with their passkeys."""
from __future__ import annotations

from typing import Any

from django.contrib.auth import logout
from django.utils.deprecation import MiddlewareMixin

from .sign_ins import is_signed_in


class PasskeyMiddleware(MiddlewareMixin):
    """Signs out a visitor whose passkey was retired or deleted since the sign-in, or whose sign-in was ended. It has to come after
    AuthenticationMiddleware."""

    def process_request(self, request: Any) -> None:
        if not is_signed_in(request):
            logout(request)
