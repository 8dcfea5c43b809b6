"""Users signing in by passkey."""
from __future__ import annotations

from typing import Any, Mapping, Optional, Union

from django.contrib.auth.backends import ModelBackend

from ..records import Registered, SignedIn
from .models import Account
from .server import server


class PasskeyBackend(ModelBackend):
    """`authenticate(request, passkey_session=.., passkey=..)` returns the user of an AuthenticationResponseJSON, if the user may sign in,
    stores the counter, and closes the session. Raises `Refused` and `BadInput`. `passkey_accepted` is a result that was accepted already.
    The backend takes no passwords."""

    def authenticate(self, request: Any, passkey_session: Optional[str] = None, passkey: Optional[Mapping[str, Any]] = None,
                     passkey_accepted: Union[SignedIn, Registered, None] = None, **_: Any) -> Any:
        if passkey is None and not isinstance(passkey_accepted, (SignedIn, Registered)):
            return None
        credential = (passkey_accepted or server().authenticate_complete(passkey_session, passkey)).credential
        account = Account.objects.select_related("user").filter(handle=credential.user).first()
        if account is None or not self.user_can_authenticate(account.user):
            return None
        if passkey_accepted is None:
            # `login` uses it to know with which passkey the sign-in ends; the acts keep that themselves.
            account.user.garvoeng_credential = credential.id
        return account.user
