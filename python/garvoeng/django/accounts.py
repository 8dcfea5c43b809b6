"""The users of Django, in the form that the acts use. To change something, a site names a class of its own in `GARVOENG["accounts"]`."""
from __future__ import annotations

from typing import Any, Dict, List, Mapping, Optional

from django.conf import settings
from django.contrib.auth import authenticate, get_user_model, login, logout
from django.contrib.auth.signals import user_login_failed
from django.core.exceptions import ValidationError
from django.db import IntegrityError, router, transaction
from django.utils.translation import gettext as _

from ..errors import BadInput, Refused
from ..web import Accounts, Denied, Visitor
from ..web.requests import object_in
from .models import Account
from .sign_ins import AT, FIELDS, handle_of


def _said(request: Any) -> Dict[str, Any]:
    """What the page sent. It has already been read, as JSON."""
    return object_in(getattr(request, "garvoeng_body", b"{}"))


def required_fields() -> List[str]:
    """The user model's REQUIRED_FIELDS that may not be empty: the page sends them as `fields` when somebody makes an account."""
    model = get_user_model()
    return [name for name in model.REQUIRED_FIELDS if not model._meta.get_field(name).blank]


def _clean(name: str, value: Any) -> Any:
    """A field's value, after its validators."""
    field = get_user_model()._meta.get_field(name)
    if not isinstance(value, (str, int, bool, type(None))):
        raise BadInput(f"{name} is a text")
    try:
        return field.clean(value, None)
    except ValidationError as error:
        raise BadInput(f"{name}: {' '.join(error.messages)}") from None


class DjangoAccounts(Accounts):
    """The site's users. `request` is Django's."""

    def user_of(self, request: Any) -> Optional[Visitor]:
        if not request.user.is_authenticated:
            return None
        return Visitor(handle_of(request.user), request.user.get_username(), request.session.get(AT))

    def may_register(self, request: Any, name: str, user: Optional[bytes]) -> bool:
        """For a new account, the name and the `fields` must pass the model's validators, and no user may have the name."""
        if user is not None:
            return True
        if not settings.GARVOENG.get("sign_up", True):
            raise Denied(_("nobody is signed in"), 401)
        model = get_user_model()
        if _clean(model.USERNAME_FIELD, name) != model.normalize_username(name):
            raise BadInput("the name is no user's")
        fields = _said(request).get("fields", {})
        if not isinstance(fields, dict) or set(fields) - set(model.REQUIRED_FIELDS):
            raise BadInput("fields has what the user model's REQUIRED_FIELDS name, and nothing else")
        named = [*required_fields(), *(name for name in fields if name not in required_fields())]
        cleaned = {one: _clean(one, fields.get(one)) for one in named}
        request.session.pop(FIELDS, None)
        if cleaned:
            request.session[FIELDS] = cleaned
        if model._default_manager.filter(**{model.USERNAME_FIELD: name}).exists():
            raise Denied(_("the name is another account's"), 409)
        return True

    def make(self, request: Any, name: str, fields: Mapping[str, Any]) -> Any:
        """Makes a user without a password."""
        model = get_user_model()
        return model._default_manager.create_user(**{model.USERNAME_FIELD: name}, **fields)

    def create(self, request: Any, name: str, user: bytes) -> None:
        try:
            with transaction.atomic(using=router.db_for_write(get_user_model())), transaction.atomic(using=router.db_for_write(Account)):
                made = self.make(request, name, request.session.pop(FIELDS, {}))
                Account.objects.create(user=made, handle=user)
        except IntegrityError:
            raise Denied(_("the name is another account's"), 409) from None

    def signed_in(self, request: Any, user: bytes, accepted: Any) -> Mapping[str, Any]:
        """Signs in through all backends, any of which may turn the visitor away."""
        found = authenticate(request, passkey_accepted=accepted)
        if found is None:
            raise Denied(_("the account may not sign in"))
        login(request, found)
        return {"user": found.get_username()}

    def signed_out(self, request: Any) -> None:
        logout(request)

    def refused(self, request: Any, error: Exception) -> None:
        """A refused sign-in sends Django's signal, like a wrong password."""
        if isinstance(error, Refused) and not error.is_registration:
            user_login_failed.send(sender=__name__, credentials={"passkey": str(_said(request).get("id"))[:100]}, request=request)
