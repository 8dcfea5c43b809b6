"""The passkeys of each user in Django's admin, which can be looked at and retired."""
from __future__ import annotations

from datetime import datetime, timezone
from typing import Any, List, Optional

from django.contrib import admin
from django.contrib.auth import get_user_model
from django.utils.html import format_html_join
from django.utils.translation import gettext as _
from django.utils.translation import gettext_lazy

from ..web.models import model_of
from .models import Account
from .server import core, server


def _when(seconds: Optional[int]) -> Optional[datetime]:
    return None if seconds is None else datetime.fromtimestamp(seconds, timezone.utc)


@admin.register(Account)
class AccountAdmin(admin.ModelAdmin):  # type: ignore[misc]
    """An account's passkeys. They are deleted with the account, or its user."""

    list_display = ("user", "passkeys", "last_used")
    fields = readonly_fields = ("user", "listed")
    actions = ("retire_all",)

    def get_search_fields(self, request: Any) -> List[str]:
        return [f"user__{get_user_model().USERNAME_FIELD}"]

    def has_add_permission(self, request: Any) -> bool:
        return False

    def _rows(self, account: Any) -> Any:
        return server().rows(bytes(account.handle))

    @admin.display(description=gettext_lazy("passkeys"))
    def passkeys(self, account: Any) -> int:
        return sum(not row.retired for row in self._rows(account))

    @admin.display(description=gettext_lazy("last used"))
    def last_used(self, account: Any) -> Optional[datetime]:
        return _when(max((row.used_at for row in self._rows(account) if row.used_at is not None), default=None))

    @admin.display(description=gettext_lazy("passkeys"))
    def listed(self, account: Any) -> str:
        names = core().store.names(bytes(account.handle))
        lines = ((names.get(row.id) or model_of(row.aaguid, core().models) or row.id.hex()[:16], _when(row.created_at), _when(row.used_at) or "-",
                  _("retired") if row.retired else "") for row in self._rows(account))
        made: str = format_html_join("\n", "<p>{} {} {} {}</p>", lines)
        return made

    @admin.action(description=gettext_lazy("Retire all passkeys of the accounts"), permissions=["change"])
    def retire_all(self, request: Any, queryset: Any) -> None:
        retired = sum(server().retire_all(bytes(account.handle)) for account in queryset)
        self.message_user(request, _("%d passkeys were retired") % retired)
