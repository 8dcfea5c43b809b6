"""`SqlServer` over Django's own connection, so that each call is part of the transaction in which it is made, and the acts over it."""
from __future__ import annotations

from contextlib import contextmanager
from functools import lru_cache
from hashlib import sha256
from typing import Any, Iterator

from django.apps import apps
from django.conf import settings
from django.core.exceptions import ImproperlyConfigured
from django.core.signals import setting_changed
from django.db import connections, router, transaction
from django.utils.module_loading import import_string
from django.utils.translation import gettext

from ..limits import is_origin
from ..pages import FRESH, Limit, limit_of
from ..server import Server
from ..sql import LIFETIME, Rows, SqlServer
from ..web import MODELS, Passkeys

_OF_SERVER = ("profile", "top_origins", "accept_none", "accept_self")


def rows_of(connection: Any) -> Rows:
    """The rows of one of Django's connections."""
    if connection.vendor not in ("sqlite", "postgresql"):
        raise ImproperlyConfigured(f"garvoeng.django keeps passkeys in SQLite or PostgreSQL, and not in {connection.vendor}: "
                                   "let DATABASE_ROUTERS name such a database for the app garvoeng")
    return Rows(connection.cursor(), connection.vendor == "sqlite", "%s")


def database() -> str:
    """The alias of the database for the passkeys, by DATABASE_ROUTERS."""
    alias: str = router.db_for_write(apps.get_model("garvoeng", "Credential"))
    return alias


class DjangoServer(SqlServer):
    # A call is part of the view's transaction, and only that whole transaction could be repeated.
    tries = 1

    def __init__(self, server: Server, lifetime: int) -> None:
        super().__init__(server, lambda: connections[database()], lifetime=lifetime)

    @contextmanager
    def transaction(self, *, writes: bool = True) -> Iterator[Rows]:
        alias = database()
        with transaction.atomic(using=alias):
            rows = rows_of(connections[alias])
            if rows.is_sqlite and writes:
                # SQLite's lock is taken before anything is read, so that nobody writes in between.
                rows.run("update garvoeng_version set version = version")
            yield rows


@lru_cache(1)
def server() -> DjangoServer:
    """The relying party in the setting `GARVOENG`."""
    said = settings.GARVOENG
    more = {name: said[name] for name in _OF_SERVER if name in said}
    return DjangoServer(Server(said["rp_id"], said["origins"], said.get("rp_name"), **more), said.get("lifetime", LIFETIME))


@lru_cache(1)
def rate_limit() -> Limit:
    """The limit of requests in the setting `GARVOENG`."""
    return limit_of(settings.GARVOENG.get("rate_limit"))


@lru_cache(1)
def core() -> Passkeys:
    """The acts for the setting `GARVOENG`."""
    said = settings.GARVOENG
    accounts = import_string(said.get("accounts", "garvoeng.django.accounts.DjangoAccounts"))()
    # Before Django 4 these are hosts without a scheme; one may stand for many.
    trusted = [origin for origin in settings.CSRF_TRUSTED_ORIGINS if is_origin(origin)]
    return Passkeys(server(), accounts, secret=sha256(b"garvoeng.django " + str(settings.SECRET_KEY).encode()).digest(), fresh=said.get("fresh", FRESH),
                    signed_in_for=settings.SESSION_COOKIE_AGE, rate_limit=lambda address: rate_limit()(address), trusted_origins=trusted,
                    registration=said.get("registration"), sign_in=said.get("sign_in"), models=said.get("models", MODELS), translate=gettext)


def _forget(setting: str, **_: Any) -> None:
    if setting in ("GARVOENG", "SECRET_KEY", "CSRF_TRUSTED_ORIGINS", "SESSION_COOKIE_AGE"):
        for made in (server, rate_limit, core):
            made.cache_clear()


setting_changed.connect(_forget)
