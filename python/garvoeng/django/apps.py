from django.apps import AppConfig
from django.conf import settings
from django.core.exceptions import ImproperlyConfigured

_AFTER, _MIDDLEWARE = "django.contrib.auth.middleware.AuthenticationMiddleware", "garvoeng.django.middleware.PasskeyMiddleware"


def _made(sender, using, **_):
    """Makes the tables if no migration does: with MIGRATION_MODULES None, as with pytest-django's --nomigrations."""
    from django.db import connections, router, transaction

    from .server import rows_of
    if router.allow_migrate(using, "garvoeng", model_name="credential"):
        with transaction.atomic(using=using):
            rows_of(connections[using]).prepare()


class GarvoengConfig(AppConfig):
    name = "garvoeng.django"
    label = "garvoeng"
    verbose_name = "Passkeys"
    default_auto_field = "django.db.models.BigAutoField"

    def ready(self):
        from django.contrib.auth.signals import user_logged_in, user_logged_out
        from django.db.models.signals import post_delete, post_migrate

        from . import sign_ins
        behind = "\n".join(settings.MIDDLEWARE).partition(_AFTER)[2]
        if sign_ins.BACKEND in settings.AUTHENTICATION_BACKENDS and _MIDDLEWARE not in behind.split("\n"):
            raise ImproperlyConfigured(f"MIDDLEWARE has {_MIDDLEWARE} after {_AFTER}: without it a cookie outlives its passkey")
        user_logged_in.connect(sign_ins.logged_in, dispatch_uid="garvoeng")
        user_logged_out.connect(sign_ins.logged_out, dispatch_uid="garvoeng")
        post_delete.connect(sign_ins.account_deleted, sender="garvoeng.Account", dispatch_uid="garvoeng")
        post_migrate.connect(_made, sender=self, dispatch_uid="garvoeng")
