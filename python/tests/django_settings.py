"""A site in Django with settings of its own, in a process of its own: django_settings.py FOLDER CASE. Prints what happened as JSON."""
import json
import sys
from pathlib import Path

sys.path.insert(0, str(Path(__file__).parent))
folder, case = Path(sys.argv[1]), sys.argv[2]
ORIGIN = "http://localhost:8000"


class Router:
    """Passkeys are in a database of their own, and whose they are beside the users."""

    def _of(self, app_label, model_name):
        return "keys" if (app_label, model_name) == ("garvoeng", "credential") else "default"

    def db_for_read(self, model, **hints):
        return self._of(model._meta.app_label, model._meta.model_name)

    db_for_write = db_for_read

    def allow_relation(self, one, other, **hints):
        return True

    def allow_migrate(self, db, app_label, model_name=None, **hints):
        return db == self._of(app_label, model_name)


CASES = {
    "plain": {},
    "no migrations": {"MIGRATION_MODULES": {"garvoeng": None}},
    "router": {"DATABASE_ROUTERS": ["__main__.Router"]},
    "cookie of another name": {"CSRF_COOKIE_NAME": "xyz", "CSRF_HEADER_NAME": "HTTP_X_XYZ"},
    "cookie for http alone": {"CSRF_COOKIE_HTTPONLY": True},
    "token in the session": {"CSRF_USE_SESSIONS": True},
    "sessions in cookies": {"SESSION_ENGINE": "django.contrib.sessions.backends.signed_cookies"},
    "users of the site's own": {"AUTH_USER_MODEL": "django_users.Member"},
    "Django's own middleware for tokens": {"MIDDLEWARE": ["django.middleware.csrf.CsrfViewMiddleware"]},
}


def configured():
    import django
    from django.conf import settings
    more = dict(CASES[case])
    if more.get("DATABASE_ROUTERS"):
        sys.modules["__main__"].Router = Router
    settings.configure(
        SECRET_KEY="secret", ALLOWED_HOSTS=["testserver"], ROOT_URLCONF="django_urls",
        DATABASES={name: {"ENGINE": "django.db.backends.sqlite3", "NAME": f"{folder}/{name}.sqlite"} for name in ("default", "keys")},
        INSTALLED_APPS=["django.contrib.auth", "django.contrib.contenttypes", "django.contrib.sessions", "garvoeng.django", "django_users"],
        MIDDLEWARE=["django.contrib.sessions.middleware.SessionMiddleware", *more.pop("MIDDLEWARE", []),
                    "django.contrib.auth.middleware.AuthenticationMiddleware", "garvoeng.django.middleware.PasskeyMiddleware"],
        AUTHENTICATION_BACKENDS=["garvoeng.django.backends.PasskeyBackend"], GARVOENG={"rp_id": "localhost", "origins": [ORIGIN]}, **more)
    django.setup()
    from django.core.management import call_command
    call_command("check", verbosity=0)
    for alias in ("default", "keys"):
        call_command("migrate", database=alias, run_syncdb=True, verbosity=0)


def visited():
    from acts import kept_after_sign_out
    from django.contrib.auth import get_user_model
    from django.db import connections
    from sites import DjangoSite
    from web_core import device, registered, signed_in

    from garvoeng.django.server import database, server

    class Here(DjangoSite):
        def __init__(self):
            self.server = server()

    site, key = Here(), device()
    visitor = site.visitor()
    said = {}
    if case == "users of the site's own":
        said["without"] = visitor("register/begin", {"name": "ada"})[0]
        said["too long"] = visitor("register/begin", {"name": "ada", "fields": {"badge": "0123456789"}})[0]
        said["more"] = visitor("register/begin", {"name": "ada", "fields": {"badge": "7", "is_active": True}})[0]
        said["name"] = visitor("register/begin", {"name": "Ada Lovelace", "fields": {"badge": "7"}})[0]
        ask = visitor
        visitor = lambda path, body=None, **more: ask(path, {**body, "fields": {"badge": "7"}} if path == "register/begin" else body, **more)  # noqa: E731
        visitor.jar = ask.jar
    status, made = registered(visitor, key)
    said["registered"], said["signed in"] = status, signed_in(visitor, key)[1][0]
    user = get_user_model().objects.get(**{get_user_model().USERNAME_FIELD: "ada"})
    said["badge"] = getattr(user, "badge", None)
    said["handle"] = bytes(user.garvoeng_account.handle) == key.user
    said["database"] = database()
    said["tables"] = [alias for alias in ("default", "keys") if "garvoeng_credential" in connections[alias].introspection.table_names()]
    said["listed"] = len(visitor("list")[1])
    said["signed out"] = visitor("sign-out", {})[0]
    said["nobody"] = visitor("list")[0]
    user.delete()
    said["rows"] = len(server().rows())
    if case in ("sessions in cookies", "cookie for http alone"):
        kept_after_sign_out(site)
    return said


configured()
print(json.dumps(visited()))
