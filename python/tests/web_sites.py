"""Sites in Flask and in Django with `garvoeng`, and their visitors, by the test clients of both."""
import json
import sqlite3
import tempfile
from contextlib import closing
from http.cookies import SimpleCookie

import pytest
from web_core import ORIGIN, device

from garvoeng import Server
from garvoeng.forms import from_text
from garvoeng.sql import SqlServer

flask = pytest.importorskip("flask")
django = pytest.importorskip("django")
MIDDLEWARE = ["django.contrib.sessions.middleware.SessionMiddleware", "django.contrib.auth.middleware.AuthenticationMiddleware",
              "garvoeng.django.middleware.PasskeyMiddleware", "django.contrib.messages.middleware.MessageMiddleware",
              "django.middleware.locale.LocaleMiddleware"]


def posted(client, jar, path, data, content_type="application/json", **more):
    """Flask's test client without its own cookies: those of a dict are sent, and what is set is kept there."""
    said = client.open(path, method="GET" if data is None else "POST", data=data, content_type=content_type,
                       headers={"Cookie": "; ".join(f"{name}={value}" for name, value in jar.items())}, **more)
    for line in said.headers.getlist("Set-Cookie"):
        [(name, morsel)] = SimpleCookie(line).items()
        if morsel.value:
            jar[name] = morsel.value
        else:
            jar.pop(name, None)
    return said


class FlaskSite:
    def __init__(self, folder, origins=(ORIGIN,), **how):
        from garvoeng.flask import passkeys, signed_in
        self.file = str(folder / "site.sqlite")
        self.server = SqlServer(Server("localhost", origins), lambda: sqlite3.connect(self.file, timeout=30))
        self.server.prepare()
        self.app = flask.Flask("site")
        self.app.register_blueprint(passkeys(self.server, **how), url_prefix="/passkeys")
        self.app.get("/who")(lambda: flask.jsonify((signed_in() or b"").hex()))

    def visitor(self, cookies=()):
        client, jar = self.app.test_client(use_cookies=False), dict(cookies)

        def ask(path, body=None, content_type="application/json", raw=None, **more):
            data = raw if raw is not None else None if body is None else json.dumps(body)
            said = posted(client, jar, f"/passkeys/{path}", data, content_type, **more)
            ask.cookies = said.headers.getlist("Set-Cookie")
            return said.status_code, said.get_json() if said.is_json else said.get_data()

        ask.kept = lambda: {name.replace("__Host-", "") for name in jar}
        ask.jar = jar
        ask.copied = lambda: self.visitor(jar)
        ask.who = lambda: posted(client, jar, "/who", None).get_json()
        return ask

    def run(self, statement):
        with closing(sqlite3.connect(self.file)) as connection, connection:
            return connection.execute(statement).fetchall()


class DjangoSite:
    def __init__(self, folder):
        from garvoeng.django.server import server
        from django.core.management import call_command
        from django.db import connection
        call_command("flush", interactive=False, verbosity=0)
        with connection.cursor() as cursor:
            for table in ("credential", "session"):
                cursor.execute(f"delete from garvoeng_{table}")
        self.server = server()

    def visitor(self, cookies=None):
        from django.test import Client
        client = Client(enforce_csrf_checks=True)
        if cookies is not None:
            client.cookies = SimpleCookie(cookies.output(header=""))
        client.get("/passkeys/")

        def ask(path, body=None, content_type="application/json", raw=None, **more):
            if body is None and raw is None:
                said = client.get(f"/passkeys/{path}")
            else:
                token = client.cookies["csrftoken"].value
                said = client.post(f"/passkeys/{path}", json.dumps(body) if raw is None else raw, content_type=content_type,
                                   HTTP_X_CSRFTOKEN=token, **more)
            is_json = said["Content-Type"] == "application/json"
            return said.status_code, json.loads(said.content) if is_json else said.content

        ask.kept = lambda: {name for name in client.session.keys() if name.startswith("garvoeng")}
        ask.client = client
        ask.copied = lambda: self.visitor(client.cookies)
        ask.who = lambda: client.get("/who").content.decode()
        return ask

    def run(self, statement):
        from django.db import connection
        with connection.cursor() as cursor:
            cursor.execute(statement)
            return cursor.fetchall() if statement.startswith("select") else []


def configured(folder):
    """Django's settings, which a process has once."""
    from django.conf import settings
    settings.configure(
        SECRET_KEY="secret", ALLOWED_HOSTS=["testserver"], ROOT_URLCONF="django_urls", USE_TZ=True,
        TEMPLATES=[{"BACKEND": "django.template.backends.django.DjangoTemplates", "APP_DIRS": True, "OPTIONS": {"context_processors": [
            "django.template.context_processors.request", "django.contrib.auth.context_processors.auth",
            "django.contrib.messages.context_processors.messages"]}}],
        DATABASES={"default": {"ENGINE": "django.db.backends.sqlite3", "NAME": f"{folder}/site.sqlite"}},
        INSTALLED_APPS=["django.contrib.admin", "django.contrib.messages", "django.contrib.auth", "django.contrib.contenttypes",
                        "django.contrib.sessions", "garvoeng.django"],
        MIDDLEWARE=MIDDLEWARE,
        AUTHENTICATION_BACKENDS=["garvoeng.django.backends.PasskeyBackend"], GARVOENG={"rp_id": "localhost", "origins": [ORIGIN]})
    django.setup()
    from django.core.management import call_command
    call_command("migrate", verbosity=0)


@pytest.fixture(params=[FlaskSite, DjangoSite])
def site(request, tmp_path):
    return request.param(tmp_path)


def registered(visitor, key, name="ada"):
    status, options = visitor("register/begin", {"name": name})
    assert status == 200, options
    key.user = from_text(options["user"]["id"], "user")
    return visitor("register/finish", key.register(options))


def opened(visitor, key):
    """The visitor's open registration and sign-in, and responses to both."""
    status, options = visitor("register/begin", {"name": "ada"})
    assert status == 200, options
    made = device(b"a thief's").register(options)
    return made, key.sign_in(visitor("sign-in/begin", {})[1], user=key.user)


def adds_nothing(site, visitor, key, made, count):
    """Whoever has these cookies is nobody, and what was begun is not finished."""
    assert visitor("list")[0] == 401 and visitor.who() in ("", "AnonymousUser")
    status, said = visitor("register/finish", made)
    assert (status, said["refusal"]) == (403, "G1")
    assert len(site.server.rows(key.user)) == count and visitor("list")[0] == 401


FOLDER = tempfile.TemporaryDirectory()
configured(FOLDER.name)
