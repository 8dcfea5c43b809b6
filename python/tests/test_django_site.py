"""`garvoeng.django` beside a site's own settings, users, templates, languages and admin."""
import json
import subprocess
import sys
from pathlib import Path

import pytest
from sites import DjangoSite, DjangoRestSite
from web_core import device, later, registered, signed_in

from garvoeng.forms import to_text

pytest.importorskip("django")
CASES = ("plain", "no migrations", "router", "cookie of another name", "cookie for http alone", "token in the session", "sessions in cookies",
         "users of the site's own", "Django's own middleware for tokens")


@pytest.mark.parametrize("case", CASES)
def test_settings(case, tmp_path):
    run = subprocess.run([sys.executable, str(Path(__file__).with_name("django_settings.py")), str(tmp_path), case], capture_output=True, text=True, timeout=600)
    assert run.returncode == 0, run.stderr[-3000:]
    said = json.loads(run.stdout)
    wanted = {"registered": 200, "signed in": 200, "handle": True, "listed": 1, "signed out": 200, "nobody": 401, "rows": 0,
              "badge": "7" if case == "users of the site's own" else None}
    assert {name: said[name] for name in wanted} == wanted
    if case == "router":
        assert (said["database"], said["tables"]) == ("keys", ["keys"])
    if case == "users of the site's own":
        assert {said[name] for name in ("without", "too long", "more", "name")} == {400}


def test_posts_without_a_token():
    """By both sets of addresses, though the body is JSON and no browser says that the page is another's."""
    from django.test import Client
    DjangoSite(None)
    for front in ("/passkeys/", "/api/passkeys/"):
        for path in ("sign-in/begin", "sign-out", "retire"):
            for token in ({}, {"HTTP_X_CSRFTOKEN": "x" * 64}):
                said = Client(enforce_csrf_checks=True).post(front + path, "{}", content_type="application/json", **token)
                assert said.status_code == 403 and "CSRF" in said.json()["error"], (front, path)


def test_names_that_are_no_users():
    """The model's validators are asked."""
    visitor = DjangoSite(None).visitor()
    for name in (" ", "alice ", "<b>", "x/../y", "a b"):
        assert visitor("register/begin", {"name": name})[0] == 400, name
    for name in ("ada", "ada@example.com", "\u00e9mile"):
        assert visitor("register/begin", {"name": name})[0] == 200, name


def test_a_refusal_is_djangos_too():
    """As of a wrong password, for what locks visitors out or watches; not of a registration."""
    from acts import flipped
    from django.contrib.auth.signals import user_login_failed
    site, key, heard = DjangoSite(None), device(), []
    hear = lambda sender, credentials, request, **_: heard.append((credentials, request.path))  # noqa: E731
    user_login_failed.connect(hear)
    visitor = site.visitor()
    assert visitor("register/begin", {"name": "ada"})[0] == 200 and visitor("register/finish", {**key.register({"challenge": "AA"})})[0] == 403
    assert heard == []
    registered(visitor, key)
    options = visitor("sign-in/begin", {})[1]
    assert visitor("sign-in/finish", flipped(key.sign_in(options, user=key.user)))[0] == 403
    assert heard == [({"passkey": to_text(key.id)}, "/passkeys/sign-in/finish")]
    from django.contrib.auth import get_user_model
    get_user_model().objects.update(is_active=False)
    assert signed_in(site.visitor(), key)[1] == (403, {"error": "the account may not sign in"}) and len(heard) == 2
    user_login_failed.disconnect(hear)


def test_other_backends_may_turn_away():
    """As django-axes does, which locks an address out."""
    from django.test import override_settings
    site, key = DjangoSite(None), device()
    registered(site.visitor(), key)
    ours = "garvoeng.django.backends.PasskeyBackend"
    with override_settings(AUTHENTICATION_BACKENDS=["test_django_site.Lock", ours]):
        visitor = site.visitor()
        assert signed_in(visitor, key)[1][0] == 403 and visitor("list")[0] == 401
    assert signed_in(site.visitor(), key)[1][0] == 200


class Lock:
    def authenticate(self, request, **credentials):
        from django.core.exceptions import PermissionDenied
        raise PermissionDenied


def test_step_up(monkeypatch):
    site, key = DjangoSite(None), device()
    from django.test import RequestFactory

    from garvoeng.django import visitors
    visitor = site.visitor()
    registered(visitor, key)

    def fresh(seconds):
        from django.contrib.auth import get_user
        from django.contrib.sessions.backends.db import SessionStore
        request = RequestFactory().get("/")
        request.session = SessionStore(visitor.jar.get("sessionid"))
        request.user = get_user(request)
        return visitors.fresh(request, seconds)

    assert fresh(60)
    later(monkeypatch, 100)
    assert not fresh(60) and fresh(200)
    assert signed_in(visitor, key)[1][0] == 200 and fresh(60)
    visitor("sign-out", {})
    assert not fresh(10**6)


def test_a_session_of_an_earlier_version():
    """A registration that it has open is none, and it is signed out as others are."""
    site, key = DjangoSite(None), device()
    from django.contrib.sessions.backends.db import SessionStore
    visitor = site.visitor()
    registered(visitor, key)
    session = SessionStore(visitor.jar["sessionid"])
    session["garvoeng_registration"] = ["0" * 32, "ada"]
    session.save()
    assert visitor("register/finish", device(b"late").register({"challenge": "AA"}))[1]["refusal"] == "G1"
    assert visitor("sign-out", {}) == (200, {}) and visitor("list")[0] == 401


def test_a_body_that_was_read():
    """By a middleware that reads it whole it is there; by one that takes the stream away it is told."""
    from django.test import override_settings
    from web_sites import MIDDLEWARE
    for hook, status in (("reads", 200), ("takes", 400)):
        with override_settings(MIDDLEWARE=[*MIDDLEWARE, f"test_django_site.{hook}"]):
            site, key = DjangoSite(None), device()
            said = registered(site.visitor(), key)
            assert said[0] == status
            said = DjangoRestSite(None).visitor()("sign-in/begin", {})
            assert said[0] == status


def reads(get_response):
    return lambda request: (request.body, get_response(request))[1]


def takes(get_response):
    return lambda request: (request.read(), get_response(request))[1]


def test_languages_and_templates(tmp_path):
    from django.conf import settings
    from django.test import override_settings
    visitor = DjangoSite(None).visitor()
    assert b"Register a passkey" in visitor("")[1]
    german = {"Accept-Language": "de"}
    page = visitor("", headers=german)[1].decode()
    assert "Passkey anlegen" in page and 'lang="de"' in page and "/passkeys/passkeys.js" in page
    assert visitor("list", headers=german) == (401, {"error": "niemand ist angemeldet"})
    (tmp_path / "garvoeng").mkdir()
    (tmp_path / "garvoeng" / "passkeys.html").write_text("the site's own")
    with override_settings(TEMPLATES=[{**settings.TEMPLATES[0], "DIRS": [str(tmp_path)]}]):
        assert visitor("")[1] == b"the site's own" and "default-src" in visitor.headers["content-security-policy"]
    with override_settings(TEMPLATES=[]):
        assert b"<!doctype html>" in visitor("")[1]


def test_admin():
    """An account's passkeys are seen and retired, and go with it."""
    from django.contrib.auth import get_user_model
    from django.test import Client, override_settings
    with override_settings(AUTHENTICATION_BACKENDS=["django.contrib.auth.backends.ModelBackend", "garvoeng.django.backends.PasskeyBackend"]):
        site, key = DjangoSite(None), device()
        visitor = site.visitor()
        registered(visitor, key)
        visitor("rename", {"id": to_text(key.id), "name": "the <b>blue</b> one"})
        get_user_model().objects.create_superuser("root", password="a password")
        client = Client()
        assert client.login(username="root", password="a password")
        account = get_user_model().objects.get(username="ada").garvoeng_account
        listed = client.get("/admin/garvoeng/account/?q=ada")
        assert listed.status_code == 200 and b"ada" in listed.content
        shown = client.get(f"/admin/garvoeng/account/{account.pk}/change/").content.decode()
        assert "the &lt;b&gt;blue&lt;/b&gt; one" in shown and client.get("/admin/garvoeng/account/add/").status_code == 403
        said = client.post("/admin/garvoeng/account/", {"action": "retire_all", "_selected_action": [account.pk]}, follow=True)
        assert b"1 passkeys were retired" in said.content
        assert [row.retired for row in site.server.rows(key.user)] == [True] and visitor("list")[0] == 401
        client.post(f"/admin/garvoeng/account/{account.pk}/delete/", {"post": "yes"})
        assert site.server.rows() == []


def test_another_database_is_told():
    from django.core.exceptions import ImproperlyConfigured

    from garvoeng.django.server import rows_of
    with pytest.raises(ImproperlyConfigured, match="SQLite or PostgreSQL, and not in mysql"):
        rows_of(type("Connection", (), {"vendor": "mysql"})())


def test_accounts_of_the_sites_own():
    from django.test import override_settings
    from web_core import ORIGIN
    site, key = DjangoSite(None), device()
    with override_settings(GARVOENG={"rp_id": "localhost", "origins": [ORIGIN], "accounts": "test_django_site.Invited", "rate_limit": False,
                                     "registration": {"user_verification": True}}):
        visitor = site.visitor()
        assert visitor("register/begin", {"name": "eve"})[0] == 403
        status, said = registered(visitor, key, "ada")
        assert (status, said["token"]) == (200, "token of ada")


def __getattr__(name):
    if name != "Invited":
        raise AttributeError(name)
    from garvoeng.django.accounts import DjangoAccounts

    class Invited(DjangoAccounts):
        def may_register(self, request, name, user):
            return name == "ada" and super().may_register(request, name, user)

        def signed_in(self, request, user, accepted):
            return {**super().signed_in(request, user, accepted), "token": f"token of {request.user}"}

    return Invited
