"""`garvoeng.django`: its users, its settings and its transactions."""
import pytest
from web_core import ORIGIN, Later, device, later, signed_in
from web_sites import MIDDLEWARE, DjangoSite, adds_nothing, opened, registered

from garvoeng import RateLimit, Refused
from garvoeng.forms import from_text


def test_csrf_and_users_of_django():
    from django.contrib.auth import get_user_model
    from django.test import Client
    site = DjangoSite(None)
    assert Client(enforce_csrf_checks=True).post("/passkeys/sign-out", "{}", content_type="application/json").status_code == 403
    ada, key = site.visitor(), device()
    registered(ada, key, "ada")
    user = get_user_model().objects.get(username="ada")
    assert not user.has_usable_password() and bytes(user.garvoeng_account.handle) == key.user
    late, status = site.visitor(), site.visitor()("register/begin", {"name": "ada"})[0]
    assert status == 409
    _, options = late("register/begin", {"name": "bob"})
    get_user_model().objects.create_user("bob")
    assert late("register/finish", device(b"late").register(options))[0] == 409
    assert site.server.rows(from_text(options["user"]["id"], "user")) == [] and late("list")[0] == 401
    made = device(b"second").register(ada("register/begin", {"name": "ada"})[1])
    get_user_model().objects.filter(username="ada").update(is_active=False)
    assert ada("register/finish", made)[1]["refusal"] == "G1" and len(site.server.rows(key.user)) == 1
    other = site.visitor()
    assert signed_in(other, key)[1][0] == 403 and other("list")[0] == 401
    get_user_model().objects.filter(username="ada").delete()
    assert signed_in(other, key)[1][0] == 403 and other("list")[0] == 401


def test_django_limits_requests():
    """By default, by the address that Django has; never where the setting says False."""
    from django.test import override_settings

    from garvoeng.django.server import rate_limit
    site = DjangoSite(None)
    ask = site.visitor()
    rate_limit.cache_clear()
    assert (rate_limit().rate, rate_limit().burst) == (5, 50)
    rate_limit()._clock = lambda: 0.0
    assert [ask("sign-in/begin", {}, REMOTE_ADDR="192.0.2.1")[0] for _ in range(60)] == [200] * 50 + [429] * 10
    said = ask.client.post("/passkeys/sign-in/begin", "{}", content_type="application/json", HTTP_X_CSRFTOKEN=ask.client.cookies["csrftoken"].value,
                           REMOTE_ADDR="192.0.2.1")
    assert (said.status_code, said["Retry-After"], said.json()) == (429, "1", {"error": "too many requests: try again later"})
    assert ask("sign-in/begin", {}, REMOTE_ADDR="192.0.2.2")[0] == ask("sign-in/begin", {})[0] == 200
    with override_settings(GARVOENG={"rp_id": "localhost", "origins": [ORIGIN], "rate_limit": False}):
        assert {ask("sign-in/begin", {}, REMOTE_ADDR="192.0.2.1")[0] for _ in range(60)} == {200}
    with override_settings(GARVOENG={"rp_id": "localhost", "origins": [ORIGIN], "rate_limit": RateLimit(1e-9, 1)}):
        assert [ask("sign-in/begin", {}, REMOTE_ADDR="192.0.2.1")[0] for _ in range(2)] == [200, 429]
    rate_limit.cache_clear()


def test_what_a_log_in_and_a_log_out_of_djangos_end():
    """What the visitor has open, a sign-in too, though Django empties his session by itself."""
    from django.contrib.auth import get_user_model
    site, key = DjangoSite(None), device()
    visitor = site.visitor()
    registered(visitor, key)
    user = get_user_model().objects.get(username="ada")
    for change in (visitor.client.logout, lambda: visitor.client.force_login(user, "garvoeng.django.backends.PasskeyBackend")):
        visitor.client.get("/passkeys/")
        assert signed_in(visitor, key)[1][0] == 200
        opened(visitor, key)
        before = site.run("select data from garvoeng_session")
        assert len(before) == 3
        change()
        assert site.run("select data from garvoeng_session") == []


def test_no_sign_up_in_django():
    from django.test import override_settings
    site = DjangoSite(None)
    with override_settings(GARVOENG={"rp_id": "localhost", "origins": [ORIGIN], "sign_up": False}):
        assert site.visitor()("register/begin", {"name": "ada"})[0] == 401
    with override_settings(GARVOENG={"rp_id": "other.com", "origins": ["https://other.com"], "rp_name": "Other"}):
        assert site.visitor()("register/begin", {"name": "ada"})[1]["rp"] == {"id": "other.com", "name": "Other"}


def test_a_call_of_django_is_of_its_transaction():
    """What is rolled back around a call is rolled back with it."""
    from django.db import transaction
    site = DjangoSite(None)
    key = device()
    options, session = site.server.register_begin(b"account 7", "name")
    with pytest.raises(KeyError), transaction.atomic():
        site.server.register_complete(session, key.register(options))
        raise KeyError
    assert site.server.rows() == []
    site.server.register_complete(session, key.register(options))
    assert len(site.server.rows()) == 1
    with pytest.raises(Refused):
        site.server.register_complete(session, key.register(options))


def test_a_length_that_is_no_number():
    visitor = DjangoSite(None).visitor()
    for length in ("abc", "-1", "1e3", "9" * 5_000, "\u0663"):
        assert visitor("sign-out", {}, CONTENT_LENGTH=length)[0] == 400
    assert visitor("sign-out", {})[0] == 200


def with_password(site, name="bob"):
    from django.contrib.auth import get_user_model
    user = get_user_model().objects.create_user(name, password="a password")
    visitor = site.visitor()
    assert visitor.client.login(username=name, password="a password")
    return user, visitor


@pytest.fixture
def passwords():
    from django.test import override_settings
    with override_settings(AUTHENTICATION_BACKENDS=["django.contrib.auth.backends.ModelBackend", "garvoeng.django.backends.PasskeyBackend"]):
        yield


def test_a_user_with_a_password(passwords, monkeypatch):
    """A fresh sign-in by it adds a passkey; what it began ends with it, and it outlives the passkey."""
    from garvoeng.django import sign_ins
    site, key = DjangoSite(None), device()
    user, visitor = with_password(site)
    assert registered(visitor, key)[0] == 200 and bytes(user.garvoeng_account.handle) == key.user
    made = device(b"late").register(visitor("register/begin", {"name": "x"})[1])
    thief = visitor.copied()
    visitor.client.logout()
    adds_nothing(site, thief, key, made, 1)
    visitor.client.login(username="bob", password="a password")
    visitor.client.get("/passkeys/")
    assert site.server.retire(key.id) and visitor("list")[0] == 200 and visitor.who() == "bob"
    monkeypatch.setattr(sign_ins, "time", Later(310))
    later(monkeypatch, 310)
    assert visitor("register/begin", {"name": "x"})[0] == 401
    monkeypatch.undo()
    stranger = site.visitor()
    _, options = stranger("register/begin", {"name": "carl"})
    assert stranger.client.login(username="bob", password="a password")
    assert stranger("register/finish", device(b"carl").register(options))[1]["refusal"] == "G1" and len(site.server.rows()) == 1


def test_cookies_that_hold_the_session():
    """By Django's sessions in signed cookies, which nobody can take back, a kept one does not sign in either."""
    from django.test import override_settings
    site, key = DjangoSite(None), device()
    with override_settings(SESSION_ENGINE="django.contrib.sessions.backends.signed_cookies"):
        visitor = site.visitor()
        registered(visitor, key)
        made, _ = opened(visitor, key)
        thief = visitor.copied()
        assert thief("list")[0] == 200
        visitor("sign-out", {})
        adds_nothing(site, thief, key, made, 1)


def test_users_that_are_deleted():
    from django.contrib.auth import get_user_model
    site, key = DjangoSite(None), device()
    visitor, eve = site.visitor(), site.visitor()
    registered(visitor, key)
    registered(eve, device(b"eve"), "eve")
    get_user_model().objects.get(username="ada").delete()
    assert site.server.rows(key.user) == [] and visitor("list")[0] == 401 and len(site.server.rows()) == 1 and eve("list")[0] == 200


def test_the_middleware_is_asked_for():
    from django.apps import apps
    from django.core.exceptions import ImproperlyConfigured
    from django.test import override_settings
    for middleware in (MIDDLEWARE[:2], [], MIDDLEWARE[::-1]):
        with override_settings(MIDDLEWARE=middleware), pytest.raises(ImproperlyConfigured, match="PasskeyMiddleware after django"):
            apps.get_app_config("garvoeng").ready()
    with override_settings(MIDDLEWARE=[], AUTHENTICATION_BACKENDS=["django.contrib.auth.backends.ModelBackend"]):
        apps.get_app_config("garvoeng").ready()
    apps.get_app_config("garvoeng").ready()
