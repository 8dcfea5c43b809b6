"""Passkeys for a site in Django: an app with models, URLs, a page and an authentication backend.

    INSTALLED_APPS = [.., "garvoeng.django"]
    MIDDLEWARE = [.., "django.contrib.auth.middleware.AuthenticationMiddleware", "garvoeng.django.middleware.PasskeyMiddleware"]
    AUTHENTICATION_BACKENDS = ["garvoeng.django.backends.PasskeyBackend", ..]
    GARVOENG = {"rp_id": "example.com", "origins": ["https://example.com"]}

    urlpatterns = [.., path("passkeys/", include("garvoeng.django.urls"))]

`GARVOENG` may have `rp_name`, `profile`, `top_origins`, `lifetime` (seconds that a session stays open), `fresh` (seconds after a sign-in in
which a passkey may be added to the account, 300 by default), `sign_up` (whether a visitor who is not signed in can make a user with a
passkey, true by default), `rate_limit`, `registration`, `sign_in` and `models`, as in `garvoeng.web`, and `accounts`, the name of a
subclass of `DjangoAccounts`.

The page is the template `garvoeng/passkeys.html`, which a site may replace; the script asks for Django's token, wherever the site's
settings keep it. Passkeys are in SQLite or PostgreSQL, in the database that DATABASE_ROUTERS selects. A refused passkey sends
`user_login_failed`. `garvoeng.django.visitors` is for views, and `garvoeng.django.rest` has the acts for Django REST framework.
"""
