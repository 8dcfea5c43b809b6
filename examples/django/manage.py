"""A site in Django whose users sign in with passkeys: python manage.py migrate, then python manage.py runserver localhost:8000"""
import os
import sys
import django
from django.conf import settings
from django.core.management import execute_from_command_line
from django.http import HttpResponse
from django.urls import include, path
from django.utils.html import format_html

settings.configure(
    DEBUG=True, SECRET_KEY=os.environ.get("SECRET", "a secret of your own"), ALLOWED_HOSTS=["localhost"], ROOT_URLCONF="__main__",
    DATABASES={"default": {"ENGINE": "django.db.backends.sqlite3", "NAME": "site.sqlite"}},
    INSTALLED_APPS=["django.contrib.auth", "django.contrib.contenttypes", "django.contrib.sessions", "garvoeng.django"],
    MIDDLEWARE=["django.contrib.sessions.middleware.SessionMiddleware", "django.contrib.auth.middleware.AuthenticationMiddleware",
                "garvoeng.django.middleware.PasskeyMiddleware"],
    AUTHENTICATION_BACKENDS=["garvoeng.django.backends.PasskeyBackend"], GARVOENG={"rp_id": "localhost", "origins": ["http://localhost:8000"]})
django.setup()
home = "<p>{} <a href='/passkeys/'>passkeys</a></p>"
urlpatterns = [path("", lambda request: HttpResponse(format_html(home, request.user))), path("passkeys/", include("garvoeng.django.urls"))]
execute_from_command_line(sys.argv)
