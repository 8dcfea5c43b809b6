from django.urls import path

from ..pages import FILES
from ..web import PATHS
from . import views

app_name = "garvoeng"
urlpatterns = [
    path("", views.page, name="page"),
    path("passkeys.js", views.page, {"path": "passkeys.js"}, name="script"),
    *(path(name, views.page, {"path": name}) for name in ("browser.js", "page.js")),
    path("token", views.token, name="token"),
    *(path(act, views.act, {"path": act}, name=act.replace("/", "_").replace("-", "_")) for act in PATHS if act not in FILES),
]
