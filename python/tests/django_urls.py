from django.http import HttpResponse
from django.urls import include, path

from garvoeng.django.visitors import visitor


def handle(request):
    found = visitor(request)
    return HttpResponse("" if found is None else found.user.hex())


urlpatterns = [path("passkeys/", include("garvoeng.django.urls")), path("api/passkeys/", include("garvoeng.django.rest")),
               path("who", lambda request: HttpResponse(str(request.user))), path("handle", handle)]
try:
    from django.contrib import admin
    urlpatterns.append(path("admin/", admin.site.urls))
except Exception:
    pass
