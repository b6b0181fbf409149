from django.contrib import admin
from django.contrib.auth.models import User
from django.http import HttpResponse
from django.urls import include, path

from rigzumal.django import passwords
from rigzumal.django.admin import UserAdmin

admin.site.unregister(User)
admin.site.register(User, UserAdmin)


def later(request):
    """A project's own view, which uses the user after a change."""
    changed = passwords.change_password(request.user, request.POST["old"], request.POST["new"])
    request.user.first_name = "later"
    request.user.save()
    return HttpResponse(str(changed))


def last_seen(get_response):
    """A middleware, common in projects, that saves the user after each request."""

    def answer(request):
        response = get_response(request)
        if request.user.is_authenticated:
            request.user.last_name = "seen"
            request.user.save()
        return response

    return answer


urlpatterns = [
    path("accounts/", include("rigzumal.django.urls")),
    path("admin/", admin.site.urls),
    path("later/", later),
]
