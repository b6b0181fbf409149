"""The URLs of `django.contrib.auth.urls`, with the same names and with the views that compare.

    path("accounts/", include("rigzumal.django.urls"))
"""

from __future__ import annotations

from typing import Any

from django.contrib.auth import urls
from django.urls import path

from rigzumal.django import views

_OURS: dict[str, Any] = {
    "password_change": views.PasswordChangeView,
    "password_reset_confirm": views.PasswordResetConfirmView,
}


def _comparing(url: Any) -> Any:
    """Returns a URL of Django's, with our view if we have one of that name."""
    if url.name not in _OURS:
        return url
    return path(str(url.pattern), _OURS[url.name].as_view(), name=url.name)


urlpatterns = [_comparing(url) for url in urls.urlpatterns]
