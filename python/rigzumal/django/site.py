"""The admin site, whose own page for changing the password compares.

    INSTALLED_APPS = ["rigzumal.django.apps.AdminConfig", ...]   # for django.contrib.admin
"""

# mypy: allow-subclassing-any

from __future__ import annotations

from typing import Any, Optional

from django.contrib.admin import sites
from django.urls import reverse


class AdminSite(sites.AdminSite):
    """Django's AdminSite, whose page for one's own password compares before it writes."""

    def password_change(self, request: Any, extra_context: Optional[dict[str, Any]] = None) -> Any:
        """Changes the password of the user who is logged in."""
        # The forms need the user model, which doesn't exist yet when this module is imported.
        from rigzumal.django.forms import AdminOwnPasswordChangeForm
        from rigzumal.django.views import PasswordChangeView

        view = PasswordChangeView.as_view(
            form_class=AdminOwnPasswordChangeForm,
            success_url=reverse("admin:password_change_done", current_app=self.name),
            extra_context={**self.each_context(request), **(extra_context or {})},
            template_name=self.password_change_template or "registration/password_change_form.html",
        )
        request.current_app = self.name
        return view(request)
