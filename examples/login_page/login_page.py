"""A login page in small: sign-up, login, change of the password and log-out.

    python3 examples/login_page/login_page.py        then http://127.0.0.1:8000/

It is an application of Flask, and runs on waitress. README.md has its settings.
"""

from __future__ import annotations

import hashlib
import hmac
import logging
import os
import secrets
import signal
import sys
from typing import Any, Optional

import environment
import waitress
from flask import Blueprint, Flask, Response, abort, current_app, g, redirect, render_template
from flask import request
from passwords import faults, name_of, password_of
from rigzumal import PasswordHasher
from store import Store
from werkzeug.exceptions import HTTPException

FORM = 8192  # bytes of a form
NOBODY = "?"  # a name that nobody can have
NO = "The name or the password is wrong."
HEADERS = {
    "Content-Security-Policy": "default-src 'none'; style-src 'self'; form-action 'self';"
    " frame-ancestors 'none'; base-uri 'none'",
    "X-Content-Type-Options": "nosniff",
    "Referrer-Policy": "same-origin",
    "Cache-Control": "no-store",
}
pages = Blueprint("pages", __name__)


def application(store: Store, secret: bytes) -> Flask:
    """The application of WSGI."""
    app = Flask(__name__, static_url_path="")
    app.config.update(STORE=store, SECRET=secret, MAX_CONTENT_LENGTH=FORM)
    app.register_blueprint(pages)
    return app


@pages.before_request
def arrive() -> Any:
    """Finds the user by the browser's cookie, refuses a form that isn't ours, and sends strangers
    to the login."""
    g.store = current_app.config["STORE"]
    # Behind https no other host, and no page without https, can set this cookie.
    g.cookie = "__Host-login" if request.is_secure else "login"
    g.token = request.cookies.get(g.cookie) or secrets.token_urlsafe()
    g.name = g.store.who(g.token)
    # The token of this browser's forms, since no other page can know it.
    g.csrf = hmac.new(current_app.config["SECRET"], g.token.encode(), hashlib.sha256).hexdigest()
    if request.method == "POST":
        if not hmac.compare_digest(request.form.get("csrf", "").encode(), g.csrf.encode()):
            abort(403, "This form is out of date. Please open the page again.")
        if any("\N{REPLACEMENT CHARACTER}" in it for it in request.form.values()):
            abort(400, "That is not UTF-8.")
    if g.name is None and request.path in ("/", "/change"):
        return redirect("/login", 303)


@pages.after_app_request
def leave(response: Response) -> Response:
    """The headers of every answer, and the cookie if the browser hasn't it already."""
    response.headers.update(HEADERS)
    if request.is_secure:
        response.headers["Strict-Transport-Security"] = "max-age=31536000"
    if "token" in g and request.cookies.get(g.cookie) != g.token:
        response.set_cookie(
            g.cookie, g.token, secure=request.is_secure, httponly=True, samesite="Lax"
        )
    return response


@pages.app_errorhandler(HTTPException)
def sorry(error: HTTPException) -> Any:
    response: Any = error.get_response()
    response.data = render_template("message.html", error=error)
    return response


@pages.get("/")
def home() -> str:
    return render_template("home.html", has_changed=g.store.take_note(g.token))


@pages.get("/signup")
@pages.get("/login")
@pages.get("/change")
def form(errors: Optional[dict[str, str]] = None) -> str:
    """The form of this page; each error is beside its field, and the first of these fields has the
    focus."""
    return render_template(f"{request.path[1:]}.html", errors=errors or {})


@pages.post("/signup")
def sign_up() -> Any:
    name = name_of(request.form)
    errors = faults(request.form, name)
    if not name:
        errors = {"name": "A name is 1 to 32 characters: a to z, 0 to 9, and . _ -", **errors}
    if errors:
        return form(errors)
    g.store.count(signup=request.remote_addr)
    ticket = g.store.count(address=request.remote_addr)
    session = g.store.sign_up(name, password_of(request.form, "new"), g.token)
    return entered(session, ticket, None, {"name": "This name is taken."})


@pages.post("/login")
def login() -> Any:
    name = name_of(request.form)
    # A text that is no name has its tries, its look-up and its hash, like any name.
    account = name or request.form.get("name", "")
    ticket = g.store.count(account=account, address=request.remote_addr)
    session = g.store.log_in(name or NOBODY, password_of(request.form, "password"), g.token)
    return entered(session, ticket, account, {"password": NO})


@pages.post("/change")
def change() -> Any:
    errors = faults(request.form, g.name)
    if errors:
        return form(errors)
    # The tries of this session alone: guesses elsewhere don't shut its owner out.
    ticket = g.store.count(session=g.token)
    old, new = password_of(request.form, "old"), password_of(request.form, "new")
    session = g.store.change(g.name, old, new, g.token)
    return entered(session, ticket, g.name, {"old": "The old password is wrong."})


@pages.route("/logout", methods=["GET", "POST"])
def log_out() -> Any:
    if request.method == "POST":
        g.store.end(g.token)
        g.token = secrets.token_urlsafe()
    return redirect("/", 303)


def entered(
    session: Optional[str], ticket: str, account: Optional[str], errors: dict[str, str]
) -> Any:
    """Redirects home with the new session, and forgives the try; without a session shows the form
    again."""
    if session is None:
        return form(errors)
    g.token = session
    g.store.forgive(ticket, account)
    return redirect("/", 303)


def server(store: Store, port: int) -> Any:
    """A server of waitress that is ready; `run` runs it. waitress reads a whole request before a
    thread handles it, so slow clients hold no thread."""
    secret = os.environ.get("SECRET", "").encode() or secrets.token_bytes(32)
    proxy = os.environ.get("PROXY")
    return waitress.create_server(
        application(store, secret),
        host="127.0.0.1",
        port=port,
        threads=8,
        connection_limit=500,
        channel_timeout=20,  # seconds of an idle connection
        cleanup_interval=5,
        max_request_header_size=16384,
        max_request_body_size=FORM,
        asyncore_use_poll=True,
        ident=None,
        trusted_proxy=proxy,
        trusted_proxy_headers={"x-forwarded-for", "x-forwarded-proto"} if proxy else (),
        clear_untrusted_proxy_headers=True,
    )


def main() -> None:
    hasher = PasswordHasher(memory_cost=environment.number("MEMORY", 65536, 32, 2097152))
    port, database = environment.number("PORT", 8000, 0, 65535), environment.database()
    try:
        store = Store(database, hasher)
    except Exception as fault:
        raise environment.refused("DATABASE", fault) from None
    try:
        serving = server(store, port)
    except OSError as fault:
        raise environment.refused("PORT", fault) from None
    print(f"http://127.0.0.1:{serving.effective_port}/", flush=True)
    logging.getLogger("waitress.queue").setLevel(logging.ERROR)  # a busy moment is none
    for ends in (signal.SIGINT, signal.SIGTERM):
        # waitress finishes its running requests, for up to five seconds.
        signal.signal(ends, lambda *_: sys.exit(0))
    serving.run()


if __name__ == "__main__":
    main()
