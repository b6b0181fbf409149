"""Tests of credkeep-server --http, which reads Basic credentials and sends a status."""

import base64
import contextlib
import http.client
import os
import pathlib
import re
import signal
import socket
from typing import Any, Optional

from machine import PAGE, RUN, begun, in_namespaces, install, is_open, prepared, shell
from served import Case, Service, need, need_module, until
from test_sites import add_second_site, assert_apart, fetched, install_pages, web_logins
from tests.hostile_fields import LOGIN, NAMES, PASSWORD, PASSWORDS

BASIC = 'Basic realm="book", charset="UTF-8"'

# By the server's options: names as they may be typed, and as its answer has them.
SPELLINGS = {
    "": {"ada": "ada"},
    "--mail-names": {
        "ada": "ada",
        "ann@example.org": "ann@example.org",
        "ann@Example.ORG": "ann@example.org",
        "Ann@EXAMPLE.org": "Ann@example.org",
        "a@b@EXAMPLE.org": "a@b@example.org",
        "\u00c4nn@Example.ORG": "\u00c4nn@example.org",
    },
    "--mail-names --fold-local-part": {"Ann@EXAMPLE.org": "ann@example.org"},
}


def basic(name: bytes, password: bytes) -> bytes:
    return b"Basic " + base64.b64encode(name + b":" + password)


class Connection(http.client.HTTPConnection):
    """A connection to a Unix socket."""

    def __init__(self, path: pathlib.Path) -> None:
        super().__init__("localhost")
        self.path = path

    def connect(self) -> None:
        self.sock = socket.socket(socket.AF_UNIX)
        self.sock.settimeout(30)
        self.sock.connect(str(self.path))

    def got(
        self, authorization: Optional[bytes], method: str = "GET"
    ) -> tuple[int, dict[str, str]]:
        """The status and the headers of the answer to a request."""
        given = {} if authorization is None else {"Authorization": authorization}
        self.request(method, "/any/path?x", headers=given)  # type: ignore[arg-type]
        answer = self.getresponse()
        answer.read()
        return answer.status, dict(answer.getheaders())


RIGHT = b"Host: a\r\nAuthorization: " + basic(b"ada", b"secret") + b"\r\n"
CHUNKED, SIZED = b"Transfer-Encoding: chunked\r\n", b"Content-Length: 5\r\n"
LAST_CHUNK = b"\r\n0\r\n\r\n"
# Requests that two servers might read differently, each with the status after which no more come.
REFUSED = {
    b"GET / HTTP/1.1\r\n" + RIGHT + CHUNKED + SIZED + LAST_CHUNK: "400",
    b"GET / HTTP/1.1\r\n" + RIGHT + SIZED + CHUNKED + LAST_CHUNK: "400",
    b"GET / HTTP/1.0\r\n" + RIGHT + CHUNKED + LAST_CHUNK: "400",
    b"GET / HTTP/0.9\r\n" + RIGHT + b"\r\n": "505",
    b"GET / HTTP/1.2\r\n" + RIGHT + b"\r\n": "505",
    b"GET / HTTP/2.0\r\n" + RIGHT + b"\r\n": "505",
}


class Web(Case):
    def serving_web(self, *options: str, **fields: Any) -> Service:
        need_module("h11")
        room = self.room()
        return self.serving("--http", f"{room}/http.sock", *options, folder=room, **fields)

    def raw(self, service: Service, text: bytes) -> bytes:
        """The answer to these bytes, until the server closes."""
        with socket.socket(socket.AF_UNIX) as client:
            client.settimeout(30)
            client.connect(str(service.path("http")))
            client.sendall(text)
            client.shutdown(socket.SHUT_WR)
            found = b""
            with contextlib.suppress(ConnectionResetError):  # it was sent more than is read
                while came := client.recv(65536):
                    found += came
            return found

    def test_statuses(self) -> None:
        """Each kind of account and header, on one connection."""
        service = self.serving_web("--tries", "0")
        service.enrol(ada="secret", bob="\u00fc:x y", cid="", eve="e" * 256)
        service.talk("admin account dan -> ok")
        client = Connection(service.path("http"))
        self.addCleanup(client.close)
        for given, ought in (
            (basic(b"ada", b"secret"), 200),
            (basic(b"bob", "\u00fc:x y".encode()), 200),
            (basic(b"cid", b""), 200),
            (basic(b"eve", b"e" * 256), 200),
            (basic(b"ada", b"secret").replace(b"Basic ", b"bAsIc   "), 200),
            (basic(b"ada", b"guess"), 401),
            (basic(b"zoe", b"secret"), 401),
            (basic(b"dan", b"secret"), 401),
            (b"Basic " + base64.b64encode(b"ada"), 401),
            (b"Basic " + base64.b64encode(b"ada:secret").rstrip(b"="), 401),
            (b"Basic !", 401),
            (b"Basic", 401),
            (b"", 401),
            (b"Bearer " + base64.b64encode(b"ada:secret"), 401),
            (None, 401),
        ):
            with self.subTest(given):
                for method in "GET", "HEAD":
                    status, headers = client.got(given, method)
                    self.assertEqual(status, ought)
                    self.assertEqual(
                        headers.get("WWW-Authenticate"), BASIC if ought == 401 else None
                    )
        self.assertEqual(client.got(basic(b"ada", b"secret"), "POST")[0], 405)
        service.talk("admin disable ada -> disabled")
        self.assertEqual(client.got(basic(b"ada", b"secret"))[0], 401)

    def test_hostile_fields(self) -> None:
        """A hostile name or password is 401, the next request is right, and no line comes to the
        book but a login's."""
        service = self.serving_web("--tries", "0").enrol(ada="secret")
        client, admin = Connection(service.path("http")), service.client("admin")
        self.addCleanup(client.close)
        record, right = admin.ask("show ada"), basic(b"ada", PASSWORD)
        enrolled = (service.folder / "asked").read_bytes()
        rows = {f"name: {what}": basic(name, PASSWORD) for what, name in NAMES.items()}
        rows |= {f"password: {what}": basic(b"ada", it) for what, it in PASSWORDS.items()}
        for what, given in rows.items():
            with self.subTest(what):
                self.assertEqual(client.got(given)[0], 401)
                self.assertEqual(client.got(right)[0], 200)
        asked = (service.folder / "asked").read_bytes().removeprefix(enrolled).split(b"\n")
        self.assertEqual([it for it in asked[:-1] if not re.fullmatch(LOGIN, it)], [])
        self.assertEqual((admin.ask("show ada"), asked[-1]), (record, b""))

    def test_names(self) -> None:
        """A right password's answer has the name in the one spelling that the book has; no other
        answer has any."""
        for options, names in SPELLINGS.items():
            service = self.serving_web(*options.split())
            service.enrol(**{it: "secret" for it in names.values()})
            client = Connection(service.path("http"))
            self.addCleanup(client.close)
            for typed, ought in names.items():
                with self.subTest(options, typed=typed):
                    status, headers = client.got(basic(typed.encode(), b"secret"))
                    said = headers["Remote-User"].encode("iso-8859-1").decode()
                    self.assertEqual((status, said), (200, ought))
                    status, headers = client.got(basic(typed.encode(), b"guess"))
                    self.assertEqual((status, headers.get("Remote-User")), (401, None))

    def test_too_many_tries(self) -> None:
        """After too many tries right passwords get 429 too, with the seconds until the next try may
        come, and other users' logins go on."""
        service = self.serving_web("--tries", "4", clocked=True).enrol(ada="secret", bob="secret")
        client = Connection(service.path("http"))
        self.addCleanup(client.close)
        for now, password, ought, after in (
            *[(0, b"guess", 401, None)] * 4,
            (0, b"secret", 429, "1"),
            (1, b"guess", 401, None),
            (1, b"secret", 429, "2"),
            (1.5, b"secret", 429, "2"),
            (2.9, b"secret", 429, "1"),
            (3, b"secret", 200, None),
        ):
            service.set_clock(now)
            status, headers = client.got(basic(b"ada", password))
            self.assertEqual((status, headers.get("Retry-After")), (ought, after))
            self.assertEqual(client.got(basic(b"bob", b"secret"))[0], 200)
        self.assertEqual(service.stats()["no"], 5)

    def test_requests(self) -> None:
        """A text that is no request, or too much of one, is refused, and its connection closed."""
        service = self.serving_web().enrol(ada="secret")
        login = RIGHT
        for text, statuses in (
            (b"GET / HTTP/1.1\r\n" + login + b"\r\n", "200"),
            (b"GET / HTTP/1.0\r\n" + login + b"\r\n", "200"),
            (b"GET / HTTP/1.1\r\n" + login + b"Connection: close\r\n\r\n", "200"),
            ((b"GET / HTTP/1.1\r\n" + login + b"\r\n") * 3, "200 200 200"),
            # Behind the last request of a connection nothing is read.
            (b"GET / HTTP/1.0\r\n" + login + b"\r\n\r\n", "200"),
            ((b"GET / HTTP/1.1\r\n" + login + b"Connection: close\r\n\r\n") * 2, "200"),
            (b"GET / HTTP/1.1\r\n" + login + b"Content-Length: 0\r\n\r\n", "200"),
            (b"GET / HTTP/1.1\r\n" + login + b"Content-Length: 3\r\n\r\nabc", "413"),
            (b"GET / HTTP/1.1\r\n" + login + b"Transfer-Encoding: chunked\r\n\r\n", "413"),
            (b"GET / HTTP/1.1\r\n" + login + login[9:] + b"\r\n", "401"),
            (b"GET / HTTP/1.1\r\n\r\n", "400"),  # without its host
            *((request * 2, ought) for request, ought in REFUSED.items()),
            (b"1 verify ada c2VjcmV0\n\n", "400"),
            (b"\x16\x03\x01" * 100 + b"\r\n\r\n", "400"),
            (b"GET / HTTP/1.1\r\n" + b"X: y\r\n" * 9000, "431"),
            (b"GET / HTTP/1.1\r\nX: " + b"y" * 100000, "431"),
            (b"GET / HTTP/1.1\r\nHost: a\r\n", ""),  # it ends too early
            (b"", ""),
        ):
            with self.subTest(text[:60]):
                found = self.raw(service, text)
                said = re.findall(rb"^HTTP/1\.1 (\d+) ", found, re.M)
                self.assertEqual(b" ".join(said).decode(), statuses, found)
        until(lambda: service.stats()["clients"] == 1, "all are closed")
        self.assertEqual(len([it for it in service.asked() if it.startswith("verify")]), 9)
        self.assertNotIn("fault", service.log())

    def test_no_room_and_no_book(self) -> None:
        """503 where no connection has room, and where the book has no answer."""
        service = self.serving_web("--tries", "0", "--at-once", "2", faults="slow=0.5")
        service.enrol(ada="secret")
        clients = [socket.socket(socket.AF_UNIX) for _ in range(600)]
        for client in clients:
            client.connect(str(service.path("http")))
        self.assertTrue(clients[-1].recv(999).startswith(b"HTTP/1.1 503 "))
        for client in clients:
            client.close()
        until(lambda: service.stats()["clients"] == 1, "room")
        client = Connection(service.path("http"))
        self.addCleanup(client.close)
        self.assertEqual(client.got(basic(b"ada", b"secret"))[0], 200)
        client.request("GET", "/", headers={"Authorization": basic(b"ada", b"x")})  # type: ignore
        until(lambda: len(service.asked()) == 4, "it is asked")
        os.kill(service.book_pid(), signal.SIGKILL)
        self.assertEqual(client.getresponse().status, 503)

    def test_requests_of_who_has_gone(self) -> None:
        """A request over a connection that was closed meanwhile is never hashed."""
        service = self.serving_web("--tries", "0", "--at-once", "1", faults="slow=0.2")
        service.enrol(ada="secret")
        head = b"GET / HTTP/1.1\r\nHost: a\r\nAuthorization: " + basic(b"left", b"") + b"\r\n\r\n"
        for _ in range(20):
            with socket.socket(socket.AF_UNIX) as left:
                left.connect(str(service.path("http")))
                left.sendall(head * 3)
        client = Connection(service.path("http"))
        self.addCleanup(client.close)
        self.assertEqual(client.got(basic(b"ada", b"secret"))[0], 200)
        until(lambda: service.stats()["clients"] == 2, "the end of their requests")
        self.assertLess(service.asked().count("verify left -"), 5)

    def run_nginx(self, room: pathlib.Path, *options: str, more: str = "") -> Service:
        """The book's server, and nginx with the page's site, and more in it."""
        need_module("h11")
        need("nginx", "curl")
        prepared(room)
        server = begun("--http", f"{RUN}/http.sock", *options)
        install("/etc/nginx/sites-enabled/http")
        site = pathlib.Path("/etc/nginx/sites-enabled/http")
        site.write_text(
            site.read_text().replace("auth_request /login;", f"auth_request /login; {more}")
        )
        install_pages()
        shell("nginx")
        until(lambda: is_open(8083), "nginx")
        return server.enrol(ada="secret", bob="other word", eve="mine")

    @in_namespaces
    def test_nginx_limit(self, room: pathlib.Path) -> None:
        """The page's two lines, with lower numbers: an address that sends more requests gets 503,
        also with a right password."""
        (zone, limit) = re.findall(r"^(limit_req.*;)  +#", PAGE.read_text(), re.M)
        self.run_nginx(room)
        site = pathlib.Path("/etc/nginx/sites-enabled/http")
        zone, limit = zone.replace("10r/s", "1r/m"), limit.replace("burst=60", "burst=5")
        limited = site.read_text().replace("internal;", f"internal; {limit}")
        site.write_text(f"{zone}\n{limited}")
        shell("nginx -s stop")
        until(lambda: not is_open(8083), "the end of nginx")
        shell("nginx")
        until(lambda: is_open(8083), "nginx")
        self.assertEqual(fetched("eve:guess", 8083, 9), {401: 6, 503: 3})
        self.assertEqual(fetched("ada:secret", 8083, 1), {503: 1})

    @in_namespaces
    def test_nginx_heads(self, room: pathlib.Path) -> None:
        """Whatever headers nginx takes, cookies for instance, a login is answered as without
        them."""
        self.run_nginx(room, "--tries", "0")
        long = "c" * 4300
        for count in (0, 1, 2, 3):  # nginx itself takes no more of them
            headers = "".join(f" -H 'X-{it}: {long}'" for it in range(count))
            for user, status in (("'bob:other word'", 200), ("eve:guess", 401)):
                with self.subTest(user, count=count):
                    shell("rm -rf /run/nginx-http-logins/*")  # what the cache has of the user
                    line = f"curl -s -o /dev/null -w '%{{http_code}}' -u {user}{headers}"
                    said = shell(f"{line} -b 'session={long}' http://127.0.0.1:8083/1.png")
                    self.assertEqual(said, str(status))

    @in_namespaces
    def test_nginx_names(self, room: pathlib.Path) -> None:
        """However a user types an address, an application gets one name; $remote_user is the typed
        text."""
        shown = "add_header X-Account $user; add_header X-Typed $remote_user;"
        server = self.run_nginx(room, "--mail-names", more=shown)
        server.enrol(**{"ann@example.org": "secret"})

        def said(typed: str) -> list[str]:
            url = "http://127.0.0.1:8083/1.png"
            text = shell(f"curl -s -o /dev/null -D - -H 'Remote-User: eve' -u {typed}:secret {url}")
            return re.findall(r"^X-\w+: (\S*)\r$", text, re.M)

        self.assertEqual(said("ada"), ["ada", "ada"])
        for typed in ("ann@example.org", "ann@Example.ORG", "ann@EXAMPLE.org"):
            for time in ("asked", "kept"):
                with self.subTest(typed, time=time):
                    self.assertEqual(said(typed), ["ann@example.org", typed])

    @in_namespaces
    def test_nginx_two_books(self, room: pathlib.Path) -> None:
        self.run_nginx(room)
        begun("--http", f"{RUN.parent}/mail/http.sock", book="mail").enrol(ada="mailword")
        add_second_site(
            "http",
            ("upstream book", "upstream book2"),
            ("//book/", "//book2/"),
            ("users/http.sock", "mail/http.sock"),
            ("8083", "8084"),
        )
        assert_apart(8083)

    @in_namespaces
    def test_nginx(self, room: pathlib.Path) -> None:
        """The page's site: users, forty pictures for one hash, and what nginx says of 429 and
        503."""
        server = self.run_nginx(room)
        self.assertIn(BASIC, shell("curl -s -o /dev/null -D - http://127.0.0.1:8083/1.png"))
        before = server.stats()["yes"]
        self.assertEqual(fetched("ada:secret", 8083), {200: 40})
        self.assertEqual(server.stats()["yes"] - before, 1)
        self.assertEqual(fetched("eve:guess", 8083, 12), {401: 10, 429: 2})
        self.assertIn("Retry-After: ", shell("curl -s -D - -u eve:x http://127.0.0.1:8083/1.png"))
        shell("sed -i '/ proxy_cache/d' /etc/nginx/sites-enabled/http && nginx -s reload")

        def is_asked() -> bool:
            before = server.stats()["yes"]
            return fetched("ada:secret", 8083, 1) == {200: 1} and server.stats()["yes"] > before

        until(is_asked, "nginx without its cache")
        web_logins(8083, server, 503)
