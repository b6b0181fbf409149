"""Debian's web and mail servers, unchanged, ask the book as docs/SERVERS.md describes: see
test_logins.py."""

import base64
import collections
import functools
import imaplib
import pathlib
import re
import smtplib
import urllib.error
import urllib.request

from machine import PAGE, begun, commands_on_page, in_namespaces, install, is_open, on_page
from machine import shell, started
from served import Case, Service, need, same, until
from tests.needs import need_file

POSTFIX = "inet_interfaces=127.0.0.1 inet_protocols=ipv4 alias_maps= myhostname=mail.example.org"
POSTFIX += " mydestination=localhost maillog_file=/var/log/postfix.log"
# Without it each wrong password costs its address some seconds more.
QUICK = """ssl = no
auth_failure_delay = 0
service anvil {
 unix_listener anvil-auth-penalty {
 mode = 0
 }
}
"""


def run_nginx(room: pathlib.Path, site: str, port: int) -> Service:
    """The book's server, and nginx with one of the page's sites."""
    need("nginx", "curl", "htpasswd")
    module = "/usr/lib/nginx/modules/ngx_http_auth_pam_module.so"
    need_file(module)
    server = started(room)
    install("/etc/pam.d/nginx", f"/etc/nginx/sites-enabled/{site}")
    install_pages()
    shell("nginx")
    until(lambda: is_open(port), "nginx")
    return server


def run_apache(room: pathlib.Path, configuration: str, modules: str) -> Service:
    """The book's server, and Apache with one of the page's sites."""
    need("apache2", "curl")
    need_file("/usr/lib/apache2/modules/mod_authnz_pam.so")
    server = started(room)
    install("/etc/pam.d/apache2", f"/etc/apache2/conf-enabled/{configuration}")
    shell(f"a2enmod {modules}")
    install_pages()
    shell("apache2ctl start")
    until(lambda: is_open(80), "apache2")
    return server


def imap(user: str, password: str) -> bool:
    return imap_refusal(user, password) == ""


def imap_refusal(user: str, password: str) -> str:
    """Dovecot's text at a refused login, or none."""
    with imaplib.IMAP4("127.0.0.1", timeout=120) as client:
        try:
            client.login(user, password)
            same(client.select()[0], "OK")
            return ""
        except imaplib.IMAP4.error as fault:
            return str(fault)


def run_dovecot(*changes: tuple[str, str]) -> None:
    need("dovecot")
    need_file("/usr/lib/dovecot/imap")
    install("/etc/pam.d/dovecot", "/etc/pam.d/mail", "/etc/dovecot/local.conf")
    remove_system_users()
    configure_dovecot(*changes)
    files = "-keyout /etc/dovecot/private/dovecot.key -out /etc/dovecot/private/dovecot.pem"
    shell(f"openssl req -x509 -newkey rsa:2048 -nodes -subj /CN=localhost {files} 2>/dev/null")
    shell("mount -t tmpfs none /srv")
    (adduser,) = commands_on_page("adduser --system --group --home /srv/vmail")
    shell(adduser)
    shell("dovecot -c /etc/dovecot/dovecot.conf > /var/log/dovecot-start 2>&1")
    until(lambda: is_open(143), "dovecot")


def remove_system_users() -> None:
    """The lines of Dovecot's own configuration that the page removes."""
    (line, path) = re.findall(r"`(!include\s\S+)` from ([/\w.-]*\w)", PAGE.read_text())[0]
    own = pathlib.Path(path)
    own.write_text(own.read_text().replace(" ".join(line.split()), ""))


def configure_dovecot(*changes: tuple[str, str]) -> None:
    """Writes the page's file, with some words in place of others, or behind all."""
    text = on_page("/etc/dovecot/local.conf")
    for old, new in changes:
        assert old in text, old
        text = text.replace(old, new) if old else text + new
    pathlib.Path("/etc/dovecot/local.conf").write_text(text + QUICK)


def status_of(port: int, user: str, password: str) -> int:
    """The status that a user gets for a site's page."""
    request = urllib.request.Request(f"http://127.0.0.1:{port}/")
    if user:
        basic = base64.b64encode(f"{user}:{password}".encode()).decode()
        request.add_header("Authorization", f"Basic {basic}")
    try:
        with urllib.request.urlopen(request, timeout=120) as answer:
            return int(answer.status)
    except urllib.error.HTTPError as fault:
        return fault.code


def web_logins(port: int, server: Service, status_when_down: int) -> None:
    """Logins at a site: right, wrong, unknown, disabled, changed, and while the server is down."""
    got = functools.partial(status_of, port)
    for user, password, status in (
        ("ada", "secret", 200),
        ("bob", "other word", 200),
        *(("ada", wrong, 401) for wrong in ("guess", "", "x" * 300)),
        *((unknown, "secret", 401) for unknown in ("zoe", "", "ADA", "ada%20")),
    ):
        same(got(user, password), status, f"{user}, {password}")
    server.talk("admin disable bob -> disabled")
    assert got("bob", "other word") in (401, 403), "bob is disabled"
    server.talk("admin reset ada {fresh} -> replaced")
    same([got("ada", "secret"), got("ada", "fresh")], [401, 200])
    server.stop()
    same(got("ada", "fresh"), status_when_down, "the server is down")


def install_pages() -> None:
    """A page and forty pictures, and nothing of what Debian's nginx serves by itself."""
    pathlib.Path("/etc/nginx/sites-enabled/default").unlink(missing_ok=True)
    html = pathlib.Path("/var/www/html")
    html.mkdir(exist_ok=True)
    for name in ("index.html", *(f"{number}.png" for number in range(1, 41))):
        (html / name).write_text("x")


def fetched(user: str, port: int, count: int = 40) -> dict[int, int]:
    """The count of each status for so many pictures, on one connection."""
    url = f"http://127.0.0.1:{port}/[1-{count}].png"
    text = shell(f"curl -s -o /dev/null -w '%{{http_code}}\\n' -u {user} '{url}'")
    return dict(collections.Counter(map(int, text.split())))


def add_second_site(site: str, *changes: tuple[str, str]) -> None:
    """Adds a copy of one of the page's sites for a second book, as the page says, at port 8084."""
    text = on_page(f"/etc/nginx/sites-enabled/{site}").partition("\n")[2]
    for old, new in changes:
        assert old in text, old
        text = text.replace(old, new)
    pathlib.Path("/etc/nginx/sites-enabled/second").write_text(text)
    shell("nginx -s reload")
    until(lambda: is_open(8084), "nginx")


def assert_apart(port: int) -> None:
    """A password of one book never opens the other's site, though nginx has it in its cache."""
    for time in ("asked", "kept"):
        for password, statuses in (("secret", (200, 401)), ("mailword", (401, 200))):
            for each, status in zip((port, 8084), statuses):
                said = fetched(f"ada:{password}", each, 1)
                same(said, {status: 1}, f"{password} at {each}, {time}")
    # The end of the other site's name, before what this site's user would send.
    for user in ("ada:secret", "ada:mailword"):
        forged = f"2Basic {base64.b64encode(user.encode()).decode()}"
        line = "curl -s -o /dev/null -w '%{http_code}' -H"
        said = shell(f"{line} 'Authorization: {forged}' http://127.0.0.1:{port}/1.png")
        same(said, "401", forged)


class Sites(Case):
    @in_namespaces
    def test_nginx(self, room: pathlib.Path) -> None:
        web_logins(8080, run_nginx(room, "book", 8080), 401)

    @in_namespaces
    def test_nginx_cache(self, room: pathlib.Path) -> None:
        """Forty pictures cost one hash. The cache keeps no wrong password, and only nginx can read
        it."""
        server = run_nginx(room, "cached", 8081)
        before = server.stats()
        self.assertEqual(fetched("ada:secret", 8081), {200: 40})
        self.assertEqual(fetched("ada:guess", 8081), {401: 40})
        asked = shell("curl -s -o /dev/null -D - http://127.0.0.1:8081/1.png")
        self.assertIn('WWW-Authenticate: Basic realm="book"', asked)
        after = server.stats()
        self.assertEqual(after["yes"] - before["yes"], 1)
        self.assertTrue(after["no"] + after["later"] - before["no"] - before["later"] >= 40)
        folder = pathlib.Path("/run/nginx-logins")
        kept = [folder, *(it for it in folder.rglob("*") if it.is_file())]
        self.assertEqual([it.stat().st_mode & 0o77 for it in kept], [0, 0])

    @in_namespaces
    def test_nginx_two_books(self, room: pathlib.Path) -> None:
        run_nginx(room, "cached", 8081)
        begun(book="mail").enrol(ada="mailword")
        asking = "pam_rigzumal.so timeout=60 socket=/run/rigzumal/mail/login.sock"
        service = on_page("/etc/pam.d/nginx").replace("pam_rigzumal.so", asking)
        pathlib.Path("/etc/pam.d/second").write_text(service)
        add_second_site(
            "cached",
            ("upstream login", "upstream login2"),
            ("//login/", "//login2/"),
            ("nginx-login.sock", "nginx-second.sock"),
            ('auth_pam_service_name "nginx"', 'auth_pam_service_name "second"'),
            ("8081", "8084"),
        )
        assert_apart(8081)

    @in_namespaces
    def test_nginx_with_all_sites(self, room: pathlib.Path) -> None:
        """nginx starts with all sites of the page."""
        run_nginx(room, "book", 8080)
        others = re.findall(r"^# (/etc/nginx/sites-enabled/(?!book$)\w+)$", PAGE.read_text(), re.M)
        install(*others)
        self.assertEqual(len(others), 3)
        shell("nginx -t")

    @in_namespaces
    def test_nginx_htpasswd(self, room: pathlib.Path) -> None:
        """A user of an htpasswd file gets in by the file until the name is removed, and by the book
        from then on."""
        server = run_nginx(room, "both", 8082)
        old = pathlib.Path("/etc/nginx/htpasswd")
        old.touch()
        for name, scheme in {"cid": "-B", "dan": "-m", "eli": "-s"}.items():
            shell(f"htpasswd -b {scheme} {old} {name} old")
        for user, status in (
            *((f"{name}:old", 200) for name in ("cid", "dan", "eli")),
            *((f"{name}:new", 401) for name in ("cid", "dan", "eli")),
            ("ada:secret", 200),
        ):
            self.assertEqual(fetched(user, 8082, 1), {status: 1}, user)
        server.enrol(cid="new")
        self.assertEqual(fetched("cid:new", 8082, 1), {200: 1})
        (taken,) = re.findall(r"`(htpasswd -D \S+) NAME`", PAGE.read_text())
        shell(f"{taken} cid")
        for user, status in (("cid:new", 200), ("cid:old", 401), ("dan:old", 200)):
            self.assertEqual(fetched(user, 8082, 1), {status: 1}, user)

    @in_namespaces
    def test_apache(self, room: pathlib.Path) -> None:
        web_logins(80, run_apache(room, "book.conf", "authnz_pam"), 401)

    @in_namespaces
    def test_apache_cache(self, room: pathlib.Path) -> None:
        """Forty pictures cost about one hash; a disabled user gets no page any more, at once."""
        server = run_apache(room, "cached.conf", "authnz_pam authn_socache socache_shmcb")
        before = server.stats()
        self.assertEqual(fetched("ada:secret", 80), {200: 40})
        self.assertEqual(fetched("ada:guess", 80, 3), {401: 3})
        self.assertEqual(server.stats()["yes"] - before["yes"], 1)
        server.talk("admin disable ada -> disabled")
        self.assertEqual(fetched("ada:secret", 80, 1), {401: 1})


class Mail(Case):
    def imap_logins(self, *rows: tuple[str, str, bool]) -> None:
        for user, password, ought in rows:
            self.assertEqual(imap(user, password), ought, f"{user}, {password}")

    @in_namespaces
    def test_dovecot(self, room: pathlib.Path) -> None:
        """An imap login: right, wrong, unknown, changed, disabled; the same refusal while the
        server is down."""
        server = started(room)
        run_dovecot()
        self.imap_logins(("ada", "secret", True), ("ada", "guess", False), ("zoe", "secret", False))
        self.imap_logins(("bob", "other word", True), ("bob", "other words", False))
        server.talk("admin reset ada {fresh} -> replaced")
        self.imap_logins(("ada", "secret", False), ("ada", "fresh", True))
        server.talk("admin disable ada -> disabled")
        self.imap_logins(("ada", "fresh", False))
        server.stop()
        self.assertIn("[AUTHENTICATIONFAILED]", imap_refusal("bob", "other word"))

    @in_namespaces
    def test_dovecot_mail_names(self, room: pathlib.Path) -> None:
        """An imap login as user@example.org, by --mail-names, into one mailbox however the domain
        is typed; and as one domain's user by %Ln."""
        started(room, "--mail-names").enrol(**{"ada@example.org": "mail word"})
        install("/etc/dovecot/conf.d/99-names.conf")
        run_dovecot(("args = dovecot", "args = mail"))
        self.imap_logins(
            ("ada@example.org", "mail word", True),
            ("ada@Example.ORG", "mail word", True),
            ("ada@example.org", "secret", False),
            ("ada@example.net", "mail word", False),
            ("ada@EXAMPLE.org", "mail word", True),
            ("Ada@example.org", "mail word", False),
            ("ada", "secret", True),
            ("ada", "mail word", False),
            ("@example.org", "mail word", False),
        )
        homes = sorted(it.name for it in pathlib.Path("/srv/vmail").glob("*"))
        self.assertEqual(homes, ["ada", "ada@example.org"], "one account, one mailbox")
        configure_dovecot(("", "auth_username_format = %Ln\n"))
        shell("doveadm reload")
        until(lambda: imap("Ada@example.org", "secret"), "the new configuration")
        self.imap_logins(
            ("ada@example.net", "secret", True),
            ("ada@example.org", "x", False),
        )

    @in_namespaces
    def test_dovecot_folded_names(self, room: pathlib.Path) -> None:
        """An imap login with a folded part before the @."""
        server = started(room, "--mail-names", "--fold-local-part")
        server.enrol(**{"ann@example.org": "mail word"})
        (word,) = re.findall("With `--fold-local-part`, write `(%\\w+)`", PAGE.read_text())
        names = f"auth_username_format = {word}\n"
        run_dovecot(("args = dovecot", "args = mail"), ("", names))
        for typed in ("ann@example.org", "Ann@example.org", "ANN@Example.ORG"):
            self.imap_logins((typed, "mail word", True), (typed, "secret", False))
        homes = [it.name for it in pathlib.Path("/srv/vmail").glob("*")]
        self.assertEqual(homes, ["ann@example.org"])

    @in_namespaces
    def test_postfix(self, room: pathlib.Path) -> None:
        """testsaslauthd, and a mail that Postfix takes after a login alone."""
        need("saslauthd", "testsaslauthd", "postfix", "postconf")
        server = started(room)
        install("/etc/pam.d/smtp", "/etc/postfix/sasl/smtpd.conf", "/etc/default/saslauthd")
        (adduser,) = re.findall(r"`(adduser postfix sasl)`", PAGE.read_text())
        shell(adduser)
        shell("/etc/init.d/saslauthd start")
        (tried,) = commands_on_page("testsaslauthd")
        self.assertIn('0: OK "Success."', shell(tried))
        for old, new in (("secret", "guess"), ("ada", "zoe")):
            self.assertIn("0: NO", shell(tried.replace(old, new), status=255))
        for line in commands_on_page("postconf"):
            shell(line)
        shell(f"postconf -e {POSTFIX}")
        instance = "/usr/lib/postfix/configure-instance.sh"
        shell(f"if [ -x {instance} ]; then {instance} -; fi")
        shell("postfix start")
        until(lambda: is_open(25), "postfix")

        def sent(user: str, password: str) -> str:
            with smtplib.SMTP("127.0.0.1", timeout=120) as client:
                client.ehlo("me.example.org")
                try:
                    if user:
                        client.login(user, password)
                    mail = "Subject: x\r\n\r\ntext\r\n"
                    client.sendmail("ada@example.org", ["someone@example.net"], mail)
                    return "taken"
                except smtplib.SMTPAuthenticationError:
                    return "not let in"
                except smtplib.SMTPRecipientsRefused:
                    return "not relayed"

        for user, password, ought in (
            ("ada", "secret", "taken"),
            ("ada", "guess", "not let in"),
            ("zoe", "x", "not let in"),
            ("", "", "not relayed"),
        ):
            self.assertEqual(sent(user, password), ought)
        self.assertIn("sasl_username=ada", pathlib.Path("/var/log/postfix.log").read_text())
        server.talk("admin reset ada {fresh} -> replaced")
        self.assertEqual([sent("ada", "secret"), sent("ada", "fresh")], ["not let in", "taken"])
        shell("postfix stop")
