"""The test that runs in the booted Debian of test_booted.py: the steps of docs/SERVERS.md, kills
and restarts, PAM, and the packages' end."""

import contextlib
import crypt
import os
import pathlib
import pty
import shutil
import signal
import socket
import subprocess
import sys
import time

UNIT = "credkeep-server@users.service"
SOCKETS = ["credkeep-server@users.socket", "credkeep-server-admin@users.socket"]
KINDS = ("auth", "account", "password")


def run(*words, typed=""):
    pipes = {"stdout": subprocess.PIPE, "stderr": subprocess.STDOUT}
    done = subprocess.run(words, input=typed, text=True, **pipes)
    print(*words[:2], done.returncode, done.stdout if done.returncode else "", flush=True)
    return done.stdout.strip()


def ask(name, *lines):
    with socket.socket(socket.AF_UNIX) as client:
        client.settimeout(60)
        client.connect(f"/run/rigzumal/users/{name}.sock")
        for line in lines:
            client.sendall(b"1 " + line.encode() + b"\n")
            print(name, line.split()[0], client.recv(200).decode().strip(), flush=True)


def typed(path, *answers):
    pid, terminal = pty.fork()
    if pid == 0:
        os.execvp("sh", ["sh", path])
    said, rest = b"", [*answers]
    with contextlib.suppress(OSError):
        while more := os.read(terminal, 1000):
            said += more
            if rest and said.endswith(b": "):
                os.write(terminal, rest.pop(0).encode() + b"\n")
    status = os.waitstatus_to_exitcode(os.waitpid(pid, 0)[1])
    print("typed", status, said.split()[-1].decode(), flush=True)


def shown(name):
    return run("systemctl", "show", "-p", name, "--value", UNIT)


def killed(pid):
    os.kill(int(pid), signal.SIGKILL)
    end = time.monotonic() + 60
    while shown("MainPID") == main or shown("ActiveState") != "active":
        if time.monotonic() > end:
            sys.exit("never active again")
        time.sleep(0.2)
    print("restarts", shown("NRestarts"))


def book():
    return pathlib.Path(f"/proc/{main}/task/{main}/children").read_text().split()[0]


def audited():
    return pathlib.Path("/var/log/rigzumal/users.audit").read_text().count('"answer": "yes"')


def chosen():
    texts = [pathlib.Path(f"/etc/pam.d/common-{it}").read_text() for it in KINDS]
    print("chosen", *(it.count("pam_rigzumal") for it in texts), flush=True)


def pam(tasks, *typed):
    lines = "".join(f"{it}\n" for it in typed)
    print(run("pamtester", "both", "ada", *tasks.split(), typed=lines))


run("sh", "-c", "DEBIAN_FRONTEND=noninteractive dpkg -i /*.deb && rm /*.deb")
print(run("stat", "-c", "%a %U %G", "/var/lib/rigzumal"))
run("runuser", "-u", "rigzumal", "--", "credkeep", "/var/lib/rigzumal/users.db", "init")
run("systemctl", "enable", "--now", *SOCKETS, UNIT)
print("active", shown("ActiveState"))
doors = [f"/run/rigzumal/users/{it}.sock" for it in ("login", "admin")]
print(run("stat", "-c", "%n %a %U %G", *doors))
typed("/add.sh", "secret", "secret")
ask("login", "verify ada c2VjcmV0", "verify ada Z3Vlc3M", "enrol ada c2VjcmV0")
ask("login", "change ada c2VjcmV0 ZnJlc2g")
run("systemctl", "restart", UNIT)
ask("login", "verify ada ZnJlc2g")
main = shown("MainPID")
killed(book())
ask("login", "verify ada ZnJlc2g")
main = shown("MainPID")
killed(main)
ask("login", "verify ada ZnJlc2g")
for _ in range(6):  # more often than systemd's own limit, within its ten seconds
    main = shown("MainPID")
    killed(book())
ask("login", "verify ada ZnJlc2g")
default = pathlib.Path("/etc/default/credkeep-server-users")
options = default.read_text()
default.write_text("CREDKEEP_SERVER_OPTIONS=--nonsense\n")
run("systemctl", "restart", UNIT)
time.sleep(8)
default.write_text(options)
ask("login", "verify ada ZnJlc2g")
old = pathlib.Path("/var/lib/rigzumal/old")
records = {"bob": crypt.METHOD_SHA512, "eve": "$y$j9T$"}
old.write_text("".join(f"{it}:{crypt.crypt('secret', how)}\n" for it, how in records.items()))
shutil.chown(old, "rigzumal")
more = f"--audit /var/log/rigzumal/users.audit --foreign {old}"
default.write_text(options.replace("=", f"={more} ", 1))
run("systemctl", "restart", UNIT)
ask("login", "verify bob Z3Vlc3M", "verify bob c2VjcmV0", "verify eve c2VjcmV0")
end = time.monotonic() + 30
while audited() < 2 and time.monotonic() < end:  # lines of the log come behind the answers
    time.sleep(0.1)
print("audited", audited())
default.write_text(options)
run("systemctl", "restart", UNIT)
backup = "credkeep /var/lib/rigzumal/users.db backup /var/lib/rigzumal/copy.db"
run("runuser", "-u", "rigzumal", "--", *backup.split())
ask("admin", "reset ada c2VjcmV0")
logins = subprocess.Popen(["/usr/bin/python3", "/logins.py"])
run("sh", "/restore.sh")
logins.kill()
logins.wait()
ask("login", "verify ada ZnJlc2g")
os.unlink("/var/lib/rigzumal/copy.db")
status = pathlib.Path(f"/proc/{shown('MainPID')}/status").read_text()
bounds = ("NoNewPrivs", "Seccomp:", "CapBnd")
found = [line.replace("\t", " ") for line in status.splitlines() if line.startswith(bounds)]
print(*sorted(found), sep="\n")
run("systemctl", "stop", UNIT)
ask("login", "verify ada ZnJlc2g")
print("by its socket", shown("ActiveState"))
chosen()
run("useradd", "ada")
run("pam-auth-update", "--enable", "rigzumal")
chosen()
pathlib.Path("/etc/pam.d/both").write_text("".join(f"{it} include common-{it}\n" for it in KINDS))
pam("authenticate acct_mgmt", "fresh")
pam("authenticate", "guess")
pam("chauthtok", "fresh", "fresh word 1", "fresh word 1")
pam("authenticate", "fresh word 1")
run("credkeep-server", "--metrics", "/run/rigzumal/users/admin.sock")
run("systemctl", "stop", *SOCKETS, UNIT)
print("ended", shown("Result"))
print(run("runuser", "-u", "rigzumal", "--", "credkeep", "/var/lib/rigzumal/users.db", "verify"))
print(run("journalctl", "--no-pager", "-o", "cat", "-u", UNIT))
run("dpkg", "--purge", "libpam-rigzumal", "rigzumal-tools")
chosen()
named = "( -name *rigzumal* -o -name *credkeep-server* )"
named += " -not -path /proc/* -not -path /var/lib/dpkg/*"
found = run("find", "/etc", "/lib", "/usr", "/var", *named.split())
print("left", *sorted(found.split()), *sorted(os.listdir("/var/lib/rigzumal")))
print("done")
