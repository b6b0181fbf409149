"""An empty Debian 12 without rt. By make and a C compiler, the tarball of `make dist` becomes
programs, a server and PAM. For an ordinary user without any optional package, no test of the tree
fails.

The tests need root, and debootstrap with the mirror in apt's sources. Instead of the mirror,
EMPTY_ROOT may name a folder with such a Debian, which the tests copy. The tests print their times.
"""

import functools
import re
import shutil
import time

from tests import helpers
from tests.debian import APART, unpack
from tests.helpers import common_folder, need, need_root, run, write_files
from tests.packages.test_dist import NAME, Packing
from tests.packages.test_install import sample
from tests.packages.test_without_rt import copy

# What the tarball needs besides a C compiler, make and Python: an ordinary user lacks these.
OPTIONAL = ("xz-utils", "libpam0g-dev", "pamtester")
INCLUDED = ",".join(("gcc", "libc6-dev", "make", "python3", *OPTIONAL))
# What a machine has mounted, and its user.
MACHINE = """set -eu
export PATH=/usr/local/sbin:/usr/local/bin:/usr/sbin:/usr/bin:/sbin:/bin
mount -t proc none /proc
mount -t sysfs none /sys
mount -t devpts -o newinstance,gid=5,mode=620,ptmxmode=666 none /dev/pts
mount -t tmpfs -o mode=1777 none /dev/shm
command -v rt && exit 1
useradd -m builder
cd /home/builder
seconds() { cut -d ' ' -f 1 /proc/uptime; }
"""
# What is typed there of the tarball: make as an ordinary user, and the rest as root.
TYPED = f"""cp /{NAME}.tar.xz* /home/builder
runuser -u builder -- sha256sum --quiet -c {NAME}.tar.xz.sha256
runuser -u builder -- tar -xf {NAME}.tar.xz
begun=$(seconds)
runuser -u builder -- make -C {NAME} > log 2>&1 || {{ tail -n 30 log; exit 1; }}
built=$(seconds)
make -C {NAME} install > log 2>&1 || {{ tail -n 30 log; exit 1; }}
echo "took $begun $built $(seconds)"
cd /tmp
sh /session.sh
python3 -c 'import rigzumal; it = rigzumal.PasswordHasher(); print(it.verify(it.hash("x"), "x"))'
printf 'account a\\n' | credbook run
useradd --system --no-create-home --home /var/lib/rigzumal --user-group rigzumal
install -d -m 700 -o rigzumal -g rigzumal /var/lib/rigzumal
install -d -o rigzumal -g rigzumal /run/rigzumal
runuser -u rigzumal -- credkeep /var/lib/rigzumal/users.db init
printf 'fresh\\n' | runuser -u rigzumal -- credkeep /var/lib/rigzumal/users.db add ada
runuser -u rigzumal -- credkeep-server /var/lib/rigzumal/users.db 2> /server.log &
for _ in $(seq 600); do [ -S /run/rigzumal/users/admin.sock ] && break; sleep 0.1; done
credkeep-ask --server list
printf 'auth required pam_rigzumal.so\\naccount required pam_permit.so\\n' > /etc/pam.d/users
printf 'fresh\\n' | pamtester users ada authenticate 2>&1
printf 'guess\\n' | pamtester users ada authenticate 2>&1 || echo "status $?"
{{ kill $!; wait $!; }} 2> /dev/null || true
make -C /home/builder/{NAME} uninstall > log 2>&1
find /usr/local /usr/lib -name '*rigzumal*' -o -name 'cred*'
"""
SAID = """True
ok
enrolled
ada
Password: pamtester: successfully authenticated
Password: pamtester: Authentication failure
status 1
"""
# What is typed there of the tree.
TYPED_BY_USER = f"""dpkg --purge {" ".join(OPTIONAL)} > log
mv /rigzumal .
chown -R builder:builder rigzumal
exec runuser -l builder -c '
cd rigzumal
make > log 2>&1 || {{ tail -n 30 log; exit 1; }}
/usr/bin/python3 tools/run_tests.py
'
"""
# At least so many tests need nothing that the user lacks.
LEAST = 600


@functools.cache
def base():
    """The Debian that the tests of this process copy."""
    need_root()
    root = common_folder() / "root"
    unpack(root, INCLUDED, "EMPTY_ROOT")
    return root


def typed(root, text):
    """The output of lines that root types in a Debian, which has no network."""
    write_files(root, {"typed.sh": MACHINE + text})
    inside = f"ip link set lo up && exec chroot {root} sh /typed.sh"
    return run(*APART, "--net", "sh", "-c", inside)


class Tarball(Packing):
    seconds = 2400  # of which a debootstrap may take most

    def test_from_the_tarball(self):
        """README's user file, word for word; the library from Python, a script, a server that PAM
        asks; and nothing of it is left."""
        need("ip")
        root = self.room() / "root"
        run("cp", "-a", base(), root)
        for file in self.packed(self.packers[0]).parent.glob(f"{NAME}.tar.xz*"):
            shutil.copy(file, root)
        write_files(root, {"session.sh": sample("README.md", "sh", "credkeep users.db init")})
        first, *lines = typed(root, TYPED).splitlines(keepends=True)
        begun, built, installed = map(float, first.split()[1:])
        print(f"make took {built - begun:.0f} s, and make install {installed - built:.0f} s")
        self.assertEqual("".join(lines), sample("README.md", "text", "enrolled") + SAID)


class OrdinaryUser(helpers.Case):
    seconds = 2400

    def test_of_the_tree(self):
        """The tests of a clone, for a user who has only gcc, make and Python: none fails, and a
        skipped one names what the machine lacks."""
        need("ip")
        root = self.room() / "root"
        run("cp", "-a", base(), root)
        copy(root / "rigzumal")
        begun = time.monotonic()
        lines = typed(root, TYPED_BY_USER).splitlines()
        skips = [it for it in lines if it.startswith("skipped ")]
        print(*skips, f"{lines[-1]}, in {time.monotonic() - begun:.0f} s", sep="\n")
        found = re.fullmatch(r"tests: (\d+) passed, 0 failed, \d+ skipped", lines[-1])
        self.assertGreater(int(found[1]), LEAST)
        self.assertEqual([it for it in skips if not it.startswith("skipped needs ")], [])
