"""Tests of secrets: the bytes that a call leaves, and the branches and addresses that depend on
secrets."""

import hashlib
import struct
import unittest

from harness import ARCH, BUILDS, IN_THREADS, IS_NATIVE, WITHOUT_BUILDS
from harness import built, need, need_glibc, need_host, run, sources_for
from leaks import JOBS, check_leaks

# The bytes of a processor's vectors, by qemu's names.
REGISTERS = {
    "x86_64": {"qemu64": 16, "Haswell": 32},
    "arm64": {"cortex-a57": 16, "neoverse-n1": 16, "a64fx": 64, "max": 64},
}

# The sizes of the jobs' password and secret, and the rule of their bytes.
VAULT = ((48, 197, 71), (40, 163, 37))


class Secrets(unittest.TestCase):
    def of_each_build(self, name, *words, **options):
        """Runs a test over the jobs, with the C library bound lazily."""
        for build in BUILDS:
            with self.subTest(build):
                linked = sources_for(build)
                for flags in ([], [IN_THREADS]):
                    run(built(name, [*JOBS, "-Wl,-z,lazy", *flags], linked), *words, **options)

    def test_cleared_memory(self):
        """No secret is left after a call. While a tag is computed in parts, nothing is left of the
        cleared inputs, nor of RFC 9106's hash of the jobs' inputs."""
        password, secret = (
            bytes((factor * at + first) % 256 for at in range(size))
            for size, factor, first in VAULT
        )
        parts = [struct.pack("<6I", 3, 40, 64, 1, 0x13, 2)]
        for data in (password, b"sixteen of salt.", secret, b""):
            parts += [struct.pack("<I", len(data)), data]
        self.of_each_build("cleared", hashlib.blake2b(b"".join(parts)).hexdigest())

    def test_stacks(self):
        """Each call runs on the smallest stack that the header allows, and in a thread with 32 KiB.
        A call clears a fifth more of the stack than any call uses."""
        need_glibc()  # for contexts of other stacks
        self.of_each_build("stacks", env={"LD_BIND_NOT": "1"})

    def test_registers(self):
        """No register that a call need not preserve holds anything afterwards."""
        run(built("registers", ["-O2"], WITHOUT_BUILDS))

    def test_fewer_registers(self):
        """Registers on a processor without narrow forms, and on systems that save fewer: no call
        uses a register that isn't saved."""
        if not IS_NATIVE:
            need_host()
        lacking = ["-Itests/x86_64/lacking", '-DCLEAR_NARROW(n)="ud2\\n\\t"']
        run(built("registers", ["-O2", *lacking], WITHOUT_BUILDS))
        for kept in (0x7, 0x3):  # a system without AVX-512, and without AVX
            system = [f'-DREAD_KEPT_REGISTERS="mov ${kept}, %0; mov $0, %1"', f"-DKEPT={kept}"]
            run(built("registers", ["-O2", *system], WITHOUT_BUILDS))

    def test_registers_on_processors(self):
        """Registers on processors that have fewer, and on ones with SVE."""
        words = [built("registers", ["-O2", "-static"], WITHOUT_BUILDS)]
        if IS_NATIVE:
            need("qemu-x86_64")
            words.insert(0, "qemu-x86_64")
        for name, size in REGISTERS[ARCH].items():
            with self.subTest(name):
                self.assertIn(f"of {size} bytes", run(*words, env={"QEMU_CPU": name}))

    def test_secrets(self):
        """No branch and no address depends on a secret, but where that is by design: in the build
        of most processors. test_older_builds.py has the others."""
        check_leaks("v3")
