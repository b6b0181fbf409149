"""Ports for servers that tests start: each block of ports belongs to one process."""

from __future__ import annotations

import contextlib
import random
import socket

# Below those that the system gives to connections that go out: such a one would take the port of a
# server that is started again.
FIRST, END, BLOCK = 20000, 32000, 8
CLAIMS = contextlib.ExitStack()


def free_port(count: int = 1) -> int:
    """The first of up to 8 ports in a row that nothing listens on.

    No other process of these tests gets them until this one has ended: their block is claimed by
    the name of an abstract socket, which nobody else can bind meanwhile.
    """
    assert count <= BLOCK
    blocks = range(FIRST, END, BLOCK)
    for start in random.sample(blocks, len(blocks)):
        with contextlib.ExitStack() as stack, contextlib.suppress(OSError):
            claim = stack.enter_context(socket.socket(socket.AF_UNIX))
            claim.bind(f"\0rigzumal-ports-{start}")
            for port in range(start, start + count):
                with socket.socket() as probe:
                    probe.bind(("127.0.0.1", port))
            CLAIMS.push(stack.pop_all())
            return start
    raise RuntimeError(f"no block of {FIRST} to {END} is free")
