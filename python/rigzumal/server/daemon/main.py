"""The start of the server, its run and its end."""

import asyncio
import logging
import os
import resource
import signal
import socket
import sys
import time
from contextlib import suppress
from typing import Any

from .book import Book
from .earlier import take_in
from .journal import Problem, log, notify
from .options import Options, parse
from .service import Service
from .tally import metrics

NEWEST_OPTION = "--tries"  # of credkeep's serve
HASHES = 3  # logins with unknown names at the start: the fastest one measures a hash
UNWATCHED_SECONDS = 30.0  # seconds between two looks at the book, if systemd asks for no watchdog
# The seconds after a signal until the server closes a client that reads no answers, drops the lines
# without an answer, and kills the book.
UNREAD_SECONDS = 0.5
LINES_SECONDS = 18.0
LAST_SECONDS = 30.0
KILLED_SECONDS = 1.0  # seconds until a killed book is gone, unless a disk holds it up


def main() -> int:
    logging.basicConfig(format="credkeep-server: %(message)s", level=logging.INFO)
    logging.getLogger("asyncio").disabled = True  # its text may quote a line
    os.umask(0o177)
    signal.signal(signal.SIGHUP, signal.SIG_IGN)
    resource.setrlimit(resource.RLIMIT_CORE, (0, 0))
    most = resource.getrlimit(resource.RLIMIT_NOFILE)[1]
    resource.setrlimit(resource.RLIMIT_NOFILE, (most, most))
    try:
        options = parse(sys.argv[1:])
        if options.metrics:
            print(metrics(options.metrics), end="")
            return 0
        return asyncio.run(serve(options))
    except Problem as problem:
        log.error("%s", problem)
    except ImportError as fault:
        log.error("an option needs the missing package python3-%s", fault.name)
    except OSError as fault:
        log.error("%s: %s", fault.filename or "the system", fault.strerror)
    return 1


async def serve(options: Options) -> int:
    """Answers clients until the book ends or a signal arrives. Returns the status."""
    for door in options.doors:
        door.prepare()
    service = Service(options)
    await refuse_older_credkeep(options)
    loop = asyncio.get_running_loop()
    loop.set_exception_handler(log_fault)
    await service.book.open()
    serving = asyncio.create_task(serve_clients(service))
    service.book.ended.add_done_callback(lambda _: serving.cancel())
    for number in (signal.SIGTERM, signal.SIGINT):
        loop.add_signal_handler(number, serving.cancel)
    try:
        with suppress(asyncio.CancelledError):
            await serving
    finally:
        status = await end(service)
    return status


async def refuse_older_credkeep(options: Options) -> None:
    """Raises Problem if credkeep lacks an option that the server passes."""
    process = await asyncio.create_subprocess_exec(
        *(options.credkeep, options.file, "serve", "--help"),
        stdin=asyncio.subprocess.DEVNULL,
        stdout=asyncio.subprocess.PIPE,
        stderr=asyncio.subprocess.DEVNULL,
    )
    shown, _ = await process.communicate()
    if NEWEST_OPTION.encode() not in shown:
        raise Problem(f"{options.credkeep} is older than this server: it has no {NEWEST_OPTION}")


def log_fault(_loop: asyncio.AbstractEventLoop, context: dict[str, Any]) -> None:
    """Logs a fault of the server itself without its text, which may quote a line."""
    log.error("a fault: %s", type(context.get("exception")).__name__)


async def serve_clients(service: Service) -> None:
    """Admits clients once the book answers, and serves them until the server cancels this task."""
    await asyncio.shield(service.book.ask(b"show", b"-"))  # so that nobody cancels this answer
    await service.log_room.allocate()
    await take_in(service)
    service.transfers.remove_copy()
    if service.foreign:
        await asyncio.shield(service.foreign.note_records())
    for door in service.options.doors:
        accepting = door.accept(service, door.listen())
        service.accepting.append(asyncio.create_task(accepting))
    log.info("start: %s", service.options.file)
    notify("READY=1")
    logins = [service.log_in(b"verify", b"-", b"-") for _ in range(HASHES)]
    service.timing = asyncio.gather(*logins)  # logins with names that no book has
    idle = service.options.idle or float("inf")
    beat = beat_seconds()
    while True:
        await notify_once_answered(service, beat)
        end_idle_clients(service, idle)
        await asyncio.sleep(min(beat, idle / 10))


async def notify_once_answered(service: Service, beat: float) -> None:
    """Waits for the book's answer to a line. Reports to systemd that the server is alive when the
    answer has arrived, and meanwhile at each interval in which an import has the book's file, as
    long as an import may take."""
    answer = service.book.ask(b"show", b"-")
    while not answer.done():
        await asyncio.wait([answer], timeout=beat)
        if answer.done() or service.book.is_lent(service.options.import_seconds()):
            notify("WATCHDOG=1")


def beat_seconds() -> float:
    """Returns the seconds of an interval: half of systemd's limit."""
    text = os.environ.get("WATCHDOG_USEC", "")
    microseconds = float(text) if text.isdecimal() else 0.0
    return microseconds / 2e6 if microseconds else UNWATCHED_SECONDS


def end_idle_clients(service: Service, idle: float) -> None:
    """Closes the connections of clients that neither sent a line nor read their answers for this
    many seconds."""
    for client in list(service.clients):
        is_waiting = client.running and not client.writing.locked()
        if client.active < time.monotonic() - idle and not is_waiting:
            client.end(socket.SHUT_RDWR)


async def end(service: Service) -> int:
    """Ends the clients, each after its answers, and then the book. Returns the book's status."""
    began = time.monotonic()
    notify("STOPPING=1")
    for task in service.accepting:
        task.cancel()  # the paths stay: the sockets may be systemd's
    for client in list(service.clients):
        client.end()
    await wait_for_answers(service, began)
    service.transfers.kill()
    status = await end_book(service.book, LAST_SECONDS - (time.monotonic() - began))
    audit = service.audit
    if lacking := audit.lacking + audit.open_lines:
        log.error("%s lacks %d lines", audit.path, lacking)
    log.info("end: status %d, %s", status, service.tally.stats())
    return status


async def wait_for_answers(service: Service, began: float) -> None:
    """Waits, up to the limit, until each client has its answers and is closed."""
    seconds = 0.0
    while (service.clients or service.tasks) and seconds <= LINES_SECONDS:
        await asyncio.sleep(0.01)
        seconds = time.monotonic() - began
        for client in list(service.clients):
            if client.writing.locked() and seconds > UNREAD_SECONDS:
                client.end(socket.SHUT_RDWR)
    if count := sum(client.running for client in service.clients):
        log.error("%d lines had no answer after %d s", count, seconds)


async def end_book(book: Book, seconds: float) -> int:
    """Lets the book end in order, or kills the book after this many seconds. Returns its status."""
    book.end()
    await asyncio.wait([book.ended], timeout=seconds)
    if not book.ended.done():
        log.error("killing the book's process, which still runs after %d s", LAST_SECONDS)
        book.kill()
        await asyncio.wait([book.ended], timeout=KILLED_SECONDS)
    if book.ended.done():
        return book.ended.result()
    log.error("the server can't kill the book's process: its disk hangs")
    return 128 + signal.SIGKILL
