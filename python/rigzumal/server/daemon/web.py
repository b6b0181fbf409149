"""Answers HTTP requests of nginx's auth_request and the like: reads Basic credentials, and sends
a status."""

import base64
import re
from collections.abc import Sequence
from typing import Any, Optional

import h11

from .clients import READ_SIZE, Client
from .protocol import ANSWERS, NO_ANSWER

CHALLENGE = ("WWW-Authenticate", 'Basic realm="book", charset="UTF-8"')
CLOSE = ("Connection", "close")
HEADERS = {400: [CLOSE], 401: [CHALLENGE], 405: [("Allow", "GET, HEAD")], 505: [CLOSE]}
VERSIONS = (b"1.0", b"1.1")
METHODS = (b"GET", b"HEAD")
LONGEST_HEAD = 8192  # bytes
BASIC = re.compile(rb"basic +([A-Za-z0-9+/]+={0,2})", re.I)
NAME = re.compile(rb"[!-~\x80-\xff]+")
TAG = b"1"  # the tag of each request: the server answers one at a time


def credentials(headers: Sequence[tuple[bytes, bytes]]) -> Optional[tuple[bytes, bytes]]:
    """Returns the name in a request's only Authorization header (RFC 7617), and the password in the
    form of a line's field."""
    values = [value for name, value in headers if name == b"authorization"]
    found = BASIC.fullmatch(values[0]) if len(values) == 1 else None
    if found is None:
        return None
    try:
        text = base64.b64decode(found[1], validate=True)
    except ValueError:
        return None
    name, colon, password = text.partition(b":")
    if not colon or not NAME.fullmatch(name):
        return None
    return name, base64.b64encode(password).rstrip(b"=") or b"-"


def status_of_framing(request: Any) -> int:
    """Returns the status for a request that servers may read in two ways (RFC 9112, section 6.1),
    or 0 for any other request."""
    if request.http_version not in VERSIONS:
        return 505
    names = {name for name, _ in request.headers}
    is_framed_twice = b"content-length" in names or request.http_version == b"1.0"
    return 400 if b"transfer-encoding" in names and is_framed_twice else 0


class WebClient(Client):
    """A client that sends requests, and receives each answer before the server reads the next
    request."""

    no_room = b"HTTP/1.1 503 Service Unavailable\r\nContent-Length: 0\r\nConnection: close\r\n\r\n"

    def __init__(self, *words: Any) -> None:
        super().__init__(*words)
        self.http: Any = h11.Connection(h11.SERVER, max_incomplete_event_size=LONGEST_HEAD)
        self.name = b""  # in the request that is being answered

    async def read(self) -> None:
        try:
            while not self.is_ending:
                data = await self.loop.sock_recv(self.socket, READ_SIZE)
                if not data:
                    return
                self.http.receive_data(data)
                await self.answer_requests()
        except h11.RemoteProtocolError as fault:
            await self.respond(fault.error_status_hint)

    async def answer_requests(self) -> None:
        """Answers the requests that have arrived."""
        while not self.is_ending:
            request = self.http.next_event()
            if not isinstance(request, h11.Request):
                return
            has_body = not isinstance(self.http.next_event(), h11.EndOfMessage)
            await self.answer_request(request, has_body)
            await self.has_fewer(1)

    async def answer_request(self, request: Any, has_body: bool) -> None:
        if status := status_of_framing(request):
            await self.respond(status)
            return
        found = credentials(request.headers)
        if has_body:
            status = 413
        elif request.method not in METHODS:
            status = 405
        elif found is None:
            status = 401
        else:
            self.name, password = found
            await self.submit(TAG, [b"verify", self.name, password])
            return
        await self.respond(status)
        await self.pause()

    async def reply(self, tag: bytes, answer: bytes, seconds: int = 0) -> None:
        meaning = ANSWERS.get(answer.decode(), NO_ANSWER)
        await self.respond(meaning.http, seconds)

    async def respond(self, status: int, seconds: int = 0) -> None:
        """Sends a status, and prepares for the next request if the connection allows one."""
        headers: list[tuple[str, Any]] = [("Content-Length", "0"), *HEADERS.get(status, ())]
        if status == 200:
            headers.append(("Remote-User", self.service.names.spelling(self.name)))
        if seconds:
            headers.append(("Retry-After", str(seconds)))
        head = h11.Response(status_code=status, headers=headers)
        await self.write([self.http.send(head) + self.http.send(h11.EndOfMessage())])
        if self.http.our_state is self.http.their_state is h11.DONE:
            self.http.start_next_cycle()
        else:
            self.end()
