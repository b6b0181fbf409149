"""The clients of credkeep-server, which answers for a book of accounts.

    book = Client("/run/rigzumal/users/login.sock")
    if book.verify("ada", password) is Reply.YES: ...

`rigzumal.server.aio` has the client for asyncio. By default the login socket allows verify, change
and known, and the admin socket allows all operations.
"""

from rigzumal.server._client import LOGIN_SOCKET, Client, Denied, Later, Refused, Reply
from rigzumal.server._client import ServerError, Unavailable

__all__ = ["LOGIN_SOCKET", "Client", "Denied", "Later", "Refused", "Reply"]
__all__ += ["ServerError", "Unavailable"]
