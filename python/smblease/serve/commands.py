"""What handles the commands of requests."""
from __future__ import annotations

from collections.abc import Callable
from typing import TYPE_CHECKING, Union

from smblease import Status
from smblease.drive.headers import Command
from smblease.serve.asks import Handling
from smblease.serve.create import Create
from smblease.serve.locking import Locking
from smblease.serve.negotiation import Negotiation
from smblease.serve.packets import Answer
from smblease.serve.pipes import Pipes
from smblease.serve.query_directory import QueryDirectory
from smblease.serve.query_info import QueryInfo
from smblease.serve.request import Request
from smblease.serve.sessions import Sessions
from smblease.serve.set_info import SetInfo
from smblease.serve.status_error import StatusError
from smblease.serve.transfers import Transfers
from smblease.serve.validate_negotiate import ValidateNegotiate

if TYPE_CHECKING:
    from smblease.serve.server import Server

Handler = Callable[[Request], Union[Answer, Handling]]


class Commands:
    def __init__(self, server: Server) -> None:
        sessions, transfers = Sessions(server), Transfers(server)
        self._of_pipes: dict[Command | None, Handler] = {**Pipes(server).handlers}
        self.handlers: dict[Command | None, Handler] = {
            Command.NEGOTIATE: Negotiation(server).negotiate, Command.SESSION_SETUP: sessions.set_up,
            Command.LOGOFF: sessions.log_off, Command.TREE_CONNECT: sessions.connect_tree,
            Command.TREE_DISCONNECT: sessions.disconnect_tree, Command.ECHO: sessions.echo,
            Command.OPLOCK_BREAK: server.leases.acknowledge,
            Command.CREATE: Create(server).create, Command.CLOSE: transfers.close, Command.FLUSH: transfers.flush,
            Command.READ: transfers.read, Command.WRITE: transfers.write, Command.LOCK: Locking(server).lock,
            Command.QUERY_INFO: QueryInfo(server).query, Command.SET_INFO: SetInfo(server).set,
            Command.QUERY_DIRECTORY: QueryDirectory(server).query, Command.IOCTL: QueryInfo.control,
            Command.CHANGE_NOTIFY: QueryInfo.notify,
        }
        if server.settings.dialects.has_3:
            validate = ValidateNegotiate(server)
            for handlers in (self.handlers, self._of_pipes):
                handlers[Command.IOCTL] = validate.before(handlers[Command.IOCTL])

    def handler_of_pipes(self, command: Command | None) -> Handler:
        if command not in self._of_pipes:
            raise StatusError(Status.INVALID_DEVICE_REQUEST)
        return self._of_pipes[command]
