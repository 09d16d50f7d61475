"""Leases of folders: what clients cache of the names in a folder, and of what a list shows of them.

To the manager a folder is a file that every open with a lease reads and shares; W is never granted. Before a name there is made,
removed or changed, or what a list shows of it, others are sent a break, which nobody waits for: who takes it lists anew. At a
write that comes at the CLOSE, as with Windows."""
from __future__ import annotations

from uuid import UUID

from smblease import Access, CreateAsk, Extent, LeaseState, Share
from smblease.serve.asks import Granted, Pause, Steps, Waits, to_open
from smblease.serve.create_parameters import CreateParameters
from smblease.serve.node import Node
from smblease.serve.opens import Open
from smblease.serve.request import Handlers, Request


class FolderLeases(Handlers):
    # whether there was one ever
    has_any = False

    def opening(self, request: Request, wanted: CreateParameters, node: Node) -> Waits[Granted]:
        self.has_any = True
        ask = CreateAsk(wanted.ask.key, wanted.ask.state & ~LeaseState.W)
        granted = yield to_open(request.client, node, Access.READ, Share.READ_WRITE, wanted.asking(ask))
        assert isinstance(granted, Granted)
        return granted

    def making(self, request: Request, wanted: CreateParameters) -> Steps:
        """Before a new name of this path; no list shows a stream of a file that is there."""
        path, stream = wanted.path.partition(":")[::2]
        is_shown = self.has_any and not (stream and self._server.names.find(path))
        if is_shown and self._tell(path, request.client.number, wanted.parent_key):
            yield from self._until_sent()

    def changing(self, request: Request, opened: Open, *paths: str) -> Steps:
        """Before something changes of these names, by this open."""
        for path in paths:
            if self._tell(path, request.client.number, opened.parent_key):
                yield from self._until_sent()

    def closing(self, request: Request, opened: Open) -> Steps:
        """Before a CLOSE, which may remove the name; and what was written shows from then on."""
        node = opened.node
        if opened.has_written or len(node.opens) == 1 and (node.is_deleting or opened.deletes):
            yield from self.changing(request, opened, *([] if node.is_stream else [node.path]))

    def ending(self, opened: Open) -> None:
        """An open ends without a CLOSE, and changes what a list shows."""
        if not opened.node.is_stream:
            self._tell(opened.node.path, *((opened.client.number, opened.parent_key) if opened.client else (0, None)))

    def _tell(self, path: str, client: int, key: UUID | None) -> bool:
        """Has others give up what they cache of the folder of this path, but for the client's lease of this key; whether anybody
        is sent a break by that. The share's own folder is in none."""
        folder = self._server.names.held_folder_of(path) if self.has_any and path else None
        if folder is None or not folder.opens.leases:
            return False
        number = folder.number
        return bool(self._server.host.call(lambda manager: manager.give_up(client, key, number, Extent.ALL)))

    def _until_sent(self) -> Steps:
        """Goes on once what is decided by now is carried out."""
        pause = Pause()
        self._server.host.resume([pause])
        yield pause
