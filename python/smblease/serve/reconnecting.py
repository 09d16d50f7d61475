"""Durable opens that are connected again (3.3.5.9.7, 3.3.5.9.12), and creates that are answered again (3.3.5.9.10)."""
from __future__ import annotations

import struct
from dataclasses import replace

from smblease import Access, CreateAsk, Share, Status
from smblease.serve.asks import Granted, Handling, Steps, Waits, opening
from smblease.serve.create_answers import contexts_again, reply
from smblease.serve.create_parameters import DURABLE_2, OPENED, RECONNECT_2, RWH, CreateParameters
from smblease.serve.opens import LEASE, ManagerClient, Open
from smblease.serve.request import Handlers, Request
from smblease.serve.status_error import StatusError

DUPLICATE_OBJECTID = 0xC000022A


class Reconnecting(Handlers):
    def reconnect(self, request: Request, wanted: CreateParameters) -> Handling:
        opened, contexts = yield from self._reconnect(request, wanted)
        return reply(wanted, opened, contexts, OPENED)

    def answer_again(self, request: Request, wanted: CreateParameters, file_id: int) -> Handling:
        """The open that this create made before is answered, and connected again first where its connection was lost."""
        opened = self._server.opens.get(file_id)
        if opened is None or opened.create_guid is None:
            raise StatusError(Status.FILE_CLOSED)
        key = opened.key if opened.level == LEASE else None
        if opened.owner != request.session.owner or key != wanted.lease_named.key:
            raise StatusError(Status.ACCESS_DENIED)
        if not opened.is_connected:
            yield from self._reconnect(request, _by_file_id(wanted, opened, opened.create_guid))
        elif opened.session is not request.session or opened.tree is not request.tree:
            raise StatusError(DUPLICATE_OBJECTID)
        return reply(wanted, opened, contexts_again(opened))

    def _reconnect(self, request: Request, wanted: CreateParameters) -> Waits[tuple[Open, bytes]]:
        """The open, and the contexts of its answer. An oplock's has a client and a key of its own."""
        opened = self._server.opens.get(wanted.ask.reconnect or 0)
        if opened and opened.is_durable and opened.owner != request.session.owner:
            raise StatusError(Status.ACCESS_DENIED)
        if opened and opened.client and opened.client.open is opened:
            return (yield from self._reconnect_oplock(request, wanted, opened))
        node = self._server.names.find(wanted.path)
        if node is None or node.is_folder:
            is_named = opened and not opened.is_connected and opened.client is request.client and opened.key == wanted.key
            raise StatusError(Status.INVALID_PARAMETER if is_named else Status.OBJECT_NAME_NOT_FOUND)
        self._server.names.hold(node)
        try:
            granted = yield from opening(request.client, node, *wanted.rights, wanted.asking(wanted.ask))
            return (yield from self._reconnected(request, request.client, granted))
        finally:
            self._server.names.release(node)

    def _reconnect_oplock(self, request: Request, wanted: CreateParameters, opened: Open) -> Waits[tuple[Open, bytes]]:
        client = opened.client
        if client is None or opened.is_connected or wanted.ask.key and wanted.level == LEASE:
            raise StatusError(Status.OBJECT_NAME_NOT_FOUND)
        self._server.join(client, request.connection, f"an oplock of client {request.client.number}")
        asking = wanted.asking(CreateAsk(client.own_key, RWH, reconnect=opened.file_id))
        try:
            granted = yield from opening(client, opened.node, Access.READ_WRITE, Share.READ_WRITE, asking)
        except StatusError:
            self._server.forget_open(opened)
            raise
        return (yield from self._reconnected(request, client, granted))

    def _reconnected(self, request: Request, client: ManagerClient, granted: Granted) -> Waits[tuple[Open, bytes]]:
        opened = self._server.opens[granted.file_id]
        try:
            yield from self._refuse_late(request, client, opened)
        except StatusError:
            self._server.forget_open(opened)
            raise
        self._server.kept.let_go(opened)
        opened.connection, opened.session, opened.tree = request.connection, request.session, request.tree
        if opened.client:
            self._server.leases.granted(opened.client, opened, granted.answer, granted.contexts)
        return opened, b"" if opened.level != LEASE else granted.contexts

    def _refuse_late(self, request: Request, client: ManagerClient, opened: Open) -> Steps:
        """What is answered once its tree or session is gone: that is closed again."""
        try:
            request.require_tree()
        except StatusError:
            yield from self._server.close_in_manager(client, opened.node, opened.file_id)
            raise


def _by_file_id(wanted: CreateParameters, opened: Open, create_guid: bytes) -> CreateParameters:
    """The same open, as DH2C asks for it."""
    others = {name: data for name, data in wanted.others.items() if name != DURABLE_2}
    others[RECONNECT_2] = struct.pack("<QQ16sL", opened.file_id, opened.file_id, create_guid, 0)
    return replace(wanted, ask=replace(wanted.lease_named, reconnect=opened.file_id), others=others)
