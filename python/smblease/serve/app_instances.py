"""An application that goes on at another client (3.3.5.9.13): what it has open there makes way."""
from __future__ import annotations

from smblease.serve.asks import Steps
from smblease.serve.create_parameters import CreateParameters
from smblease.serve.node import Node
from smblease.serve.request import Handlers, Request


class AppInstances(Handlers):
    def make_way(self, request: Request, wanted: CreateParameters, node: Node) -> Steps:
        """Opens of the file by DH2Q that the same user's application has by another ClientGuid are closed, and nothing is broken
        for that."""
        instance = wanted.app_instance
        for opened in [it for it in node.opens if instance and it.app_instance == instance]:
            is_elsewhere = opened.client_guid != request.client.guid and opened.owner == request.session.owner
            if is_elsewhere and opened.file_id in self._server.opens:
                yield from self._server.close_open(opened)
