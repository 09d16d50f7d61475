"""Opens of attributes alone that have a lease or an oplock.

To the manager such an open is one that reads and shares all. It isn't asked for where that would break something or be refused;
and since nobody is to be kept from a file by it (MS-FSA 2.1.5.1.2), who shares no reading is the shell's to guard meanwhile."""
from __future__ import annotations

from uuid import UUID

from smblease.serve.access import SHARE_READ
from smblease.serve.node import Node
from smblease.serve.opens import ManagerClient
from smblease.serve.request import Handlers


class Looking(Handlers):
    def may_cache(self, node: Node, client: ManagerClient, key: UUID | None) -> bool:
        """Whether the manager would open it at once, and break nothing."""
        if any(task.asked and task.asked.node is node for task in self._server.host.waiting):
            return False
        own = client.leases.get(key) if key else None
        return not node.opens.without_reading and all(it is own for it in node.opens.with_writes)

    @staticmethod
    def hides(node: Node, share: int) -> bool:
        """Whether reading isn't shared, and none but opens of attributes would be in the way of that: the manager is told that it
        is shared, and who reads later is refused by the shell."""
        return not share & SHARE_READ and bool(node.opens.looking) and not node.opens.reading
