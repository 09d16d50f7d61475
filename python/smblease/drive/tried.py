"""What a run tried of a server's leases: a verdict says little of what wasn't tried."""
from __future__ import annotations

from dataclasses import dataclass, replace

import smblease
from smblease.replies import AcknowledgeDone, Break, Created, CreateFailed, Reply
from smblease.requests import CreateRequest, Request
from smblease.values import Status


@dataclass(frozen=True)
class Tried:
    """How many creates asked for a lease, were granted one, and were refused for its key; how many breaks came and were
    acknowledged; and how many reads a client answered from its cache."""

    asked: int = 0
    granted: int = 0
    refused: int = 0
    breaks: int = 0
    acknowledged: int = 0
    cached_reads: int = 0

    def after(self, request: Request | None, reply: Reply) -> Tried:
        """With a message that came, which answers this request, if any."""
        if isinstance(reply, Break):
            return replace(self, breaks=self.breaks + 1)
        if isinstance(reply, AcknowledgeDone):
            return replace(self, acknowledged=self.acknowledged + 1)
        return self._after_create(request, reply) if isinstance(request, CreateRequest) else self

    def _after_create(self, request: CreateRequest, reply: Reply) -> Tried:
        try:
            ask = smblease.CreateAsk.read(request.contexts)
            is_granted = isinstance(reply, Created) and bool(smblease.CreateAnswer.read(reply.contexts).state)
        except smblease.Fault:
            return self
        is_refused = bool(ask.key) and isinstance(reply, CreateFailed) and reply.status == Status.INVALID_PARAMETER
        return replace(self, asked=self.asked + bool(ask.key and ask.state), granted=self.granted + is_granted,
                       refused=self.refused + is_refused)

    @property
    def is_nothing(self) -> bool:
        """Whether no lease was granted, so that no rule could be broken."""
        return not self.granted

    @property
    def remarks(self) -> list[str]:
        """What a verdict says little by."""
        remarks = []
        if not self.granted:
            asked = f"{self.asked} creates asked for one" if self.asked else "no create that was answered asked for one"
            remarks.append(f"no lease was granted: {asked}")
        if self.refused:
            creates = "1 create was" if self.refused == 1 else f"{self.refused} creates were"
            remarks.append(f"{creates} refused for its lease key (STATUS_INVALID_PARAMETER)")
        return remarks
