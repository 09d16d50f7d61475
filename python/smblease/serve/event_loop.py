"""The event loop: connections that come, timers, and signals that end it."""
from __future__ import annotations

import asyncio
import ipaddress
import logging
import os
import signal
import socket
from collections.abc import Callable
from typing import Any

from smblease.drive.faults import DriveFault, Usage
from smblease.faults import ToolFault
from smblease.serve.status_error import EXHAUSTED

LOG = logging.getLogger("serve")
AT_ONCE, WAITING = 16, 128

def ending_signals() -> list[signal.Signals]:
    """SIGHUP isn't one where nohup, say, has it passed over."""
    is_hung_up = signal.getsignal(signal.SIGHUP) is not signal.SIG_IGN
    return [signal.SIGTERM, signal.SIGINT, signal.SIGQUIT, *([signal.SIGHUP] if is_hung_up else [])]


class Loop:
    """An event loop that ends with the first fault of what it calls, but for those that are one client's."""

    def __init__(self) -> None:
        self.events = asyncio.new_event_loop()
        self.events.set_exception_handler(self._failed)
        self._fault: BaseException | None = None
        self._said = 0.0

    def _failed(self, events: asyncio.AbstractEventLoop, context: dict[str, Any]) -> None:
        fault = context.get("exception")
        if isinstance(fault, OSError):
            # No connection can be taken: asyncio says so for each that waits, and tries again after a second.
            if events.time() > self._said + 1:
                LOG.warning("%s: %s", context["message"], fault.strerror)
                self._said = events.time()
        elif isinstance(fault, EXHAUSTED):
            LOG.warning("%s: %s", context["message"], type(fault).__name__)
        elif fault:
            self._fault = self._fault or fault
            events.stop()

    def listen(self, address: str, port: int, made: Callable[[], asyncio.Protocol]) -> int:
        """Takes connections at a port, once it runs; the port."""
        try:
            family = socket.AF_INET6 if ipaddress.ip_address(address).version == 6 else socket.AF_INET
            listening = socket.create_server((address, port), family=family)
            self.events.run_until_complete(self.events.create_server(made, sock=listening, backlog=AT_ONCE))
            # (asyncio has one number for those that wait and those that it takes before any is served)
            listening.listen(WAITING)
        except ValueError:
            raise Usage("--address is an address of IP") from None
        except OSError as fault:
            raise DriveFault(f"{address}, port {port}: {os.strerror(fault.errno or 0)}") from None
        return int(listening.getsockname()[1])

    def heed_signals(self) -> None:
        """From here on a signal ends it, even before it runs."""
        for number in ending_signals():
            self.events.add_signal_handler(number, self.events.stop)

    def run(self) -> None:
        self.events.run_forever()
        if isinstance(self._fault, ToolFault):
            raise self._fault
        if self._fault:
            LOG.debug("where:", exc_info=self._fault)
            raise DriveFault(f"the shell broke down: {type(self._fault).__name__}: {self._fault}")
