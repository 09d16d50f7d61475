"""Random runs of servers and clients over connections that are tapped at both ends."""
from __future__ import annotations

import random
import uuid
from collections.abc import Callable, Iterator
from dataclasses import dataclass
from functools import partial
from typing import Any, NamedTuple

from smblease import Acknowledgment, Client, CreateAsk, LeaseState, Server
from smblease.client import lease_key
from smblease.requests import AcknowledgeRequest, CloseRequest, CreateRequest, Request
from smblease.values import Access, Share

from tests.drive.taps import CLIENT, SERVER, SIDES, Connection, Taps
from tests.drive.tapped_realm import Realm

STATES = ("R", "RH", "RW", "RWH", "RWH", "RWH", "none")
WANTS = (STATES, ("RWH",), ("RWH", "RH"))
SHARES = ((Share.READ_WRITE,), (Share.READ_WRITE, Share.READ_WRITE, Share.READ, Share.NONE))
ACCESSES = (Access.READ_WRITE, Access.READ_WRITE, Access.READ)
ACKNOWLEDGES, CREATES, CLOSES_KNOWN, CLOSES_ANY = "acknowledges", "creates", "closes known", "closes any"
OTHER_ASKS = {"close": Client.close_file, "read": Client.read, "flush": Client.flush}
MOVES = ("leaves", "arrives", "serves", "takes")
Move = tuple[str, Callable[[], None]]


class Loss(NamedTuple):
    """A side ends a connection: after what it made before or at once, and that is seen or isn't."""

    side: str
    at_once: bool = False
    silent: bool = False


SEEN_LOSSES = tuple(Loss(side, at_once) for side in SIDES for at_once in (False, True))


@dataclass(frozen=True)
class Ways:
    """What may happen in a run besides what applications ask of clients that stay connected."""

    # how connections end
    losses: tuple[Loss, ...] = ()
    # a connection ends while something is on its way on it, and its end is on its way for a while
    crossing: bool = False
    # the timer of a break runs out while the break is on its way
    late: bool = False
    # requests that no machine made, by their kinds
    strays: tuple[str, ...] = ()
    # a new session names the last one (PreviousSessionId)
    previous: bool = False
    servers: int = 1
    # frames are missing in the captures
    gaps: bool = False


class Run:
    """A run; the same one for a seed."""

    def __init__(self, seed: str, ways: Ways, make_server: Callable[[list[bytes]], Any] = Server) -> None:
        self._chance = random.Random(seed)
        self._ways = ways
        self.taps = Taps(self._chance, self._one_of((0.01, 0.03, 0.1)) if ways.gaps else 0)
        self._connections: list[Connection] = []
        files, clients = self._one_of((1, 1, 1, 2, 3)), self._one_of((2, 2, 3, 3))
        self._realms = {number: self._realm(number, make_server([b"abc"] * files), clients, files)
                        for number in range(1, ways.servers + 1)}
        # what the run likes to do
        self._asking, self._rarity = self._one_of((0.15, 0.3, 0.6)), self._one_of((0.02, 0.05, 0.1))
        self._weights = {it: self._one_of((0.4, 1.0, 3.0)) for it in MOVES}
        self._wants, self._shares = self._one_of(WANTS), self._one_of(SHARES)
        self._length = self._one_of((100, 200, 300))
        # whether what clients believed ever clashed
        self.clashed = False

    def _one_of(self, items: Any) -> Any:
        return self._chance.choice(items)

    def _happens(self, probability: float) -> bool:
        return self._chance.random() < probability

    def _realm(self, number: int, server: Any, clients: int, files: int) -> Realm:
        """A client's keys are others at each server."""
        guids = [uuid.UUID(bytes=bytes([17 * client, number] * 8)) for client in range(1, clients + 1)]
        return Realm(self._chance, server, guids, files, partial(self._connected, number), self._ways.previous)

    def _connected(self, server: int, client: int) -> Connection:
        self._connections.append(Connection(len(self._connections) + 1, client, server, self.taps))
        return self._connections[-1]

    def runs(self) -> Taps:
        """The taps of the whole run."""
        for realm in self._realms.values():
            for client in realm.peers:
                realm.connects(client)
        for _ in range(self._length):
            realm = self._one_of(list(self._realms.values()))
            client, file = self._one_of(list(realm.peers)), self._chance.randint(1, realm.files)
            if self._happens(self._rarity):
                self._rarely(realm, client, file)
            elif self._happens(self._asking):
                self._applies(realm, client, file)
            for _ in range(self._chance.randrange(4)):
                self._moves_on()
        return self.taps

    # ---- messages go on

    def _moves_on(self) -> None:
        moves = [move for one in self._connections for move in self._moves(one)]
        if moves:
            weights = [self._weights[name] for name, _ in moves]
            self._chance.choices(moves, weights)[0][1]()
            self.clashed = self.clashed or any(it.clashes() for it in self._realms.values())

    def _moves(self, one: Connection) -> Iterator[Move]:
        realm = self._realms[one.server]
        for side, way in one.ways.items():
            if way.made:
                yield "leaves", partial(one.leaves, side)
            if way.going:
                yield "arrives", partial(one.arrives, side)
        if one.ways[CLIENT].came:
            yield "serves", partial(realm.serves, one)
        if one.ways[SERVER].came:
            yield "takes", partial(realm.takes, one)

    def _is_quiet(self, realm: Realm, client: int) -> bool:
        """Nothing is on its way to the client or from it, and none of its requests waits."""
        busy = (it.is_busy for it in self._connections if it.client == client and self._realms[it.server] is realm)
        return not (realm.peers[client].waiting.requests or any(busy))

    # ---- what is asked

    def _applies(self, realm: Realm, client: int, file: int) -> None:
        """What an application asks of a client."""
        if realm.peers[client].used is None:
            realm.connects(client)
            return
        kind = self._chance.choices(("open", "write", *OTHER_ASKS), (6, 3, 4, 2, 1))[0]
        if kind == "open":
            access, share, want = self._one_of(ACCESSES), self._one_of(self._shares), LeaseState.of(self._one_of(self._wants))
            durable = bool(self._ways.losses) and self._happens(0.3)
            realm.asks(client, lambda it: it.open(file, access, share, want, durable))
        elif kind == "write":
            realm.asks(client, lambda it: it.write(file, 0, b"X"))
        else:
            realm.asks(client, lambda it: OTHER_ASKS[kind](it, file))

    def _rarely(self, realm: Realm, client: int, file: int) -> None:
        kinds = ["expires", "scavenges", *["loses"] * 2 * bool(self._ways.losses), *["strays"] * 4 * bool(self._ways.strays)]
        kind = self._one_of(kinds)
        if kind == "expires":
            key = lease_key(realm.guids[client - 1], file)
            if realm.server.breaking(client, key) and (self._ways.late or self._is_taken(realm, client)):
                realm.gives(realm.server.expire(client, key))
        elif kind == "scavenges":
            kept = realm.server.kept(client, file)
            if kept is not None:
                realm.gives(realm.server.scavenge(kept))
        elif kind == "loses":
            self._loses(realm, client)
        else:
            realm.sends(client, self._strays(realm, client))

    def _is_taken(self, realm: Realm, client: int) -> bool:
        """Nothing is on its way to the client."""
        mine = (it for it in self._connections if it.client == client and self._realms[it.server] is realm)
        return not any(it.ways[SERVER].made or it.ways[SERVER].going for it in mine)

    def _loses(self, realm: Realm, client: int) -> None:
        loss, peer = self._one_of(self._ways.losses), realm.peers[client]
        connection = peer.used if loss.side == CLIENT else peer.had
        if connection is None or not (self._ways.crossing or self._is_quiet(realm, client)):
            return
        connection.ends(loss.side, loss.at_once, loss.silent)
        if not (self._ways.crossing or loss.silent):
            connection.leaves(loss.side)
            connection.arrives(loss.side)
        if loss.side == CLIENT:
            realm.notices(connection)
        else:
            realm.drops(connection)

    def _strays(self, realm: Realm, client: int) -> tuple[Request, ...]:
        """A request that no machine made, or none."""
        kind, known = self._one_of(self._ways.strays), realm.peers[client].known
        guid = self._one_of(realm.guids) if self._happens(0.2) else realm.guids[client - 1]
        key, state = lease_key(guid, self._chance.randint(1, realm.files)), LeaseState.of(self._one_of(STATES))
        if kind == ACKNOWLEDGES:
            return (AcknowledgeRequest(Acknowledgment(key, state).write()),)
        if kind == CLOSES_KNOWN:
            return (CloseRequest(self._one_of(known)),) if known else ()
        if kind == CLOSES_ANY:
            return (CloseRequest(self._chance.randint(1, realm.opened + 1)),)
        ask = CreateAsk(key if self._happens(0.8) else None, state)
        return (CreateRequest(self._chance.randint(1, realm.files), Access.READ_WRITE, Share.READ_WRITE, ask.write()),)
