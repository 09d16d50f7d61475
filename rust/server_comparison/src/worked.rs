use crate::calls::Ask::{Ack, Close, Create, NoAck, Read, Write};
use crate::calls::Call::{self, Ask, Cut, Expire, Join, Scavenge};
use crate::calls::Text::{Durable, Leased, Nothing, Reconnect};
use smblease::proved::lease_state::Access::{Read as Reading, ReadWrite as Any};
use smblease::proved::lease_state::Share::{Nothing as Alone, ReadWrite as Shared};

/// The clients of the examples.
pub const THREE_JOINED: [Call; 3] = [Join(1), Join(2), Join(3)];

/// The worked examples of the server.
pub const EXAMPLES: [&[Call]; 9] = [
    &ONE_LIST_OF_OPENS,
    &ACKNOWLEDGMENTS,
    &FILES_IN_ORDER,
    &A_WRITE_BREAKS_KEYS,
    &A_BREAK_TO_READS,
    &PASSES,
    &AN_EXPIRED_KEY,
    &A_KEPT_OPEN,
    &A_KEPT_OPEN_IS_BROKEN,
];

const ONE_LIST_OF_OPENS: [Call; 10] = [
    Ask(1, Create(1, Any, Shared, Leased(1, 7))),
    Ask(2, Create(1, Reading, Shared, Nothing)),
    Ask(1, Ack(1, 3)),
    Ask(2, Write(2, 1, 0)),
    Ask(2, Close(2)),
    Ask(2, Close(2)),
    Ask(1, Create(1, Any, Shared, Leased(1, 7))),
    Ask(1, Create(2, Any, Shared, Leased(1, 7))),
    Ask(1, Close(1)),
    Ask(1, Close(3)),
];

const ACKNOWLEDGMENTS: [Call; 7] = [
    Ask(1, Create(1, Any, Shared, Leased(1, 7))),
    Ask(2, Create(1, Any, Shared, Leased(1, 7))),
    Ask(1, Ack(1, 7)),
    Ask(1, NoAck),
    Ask(1, Ack(9, 3)),
    Ask(1, Ack(1, 3)),
    Ask(1, Ack(1, 3)),
];

// The first file goes first, though its request came later.
const FILES_IN_ORDER: [Call; 5] = [
    Ask(1, Create(1, Any, Shared, Leased(1, 7))),
    Ask(1, Create(2, Any, Shared, Leased(2, 7))),
    Ask(2, Create(2, Any, Shared, Leased(3, 1))),
    Ask(3, Create(1, Any, Shared, Leased(3, 1))),
    Cut(1),
];

const A_WRITE_BREAKS_KEYS: [Call; 7] = [
    Ask(2, Create(1, Any, Shared, Leased(1, 3))),
    Ask(1, Create(1, Any, Shared, Leased(2, 3))),
    Ask(1, Create(1, Any, Shared, Leased(1, 3))),
    Ask(3, Create(1, Any, Shared, Nothing)),
    Ask(3, Write(4, 1, 0)),
    Ask(3, Write(4, 2, 4)),
    Ask(3, Read(4)),
];

const A_BREAK_TO_READS: [Call; 5] = [
    Ask(1, Create(1, Reading, Shared, Leased(1, 3))),
    Ask(3, Create(1, Any, Shared, Nothing)),
    Ask(2, Create(1, Reading, Alone, Nothing)),
    Ask(3, Write(2, 1, 0)),
    Ask(1, Ack(1, 1)),
];

const PASSES: [Call; 6] = [
    Ask(2, Create(1, Any, Shared, Leased(1, 3))),
    Ask(3, Create(1, Any, Shared, Leased(1, 3))),
    Ask(1, Create(1, Any, Alone, Nothing)),
    Ask(2, Write(1, 1, 0)),
    Ask(2, Close(1)),
    Ask(3, Ack(1, 1)),
];

const AN_EXPIRED_KEY: [Call; 8] = [
    Ask(1, Create(1, Any, Shared, Leased(1, 7))),
    Ask(2, Create(1, Any, Shared, Nothing)),
    Expire(1, 2),
    Expire(1, 1),
    Cut(2),
    Ask(1, Create(1, Any, Shared, Leased(1, 7))),
    Cut(1),
    Join(1),
];

const A_KEPT_OPEN: [Call; 9] = [
    Ask(1, Create(1, Any, Shared, Durable(1, 7))),
    Ask(1, Create(1, Any, Shared, Reconnect(1, 1))),
    Cut(1),
    Join(1),
    Ask(1, Create(1, Reading, Alone, Reconnect(1, 1))),
    Ask(1, Read(1)),
    Cut(1),
    Scavenge(1),
    Ask(1, Create(1, Any, Shared, Reconnect(1, 1))),
];

const A_KEPT_OPEN_IS_BROKEN: [Call; 5] = [
    Ask(1, Create(1, Any, Shared, Durable(1, 7))),
    Cut(1),
    Ask(2, Create(1, Any, Shared, Leased(1, 7))),
    Join(1),
    Ask(1, Create(1, Any, Shared, Reconnect(1, 1))),
];
