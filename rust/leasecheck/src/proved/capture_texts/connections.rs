// Made by tools/plain_rust from crates/capture_texts/src/connections.rt. Changes belong there.

use std::prelude::Vec;

use crate::proved::capture_texts::line::{FrameSaid, Side};
use smblease::proved::lease_state::{Bytes, Memory};
use std::alloc::Global;
use std::collections::BTreeMap;

// A connection of which a frame came.
#[derive(Debug)]
pub(crate) struct Connection {
    // Its addresses.
    client: Bytes,
    server: Bytes,
    // The positions of the frames that the side at which the capture is made sent.
    near: Vec<u64>,
    // The first position at which the other side can have sent its last frame.
    far: u64,
}

/// Where a frame is.
#[derive(Clone, Copy, Debug)]
pub(crate) struct Spot {
    /// The side at which the capture is made.
    pub(crate) at: Side,
    /// The number of the frame's line.
    pub(crate) line: u64,
    /// The first position at which it can have been sent.
    pub(crate) earliest: u64,
}

// The position of the last of so many frames.
fn last_position(count: u64, positions: &[u64]) -> u64 {
    if count == 0 {
        return 0;
    }
    match positions.get(count as usize - 1) {
        Some(position) => *position,
        None => 0,
    }
}

impl Connection {
    fn new(alloc: Global, frame: &FrameSaid) -> Result<Connection, Memory> {
        Ok(Connection { client: frame.client.try_copy()?, server: frame.server.try_copy()?, near: Vec::new(alloc), far: 0 })
    }

    fn note(&mut self, spot: Spot, from: Side) -> Result<(), Memory> {
        if from.is_near(spot.at) {
            self.near.push(from.position(spot.line))?;
        } else {
            self.far = spot.earliest;
        }
        Ok(())
    }
}

/// The connections of which frames came, by their numbers.
#[derive(Debug)]
pub(crate) struct Connections {
    by_number: BTreeMap<u64, Connection>,
}

impl Connections {
    /// None. Allocates nothing.
    pub(crate) fn new(alloc: Global) -> Connections {
        Connections { by_number: BTreeMap::new(alloc) }
    }

    /// How many there are.
    pub(crate) fn len(&self) -> usize {
        self.by_number.len()
    }

    /// Whether a frame has other addresses than its connection.
    pub(crate) fn differs(&self, number: u64, frame: &FrameSaid) -> bool {
        match self.by_number.get(&number) {
            Some(one) => !(one.client.as_slice() == frame.client.as_slice() && one.server.as_slice() == frame.server.as_slice()),
            None => false,
        }
    }

    /// The first position at which a frame can have been sent, by the side at which the capture is made and the number of the
    /// frame's line.
    pub(crate) fn earliest(&self, at: Side, line: u64, number: u64, frame: &FrameSaid) -> u64 {
        if frame.from.is_near(at) {
            return frame.from.position(line);
        }
        match self.by_number.get(&number) {
            Some(one) => last_position(frame.acknowledged, &one.near),
            None => last_position(frame.acknowledged, &[]),
        }
    }

    /// The first position at which the side where the capture isn't made can have sent its last frame on a connection.
    pub(crate) fn far(&self, number: u64) -> u64 {
        match self.by_number.get(&number) {
            Some(one) => one.far,
            None => 0,
        }
    }

    /// The address of a connection's client; no byte where it isn't known.
    pub(crate) fn client(&self, number: u64) -> &[u8] {
        match self.by_number.get(&number) {
            Some(one) => one.client.as_slice(),
            None => &[],
        }
    }

    /// The same of its server.
    pub(crate) fn server(&self, number: u64) -> &[u8] {
        match self.by_number.get(&number) {
            Some(one) => one.server.as_slice(),
            None => &[],
        }
    }

    // The connection, which is out of the table then.
    fn take_out(&mut self, alloc: Global, number: u64, frame: &FrameSaid) -> Result<Connection, Memory> {
        match self.by_number.remove(&number) {
            Some(one) => Ok(one),
            None => Connection::new(alloc, frame),
        }
    }

    /// Takes note of a frame.
    pub(crate) fn note(&mut self, alloc: Global, number: u64, spot: Spot, frame: &FrameSaid) -> Result<(), Memory> {
        let mut one = self.take_out(alloc, number, frame)?;
        one.note(spot, frame.from)?;
        self.by_number.insert(number, one)?;
        Ok(())
    }
}
