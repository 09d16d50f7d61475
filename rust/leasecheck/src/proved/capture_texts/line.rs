// Made by tools/plain_rust from crates/capture_texts/src/line.rt. Changes belong there.

use crate::proved::capture_texts::names::MessageNames;
use smblease::proved::lease_state::{Bytes, Memory};

/// A side of a connection.
#[derive(Clone, Copy, Debug, PartialEq, Eq)]
pub enum Side {
    Client,
    Server,
}

impl Side {
    /// Whether a frame that this side sent is captured where it is sent, where the capture is made at a side.
    pub(crate) fn is_near(self, at: Side) -> bool {
        matches!((at, self), (Side::Client, Side::Client) | (Side::Server, Side::Server))
    }

    /// Whether what this side sent is taken where the capture has it: at the client, what the server sent.
    pub(crate) fn is_taken(self, at: Side) -> bool {
        matches!((at, self), (Side::Client, Side::Server))
    }

    /// The position of what this side sent, by the number of its line.
    pub(crate) fn position(self, line: u64) -> u64 {
        match self {
            Side::Client => line * 2 - 1,
            Side::Server => line * 2,
        }
    }
}

/// Where a capture has something.
#[derive(Debug)]
pub struct Moment {
    /// The number of the packet in the capture.
    pub packet: u64,
    /// The time in seconds, in the digits of the line.
    pub time: Bytes,
    /// The names of its messages, as far as they can be read.
    pub messages: MessageNames,
}

impl Moment {
    /// The same moment in memory of its own.
    ///
    /// # Errors
    ///
    /// `Memory` where there is none left.
    pub fn try_copy(&self) -> Result<Moment, Memory> {
        Ok(Moment { packet: self.packet, time: self.time.try_copy()?, messages: self.messages.try_copy()? })
    }
}

// A frame of a connection: one message, or those of a compound.
#[derive(Debug)]
pub(crate) struct FrameSaid {
    // The addresses of the client and of the server.
    pub(crate) client: Bytes,
    pub(crate) server: Bytes,
    // The side that sent it.
    pub(crate) from: Side,
    // How many frames of the other side that one's host had acknowledged when it sent this one.
    pub(crate) acknowledged: u64,
    pub(crate) bytes: Bytes,
}

// What a line says of a connection.
#[derive(Debug)]
pub(crate) enum Said {
    Frame(FrameSaid),
    // Something is missing.
    Gap,
    // It is closed.
    End,
}

#[derive(Debug)]
pub(crate) struct Line {
    pub(crate) moment: Moment,
    pub(crate) connection: u64,
    pub(crate) said: Said,
}

impl Said {
    // Whether it is a frame.
    pub(crate) fn is_frame(&self) -> bool {
        matches!(self, Said::Frame(_))
    }
}
