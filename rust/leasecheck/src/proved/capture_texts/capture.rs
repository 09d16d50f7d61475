// Made by tools/plain_rust from crates/capture_texts/src/capture.rt. Changes belong there.

use std::prelude::Vec;

use crate::proved::capture_texts::connections::{Connections, Spot};
use crate::proved::capture_texts::line::{FrameSaid, Line, Moment, Said, Side};
use crate::proved::capture_texts::reading::read_line;
use crate::proved::capture_texts::servers::Servers;
use crate::proved::capture_texts::walking::Walking;
use crate::proved::capture_walk::{Frame, Note};
use crate::proved::lease_texts::{LineFault, is_passed_over};
use smblease::proved::lease_state::Memory;
use std::alloc::Global;

// A line that was taken.
#[derive(Debug)]
pub(crate) struct Kept {
    pub(crate) moment: Moment,
    pub(crate) connection: u64,
    // The number of what is seen first with it.
    pub(crate) number: u64,
    pub(crate) is_frame: bool,
    // Whether it isn't a frame that can't be read.
    pub(crate) is_read: bool,
}

/// The lines of a capture, taken one by one. Those that are passed over don't count.
#[derive(Debug)]
pub struct Capture {
    pub(crate) at: Side,
    pub(crate) kept: Vec<Kept>,
    pub(crate) connections: Connections,
    pub(crate) servers: Servers,
    pub(crate) walking: Walking,
}

impl Capture {
    /// A capture made at a side of its connections, before any line. Allocates nothing.
    pub fn new(alloc: Global, at: Side) -> Capture {
        Capture {
            at,
            kept: Vec::new(alloc),
            connections: Connections::new(alloc),
            servers: Servers::new(alloc),
            walking: Walking::new(alloc),
        }
    }

    // The number of the next line, from 1, where positions of 64 bits go as far.
    fn next_line(&self) -> Result<u64, Memory> {
        let line = self.kept.len() as u64 + 1;
        if line < 1 << 63 { Ok(line) } else { Err(Memory) }
    }

    // Where a frame is for the walk, once its server is known.
    fn place(&self, line: u64, connection: u64, frame: &FrameSaid) -> Frame {
        Frame {
            number: self.walking.number,
            connection,
            server: self.servers.number(frame.server.as_slice()),
            earliest: self.connections.earliest(self.at, line, connection, frame),
            latest: frame.from.position(line),
        }
    }

    // Where a gap or an end is.
    fn mark(&self, line: u64, connection: u64) -> Frame {
        Frame {
            number: self.walking.number,
            connection,
            server: self.servers.number(self.connections.server(connection)),
            earliest: self.connections.far(connection),
            latest: Side::Client.position(line),
        }
    }

    fn alloc(&self) -> Global {
        *self.kept.allocator()
    }

    // Takes a frame. Says whether it can be read.
    fn take_frame(&mut self, connection: u64, frame: &FrameSaid) -> Result<bool, Memory> {
        let alloc = self.alloc();
        let line = self.next_line()?;
        self.servers.note(frame.server.as_slice())?;
        let place = self.place(line, connection, frame);
        let spot = Spot { at: self.at, line, earliest: place.earliest };
        self.connections.note(alloc, connection, spot, frame)?;
        let is_read = self.walking.take_frame(alloc, &place, frame.bytes.as_slice())?;
        self.walking.note_taken(&place, frame.from.is_taken(self.at))?;
        Ok(is_read)
    }

    fn take_mark(&mut self, connection: u64, note: Note<'_>) -> Result<(), Memory> {
        let line = self.next_line()?;
        let place = self.mark(line, connection);
        self.walking.take_note(&place, note)
    }

    // Takes all of a line but what is kept of it. Says whether it isn't a frame that can't be read.
    fn take_said(&mut self, line: &Line) -> Result<bool, Memory> {
        match &line.said {
            Said::Frame(frame) => {
                let is_read = self.take_frame(line.connection, frame)?;
                Ok(is_read)
            }
            Said::Gap => {
                self.take_mark(line.connection, Note::Gap)?;
                Ok(true)
            }
            Said::End => {
                self.take_mark(line.connection, Note::End)?;
                Ok(true)
            }
        }
    }

    fn take(&mut self, line: Line) -> Result<(), Memory> {
        let number = self.walking.number;
        let is_read = self.take_said(&line)?;
        let is_frame = line.said.is_frame();
        self.kept.push(Kept { moment: line.moment, connection: line.connection, number, is_frame, is_read })?;
        Ok(())
    }

    fn differs(&self, line: &Line) -> bool {
        match &line.said {
            Said::Frame(frame) => self.connections.differs(line.connection, frame),
            Said::Gap | Said::End => false,
        }
    }

    /// Takes the next line, without its line feed.
    ///
    /// # Errors
    ///
    /// `Refused` where the line is neither a frame nor a gap nor an end, or has other addresses than its connection: the capture
    /// is as before then. `Memory` where there is none left, or no number of 64 bits for a message; the capture can't go on
    /// then.
    pub fn take_line(&mut self, text: &[u8]) -> Result<(), LineFault> {
        if is_passed_over(text) {
            return Ok(());
        }
        let line = read_line(self.alloc(), text)?;
        if self.differs(&line) {
            return Err(LineFault::Refused);
        }
        self.take(line)?;
        Ok(())
    }
}
