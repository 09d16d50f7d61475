use crate::calls::{Ask, Call, Text};
use smblease::proved::lease_state::{Access, Share};

const STATES: [u8; 6] = [0, 1, 3, 5, 7, 7];

const ACCESSES: [Access; 4] = [Access::Read, Access::Write, Access::ReadWrite, Access::ReadWrite];

const SHARES: [Share; 8] = [
    Share::Nothing,
    Share::Read,
    Share::ReadWrite,
    Share::ReadWrite,
    Share::ReadWrite,
    Share::ReadWrite,
    Share::ReadWrite,
    Share::ReadWrite,
];

/// Numbers from a seed, each from the one before, and calls by them.
pub struct Numbers {
    state: u64,
}

impl Numbers {
    pub fn new(seed: u64) -> Numbers {
        Numbers { state: seed }
    }

    // A number below this one.
    fn below(&mut self, limit: u8) -> u8 {
        self.state = self.state.wrapping_mul(6_364_136_223_846_793_005).wrapping_add(1_442_695_040_888_963_407);
        ((self.state >> 33) % u64::from(limit)) as u8
    }

    /// A call, where the FileIds given last go up to this one.
    pub fn call(&mut self, last: u64) -> Call {
        let client = 1 + self.below(8);
        let fid = last.saturating_sub(u64::from(self.below(24)));
        match self.below(24) {
            0 | 1 => Call::Join(client),
            2 => Call::Cut(client),
            3 => Call::Expire(client, 1 + self.below(4)),
            4 => Call::Scavenge(fid),
            _ => Call::Ask(client, self.ask(fid)),
        }
    }

    fn ask(&mut self, fid: u64) -> Ask {
        let file = 1 + self.below(4);
        match self.below(16) {
            0 => Ask::Read(fid),
            1 | 2 => Ask::Write(fid, u64::from(self.below(100)), u32::from(self.below(8))),
            3 | 4 => Ask::Close(fid),
            5..=7 => Ask::Ack(file, STATES[usize::from(self.below(6))]),
            8 => Ask::NoAck,
            _ => {
                let access = ACCESSES[usize::from(self.below(4))];
                let share = SHARES[usize::from(self.below(8))];
                Ask::Create(file, access, share, self.text(file, fid))
            }
        }
    }

    // Mostly under the key of the file's number, else under any.
    fn text(&mut self, file: u8, fid: u64) -> Text {
        let key = if self.below(6) == 0 { 1 + self.below(4) } else { file };
        let state = STATES[usize::from(self.below(6))];
        match self.below(8) {
            0 => Text::Nothing,
            1 => Text::Faulty,
            2 => Text::Reconnect(key, fid),
            3 | 4 => Text::Durable(key, state),
            _ => Text::Leased(key, state),
        }
    }
}
