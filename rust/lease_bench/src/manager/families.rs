use crate::manager::asks::{client, key, leased, plain, state};
use crate::manager::stage::Stage;
use smblease::proved::lease_manager::{Ask, CreateAsk, FileNo};
use smblease::proved::lease_state::{Access, FileId, Memory, Share};

/// How many clients a family has.
pub const CLIENTS: u64 = 3;

// The file of all families but the one of many files.
const FILE: FileNo = FileNo(1);

const READS: u32 = 1;

const READS_HANDLES: u32 = 3;

const ALL: u32 = 7;

/// Calls whose cost is to grow with their number.
#[derive(Clone, Copy)]
pub enum Family {
    /// A create waits for n leases, which are acknowledged one by one.
    Acknowledged,
    /// A create waits for n leases, whose timers run out one by one.
    Expired,
    /// n creates conflict with n leases that have no handle to give up.
    Conflicts,
    /// n requests of a client wait for one lease, whose timer runs out.
    Released,
    /// A client with n opens loses its connection, and connects again.
    Cut,
    /// Beside n opens of another client one with a single open is cut n times.
    CutBeside,
    /// Beside n opens of another client a timer runs out n times.
    ExpiredBeside,
    /// n creates of a client wait while another opens, closes and is cut n times.
    Waiting,
    /// The timers of n clients run out, who don't come back; then another one comes n times.
    ExpiredClients,
}

impl Family {
    /// The family of this name.
    pub fn named(word: &str) -> Option<Family> {
        match word {
            "acknowledged" => Some(Family::Acknowledged),
            "expired" => Some(Family::Expired),
            "conflicts" => Some(Family::Conflicts),
            "released" => Some(Family::Released),
            "cut" => Some(Family::Cut),
            "cut-beside" => Some(Family::CutBeside),
            "expired-beside" => Some(Family::ExpiredBeside),
            "waiting" => Some(Family::Waiting),
            "expired-clients" => Some(Family::ExpiredClients),
            _ => None,
        }
    }
}

/// Plays a family of this size.
pub fn play(stage: &mut Stage, family: Family, size: u64) -> Result<(), Memory> {
    match family {
        Family::Acknowledged => acknowledged(stage, size),
        Family::Expired => expired(stage, size),
        Family::Conflicts => conflicts(stage, size),
        Family::Released => released(stage, size),
        Family::Cut => cut(stage, size),
        Family::CutBeside => cut_beside(stage, size),
        Family::ExpiredBeside => expired_beside(stage, size),
        Family::Waiting => waiting(stage, size),
        Family::ExpiredClients => expired_clients(stage, size),
    }
}

fn create_as(access: Access, share: Share, ask: CreateAsk) -> Ask {
    Ask::Create { file: FILE, access, share, ask }
}

// The first client opens the file under n keys.
fn leases(stage: &mut Stage, size: u64, want: u32) -> Result<(), Memory> {
    for number in 0..size {
        let ask = leased(key(number), state(want), false);
        stage.ask(client(1), create_as(Access::Read, Share::Read, ask))?;
    }
    Ok(())
}

// A create of the second client that conflicts with all opens that there are.
fn conflicting(stage: &mut Stage) -> Result<(), Memory> {
    stage.ask(client(2), create_as(Access::Write, Share::ReadWrite, plain()))
}

fn acknowledged(stage: &mut Stage, size: u64) -> Result<(), Memory> {
    leases(stage, size, READS_HANDLES)?;
    conflicting(stage)?;
    for number in 0..size {
        stage.acknowledge(client(1), key(number), state(READS))?;
    }
    Ok(())
}

fn expired(stage: &mut Stage, size: u64) -> Result<(), Memory> {
    leases(stage, size, READS_HANDLES)?;
    conflicting(stage)?;
    for number in 0..size {
        stage.expire(client(1), key(number))?;
    }
    Ok(())
}

fn conflicts(stage: &mut Stage, size: u64) -> Result<(), Memory> {
    leases(stage, size, READS)?;
    for _number in 0..size {
        conflicting(stage)?;
    }
    Ok(())
}

fn released(stage: &mut Stage, size: u64) -> Result<(), Memory> {
    stage.open(client(1), FILE, leased(key(0), state(ALL), false))?;
    for _number in 0..size {
        stage.open(client(2), FILE, plain())?;
    }
    stage.expire(client(1), key(0))
}

// Half of the opens are durable, and stay. Each is on a file of its own.
fn cut(stage: &mut Stage, size: u64) -> Result<(), Memory> {
    for number in 0..size {
        let ask = leased(key(number), state(ALL), number % 2 == 0);
        stage.open(client(1), FileNo(number.wrapping_add(1)), ask)?;
    }
    stage.reconnect(client(1))?;
    for number in 0..size {
        stage.read(client(1), FileId(number.wrapping_add(1)))?;
    }
    Ok(())
}

// The first client has n opens that last, each on a file of its own.
fn many_opens(stage: &mut Stage, size: u64) -> Result<(), Memory> {
    for number in 0..size {
        let ask = leased(key(number), state(READS_HANDLES), true);
        stage.open(client(1), FileNo(number.wrapping_add(1)), ask)?;
    }
    Ok(())
}

fn cut_beside(stage: &mut Stage, size: u64) -> Result<(), Memory> {
    many_opens(stage, size)?;
    for number in 0..size {
        stage.open(client(2), FileNo(number.wrapping_add(1)), plain())?;
        stage.reconnect(client(2))?;
    }
    Ok(())
}

// The lease of a client ends by its timer, for which the create of another one waits: its FileId is so much above the last one.
fn end_by_timer(stage: &mut Stage, lost: u64, other: u64, file: FileNo, last: u64) -> Result<(), Memory> {
    stage.open(client(lost), file, leased(key(0), state(ALL), false))?;
    stage.open(client(other), file, plain())?;
    stage.expire(client(lost), key(0))?;
    stage.close(client(other), FileId(last.wrapping_add(2)))
}

fn expired_beside(stage: &mut Stage, size: u64) -> Result<(), Memory> {
    many_opens(stage, size)?;
    let file = FileNo(size.wrapping_add(1));
    for number in 0..size {
        end_by_timer(stage, 2, 3, file, size.wrapping_add(number.wrapping_mul(2)))?;
        stage.reconnect(client(2))?;
    }
    Ok(())
}

fn waiting(stage: &mut Stage, size: u64) -> Result<(), Memory> {
    stage.open(client(1), FILE, leased(key(0), state(ALL), false))?;
    for _number in 0..size {
        stage.open(client(2), FILE, plain())?;
    }
    for number in 0..size {
        stage.open(client(3), FileNo(2), plain())?;
        stage.close(client(3), FileId(number.wrapping_add(2)))?;
        stage.reconnect(client(3))?;
    }
    Ok(())
}

fn expired_clients(stage: &mut Stage, size: u64) -> Result<(), Memory> {
    for number in 0..size {
        let lost = number.wrapping_add(CLIENTS).wrapping_add(1);
        stage.reconnect(client(lost))?;
        end_by_timer(stage, lost, 2, FILE, number.wrapping_mul(2))?;
    }
    for _number in 0..size {
        stage.open(client(3), FILE, leased(key(0), state(ALL), false))?;
        stage.reconnect(client(3))?;
    }
    Ok(())
}
