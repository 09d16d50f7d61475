// Made by tools/plain_rust from crates/capture_texts/src/finding.rt. Changes belong there.

use std::prelude::Vec;

use crate::proved::capture_judge::Level;
use crate::proved::capture_texts::line::Moment;
use crate::proved::capture_walk::NotJudged;
use smblease::proved::capture_wire::Guid;
use smblease::proved::lease_state::{Bytes, LeaseKey, LeaseState};

/// Where a file is.
#[derive(Debug)]
pub struct FilePlace {
    /// The address of the server.
    pub server: Bytes,
    /// The share's path, as it stands in the TREE_CONNECT request (MS-SMB2 2.2.9): UTF-16.
    pub path: Bytes,
    /// The name below the share, as it stands in the CREATE request (MS-SMB2 2.2.13): UTF-16.
    pub name: Bytes,
}

/// A client of a capture.
#[derive(Debug)]
pub struct ClientName {
    /// The number of its first NEGOTIATE request among what is seen in the capture.
    pub number: u64,
    /// The address from which it sent that; no byte where it isn't known.
    pub address: Bytes,
}

/// Where what clients cache clashes by the latest.
#[derive(Debug)]
pub struct Clash {
    /// Where it is among the lines: a number that grows with time.
    pub position: u64,
    /// The moment of the line.
    pub moment: Option<Moment>,
}

/// What is decided of a file.
#[derive(Debug)]
pub enum Judged {
    /// No client that had a lease on it is judged.
    NoClient,
    /// What its clients cached may have gone together at all times.
    Safe,
    /// Up to there two clients cached what doesn't go together, whatever happened between the packets.
    Unsafe(Clash),
    /// Up to there the server had granted two clients what doesn't go together, whatever they took and whatever happened between
    /// the packets.
    Granted(Clash),
    /// What the capture shows can't have happened.
    Contradictory,
    /// There are too many ways in which it can have happened.
    TooMany,
}

/// What a client caches of a file after a change of one of its leases.
#[derive(Debug)]
pub struct Belief {
    /// The number of the client, as its `ClientName` has it.
    pub client: u64,
    /// What it caches, whichever of its leases lets it.
    pub level: Level,
    /// Where the change is among the lines: a number that grows with time.
    pub position: u64,
    /// The moment of the line; none where it is before all lines.
    pub moment: Option<Moment>,
}

/// A break of a lease (MS-SMB2 2.2.23).
#[derive(Debug)]
pub struct BreakFinding {
    /// What it leaves.
    pub state: LeaseState,
    /// Where the server sent it.
    pub moment: Option<Moment>,
    /// Whether the client has to acknowledge it.
    pub wants_acknowledgment: bool,
    /// Where it did; none where it hadn't.
    pub acknowledged: Option<Moment>,
}

/// What the server had said of a lease.
#[derive(Debug)]
pub struct LeaseFinding {
    pub client: ClientName,
    /// Its ClientGuid.
    pub guid: Option<Guid>,
    pub key: LeaseKey,
    /// What the last CREATE response under the key granted.
    pub state: LeaseState,
    /// Where the server sent that.
    pub granted: Option<Moment>,
    /// The address to which it did; no byte where it isn't known.
    pub connection: Bytes,
    /// The last break since then.
    pub broken: Option<BreakFinding>,
}

/// What is found of a file on which leases are granted.
#[derive(Debug)]
pub struct FileFinding {
    /// The number of the CREATE response with which its life begins, among what is seen in the capture.
    pub file: u64,
    pub place: Option<FilePlace>,
    pub judged: Judged,
    /// The clients that are judged, if only up to some moment: one for each lease.
    pub clients: Vec<ClientName>,
    /// What they cache, change by change, in an order that fits the capture: one by which the file is safe, where it is, and
    /// where it is unsafe one by which it is up to then; where it is by what the server granted, what the server held for them.
    /// Nothing where what they cache isn't judged.
    pub beliefs: Vec<Belief>,
    /// Where it is unsafe, what the server had said by then of each lease on it that hadn't ended: of which some clash.
    pub leases: Vec<LeaseFinding>,
}

/// A client that isn't judged from some moment on.
#[derive(Debug)]
pub struct ClientFinding {
    pub client: ClientName,
    /// From where on something of it may be missing; none where nothing of it is sure.
    pub since: Option<Moment>,
    /// Why, by the first of the messages that show that it isn't judged from there.
    pub reason: NotJudged,
}

/// An epoch of a lease that doesn't follow on the one before it (MS-SMB2 3.2.5.19.2), so that a client may pass it over.
#[derive(Debug)]
pub struct EpochFinding {
    pub client: ClientName,
    /// Where the server sent it.
    pub moment: Option<Moment>,
    /// The epoch before.
    pub before: u16,
    pub epoch: u16,
}

/// What there is in a capture.
#[derive(Clone, Copy, Debug, PartialEq, Eq)]
pub struct Counts {
    /// The connections of which a frame came.
    pub connections: usize,
    /// The frames.
    pub frames: usize,
    /// Those of them that can't be read: they are encrypted, compressed or bad.
    pub unread: usize,
}

/// What is judged of a capture.
#[derive(Clone, Copy, Debug, PartialEq, Eq)]
pub enum CaptureVerdict {
    /// A file is safe, and none is unsafe.
    Safe,
    /// A file is unsafe.
    Unsafe,
    /// Of no file anything is decided.
    NothingJudged,
}

/// What is found in a capture.
#[derive(Debug)]
pub struct Report {
    /// The files on which leases are granted, in the order in which the capture shows them.
    pub files: Vec<FileFinding>,
    /// The clients that aren't judged, or only up to some moment, in the order in which the capture shows that.
    pub clients: Vec<ClientFinding>,
    /// The epochs that don't follow on, in the order of the capture.
    pub epochs: Vec<EpochFinding>,
    pub counts: Counts,
}

impl Judged {
    /// Whether clients clash, by what they cached or by what the server granted.
    pub fn is_unsafe(&self) -> bool {
        matches!(self, Judged::Unsafe(_) | Judged::Granted(_))
    }

    /// Up to where, if they do.
    pub(crate) fn until(&self) -> Option<u64> {
        match self {
            Judged::Unsafe(clash) | Judged::Granted(clash) => Some(clash.position),
            _ => None,
        }
    }

    /// Whether none do.
    pub fn is_safe(&self) -> bool {
        matches!(self, Judged::Safe)
    }
}

fn is_unsafe(finding: &FileFinding) -> bool {
    finding.judged.is_unsafe()
}

fn is_safe(finding: &FileFinding) -> bool {
    finding.judged.is_safe()
}

fn has_unsafe(files: &[FileFinding]) -> bool {
    files.iter().any(is_unsafe)
}

fn has_safe(files: &[FileFinding]) -> bool {
    files.iter().any(is_safe)
}

impl Report {
    /// The verdict on the capture: `Unsafe` where a file is unsafe, else `Safe` where one is safe, else `NothingJudged`.
    pub fn verdict(&self) -> CaptureVerdict {
        if has_unsafe(&self.files) {
            CaptureVerdict::Unsafe
        } else if has_safe(&self.files) {
            CaptureVerdict::Safe
        } else {
            CaptureVerdict::NothingJudged
        }
    }
}
