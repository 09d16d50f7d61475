// Made by tools/plain_rust from crates/capture_texts/src/records/notes.rt. Changes belong there.

use std::prelude::{String, Vec};

use crate::proved::capture_texts::finding::{ClientFinding, EpochFinding, FileFinding, LeaseFinding, Report};
use crate::proved::capture_texts::records::record::{RecordLine, push_remark};
use crate::proved::capture_texts::texts::{push_counts, push_epoch, push_file, push_lease, push_lost};
use smblease::proved::lease_state::Memory;
use std::alloc::Global;

fn push_leases(alloc: Global, lines: &mut Vec<RecordLine>, leases: &[LeaseFinding]) -> Result<(), Memory> {
    for lease in leases {
        let mut remark = String::new(alloc);
        push_lease(alloc, &mut remark, lease)?;
        push_remark(lines, remark)?;
    }
    Ok(())
}

fn push_files(alloc: Global, lines: &mut Vec<RecordLine>, files: &[FileFinding]) -> Result<(), Memory> {
    for file in files {
        let mut remark = String::new(alloc);
        push_file(alloc, &mut remark, file)?;
        push_remark(lines, remark)?;
        push_leases(alloc, lines, file.leases.as_slice())?;
    }
    Ok(())
}

fn push_clients(alloc: Global, lines: &mut Vec<RecordLine>, clients: &[ClientFinding]) -> Result<(), Memory> {
    for client in clients {
        let mut remark = String::new(alloc);
        push_lost(alloc, &mut remark, client)?;
        push_remark(lines, remark)?;
    }
    Ok(())
}

fn push_epochs(alloc: Global, lines: &mut Vec<RecordLine>, epochs: &[EpochFinding]) -> Result<(), Memory> {
    for epoch in epochs {
        let mut remark = String::new(alloc);
        push_epoch(alloc, &mut remark, epoch)?;
        push_remark(lines, remark)?;
    }
    Ok(())
}

/// Remarks on what is found in a capture: of each file, of each client that isn't judged, of each epoch that doesn't follow on,
/// and how much there was.
///
/// # Errors
///
/// `Memory` where there is none left.
pub fn notes_of(alloc: Global, report: &Report) -> Result<Vec<RecordLine>, Memory> {
    let mut notes = Vec::new(alloc);
    push_files(alloc, &mut notes, report.files.as_slice())?;
    push_clients(alloc, &mut notes, report.clients.as_slice())?;
    push_epochs(alloc, &mut notes, report.epochs.as_slice())?;
    let mut counts = String::new(alloc);
    push_counts(&mut counts, report.counts)?;
    push_remark(&mut notes, counts)?;
    Ok(notes)
}
