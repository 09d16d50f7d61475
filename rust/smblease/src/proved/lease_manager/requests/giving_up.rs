// Made by tools/plain_rust from crates/lease_manager/src/requests/giving_up.rt. Changes belong there.

use crate::proved::lease_manager::outs::Outs;
use crate::proved::lease_manager::requests::attempt::meet_all;
use crate::proved::lease_manager::tables::Tables;
use crate::proved::lease_manager::told::Told;
use crate::proved::lease_manager::values::extent::Extent;
use crate::proved::lease_manager::values::key::LeaseName;
use crate::proved::lease_manager::values::number::{FileNo, Tag};
use crate::proved::lease_state::Memory;

/// The tag of what answers no request under a tag.
const NO_TAG: Tag = Tag(0);

/// What other keys on the file hold of it is broken, and their opens that wait for their clients are closed.
///
/// # Errors
///
/// `Memory` where there is none left.
pub fn break_others(
    tables: &mut Tables,
    told: &mut Told,
    own: Option<LeaseName>,
    file: FileNo,
    extent: Extent,
) -> Result<(), Memory> {
    let mut outs = Outs::new(tables.alloc());
    let mut ended = tables.none_ended();
    let wants = tables.wants(extent.wish(), own, file)?;
    meet_all(tables, &mut outs, &mut ended, &wants)?;
    ended.tell(told)?;
    told.tell(NO_TAG, &outs)?;
    Ok(())
}
