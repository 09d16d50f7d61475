// Made by tools/plain_rust from crates/machines_c/src/handles/rules.rt. Changes belong there.

use smblease::proved::lease_state::{Order, Rise, Rules};

/// The rules that two numbers stand for (profile): an order of requests, 0 by client or 1 by key, and
/// how a lease rises, 0 as far as is free or 1 whole.
pub fn rules_of(order: u32, rise: u32) -> Option<Rules> {
    let order = match order {
        0 => Order::ByClient,
        1 => Order::ByKey,
        _ => return None,
    };
    let rise = match rise {
        0 => Rise::AsFree,
        1 => Rise::Whole,
        _ => return None,
    };
    Some(Rules { order, rise })
}
