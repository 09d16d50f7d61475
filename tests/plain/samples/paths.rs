use crate::proved::one::two::three;
use smblease::proved::lease_state::{LeaseKey, self as state};
pub fn one(key: smblease::proved::lease_state::LeaseKey) -> std::ports::uuid::Uuid {
    self::lease_state::two(crate::proved::one::two::three(key))
}
pub(crate) struct Two;
