use std::mem;
pub fn two() {}
