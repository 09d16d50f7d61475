pub fn one(at: u8) -> u8 {
    at
}
