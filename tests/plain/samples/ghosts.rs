pub struct One {
    at: u8,
    more: u8,
}
impl PartialEq for One {
    fn eq(&self, other: &One) -> bool {
        self.at == other.at
    }
}
