/// Why.
#[derive(Clone, Copy)]
pub enum Fault {
    /// One.
    One,
    Two,
}
impl std::fmt::Display for Fault {
    fn fmt(&self, f: &mut std::fmt::Formatter<'_>) -> std::fmt::Result {
        f.write_str(match self {
            Fault::One => "1 One",
            Fault::Two => "2 Two",
        })
    }
}
impl std::error::Error for Fault {}
