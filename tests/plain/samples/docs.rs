/// ```text
/// ghost();
/// ```
/// See [it](crate::proved::one::two).
pub fn one() {}
