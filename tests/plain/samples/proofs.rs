pub fn one(count: usize) {
    two(count);
}
