pub fn one(alloc: Global, room: &mut [u8], out: &mut Two, key: &[u8; 16]) -> bool {
    true
}
/// The functions of this module for C.
pub mod exported {
    use super::Two;
    /// [`super::one`] for C.
    ///
    /// # Safety
    ///
    /// There are as many items at each pointer as the length after it says; nobody writes them meanwhile, nor reads them where
    /// they are written. A pointer is null only where the length is 0.
    #[unsafe(no_mangle)]
    pub unsafe extern "C" fn one(room: *mut u8, room_length: usize, out: &mut Two, key: &[u8; 16]) -> bool {
        // SAFETY: the caller's word.
        super::one(std::alloc::Global, unsafe { std::c::slice_mut(room, room_length) }, out, key)
    }
}
