const ONE: &str = "ghost use a; requires { }";
const TWO: char = '{';
const THREE: &[u8] = br#""}"#;
pub fn four<'a>(at: &'a u8) -> u32 {
    /* ensures /* { */ */
    0x1f + 1.5e3 as u32
}
