//! Reads a lease break notification, given as hexadecimal digits, and prints the acknowledgment that it asks for.
//!
//!     cargo run --example acknowledge 2c00000001000000000102030405060708090a0b0c0d0e0f0700000003000000000000000000000000000000
use smblease::wire::{Acknowledgment, Notification};
use std::error::Error;

const BREAK: &str = "2c00000001000000000102030405060708090a0b0c0d0e0f0700000003000000000000000000000000000000";

fn bytes_of(digits: &str) -> Result<Vec<u8>, Box<dyn Error>> {
    if !digits.is_ascii() || digits.len() % 2 == 1 {
        return Err("two hexadecimal digits make a byte".into());
    }
    let bytes = (0..digits.len()).step_by(2).map(|at| u8::from_str_radix(&digits[at..at + 2], 16));
    Ok(bytes.collect::<Result<_, _>>()?)
}

/// The acknowledgment as digits; nothing where none is asked for.
fn acknowledged(digits: &str) -> Result<Option<String>, Box<dyn Error>> {
    let bytes = bytes_of(digits)?;
    let (notification, _behind) = Notification::decode(&bytes)?;
    let due = Acknowledgment::due(&notification);
    Ok(due.map(|due| due.encode().iter().map(|byte| format!("{byte:02x}")).collect()))
}

fn main() -> Result<(), Box<dyn Error>> {
    let digits = std::env::args().nth(1).unwrap_or(BREAK.to_string());
    match acknowledged(&digits)? {
        Some(digits) => println!("{digits}"),
        None => println!("nobody waits for an acknowledgment"),
    }
    Ok(())
}

#[test]
fn a_break_is_acknowledged() -> Result<(), Box<dyn Error>> {
    let given = "2400000000000000000102030405060708090a0b0c0d0e0f030000000000000000000000";
    assert_eq!(acknowledged(BREAK)?.as_deref(), Some(given));
    assert_eq!(acknowledged(&BREAK.replacen("01", "00", 1))?, None);
    assert_eq!(acknowledged("2c00").map_err(|fault| fault.to_string()), Err("1 Short at 0".to_string()));
    Ok(())
}
