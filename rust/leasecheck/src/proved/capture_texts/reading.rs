// Made by tools/plain_rust from crates/capture_texts/src/reading.rt. Changes belong there.

use std::prelude::Vec;

use crate::proved::capture_texts::line::{FrameSaid, Line, Moment, Said, Side};
use crate::proved::capture_texts::names::names_said;
use crate::proved::lease_texts::{Fields, LineFault, is};
use smblease::proved::lease_state::Bytes;
use std::alloc::Global;

fn are_digits(bytes: &[u8]) -> bool {
    bytes.iter().all(|byte| byte.is_ascii_digit())
}

fn is_fraction(digits: &[u8]) -> bool {
    !digits.is_empty() && digits.len() <= 9 && are_digits(digits)
}

// Whether a word is a time in seconds: digits, and a fraction of at most nine digits where it has a point.
fn is_time(word: &[u8]) -> bool {
    for (index, byte) in word.iter().enumerate() {
        if *byte == b'.' {
            return index > 0 && is_fraction(&word[index + 1..]);
        }
        if !byte.is_ascii_digit() {
            return false;
        }
    }
    !word.is_empty()
}

fn read_time(alloc: Global, fields: &mut Fields<'_>) -> Result<Bytes, LineFault> {
    let word = fields.next()?;
    if !is_time(word) {
        return Err(LineFault::Refused);
    }
    Ok(Bytes::new(Vec::from_slice(alloc, word)?))
}

fn read_address(alloc: Global, fields: &mut Fields<'_>) -> Result<Bytes, LineFault> {
    let word = fields.next()?;
    if word.is_empty() {
        return Err(LineFault::Refused);
    }
    Ok(Bytes::new(Vec::from_slice(alloc, word)?))
}

fn read_side(fields: &mut Fields<'_>) -> Result<Side, LineFault> {
    let word = fields.next()?;
    if is(word, b"from-client") {
        Ok(Side::Client)
    } else if is(word, b"from-server") {
        Ok(Side::Server)
    } else {
        Err(LineFault::Refused)
    }
}

fn read_frame_said(alloc: Global, fields: &mut Fields<'_>) -> Result<FrameSaid, LineFault> {
    Ok(FrameSaid {
        client: read_address(alloc, fields)?,
        server: read_address(alloc, fields)?,
        from: read_side(fields)?,
        acknowledged: fields.number()?,
        bytes: fields.bytes(alloc)?,
    })
}

fn read_said(alloc: Global, kind: &[u8], fields: &mut Fields<'_>) -> Result<Said, LineFault> {
    if is(kind, b"frame") {
        Ok(Said::Frame(read_frame_said(alloc, fields)?))
    } else if is(kind, b"gap") {
        Ok(Said::Gap)
    } else if is(kind, b"end") {
        Ok(Said::End)
    } else {
        Err(LineFault::Refused)
    }
}

fn read_fields(alloc: Global, fields: &mut Fields<'_>) -> Result<Line, LineFault> {
    let kind = fields.next()?;
    let packet = fields.number()?;
    let time = read_time(alloc, fields)?;
    let connection = fields.number()?;
    let said = read_said(alloc, kind, fields)?;
    let messages = names_said(alloc, &said)?;
    Ok(Line { moment: Moment { packet, time, messages }, connection, said })
}

// What a line says that isn't passed over.
pub(crate) fn read_line(alloc: Global, text: &[u8]) -> Result<Line, LineFault> {
    let mut fields = Fields::of(text);
    let line = read_fields(alloc, &mut fields)?;
    fields.end()?;
    Ok(line)
}
