// Made by tools/plain_rust from crates/lease_texts/src/status.rt. Changes belong there.

use std::prelude::String;

use smblease::proved::lease_facts::is;
use smblease::proved::lease_state::Status;
use std::alloc::AllocError;
use std::ports::hex::FromHex;

/// A status that a server gives (MS-ERREF 2.3.1).
#[derive(Clone, Copy, Debug, PartialEq, Eq)]
pub struct GivenStatus {
    /// The status, or `STATUS_UNSUCCESSFUL` where the rules don't have it.
    pub status: Status,
    /// The number of a status that the rules don't have.
    pub other: Option<u32>,
}

/// The name of a status.
pub fn status_word(status: Status) -> &'static str {
    match status {
        Status::Unsuccessful => "STATUS_UNSUCCESSFUL",
        Status::InvalidParameter => "STATUS_INVALID_PARAMETER",
        Status::AccessDenied => "STATUS_ACCESS_DENIED",
        Status::ObjectNameNotFound => "STATUS_OBJECT_NAME_NOT_FOUND",
        Status::SharingViolation => "STATUS_SHARING_VIOLATION",
        Status::InsufficientResources => "STATUS_INSUFFICIENT_RESOURCES",
        Status::RequestNotAccepted => "STATUS_REQUEST_NOT_ACCEPTED",
        Status::FileClosed => "STATUS_FILE_CLOSED",
    }
}

/// Adds the name of a status, or the eight digits of the other one that was given.
pub fn push_given(text: &mut String, status: Status, other: Option<u32>) -> Result<(), AllocError> {
    match other {
        None => text.push_str(status_word(status)),
        Some(number) => {
            let digits = std::ports::hex::encode(*text.allocator(), number.to_be_bytes().as_slice())?;
            text.push_str(digits.as_str())
        }
    }
}

fn status_named(field: &[u8]) -> Option<Status> {
    Some(match field {
        _ if is(field, b"STATUS_UNSUCCESSFUL") => Status::Unsuccessful,
        _ if is(field, b"STATUS_INVALID_PARAMETER") => Status::InvalidParameter,
        _ if is(field, b"STATUS_ACCESS_DENIED") => Status::AccessDenied,
        _ if is(field, b"STATUS_OBJECT_NAME_NOT_FOUND") => Status::ObjectNameNotFound,
        _ if is(field, b"STATUS_SHARING_VIOLATION") => Status::SharingViolation,
        _ if is(field, b"STATUS_INSUFFICIENT_RESOURCES") => Status::InsufficientResources,
        _ if is(field, b"STATUS_REQUEST_NOT_ACCEPTED") => Status::RequestNotAccepted,
        _ if is(field, b"STATUS_FILE_CLOSED") => Status::FileClosed,
        _ => return None,
    })
}

// The status of a number, where the rules have it.
fn status_numbered(number: u32) -> Option<Status> {
    match number {
        0xC000_0001 => Some(Status::Unsuccessful),
        0xC000_000D => Some(Status::InvalidParameter),
        0xC000_0022 => Some(Status::AccessDenied),
        0xC000_0034 => Some(Status::ObjectNameNotFound),
        0xC000_0043 => Some(Status::SharingViolation),
        0xC000_009A => Some(Status::InsufficientResources),
        0xC000_00D0 => Some(Status::RequestNotAccepted),
        0xC000_0128 => Some(Status::FileClosed),
        _ => None,
    }
}

fn given(status: Status, other: Option<u32>) -> GivenStatus {
    GivenStatus { status, other }
}

fn known_or_other(number: u32) -> GivenStatus {
    match status_numbered(number) {
        Some(status) => given(status, None),
        None => given(Status::Unsuccessful, Some(number)),
    }
}

pub(crate) fn status_in(field: &[u8]) -> Option<GivenStatus> {
    if let Some(status) = status_named(field) {
        return Some(given(status, None));
    }
    let digits = <[u8; 4] as FromHex>::from_hex(field).ok()?;
    Some(known_or_other(u32::from_be_bytes(digits)))
}
