// Made by tools/plain_rust from crates/lease_state/src/status.rt. Changes belong there.

/// The status of a refused request (MS-SMB2 3.3.5; the codes are those of MS-ERREF 2.3.1).
#[derive(Clone, Copy, Debug, PartialEq, Eq, Hash)]
pub enum Status {
    /// An acknowledgment of a lease that isn't breaking (3.3.5.22.2).
    Unsuccessful,
    /// A message that can't be read, a create under a key that has a lease on another file, or a write past the
    /// greatest size of a file.
    InvalidParameter,
    /// A read or write by an open whose access doesn't allow it.
    AccessDenied,
    /// No such file, no lease of the key that is acknowledged, or no durable open to connect again.
    ObjectNameNotFound,
    /// A create whose access or share conflicts with those of another open (2.2.13).
    SharingViolation,
    /// No FileId is left for another open (profile).
    InsufficientResources,
    /// An acknowledgment of a state that isn't within the one that the break named (3.3.5.22.2).
    RequestNotAccepted,
    /// A request by a FileId of which the client has no open.
    FileClosed,
}

impl std::fmt::Display for Status {
    fn fmt(&self, f: &mut std::fmt::Formatter<'_>) -> std::fmt::Result {
        f.write_str(match self {
            Status::Unsuccessful => "STATUS_UNSUCCESSFUL",
            Status::InvalidParameter => "STATUS_INVALID_PARAMETER",
            Status::AccessDenied => "STATUS_ACCESS_DENIED",
            Status::ObjectNameNotFound => "STATUS_OBJECT_NAME_NOT_FOUND",
            Status::SharingViolation => "STATUS_SHARING_VIOLATION",
            Status::InsufficientResources => "STATUS_INSUFFICIENT_RESOURCES",
            Status::RequestNotAccepted => "STATUS_REQUEST_NOT_ACCEPTED",
            Status::FileClosed => "STATUS_FILE_CLOSED",
        })
    }
}

impl std::error::Error for Status {}

impl Status {
    /// The 4-byte code of the status (MS-ERREF 2.3.1).
    pub fn code(self) -> u32 {
        match self {
            Status::Unsuccessful => 0xC000_0001,
            Status::InvalidParameter => 0xC000_000D,
            Status::AccessDenied => 0xC000_0022,
            Status::ObjectNameNotFound => 0xC000_0034,
            Status::SharingViolation => 0xC000_0043,
            Status::InsufficientResources => 0xC000_009A,
            Status::RequestNotAccepted => 0xC000_00D0,
            Status::FileClosed => 0xC000_0128,
        }
    }
}

#[cfg(test)]
mod tests {
    use std::prelude::{HostRuntime, format};

    use super::*;
    use std::test::Fail;

    #[test]
    fn each_status_has_its_code() {
        std::test::passes(|| -> Result<(), Fail> {
            let rt = HostRuntime::host();
            let codes = [
                (Status::Unsuccessful, "C0000001"),
                (Status::InvalidParameter, "C000000D"),
                (Status::AccessDenied, "C0000022"),
                (Status::ObjectNameNotFound, "C0000034"),
                (Status::SharingViolation, "C0000043"),
                (Status::InsufficientResources, "C000009A"),
                (Status::RequestNotAccepted, "C00000D0"),
                (Status::FileClosed, "C0000128"),
            ];
            for (status, code) in codes {
                let digits = format!(in rt.alloc(); "{:08X}", status.code())?;
                assert_eq!(digits.as_str(), code, "{status}");
            }
            Ok(())
        })
    }
}
