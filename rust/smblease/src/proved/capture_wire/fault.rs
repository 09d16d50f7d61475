// Made by tools/plain_rust from crates/capture_wire/src/fault.rt. Changes belong there.

/// Why bytes are refused. As text a fault is a few words of English.
#[derive(Clone, Copy, Debug, PartialEq, Eq)]
pub enum MessageFault {
    /// There are fewer bytes than the fixed part takes, which begins with the header in a message.
    Short,
    /// ProtocolId is not that of an SMB2 message.
    WrongProtocol,
    /// StructureSize is that of another message.
    WrongSize,
    /// The data of a create context have another length than their structure.
    WrongLength,
    /// A name or another part is not after the fixed part and within the message.
    Outside,
}

impl std::fmt::Display for MessageFault {
    fn fmt(&self, f: &mut std::fmt::Formatter<'_>) -> std::fmt::Result {
        f.write_str(match self {
            MessageFault::Short => "too few bytes",
            MessageFault::WrongProtocol => "no SMB2 message",
            MessageFault::WrongSize => "the StructureSize of another message",
            MessageFault::WrongLength => "data of another length",
            MessageFault::Outside => "a part outside the message",
        })
    }
}

impl std::error::Error for MessageFault {}
