// Made by tools/plain_rust from crates/capture_wire/src/command.rt. Changes belong there.

/// The command of a message (MS-SMB2 2.2.1).
#[derive(Clone, Copy, Debug, PartialEq, Eq)]
pub enum Command {
    Negotiate,
    SessionSetup,
    Logoff,
    TreeConnect,
    TreeDisconnect,
    Create,
    Close,
    Flush,
    Read,
    Write,
    Lock,
    Ioctl,
    Cancel,
    Echo,
    QueryDirectory,
    ChangeNotify,
    QueryInfo,
    SetInfo,
    /// A break of an oplock or a lease, and its acknowledgment.
    OplockBreak,
    /// None of them.
    Unknown,
}

impl Command {
    /// The command that a header has in its Command field.
    pub fn of(number: u16) -> Command {
        match number {
            0 => Command::Negotiate,
            1 => Command::SessionSetup,
            2 => Command::Logoff,
            3 => Command::TreeConnect,
            4 => Command::TreeDisconnect,
            5 => Command::Create,
            6 => Command::Close,
            7 => Command::Flush,
            8 => Command::Read,
            9 => Command::Write,
            10 => Command::Lock,
            11 => Command::Ioctl,
            12 => Command::Cancel,
            13 => Command::Echo,
            14 => Command::QueryDirectory,
            15 => Command::ChangeNotify,
            16 => Command::QueryInfo,
            17 => Command::SetInfo,
            18 => Command::OplockBreak,
            _ => Command::Unknown,
        }
    }
}
