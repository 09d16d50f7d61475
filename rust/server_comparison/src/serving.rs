use smblease::proved::lease_state::{ClientNo, FileId, LeaseKey, Memory, Request};

/// What a server is called for.
#[derive(Debug)]
pub enum Serving {
    Join(ClientNo),
    Receive(ClientNo, Request),
    Cut(ClientNo),
    Expire(ClientNo, LeaseKey),
    Scavenge(FileId),
}

/// An equal request in memory of its own.
pub fn copy_request(request: &Request) -> Result<Request, Memory> {
    Ok(match request {
        Request::Create { file, access, share, contexts } => {
            Request::Create { file: *file, access: *access, share: *share, contexts: contexts.try_copy()? }
        }
        Request::Read { fid } => Request::Read { fid: *fid },
        Request::Write { fid, number, patch } => Request::Write { fid: *fid, number: *number, patch: patch.try_copy()? },
        Request::Close { fid } => Request::Close { fid: *fid },
        Request::Ack(message) => Request::Ack(*message),
    })
}
