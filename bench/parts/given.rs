//! What is read off the answers of calls.

use super::answers::{Fault, Make, Reply};
use super::id::Id;

pub fn given(reply: Reply) -> Result<(u32, Id), Fault> {
    match reply {
        Reply::Made { handle, id }
        | Reply::Exists { handle, id }
        | Reply::Opened { handle, id }
        | Reply::Duplicated { handle, id } => Ok((handle, id)),
        _ => Err(refusal(reply)),
    }
}

pub fn done(reply: Reply) -> Result<(), Fault> {
    match reply {
        Reply::Closed | Reply::Done => Ok(()),
        _ => Err(refusal(reply)),
    }
}

pub fn refusal(reply: Reply) -> Fault {
    match reply {
        Reply::Refused(fault) => fault,
        _ => Fault::Parameter,
    }
}

pub fn plain(name: Option<&[u8]>) -> Make<'_> {
    Make { name, inherit: false, access: None, grant: None }
}
