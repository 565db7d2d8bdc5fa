//! Call: the calls of the store, with what they name.

use crate::run::Run;

#[derive(Clone, Debug, PartialEq, Eq)]
pub enum Call {
    Empty,
    Open(Run),
    Close(Run),
    Link(Run, Run),
    Unlink(Run, Run),
    Ask(Run, Run),
    Reading(Vec<u32>),
    Stream,
}

impl Call {
    pub fn name(&self) -> &'static str {
        match self {
            Call::Empty => "empty",
            Call::Open(_) => "open",
            Call::Close(_) => "close",
            Call::Link(..) => "link",
            Call::Unlink(..) => "unlink",
            Call::Ask(..) => "ask",
            Call::Reading(_) => "reading",
            Call::Stream => "stream",
        }
    }
}
