//! The intake once more in plain Rust: the same rules and the same bytes, nothing proved.
//! It stands beside the proved one to be measured against.

#[path = "plain/ack.rs"]
mod ack;
#[path = "plain/intake.rs"]
mod intake;
#[path = "plain/request.rs"]
mod request;
#[path = "plain/stores.rs"]
mod stores;

pub use intake::{Intake, Reply, Settings, Verdict};
pub use stores::{PageStore, Store, VolumeStore};

/// What a call came to, by its number.
#[derive(Clone, Copy, Debug, PartialEq, Eq)]
pub enum Outcome {
    Done,
    ShortPage,
    UnfinishedHead,
    BadHead { line: usize },
    RepeatedField { line: usize },
    BadPacket { line: usize },
    UploadsOff,
    NoSharedProtocol,
    FolderDestination,
    NoSession,
    AtApprover,
    Incomplete,
    WrongRange { line: usize },
    TooLarge,
    Gap,
    DestinationStands,
    TooManySessions,
    SerialsSpent,
    StoreFull,
    CutBody,
    Rejected { code: u32 },
    BadReplyAddress,
    StoreRefused,
    BadSetting,
}

impl Outcome {
    pub fn number(self) -> u8 {
        match self {
            Outcome::Done => 0,
            Outcome::ShortPage => 1,
            Outcome::UnfinishedHead => 2,
            Outcome::BadHead { .. } => 3,
            Outcome::RepeatedField { .. } => 4,
            Outcome::BadPacket { .. } => 5,
            Outcome::UploadsOff => 6,
            Outcome::NoSharedProtocol => 7,
            Outcome::FolderDestination => 8,
            Outcome::NoSession => 9,
            Outcome::AtApprover => 10,
            Outcome::Incomplete => 11,
            Outcome::WrongRange { .. } => 12,
            Outcome::TooLarge => 13,
            Outcome::Gap => 14,
            Outcome::DestinationStands => 15,
            Outcome::TooManySessions => 16,
            Outcome::SerialsSpent => 17,
            Outcome::StoreFull => 18,
            Outcome::CutBody => 19,
            Outcome::Rejected { .. } => 20,
            Outcome::BadReplyAddress => 21,
            Outcome::StoreRefused => 22,
            Outcome::BadSetting => 23,
        }
    }

    /// The offset of the line at fault, 0 where none is.
    pub fn place(self) -> usize {
        match self {
            Outcome::BadHead { line }
            | Outcome::RepeatedField { line }
            | Outcome::BadPacket { line }
            | Outcome::WrongRange { line } => line,
            _ => 0,
        }
    }
}

/// A session's id.
#[derive(Clone, Copy, Debug, PartialEq, Eq)]
pub struct SessionId {
    pub site: u64,
    pub serial: u64,
}

#[cfg(test)]
#[path = "plain/tests.rs"]
mod tests;
