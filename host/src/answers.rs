//! What the calls answer, and the codes of the answers (include/kbuckets.h).

use crate::node::{ConnectionDirection, ConnectionState, Key, Node, NodeStatus};
use calls::program::Unanswered;
use calls::text::{EndingCodes, RecordCodes, Unplaced};
use std::error::Error;
use std::fmt;

/// A call that was refused: the first question that failed. Nothing was changed.
#[derive(Clone, Copy, Debug, PartialEq, Eq)]
pub enum Refusal {
    Size = 1,
    /// Of a table: its settings and its queue, and, after `Output`, the buckets that the call reads.
    Form,
    Key,
    Code,
    Time,
    Output,
    Kind,
    Queue,
    Load,
    /// Windows, closed dates, date or minute of a [`Session`](crate::Session).
    Hours,
    /// A new key outside all windows.
    Closed,
}

impl Refusal {
    /// The number of the question.
    #[must_use]
    pub fn number(self) -> u8 {
        self as u8
    }
}

impl fmt::Display for Refusal {
    fn fmt(&self, f: &mut fmt::Formatter<'_>) -> fmt::Result {
        f.write_str(match self {
            Refusal::Size => "the storage, or the bucket, has another length",
            Refusal::Form => "its settings, its queue or a bucket that the call reads are not well-formed",
            Refusal::Key => "a key is not 32 bytes",
            Refusal::Code => "a code is out of range",
            Refusal::Time => "now + the pending timeout is above 2^64 - 1",
            Refusal::Output => "n is above 4096, or the output or the answer is too short",
            Refusal::Kind => "the key is not of the kind that the entry action needs",
            Refusal::Queue => "the call would leave more than 64 records in the queue",
            Refusal::Load => "the table holds something, or the bytes to be read are no table's that fits it",
            Refusal::Hours => "the windows, the closed dates, the date or the minute are no session hours",
            Refusal::Closed => "the key is new, and the time outside all windows",
        })
    }
}

impl Error for Refusal {}

impl From<Refusal> for Unanswered {
    fn from(refusal: Refusal) -> Unanswered {
        Unanswered::Refused(refusal.number())
    }
}

/// Why an update or an insert failed.
#[derive(Clone, Copy, Debug, PartialEq, Eq)]
pub enum FailureReason {
    /// Too many incoming nodes already in the bucket.
    TooManyIncoming,
    BucketFilter,
    TableFilter,
    /// The node did not exist.
    KeyNonExistent,
    BucketFull,
    /// The key is the local key.
    InvalidSelfUpdate,
}

#[derive(Clone, Copy, Debug, PartialEq, Eq)]
#[must_use = "a failed update may have taken the node out"]
pub enum UpdateResult {
    NotModified,
    Updated,
    /// A disconnected node is connected now.
    UpdatedAndPromoted,
    /// The pending node was updated.
    UpdatedPending,
    /// For every reason but `KeyNonExistent` the node is taken out.
    Failed(FailureReason),
}

/// What `insert_or_update` answers.
#[derive(Clone, Copy, Debug, PartialEq, Eq)]
#[must_use = "a node that was not inserted is not held, and a failed update may have taken it out"]
pub enum InsertResult {
    Inserted,
    /// The node waits; `disconnected` is the key at place 0, whose peer is to be checked: set connected in time, it clears the pending.
    Pending {
        disconnected: Key,
    },
    StatusUpdated {
        promoted_to_connected: bool,
    },
    ValueUpdated,
    Updated {
        promoted_to_connected: bool,
    },
    UpdatedPending,
    Failed(FailureReason),
}

/// What a bucket's insert and `absent_insert` answer.
#[derive(Clone, Copy, Debug, PartialEq, Eq)]
#[must_use = "a node that was not inserted is not held"]
pub enum BucketInsertResult {
    Inserted,
    Pending { disconnected: Key },
    FailedFilter,
    TooManyIncoming,
    Full,
    NodeExists,
}

/// What a key is in the table.
#[derive(Clone, Copy, Debug, PartialEq, Eq)]
#[must_use]
pub enum Entry {
    Present(NodeStatus),
    Pending(NodeStatus),
    Absent,
    /// The local key.
    SelfEntry,
}

/// A pending node of a bucket by itself that was placed, and the node that it replaced.
#[derive(Clone, Copy, Debug, PartialEq, Eq)]
#[must_use = "an evicted node is held no more"]
pub struct AppliedPending {
    pub inserted: Key,
    pub evicted: Option<Node>,
}

/// What became of a pending node.
#[derive(Clone, Copy, Debug, PartialEq, Eq)]
#[must_use = "the record is no longer in the queue"]
pub struct Record {
    pub key: Key,
    pub ending: Ending,
}

/// How a pending node ended.
#[derive(Clone, Copy, Debug, PartialEq, Eq)]
pub enum Ending {
    /// It is held now, in a free place or in that of the evicted node.
    Placed { evicted: Option<Node> },
    /// Dropped: 16 nodes are held, and the one at place 0 is connected.
    FirstConnected,
    /// Dropped by the bucket filter.
    BucketFilter,
    /// Dropped by the incoming limit.
    TooManyIncoming,
    /// Cleared by a direct insert of its key.
    Inserted,
    /// Cleared because the node at place 0 was given Connected.
    FirstConfirmed,
}

impl From<RecordCodes> for Record {
    fn from(record: RecordCodes) -> Record {
        let ending = match record.ending {
            EndingCodes::Placed(evicted) => Ending::Placed { evicted: evicted.map(Node::from) },
            EndingCodes::Unplaced(code) => match Unplaced::of_code(code) {
                Some(Unplaced::FirstConnected) => Ending::FirstConnected,
                Some(Unplaced::BucketFilter) => Ending::BucketFilter,
                Some(Unplaced::TooManyIncoming) => Ending::TooManyIncoming,
                Some(Unplaced::Inserted) => Ending::Inserted,
                Some(Unplaced::FirstConfirmed) => Ending::FirstConfirmed,
                None => no_answer(code.into()),
            },
        };
        Record { key: record.key, ending }
    }
}

impl From<RecordCodes> for AppliedPending {
    fn from(record: RecordCodes) -> AppliedPending {
        match record.ending {
            EndingCodes::Placed(evicted) => AppliedPending { inserted: record.key, evicted: evicted.map(Node::from) },
            EndingCodes::Unplaced(code) => no_answer(code.into()),
        }
    }
}

/// From here on codes are refusals.
const REFUSED: u32 = 0x10000;
/// From here on the codes of updates and inserts are failures.
const FAILED: u32 = 16;
/// From here on the codes of `entry` have a status.
const PRESENT: u32 = 16;
const PENDING: u32 = 32;

/// The answer's code, or the refusal.
pub(crate) fn answered(returned: u32) -> Result<u32, Refusal> {
    Err(match returned.checked_sub(REFUSED) {
        None => return Ok(returned),
        Some(1) => Refusal::Size,
        Some(2) => Refusal::Form,
        Some(3) => Refusal::Key,
        Some(4) => Refusal::Code,
        Some(5) => Refusal::Time,
        Some(6) => Refusal::Output,
        Some(7) => Refusal::Kind,
        Some(8) => Refusal::Queue,
        Some(9) => Refusal::Load,
        Some(10) => Refusal::Hours,
        Some(11) => Refusal::Closed,
        Some(_) => no_answer(returned),
    })
}

pub(crate) fn yes_or_no(code: u32) -> bool {
    match code {
        0 => false,
        1 => true,
        _ => no_answer(code),
    }
}

pub(crate) fn update_result(code: u32) -> UpdateResult {
    match code {
        0 => UpdateResult::NotModified,
        1 => UpdateResult::Updated,
        2 => UpdateResult::UpdatedAndPromoted,
        3 => UpdateResult::UpdatedPending,
        _ => UpdateResult::Failed(failure_reason(code)),
    }
}

/// `disconnected` is the key that the call wrote.
pub(crate) fn insert_result(code: u32, disconnected: Key) -> InsertResult {
    match code {
        0 => InsertResult::Inserted,
        1 => InsertResult::Pending { disconnected },
        2 => InsertResult::StatusUpdated { promoted_to_connected: false },
        3 => InsertResult::StatusUpdated { promoted_to_connected: true },
        4 => InsertResult::ValueUpdated,
        5 => InsertResult::Updated { promoted_to_connected: false },
        6 => InsertResult::Updated { promoted_to_connected: true },
        7 => InsertResult::UpdatedPending,
        _ => InsertResult::Failed(failure_reason(code)),
    }
}

pub(crate) fn bucket_insert_result(code: u32, disconnected: Key) -> BucketInsertResult {
    match code {
        0 => BucketInsertResult::Inserted,
        1 => BucketInsertResult::Pending { disconnected },
        2 => BucketInsertResult::FailedFilter,
        3 => BucketInsertResult::TooManyIncoming,
        4 => BucketInsertResult::Full,
        5 => BucketInsertResult::NodeExists,
        _ => no_answer(code),
    }
}

pub(crate) fn entry(code: u32) -> Entry {
    match code {
        0 => Entry::Absent,
        1 => Entry::SelfEntry,
        PRESENT..PENDING => Entry::Present(status(code - PRESENT)),
        _ if code >= PENDING => Entry::Pending(status(code - PENDING)),
        _ => no_answer(code),
    }
}

/// 2 * state + direction.
fn status(code: u32) -> NodeStatus {
    let (state, direction) = match code {
        0 => (ConnectionState::Disconnected, ConnectionDirection::Outgoing),
        1 => (ConnectionState::Disconnected, ConnectionDirection::Incoming),
        2 => (ConnectionState::Connected, ConnectionDirection::Outgoing),
        3 => (ConnectionState::Connected, ConnectionDirection::Incoming),
        _ => no_answer(code),
    };
    NodeStatus { state, direction }
}

fn failure_reason(code: u32) -> FailureReason {
    match code.checked_sub(FAILED) {
        Some(0) => FailureReason::TooManyIncoming,
        Some(1) => FailureReason::BucketFilter,
        Some(2) => FailureReason::TableFilter,
        Some(3) => FailureReason::KeyNonExistent,
        Some(4) => FailureReason::BucketFull,
        Some(5) => FailureReason::InvalidSelfUpdate,
        _ => no_answer(code),
    }
}

/// The library's contracts rule such a code out: another library was linked.
fn no_answer(code: u32) -> ! {
    panic!("the linked library gave {code:#x}, which is no answer of this call")
}
