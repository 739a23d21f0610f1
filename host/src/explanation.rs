//! Explanations: what a call would answer, and why. The library writes a line; this reads it.

use crate::answers::FailureReason;
use crate::node::{ConnectionDirection, ConnectionState, Key, NodeStatus, Value};
use std::error::Error;
use std::fmt;
use std::str::FromStr;

/// A call that inserts, updates or removes a peer, with the arguments of the method of its name.
#[derive(Clone, Copy, Debug, PartialEq, Eq)]
pub enum PeerCall {
    UpdateNodeStatus { key: Key, state: ConnectionState, direction: Option<ConnectionDirection>, now: u64 },
    UpdateNode { key: Key, value: Value, state: Option<ConnectionState>, now: u64 },
    InsertOrUpdate { key: Key, value: Value, status: NodeStatus, now: u64 },
    Remove { key: Key, now: u64 },
    PresentUpdate { key: Key, state: ConnectionState, direction: Option<ConnectionDirection> },
    PendingUpdate { key: Key, status: NodeStatus },
    AbsentInsert { key: Key, value: Value, status: NodeStatus, now: u64 },
}

/// What an explained call would answer: the variants of the answers of all the calls. Those of the same name are told alike.
#[derive(Clone, Copy, Debug, PartialEq, Eq)]
pub enum Told {
    Inserted,
    Pending {
        disconnected: Key,
    },
    StatusUpdated {
        promoted_to_connected: bool,
    },
    ValueUpdated,
    /// The `Updated` of `insert_or_update`: status and value.
    UpdatedBoth {
        promoted_to_connected: bool,
    },
    /// The `Updated` of the updates.
    Updated,
    UpdatedAndPromoted,
    UpdatedPending,
    NotModified,
    Failed(FailureReason),
    FailedFilter,
    TooManyIncoming,
    Full,
    NodeExists,
    /// What `remove` answers.
    Removed(bool),
}

/// Why a call would answer so, and the keys behind it, in bucket and place order.
#[derive(Clone, Debug, PartialEq, Eq)]
pub enum Reason {
    /// The call would not fail.
    None,
    /// The first ten nodes that the table filter counts.
    TableFilter(Vec<Key>),
    /// The first two nodes that the bucket filter counts. Of a status that `insert_or_update` cannot set too, whose answer says
    /// `TooManyIncoming`.
    BucketFilter(Vec<Key>),
    /// The others in the bucket that are connected incoming.
    IncomingLimit(Vec<Key>),
    /// The bucket is full, and the newcomer disconnected.
    NewcomerDisconnected,
    /// The bucket is full of connected nodes.
    AllConnected,
    /// The bucket is full, and this one waits already.
    Pending(Key),
    NoSuchKey,
    LocalKey,
}

/// What a call would answer, and why. Its text is the line that the library wrote, without the line feed that ends it; it is read back by
/// [`str::parse`].
#[derive(Clone, Debug, PartialEq, Eq)]
pub struct Explanation {
    told: Told,
    reason: Reason,
}

impl Explanation {
    /// What the call would answer.
    #[must_use]
    pub fn told(&self) -> Told {
        self.told
    }

    #[must_use]
    pub fn reason(&self) -> &Reason {
        &self.reason
    }

    /// The keys behind the reason.
    #[must_use]
    pub fn keys(&self) -> &[Key] {
        self.reason.keys()
    }

    /// What the library wrote: a line with its line feed.
    pub(crate) fn written(bytes: &[u8]) -> Explanation {
        let line = bytes.strip_suffix(b"\n").and_then(|line| str::from_utf8(line).ok());
        let explanation = line.and_then(|line| line.parse().ok());
        // The library's contracts rule such a line out: another library was linked.
        explanation.unwrap_or_else(|| {
            panic!("the linked library wrote {:?}, which is no explanation", String::from_utf8_lossy(bytes))
        })
    }
}

impl Reason {
    /// The keys behind the reason.
    #[must_use]
    pub fn keys(&self) -> &[Key] {
        match self {
            Reason::TableFilter(keys) | Reason::BucketFilter(keys) | Reason::IncomingLimit(keys) => keys,
            Reason::Pending(key) => std::slice::from_ref(key),
            Reason::None
            | Reason::NewcomerDisconnected
            | Reason::AllConnected
            | Reason::NoSuchKey
            | Reason::LocalKey => &[],
        }
    }

    fn words(&self) -> &'static str {
        match self {
            Reason::None => "none",
            Reason::TableFilter(_) => "table filter",
            Reason::BucketFilter(_) => "bucket filter",
            Reason::IncomingLimit(_) => "incoming limit",
            Reason::NewcomerDisconnected => "newcomer disconnected",
            Reason::AllConnected => "all connected",
            Reason::Pending(_) => "pending",
            Reason::NoSuchKey => "no such key",
            Reason::LocalKey => "local key",
        }
    }
}

/// The words of the answer.
impl fmt::Display for Told {
    fn fmt(&self, f: &mut fmt::Formatter<'_>) -> fmt::Result {
        match self {
            Told::Inserted => f.write_str("Inserted"),
            Told::Pending { disconnected } => {
                f.write_str("Pending ")?;
                write_key(disconnected, f)
            }
            Told::StatusUpdated { promoted_to_connected } => write!(f, "StatusUpdated {promoted_to_connected}"),
            Told::ValueUpdated => f.write_str("ValueUpdated"),
            Told::UpdatedBoth { promoted_to_connected } => write!(f, "Updated {promoted_to_connected}"),
            Told::Updated => f.write_str("Updated"),
            Told::UpdatedAndPromoted => f.write_str("UpdatedAndPromoted"),
            Told::UpdatedPending => f.write_str("UpdatedPending"),
            Told::NotModified => f.write_str("NotModified"),
            Told::Failed(reason) => write!(f, "Failed {}", failure_text(*reason)),
            Told::FailedFilter => f.write_str("FailedFilter"),
            Told::TooManyIncoming => f.write_str("TooManyIncoming"),
            Told::Full => f.write_str("Full"),
            Told::NodeExists => f.write_str("NodeExists"),
            Told::Removed(removed) => write!(f, "{removed}"),
        }
    }
}

/// The words of the reason, and its keys.
impl fmt::Display for Reason {
    fn fmt(&self, f: &mut fmt::Formatter<'_>) -> fmt::Result {
        f.write_str(self.words())?;
        for key in self.keys() {
            f.write_str(" ")?;
            write_key(key, f)?;
        }
        Ok(())
    }
}

/// The line, without its line feed.
impl fmt::Display for Explanation {
    fn fmt(&self, f: &mut fmt::Formatter<'_>) -> fmt::Result {
        write!(f, "{} {}", self.told, self.reason)
    }
}

fn write_key(key: &Key, f: &mut fmt::Formatter<'_>) -> fmt::Result {
    key.iter().try_for_each(|byte| write!(f, "{byte:02x}"))
}

const FAILURES: [FailureReason; 6] = [
    FailureReason::TooManyIncoming,
    FailureReason::BucketFilter,
    FailureReason::TableFilter,
    FailureReason::KeyNonExistent,
    FailureReason::BucketFull,
    FailureReason::InvalidSelfUpdate,
];

fn failure_text(reason: FailureReason) -> &'static str {
    match reason {
        FailureReason::TooManyIncoming => "TooManyIncoming",
        FailureReason::BucketFilter => "BucketFilter",
        FailureReason::TableFilter => "TableFilter",
        FailureReason::KeyNonExistent => "KeyNonExistent",
        FailureReason::BucketFull => "BucketFull",
        FailureReason::InvalidSelfUpdate => "InvalidSelfUpdate",
    }
}

/// A text that is no explanation's line.
#[derive(Clone, Copy, Debug, PartialEq, Eq)]
pub struct NoExplanation;

impl fmt::Display for NoExplanation {
    fn fmt(&self, f: &mut fmt::Formatter<'_>) -> fmt::Result {
        f.write_str("not the line of an explanation")
    }
}

impl Error for NoExplanation {}

/// Reads a line without its line feed: a text that [`Explanation`]'s own gives back, and no other.
impl FromStr for Explanation {
    type Err = NoExplanation;

    fn from_str(line: &str) -> Result<Explanation, NoExplanation> {
        let explanation = read(line).ok_or(NoExplanation)?;
        if explanation.to_string() == line { Ok(explanation) } else { Err(NoExplanation) }
    }
}

fn read(line: &str) -> Option<Explanation> {
    let (name, rest) = line.split_once(' ')?;
    // The next word and what follows it, of an answer that has a key, a flag or a failure.
    let next = rest.split_once(' ');
    let flag = || {
        let (word, rest) = next?;
        Some((word.parse().ok()?, rest))
    };
    let (told, reason) = match name {
        "Inserted" => (Told::Inserted, rest),
        "Pending" => {
            let (key, rest) = next?;
            (Told::Pending { disconnected: read_key(key)? }, rest)
        }
        "StatusUpdated" => {
            let (promoted_to_connected, rest) = flag()?;
            (Told::StatusUpdated { promoted_to_connected }, rest)
        }
        "ValueUpdated" => (Told::ValueUpdated, rest),
        "Updated" => match flag() {
            Some((promoted_to_connected, rest)) => (Told::UpdatedBoth { promoted_to_connected }, rest),
            None => (Told::Updated, rest),
        },
        "UpdatedAndPromoted" => (Told::UpdatedAndPromoted, rest),
        "UpdatedPending" => (Told::UpdatedPending, rest),
        "NotModified" => (Told::NotModified, rest),
        "Failed" => {
            let (failure, rest) = next?;
            (Told::Failed(FAILURES.into_iter().find(|reason| failure_text(*reason) == failure)?), rest)
        }
        "FailedFilter" => (Told::FailedFilter, rest),
        "TooManyIncoming" => (Told::TooManyIncoming, rest),
        "Full" => (Told::Full, rest),
        "NodeExists" => (Told::NodeExists, rest),
        "true" => (Told::Removed(true), rest),
        "false" => (Told::Removed(false), rest),
        _ => return None,
    };
    Some(Explanation { told, reason: read_reason(reason)? })
}

fn read_reason(text: &str) -> Option<Reason> {
    let plain = [Reason::None, Reason::NewcomerDisconnected, Reason::AllConnected, Reason::NoSuchKey, Reason::LocalKey];
    if let Some(reason) = plain.into_iter().find(|reason| reason.words() == text) {
        return Some(reason);
    }
    if let Some(key) = text.strip_prefix("pending ") {
        return read_key(key).map(Reason::Pending);
    }
    let with_keys: [fn(Vec<Key>) -> Reason; 3] = [Reason::TableFilter, Reason::BucketFilter, Reason::IncomingLimit];
    with_keys.into_iter().find_map(|reason| {
        let keys = text.strip_prefix(reason(Vec::new()).words())?;
        keys.split(' ').skip(1).map(read_key).collect::<Option<_>>().map(reason)
    })
}

fn read_key(digits: &str) -> Option<Key> {
    if digits.len() != 64 || !digits.is_ascii() {
        return None;
    }
    let mut key = [0; 32];
    for (i, byte) in key.iter_mut().enumerate() {
        *byte = u8::from_str_radix(&digits[2 * i..2 * i + 2], 16).ok()?;
    }
    Some(key)
}

#[cfg(test)]
mod tests {
    use super::*;

    fn key(seed: u8) -> Key {
        std::array::from_fn(|i| seed.wrapping_mul(i as u8 + 1) ^ 0xa5)
    }

    fn every_told() -> Vec<Told> {
        let mut all = vec![
            Told::Inserted,
            Told::ValueUpdated,
            Told::Updated,
            Told::UpdatedAndPromoted,
            Told::UpdatedPending,
            Told::NotModified,
            Told::FailedFilter,
            Told::TooManyIncoming,
            Told::Full,
            Told::NodeExists,
        ];
        all.extend([key(0), key(7), [0; 32], [255; 32]].map(|disconnected| Told::Pending { disconnected }));
        all.extend(FAILURES.map(Told::Failed));
        for flag in [false, true] {
            all.push(Told::StatusUpdated { promoted_to_connected: flag });
            all.push(Told::UpdatedBoth { promoted_to_connected: flag });
            all.push(Told::Removed(flag));
        }
        all
    }

    fn every_reason() -> Vec<Reason> {
        let mut all =
            vec![Reason::None, Reason::NewcomerDisconnected, Reason::AllConnected, Reason::NoSuchKey, Reason::LocalKey];
        all.extend([key(1), [0; 32]].map(Reason::Pending));
        for count in [0, 1, 2, 10, 16] {
            let keys: Vec<Key> = (0..count).map(key).collect();
            all.push(Reason::TableFilter(keys.clone()));
            all.push(Reason::BucketFilter(keys.clone()));
            all.push(Reason::IncomingLimit(keys));
        }
        all
    }

    /// Each explanation is read back from its line, and no two share one.
    #[test]
    fn lines_are_read_back() {
        let mut lines = Vec::new();
        for told in every_told() {
            for reason in every_reason() {
                let explanation = Explanation { told, reason };
                let line = explanation.to_string();
                assert_eq!(line.parse(), Ok(explanation.clone()), "{line}");
                assert_eq!(Explanation::written(format!("{line}\n").as_bytes()), explanation);
                assert!(line.len() < crate::lent::EXPLANATION_BYTES && line.is_ascii() && !line.contains("  "));
                lines.push(line);
            }
        }
        let count = lines.len();
        lines.sort();
        lines.dedup();
        assert_eq!(lines.len(), count);
    }

    #[test]
    fn texts() {
        let told = Told::Pending { disconnected: [0x0a; 32] };
        let line = Explanation { told, reason: Reason::None }.to_string();
        assert_eq!(line, format!("Pending {} none", "0a".repeat(32)));
        let told = Told::Failed(FailureReason::TooManyIncoming);
        let explanation = Explanation { told, reason: Reason::BucketFilter(vec![[0xff; 32], [0; 32]]) };
        let keys = format!("{} {}", "f".repeat(64), "0".repeat(64));
        assert_eq!(explanation.to_string(), format!("Failed TooManyIncoming bucket filter {keys}"));
        assert_eq!((explanation.told(), explanation.keys()), (told, &[[0xff; 32], [0; 32]][..]));
    }

    #[test]
    fn other_texts_are_not_read() {
        let key = "ab".repeat(32);
        for line in [
            "".to_string(),
            "none".to_string(),
            "Inserted".to_string(),
            "Inserted ".to_string(),
            "Inserted none ".to_string(),
            "Inserted none\n".to_string(),
            "Inserted  none".to_string(),
            "Inserted None".to_string(),
            "inserted none".to_string(),
            "Inserted true none".to_string(),
            "Updated True none".to_string(),
            "StatusUpdated none".to_string(),
            "Failed none".to_string(),
            "Failed Full none".to_string(),
            "Refused 6".to_string(),
            "Full pending".to_string(),
            format!("Full pending {key} {key}"),
            format!("Full pending {}", key.to_uppercase()),
            format!("Full pending {}", &key[1..]),
            format!("Full pending +{}", &key[1..]),
            format!("Full table filters {key}"),
            format!("Full table filter{key}"),
            format!("Full table filter  {key}"),
            format!("Full all connected {key}"),
            format!("Pending none {key}"),
            format!("Pending {key}"),
        ] {
            assert_eq!(line.parse::<Explanation>(), Err(NoExplanation), "{line:?}");
        }
    }
}
