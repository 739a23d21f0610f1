//! The reference's explanations (02, slip 1). What a call answers is a trial on a clone of the Rust's table; why, is worked out here from
//! the Rust's own buckets: the nodes that the failing test has counted, as it found them.

use super::*;
use crate::explained::{ROOM, words};

type Held = Node<NodeId, Value>;

/// The limits of the two filters (01, key.rs and filter.rs).
const TABLE_LIMIT: usize = 10;
const BUCKET_LIMIT: usize = 2;

/// The words of a reason, and the keys that follow them.
struct Reason(&'static str, Vec<[u8; 32]>);

/// What the reason needs of a call.
struct Peer {
    key: Key<NodeId>,
    /// The value that the call gives.
    value: Option<Value>,
    /// The time at which a due pending is applied first; none for an entry action, which applies none.
    applied: Option<u64>,
}

impl Peer {
    /// Of a call that no question has refused.
    fn new(call: &TableCall) -> Peer {
        let (key, value, applied) = match call {
            TableCall::UpdateNodeStatus { now, key, .. } | TableCall::Remove { now, key } => (key, None, Some(*now)),
            TableCall::UpdateNode { now, key, value, .. } | TableCall::InsertOrUpdate { now, key, value, .. } => {
                (key, Some(value), Some(*now))
            }
            TableCall::PresentUpdate { key, .. } | TableCall::PendingUpdate { key, .. } => (key, None, None),
            TableCall::AbsentInsert { key, value, .. } => (key, Some(value), None),
            _ => unreachable!("no call that is explained"),
        };
        Peer { key: key_of(&key[..].try_into().unwrap()), value: value.map(value_of), applied }
    }
}

impl HeldTable {
    /// The questions of the call, with 6 for the output in its turn; then the answer's words, the reason and its keys.
    pub(super) fn explain(&self, call: &TableCall, room: Option<u64>, out: &mut Vec<u8>) -> Result<(), Unanswered> {
        let mut answer = Vec::new();
        let answered = self.clone().call(call, &mut answer);
        if let Err(Unanswered::Refused(..6)) = answered {
            return answered;
        }
        ask(6, room.is_none_or(|room| room >= ROOM))?;
        answered?;
        let answer = String::from_utf8(answer).unwrap();
        let Reason(reason, keys) = self.reason(call, &answer);
        out.text(&words(&answer));
        out.text(" ");
        out.text(reason);
        for key in &keys {
            out.text(" ");
            out.key(key);
        }
        Ok(())
    }

    /// Why the call gives this answer.
    fn reason(&self, call: &TableCall, answer: &str) -> Reason {
        let peer = Peer::new(call);
        if peer.key == *access::local_key(&self.table) {
            return Reason("local key", Vec::new());
        }
        match answer {
            "false" | "Failed(KeyNonExistent)" => Reason("no such key", Vec::new()),
            "Failed(TableFilter)" => {
                // The filter runs before a due pending is applied, and does not see the key's own old value (02, slip 3).
                let held = access::buckets(&self.table).iter().flat_map(access::bucket::nodes);
                let others = held.filter(|node| node.key != peer.key);
                Reason("table filter", counted(&peer.value.unwrap(), others, TABLE_LIMIT))
            }
            "Failed(BucketFilter)"
            | "FailedFilter"
            | "Failed(TooManyIncoming)"
            | "TooManyIncoming"
            | "Failed(BucketFull)"
            | "Full" => self.bucket_reason(call, &peer, answer),
            _ => Reason("none", Vec::new()),
        }
    }

    /// The reason of a step in the key's bucket, after a due pending was applied there.
    fn bucket_reason(&self, call: &TableCall, peer: &Peer, answer: &str) -> Reason {
        let mut bucket = self.table.get_bucket(&peer.key).unwrap().clone();
        if let Some(now) = peer.applied {
            clock::set(Some(now));
            bucket.apply_pending();
        }
        let own = bucket.get(&peer.key).cloned();
        // A step on a held node has taken it out.
        let others = || access::bucket::nodes(&bucket).iter().filter(|node| node.key != peer.key);
        // A status step that fails is reported as TooManyIncoming by insert_or_update, and looks at the old value.
        let status_step = match (call, &own) {
            (TableCall::InsertOrUpdate { state, direction, .. }, Some(_)) => {
                Some(bucket.clone().update_status(&peer.key, state_of(*state), Some(direction_of(*direction))))
            }
            _ => None,
        };
        let old = || own.as_ref().unwrap().value;
        let (filter, value) = match status_step {
            Some(UpdateResult::Failed(why)) => (why == FailureReason::BucketFilter, old()),
            _ => (matches!(answer, "Failed(BucketFilter)" | "FailedFilter"), peer.value.unwrap_or_else(old)),
        };
        if filter {
            Reason("bucket filter", counted(&value, others(), BUCKET_LIMIT))
        } else if answer.contains("TooManyIncoming") {
            let incoming: Vec<&Held> =
                others().filter(|node| node.status.is_connected() && node.status.is_incoming()).collect();
            assert!(incoming.len() >= self.settings.max_incoming.into(), "fewer incoming than the limit");
            Reason("incoming limit", incoming.into_iter().map(raw_key).collect())
        } else {
            full(call, &bucket)
        }
    }
}

/// Why a bucket is full: the newcomer is disconnected, else all are connected, else a pending waits.
fn full(call: &TableCall, bucket: &Bucket) -> Reason {
    let (TableCall::InsertOrUpdate { state, .. } | TableCall::AbsentInsert { state, .. }) = call else {
        unreachable!("no insert")
    };
    let nodes = access::bucket::nodes(bucket);
    assert!(nodes.len() == layout::PLACES, "places are free");
    if *state == 0 {
        Reason("newcomer disconnected", Vec::new())
    } else if nodes.iter().all(|node| node.status.is_connected()) {
        Reason("all connected", Vec::new())
    } else {
        Reason("pending", vec![raw_key(access::bucket::pending(bucket).unwrap().0)])
    }
}

/// The keys of the first nodes that a filter counts, as many as its limit: another value in the same /24.
fn counted<'a>(value: &Value, nodes: impl Iterator<Item = &'a Held>, limit: usize) -> Vec<[u8; 32]> {
    let net = |value: &Value| value.address.map(|address| address.octets()[..3].to_vec());
    let counts = |node: &&Held| node.value != *value && value.address.is_some() && net(&node.value) == net(value);
    let keys: Vec<[u8; 32]> = nodes.filter(counts).take(limit).map(raw_key).collect();
    assert!(keys.len() == limit, "the filter counts only {}", keys.len());
    keys
}
