//! What became of the pendings (02, slip 4). The Rust's own queue has those that it placed. The other endings are worked out here, from
//! the Rust's buckets before a call and after it, in the order in which the Rust comes to them.

use super::*;
use std::collections::BTreeMap;
use std::iter::Peekable;

type Applied = AppliedPending<NodeId, Value>;

/// The buckets that a call can end a pending of.
pub(super) enum Reach<'a> {
    /// The key's own; a due pending is applied first.
    Applied(&'a Key<NodeId>),
    /// The key's own, as it is stored: an entry action.
    Stored(&'a Key<NodeId>),
    /// Those of a listing, in the order of its visit, as far as it goes.
    Visited(Vec<usize>),
}

impl HeldTable {
    /// The buckets with a pending.
    pub(super) fn waiting(&self) -> BTreeMap<usize, Bucket> {
        let buckets = access::buckets(&self.table).iter().enumerate();
        buckets.filter(|(_, bucket)| pending_of(bucket).is_some()).map(|(i, bucket)| (i, bucket.clone())).collect()
    }

    /// The records that a call leaves, the oldest first. `waiting`: the buckets with a pending before it; `placed`: how many records the
    /// Rust's queue had then.
    pub(super) fn records(
        &self,
        mut waiting: BTreeMap<usize, Bucket>,
        placed: usize,
        now: Option<u64>,
        reach: &Reach,
    ) -> Vec<RecordCodes> {
        let mut placed = access::applied_pending(&self.table).iter().skip(placed).peekable();
        let mut records = Vec::new();
        let visit = match reach {
            Reach::Applied(key) | Reach::Stored(key) => self.table.get_index(key).into_iter().collect(),
            Reach::Visited(order) => order.clone(),
        };
        for i in visit {
            // A bucket that is visited twice has nothing to end the second time.
            let Some(before) = waiting.get(&i) else { continue };
            let (waited, deadline) = pending_of(before).unwrap();
            let due = now.is_some_and(|now| deadline <= Instant(now));
            let after = &access::buckets(&self.table)[i];
            let ending = match reach {
                Reach::Applied(_) if due => applied_as(before, &mut placed),
                Reach::Visited(_) if pending_of(after).is_none() => {
                    assert!(due, "a listing ended a pending that is not due");
                    applied_as(before, &mut placed)
                }
                Reach::Applied(key) | Reach::Stored(key) if pending_of(after).is_none() => cleared(before, after, key),
                _ => continue,
            };
            records.push(RecordCodes { key: raw_key(waited), ending });
            waiting.remove(&i);
        }
        assert!(placed.next().is_none(), "the Rust placed a pending that did not wait");
        for (i, before) in waiting {
            let of = |bucket| pending_of(bucket).map(|(node, deadline)| (node.key.clone(), deadline));
            assert!(
                of(&before) == of(&access::buckets(&self.table)[i]),
                "a pending of bucket {i} went without an ending"
            );
        }
        records
    }

    /// Takes the oldest record. The Rust takes one only where it is of a pending that was placed.
    pub(super) fn take(&mut self) -> Option<RecordCodes> {
        let oldest = self.queue.pop_front();
        if oldest.is_none_or(|record| is_placed(&record)) {
            let taken = self.table.take_applied_pending();
            assert!(oldest == taken.as_ref().map(record_codes), "the Rust's oldest record is another");
        }
        oldest
    }
}

fn pending_of(bucket: &Bucket) -> Option<(&Node<NodeId, Value>, Instant)> {
    access::bucket::pending(bucket)
}

pub(super) fn is_placed(record: &RecordCodes) -> bool {
    matches!(record.ending, EndingCodes::Placed(_))
}

/// How the due pending of a bucket ended: placed where the Rust's queue says so, else dropped.
fn applied_as<'a>(before: &Bucket, placed: &mut Peekable<impl Iterator<Item = &'a Applied>>) -> EndingCodes {
    let (waited, _) = pending_of(before).unwrap();
    match placed.next_if(|record| record.inserted == waited.key) {
        Some(record) => record_codes(record).ending,
        None => dropped(before).into(),
    }
}

/// Why the due pending of a bucket was dropped (01, "Apply pending"): 16 are held and place 0 is connected, or, with 16 held and with
/// fewer, what the Rust's insert of it answers.
fn dropped(before: &Bucket) -> Unplaced {
    let nodes = access::bucket::nodes(before);
    if nodes.len() == layout::PLACES && nodes[0].status.is_connected() {
        return Unplaced::FirstConnected;
    }
    let (waited, _) = pending_of(before).unwrap();
    match before.clone().insert(waited.clone()) {
        BucketInsertResult::FailedFilter => Unplaced::BucketFilter,
        BucketInsertResult::TooManyIncoming => Unplaced::TooManyIncoming,
        other => panic!("a pending was dropped of which an insert answers {other:?}"),
    }
}

/// What the call's own step cleared a pending for: its key was inserted, or the key at place 0 confirmed.
fn cleared(before: &Bucket, after: &Bucket, key: &Key<NodeId>) -> EndingCodes {
    let (waited, _) = pending_of(before).unwrap();
    if waited.key == *key {
        assert!(after.get(key).is_some(), "a pending was cleared, and its key is not held");
        Unplaced::Inserted.into()
    } else {
        assert!(access::bucket::nodes(before)[0].key == *key, "a pending was cleared by a key that is not at place 0");
        Unplaced::FirstConfirmed.into()
    }
}
