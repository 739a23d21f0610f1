// Reads and sets the private fields of a table, reaches an entry without applying a pending, lists all values but a key's own, and has the
// visit of the closest calls.

use super::*;
pub use super::bucket::{KBucket, access as bucket};

pub fn local_key<TNodeId, TVal: Eq>(table: &KBucketsTable<TNodeId, TVal>) -> &Key<TNodeId> {
    &table.local_key
}

pub fn buckets<TNodeId, TVal: Eq>(
    table: &KBucketsTable<TNodeId, TVal>,
) -> &[KBucket<TNodeId, TVal>] {
    &table.buckets
}

pub fn buckets_mut<TNodeId, TVal: Eq>(
    table: &mut KBucketsTable<TNodeId, TVal>,
) -> &mut [KBucket<TNodeId, TVal>] {
    &mut table.buckets
}

pub fn applied_pending<TNodeId, TVal: Eq>(
    table: &KBucketsTable<TNodeId, TVal>,
) -> &VecDeque<AppliedPending<TNodeId, TVal>> {
    &table.applied_pending
}

pub fn applied_pending_mut<TNodeId, TVal: Eq>(
    table: &mut KBucketsTable<TNodeId, TVal>,
) -> &mut VecDeque<AppliedPending<TNodeId, TVal>> {
    &mut table.applied_pending
}

/// `KBucketsTable::table_iter` without the value of the key: what the table filter is given here (document 02, slip 3).
pub fn others<'a, TNodeId: Clone, TVal: Eq>(
    table: &'a KBucketsTable<TNodeId, TVal>,
    key: &'a Key<TNodeId>,
) -> impl Iterator<Item = &'a TVal> {
    table
        .buckets
        .iter()
        .flat_map(move |bucket| bucket.iter().filter(move |n| n.key != *key).map(|n| &n.value))
}

/// `KBucketsTable::entry` without applying the bucket's pending.
pub fn stored_entry<'a, TNodeId: Clone, TVal: Eq>(
    table: &'a mut KBucketsTable<TNodeId, TVal>,
    key: &'a Key<TNodeId>,
) -> Entry<'a, TNodeId, TVal> {
    match BucketIndex::new(&table.local_key.distance(key)) {
        Some(i) => Entry::new(&mut table.buckets[i.get()], key),
        None => Entry::SelfEntry,
    }
}

/// The buckets in the order in which the closest calls visit them.
pub fn closest_buckets<TNodeId, TVal: Eq>(
    table: &KBucketsTable<TNodeId, TVal>,
    target: &Key<TNodeId>,
) -> Vec<usize> {
    ClosestBucketsIter::new(table.local_key.distance(target)).map(BucketIndex::get).collect()
}
