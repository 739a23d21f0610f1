//! A table that owns its storage.

use crate::answers::{BucketInsertResult, Entry, InsertResult, Record, Refusal, UpdateResult};
use crate::explanation::{Explanation, PeerCall};
use crate::lent::{self, ANSWER_BYTES, EXPLANATION_BYTES, MAX_COUNT, MAX_WRITTEN_BYTES, PredicateCodes, STORAGE_BYTES};
use crate::node::{
    ClosestValue, ConnectionDirection, ConnectionState, Key, NOT_GIVEN, Node, NodeStatus, PredicateValue, Slot, Value,
};
use crate::session::Session;
use calls::layout::{self, KEY, TableBytes};
use calls::text::SessionCodes;
use std::fmt;

/// What a table is made with. Filters are off and `max_incoming` is 0 where nothing is said.
#[derive(Clone, Copy, Debug, Default, PartialEq, Eq)]
pub struct Settings {
    /// How long a pending node waits, in milliseconds.
    pub pending_timeout: u64,
    /// The most connected incoming nodes in a bucket: 0 to 16.
    pub max_incoming: u8,
    /// `update_node` and `insert_or_update` fail where the table holds 10 values of the value's /24 that are unequal to it, the key's own
    /// apart. What `absent_insert` inserts and a pending node that is applied are not asked, so a table may hold more of a /24.
    pub table_filter: bool,
    /// A value fails where its bucket holds 2 values of its /24 that are unequal to it, the key's own apart; so a bucket holds at most 2
    /// different values of a /24.
    pub bucket_filter: bool,
}

/// Which values `closest_values_predicate` marks.
#[derive(Clone, Copy, Debug, PartialEq, Eq)]
pub enum Predicate {
    Always,
    HasAddress,
    /// The address is in this /24.
    InNet([u8; 3]),
    Slot(Slot),
}

/// The routing table. `now` is a count of milliseconds that the caller gives; it may go back. Each method changes nothing where it is
/// refused, and reads no other buckets than it needs (include/kbuckets.h, "Refusals").
#[derive(Clone, PartialEq, Eq)]
pub struct KBucketsTable {
    storage: Vec<u8>,
}

impl KBucketsTable {
    /// An empty table; refused where `max_incoming` is above 16.
    pub fn new(local_key: Key, settings: Settings) -> Result<KBucketsTable, Refusal> {
        let mut storage = vec![0; STORAGE_BYTES];
        let Settings { pending_timeout, max_incoming, table_filter, bucket_filter } = settings;
        let (table_filter, bucket_filter) = (table_filter.into(), bucket_filter.into());
        lent::new(&mut storage, &local_key, pending_timeout, max_incoming, table_filter, bucket_filter)?;
        Ok(KBucketsTable { storage })
    }

    /// A table from the bytes of one, as [`KBucketsTable::storage`] gives them. Bytes that are no table's are refused by each call that reads
    /// them; `write` reads all buckets.
    #[must_use]
    pub fn from_storage(storage: Vec<u8>) -> KBucketsTable {
        KBucketsTable { storage }
    }

    /// The bytes of the table, which may be kept and compared.
    #[must_use]
    pub fn storage(&self) -> &[u8] {
        &self.storage
    }

    /// Sets the status of a node or of a pending node.
    pub fn update_node_status(
        &mut self,
        key: &Key,
        state: ConnectionState,
        direction: Option<ConnectionDirection>,
        now: u64,
    ) -> Result<UpdateResult, Refusal> {
        lent::update_node_status(&mut self.storage, key, state as u8, given(direction.map(|d| d as u8)), now)
    }

    /// Sets the value of a node, and its state where one is given.
    pub fn update_node(
        &mut self,
        key: &Key,
        value: Value,
        state: Option<ConnectionState>,
        now: u64,
    ) -> Result<UpdateResult, Refusal> {
        lent::update_node(&mut self.storage, key, value.into(), given(state.map(|s| s as u8)), now)
    }

    /// Inserts a node, or sets status and value of one that is there, at every hour.
    pub fn insert_or_update(
        &mut self,
        key: &Key,
        value: Value,
        status: NodeStatus,
        now: u64,
    ) -> Result<InsertResult, Refusal> {
        self.insert_or_update_with(key, value, status, now, &SessionCodes::default())
    }

    /// The same; a new key is inserted in the session's hours only.
    pub fn insert_or_update_in_session(
        &mut self,
        key: &Key,
        value: Value,
        status: NodeStatus,
        now: u64,
        session: &Session,
    ) -> Result<InsertResult, Refusal> {
        self.insert_or_update_with(key, value, status, now, session.codes())
    }

    fn insert_or_update_with(
        &mut self,
        key: &Key,
        value: Value,
        status: NodeStatus,
        now: u64,
        session: &SessionCodes,
    ) -> Result<InsertResult, Refusal> {
        let (state, direction) = (status.state as u8, status.direction as u8);
        let answer = &mut [0; ANSWER_BYTES];
        lent::insert_or_update(&mut self.storage, key, value.into(), state, direction, now, session, answer)
    }

    /// Takes a node out; `false` where there is none.
    pub fn remove(&mut self, key: &Key, now: u64) -> Result<bool, Refusal> {
        lent::remove(&mut self.storage, key, now)
    }

    pub fn entry(&mut self, key: &Key, now: u64) -> Result<Entry, Refusal> {
        lent::entry(&mut self.storage, key, now)
    }

    /// The action on a key that is [`Entry::Present`].
    pub fn present_update(
        &mut self,
        key: &Key,
        state: ConnectionState,
        direction: Option<ConnectionDirection>,
    ) -> Result<UpdateResult, Refusal> {
        lent::present_update(&mut self.storage, key, state as u8, given(direction.map(|d| d as u8)))
    }

    /// The action on a key that is [`Entry::Pending`].
    pub fn pending_update(&mut self, key: &Key, status: NodeStatus) -> Result<UpdateResult, Refusal> {
        lent::pending_update(&mut self.storage, key, status.state as u8, status.direction as u8)
    }

    /// The action on a key that is [`Entry::Absent`]; the table filter is skipped. At every hour.
    pub fn absent_insert(
        &mut self,
        key: &Key,
        value: Value,
        status: NodeStatus,
        now: u64,
    ) -> Result<BucketInsertResult, Refusal> {
        self.absent_insert_with(key, value, status, now, &SessionCodes::default())
    }

    /// The same, in the session's hours only.
    pub fn absent_insert_in_session(
        &mut self,
        key: &Key,
        value: Value,
        status: NodeStatus,
        now: u64,
        session: &Session,
    ) -> Result<BucketInsertResult, Refusal> {
        self.absent_insert_with(key, value, status, now, session.codes())
    }

    fn absent_insert_with(
        &mut self,
        key: &Key,
        value: Value,
        status: NodeStatus,
        now: u64,
        session: &SessionCodes,
    ) -> Result<BucketInsertResult, Refusal> {
        let (state, direction) = (status.state as u8, status.direction as u8);
        let answer = &mut [0; ANSWER_BYTES];
        lent::absent_insert(&mut self.storage, key, value.into(), state, direction, now, session, answer)
    }

    /// The first n nodes, bucket by bucket.
    pub fn iter(&mut self, n: usize, now: u64) -> Result<Vec<Node>, Refusal> {
        let mut output = room(n, lent::ITER_ENTRY);
        let count = lent::iter(&mut self.storage, n, now, &mut output)?;
        Ok(entries(&output, lent::ITER_ENTRY, count, node))
    }

    /// The first n nodes at these log2 distances, in the order given; at n = 0 still one. Distance d, from 1 to 256, is bucket d - 1: the
    /// keys whose XOR with the local key is at least 2^(d-1) and below 2^d. Other distances are dropped.
    pub fn nodes_by_distances(&mut self, distances: &[u64], n: usize, now: u64) -> Result<Vec<Node>, Refusal> {
        let mut output = room(n.max(1), lent::NODES_BY_DISTANCES_ENTRY);
        let count = lent::nodes_by_distances(&mut self.storage, distances, n, now, &mut output)?;
        Ok(entries(&output, lent::NODES_BY_DISTANCES_ENTRY, count, node))
    }

    /// The n keys nearest to the target, nearest first.
    pub fn closest_keys(&mut self, target: &Key, n: usize, now: u64) -> Result<Vec<Key>, Refusal> {
        let mut output = room(n, lent::CLOSEST_KEYS_ENTRY);
        let count = lent::closest_keys(&mut self.storage, target, n, now, &mut output)?;
        Ok(entries(&output, lent::CLOSEST_KEYS_ENTRY, count, layout::key_in))
    }

    pub fn closest_values(&mut self, target: &Key, n: usize, now: u64) -> Result<Vec<ClosestValue>, Refusal> {
        let mut output = room(n, lent::CLOSEST_VALUES_ENTRY);
        let count = lent::closest_values(&mut self.storage, target, n, now, &mut output)?;
        Ok(entries(&output, lent::CLOSEST_VALUES_ENTRY, count, |bytes| ClosestValue {
            key: layout::key_in(bytes),
            value: layout::value_in(&bytes[KEY..]).into(),
        }))
    }

    pub fn closest_values_predicate(
        &mut self,
        target: &Key,
        predicate: Predicate,
        n: usize,
        now: u64,
    ) -> Result<Vec<PredicateValue>, Refusal> {
        let mut output = room(n, lent::CLOSEST_VALUES_PREDICATE_ENTRY);
        let count = lent::closest_values_predicate(&mut self.storage, target, predicate.into(), n, now, &mut output)?;
        Ok(entries(&output, lent::CLOSEST_VALUES_PREDICATE_ENTRY, count, |bytes| PredicateValue {
            key: layout::key_in(bytes),
            predicate_match: bytes[KEY] == 1,
            value: layout::value_in(&bytes[KEY + 1..]).into(),
        }))
    }

    /// Takes the oldest record of what became of a pending node.
    pub fn take_applied_pending(&mut self) -> Result<Option<Record>, Refusal> {
        Ok(lent::take_applied_pending(&mut self.storage, &mut [0; ANSWER_BYTES])?.map(Record::from))
    }

    /// What a call would answer now, and why; refused as the call would be. The table stays as it is.
    ///
    /// ```
    /// use kbuckets::{KBucketsTable, PeerCall, Reason, Settings, Told};
    ///
    /// let table = KBucketsTable::new([0; 32], Settings::default())?;
    /// let explanation = table.explain(&PeerCall::Remove { key: [1; 32], now: 0 })?;
    /// assert_eq!((explanation.told(), explanation.reason()), (Told::Removed(false), &Reason::NoSuchKey));
    /// assert_eq!(explanation.to_string(), "false no such key");
    /// # Ok::<(), kbuckets::Refusal>(())
    /// ```
    pub fn explain(&self, call: &PeerCall) -> Result<Explanation, Refusal> {
        self.explain_with(call, &SessionCodes::default())
    }

    /// The same of a call in the session's hours. They are asked of `InsertOrUpdate` and `AbsentInsert`; the other calls have none.
    pub fn explain_in_session(&self, call: &PeerCall, session: &Session) -> Result<Explanation, Refusal> {
        self.explain_with(call, session.codes())
    }

    fn explain_with(&self, call: &PeerCall, session: &SessionCodes) -> Result<Explanation, Refusal> {
        let output = &mut [0; EXPLANATION_BYTES];
        let storage = &self.storage;
        let count = match *call {
            PeerCall::UpdateNodeStatus { key, state, direction, now } => {
                let direction = given(direction.map(|d| d as u8));
                lent::explain_update_node_status(storage, &key, state as u8, direction, now, output)
            }
            PeerCall::UpdateNode { key, value, state, now } => {
                lent::explain_update_node(storage, &key, value.into(), given(state.map(|s| s as u8)), now, output)
            }
            PeerCall::InsertOrUpdate { key, value, status: NodeStatus { state, direction }, now } => {
                let (state, direction) = (state as u8, direction as u8);
                lent::explain_insert_or_update(storage, &key, value.into(), state, direction, now, session, output)
            }
            PeerCall::Remove { key, now } => lent::explain_remove(storage, &key, now, output),
            PeerCall::PresentUpdate { key, state, direction } => {
                let direction = given(direction.map(|d| d as u8));
                lent::explain_present_update(storage, &key, state as u8, direction, output)
            }
            PeerCall::PendingUpdate { key, status: NodeStatus { state, direction } } => {
                lent::explain_pending_update(storage, &key, state as u8, direction as u8, output)
            }
            PeerCall::AbsentInsert { key, value, status: NodeStatus { state, direction }, now } => {
                let (state, direction) = (state as u8, direction as u8);
                lent::explain_absent_insert(storage, &key, value.into(), state, direction, now, session, output)
            }
        }?;
        Ok(Explanation::written(&output[..count]))
    }

    /// The held nodes as bytes that [`KBucketsTable::read`] takes: 256 sizes of buckets, then all keys in bucket and place order, then as
    /// many entries of state, direction, address flag, four octets and slot. Pending nodes and records are not kept, nor are the settings.
    ///
    /// ```
    /// use kbuckets::{ConnectionDirection, ConnectionState, KBucketsTable, NodeStatus, Settings, Value};
    ///
    /// let settings = Settings { pending_timeout: 60_000, max_incoming: 8, ..Settings::default() };
    /// let mut old = KBucketsTable::new([0; 32], settings)?;
    /// let status = NodeStatus { state: ConnectionState::Connected, direction: ConnectionDirection::Incoming };
    /// let _ = old.insert_or_update(&[1; 32], Value { address: Some([10, 0, 0, 1].into()), slot: 7 }, status, 1000)?;
    /// let bytes = old.write()?;
    ///
    /// let mut new = KBucketsTable::new([0; 32], settings)?;
    /// assert_eq!(new.read(&bytes)?, 1);
    /// assert_eq!(new, old);
    /// assert_eq!(new.write()?, bytes);
    /// # Ok::<(), kbuckets::Refusal>(())
    /// ```
    pub fn write(&self) -> Result<Vec<u8>, Refusal> {
        let mut output = vec![0; MAX_WRITTEN_BYTES];
        let count = lent::write(&self.storage, &mut output)?;
        output.truncate(lent::written_bytes(count));
        Ok(output)
    }

    /// Loads the nodes that [`KBucketsTable::write`] put out, each in its place, and answers how many. The table holds nothing before: no
    /// node, no pending node and no record. Its local key and settings stay; bytes that do not fit them are refused.
    pub fn read(&mut self, bytes: &[u8]) -> Result<usize, Refusal> {
        lent::read(&mut self.storage, bytes)
    }
}

/// The dump of the storage, as kbtable writes it.
impl fmt::Debug for KBucketsTable {
    fn fmt(&self, f: &mut fmt::Formatter<'_>) -> fmt::Result {
        if self.storage.len() != STORAGE_BYTES {
            return write!(f, "no table: {} bytes", self.storage.len());
        }
        let mut dump = Vec::new();
        TableBytes(self.storage.clone()).dump(&mut dump);
        f.write_str(String::from_utf8_lossy(&dump).trim_end())
    }
}

impl From<Predicate> for PredicateCodes {
    fn from(predicate: Predicate) -> PredicateCodes {
        match predicate {
            Predicate::Always => PredicateCodes { predicate: 0, ..PredicateCodes::default() },
            Predicate::HasAddress => PredicateCodes { predicate: 1, ..PredicateCodes::default() },
            Predicate::InNet(net) => PredicateCodes { predicate: 2, net, slot: 0 },
            Predicate::Slot(slot) => PredicateCodes { predicate: 3, net: [0; 3], slot },
        }
    }
}

/// The code of an option.
fn given(code: Option<u8>) -> u8 {
    code.unwrap_or(NOT_GIVEN)
}

/// An output for n entries; a greater n than the most is refused, whatever the output.
fn room(n: usize, entry: usize) -> Vec<u8> {
    vec![0; n.min(MAX_COUNT) * entry]
}

fn entries<T>(output: &[u8], entry: usize, count: usize, read: impl Fn(&[u8]) -> T) -> Vec<T> {
    output.chunks_exact(entry).take(count).map(read).collect()
}

fn node(bytes: &[u8]) -> Node {
    layout::node_in(bytes).into()
}
