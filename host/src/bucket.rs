//! A bucket by itself, which owns its bytes. Its keys may be of any index.

use crate::answers::{AppliedPending, BucketInsertResult, Refusal, UpdateResult};
use crate::lent::{self, ANSWER_BYTES, BUCKET_BYTES};
use crate::node::{ConnectionDirection, ConnectionState, Key, NOT_GIVEN, Node, NodeStatus, Value};
use calls::layout::AloneBytes;
use std::fmt;

#[derive(Clone, PartialEq, Eq)]
pub struct KBucket {
    bytes: Vec<u8>,
}

impl KBucket {
    /// An empty bucket; refused where `max_incoming` is above 16.
    pub fn new(pending_timeout: u64, max_incoming: u8, filter: bool) -> Result<KBucket, Refusal> {
        let mut bytes = vec![0; BUCKET_BYTES];
        lent::b_new(&mut bytes, pending_timeout, max_incoming, filter.into())?;
        Ok(KBucket { bytes })
    }

    /// A bucket from the bytes of one, as [`KBucket::bytes`] gives them. Bytes that are no bucket's are refused by each call.
    #[must_use]
    pub fn from_bytes(bytes: Vec<u8>) -> KBucket {
        KBucket { bytes }
    }

    #[must_use]
    pub fn bytes(&self) -> &[u8] {
        &self.bytes
    }

    pub fn insert(&mut self, node: Node, now: u64) -> Result<BucketInsertResult, Refusal> {
        let Node { key, value, status: NodeStatus { state, direction } } = node;
        let answer = &mut [0; ANSWER_BYTES];
        lent::b_insert(&mut self.bytes, &key, value.into(), state as u8, direction as u8, now, answer)
    }

    /// Applies the pending node if its deadline has come; `None` also where it was dropped.
    pub fn apply_pending(&mut self, now: u64) -> Result<Option<AppliedPending>, Refusal> {
        Ok(lent::b_apply_pending(&mut self.bytes, now, &mut [0; ANSWER_BYTES])?.map(AppliedPending::from))
    }

    pub fn update_status(
        &mut self,
        key: &Key,
        state: ConnectionState,
        direction: Option<ConnectionDirection>,
    ) -> Result<UpdateResult, Refusal> {
        lent::b_update_status(&mut self.bytes, key, state as u8, direction.map_or(NOT_GIVEN, |d| d as u8))
    }

    pub fn update_value(&mut self, key: &Key, value: Value) -> Result<UpdateResult, Refusal> {
        lent::b_update_value(&mut self.bytes, key, value.into())
    }

    /// Sets the status of the pending node, if there is one.
    pub fn update_pending(&mut self, status: NodeStatus) -> Result<(), Refusal> {
        lent::b_update_pending(&mut self.bytes, status.state as u8, status.direction as u8)
    }

    /// Takes a node out, then applies a due pending node.
    pub fn remove(&mut self, key: &Key, now: u64) -> Result<bool, Refusal> {
        lent::b_remove(&mut self.bytes, key, now)
    }
}

/// The dump of the bytes, as kbtable writes it.
impl fmt::Debug for KBucket {
    fn fmt(&self, f: &mut fmt::Formatter<'_>) -> fmt::Result {
        if self.bytes.len() != BUCKET_BYTES {
            return write!(f, "no bucket: {} bytes", self.bytes.len());
        }
        let mut dump = Vec::new();
        AloneBytes(self.bytes.clone()).dump(&mut dump);
        f.write_str(String::from_utf8_lossy(&dump).trim_end())
    }
}
