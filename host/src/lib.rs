//! The routing table of k-buckets that is proved to meet its contract, for Rust. [`KBucketsTable`] and [`KBucket`] own their bytes and
//! have the methods, names and answers of sigp/discv5's; times are milliseconds, given by the caller. [`lent`] has the same calls on
//! bytes that the caller keeps, with keys of any length and codes of any number, as the library takes them.
//!
//! ```
//! use kbuckets::{ConnectionDirection, ConnectionState, InsertResult, KBucketsTable, NodeStatus, Settings, Value};
//!
//! let mut table = KBucketsTable::new([0; 32], Settings { pending_timeout: 60_000, max_incoming: 8, ..Settings::default() })?;
//! let mut key = [0; 32];
//! key[31] = 4;
//! let status = NodeStatus { state: ConnectionState::Connected, direction: ConnectionDirection::Outgoing };
//! let value = Value { address: Some([10, 0, 0, 1].into()), slot: 7 };
//! assert_eq!(table.insert_or_update(&key, value, status, 1000)?, InsertResult::Inserted);
//! assert_eq!(table.closest_keys(&[0; 32], 16, 1000)?, [key]);
//! # Ok::<(), kbuckets::Refusal>(())
//! ```
//!
//! An answer is to be looked at: a failed update may have taken the peer out. The compiler warns where one is dropped:
//!
//! ```compile_fail
//! #![deny(unused_must_use)]
//! # use kbuckets::{ConnectionState, KBucketsTable, Refusal};
//! fn disconnected(table: &mut KBucketsTable, key: &[u8; 32], now: u64) -> Result<(), Refusal> {
//!     table.update_node_status(key, ConnectionState::Disconnected, None, now)?;
//!     Ok(())
//! }
//! ```
//!
//! ```
//! #![deny(unused_must_use)]
//! # use kbuckets::{ConnectionState, KBucketsTable, Refusal};
//! fn disconnected(table: &mut KBucketsTable, key: &[u8; 32], now: u64) -> Result<(), Refusal> {
//!     let _ = table.update_node_status(key, ConnectionState::Disconnected, None, now)?;
//!     Ok(())
//! }
//! ```

mod answers;
mod bucket;
mod explanation;
mod ffi;
#[cfg(test)]
mod header;
pub mod lent;
mod node;
mod session;
mod table;
mod version;

pub use answers::{
    AppliedPending, BucketInsertResult, Ending, Entry, FailureReason, InsertResult, Record, Refusal, UpdateResult,
};
pub use bucket::KBucket;
pub use explanation::{Explanation, NoExplanation, PeerCall, Reason, Told};
pub use node::{
    ClosestValue, ConnectionDirection, ConnectionState, Key, Node, NodeStatus, PredicateValue, Slot, Value,
};
pub use session::{Date, Moment, Session, Weekday, Window};
pub use table::{KBucketsTable, Predicate, Settings};
pub use version::{OtherLibrary, VERSION, Version, check_library, library_version};
