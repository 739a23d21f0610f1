//! The calls on bytes that the caller keeps: a table's storage of [`STORAGE_BYTES`], a bucket's bytes of [`BUCKET_BYTES`]. Keys may have
//! any length and codes be any number; what does not fit is refused, and nothing is changed then. include/kbuckets.h says what each
//! call does.

use crate::answers::{
    BucketInsertResult, Entry, InsertResult, Refusal, UpdateResult, answered, bucket_insert_result,
    entry as entry_kind, insert_result, update_result, yes_or_no,
};
use crate::ffi;
use calls::layout::{self, BUCKETS, KEY, NODE, PLACES, RECORD, VALUE};
pub use calls::text::{EndingCodes, NodeCodes, RecordCodes, SessionCodes, Slot, Unplaced, ValueCodes};

pub const STORAGE_BYTES: usize = layout::STORAGE;
pub const BUCKET_BYTES: usize = layout::ALONE;
/// The most entries that a listing may be asked for.
pub const MAX_COUNT: usize = 4096;

/// One entry of a listing's output: a node; a node; a key; key and value; key, match and value.
pub const ITER_ENTRY: usize = NODE;
pub const NODES_BY_DISTANCES_ENTRY: usize = NODE;
pub const CLOSEST_KEYS_ENTRY: usize = KEY;
pub const CLOSEST_VALUES_ENTRY: usize = KEY + VALUE;
pub const CLOSEST_VALUES_PREDICATE_ENTRY: usize = KEY + 1 + VALUE;

/// The most windows and the most closed dates of a [`SessionCodes`].
pub const MAX_WINDOWS: usize = 32;
pub const MAX_CLOSED_DATES: usize = 64;
/// The minutes of a day: the last closing minute.
pub const MINUTES: u16 = 1440;

/// What the output of an explanation must have room for.
pub const EXPLANATION_BYTES: usize = 2048;

/// The most nodes that a table holds: bucket i has 2^i keys, so the first four hold 1, 2, 4 and 8.
pub const MAX_NODES: usize = 15 + (BUCKETS - 4) * PLACES;

/// The most bytes that [`write`] puts out.
pub const MAX_WRITTEN_BYTES: usize = written_bytes(MAX_NODES);

/// The bytes that [`write`] puts out for so many nodes.
#[must_use]
pub const fn written_bytes(nodes: usize) -> usize {
    BUCKETS + nodes * NODE
}

/// What `answer` must have room for. A call with an `answer` writes a key or a record to its front, or nothing.
pub const ANSWER_BYTES: usize = RECORD;

// SAFETY, of each call of the library below: a pointer and its length are those of one slice, which is borrowed while the call runs, and
// mutably where the call writes; so the runs do not overlap and nobody else uses them. A slice's pointer is never null. The library keeps
// no pointer, and takes bytes and numbers of any kind.

pub fn new(
    storage: &mut [u8],
    local_key: &[u8],
    pending_timeout: u64,
    max_incoming: u8,
    table_filter: u8,
    bucket_filter: u8,
) -> Result<(), Refusal> {
    let returned = unsafe {
        ffi::kbuckets_new(
            storage.as_mut_ptr(),
            storage.len(),
            local_key.as_ptr(),
            local_key.len(),
            pending_timeout,
            max_incoming,
            table_filter,
            bucket_filter,
        )
    };
    answered(returned).map(|_| ())
}

pub fn update_node_status(
    storage: &mut [u8],
    key: &[u8],
    state: u8,
    direction: u8,
    now: u64,
) -> Result<UpdateResult, Refusal> {
    let (bytes, length) = (storage.as_mut_ptr(), storage.len());
    let returned =
        unsafe { ffi::kbuckets_update_node_status(bytes, length, key.as_ptr(), key.len(), state, direction, now) };
    answered(returned).map(update_result)
}

pub fn update_node(
    storage: &mut [u8],
    key: &[u8],
    value: ValueCodes,
    state: u8,
    now: u64,
) -> Result<UpdateResult, Refusal> {
    let (bytes, length) = (storage.as_mut_ptr(), storage.len());
    let ValueCodes { flag, octets: [a, b, c, d], slot } = value;
    let returned = unsafe {
        ffi::kbuckets_update_node(bytes, length, key.as_ptr(), key.len(), flag, a, b, c, d, slot, state, now)
    };
    answered(returned).map(update_result)
}

/// With an empty window list, as that of [`SessionCodes::default`], hours are not asked for, here and in the three others that take them.
#[allow(clippy::too_many_arguments)]
pub fn insert_or_update(
    storage: &mut [u8],
    key: &[u8],
    value: ValueCodes,
    state: u8,
    direction: u8,
    now: u64,
    session: &SessionCodes,
    answer: &mut [u8],
) -> Result<InsertResult, Refusal> {
    let ValueCodes { flag, octets: [a, b, c, d], slot } = value;
    let SessionCodes { windows, closed, date: [year, month, day], minute } = session;
    let returned = unsafe {
        ffi::kbuckets_insert_or_update(
            storage.as_mut_ptr(),
            storage.len(),
            key.as_ptr(),
            key.len(),
            flag,
            a,
            b,
            c,
            d,
            slot,
            state,
            direction,
            now,
            windows.as_ptr(),
            windows.len(),
            closed.as_ptr(),
            closed.len(),
            *year,
            *month,
            *day,
            *minute,
            answer.as_mut_ptr(),
            answer.len(),
        )
    };
    answered(returned).map(|code| insert_result(code, layout::key_in(answer)))
}

pub fn remove(storage: &mut [u8], key: &[u8], now: u64) -> Result<bool, Refusal> {
    let (bytes, length) = (storage.as_mut_ptr(), storage.len());
    let returned = unsafe { ffi::kbuckets_remove(bytes, length, key.as_ptr(), key.len(), now) };
    answered(returned).map(yes_or_no)
}

pub fn entry(storage: &mut [u8], key: &[u8], now: u64) -> Result<Entry, Refusal> {
    let (bytes, length) = (storage.as_mut_ptr(), storage.len());
    let returned = unsafe { ffi::kbuckets_entry(bytes, length, key.as_ptr(), key.len(), now) };
    answered(returned).map(entry_kind)
}

pub fn present_update(storage: &mut [u8], key: &[u8], state: u8, direction: u8) -> Result<UpdateResult, Refusal> {
    let (bytes, length) = (storage.as_mut_ptr(), storage.len());
    let returned = unsafe { ffi::kbuckets_present_update(bytes, length, key.as_ptr(), key.len(), state, direction) };
    answered(returned).map(update_result)
}

pub fn pending_update(storage: &mut [u8], key: &[u8], state: u8, direction: u8) -> Result<UpdateResult, Refusal> {
    let (bytes, length) = (storage.as_mut_ptr(), storage.len());
    let returned = unsafe { ffi::kbuckets_pending_update(bytes, length, key.as_ptr(), key.len(), state, direction) };
    answered(returned).map(update_result)
}

#[allow(clippy::too_many_arguments)]
pub fn absent_insert(
    storage: &mut [u8],
    key: &[u8],
    value: ValueCodes,
    state: u8,
    direction: u8,
    now: u64,
    session: &SessionCodes,
    answer: &mut [u8],
) -> Result<BucketInsertResult, Refusal> {
    let ValueCodes { flag, octets: [a, b, c, d], slot } = value;
    let SessionCodes { windows, closed, date: [year, month, day], minute } = session;
    let returned = unsafe {
        ffi::kbuckets_absent_insert(
            storage.as_mut_ptr(),
            storage.len(),
            key.as_ptr(),
            key.len(),
            flag,
            a,
            b,
            c,
            d,
            slot,
            state,
            direction,
            now,
            windows.as_ptr(),
            windows.len(),
            closed.as_ptr(),
            closed.len(),
            *year,
            *month,
            *day,
            *minute,
            answer.as_mut_ptr(),
            answer.len(),
        )
    };
    answered(returned).map(|code| bucket_insert_result(code, layout::key_in(answer)))
}

/// The listings answer how many entries they found and wrote to the front of `output`.
pub fn iter(storage: &mut [u8], n: usize, now: u64, output: &mut [u8]) -> Result<usize, Refusal> {
    let (bytes, length) = (storage.as_mut_ptr(), storage.len());
    let returned = unsafe { ffi::kbuckets_iter(bytes, length, n, now, output.as_mut_ptr(), output.len()) };
    answered(returned).map(found)
}

/// Log2 distances, as [`KBucketsTable::nodes_by_distances`](crate::KBucketsTable::nodes_by_distances) says: numbers of this machine, and not
/// the big-endian bytes of the storage.
pub fn nodes_by_distances(
    storage: &mut [u8],
    distances: &[u64],
    n: usize,
    now: u64,
    output: &mut [u8],
) -> Result<usize, Refusal> {
    let (bytes, length) = (storage.as_mut_ptr(), storage.len());
    let (distances, count) = (distances.as_ptr(), distances.len());
    let returned = unsafe {
        ffi::kbuckets_nodes_by_distances(bytes, length, distances, count, n, now, output.as_mut_ptr(), output.len())
    };
    answered(returned).map(found)
}

pub fn closest_keys(
    storage: &mut [u8],
    target: &[u8],
    n: usize,
    now: u64,
    output: &mut [u8],
) -> Result<usize, Refusal> {
    let (bytes, length) = (storage.as_mut_ptr(), storage.len());
    let (target, count) = (target.as_ptr(), target.len());
    let returned =
        unsafe { ffi::kbuckets_closest_keys(bytes, length, target, count, n, now, output.as_mut_ptr(), output.len()) };
    answered(returned).map(found)
}

pub fn closest_values(
    storage: &mut [u8],
    target: &[u8],
    n: usize,
    now: u64,
    output: &mut [u8],
) -> Result<usize, Refusal> {
    let (bytes, length) = (storage.as_mut_ptr(), storage.len());
    let (target, count) = (target.as_ptr(), target.len());
    let returned = unsafe {
        ffi::kbuckets_closest_values(bytes, length, target, count, n, now, output.as_mut_ptr(), output.len())
    };
    answered(returned).map(found)
}

/// A predicate as codes: its number, the /24 that 2 asks for, the slot that 3 asks for.
#[derive(Clone, Copy, Debug, Default, PartialEq, Eq)]
pub struct PredicateCodes {
    pub predicate: u8,
    pub net: [u8; 3],
    pub slot: Slot,
}

pub fn closest_values_predicate(
    storage: &mut [u8],
    target: &[u8],
    predicate: PredicateCodes,
    n: usize,
    now: u64,
    output: &mut [u8],
) -> Result<usize, Refusal> {
    let PredicateCodes { predicate, net: [a, b, c], slot } = predicate;
    let returned = unsafe {
        ffi::kbuckets_closest_values_predicate(
            storage.as_mut_ptr(),
            storage.len(),
            target.as_ptr(),
            target.len(),
            predicate,
            a,
            b,
            c,
            slot,
            n,
            now,
            output.as_mut_ptr(),
            output.len(),
        )
    };
    answered(returned).map(found)
}

pub fn take_applied_pending(storage: &mut [u8], answer: &mut [u8]) -> Result<Option<RecordCodes>, Refusal> {
    let (bytes, length) = (storage.as_mut_ptr(), storage.len());
    let returned = unsafe { ffi::kbuckets_take_applied_pending(bytes, length, answer.as_mut_ptr(), answer.len()) };
    answered(returned).map(|code| yes_or_no(code).then(|| layout::record_in(answer)))
}

/// The explanations answer how many bytes the line has that they wrote to the front of `output`, its line feed included.
pub fn explain_update_node_status(
    storage: &[u8],
    key: &[u8],
    state: u8,
    direction: u8,
    now: u64,
    output: &mut [u8],
) -> Result<usize, Refusal> {
    let (bytes, length) = (storage.as_ptr(), storage.len());
    let (key, count) = (key.as_ptr(), key.len());
    let (line, room) = (output.as_mut_ptr(), output.len());
    let returned = unsafe {
        ffi::kbuckets_explain_update_node_status(bytes, length, key, count, state, direction, now, line, room)
    };
    answered(returned).map(found)
}

pub fn explain_update_node(
    storage: &[u8],
    key: &[u8],
    value: ValueCodes,
    state: u8,
    now: u64,
    output: &mut [u8],
) -> Result<usize, Refusal> {
    let (bytes, length) = (storage.as_ptr(), storage.len());
    let (key, count) = (key.as_ptr(), key.len());
    let (line, room) = (output.as_mut_ptr(), output.len());
    let ValueCodes { flag, octets: [a, b, c, d], slot } = value;
    let returned = unsafe {
        ffi::kbuckets_explain_update_node(bytes, length, key, count, flag, a, b, c, d, slot, state, now, line, room)
    };
    answered(returned).map(found)
}

#[allow(clippy::too_many_arguments)]
pub fn explain_insert_or_update(
    storage: &[u8],
    key: &[u8],
    value: ValueCodes,
    state: u8,
    direction: u8,
    now: u64,
    session: &SessionCodes,
    output: &mut [u8],
) -> Result<usize, Refusal> {
    let (bytes, length) = (storage.as_ptr(), storage.len());
    let (key, count) = (key.as_ptr(), key.len());
    let (line, room) = (output.as_mut_ptr(), output.len());
    let ValueCodes { flag, octets: [a, b, c, d], slot } = value;
    let SessionCodes { windows, closed, date: [year, month, day], minute } = session;
    let (windows, windows_len) = (windows.as_ptr(), windows.len());
    let (closed, closed_len) = (closed.as_ptr(), closed.len());
    let returned = unsafe {
        ffi::kbuckets_explain_insert_or_update(
            bytes,
            length,
            key,
            count,
            flag,
            a,
            b,
            c,
            d,
            slot,
            state,
            direction,
            now,
            windows,
            windows_len,
            closed,
            closed_len,
            *year,
            *month,
            *day,
            *minute,
            line,
            room,
        )
    };
    answered(returned).map(found)
}

pub fn explain_remove(storage: &[u8], key: &[u8], now: u64, output: &mut [u8]) -> Result<usize, Refusal> {
    let (bytes, length) = (storage.as_ptr(), storage.len());
    let (key, count) = (key.as_ptr(), key.len());
    let (line, room) = (output.as_mut_ptr(), output.len());
    let returned = unsafe { ffi::kbuckets_explain_remove(bytes, length, key, count, now, line, room) };
    answered(returned).map(found)
}

pub fn explain_present_update(
    storage: &[u8],
    key: &[u8],
    state: u8,
    direction: u8,
    output: &mut [u8],
) -> Result<usize, Refusal> {
    let (bytes, length) = (storage.as_ptr(), storage.len());
    let (key, count) = (key.as_ptr(), key.len());
    let (line, room) = (output.as_mut_ptr(), output.len());
    let returned =
        unsafe { ffi::kbuckets_explain_present_update(bytes, length, key, count, state, direction, line, room) };
    answered(returned).map(found)
}

pub fn explain_pending_update(
    storage: &[u8],
    key: &[u8],
    state: u8,
    direction: u8,
    output: &mut [u8],
) -> Result<usize, Refusal> {
    let (bytes, length) = (storage.as_ptr(), storage.len());
    let (key, count) = (key.as_ptr(), key.len());
    let (line, room) = (output.as_mut_ptr(), output.len());
    let returned =
        unsafe { ffi::kbuckets_explain_pending_update(bytes, length, key, count, state, direction, line, room) };
    answered(returned).map(found)
}

#[allow(clippy::too_many_arguments)]
pub fn explain_absent_insert(
    storage: &[u8],
    key: &[u8],
    value: ValueCodes,
    state: u8,
    direction: u8,
    now: u64,
    session: &SessionCodes,
    output: &mut [u8],
) -> Result<usize, Refusal> {
    let (bytes, length) = (storage.as_ptr(), storage.len());
    let (key, count) = (key.as_ptr(), key.len());
    let (line, room) = (output.as_mut_ptr(), output.len());
    let ValueCodes { flag, octets: [a, b, c, d], slot } = value;
    let SessionCodes { windows, closed, date: [year, month, day], minute } = session;
    let (windows, windows_len) = (windows.as_ptr(), windows.len());
    let (closed, closed_len) = (closed.as_ptr(), closed.len());
    let returned = unsafe {
        ffi::kbuckets_explain_absent_insert(
            bytes,
            length,
            key,
            count,
            flag,
            a,
            b,
            c,
            d,
            slot,
            state,
            direction,
            now,
            windows,
            windows_len,
            closed,
            closed_len,
            *year,
            *month,
            *day,
            *minute,
            line,
            room,
        )
    };
    answered(returned).map(found)
}

/// The number of held nodes; `output` begins with the [`written_bytes`] of so many.
pub fn write(storage: &[u8], output: &mut [u8]) -> Result<usize, Refusal> {
    let (bytes, length) = (storage.as_ptr(), storage.len());
    let returned = unsafe { ffi::kbuckets_write(bytes, length, output.as_mut_ptr(), output.len()) };
    answered(returned).map(found)
}

/// Loads what [`write`] put out; the number of nodes loaded.
pub fn read(storage: &mut [u8], bytes: &[u8]) -> Result<usize, Refusal> {
    let (stored, length) = (storage.as_mut_ptr(), storage.len());
    let returned = unsafe { ffi::kbuckets_read(stored, length, bytes.as_ptr(), bytes.len()) };
    answered(returned).map(found)
}

pub fn b_new(bucket: &mut [u8], pending_timeout: u64, max_incoming: u8, filter: u8) -> Result<(), Refusal> {
    let (bytes, length) = (bucket.as_mut_ptr(), bucket.len());
    let returned = unsafe { ffi::kbuckets_b_new(bytes, length, pending_timeout, max_incoming, filter) };
    answered(returned).map(|_| ())
}

pub fn b_insert(
    bucket: &mut [u8],
    key: &[u8],
    value: ValueCodes,
    state: u8,
    direction: u8,
    now: u64,
    answer: &mut [u8],
) -> Result<BucketInsertResult, Refusal> {
    let ValueCodes { flag, octets: [a, b, c, d], slot } = value;
    let returned = unsafe {
        ffi::kbuckets_b_insert(
            bucket.as_mut_ptr(),
            bucket.len(),
            key.as_ptr(),
            key.len(),
            flag,
            a,
            b,
            c,
            d,
            slot,
            state,
            direction,
            now,
            answer.as_mut_ptr(),
            answer.len(),
        )
    };
    answered(returned).map(|code| bucket_insert_result(code, layout::key_in(answer)))
}

pub fn b_apply_pending(bucket: &mut [u8], now: u64, answer: &mut [u8]) -> Result<Option<RecordCodes>, Refusal> {
    let (bytes, length) = (bucket.as_mut_ptr(), bucket.len());
    let returned = unsafe { ffi::kbuckets_b_apply_pending(bytes, length, now, answer.as_mut_ptr(), answer.len()) };
    answered(returned).map(|code| yes_or_no(code).then(|| layout::record_in(answer)))
}

pub fn b_update_status(bucket: &mut [u8], key: &[u8], state: u8, direction: u8) -> Result<UpdateResult, Refusal> {
    let (bytes, length) = (bucket.as_mut_ptr(), bucket.len());
    let returned = unsafe { ffi::kbuckets_b_update_status(bytes, length, key.as_ptr(), key.len(), state, direction) };
    answered(returned).map(update_result)
}

pub fn b_update_value(bucket: &mut [u8], key: &[u8], value: ValueCodes) -> Result<UpdateResult, Refusal> {
    let (bytes, length) = (bucket.as_mut_ptr(), bucket.len());
    let ValueCodes { flag, octets: [a, b, c, d], slot } = value;
    let returned =
        unsafe { ffi::kbuckets_b_update_value(bytes, length, key.as_ptr(), key.len(), flag, a, b, c, d, slot) };
    answered(returned).map(update_result)
}

pub fn b_update_pending(bucket: &mut [u8], state: u8, direction: u8) -> Result<(), Refusal> {
    let (bytes, length) = (bucket.as_mut_ptr(), bucket.len());
    let returned = unsafe { ffi::kbuckets_b_update_pending(bytes, length, state, direction) };
    answered(returned).map(|_| ())
}

pub fn b_remove(bucket: &mut [u8], key: &[u8], now: u64) -> Result<bool, Refusal> {
    let (bytes, length) = (bucket.as_mut_ptr(), bucket.len());
    let returned = unsafe { ffi::kbuckets_b_remove(bytes, length, key.as_ptr(), key.len(), now) };
    answered(returned).map(yes_or_no)
}

/// A count is at most [`MAX_COUNT`], a line's length at most [`EXPLANATION_BYTES`], the nodes written or read at most [`MAX_NODES`].
fn found(count: u32) -> usize {
    count as usize
}
