//! The reference behind the text of calls: the questions, then the call on the Rust's table or bucket. A raw line turns the table or
//! the bucket into its bytes; the next call reads it back where question 2 holds of all of them. Where it holds of settings and queue and a
//! bucket is malformed, the Rust has no such table: `write` and `read`, which read all buckets, are refused with 2, and no other call but
//! `new` is answered (02, slip 7).

use crate::hours;
use crate::kbucket::access::{self, KBucket};
use crate::kbucket::filter::{Filter, IpBucketFilter, IpTableFilter};
use crate::kbucket::{
    AppliedPending, BucketInsertResult, ConnectionDirection, ConnectionState, Entry, FailureReason, InsertResult,
    KBucketsTable, Key, Node, NodeStatus, UpdateResult,
};
use crate::layout::{self, AloneBytes, Settings, TableBytes};
use crate::program::{Implementation, Unanswered};
use crate::stand_ins::Value;
use crate::stand_ins::clock::{self, Instant};
use crate::stand_ins::enr::NodeId;
use crate::text::{
    BucketCall, EndingCodes, Listing, NodeCodes, Predicate, RecordCodes, SessionCodes, TableCall, Unplaced, ValueCodes,
    Write,
};
use endings::Reach;
use std::collections::VecDeque;
use std::time::Duration;

mod endings;
mod explain;
mod saved;

pub type Table = KBucketsTable<NodeId, Value>;
pub type Bucket = KBucket<NodeId, Value>;

/// Question 6.
const MAX_COUNT: u64 = 4096;

/// The table, its settings, and all records. The Rust's own queue has those of pendings that were placed, in the same order.
#[derive(Clone)]
struct HeldTable {
    settings: Settings,
    table: Table,
    queue: VecDeque<RecordCodes>,
}

/// The bucket by itself and its settings.
#[derive(Clone)]
struct HeldBucket {
    settings: Settings,
    bucket: Bucket,
}

/// As the Rust has it, or as bytes that a raw line wrote.
#[derive(Clone)]
enum Stored<Held, Bytes> {
    Held(Held),
    Bytes(Bytes),
}

#[derive(Clone)]
pub struct Driver {
    table: Stored<HeldTable, TableBytes>,
    bucket: Stored<HeldBucket, AloneBytes>,
}

impl Driver {
    /// A table of local key 0 and a bucket, both with timeout 0, maximum 0 and filters off.
    pub fn new() -> Driver {
        let settings = Settings::default();
        Driver {
            table: Stored::Held(HeldTable::new(&[0; 32], settings)),
            bucket: Stored::Held(HeldBucket::new(settings)),
        }
    }

    /// The bytes of the table.
    pub fn storage(&self) -> Vec<u8> {
        match &self.table {
            Stored::Held(held) => held.bytes().0,
            Stored::Bytes(bytes) => bytes.0.clone(),
        }
    }

    /// The bytes of the bucket by itself.
    pub fn bucket_storage(&self) -> Vec<u8> {
        match &self.bucket {
            Stored::Held(held) => held.bytes().0,
            Stored::Bytes(bytes) => bytes.0.clone(),
        }
    }
}

impl Implementation for Driver {
    fn table_call(&mut self, short: bool, call: &TableCall, out: &mut Vec<u8>) -> Result<(), Unanswered> {
        ask(1, !short)?;
        if let TableCall::New { local, timeout, max_incoming, table_filter, bucket_filter } = call {
            let local = key_bytes(local)?;
            let codes = usize::from(*max_incoming) <= layout::PLACES && *table_filter <= 1 && *bucket_filter <= 1;
            ask(4, codes)?;
            let settings = Settings {
                timeout: *timeout,
                max_incoming: *max_incoming,
                table_filter: *table_filter,
                bucket_filter: *bucket_filter,
            };
            self.table = Stored::Held(HeldTable::new(&local, settings));
            out.text("New");
            return Ok(());
        }
        if let Stored::Bytes(bytes) = &self.table {
            ask(2, bytes.header_formed())?;
            if !bytes.formed() {
                let reads_all = matches!(call, TableCall::Write { .. } | TableCall::Read { .. });
                return Err(if reads_all { Unanswered::Refused(2) } else { Unanswered::Malformed });
            }
            let held = HeldTable::read(bytes);
            debug_assert!(held.bytes().0 == bytes.0);
            self.table = Stored::Held(held);
        }
        let Stored::Held(held) = &mut self.table else { unreachable!() };
        held.call(call, out)
    }

    fn bucket_call(&mut self, short: bool, call: &BucketCall, out: &mut Vec<u8>) -> Result<(), Unanswered> {
        ask(1, !short)?;
        if let BucketCall::New { timeout, max_incoming, filter } = call {
            ask(4, usize::from(*max_incoming) <= layout::PLACES && *filter <= 1)?;
            let settings =
                Settings { timeout: *timeout, max_incoming: *max_incoming, table_filter: 0, bucket_filter: *filter };
            self.bucket = Stored::Held(HeldBucket::new(settings));
            out.text("New");
            return Ok(());
        }
        if let Stored::Bytes(bytes) = &self.bucket {
            ask(2, bytes.formed())?;
            self.bucket = Stored::Held(HeldBucket::read(bytes));
        }
        let Stored::Held(held) = &mut self.bucket else { unreachable!() };
        held.call(call, out)
    }

    fn table_bytes(&mut self) -> &mut TableBytes {
        if let Stored::Held(held) = &self.table {
            self.table = Stored::Bytes(held.bytes());
        }
        let Stored::Bytes(bytes) = &mut self.table else { unreachable!() };
        bytes
    }

    fn bucket_bytes(&mut self) -> &mut AloneBytes {
        if let Stored::Held(held) = &self.bucket {
            self.bucket = Stored::Bytes(held.bytes());
        }
        let Stored::Bytes(bytes) = &mut self.bucket else { unreachable!() };
        bytes
    }

    fn dump(&self, out: &mut Vec<u8>) {
        match &self.table {
            Stored::Held(held) => held.dump(out),
            Stored::Bytes(bytes) => bytes.dump(out),
        }
    }

    fn bucket_dump(&self, out: &mut Vec<u8>) {
        match &self.bucket {
            Stored::Held(held) => held.dump(out),
            Stored::Bytes(bytes) => bytes.dump(out),
        }
    }
}

impl Default for Driver {
    fn default() -> Self {
        Driver::new()
    }
}

/// One question: its number where the answer is no.
fn ask(question: u8, holds: bool) -> Result<(), Unanswered> {
    if holds { Ok(()) } else { Err(Unanswered::Refused(question)) }
}

/// Question 3.
fn key_bytes(key: &[u8]) -> Result<[u8; 32], Unanswered> {
    key.try_into().map_err(|_| Unanswered::Refused(3))
}

/// Question 5.
fn ask_clock(now: u64, settings: &Settings) -> Result<(), Unanswered> {
    ask(5, now.checked_add(settings.timeout).is_some())
}

/// The kinds that the entry actions need.
#[derive(PartialEq, Eq)]
enum Kind {
    Present,
    Pending,
    Absent,
}

/// The Rust's table, empty.
pub fn new_table(local: &[u8; 32], settings: &Settings) -> Table {
    let table_filter: Option<Box<dyn Filter<Value>>> = match settings.table_filter {
        0 => None,
        _ => Some(Box::new(IpTableFilter)),
    };
    let timeout = Duration::from_millis(settings.timeout);
    Table::new(key_of(local), timeout, settings.max_incoming.into(), table_filter, bucket_filter(settings))
}

impl HeldTable {
    fn new(local: &[u8; 32], settings: Settings) -> HeldTable {
        HeldTable { settings, table: new_table(local, &settings), queue: VecDeque::new() }
    }

    /// Questions 3 to 11, then the call.
    fn call(&mut self, call: &TableCall, out: &mut Vec<u8>) -> Result<(), Unanswered> {
        let settings = &self.settings;
        match call {
            TableCall::New { .. } => unreachable!("asks no question of a table"),
            TableCall::UpdateNodeStatus { now, key, state, direction } => {
                let key = key_of(&key_bytes(key)?);
                ask(4, *state <= 1 && *direction <= 2)?;
                ask_clock(*now, settings)?;
                let update =
                    |t: &mut Table| t.update_node_status(&key, state_of(*state), given(*direction, direction_of));
                let result = self.run(Some(*now), Reach::Applied(&key), update)?;
                update_result(&result, out);
            }
            TableCall::UpdateNode { now, key, value, state } => {
                let key = key_of(&key_bytes(key)?);
                ask(4, layout::value_in_range(value) && *state <= 2)?;
                ask_clock(*now, settings)?;
                let update = |t: &mut Table| t.update_node(&key, value_of(value), given(*state, state_of));
                let result = self.run(Some(*now), Reach::Applied(&key), update)?;
                update_result(&result, out);
            }
            TableCall::InsertOrUpdate { now, key, value, state, direction, session } => {
                let key = key_of(&key_bytes(key)?);
                ask(4, layout::value_in_range(value) && *state <= 1 && *direction <= 1)?;
                ask_clock(*now, settings)?;
                let insert = |t: &mut Table| t.insert_or_update(&key, value_of(value), status_of(*state, *direction));
                let result = self.run_in_session(session, Some(*now), Reach::Applied(&key), insert)?;
                insert_result(&result, out);
            }
            TableCall::Remove { now, key } => {
                let key = key_of(&key_bytes(key)?);
                ask_clock(*now, settings)?;
                let removed = self.run(Some(*now), Reach::Applied(&key), |t| t.remove(&key))?;
                out.text(if removed { "true" } else { "false" });
            }
            TableCall::Entry { now, key } => {
                let key = key_of(&key_bytes(key)?);
                ask_clock(*now, settings)?;
                let (name, status) = self.run(Some(*now), Reach::Applied(&key), |t| match t.entry(&key) {
                    Entry::Present(_, status) => ("Present", Some(status)),
                    Entry::Pending(_, status) => ("Pending", Some(status)),
                    Entry::Absent(_) => ("Absent", None),
                    Entry::SelfEntry => ("SelfEntry", None),
                })?;
                out.text(name);
                if let Some(status) = status {
                    out.text("(");
                    out.status(state_code(status), direction_code(status));
                    out.text(")");
                }
            }
            TableCall::PresentUpdate { key, state, direction } => {
                let key = key_of(&key_bytes(key)?);
                ask(4, *state <= 1 && *direction <= 2)?;
                ask(7, self.kind(&key) == Some(Kind::Present))?;
                let update = |t: &mut Table| present_update(t, &key, state_of(*state), given(*direction, direction_of));
                update_result(&self.run(None, Reach::Stored(&key), update)?, out);
            }
            TableCall::PendingUpdate { key, state, direction } => {
                let key = key_of(&key_bytes(key)?);
                ask(4, *state <= 1 && *direction <= 1)?;
                ask(7, self.kind(&key) == Some(Kind::Pending))?;
                self.run(None, Reach::Stored(&key), |t| {
                    let Entry::Pending(entry, _) = access::stored_entry(t, &key) else { unreachable!() };
                    entry.update(status_of(*state, *direction));
                })?;
                out.text("UpdatedPending");
            }
            TableCall::AbsentInsert { now, key, value, state, direction, session } => {
                let key = key_of(&key_bytes(key)?);
                ask(4, layout::value_in_range(value) && *state <= 1 && *direction <= 1)?;
                ask_clock(*now, settings)?;
                ask(7, self.kind(&key) == Some(Kind::Absent))?;
                let insert = |t: &mut Table| match access::stored_entry(t, &key) {
                    Entry::Absent(entry) => entry.insert(value_of(value), status_of(*state, *direction)),
                    _ => unreachable!(),
                };
                let result = self.run_in_session(session, Some(*now), Reach::Stored(&key), insert)?;
                bucket_insert_result(&result, out);
            }
            TableCall::List { now, listing, n, room } => self.list(*now, listing, *n, *room, out)?,
            TableCall::TakeAppliedPending => {
                clock::set(None);
                taken(self.take(), out);
            }
            TableCall::Explain { call, room } => self.explain(call, *room, out)?,
            TableCall::Write { room } => self.write(*room, out)?,
            TableCall::Read { bytes } => self.load(bytes, out)?,
        }
        Ok(())
    }

    /// The call itself, the records that it leaves, and question 8, where the table is then as it was. Each pending leaves at most one
    /// record, so a clone is kept only where there are enough of them.
    fn run<R>(&mut self, now: Option<u64>, reach: Reach, call: impl FnOnce(&mut Table) -> R) -> Result<R, Unanswered> {
        clock::set(now);
        let (waiting, placed) = (self.waiting(), access::applied_pending(&self.table).len());
        let kept = (self.queue.len() + waiting.len() > layout::RECORDS).then(|| self.table.clone());
        let result = call(&mut self.table);
        let records = self.records(waiting, placed, now, &reach);
        if self.queue.len() + records.len() > layout::RECORDS {
            self.table = kept.expect("more records than pendings");
            return Err(Unanswered::Refused(8));
        }
        self.queue.extend(records);
        Ok(result)
    }

    /// The call with hours. Questions 10 and 11 are asked after 8, of the key as it is before the call (02, slip 8): a call that they refuse
    /// is made on a clone, for question 8 alone.
    fn run_in_session<R>(
        &mut self,
        session: &SessionCodes,
        now: Option<u64>,
        reach: Reach,
        call: impl FnOnce(&mut Table) -> R,
    ) -> Result<R, Unanswered> {
        let (Reach::Applied(key) | Reach::Stored(key)) = &reach else { unreachable!("no call on one key") };
        let known = self.kind(key) != Some(Kind::Absent);
        match hours::refusal(session, known) {
            None => self.run(now, reach, call),
            Some(question) => {
                self.clone().run(now, reach, call)?;
                Err(Unanswered::Refused(question))
            }
        }
    }

    /// The kind of a key as stored, none of the local key.
    fn kind(&mut self, key: &Key<NodeId>) -> Option<Kind> {
        match access::stored_entry(&mut self.table, key) {
            Entry::Present(..) => Some(Kind::Present),
            Entry::Pending(..) => Some(Kind::Pending),
            Entry::Absent(_) => Some(Kind::Absent),
            Entry::SelfEntry => None,
        }
    }

    fn list(
        &mut self,
        now: u64,
        listing: &Listing,
        n: u64,
        room: Option<u64>,
        out: &mut Vec<u8>,
    ) -> Result<(), Unanswered> {
        let target = match listing {
            Listing::Iter | Listing::NodesByDistances(_) => None,
            Listing::ClosestKeys(target)
            | Listing::ClosestValues(target)
            | Listing::ClosestValuesPredicate(target, _) => Some(key_of(&key_bytes(target)?)),
        };
        if let Listing::ClosestValuesPredicate(_, Predicate::Code(code)) = listing {
            ask(4, *code <= 3)?;
        }
        ask_clock(now, &self.settings)?;
        let most = if matches!(listing, Listing::NodesByDistances(_)) { n.max(1) } else { n };
        ask(6, n <= MAX_COUNT && room.is_none_or(|room| most <= room))?;
        let n = n as usize;
        let reach = Reach::Visited(visit(&self.table, listing, target.as_ref()));
        let (count, items) = self.run(Some(now), reach, |t| items(t, listing, target.as_ref(), n))?;
        out.text("List ");
        out.number(count);
        out.extend_from_slice(&items);
        Ok(())
    }

    fn dump(&self, out: &mut Vec<u8>) {
        layout::dump_settings(&access::local_key(&self.table).preimage().raw(), &self.settings, out);
        for (i, bucket) in access::buckets(&self.table).iter().enumerate() {
            if !access::bucket::nodes(bucket).is_empty() || access::bucket::pending(bucket).is_some() {
                out.text(" b");
                out.number(i as u64);
                dump_bucket(bucket, out);
            }
        }
        out.queue(self.queue.iter().copied());
        out.text("\n");
    }

    fn bytes(&self) -> TableBytes {
        let mut bytes = TableBytes::new(&access::local_key(&self.table).preimage().raw(), &self.settings);
        for record in &self.queue {
            bytes.push_record(record).unwrap();
        }
        for (i, bucket) in access::buckets(&self.table).iter().enumerate() {
            write_bucket(bucket, bytes.bucket_mut(i));
        }
        bytes
    }

    /// The table of well-formed bytes.
    fn read(bytes: &TableBytes) -> HeldTable {
        let mut held = HeldTable::new(&bytes.local(), bytes.settings());
        for (i, bucket) in access::buckets_mut(&mut held.table).iter_mut().enumerate() {
            read_bucket(bucket, bytes.bucket(i));
        }
        held.queue = bytes.records().collect();
        let placed = held.queue.iter().filter_map(|record| match &record.ending {
            EndingCodes::Placed(evicted) => {
                Some(AppliedPending { inserted: key_of(&record.key), evicted: evicted.as_ref().map(node_of) })
            }
            EndingCodes::Unplaced(_) => None,
        });
        access::applied_pending_mut(&mut held.table).extend(placed);
        held
    }
}

/// Present `update`. The Rust's says only whether it failed; the result is that of `update_status` on a clone of the bucket.
fn present_update(
    table: &mut Table,
    key: &Key<NodeId>,
    state: ConnectionState,
    direction: Option<ConnectionDirection>,
) -> UpdateResult {
    let result = table.get_bucket(key).unwrap().clone().update_status(key, state, direction);
    let Entry::Present(entry, _) = access::stored_entry(table, key) else { unreachable!() };
    match entry.update(state, direction) {
        Ok(_) => assert!(!result.failed()),
        Err(reason) => assert!(result == UpdateResult::Failed(reason)),
    }
    result
}

/// The buckets in the order in which a listing visits them.
fn visit(table: &Table, listing: &Listing, target: Option<&Key<NodeId>>) -> Vec<usize> {
    match listing {
        Listing::Iter => (0..layout::BUCKETS).collect(),
        Listing::NodesByDistances(distances) => {
            let there = distances.iter().filter(|distance| (1..=layout::BUCKETS as u64).contains(*distance));
            there.map(|distance| *distance as usize - 1).collect()
        }
        _ => access::closest_buckets(table, target.unwrap()),
    }
}

/// What a listing gives: the count, and ` ITEM` for each.
fn items(table: &mut Table, listing: &Listing, target: Option<&Key<NodeId>>, n: usize) -> (u64, Vec<u8>) {
    let mut out = Vec::new();
    let mut count = 0;
    let mut item = |write: &dyn Fn(&mut Vec<u8>)| {
        count += 1;
        out.text(" ");
        write(&mut out);
    };
    match listing {
        Listing::Iter => {
            for entry in table.iter().take(n) {
                item(&|out| out.node(&codes(entry.node.key, entry.node.value, entry.status)));
            }
        }
        Listing::NodesByDistances(distances) => {
            for entry in table.nodes_by_distances(distances, n) {
                item(&|out| out.node(&codes(entry.node.key, entry.node.value, entry.status)));
            }
        }
        Listing::ClosestKeys(_) => {
            for key in table.closest_keys(target.unwrap()).take(n) {
                item(&|out| out.key(&key.preimage().raw()));
            }
        }
        Listing::ClosestValues(_) => {
            for found in table.closest_values(target.unwrap()).take(n) {
                item(&|out| {
                    out.key(&found.key.preimage().raw());
                    out.text("/");
                    out.value(&value_codes(&found.value));
                });
            }
        }
        Listing::ClosestValuesPredicate(_, predicate) => {
            for found in table.closest_values_predicate(target.unwrap(), |v| matches(predicate, v)).take(n) {
                item(&|out| {
                    out.key(&found.key.preimage().raw());
                    out.text("/");
                    out.value(&value_codes(&found.value));
                    out.text(if found.predicate_match { "/1" } else { "/0" });
                });
            }
        }
    }
    (count, out)
}

fn matches(predicate: &Predicate, value: &Value) -> bool {
    match predicate {
        Predicate::Code(0) => true,
        Predicate::Code(_) => value.address.is_some(),
        Predicate::Net(net) => value.address.is_some_and(|a| a.octets()[..3] == *net),
        Predicate::Slot(slot) => value.slot == *slot,
    }
}

impl HeldBucket {
    fn new(settings: Settings) -> HeldBucket {
        let timeout = Duration::from_millis(settings.timeout);
        HeldBucket { settings, bucket: Bucket::new(timeout, settings.max_incoming.into(), bucket_filter(&settings)) }
    }

    /// Questions 3 to 5, then the call.
    fn call(&mut self, call: &BucketCall, out: &mut Vec<u8>) -> Result<(), Unanswered> {
        let HeldBucket { settings, bucket } = self;
        match call {
            BucketCall::New { .. } => unreachable!("asks no question of a bucket"),
            BucketCall::Insert { now, key, value, state, direction } => {
                let key = key_of(&key_bytes(key)?);
                ask(4, layout::value_in_range(value) && *state <= 1 && *direction <= 1)?;
                ask_clock(*now, settings)?;
                clock::set(Some(*now));
                let node = Node { key, value: value_of(value), status: status_of(*state, *direction) };
                bucket_insert_result(&bucket.insert(node), out);
            }
            BucketCall::ApplyPending { now } => {
                ask_clock(*now, settings)?;
                clock::set(Some(*now));
                taken(bucket.apply_pending().as_ref().map(record_codes), out);
            }
            BucketCall::UpdateStatus { key, state, direction } => {
                let key = key_of(&key_bytes(key)?);
                ask(4, *state <= 1 && *direction <= 2)?;
                clock::set(None);
                update_result(&bucket.update_status(&key, state_of(*state), given(*direction, direction_of)), out);
            }
            BucketCall::UpdateValue { key, value } => {
                let key = key_of(&key_bytes(key)?);
                ask(4, layout::value_in_range(value))?;
                clock::set(None);
                update_result(&bucket.update_value(&key, value_of(value)), out);
            }
            BucketCall::UpdatePending { state, direction } => {
                ask(4, *state <= 1 && *direction <= 1)?;
                clock::set(None);
                bucket.update_pending(status_of(*state, *direction));
                out.text("Done");
            }
            BucketCall::Remove { now, key } => {
                let key = key_of(&key_bytes(key)?);
                ask_clock(*now, settings)?;
                clock::set(Some(*now));
                out.text(if bucket.remove(&key) { "true" } else { "false" });
            }
        }
        Ok(())
    }

    fn dump(&self, out: &mut Vec<u8>) {
        layout::dump_alone_settings(&self.settings, out);
        dump_bucket(&self.bucket, out);
        out.text("\n");
    }

    fn bytes(&self) -> AloneBytes {
        let mut bytes = AloneBytes::new(&self.settings);
        write_bucket(&self.bucket, bytes.bucket_mut());
        bytes
    }

    fn read(bytes: &AloneBytes) -> HeldBucket {
        let mut held = HeldBucket::new(bytes.settings());
        read_bucket(&mut held.bucket, bytes.bucket());
        held
    }
}

fn bucket_filter(settings: &Settings) -> Option<Box<dyn Filter<Value>>> {
    match settings.bucket_filter {
        0 => None,
        _ => Some(Box::new(IpBucketFilter)),
    }
}

fn dump_bucket(bucket: &Bucket, out: &mut Vec<u8>) {
    out.bucket(
        access::bucket::first_connected_pos(bucket).map(|place| place as u8),
        access::bucket::nodes(bucket).iter().map(node_codes),
        access::bucket::pending(bucket).map(|(node, deadline)| (node_codes(node), deadline.0)),
    );
}

fn write_bucket(bucket: &Bucket, mut bytes: layout::BucketBytesMut) {
    for node in access::bucket::nodes(bucket) {
        bytes.push_node(&node_codes(node)).unwrap();
    }
    bytes.set_first_connected(access::bucket::first_connected_pos(bucket).map(|place| place as u8));
    if let Some((node, deadline)) = access::bucket::pending(bucket) {
        bytes.set_pending(&node_codes(node), deadline.0);
    }
}

fn read_bucket(bucket: &mut Bucket, bytes: layout::BucketBytes) {
    access::bucket::set(
        bucket,
        bytes.nodes().map(|node| node_of(&node)),
        bytes.first_connected().map(usize::from),
        bytes.pending().map(|(node, deadline)| (node_of(&node), Instant(deadline))),
    );
}

pub fn key_of(bytes: &[u8; 32]) -> Key<NodeId> {
    Key::from(NodeId::new(bytes))
}

fn value_of(codes: &ValueCodes) -> Value {
    Value { address: (codes.flag == 1).then(|| codes.octets.into()), slot: codes.slot }
}

fn value_codes(value: &Value) -> ValueCodes {
    ValueCodes {
        flag: value.address.is_some().into(),
        octets: value.address.map_or([0; 4], |a| a.octets()),
        slot: value.slot,
    }
}

fn state_of(code: u8) -> ConnectionState {
    if code == 1 { ConnectionState::Connected } else { ConnectionState::Disconnected }
}

fn direction_of(code: u8) -> ConnectionDirection {
    if code == 1 { ConnectionDirection::Incoming } else { ConnectionDirection::Outgoing }
}

/// 2 is "not given".
fn given<T>(code: u8, of: impl Fn(u8) -> T) -> Option<T> {
    (code != 2).then(|| of(code))
}

fn status_of(state: u8, direction: u8) -> NodeStatus {
    NodeStatus { state: state_of(state), direction: direction_of(direction) }
}

fn state_code(status: NodeStatus) -> u8 {
    status.is_connected().into()
}

fn direction_code(status: NodeStatus) -> u8 {
    status.is_incoming().into()
}

fn codes(key: &Key<NodeId>, value: &Value, status: NodeStatus) -> NodeCodes {
    NodeCodes {
        key: key.preimage().raw(),
        state: state_code(status),
        direction: direction_code(status),
        value: value_codes(value),
    }
}

fn node_codes(node: &Node<NodeId, Value>) -> NodeCodes {
    codes(&node.key, &node.value, node.status)
}

fn node_of(codes: &NodeCodes) -> Node<NodeId, Value> {
    Node { key: key_of(&codes.key), value: value_of(&codes.value), status: status_of(codes.state, codes.direction) }
}

fn record_codes(record: &AppliedPending<NodeId, Value>) -> RecordCodes {
    let ending = EndingCodes::Placed(record.evicted.as_ref().map(node_codes));
    RecordCodes { key: record.inserted.preimage().raw(), ending }
}

fn taken(record: Option<RecordCodes>, out: &mut Vec<u8>) {
    match record {
        None => out.text("None"),
        Some(record) => {
            out.text("Some(");
            out.record(&record);
            out.text(")");
        }
    }
}

fn raw_key(node: &Node<NodeId, Value>) -> [u8; 32] {
    node.key.preimage().raw()
}

fn reason(reason: &FailureReason, out: &mut Vec<u8>) {
    out.text("Failed(");
    out.text(match reason {
        FailureReason::TooManyIncoming => "TooManyIncoming",
        FailureReason::BucketFilter => "BucketFilter",
        FailureReason::TableFilter => "TableFilter",
        FailureReason::KeyNonExistent => "KeyNonExistent",
        FailureReason::BucketFull => "BucketFull",
        FailureReason::InvalidSelfUpdate => "InvalidSelfUpdate",
    });
    out.text(")");
}

fn update_result(result: &UpdateResult, out: &mut Vec<u8>) {
    match result {
        UpdateResult::Updated => out.text("Updated"),
        UpdateResult::UpdatedAndPromoted => out.text("UpdatedAndPromoted"),
        UpdateResult::UpdatedPending => out.text("UpdatedPending"),
        UpdateResult::Failed(why) => reason(why, out),
        UpdateResult::NotModified => out.text("NotModified"),
    }
}

fn insert_result(result: &InsertResult<NodeId>, out: &mut Vec<u8>) {
    match result {
        InsertResult::Inserted => out.text("Inserted"),
        InsertResult::Pending { disconnected } => pending(disconnected, out),
        InsertResult::StatusUpdated { promoted_to_connected } => promoted("StatusUpdated", *promoted_to_connected, out),
        InsertResult::ValueUpdated => out.text("ValueUpdated"),
        InsertResult::Updated { promoted_to_connected } => promoted("Updated", *promoted_to_connected, out),
        InsertResult::UpdatedPending => out.text("UpdatedPending"),
        InsertResult::Failed(why) => reason(why, out),
    }
}

fn bucket_insert_result(result: &BucketInsertResult<NodeId>, out: &mut Vec<u8>) {
    match result {
        BucketInsertResult::Inserted => out.text("Inserted"),
        BucketInsertResult::Pending { disconnected } => pending(disconnected, out),
        BucketInsertResult::FailedFilter => out.text("FailedFilter"),
        BucketInsertResult::TooManyIncoming => out.text("TooManyIncoming"),
        BucketInsertResult::Full => out.text("Full"),
        BucketInsertResult::NodeExists => out.text("NodeExists"),
    }
}

fn pending(disconnected: &Key<NodeId>, out: &mut Vec<u8>) {
    out.text("Pending{disconnected:");
    out.key(&disconnected.preimage().raw());
    out.text("}");
}

fn promoted(name: &str, promoted: bool, out: &mut Vec<u8>) {
    out.text(name);
    out.text(if promoted { "{promoted_to_connected:true}" } else { "{promoted_to_connected:false}" });
}
