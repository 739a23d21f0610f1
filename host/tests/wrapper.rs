//! The wrapper: owned tables and buckets, and the calls on lent bytes.

use calls::layout::{self, TableBytes};
use kbuckets::lent::{self, PredicateCodes, RecordCodes, SessionCodes, Unplaced, ValueCodes};
use kbuckets::{
    AppliedPending, BucketInsertResult, ClosestValue, ConnectionDirection, ConnectionState, Date, Ending, Entry,
    Explanation, FailureReason, InsertResult, KBucket, KBucketsTable, Moment, Node, NodeStatus, PeerCall, Predicate,
    PredicateValue, Reason, Record, Refusal, Session, Settings, Slot, Told, UpdateResult, Value, Weekday, Window,
};

fn key(first: u8, last: u8) -> [u8; 32] {
    let mut key = [0; 32];
    key[0] = first;
    key[31] = last;
    key
}

fn value(last: u8) -> Value {
    Value { address: Some([10, 0, 0, last].into()), slot: 256 + Slot::from(last) }
}

const CONNECTED: NodeStatus =
    NodeStatus { state: ConnectionState::Connected, direction: ConnectionDirection::Outgoing };
const DISCONNECTED: NodeStatus =
    NodeStatus { state: ConnectionState::Disconnected, direction: ConnectionDirection::Incoming };

fn node(key: [u8; 32], value: Value, status: NodeStatus) -> Node {
    Node { key, value, status }
}

/// A full bucket, a node that waits for the place of the only disconnected one, and what becomes of both.
#[test]
fn pending() -> Result<(), Refusal> {
    let settings = Settings { pending_timeout: 50, max_incoming: 1, ..Settings::default() };
    let mut table = KBucketsTable::new([0; 32], settings)?;
    assert_eq!(table.insert_or_update(&key(128, 0), value(0), DISCONNECTED, 0)?, InsertResult::Inserted);
    for i in 1..16 {
        assert_eq!(table.absent_insert(&key(128, i), value(i), CONNECTED, 0)?, BucketInsertResult::Inserted);
    }
    let waiting = key(128, 16);
    let result = table.insert_or_update(&waiting, value(16), CONNECTED, 100)?;
    assert_eq!(result, InsertResult::Pending { disconnected: key(128, 0) });
    assert_eq!(table.entry(&waiting, 149)?, Entry::Pending(CONNECTED));
    assert_eq!(table.pending_update(&waiting, DISCONNECTED)?, UpdateResult::UpdatedPending);
    assert_eq!(table.entry(&waiting, 149)?, Entry::Pending(DISCONNECTED));
    assert_eq!(table.take_applied_pending()?, None);
    assert_eq!(table.entry(&waiting, 150)?, Entry::Present(DISCONNECTED));
    let evicted = Some(node(key(128, 0), value(0), DISCONNECTED));
    assert_eq!(table.take_applied_pending()?, Some(Record { key: waiting, ending: Ending::Placed { evicted } }));
    assert_eq!(table.take_applied_pending()?, None);
    assert_eq!(table.present_update(&waiting, ConnectionState::Connected, None)?, UpdateResult::UpdatedAndPromoted);
    assert_eq!(table.entry(&key(128, 0), 150)?, Entry::Absent);
    assert_eq!(table.entry(&[0; 32], 150)?, Entry::SelfEntry);
    assert!(table.remove(&waiting, 150)?);
    assert!(!table.remove(&waiting, 150)?);
    Ok(())
}

/// A full bucket whose node at place 0, key 0, is disconnected, and key 16, which waits for it until 50.
fn waiting() -> Result<KBucketsTable, Refusal> {
    let settings = Settings { pending_timeout: 50, max_incoming: 1, bucket_filter: true, table_filter: false };
    let mut table = KBucketsTable::new([0; 32], settings)?;
    for i in 0..16 {
        let status = if i == 0 { DISCONNECTED } else { CONNECTED };
        let none = Value { address: None, slot: i.into() };
        assert_eq!(table.insert_or_update(&key(128, i), none, status, 0)?, InsertResult::Inserted);
    }
    let result = table.insert_or_update(&key(128, 16), value(16), CONNECTED, 0)?;
    assert_eq!(result, InsertResult::Pending { disconnected: key(128, 0) });
    Ok(table)
}

/// Each way in which a pending node ends leaves its record, and no other.
#[test]
fn endings() -> Result<(), Refusal> {
    let incoming = Some(ConnectionDirection::Incoming);
    let ended = |mut table: KBucketsTable, ending: Ending| {
        assert_eq!(table.take_applied_pending()?, Some(Record { key: key(128, 16), ending }));
        assert_eq!(table.take_applied_pending()?, None);
        Ok::<(), Refusal>(())
    };

    let mut table = waiting()?;
    assert_eq!(table.entry(&key(128, 16), 50)?, Entry::Present(CONNECTED));
    let evicted = Some(node(key(128, 0), Value { address: None, slot: 0 }, DISCONNECTED));
    ended(table, Ending::Placed { evicted })?;

    let mut table = waiting()?;
    assert!(table.remove(&key(128, 1), 49)?);
    assert_eq!(table.iter(4096, 50)?.len(), 16);
    ended(table, Ending::Placed { evicted: None })?;

    let mut table = waiting()?;
    assert!(table.remove(&key(128, 0), 49)?);
    assert_eq!(table.insert_or_update(&key(128, 17), value(17), CONNECTED, 49)?, InsertResult::Inserted);
    assert_eq!(table.entry(&key(128, 16), 50)?, Entry::Absent);
    ended(table, Ending::FirstConnected)?;

    let mut table = waiting()?;
    for i in [1, 2] {
        assert_eq!(table.update_node(&key(128, i), value(i), None, 49)?, UpdateResult::Updated);
    }
    assert!(!table.remove(&key(128, 16), 50)?);
    ended(table, Ending::BucketFilter)?;

    let mut table = waiting()?;
    let status = NodeStatus { direction: ConnectionDirection::Incoming, ..CONNECTED };
    assert_eq!(table.pending_update(&key(128, 16), status)?, UpdateResult::UpdatedPending);
    let result = table.present_update(&key(128, 1), ConnectionState::Connected, incoming)?;
    assert_eq!(result, UpdateResult::Updated);
    assert_eq!(table.nodes_by_distances(&[256, 256], 1, 50)?.len(), 1);
    ended(table, Ending::TooManyIncoming)?;

    let mut table = waiting()?;
    assert!(table.remove(&key(128, 1), 49)?);
    assert_eq!(table.insert_or_update(&key(128, 16), value(16), CONNECTED, 49)?, InsertResult::Inserted);
    ended(table, Ending::Inserted)?;

    let mut table = waiting()?;
    let result = table.present_update(&key(128, 0), ConnectionState::Connected, None)?;
    assert_eq!(result, UpdateResult::UpdatedAndPromoted);
    ended(table, Ending::FirstConfirmed)
}

/// A full queue refuses every call that would end a pending, also one that applies none.
#[test]
fn full_queue() -> Result<(), Refusal> {
    let mut bytes = TableBytes(waiting()?.storage().to_vec());
    for i in 0..layout::RECORDS {
        let record = RecordCodes { key: key(0, i as u8), ending: Unplaced::Inserted.into() };
        bytes.push_record(&record).unwrap();
    }
    let mut table = KBucketsTable::from_storage(bytes.0);
    let (first, before) = (key(128, 0), table.clone());
    assert_eq!(table.present_update(&first, ConnectionState::Connected, None), Err(Refusal::Queue));
    let call = PeerCall::PresentUpdate { key: first, state: ConnectionState::Connected, direction: None };
    assert_eq!(table.explain(&call), Err(Refusal::Queue));
    assert_eq!(table.entry(&first, 50), Err(Refusal::Queue));
    assert!(table == before);
    assert_eq!(table.take_applied_pending()?, Some(Record { key: key(0, 0), ending: Ending::Inserted }));
    let result = table.present_update(&first, ConnectionState::Connected, None)?;
    assert_eq!(result, UpdateResult::UpdatedAndPromoted);
    Ok(())
}

#[test]
fn updates() -> Result<(), Refusal> {
    let mut table = KBucketsTable::new([0; 32], Settings { table_filter: true, ..Settings::default() })?;
    let one = key(0, 1);
    assert_eq!(table.update_node(&one, value(1), None, 0)?, UpdateResult::Failed(FailureReason::KeyNonExistent));
    assert_eq!(table.insert_or_update(&one, value(1), DISCONNECTED, 0)?, InsertResult::Inserted);
    assert_eq!(table.update_node(&one, value(1), None, 0)?, UpdateResult::NotModified);
    assert_eq!(table.update_node(&one, value(2), Some(ConnectionState::Disconnected), 0)?, UpdateResult::Updated);
    let incoming = Some(ConnectionDirection::Incoming);
    let result = table.update_node_status(&one, ConnectionState::Connected, incoming, 0)?;
    assert_eq!(result, UpdateResult::Failed(FailureReason::TooManyIncoming));
    assert_eq!(table.entry(&one, 0)?, Entry::Absent);
    Ok(())
}

/// A member of a /24 signs its record anew: kept with ten held there, its own among them, and lost with eleven, by the ten others.
#[test]
fn own_old_record() -> Result<(), Refusal> {
    let mut table = KBucketsTable::new([0; 32], Settings { table_filter: true, ..Settings::default() })?;
    let member = |last| key(128, last);
    for last in 1..=10 {
        assert_eq!(table.insert_or_update(&member(last), value(last), CONNECTED, 0)?, InsertResult::Inserted);
    }
    let anew = |slot| Value { slot, ..value(3) };
    assert_eq!(table.update_node(&member(3), anew(1), None, 0)?, UpdateResult::Updated);
    assert_eq!(table.insert_or_update(&member(3), anew(2), CONNECTED, 0)?, InsertResult::ValueUpdated);
    assert_eq!(table.absent_insert(&member(11), value(11), CONNECTED, 0)?, BucketInsertResult::Inserted);
    let others: Vec<_> = (1..=11).filter(|last| *last != 3).map(member).collect();
    let call = PeerCall::UpdateNode { key: member(3), value: anew(3), state: None, now: 0 };
    assert_eq!(*table.explain(&call)?.reason(), Reason::TableFilter(others));
    assert_eq!(table.update_node(&member(3), anew(3), None, 0)?, UpdateResult::Failed(FailureReason::TableFilter));
    assert_eq!(table.entry(&member(3), 0)?, Entry::Absent);
    Ok(())
}

/// Each call is explained before it is made; the line is read back, and the table stays.
#[test]
fn explanations() -> Result<(), Refusal> {
    let settings = Settings { pending_timeout: 50, max_incoming: 1, bucket_filter: true, table_filter: true };
    let mut table = KBucketsTable::new([0; 32], settings)?;
    let none = |slot| Value { address: None, slot };
    assert_eq!(table.insert_or_update(&key(128, 0), value(0), DISCONNECTED, 0)?, InsertResult::Inserted);
    assert_eq!(table.insert_or_update(&key(128, 1), value(1), DISCONNECTED, 0)?, InsertResult::Inserted);
    for i in 2..16 {
        assert_eq!(table.absent_insert(&key(128, i), none(i.into()), CONNECTED, 0)?, BucketInsertResult::Inserted);
    }
    let explain = |table: &KBucketsTable, call: PeerCall| {
        let before = table.clone();
        let explanation = table.explain(&call)?;
        assert!(*table == before);
        assert_eq!(explanation.to_string().parse(), Ok(explanation.clone()));
        Ok::<Explanation, Refusal>(explanation)
    };
    let told = |explanation: Explanation| (explanation.told(), explanation.reason().clone());
    let (first, waiting, now) = (key(128, 0), key(128, 16), 100);
    let call = PeerCall::InsertOrUpdate { key: waiting, value: none(16), status: CONNECTED, now };
    assert_eq!(told(explain(&table, call)?), (Told::Pending { disconnected: first }, Reason::None));
    let result = table.insert_or_update(&waiting, none(16), CONNECTED, now)?;
    assert_eq!(result, InsertResult::Pending { disconnected: first });
    let call = PeerCall::AbsentInsert { key: key(128, 17), value: none(17), status: CONNECTED, now };
    let explanation = explain(&table, call)?;
    assert_eq!(explanation.keys(), [waiting]);
    assert_eq!(explanation.to_string(), format!("Full pending 80{:0>62}", 10));
    assert_eq!(told(explanation), (Told::Full, Reason::Pending(waiting)));
    let call = PeerCall::PendingUpdate { key: waiting, status: DISCONNECTED };
    assert_eq!(told(explain(&table, call)?), (Told::UpdatedPending, Reason::None));
    let call = PeerCall::UpdateNode { key: key(128, 2), value: value(2), state: None, now };
    let filter = Reason::BucketFilter(vec![first, key(128, 1)]);
    assert_eq!(told(explain(&table, call)?), (Told::Failed(FailureReason::BucketFilter), filter));
    let (state, direction) = (ConnectionState::Connected, Some(ConnectionDirection::Incoming));
    assert_eq!(table.update_node_status(&key(128, 3), state, direction, now)?, UpdateResult::Updated);
    let call = PeerCall::UpdateNodeStatus { key: key(128, 4), state, direction, now };
    let limit = Reason::IncomingLimit(vec![key(128, 3)]);
    assert_eq!(told(explain(&table, call)?), (Told::Failed(FailureReason::TooManyIncoming), limit.clone()));
    let call = PeerCall::PresentUpdate { key: key(128, 4), state, direction };
    assert_eq!(told(explain(&table, call)?), (Told::Failed(FailureReason::TooManyIncoming), limit));
    let call = PeerCall::Remove { key: [0; 32], now };
    assert_eq!(told(explain(&table, call)?), (Told::Removed(false), Reason::LocalKey));
    assert_eq!(explain(&table, PeerCall::Remove { key: first, now: u64::MAX }), Err(Refusal::Time));
    assert_eq!(explain(&table, PeerCall::PendingUpdate { key: first, status: CONNECTED }), Err(Refusal::Kind));
    Ok(())
}

/// Bytes behind the line stay; where the output is too short, all do.
#[test]
fn lent_explanation() -> Result<(), Refusal> {
    let storage = vec![0; lent::STORAGE_BYTES];
    let mut output = [0xaa; lent::EXPLANATION_BYTES + 1];
    let short = &mut output[..lent::EXPLANATION_BYTES - 1];
    assert_eq!(lent::explain_remove(&storage, &key(0, 2), 0, short), Err(Refusal::Output));
    assert_eq!(lent::explain_remove(&storage, &[0; 31], 0, short), Err(Refusal::Key));
    assert!(output.iter().all(|byte| *byte == 0xaa));
    let line = b"false no such key\n";
    assert_eq!(lent::explain_remove(&storage, &key(0, 2), 0, &mut output)?, line.len());
    assert_eq!(output[..line.len()], line[..]);
    assert!(output[line.len()..].iter().all(|byte| *byte == 0xaa));
    assert!(storage.iter().all(|byte| *byte == 0));
    Ok(())
}

#[test]
fn listings() -> Result<(), Refusal> {
    let mut table = KBucketsTable::new([0; 32], Settings::default())?;
    let none = Value { address: None, slot: 9 };
    let held = [node(key(0, 2), value(2), CONNECTED), node(key(0, 4), none, DISCONNECTED)];
    for node in held {
        assert_eq!(table.insert_or_update(&node.key, node.value, node.status, 0)?, InsertResult::Inserted);
    }
    assert_eq!(table.iter(4096, 0)?, held);
    assert_eq!(table.iter(1, 0)?, held[..1]);
    assert_eq!(table.iter(0, 0)?, []);
    assert_eq!(table.nodes_by_distances(&[3, 2, 257, 3], 9, 0)?, [held[1], held[0], held[1]]);
    assert_eq!(table.nodes_by_distances(&[3], 0, 0)?, held[1..]);
    assert_eq!(table.nodes_by_distances(&[], 9, 0)?, []);
    let target = key(0, 6);
    assert_eq!(table.closest_keys(&target, 9, 0)?, [key(0, 4), key(0, 2)]);
    let values = held.map(|node| ClosestValue { key: node.key, value: node.value });
    assert_eq!(table.closest_values(&target, 9, 0)?, [values[1], values[0]]);
    for (predicate, expected) in [
        (Predicate::Always, [true, true]),
        (Predicate::HasAddress, [false, true]),
        (Predicate::InNet([10, 0, 0]), [false, true]),
        (Predicate::InNet([10, 0, 1]), [false, false]),
        (Predicate::Slot(9), [true, false]),
    ] {
        let found = table.closest_values_predicate(&target, predicate, 9, 0)?;
        let marked = |node: Node, predicate_match| PredicateValue { key: node.key, value: node.value, predicate_match };
        assert_eq!(found, [marked(held[1], expected[0]), marked(held[0], expected[1])]);
    }
    Ok(())
}

/// Two slots that differ in one byte alone, whichever it is, are not equal: as values, to the filters and to the predicate.
#[test]
fn slots() -> Result<(), Refusal> {
    for slot in [0, 1, 1 << 16, 1 << 32, 1 << 63, Slot::MAX] {
        for bit in 0..Slot::BITS {
            let at = |slot| Value { address: Some([10, 0, 0, 1].into()), slot };
            let (held, twin) = (at(slot), at(slot ^ 1 << bit));
            let mut table = KBucketsTable::new([0; 32], Settings { max_incoming: 16, ..Settings::default() })?;
            assert_eq!(table.insert_or_update(&key(0, 4), held, CONNECTED, 0)?, InsertResult::Inserted);
            assert_eq!(table.insert_or_update(&key(0, 5), twin, CONNECTED, 0)?, InsertResult::Inserted);
            let values = [held, twin].map(|value| value.slot);
            assert_eq!(table.iter(9, 0)?.iter().map(|node| node.value.slot).collect::<Vec<_>>(), values);
            for asked in values {
                let found = table.closest_values_predicate(&key(0, 4), Predicate::Slot(asked), 9, 0)?;
                assert!(found.iter().all(|found| found.predicate_match == (found.value.slot == asked)), "{asked}");
                assert_eq!(found.iter().filter(|found| found.predicate_match).count(), 1);
            }
            assert_eq!(table.update_node(&key(0, 4), held, None, 0)?, UpdateResult::NotModified);
            assert_eq!(table.update_node(&key(0, 4), twin, None, 0)?, UpdateResult::Updated);
            assert_eq!(table.iter(1, 0)?, [node(key(0, 4), twin, CONNECTED)]);

            let mut bucket = KBucket::new(0, 16, true)?;
            for (last, value, result) in [
                (1, held, BucketInsertResult::Inserted),
                (2, twin, BucketInsertResult::Inserted),
                (3, held, BucketInsertResult::Inserted),
                (4, twin, BucketInsertResult::FailedFilter),
            ] {
                assert_eq!(bucket.insert(node(key(0, last), value, CONNECTED), 0)?, result, "{slot} {bit} {last}");
            }
        }
    }
    Ok(())
}

/// A refused call is its question, and the bytes stay.
#[test]
fn refusals() -> Result<(), Refusal> {
    let too_many = Settings { max_incoming: 17, ..Settings::default() };
    assert_eq!(KBucketsTable::new([0; 32], too_many).err(), Some(Refusal::Code));
    assert_eq!(KBucket::new(0, 17, false).err(), Some(Refusal::Code));
    let mut table = KBucketsTable::new([0; 32], Settings { pending_timeout: 1, ..Settings::default() })?;
    assert_eq!(table.insert_or_update(&key(0, 2), value(2), CONNECTED, 0)?, InsertResult::Inserted);
    let before = table.clone();
    assert_eq!(table.remove(&key(0, 2), u64::MAX), Err(Refusal::Time));
    assert_eq!(table.iter(4097, 0), Err(Refusal::Output));
    assert_eq!(table.iter(usize::MAX, 0), Err(Refusal::Output));
    assert_eq!(table.pending_update(&key(0, 2), CONNECTED), Err(Refusal::Kind));
    let absent = table.absent_insert(&key(0, 2), value(2), CONNECTED, 0);
    assert_eq!(absent, Err(Refusal::Kind));
    assert_eq!(table, before);
    let held = format!(" b1{{fcp=0 nodes=[{:0>64}/1:10.0.0.2:258/1/0] pending=-}} queue=[]", 2);
    assert!(format!("{table:?}").ends_with(&held));
    let mut kept = KBucketsTable::from_storage(table.storage().to_vec());
    assert_eq!(kept.closest_keys(&[0; 32], 1, 0)?, [key(0, 2)]);
    let mut bytes = table.storage().to_vec();
    bytes.pop();
    assert_eq!(
        format!("{:?}", KBucketsTable::from_storage(bytes.clone())),
        format!("no table: {} bytes", lent::STORAGE_BYTES - 1)
    );
    assert_eq!(KBucketsTable::from_storage(bytes.clone()).take_applied_pending(), Err(Refusal::Size));
    // The last byte is bucket 255's, and what reads it is refused.
    bytes.push(1);
    let mut elsewhere = KBucketsTable::from_storage(bytes.clone());
    assert_eq!(elsewhere.write(), Err(Refusal::Form));
    assert_eq!(elsewhere.remove(&key(128, 1), 0), Err(Refusal::Form));
    assert_eq!(elsewhere.iter(2, 0), Err(Refusal::Form));
    assert_eq!(elsewhere.iter(1, 0)?.len(), 1);
    assert_eq!(elsewhere.take_applied_pending()?, None);
    assert!(elsewhere.remove(&key(0, 2), 0)?);
    assert_eq!(elsewhere.storage().last(), Some(&1));
    bytes[layout::HEADER_OFFSETS[2]] = 2;
    assert_eq!(KBucketsTable::from_storage(bytes).take_applied_pending(), Err(Refusal::Form));
    Ok(())
}

/// A box swap: a table of calls, with a pending node and a record, is written and read by one with the same local key and settings.
#[test]
fn box_swap() -> Result<(), Refusal> {
    let settings = Settings { pending_timeout: 50, max_incoming: 1, bucket_filter: true, table_filter: false };
    let old = {
        let mut table = waiting()?;
        let _ = table.update_node_status(&key(128, 0), ConnectionState::Connected, None, 0)?;
        let _ = table.update_node_status(&key(128, 1), ConnectionState::Disconnected, None, 0)?;
        let _ = table.insert_or_update(&key(128, 17), value(17), CONNECTED, 0)?;
        let _ = table.insert_or_update(&key(0, 9), value(9), DISCONNECTED, 0)?;
        table
    };
    let bytes = old.write()?;
    assert_eq!(bytes.len(), lent::written_bytes(17));
    assert_eq!((bytes[3], bytes[255], bytes[..256].iter().map(|size| u32::from(*size)).sum()), (1, 16, 17));
    assert_eq!(bytes[256..288], key(0, 9));
    let mut new = KBucketsTable::new([0; 32], settings)?;
    assert_eq!(new.read(&bytes)?, 17);
    assert_eq!(new.write()?, bytes);
    // At time 0 no pending node is due, so the lists are of the held nodes.
    assert_eq!(new.iter(4096, 0)?, old.clone().iter(4096, 0)?);
    assert_eq!(new.take_applied_pending()?, None);
    assert_eq!(new.entry(&key(128, 17), 0)?, Entry::Absent);
    assert_eq!(old.clone().entry(&key(128, 17), 0)?, Entry::Pending(CONNECTED));
    // What is not empty, and what does not fit, is refused, and the table stays.
    let before = new.clone();
    assert_eq!(new.read(&bytes), Err(Refusal::Load));
    assert_eq!(new, before);
    let no_incoming = Settings { max_incoming: 0, ..settings };
    for (local, settings) in [([1; 32], settings), (key(128, 1), settings), ([0; 32], no_incoming)] {
        let mut other = KBucketsTable::new(local, settings)?;
        let before = other.clone();
        assert_eq!(other.read(&bytes), Err(Refusal::Load));
        assert_eq!(other, before);
    }
    let mut empty = KBucketsTable::new([0; 32], settings)?;
    for at in 0..=bytes.len() {
        assert_eq!(empty.read(&bytes[..at]).is_ok(), at == bytes.len(), "{at}");
    }
    Ok(())
}

/// The longest output, of a full table; and every byte of the output past what is written stays.
#[test]
fn a_full_table_is_written() -> Result<(), Refusal> {
    let mut table = KBucketsTable::new([0; 32], Settings::default())?;
    let none = Value { address: None, slot: 1 };
    for i in 0..256_usize {
        for last in 0..if i < 4 { 1 << i } else { 16 } {
            let mut key = [0; 32];
            key[31] = last;
            key[31 - i / 8] |= 1 << (i % 8);
            assert_eq!(table.insert_or_update(&key, none, CONNECTED, 0)?, InsertResult::Inserted);
        }
    }
    let bytes = table.write()?;
    assert_eq!(bytes.len(), lent::MAX_WRITTEN_BYTES);
    let mut other = KBucketsTable::new([0; 32], Settings::default())?;
    assert_eq!(other.read(&bytes)?, lent::MAX_NODES);
    assert_eq!(other, table);
    let mut output = vec![0xaa; bytes.len() + 9];
    assert_eq!(lent::write(table.storage(), &mut output[..bytes.len() - 1]), Err(Refusal::Output));
    assert!(output.iter().all(|byte| *byte == 0xaa));
    assert_eq!(lent::write(table.storage(), &mut output)?, lent::MAX_NODES);
    assert!(output.starts_with(&bytes) && output[bytes.len()..] == [0xaa; 9]);
    Ok(())
}

const WEEK: [Weekday; 7] = [
    Weekday::Monday,
    Weekday::Tuesday,
    Weekday::Wednesday,
    Weekday::Thursday,
    Weekday::Friday,
    Weekday::Saturday,
    Weekday::Sunday,
];

fn date(year: u16, month: u16, day: u16) -> Date {
    Date { year, month, day }
}

/// A new key is admitted in the hours alone, a held one, a pending one and the local key are not asked; explanations are refused alike.
#[test]
fn session() -> Result<(), Refusal> {
    let monday = date(2026, 11, 16);
    let window = |weekday, opening, closing| Window { weekday, opening, closing };
    let office = [window(Weekday::Monday, 540, 1020), window(Weekday::Tuesday, 0, 1440)];
    let at = |date, minute| Session::new(&office, &[date_of_closing()], Moment { date, minute });
    let mut table = KBucketsTable::new([0; 32], Settings::default())?;
    let before = table.clone();
    for (n, (session, open)) in [
        (at(monday, 539), false),
        (at(monday, 540), true),
        (at(monday, 1019), true),
        (at(monday, 1020), false),
        (at(date(2026, 11, 17), 0), true),
        (at(date(2026, 11, 17), 1439), true),
        (at(date(2026, 11, 18), 720), false),
        (at(date_of_closing(), 720), false),
    ]
    .into_iter()
    .enumerate()
    {
        let (first, second) = (key(n as u8 + 1, 1), key(n as u8 + 1, 2));
        let call = PeerCall::InsertOrUpdate { key: first, value: value(1), status: CONNECTED, now: 0 };
        let explained = table.explain_in_session(&call, &session);
        let inserted = table.insert_or_update_in_session(&first, value(1), CONNECTED, 0, &session);
        let call = PeerCall::AbsentInsert { key: second, value: value(2), status: CONNECTED, now: 0 };
        let absent_explained = table.explain_in_session(&call, &session);
        let absent = table.absent_insert_in_session(&second, value(2), CONNECTED, 0, &session);
        if open {
            assert_eq!(inserted?, InsertResult::Inserted);
            assert_eq!(absent?, BucketInsertResult::Inserted);
            assert_eq!((explained?.told(), absent_explained?.told()), (Told::Inserted, Told::Inserted));
        } else {
            assert_eq!((inserted, absent), (Err(Refusal::Closed), Err(Refusal::Closed)), "{session:?}");
            assert_eq!((explained, absent_explained), (Err(Refusal::Closed), Err(Refusal::Closed)));
            // The calls without hours are answered.
            assert_eq!(table.explain(&call)?.told(), Told::Inserted);
        }
    }
    assert_ne!(table, before);

    let shut = at(monday, 0);
    let held = table.insert_or_update_in_session(&key(2, 1), value(9), CONNECTED, 0, &shut)?;
    assert_eq!(held, InsertResult::ValueUpdated);
    let local = table.insert_or_update_in_session(&[0; 32], value(9), CONNECTED, 0, &shut)?;
    assert_eq!(local, InsertResult::Failed(FailureReason::InvalidSelfUpdate));
    let mut table = waiting()?;
    let pending = table.insert_or_update_in_session(&key(128, 16), value(9), CONNECTED, 0, &shut)?;
    assert_eq!(pending, InsertResult::Failed(FailureReason::BucketFull));
    // Without a window nothing is asked.
    let none = Session::new(&[], &[date(0, 0, 0)], Moment { date: date(1, 2, 3), minute: 65535 });
    let inserted = table.insert_or_update_in_session(&key(1, 1), value(9), CONNECTED, 0, &none)?;
    assert_eq!(inserted, InsertResult::Inserted);
    // Where the hours are none the call is refused, whatever the key.
    for session in [
        Session::new(&[window(Weekday::Monday, 9, 9)], &[], Moment { date: monday, minute: 0 }),
        Session::new(&[window(Weekday::Monday, 0, 1441)], &[], Moment { date: monday, minute: 0 }),
        Session::new(&office, &[date(2100, 2, 29)], Moment { date: monday, minute: 0 }),
        Session::new(&office, &[], Moment { date: date(2027, 2, 29), minute: 0 }),
        Session::new(&office, &[], Moment { date: monday, minute: 1440 }),
        Session::new(&[office[0]; 33], &[], Moment { date: monday, minute: 600 }),
        Session::new(&office, &[date(2026, 12, 25); 65], Moment { date: monday, minute: 600 }),
    ] {
        let before = table.clone();
        for key in [[0; 32], key(1, 1), key(1, 2)] {
            let refused = table.insert_or_update_in_session(&key, value(9), CONNECTED, 0, &session);
            assert_eq!(refused, Err(Refusal::Hours), "{session:?}");
        }
        assert_eq!(table, before);
    }
    let most = Session::new(&[office[0]; 32], &[date(2026, 12, 25); 64], Moment { date: monday, minute: 600 });
    assert_eq!(
        table.absent_insert_in_session(&key(1, 2), value(9), CONNECTED, 0, &most)?,
        BucketInsertResult::Inserted
    );
    Ok(())
}

fn date_of_closing() -> Date {
    date(2026, 11, 23)
}

/// The days of a week that ends a leap year's February, one after the other.
#[test]
fn weekdays() -> Result<(), Refusal> {
    let days =
        [26, 27, 28, 29].map(|day| date(2024, 2, day)).into_iter().chain([1, 2, 3].map(|day| date(2024, 3, day)));
    let table = KBucketsTable::new([0; 32], Settings::default())?;
    let call = PeerCall::AbsentInsert { key: key(1, 1), value: value(1), status: CONNECTED, now: 0 };
    for (today, date) in WEEK.into_iter().zip(days) {
        for weekday in WEEK {
            let window = Window { weekday, opening: 0, closing: lent::MINUTES };
            let session = Session::new(&[window], &[], Moment { date, minute: 720 });
            let admitted = table.explain_in_session(&call, &session).map(|explanation| explanation.told());
            let expected = if weekday == today { Ok(Told::Inserted) } else { Err(Refusal::Closed) };
            assert_eq!(admitted, expected, "{date:?} {weekday:?}");
        }
    }
    Ok(())
}

/// Numbers of any kind, and lengths that are no whole entries: the calls on lent bytes pass them on.
#[test]
fn lent_hours() -> Result<(), Refusal> {
    let mut storage = vec![0; lent::STORAGE_BYTES];
    let none = ValueCodes { flag: 0, octets: [0; 4], slot: 5 };
    let open = SessionCodes { windows: vec![1, 0, 1440], closed: vec![], date: [2026, 11, 16], minute: 0 };
    let with = |change: &dyn Fn(&mut SessionCodes)| {
        let mut session = open.clone();
        change(&mut session);
        session
    };
    let answer = &mut [0xaa; lent::ANSWER_BYTES];
    let output = &mut [0xaa; lent::EXPLANATION_BYTES];
    for session in [
        with(&|s| s.windows.push(0)),
        with(&|s| s.windows.extend([1, 0])),
        with(&|s| s.windows = vec![1]),
        with(&|s| s.windows[0] = 0),
        with(&|s| s.windows[0] = 8),
        with(&|s| s.windows = vec![65535; 3]),
        with(&|s| s.closed = vec![2026]),
        with(&|s| s.closed = vec![2026, 12]),
        with(&|s| s.date = [65535; 3]),
        with(&|s| s.minute = 65535),
    ] {
        for key in [[0; 32], key(0, 2)] {
            let refused = lent::insert_or_update(&mut storage, &key, none, 1, 0, 0, &session, answer);
            assert_eq!(refused, Err(Refusal::Hours), "{session:?}");
            let refused = lent::explain_insert_or_update(&storage, &key, none, 1, 0, 0, &session, output);
            assert_eq!(refused, Err(Refusal::Hours), "{session:?}");
        }
        let refused = lent::absent_insert(&mut storage, &key(0, 2), none, 1, 0, 0, &session, answer);
        assert_eq!(refused, Err(Refusal::Hours), "{session:?}");
        let refused = lent::explain_absent_insert(&storage, &key(0, 2), none, 1, 0, 0, &session, output);
        assert_eq!(refused, Err(Refusal::Hours), "{session:?}");
    }
    assert!(storage.iter().all(|byte| *byte == 0) && answer.iter().chain(&output[..]).all(|byte| *byte == 0xaa));
    assert_eq!(
        lent::explain_absent_insert(&storage, &key(0, 2), none, 1, 0, 0, &open, output)?,
        "Inserted none\n".len()
    );
    let inserted = lent::absent_insert(&mut storage, &key(0, 2), none, 1, 0, 0, &open, answer)?;
    assert_eq!(inserted, BucketInsertResult::Inserted);
    Ok(())
}

/// Bytes past the entries that are found stay; where the call is refused, all do.
#[test]
fn lent_output() -> Result<(), Refusal> {
    let mut storage = vec![0; lent::STORAGE_BYTES];
    let none = ValueCodes { flag: 0, octets: [0; 4], slot: 5 };
    let (every_hour, answer) = (SessionCodes::default(), &mut [0; lent::ANSWER_BYTES]);
    let inserted = lent::insert_or_update(&mut storage, &key(0, 2), none, 1, 0, 0, &every_hour, answer)?;
    assert_eq!(inserted, InsertResult::Inserted);
    let mut output = [0xaa; 3 * lent::CLOSEST_VALUES_PREDICATE_ENTRY + 7];
    let slot = PredicateCodes { predicate: 3, net: [0; 3], slot: 5 };
    let refused = lent::closest_values_predicate(&mut storage, &[0; 32], slot, 4, 0, &mut output);
    assert_eq!(refused, Err(Refusal::Output));
    assert!(output.iter().all(|byte| *byte == 0xaa));
    assert_eq!(lent::closest_values_predicate(&mut storage, &[0; 32], slot, 3, 0, &mut output)?, 1);
    let mut entry = key(0, 2).to_vec();
    entry.extend([1, 0, 0, 0, 0, 0]);
    entry.extend(none.slot.to_be_bytes());
    assert_eq!(output[..lent::CLOSEST_VALUES_PREDICATE_ENTRY], entry);
    assert!(output[lent::CLOSEST_VALUES_PREDICATE_ENTRY..].iter().all(|byte| *byte == 0xaa));
    assert_eq!(lent::remove(&mut storage, &[0; 31], 0), Err(Refusal::Key));
    assert_eq!(lent::update_node_status(&mut storage, &key(0, 2), 2, 0, 0), Err(Refusal::Code));
    Ok(())
}

#[test]
fn bucket_by_itself() -> Result<(), Refusal> {
    let mut bucket = KBucket::new(50, 1, true)?;
    assert_eq!(bucket.insert(node(key(0, 1), value(1), DISCONNECTED), 0)?, BucketInsertResult::Inserted);
    assert_eq!(bucket.insert(node(key(0, 1), value(1), DISCONNECTED), 0)?, BucketInsertResult::NodeExists);
    assert_eq!(bucket.insert(node(key(9, 2), value(2), CONNECTED), 0)?, BucketInsertResult::Inserted);
    assert_eq!(bucket.insert(node(key(7, 3), value(3), CONNECTED), 0)?, BucketInsertResult::FailedFilter);
    let none = |slot| Value { address: None, slot };
    for i in 3..17 {
        let inserted = bucket.insert(node(key(0, i), none(i.into()), CONNECTED), 0)?;
        assert_eq!(inserted, BucketInsertResult::Inserted);
    }
    let waiting = node(key(0, 17), none(17), CONNECTED);
    assert_eq!(bucket.insert(waiting, 0)?, BucketInsertResult::Pending { disconnected: key(0, 1) });
    assert_eq!(bucket.insert(node(key(0, 18), none(18), CONNECTED), 0)?, BucketInsertResult::Full);
    bucket.update_pending(DISCONNECTED)?;
    assert_eq!(bucket.apply_pending(49)?, None);
    let evicted = Some(node(key(0, 1), value(1), DISCONNECTED));
    assert_eq!(bucket.apply_pending(50)?, Some(AppliedPending { inserted: key(0, 17), evicted }));
    assert_eq!(bucket.update_value(&key(0, 17), none(1))?, UpdateResult::Updated);
    let promoted = bucket.update_status(&key(0, 17), ConnectionState::Connected, None)?;
    assert_eq!(promoted, UpdateResult::UpdatedAndPromoted);
    assert!(bucket.remove(&key(0, 17), 50)?);
    assert!(format!("{bucket:?}").starts_with("bdump timeout=50 max=1 bf=1 {fcp=0 nodes=["));
    let mut kept = KBucket::from_bytes(bucket.bytes()[1..].to_vec());
    assert_eq!(kept.remove(&key(0, 17), 50), Err(Refusal::Size));
    Ok(())
}
