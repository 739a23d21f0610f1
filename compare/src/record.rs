//! Records of calls with the reference's answers: 128 bytes, big-endian, as crates/replay/src/record.rt reads them. A record has the
//! call and its arguments, the code of the answer (include/kbuckets.h) and a checksum of all that the call may write, after the call.

use crate::driver::Driver;
use crate::layout::{KEY, NODE, RECORD, VALUE};
use crate::text::{self, BucketCall, Line, Listing, Predicate, SessionCodes, Slot, TableCall, ValueCodes};
use calls::program;

pub const BYTES: usize = 128;
type Record = [u8; BYTES];

/// The places in a record: number of the call; how many bytes, or distances; key; state and direction; flag, or predicate; octets; slot;
/// time; length of the storage or bucket; n, or where a write begins, or date and minute; length of the output or answer; code; checksum;
/// distances, or the bytes of a write, or how many numbers of windows and of closed dates there are, and these.
const COUNT_AT: usize = 1;
const KEY_AT: usize = COUNT_AT + 1;
const CODES_AT: usize = KEY_AT + KEY + 1;
const FLAG_AT: usize = CODES_AT + 2;
const OCTETS_AT: usize = FLAG_AT + 1;
const SLOT_AT: usize = OCTETS_AT + 4;
const TIME_AT: usize = SLOT_AT + size_of::<Slot>();
const SIZE_AT: usize = TIME_AT + 8;
const N_AT: usize = SIZE_AT + 4;
const ROOM_AT: usize = N_AT + 8;
const CODE_AT: usize = ROOM_AT + 4;
const CHECKSUM_AT: usize = CODE_AT + 4;
const REST_AT: usize = CHECKSUM_AT + 8;
const WINDOWS_AT: usize = REST_AT + 2;
const CLOSED_AT: usize = WINDOWS_AT + 2 * (3 * WINDOWS + 1);

/// What the output or the answer holds before a call.
const FILL: u8 = 165;

/// The length of `answer` where a line does not say another.
pub const ANSWER: usize = RECORD;

/// The distances that a record has room for, and the bytes of a write.
const DISTANCES: usize = (BYTES - REST_AT) / 8;
const WRITTEN: usize = BYTES - REST_AT;

/// The windows and the closed dates that a record has room for, each with one number more.
const WINDOWS: usize = 4;
const CLOSED: usize = 2;
const _: () = assert!(CLOSED_AT + 2 * (3 * CLOSED + 1) == BYTES);

/// The entries that an output has room for, at most.
const ENTRIES: u64 = 4096 + 5;

/// The calls in the order of their numbers. What begins with a space is a write: bytes that no call leaves.
const CALLS: [&str; 24] = [
    " storage",
    "new",
    "update_node_status",
    "update_node",
    "insert_or_update",
    "remove",
    "entry",
    "present_update",
    "pending_update",
    "absent_insert",
    "iter",
    "nodes_by_distances",
    "closest_keys",
    "closest_values",
    "closest_values_predicate",
    "take_applied_pending",
    " bucket",
    "b_new",
    "b_insert",
    "b_apply_pending",
    "b_update_status",
    "b_update_value",
    "b_update_pending",
    "b_remove",
];

/// Calls with an answer, whose length may be given as `answer=K` at the end of the line.
pub const ANSWERING: [&str; 5] =
    ["insert_or_update", "absent_insert", "take_applied_pending", "b_insert", "b_apply_pending"];

/// The name of a line's call.
pub fn name(line: &str) -> &str {
    let line = line.strip_prefix("! ").unwrap_or(line);
    line.split(' ').next().unwrap_or_default()
}

/// A line without the length of its answer, and that length.
fn parts(line: &str) -> (&str, Option<usize>) {
    match line.split_once(" answer=") {
        Some((line, length)) => (line, length.parse().ok()),
        None => (line, None),
    }
}

/// A line that fits a record: at most as many distances, windows and closed dates as it has room for.
pub fn fitting(line: &str) -> String {
    let cut: &[(usize, usize)] = match name(line) {
        "nodes_by_distances" => &[(2, DISTANCES)],
        "insert_or_update" | "absent_insert" => &[(6, WINDOWS), (7, CLOSED)],
        _ => return line.to_string(),
    };
    let mut words: Vec<String> = line.split(' ').map(str::to_string).collect();
    for (at, most) in cut {
        let at = at + usize::from(line.starts_with("! "));
        if let Some(word) = words.get_mut(at) {
            let (entries, rest) = word.strip_suffix('+').map_or((&word[..], ""), |entries| (entries, "+"));
            *word = entries.split(',').take(*most).collect::<Vec<_>>().join(",") + rest;
        }
    }
    words.join(" ")
}

/// Runs a line and gives its answer, with question 6 asked of an answer that is too short.
pub fn answer(driver: &mut Driver, line: &str) -> Result<String, String> {
    let (line, length) = parts(line);
    let parsed = text::parse(line)?.ok_or("no call")?;
    let before = length.is_some_and(|length| length < ANSWER).then(|| driver.clone());
    let mut out = Vec::new();
    program::answer_line(driver, &parsed, false, &mut out)?;
    let mut answer = String::from_utf8(out).map_err(|e| e.to_string())?.trim_end().to_string();
    if let Some(before) = before {
        let earlier = ["Refused 1", "Refused 2", "Refused 3", "Refused 4", "Refused 5", program::MALFORMED];
        let earlier = earlier.contains(&answer.as_str());
        if !earlier {
            answer = "Refused 6".to_string();
        }
        *driver = before;
    }
    Ok(answer)
}

/// Runs a line and adds its records: one for a call, one or more for a raw line.
pub fn records(driver: &mut Driver, line: &str, to: &mut Vec<Record>) -> Result<String, String> {
    let (storage, bucket) = (driver.storage(), driver.bucket_storage());
    let answer = answer(driver, line)?;
    let (text, length) = parts(line);
    match text::parse(text)?.ok_or("no call")? {
        Line::Raw(_) => {
            writes(0, storage, &driver.storage(), to);
            writes(16, bucket, &driver.bucket_storage(), to);
        }
        Line::Table { short, call } => {
            let mut record = [0; BYTES];
            let size = storage.len() - usize::from(short);
            let room = table_arguments(&call, length.unwrap_or(ANSWER), &mut record);
            finish(text, &answer, size, room, driver.storage(), &mut record)?;
            to.push(record);
        }
        Line::Bucket { short, call } => {
            let mut record = [0; BYTES];
            let size = bucket.len() - usize::from(short);
            let room = bucket_arguments(&call, length.unwrap_or(ANSWER), &mut record);
            finish(text, &answer, size, room, driver.bucket_storage(), &mut record)?;
            to.push(record);
        }
        Line::Dump | Line::BucketDump => {}
    }
    Ok(answer)
}

/// The records that turn the bytes before into those after.
fn writes(number: u8, mut before: Vec<u8>, after: &[u8], to: &mut Vec<Record>) {
    while let Some(at) = (0..after.len()).find(|i| before[*i] != after[*i]) {
        let end = after.len().min(at + WRITTEN);
        let count = (at..end).rev().find(|i| before[*i] != after[*i]).unwrap() + 1 - at;
        before[at..at + count].copy_from_slice(&after[at..at + count]);
        let mut record = [0; BYTES];
        record[0] = number;
        record[COUNT_AT] = count as u8;
        put(N_AT, &(at as u64).to_be_bytes(), &mut record);
        put(CHECKSUM_AT, &checksum(&before).to_be_bytes(), &mut record);
        put(REST_AT, &after[at..at + count], &mut record);
        to.push(record);
    }
}

/// The number of the call, the lengths, the code and the checksum.
fn finish(
    line: &str,
    answer: &str,
    size: usize,
    room: usize,
    mut written: Vec<u8>,
    record: &mut Record,
) -> Result<(), String> {
    let call = name(line);
    let number = CALLS.iter().position(|c| *c == call).ok_or_else(|| format!("no call is named {call:?}"))?;
    let (code, bytes) = code(call, answer).ok_or_else(|| format!("no code: {call} {answer}"))?;
    let mut out = vec![FILL; room];
    out[..bytes.len()].copy_from_slice(&bytes);
    written.extend(out);
    record[0] = number as u8;
    put(SIZE_AT, &(size as u32).to_be_bytes(), record);
    put(ROOM_AT, &(room as u32).to_be_bytes(), record);
    put(CODE_AT, &code.to_be_bytes(), record);
    put(CHECKSUM_AT, &checksum(&written).to_be_bytes(), record);
    Ok(())
}

/// FNV-1a.
fn checksum(bytes: &[u8]) -> u64 {
    bytes.iter().fold(0xcbf2_9ce4_8422_2325, |sum, byte| (sum ^ u64::from(*byte)).wrapping_mul(0x100_0000_01b3))
}

fn put(at: usize, bytes: &[u8], record: &mut Record) {
    record[at..at + bytes.len()].copy_from_slice(bytes);
}

fn put_key(key: &[u8], record: &mut Record) {
    record[COUNT_AT] = key.len() as u8;
    put(KEY_AT, key, record);
}

fn put_codes(codes: [u8; 2], record: &mut Record) {
    put(CODES_AT, &codes, record);
}

fn put_value(value: &ValueCodes, record: &mut Record) {
    record[FLAG_AT] = value.flag;
    put(OCTETS_AT, &value.octets, record);
    put(SLOT_AT, &value.slot.to_be_bytes(), record);
}

fn put_time(time: u64, record: &mut Record) {
    put(TIME_AT, &time.to_be_bytes(), record);
}

fn put_numbers(at: usize, numbers: &[u16], record: &mut Record) {
    put(at, &numbers.iter().flat_map(|number| number.to_be_bytes()).collect::<Vec<u8>>(), record);
}

fn put_session(session: &SessionCodes, record: &mut Record) {
    let SessionCodes { windows, closed, date: [year, month, day], minute } = session;
    assert!(windows.len() <= 3 * WINDOWS + 1 && closed.len() <= 3 * CLOSED + 1, "hours that do not fit a record");
    put_numbers(N_AT, &[*year, *month, *day, *minute], record);
    put(REST_AT, &[windows.len() as u8, closed.len() as u8], record);
    put_numbers(WINDOWS_AT, windows, record);
    put_numbers(CLOSED_AT, closed, record);
}

/// Puts the arguments and gives the length of the output or the answer.
fn table_arguments(call: &TableCall, answer: usize, record: &mut Record) -> usize {
    match call {
        TableCall::New { local, timeout, max_incoming, table_filter, bucket_filter } => {
            put_key(local, record);
            put_codes([*max_incoming, *table_filter], record);
            record[FLAG_AT] = *bucket_filter;
            put_time(*timeout, record);
            0
        }
        TableCall::UpdateNodeStatus { now, key, state, direction } => {
            put_key(key, record);
            put_codes([*state, *direction], record);
            put_time(*now, record);
            0
        }
        TableCall::UpdateNode { now, key, value, state } => {
            put_key(key, record);
            put_codes([*state, 0], record);
            put_value(value, record);
            put_time(*now, record);
            0
        }
        TableCall::InsertOrUpdate { now, key, value, state, direction, session }
        | TableCall::AbsentInsert { now, key, value, state, direction, session } => {
            put_key(key, record);
            put_codes([*state, *direction], record);
            put_value(value, record);
            put_time(*now, record);
            put_session(session, record);
            answer
        }
        TableCall::Remove { now, key } | TableCall::Entry { now, key } => {
            put_key(key, record);
            put_time(*now, record);
            0
        }
        TableCall::PresentUpdate { key, state, direction } | TableCall::PendingUpdate { key, state, direction } => {
            put_key(key, record);
            put_codes([*state, *direction], record);
            0
        }
        TableCall::List { now, listing, n, room } => {
            put_time(*now, record);
            put(N_AT, &n.to_be_bytes(), record);
            let (least, entry) = match listing {
                Listing::Iter => (0, NODE),
                Listing::NodesByDistances(distances) => {
                    record[COUNT_AT] = distances.len() as u8;
                    for (distance, bytes) in distances.iter().zip(record[REST_AT..].chunks_exact_mut(8)) {
                        bytes.copy_from_slice(&distance.to_be_bytes());
                    }
                    (1, NODE)
                }
                Listing::ClosestKeys(target) => {
                    put_key(target, record);
                    (0, KEY)
                }
                Listing::ClosestValues(target) => {
                    put_key(target, record);
                    (0, KEY + VALUE)
                }
                Listing::ClosestValuesPredicate(target, predicate) => {
                    put_key(target, record);
                    put_predicate(predicate, record);
                    (0, KEY + 1 + VALUE)
                }
            };
            room.unwrap_or((*n).max(least)).min(ENTRIES) as usize * entry
        }
        TableCall::TakeAppliedPending => answer,
        TableCall::Explain { .. } | TableCall::Write { .. } | TableCall::Read { .. } => {
            unreachable!("an explanation, a table written or read has no record")
        }
    }
}

fn put_predicate(predicate: &Predicate, record: &mut Record) {
    match predicate {
        Predicate::Code(code) => record[FLAG_AT] = *code,
        Predicate::Net(net) => {
            record[FLAG_AT] = 2;
            put(OCTETS_AT, net, record);
        }
        Predicate::Slot(slot) => {
            record[FLAG_AT] = 3;
            put(SLOT_AT, &slot.to_be_bytes(), record);
        }
    }
}

fn bucket_arguments(call: &BucketCall, answer: usize, record: &mut Record) -> usize {
    match call {
        BucketCall::New { timeout, max_incoming, filter } => {
            put_codes([*max_incoming, *filter], record);
            put_time(*timeout, record);
            0
        }
        BucketCall::Insert { now, key, value, state, direction } => {
            put_key(key, record);
            put_codes([*state, *direction], record);
            put_value(value, record);
            put_time(*now, record);
            answer
        }
        BucketCall::ApplyPending { now } => {
            put_time(*now, record);
            answer
        }
        BucketCall::UpdateStatus { key, state, direction } => {
            put_key(key, record);
            put_codes([*state, *direction], record);
            0
        }
        BucketCall::UpdateValue { key, value } => {
            put_key(key, record);
            put_value(value, record);
            0
        }
        BucketCall::UpdatePending { state, direction } => {
            put_codes([*state, *direction], record);
            0
        }
        BucketCall::Remove { now, key } => {
            put_key(key, record);
            put_time(*now, record);
            0
        }
    }
}

/// The answers of a call in the order of their codes.
fn answers(call: &str) -> &'static [&'static str] {
    match call {
        "new" | "b_new" => &["New"],
        "b_update_pending" => &["Done"],
        "remove" | "b_remove" => &["false", "true"],
        "entry" => &["Absent", "SelfEntry"],
        "take_applied_pending" | "b_apply_pending" => &["None"],
        "insert_or_update" => &[
            "Inserted",
            "",
            "StatusUpdated{promoted_to_connected:false}",
            "StatusUpdated{promoted_to_connected:true}",
            "ValueUpdated",
            "Updated{promoted_to_connected:false}",
            "Updated{promoted_to_connected:true}",
            "UpdatedPending",
        ],
        "absent_insert" | "b_insert" => &["Inserted", "", "FailedFilter", "TooManyIncoming", "Full", "NodeExists"],
        _ => &["NotModified", "Updated", "UpdatedAndPromoted", "UpdatedPending"],
    }
}

const REASONS: [&str; 6] =
    ["TooManyIncoming", "BucketFilter", "TableFilter", "KeyNonExistent", "BucketFull", "InvalidSelfUpdate"];

/// The endings of a pending that was not placed, in the order of their codes, from 2 on.
const UNPLACED: [&str; 5] =
    ["dropped_place_0", "dropped_bucket_filter", "dropped_incoming_limit", "cleared_inserted", "cleared_confirmed"];

/// The code of an answer, and what the call writes to the output or the answer.
fn code(call: &str, answer: &str) -> Option<(u32, Vec<u8>)> {
    if let Some(question) = answer.strip_prefix("Refused ") {
        return Some((0x10000 + question.parse::<u32>().ok()?, Vec::new()));
    }
    if let Some(list) = answer.strip_prefix("List ") {
        let mut words = list.split(' ');
        let count = words.next()?.parse().ok()?;
        return Some((count, words.map(item).collect::<Option<Vec<_>>>()?.concat()));
    }
    if let Some(record) = within(answer, "Some(", ")") {
        let (ended, ending) = record.split_at(record.find(['^', '!'])?);
        let mut bytes = key(ended)?;
        match ending.strip_prefix('^') {
            Some("-") => bytes.push(0),
            Some(node) => {
                bytes.push(1);
                bytes.extend(item(node)?);
            }
            None => bytes.push(2 + UNPLACED.iter().position(|word| ending[1..] == **word)? as u8),
        }
        bytes.resize(ANSWER, 0);
        return Some((1, bytes));
    }
    if let Some(evicted) = within(answer, "Pending{disconnected:", "}") {
        return Some((1, key(evicted)?));
    }
    if let Some(reason) = within(answer, "Failed(", ")") {
        return Some((16 + REASONS.iter().position(|r| *r == reason)? as u32, Vec::new()));
    }
    for (kind, first) in [("Present(", 16), ("Pending(", 32)] {
        if let Some(status) = within(answer, kind, ")") {
            let (state, direction) = status.split_once('/')?;
            return Some((first + 2 * state.parse::<u32>().ok()? + direction.parse::<u32>().ok()?, Vec::new()));
        }
    }
    Some((answers(call).iter().position(|a| *a == answer)? as u32, Vec::new()))
}

fn within<'a>(text: &'a str, before: &str, after: &str) -> Option<&'a str> {
    text.strip_prefix(before)?.strip_suffix(after)
}

fn key(text: &str) -> Option<Vec<u8>> {
    (0..32).map(|i| u8::from_str_radix(text.get(2 * i..2 * i + 2)?, 16).ok()).collect()
}

/// Key; key and value; key, match and value; or a node.
fn item(text: &str) -> Option<Vec<u8>> {
    let words: Vec<&str> = text.split('/').collect();
    let mut bytes = key(words[0])?;
    for code in words.get(2..).unwrap_or_default() {
        bytes.push(code.parse().ok()?);
    }
    if let Some(value) = words.get(1) {
        let (flag, rest) = value.split_once(':')?;
        let (octets, slot) = rest.split_once(':')?;
        bytes.push(flag.parse().ok()?);
        for octet in octets.split('.') {
            bytes.push(octet.parse().ok()?);
        }
        bytes.extend(slot.parse::<Slot>().ok()?.to_be_bytes());
    }
    Some(bytes)
}
