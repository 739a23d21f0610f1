//! Tests that this package agrees with include/kbuckets.h: the functions, the sizes, the codes, the version.

use crate::answers::{
    self, BucketInsertResult, Ending, Entry, FailureReason, InsertResult, Record, Refusal, UpdateResult,
};
use crate::lent;
use crate::node::{ConnectionDirection, ConnectionState, NOT_GIVEN, Node, NodeStatus, Value};
use crate::version::{VERSION, Version};
use calls::layout;
use calls::text::{EndingCodes, RecordCodes, Slot};
use std::collections::HashMap;

const HEADER: &str = include_str!("../../include/kbuckets.h");
const FFI: &str = include_str!("ffi.rs");

/// A text without its comments, its runs of white space made single spaces.
fn plain(text: &str, open: &str, close: &str) -> String {
    let mut parts = text.split(open);
    let mut code = parts.next().unwrap().to_string();
    for part in parts {
        code += part.split_once(close).unwrap().1;
    }
    code.split_whitespace().collect::<Vec<_>>().join(" ")
}

/// Names and types of the parameters of each function, as `name: type, name: type`.
fn declared(code: &str, start: &str, end: &str, parameter: impl Fn(&str) -> String) -> Vec<(String, String)> {
    let mut functions = Vec::new();
    for part in code.split(start).skip(1) {
        let (declaration, _) = part.split_once(end).unwrap();
        let (name, parameters) = declaration.split_once('(').unwrap();
        let parameters = parameters.split(',').map(str::trim).filter(|p| !p.is_empty() && *p != "void").map(&parameter);
        functions.push((name.to_string(), parameters.collect::<Vec<_>>().join(", ")));
    }
    functions
}

fn rust_parameter(parameter: &str) -> String {
    let at = parameter.rfind([' ', '*']).unwrap() + 1;
    let kind = match parameter[..at].trim() {
        "uint8_t *" => "*mut u8",
        "const uint8_t *" => "*const u8",
        "const uint64_t *" => "*const u64",
        "const uint16_t *" => "*const u16",
        "size_t" => "usize",
        "uint8_t" => "u8",
        "uint16_t" => "u16",
        "uint64_t" => "u64",
        "kbuckets_slot" => "Slot",
        other => panic!("{other}"),
    };
    format!("{}: {kind}", &parameter[at..])
}

#[test]
fn functions() {
    let header = plain(HEADER, "/*", "*/");
    let slot = format!("typedef uint{}_t kbuckets_slot;", Slot::BITS);
    assert_eq!(header.matches(&slot).count(), 1);
    // Each must have its answer looked at.
    let in_header = declared(&header, "KBUCKETS_MUST_USE uint32_t ", ");", rust_parameter);
    let in_rust = declared(&plain(FFI, "//", "\n"), "pub fn ", ") -> u32;", str::to_string);
    assert!(in_header.len() > 20);
    assert_eq!(in_header, in_rust);
    assert_eq!(in_header.len(), header.matches("uint32_t kbuckets_").count());
}

/// The constants of the header: sums of products of numbers and names.
fn constants() -> HashMap<String, u64> {
    let header = plain(HEADER, "/*", "*/");
    let mut constants = HashMap::new();
    let mut define = |name: &str, sum: &str| {
        let factor = |word: &str| match (word.strip_prefix("0x"), word.parse::<u64>()) {
            (Some(digits), _) => u64::from_str_radix(digits, 16).unwrap(),
            (None, Ok(number)) => number,
            (None, Err(_)) => constants[word],
        };
        let value = sum.split('+').map(|p| p.split('*').map(|word| factor(word.trim())).product::<u64>()).sum();
        constants.insert(name.trim().to_string(), value);
    };
    for line in HEADER.lines().filter_map(|line| line.strip_prefix("#define ")) {
        if let Some((name, sum)) = line.split_once(' ').filter(|(name, _)| name.starts_with("KBUCKETS_VERSION")) {
            define(name, sum.trim_start_matches('(').trim_end_matches(')'));
        }
    }
    for part in header.split("enum {").skip(1) {
        let (body, _) = part.split_once('}').unwrap();
        for constant in body.split(',').filter(|constant| !constant.trim().is_empty()) {
            let (name, sum) = constant.split_once('=').unwrap();
            define(name, sum);
        }
    }
    constants
}

/// version.rs holds the linked library to the same version.
#[test]
fn version() {
    let constants = constants();
    for (name, part) in [("MAJOR", VERSION.major), ("MINOR", VERSION.minor), ("PATCH", VERSION.patch)] {
        assert_eq!(constants[&format!("KBUCKETS_VERSION_{name}")], part.into(), "{name}");
    }
    assert_eq!(Version::from(constants["KBUCKETS_VERSION"] as u32), VERSION);
}

#[test]
fn sizes() {
    let constants = constants();
    for (name, size) in [
        ("KEY_BYTES", layout::KEY),
        ("SLOT_BYTES", size_of::<Slot>()),
        ("VALUE_BYTES", layout::VALUE),
        ("NODE_BYTES", layout::NODE),
        ("RECORD_BYTES", layout::RECORD),
        ("MAX_NODES_PER_BUCKET", layout::PLACES),
        ("NUM_BUCKETS", layout::BUCKETS),
        ("MAX_RECORDS", layout::RECORDS),
        ("PADDING_OFFSET", layout::PADDING_AT),
        ("RECORDS_OFFSET", layout::RECORDS_AT),
        ("HEADER_BYTES", layout::bucket_at(0)),
        ("STORED_BUCKET_BYTES", layout::bucket_at(1) - layout::bucket_at(0)),
        ("STORAGE_BYTES", lent::STORAGE_BYTES),
        ("BUCKET_BYTES", lent::BUCKET_BYTES),
        ("ANSWER_BYTES", lent::ANSWER_BYTES),
        ("ITER_ENTRY_BYTES", lent::ITER_ENTRY),
        ("NODES_BY_DISTANCES_ENTRY_BYTES", lent::NODES_BY_DISTANCES_ENTRY),
        ("CLOSEST_KEYS_ENTRY_BYTES", lent::CLOSEST_KEYS_ENTRY),
        ("CLOSEST_VALUES_ENTRY_BYTES", lent::CLOSEST_VALUES_ENTRY),
        ("CLOSEST_VALUES_PREDICATE_ENTRY_BYTES", lent::CLOSEST_VALUES_PREDICATE_ENTRY),
        ("MAX_COUNT", lent::MAX_COUNT),
        ("MAX_WINDOWS", lent::MAX_WINDOWS),
        ("MAX_CLOSED_DATES", lent::MAX_CLOSED_DATES),
        ("MINUTES", lent::MINUTES.into()),
        ("EXPLANATION_BYTES", lent::EXPLANATION_BYTES),
        ("WRITTEN_ENTRY_BYTES", layout::NODE - layout::KEY),
        ("MAX_NODES", lent::MAX_NODES),
        ("MAX_WRITTEN_BYTES", lent::MAX_WRITTEN_BYTES),
    ] {
        assert_eq!(constants[&format!("KBUCKETS_{name}")], size as u64, "{name}");
    }
    // The sizes that the header's comments state.
    for (text, size) in [
        ("the storage of a table, ", lent::STORAGE_BYTES),
        ("a bucket by itself, ", lent::BUCKET_BYTES),
        ("what `answer` must have room for, ", lent::ANSWER_BYTES),
        ("the records begin at a multiple of 16, ", layout::RECORDS_AT),
        ("the most nodes that a table holds, ", lent::MAX_NODES),
        ("the most bytes that kbuckets_write puts out, ", lent::MAX_WRITTEN_BYTES),
    ] {
        let stated = HEADER.split_once(text).map(|(_, rest)| rest.split([':', ' ']).next().unwrap());
        assert_eq!(stated, Some(&size.to_string()[..]), "{text}");
    }
}

#[test]
fn codes() {
    let constants = constants();
    let code = |name: &str| constants[&format!("KBUCKETS_{name}")] as u32;
    assert_eq!(code("DISCONNECTED"), ConnectionState::Disconnected as u32);
    assert_eq!(code("CONNECTED"), ConnectionState::Connected as u32);
    assert_eq!(code("OUTGOING"), ConnectionDirection::Outgoing as u32);
    assert_eq!(code("INCOMING"), ConnectionDirection::Incoming as u32);
    assert_eq!(code("NOT_GIVEN"), NOT_GIVEN.into());
    for (name, refusal) in [
        ("SIZE", Refusal::Size),
        ("FORM", Refusal::Form),
        ("KEY", Refusal::Key),
        ("CODE", Refusal::Code),
        ("TIME", Refusal::Time),
        ("OUTPUT", Refusal::Output),
        ("KIND", Refusal::Kind),
        ("QUEUE", Refusal::Queue),
        ("LOAD", Refusal::Load),
        ("HOURS", Refusal::Hours),
        ("CLOSED", Refusal::Closed),
    ] {
        let code = code(&format!("REFUSED_{name}"));
        assert_eq!(answers::answered(code), Err(refusal));
        assert_eq!(code, 0x10000 + u32::from(refusal.number()));
    }
    let key = [9; 32];
    for (name, reason) in [
        ("TOO_MANY_INCOMING", FailureReason::TooManyIncoming),
        ("BUCKET_FILTER", FailureReason::BucketFilter),
        ("TABLE_FILTER", FailureReason::TableFilter),
        ("KEY_NON_EXISTENT", FailureReason::KeyNonExistent),
        ("BUCKET_FULL", FailureReason::BucketFull),
        ("INVALID_SELF_UPDATE", FailureReason::InvalidSelfUpdate),
    ] {
        let code = code(&format!("FAILED_{name}"));
        assert_eq!(answers::answered(code), Ok(code));
        assert_eq!(answers::update_result(code), UpdateResult::Failed(reason));
        assert_eq!(answers::insert_result(code, key), InsertResult::Failed(reason));
    }
    for (name, result) in [
        ("NOT_MODIFIED", UpdateResult::NotModified),
        ("UPDATED", UpdateResult::Updated),
        ("UPDATED_AND_PROMOTED", UpdateResult::UpdatedAndPromoted),
        ("UPDATED_PENDING", UpdateResult::UpdatedPending),
    ] {
        assert_eq!(answers::update_result(code(&format!("UPDATE_{name}"))), result);
    }
    for (name, result) in [
        ("INSERTED", InsertResult::Inserted),
        ("PENDING", InsertResult::Pending { disconnected: key }),
        ("STATUS_UPDATED", InsertResult::StatusUpdated { promoted_to_connected: false }),
        ("STATUS_UPDATED_AND_PROMOTED", InsertResult::StatusUpdated { promoted_to_connected: true }),
        ("VALUE_UPDATED", InsertResult::ValueUpdated),
        ("UPDATED", InsertResult::Updated { promoted_to_connected: false }),
        ("UPDATED_AND_PROMOTED", InsertResult::Updated { promoted_to_connected: true }),
        ("UPDATED_PENDING", InsertResult::UpdatedPending),
    ] {
        assert_eq!(answers::insert_result(code(&format!("INSERT_{name}")), key), result);
    }
    for (name, result) in [
        ("INSERTED", BucketInsertResult::Inserted),
        ("PENDING", BucketInsertResult::Pending { disconnected: key }),
        ("FAILED_FILTER", BucketInsertResult::FailedFilter),
        ("TOO_MANY_INCOMING", BucketInsertResult::TooManyIncoming),
        ("FULL", BucketInsertResult::Full),
        ("NODE_EXISTS", BucketInsertResult::NodeExists),
    ] {
        assert_eq!(answers::bucket_insert_result(code(&format!("BUCKET_INSERT_{name}")), key), result);
    }
    assert_eq!(answers::entry(code("ENTRY_ABSENT")), Entry::Absent);
    assert_eq!(answers::entry(code("ENTRY_SELF")), Entry::SelfEntry);
    for state in [ConnectionState::Disconnected, ConnectionState::Connected] {
        for direction in [ConnectionDirection::Outgoing, ConnectionDirection::Incoming] {
            let status = NodeStatus { state, direction };
            let added = 2 * state as u32 + direction as u32;
            assert_eq!(answers::entry(code("ENTRY_PRESENT") + added), Entry::Present(status));
            assert_eq!(answers::entry(code("ENTRY_PENDING") + added), Entry::Pending(status));
        }
    }
    for (name, answer) in
        [("REMOVE_NOT_HELD", false), ("REMOVE_REMOVED", true), ("APPLIED_NONE", false), ("APPLIED_RECORD", true)]
    {
        assert_eq!(answers::yes_or_no(code(name)), answer);
    }
    let node = Node {
        key,
        value: Value { address: None, slot: 3 },
        status: NodeStatus { state: ConnectionState::Connected, direction: ConnectionDirection::Incoming },
    };
    for (name, ending) in [
        ("PLACED", Ending::Placed { evicted: None }),
        ("REPLACED", Ending::Placed { evicted: Some(node) }),
        ("FIRST_CONNECTED", Ending::FirstConnected),
        ("BUCKET_FILTER", Ending::BucketFilter),
        ("TOO_MANY_INCOMING", Ending::TooManyIncoming),
        ("INSERTED", Ending::Inserted),
        ("FIRST_CONFIRMED", Ending::FirstConfirmed),
    ] {
        let mut record = layout::record_bytes(&RecordCodes { key, ending: EndingCodes::Placed(None) });
        record[layout::KEY] = code(&format!("ENDING_{name}")) as u8;
        if ending == (Ending::Placed { evicted: Some(node) }) {
            record[layout::KEY + 1..][..layout::KEY].copy_from_slice(&node.key);
            record[layout::KEY + 1 + layout::KEY..][..2].fill(1);
            record[layout::RECORD - 1] = 3;
        }
        assert_eq!(Record::from(layout::record_in(&record)), Record { key, ending }, "{name}");
    }
}
