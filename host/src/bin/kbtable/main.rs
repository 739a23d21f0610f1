//! Reads calls and writes the answers of the proved library.

use calls::layout::{self, AloneBytes, BUCKETS, KEY, NODE, Settings, TableBytes};
use calls::program::{self, Implementation, Unanswered};
use calls::text::{
    BUCKET_FORMS, BucketCall, Listing, PEER_CALLS, Predicate, RAW_FORMS, RecordCodes, TABLE_FORMS, TableCall, Write,
};
use kbuckets::lent::{self, ANSWER_BYTES, EXPLANATION_BYTES, MAX_COUNT, PredicateCodes};
use kbuckets::{BucketInsertResult, Entry, Explanation, FailureReason, InsertResult, NodeStatus, UpdateResult};
use output::{Output, changed};
use std::process::ExitCode;

mod output;

fn main() -> ExitCode {
    if let Err(other) = kbuckets::check_library() {
        eprintln!("kbtable: {other}");
        return ExitCode::FAILURE;
    }
    program::run("kbtable", &[("--help", help), ("-h", help), ("--version", version)], Tool::new())
}

fn version() -> String {
    format!("kbtable {}\nlibkbuckets {}\n", kbuckets::VERSION, kbuckets::library_version())
}

fn help() -> String {
    let forms = |forms: &[&str]| forms.iter().map(|form| format!("  {form}\n")).collect::<String>();
    format!(
        "kbtable [--dump]
kbtable --help | --version

Reads calls on a routing table of k-buckets from standard input, one a line, and writes the answer of the proved library to each.
An empty line and a line that begins with '#' are passed over. A line that is no call ends the program with a message.
With --dump the table follows each call, and the bucket by itself each b_ call.

The table (before the first 'new': local key 0, timeout 0, MAX_INCOMING 0, filters off):
{}
One bucket by itself, with keys of any index:
{}
Set-up that writes the bytes without asking (I is a bucket's index, or b for the bucket by itself):
{}
  KEY LOCAL TARGET   64 hexadecimal digits, or ':' and fewer, filled with zeros in front: ':4' is the key 4
  VALUE              flag:a.b.c.d:slot, as 1:10.0.0.1:7, or 0:0.0.0.0:7 for no address; a slot is a number up to 2^64 - 1
  STATE DIRECTION    0 disconnected or 1 connected; 0 outgoing or 1 incoming; 2 for 'not given' where a '?' stands
  NOW TIMEOUT        milliseconds
  MAX_INCOMING       the most connected incoming nodes of a bucket, 0 to 16
  TABLE_FILTER       1: a value fails where the table holds 10 values of its /24 that are unequal to it, the key's own apart; 0: off
  BUCKET_FILTER      1: a value fails where the bucket holds 2 values of its /24 that are unequal to it, the key's own apart; 0: off
  WINDOWS            weekly windows, WEEKDAY:OPENING:CLOSING joined by commas, as 1:540:1020,5:540:1440; '-' for none, and then no hours are
                     asked for. Weekdays are 1, Monday, to 7, Sunday; the opening minute is in a window, the closing minute is not
  CLOSED             dates without windows, joined by commas, '-' for none; '+' behind WINDOWS or CLOSED hands over one number more
  DATE MINUTE        the UTC date, YEAR-MONTH-DAY, from 2000 to 2399, and minute, 0 to 1439
  DISTANCES          log2 distances joined by commas, '-' for none; distance D, 1 to 256, is bucket D - 1, others are dropped
  PREDICATE          0 always, 1 has an address, 2:a.b.c address in that /24, 3:SLOT slot equals
  PLACE              the first connected place, '-' for none
  ENDING             what became of a pending: '-' where it was placed, KEY VALUE STATE DIRECTION of the node that it evicted, or
                     dropped_place_0, dropped_bucket_filter, dropped_incoming_limit, cleared_inserted, cleared_confirmed
  CALL               {}
  HEX                the bytes behind 'Written': two small hexadecimal digits a byte, '-' for no bytes
  out=K              after a listing: its output has room for K entries, and not for K + 1; after an explanation or 'write': it has K bytes
  ! CALL             the call gets its storage, or bucket, one byte short

'Refused Q' is a call that changed nothing, since question Q failed: 1 the storage's length, 2 the form of settings, queue and, asked after
6, the buckets that the call reads, 3 a key's length, 4 a code, 5 NOW + TIMEOUT, 6 N or the output's length, 7 the entry's kind, 8 room in
the queue of records, 9 the bytes to be read, or a table that holds a node, a pending or a record, 10 WINDOWS, CLOSED, DATE or MINUTE, 11 a
key that is neither local, held nor pending, outside all windows.

Other answers are sigp/discv5's names; host/CALLS.md has them all, and the form of a dump. 'explain' gives a call's answer before it is made,
the reason, and the keys behind it: 'Failed BucketFull pending KEY'. The table stays as it is.

'write' gives the held nodes as bytes, 'Written HEX', 256 and 47 for each node; the local key, the settings, pendings and records are not among them.
'read' loads them into a table that holds no node, no pending and no record: 'Read'. It should have the local key and the settings of the one written.
A line of a terminal has room for 4,095 characters, so a table goes from one to the other through a file:

  kbtable <old.calls | sed -n 's/^Written /read /p' >peers.calls
  {{ echo 'new :0 60000 16 1 1'; cat peers.calls; }} | kbtable

An example: a table that holds one node, and the keys nearest to the key 5:

  printf '%s\\n' 'new :0 60000 16 1 1' 'insert_or_update 0 :4 1:10.0.0.1:7 1 0' 'closest_keys 0 :5 16' | kbtable
",
        forms(&TABLE_FORMS),
        forms(&BUCKET_FORMS),
        forms(&RAW_FORMS),
        explained_calls()
    )
}

fn explained_calls() -> String {
    let (last, others) = PEER_CALLS.split_last().unwrap();
    format!("a line of {} or {last}", others.join(", "))
}

/// The storage of a table, a bucket by itself, and what the calls are lent besides.
struct Tool {
    table: TableBytes,
    bucket: AloneBytes,
    lent: Lent,
}

/// The storage, or the bucket, as it was before the call, and bytes for what the call writes besides.
struct Lent {
    before: Vec<u8>,
    output: Output,
}

impl Tool {
    fn new() -> Tool {
        let settings = Settings::default();
        Tool {
            table: TableBytes::new(&[0; KEY], &settings),
            bucket: AloneBytes::new(&settings),
            lent: Lent { before: Vec::new(), output: Output::new(MOST_BYTES) },
        }
    }
}

impl Tool {
    /// An accepted call but `new` has read no malformed bucket, and these keep their bytes (02, slip 7).
    fn check_malformed(&mut self) -> Result<(), Unanswered> {
        let before = TableBytes(std::mem::take(&mut self.lent.before));
        let changed = |i: &usize| {
            before.0[layout::bucket_at(*i)..][..layout::BUCKET]
                != self.table.0[layout::bucket_at(*i)..][..layout::BUCKET]
        };
        let broken = (0..BUCKETS).filter(changed).find(|i| !before.bucket_formed(*i));
        self.lent.before = before.0;
        match broken {
            Some(i) => Err(Unanswered::Broken(format!("accepted, and bucket {i} changed, which is malformed"))),
            None => Ok(()),
        }
    }
}

impl Implementation for Tool {
    fn table_call(&mut self, short: bool, call: &TableCall, out: &mut Vec<u8>) -> Result<(), Unanswered> {
        let may_write = !matches!(call, TableCall::Explain { .. } | TableCall::Write { .. });
        let run = |storage: &mut [u8], output: &mut Output| table_call(storage, call, output, out);
        self.lent.call(&mut self.table.0, short, may_write, call, run)?;
        let keeps = may_write && !matches!(call, TableCall::New { .. });
        if keeps { self.check_malformed() } else { Ok(()) }
    }

    fn bucket_call(&mut self, short: bool, call: &BucketCall, out: &mut Vec<u8>) -> Result<(), Unanswered> {
        let run = |bucket: &mut [u8], output: &mut Output| bucket_call(bucket, call, output, out);
        self.lent.call(&mut self.bucket.0, short, true, call, run)
    }

    fn table_bytes(&mut self) -> &mut TableBytes {
        &mut self.table
    }

    fn bucket_bytes(&mut self) -> &mut AloneBytes {
        &mut self.bucket
    }

    fn dump(&self, out: &mut Vec<u8>) {
        self.table.dump(out);
    }

    fn bucket_dump(&self, out: &mut Vec<u8>) {
        self.bucket.dump(out);
    }
}

impl Lent {
    /// Runs a call on the bytes, or on all but the last, and looks at what it changed: arguments never, in a refusal nothing, and of its
    /// output only what it says it wrote. `may_write`: an accepted call may change the bytes; an explanation and `write` may not.
    fn call<Call: Clone + PartialEq>(
        &mut self,
        bytes: &mut Vec<u8>,
        short: bool,
        may_write: bool,
        call: &Call,
        run: impl FnOnce(&mut [u8], &mut Output) -> Result<(), Unanswered>,
    ) -> Result<(), Unanswered> {
        self.before.clone_from(bytes);
        let given = call.clone();
        let length = bytes.len() - usize::from(short);
        let answered = run(&mut bytes[..length], &mut self.output);
        let broken = |message| Err(Unanswered::Broken(message));
        if *call != given {
            return broken("an argument changed".to_string());
        }
        let kept = match &answered {
            Err(Unanswered::Refused(question)) => Some(format!("refused with {question}")),
            Ok(()) if !may_write => Some("only read".to_string()),
            _ => None,
        };
        if let Some(kept) = kept
            && let Some(at) = changed(&self.before, bytes, 0..0)
        {
            return broken(format!("{kept}, and byte {at} of the storage changed"));
        }
        self.output.check().or_else(broken)?;
        answered
    }
}

fn table_call(storage: &mut [u8], call: &TableCall, output: &mut Output, out: &mut Vec<u8>) -> Result<(), Unanswered> {
    match call {
        TableCall::New { local, timeout, max_incoming, table_filter, bucket_filter } => {
            lent::new(storage, local, *timeout, *max_incoming, *table_filter, *bucket_filter)?;
            out.text("New");
        }
        TableCall::UpdateNodeStatus { now, key, state, direction } => {
            update_result(lent::update_node_status(storage, key, *state, *direction, *now)?, out);
        }
        TableCall::UpdateNode { now, key, value, state } => {
            update_result(lent::update_node(storage, key, *value, *state, *now)?, out);
        }
        TableCall::InsertOrUpdate { now, key, value, state, direction, session } => {
            let answer = answer(output);
            let result = lent::insert_or_update(storage, key, *value, *state, *direction, *now, session, answer)?;
            insert_result(result, output, out);
        }
        TableCall::Remove { now, key } => yes_or_no(lent::remove(storage, key, *now)?, out),
        TableCall::Entry { now, key } => entry(lent::entry(storage, key, *now)?, out),
        TableCall::PresentUpdate { key, state, direction } => {
            update_result(lent::present_update(storage, key, *state, *direction)?, out);
        }
        TableCall::PendingUpdate { key, state, direction } => {
            update_result(lent::pending_update(storage, key, *state, *direction)?, out);
        }
        TableCall::AbsentInsert { now, key, value, state, direction, session } => {
            let answer = answer(output);
            let result = lent::absent_insert(storage, key, *value, *state, *direction, *now, session, answer)?;
            bucket_insert_result(result, output, out);
        }
        TableCall::List { now, listing, n, room } => list(storage, *now, listing, *n, *room, output, out)?,
        TableCall::TakeAppliedPending => {
            let record = lent::take_applied_pending(storage, answer(output))?;
            taken(record, output, out)?;
        }
        TableCall::Explain { call, room } => explain(storage, call, *room, output, out)?,
        TableCall::Write { room } => write(storage, *room, output, out)?,
        TableCall::Read { bytes } => {
            let count = lent::read(storage, bytes)?;
            if count != held(storage) {
                let message = format!("it says that it loaded {count} nodes, and the table holds {}", held(storage));
                return Err(Unanswered::Broken(message));
            }
            out.text("Read");
        }
    }
    Ok(())
}

fn bucket_call(bucket: &mut [u8], call: &BucketCall, output: &mut Output, out: &mut Vec<u8>) -> Result<(), Unanswered> {
    match call {
        BucketCall::New { timeout, max_incoming, filter } => {
            lent::b_new(bucket, *timeout, *max_incoming, *filter)?;
            out.text("New");
        }
        BucketCall::Insert { now, key, value, state, direction } => {
            let answer = answer(output);
            let result = lent::b_insert(bucket, key, *value, *state, *direction, *now, answer)?;
            bucket_insert_result(result, output, out);
        }
        BucketCall::ApplyPending { now } => {
            let record = lent::b_apply_pending(bucket, *now, answer(output))?;
            taken(record, output, out)?;
        }
        BucketCall::UpdateStatus { key, state, direction } => {
            update_result(lent::b_update_status(bucket, key, *state, *direction)?, out);
        }
        BucketCall::UpdateValue { key, value } => update_result(lent::b_update_value(bucket, key, *value)?, out),
        BucketCall::UpdatePending { state, direction } => {
            lent::b_update_pending(bucket, *state, *direction)?;
            out.text("Done");
        }
        BucketCall::Remove { now, key } => yes_or_no(lent::b_remove(bucket, key, *now)?, out),
    }
    Ok(())
}

/// Bytes for an answer.
fn answer(output: &mut Output) -> &mut [u8] {
    output.lend(1, ANSWER_BYTES)
}

/// The entries that an output has room for, at most. More than [`MAX_COUNT`] are never written.
const MOST_ENTRIES: usize = MAX_COUNT + 8;

/// The bytes that an output has, at most.
const MOST_BYTES: usize = (MOST_ENTRIES + 1) * lent::ITER_ENTRY;

/// A listing, with an output for as many entries as `room` says, or for those that n asks for and some more.
fn list(
    storage: &mut [u8],
    now: u64,
    listing: &Listing,
    n: u64,
    room: Option<u64>,
    output: &mut Output,
    out: &mut Vec<u8>,
) -> Result<(), Unanswered> {
    let (entry, least) = match listing {
        Listing::Iter => (lent::ITER_ENTRY, 0),
        Listing::NodesByDistances(_) => (lent::NODES_BY_DISTANCES_ENTRY, 1),
        Listing::ClosestKeys(_) => (lent::CLOSEST_KEYS_ENTRY, 0),
        Listing::ClosestValues(_) => (lent::CLOSEST_VALUES_ENTRY, 0),
        Listing::ClosestValuesPredicate(..) => (lent::CLOSEST_VALUES_PREDICATE_ENTRY, 0),
    };
    let entries = room.unwrap_or(n.max(least).saturating_add(output.more())).min(MOST_ENTRIES as u64);
    let lent = output.lend(entries as usize, entry);
    let n = n as usize;
    let count = match listing {
        Listing::Iter => lent::iter(storage, n, now, lent),
        Listing::NodesByDistances(distances) => lent::nodes_by_distances(storage, distances, n, now, lent),
        Listing::ClosestKeys(target) => lent::closest_keys(storage, target, n, now, lent),
        Listing::ClosestValues(target) => lent::closest_values(storage, target, n, now, lent),
        Listing::ClosestValuesPredicate(target, predicate) => {
            lent::closest_values_predicate(storage, target, predicate_codes(predicate), n, now, lent)
        }
    }?;
    out.text("List ");
    out.number(count as u64);
    for bytes in output.wrote(count * entry).chunks_exact(entry) {
        out.text(" ");
        match listing {
            Listing::Iter | Listing::NodesByDistances(_) => out.node(&layout::node_in(bytes)),
            Listing::ClosestKeys(_) => out.key(&layout::key_in(bytes)),
            Listing::ClosestValues(_) => {
                out.key(&layout::key_in(bytes));
                out.text("/");
                out.value(&layout::value_in(&bytes[KEY..]));
            }
            Listing::ClosestValuesPredicate(..) => {
                out.key(&layout::key_in(bytes));
                out.text("/");
                out.value(&layout::value_in(&bytes[KEY + 1..]));
                out.text("/");
                out.number(bytes[KEY].into());
            }
        }
    }
    Ok(())
}

/// An explanation, with an output of as many bytes as `room` says, or of those that it needs and some more.
fn explain(
    storage: &[u8],
    call: &TableCall,
    room: Option<u64>,
    output: &mut Output,
    out: &mut Vec<u8>,
) -> Result<(), Unanswered> {
    let lent = match room {
        Some(room) => output.lend(room.min(MOST_BYTES as u64) as usize, 1),
        None => output.lend(1, EXPLANATION_BYTES),
    };
    let count = match call {
        TableCall::UpdateNodeStatus { now, key, state, direction } => {
            lent::explain_update_node_status(storage, key, *state, *direction, *now, lent)
        }
        TableCall::UpdateNode { now, key, value, state } => {
            lent::explain_update_node(storage, key, *value, *state, *now, lent)
        }
        TableCall::InsertOrUpdate { now, key, value, state, direction, session } => {
            lent::explain_insert_or_update(storage, key, *value, *state, *direction, *now, session, lent)
        }
        TableCall::Remove { now, key } => lent::explain_remove(storage, key, *now, lent),
        TableCall::PresentUpdate { key, state, direction } => {
            lent::explain_present_update(storage, key, *state, *direction, lent)
        }
        TableCall::PendingUpdate { key, state, direction } => {
            lent::explain_pending_update(storage, key, *state, *direction, lent)
        }
        TableCall::AbsentInsert { now, key, value, state, direction, session } => {
            lent::explain_absent_insert(storage, key, *value, *state, *direction, *now, session, lent)
        }
        _ => unreachable!("the text has no explanation of another call"),
    }?;
    explained(output.wrote(count), out)
}

/// The line that an explanation wrote, without its line feed. The package's reader must give it back.
fn explained(written: &[u8], out: &mut Vec<u8>) -> Result<(), Unanswered> {
    let line = written.strip_suffix(b"\n").and_then(|line| str::from_utf8(line).ok());
    let is_read = |line: &&str| line.parse::<Explanation>().is_ok_and(|explanation| explanation.to_string() == *line);
    let Some(line) = line.filter(is_read) else {
        let written = String::from_utf8_lossy(written);
        return Err(Unanswered::Broken(format!("what was written is not the line of an explanation: {written:?}")));
    };
    out.text(line);
    Ok(())
}

/// The nodes of all buckets, by their counts.
fn held(storage: &[u8]) -> usize {
    (0..BUCKETS).map(|i| usize::from(storage[layout::bucket_at(i)])).sum()
}

/// The held nodes as bytes, with an output of as many bytes as `room` says, or of those that it needs and some more.
fn write(storage: &[u8], room: Option<u64>, output: &mut Output, out: &mut Vec<u8>) -> Result<(), Unanswered> {
    let needed = (lent::written_bytes(held(storage)) as u64).saturating_add(output.more() * NODE as u64);
    let lent = output.lend(room.unwrap_or(needed).min(MOST_BYTES as u64) as usize, 1);
    let length = lent.len();
    let bytes = lent::written_bytes(lent::write(storage, lent)?);
    if bytes > length {
        return Err(Unanswered::Broken(format!("it says that it wrote {bytes} bytes, and the output has {length}")));
    }
    out.text("Written ");
    out.hexadecimal(output.wrote(bytes));
    Ok(())
}

fn predicate_codes(predicate: &Predicate) -> PredicateCodes {
    match *predicate {
        Predicate::Code(predicate) => PredicateCodes { predicate, ..PredicateCodes::default() },
        Predicate::Net(net) => PredicateCodes { predicate: 2, net, slot: 0 },
        Predicate::Slot(slot) => PredicateCodes { predicate: 3, net: [0; 3], slot },
    }
}

fn yes_or_no(answer: bool, out: &mut Vec<u8>) {
    out.text(if answer { "true" } else { "false" });
}

/// All bytes of a record are determined, also where it has no evicted node.
fn taken(record: Option<RecordCodes>, output: &mut Output, out: &mut Vec<u8>) -> Result<(), Unanswered> {
    let Some(record) = record else {
        out.text("None");
        return Ok(());
    };
    if *output.wrote(ANSWER_BYTES) != layout::record_bytes(&record) {
        return Err(Unanswered::Broken("the answer's bytes are no record's".to_string()));
    }
    out.text("Some(");
    out.record(&record);
    out.text(")");
    Ok(())
}

fn entry(entry: Entry, out: &mut Vec<u8>) {
    let (name, status) = match entry {
        Entry::Present(status) => ("Present", status),
        Entry::Pending(status) => ("Pending", status),
        Entry::Absent => return out.text("Absent"),
        Entry::SelfEntry => return out.text("SelfEntry"),
    };
    let NodeStatus { state, direction } = status;
    out.text(name);
    out.text("(");
    out.status(state as u8, direction as u8);
    out.text(")");
}

fn update_result(result: UpdateResult, out: &mut Vec<u8>) {
    match result {
        UpdateResult::NotModified => out.text("NotModified"),
        UpdateResult::Updated => out.text("Updated"),
        UpdateResult::UpdatedAndPromoted => out.text("UpdatedAndPromoted"),
        UpdateResult::UpdatedPending => out.text("UpdatedPending"),
        UpdateResult::Failed(reason) => failed(reason, out),
    }
}

fn insert_result(result: InsertResult, output: &mut Output, out: &mut Vec<u8>) {
    match result {
        InsertResult::Inserted => out.text("Inserted"),
        InsertResult::Pending { disconnected } => pending(&disconnected, output, out),
        InsertResult::StatusUpdated { promoted_to_connected } => promoted("StatusUpdated", promoted_to_connected, out),
        InsertResult::ValueUpdated => out.text("ValueUpdated"),
        InsertResult::Updated { promoted_to_connected } => promoted("Updated", promoted_to_connected, out),
        InsertResult::UpdatedPending => out.text("UpdatedPending"),
        InsertResult::Failed(reason) => failed(reason, out),
    }
}

fn bucket_insert_result(result: BucketInsertResult, output: &mut Output, out: &mut Vec<u8>) {
    match result {
        BucketInsertResult::Inserted => out.text("Inserted"),
        BucketInsertResult::Pending { disconnected } => pending(&disconnected, output, out),
        BucketInsertResult::FailedFilter => out.text("FailedFilter"),
        BucketInsertResult::TooManyIncoming => out.text("TooManyIncoming"),
        BucketInsertResult::Full => out.text("Full"),
        BucketInsertResult::NodeExists => out.text("NodeExists"),
    }
}

fn failed(reason: FailureReason, out: &mut Vec<u8>) {
    out.text("Failed(");
    out.text(match reason {
        FailureReason::TooManyIncoming => "TooManyIncoming",
        FailureReason::BucketFilter => "BucketFilter",
        FailureReason::TableFilter => "TableFilter",
        FailureReason::KeyNonExistent => "KeyNonExistent",
        FailureReason::BucketFull => "BucketFull",
        FailureReason::InvalidSelfUpdate => "InvalidSelfUpdate",
    });
    out.text(")");
}

fn pending(disconnected: &[u8; KEY], output: &mut Output, out: &mut Vec<u8>) {
    output.wrote(KEY);
    out.text("Pending{disconnected:");
    out.key(disconnected);
    out.text("}");
}

fn promoted(name: &str, promoted: bool, out: &mut Vec<u8>) {
    out.text(name);
    out.text(if promoted { "{promoted_to_connected:true}" } else { "{promoted_to_connected:false}" });
}

#[cfg(test)]
mod tests {
    use super::*;
    use calls::text::{EndingCodes, Unplaced};

    /// Runs a call on four bytes; what it does is the test's.
    fn called(
        short: bool,
        run: impl FnOnce(&mut [u8], &mut Output) -> Result<(), Unanswered>,
    ) -> Result<(), Unanswered> {
        let mut lent = Lent { before: Vec::new(), output: Output::new(2 * ANSWER_BYTES) };
        lent.call(&mut vec![1, 2, 3, 4], short, true, &(), run)
    }

    fn broken(message: &str) -> Result<(), Unanswered> {
        Err(Unanswered::Broken(message.to_string()))
    }

    #[test]
    fn a_refusal_changes_nothing() {
        for question in 1..=11 {
            let refused = || Err(Unanswered::Refused(question));
            assert_eq!(called(false, |_, _| refused()), refused());
            let storage = called(true, |bytes, _| {
                *bytes.last_mut().unwrap() = 0;
                refused()
            });
            assert_eq!(storage, broken(&format!("refused with {question}, and byte 2 of the storage changed")));
            let output = called(false, |_, output| {
                answer(output)[31] = 0;
                refused()
            });
            let changed = "byte 31 of the output changed";
            let message = format!("{changed}; it has {ANSWER_BYTES} bytes, and the call says that it wrote 0");
            assert_eq!(output, broken(&message));
        }
    }

    /// An accepted call may change the storage, and the first 32 bytes of the answer where it is a pending's.
    #[test]
    fn an_answer_changes_what_it_says() {
        let inserted = |result: InsertResult, written: usize| {
            called(false, |bytes, output| {
                bytes.fill(0);
                answer(output)[..written].fill(0);
                insert_result(result, output, &mut Vec::new());
                Ok(())
            })
        };
        let pending = InsertResult::Pending { disconnected: [0; KEY] };
        assert_eq!(inserted(pending, KEY), Ok(()));
        assert!(inserted(pending, KEY + 1).is_err());
        assert_eq!(inserted(InsertResult::Inserted, 0), Ok(()));
        assert!(inserted(InsertResult::Inserted, 1).is_err());
    }

    /// An explanation changes the front of its output, as far as its line goes, and no byte of the storage.
    #[test]
    fn an_explanation_changes_its_line_alone() {
        let line = b"false no such key\n";
        let run = |storage_changes: bool, more: usize, room: usize| {
            let mut lent = Lent { before: Vec::new(), output: Output::new(2 * EXPLANATION_BYTES) };
            lent.call(&mut vec![1, 2, 3, 4], false, false, &(), |bytes, output| {
                bytes[1] ^= u8::from(storage_changes);
                let lent = output.lend(1, room);
                lent[..line.len()].copy_from_slice(line);
                lent[line.len()..][..more].fill(0);
                explained(output.wrote(line.len()), &mut Vec::new())
            })
        };
        for room in [EXPLANATION_BYTES, line.len() + 3] {
            assert_eq!(run(false, 0, room), Ok(()));
            assert_eq!(run(true, 0, room), broken("only read, and byte 1 of the storage changed"));
            let message = "byte 18 of the output changed; it has";
            let Err(Unanswered::Broken(said)) = run(false, 1, room) else { panic!() };
            assert!(said.starts_with(message), "{said}");
        }
    }

    #[test]
    fn what_is_no_line_is_no_answer() {
        let mut out = Vec::new();
        assert_eq!(explained(b"false no such key\n", &mut out), Ok(()));
        assert_eq!(out, b"false no such key");
        for written in
            [&b""[..], b"\n", b"false no such key", b"false no such key \n", b"false\nnone\n", b"false \xff\n"]
        {
            assert!(matches!(explained(written, &mut out), Err(Unanswered::Broken(_))));
        }
    }

    /// Where a record has no evicted node, the bytes for it are zero.
    #[test]
    fn a_record_has_all_its_bytes() {
        for ending in [EndingCodes::Placed(None), Unplaced::FirstConnected.into(), Unplaced::FirstConfirmed.into()] {
            let record = RecordCodes { key: [7; KEY], ending };
            let bytes = layout::record_bytes(&record);
            let answered = |count: usize| {
                called(false, |_, output| {
                    answer(output)[..count].copy_from_slice(&bytes[..count]);
                    taken(Some(record), output, &mut Vec::new())
                })
            };
            assert_eq!(answered(ANSWER_BYTES), Ok(()));
            assert_eq!(answered(KEY + 2), broken("the answer's bytes are no record's"));
        }
    }
}
