//! The outcomes that a comparison reaches: by call, the answer without what it carries; by explained call, the answer and the reason with
//! the number of its keys; by call, how it ended pendings; by call, the hours that came with it. And what the listings and the explanations
//! were asked for, and which slots were told apart.

use crate::explained::{self, Parts};
use crate::hours::{self, CLOSED_FAULTS, DATE_FAULTS, MINUTE_FAULT, WINDOW_FAULTS};
use crate::program::MALFORMED;
use crate::text::{self, BucketCall, Line, Listing, Predicate, SessionCodes, Slot, TableCall, ValueCodes, Write};
use std::collections::BTreeMap;
use std::str::Split;

/// The outcomes of each call. What is missing here can be met by no list of calls.
const OUTCOMES: [(&str, &[&str]); 22] = [
    ("new", &["New", "Refused 1", "Refused 3", "Refused 4"]),
    (
        "update_node_status",
        &[
            "Updated",
            "UpdatedAndPromoted",
            "UpdatedPending",
            "NotModified",
            "Failed(TooManyIncoming)",
            "Failed(BucketFilter)",
            "Failed(KeyNonExistent)",
            "Refused 1",
            "Refused 2",
            "Refused 3",
            "Refused 4",
            "Refused 5",
            "Refused 8",
        ],
    ),
    (
        "update_node",
        &[
            "Updated",
            "UpdatedAndPromoted",
            "UpdatedPending",
            "NotModified",
            "Failed(TooManyIncoming)",
            "Failed(BucketFilter)",
            "Failed(TableFilter)",
            "Failed(KeyNonExistent)",
            "Refused 1",
            "Refused 2",
            "Refused 3",
            "Refused 4",
            "Refused 5",
            "Refused 8",
        ],
    ),
    (
        "insert_or_update",
        &[
            "Inserted",
            "Pending",
            "StatusUpdated{promoted_to_connected:false}",
            "StatusUpdated{promoted_to_connected:true}",
            "ValueUpdated",
            "Updated{promoted_to_connected:false}",
            "Updated{promoted_to_connected:true}",
            "Failed(TooManyIncoming)",
            "Failed(BucketFilter)",
            "Failed(TableFilter)",
            "Failed(BucketFull)",
            "Failed(InvalidSelfUpdate)",
            "Refused 1",
            "Refused 2",
            "Refused 3",
            "Refused 4",
            "Refused 5",
            "Refused 8",
            "Refused 10",
            "Refused 11",
        ],
    ),
    ("remove", &["true", "false", "Refused 1", "Refused 2", "Refused 3", "Refused 5", "Refused 8"]),
    (
        "entry",
        &["Present", "Pending", "Absent", "SelfEntry", "Refused 1", "Refused 2", "Refused 3", "Refused 5", "Refused 8"],
    ),
    (
        "present_update",
        &[
            "Updated",
            "UpdatedAndPromoted",
            "NotModified",
            "Failed(TooManyIncoming)",
            "Failed(BucketFilter)",
            "Refused 1",
            "Refused 2",
            "Refused 3",
            "Refused 4",
            "Refused 7",
            "Refused 8",
        ],
    ),
    ("pending_update", &["UpdatedPending", "Refused 1", "Refused 2", "Refused 3", "Refused 4", "Refused 7"]),
    (
        "absent_insert",
        &[
            "Inserted",
            "Pending",
            "FailedFilter",
            "TooManyIncoming",
            "Full",
            "Refused 1",
            "Refused 2",
            "Refused 3",
            "Refused 4",
            "Refused 5",
            "Refused 7",
            "Refused 10",
            "Refused 11",
        ],
    ),
    ("iter", &["List none", "List n", "List fewer", "Refused 1", "Refused 2", "Refused 5", "Refused 6", "Refused 8"]),
    (
        "nodes_by_distances",
        &[
            "List none",
            "List n",
            "List fewer",
            "List one at 0",
            "Refused 1",
            "Refused 2",
            "Refused 5",
            "Refused 6",
            "Refused 8",
        ],
    ),
    (
        "closest_keys",
        &[
            "List none",
            "List n",
            "List fewer",
            "Refused 1",
            "Refused 2",
            "Refused 3",
            "Refused 5",
            "Refused 6",
            "Refused 8",
        ],
    ),
    (
        "closest_values",
        &[
            "List none",
            "List n",
            "List fewer",
            "Refused 1",
            "Refused 2",
            "Refused 3",
            "Refused 5",
            "Refused 6",
            "Refused 8",
        ],
    ),
    (
        "closest_values_predicate",
        &[
            "List none",
            "List n",
            "List fewer",
            "Refused 1",
            "Refused 2",
            "Refused 3",
            "Refused 4",
            "Refused 5",
            "Refused 6",
            "Refused 8",
        ],
    ),
    (
        "take_applied_pending",
        &[
            "None",
            "Some(evicted)",
            "Some(none evicted)",
            "Some(dropped_place_0)",
            "Some(dropped_bucket_filter)",
            "Some(dropped_incoming_limit)",
            "Some(cleared_inserted)",
            "Some(cleared_confirmed)",
            "Refused 1",
            "Refused 2",
        ],
    ),
    ("b_new", &["New", "Refused 1", "Refused 4"]),
    (
        "b_insert",
        &[
            "Inserted",
            "Pending",
            "FailedFilter",
            "TooManyIncoming",
            "Full",
            "NodeExists",
            "Refused 1",
            "Refused 2",
            "Refused 3",
            "Refused 4",
            "Refused 5",
        ],
    ),
    ("b_apply_pending", &["None", "Some(evicted)", "Some(none evicted)", "Refused 1", "Refused 2", "Refused 5"]),
    (
        "b_update_status",
        &[
            "Updated",
            "UpdatedAndPromoted",
            "UpdatedPending",
            "NotModified",
            "Failed(TooManyIncoming)",
            "Failed(BucketFilter)",
            "Failed(KeyNonExistent)",
            "Refused 1",
            "Refused 2",
            "Refused 3",
            "Refused 4",
        ],
    ),
    (
        "b_update_value",
        &[
            "Updated",
            "UpdatedPending",
            "NotModified",
            "Failed(BucketFilter)",
            "Failed(KeyNonExistent)",
            "Refused 1",
            "Refused 2",
            "Refused 3",
            "Refused 4",
        ],
    ),
    ("b_update_pending", &["Done", "Refused 1", "Refused 2", "Refused 4"]),
    ("b_remove", &["true", "false", "Refused 1", "Refused 2", "Refused 3", "Refused 5"]),
];

/// The outcomes of explaining each call: each reason with the fewest and the most keys that it can have there, after the answer. A filter
/// names as many as its limit. The incoming limit is met by as many others as max_incoming says: none to sixteen beside a newcomer, none to
/// fifteen beside a held node that a status step has taken out. What is missing here can be met by no list of calls.
const EXPLAINED: [(&str, &[&str]); 7] = [
    (
        "explain update_node_status",
        &[
            "none",
            "Failed BucketFilter / bucket filter 2",
            "Failed TooManyIncoming / incoming limit 0",
            "Failed TooManyIncoming / incoming limit 15",
            "Failed KeyNonExistent / no such key 0",
            "NotModified / local key 0",
            "Refused 1",
            "Refused 2",
            "Refused 3",
            "Refused 4",
            "Refused 5",
            "Refused 6",
            "Refused 8",
        ],
    ),
    (
        "explain update_node",
        &[
            "none",
            "Failed TableFilter / table filter 10",
            "Failed BucketFilter / bucket filter 2",
            "Failed TooManyIncoming / incoming limit 0",
            "Failed TooManyIncoming / incoming limit 15",
            "Failed KeyNonExistent / no such key 0",
            "NotModified / local key 0",
            "Refused 1",
            "Refused 2",
            "Refused 3",
            "Refused 4",
            "Refused 5",
            "Refused 6",
            "Refused 8",
        ],
    ),
    (
        "explain insert_or_update",
        &[
            "none",
            "Failed TableFilter / table filter 10",
            "Failed BucketFilter / bucket filter 2",
            "Failed TooManyIncoming / bucket filter 2",
            "Failed TooManyIncoming / incoming limit 0",
            "Failed TooManyIncoming / incoming limit 16",
            "Failed BucketFull / newcomer disconnected 0",
            "Failed BucketFull / all connected 0",
            "Failed BucketFull / pending 1",
            "Failed InvalidSelfUpdate / local key 0",
            "Refused 1",
            "Refused 2",
            "Refused 3",
            "Refused 4",
            "Refused 5",
            "Refused 6",
            "Refused 8",
            "Refused 10",
            "Refused 11",
        ],
    ),
    (
        "explain remove",
        &[
            "none",
            "false / no such key 0",
            "false / local key 0",
            "Refused 1",
            "Refused 2",
            "Refused 3",
            "Refused 5",
            "Refused 6",
            "Refused 8",
        ],
    ),
    (
        "explain present_update",
        &[
            "none",
            "Failed BucketFilter / bucket filter 2",
            "Failed TooManyIncoming / incoming limit 0",
            "Failed TooManyIncoming / incoming limit 15",
            "Refused 1",
            "Refused 2",
            "Refused 3",
            "Refused 4",
            "Refused 6",
            "Refused 7",
            "Refused 8",
        ],
    ),
    ("explain pending_update", &["none", "Refused 1", "Refused 2", "Refused 3", "Refused 4", "Refused 6", "Refused 7"]),
    (
        "explain absent_insert",
        &[
            "none",
            "FailedFilter / bucket filter 2",
            "TooManyIncoming / incoming limit 0",
            "TooManyIncoming / incoming limit 16",
            "Full / newcomer disconnected 0",
            "Full / all connected 0",
            "Full / pending 1",
            "Refused 1",
            "Refused 2",
            "Refused 3",
            "Refused 4",
            "Refused 5",
            "Refused 6",
            "Refused 7",
            "Refused 10",
            "Refused 11",
        ],
    ),
];

/// How a pending that is due ends, and the ending of place 0 confirmed and of a direct insert (02, slip 4). A pending that was placed is
/// told by whether it evicted a node.
const DUE: [&str; 5] =
    ["evicted", "none evicted", "dropped_place_0", "dropped_bucket_filter", "dropped_incoming_limit"];
const CONFIRMED: &str = "cleared_confirmed";
const INSERTED: &str = "cleared_inserted";

/// The calls that end pendings, and how. What is missing here can be met by no list of calls.
const ENDED: [(&str, &[&[&str]]); 11] = [
    ("update_node_status", &[&DUE, &[CONFIRMED]]),
    ("update_node", &[&DUE, &[CONFIRMED]]),
    ("insert_or_update", &[&DUE, &[CONFIRMED, INSERTED]]),
    ("remove", &[&DUE]),
    ("entry", &[&DUE]),
    ("present_update", &[&[CONFIRMED]]),
    ("iter", &[&DUE]),
    ("nodes_by_distances", &[&DUE]),
    ("closest_keys", &[&DUE]),
    ("closest_values", &[&DUE]),
    ("closest_values_predicate", &[&DUE]),
];

/// What listings are asked for that question 6 is about, and its answer. The rooms are those of `out=`, in entries.
const ASKED: [&str; 8] = [
    "n 0 listed",
    "n 1 listed",
    "n 4095 listed",
    "n 4096 listed",
    "n 4097 refused",
    "room for n listed",
    "room for more listed",
    "room for one less refused",
];
const LISTINGS: [&str; 5] =
    ["iter", "nodes_by_distances", "closest_keys", "closest_values", "closest_values_predicate"];

/// The outcomes of writing and of reading a table.
const SAVED: [(&str, &[&str]); 2] = [
    ("write", &["Written", "Refused 1", "Refused 2", "Refused 6"]),
    ("read", &["Read", "Refused 1", "Refused 2", "Refused 9"]),
];

/// The calls with hours, what the key is before the call, and when the call is made; the local key is met by the first alone, and of the
/// second only a new key is asked for hours (02, slip 8). The minutes are those of a window of the day; where none has them, of the call.
const HOURS: [&str; 2] = ["insert_or_update", "absent_insert"];
const KNOWN: [&str; 3] = ["held", "pending", "local"];
const WHEN: [&str; 8] = [
    "opening minute",
    "last minute",
    "open",
    "minute before opening",
    "closing minute",
    "shut",
    "closed date",
    "no window",
];

/// When a call is made whose hours pass question 10.
fn when(session: &SessionCodes) -> &'static str {
    let SessionCodes { windows, date, minute, .. } = session;
    let today = hours::weekday(*date).map(u16::from);
    let of_today = || windows.chunks_exact(3).filter(|window| Some(window[0]) == today);
    let at = |edge: &dyn Fn(&[u16]) -> u16| of_today().any(|window| edge(window) == *minute);
    if windows.is_empty() {
        WHEN[7]
    } else if hours::is_closed(session) {
        WHEN[6]
    } else if hours::is_open(session) {
        match (at(&|window| window[1]), at(&|window| window[2] - 1)) {
            (true, _) => WHEN[0],
            (_, true) => WHEN[1],
            _ => WHEN[2],
        }
    } else {
        match (at(&|window| window[1].wrapping_sub(1)), at(&|window| window[2])) {
            (true, _) => WHEN[3],
            (_, true) => WHEN[4],
            _ => WHEN[5],
        }
    }
}

/// What a key is in a table, as a dump shows it.
fn kind(key: &[u8], dump: &[u8]) -> Option<&'static str> {
    let mut text = Vec::new();
    text.key(key.try_into().ok()?);
    let key = String::from_utf8(text).ok()?;
    let dump = str::from_utf8(dump).ok()?.split(" queue=").next()?.strip_prefix("dump local=")?;
    Some(if dump.starts_with(&key) {
        "local"
    } else {
        match dump.find(&format!("{key}/")) {
            Some(at) if dump[..at].ends_with('=') => "pending",
            Some(_) => "held",
            None => "new",
        }
    })
}

/// Hours that would be refused, of a call that question 7 or 8 refuses before. They are counted, and need not be reached.
const BEFORE_HOURS: [&str; 3] = ["8 before 10", "8 before 11", "7 before 10"];

/// Which hours came with a call that no question before 10 refused: one fault alone, or when and for which key; or which of
/// [`BEFORE_HOURS`]. `before`: the dump before it.
fn hours_of(line: &str, answer: &str, before: &[u8]) -> Option<(&'static str, String)> {
    let Ok(Some(Line::Table { call, .. })) = text::parse(line) else { return None };
    let (name, key, session) = match call {
        TableCall::InsertOrUpdate { key, session, .. } => (HOURS[0], key, session),
        TableCall::AbsentInsert { key, session, .. } => (HOURS[1], key, session),
        _ => return None,
    };
    let refusal = answer.strip_prefix("Refused ").unwrap_or("10");
    if !["10", "11"].contains(&refusal) {
        let known = kind(&key, before).is_none_or(|kind| kind != "new");
        let hours = hours::refusal(&session, known)?;
        let one = format!("{refusal} before {hours}");
        return BEFORE_HOURS.contains(&&one[..]).then_some((name, one));
    }
    let one = match &hours::faults(&session)[..] {
        [] => format!("{} {}", kind(&key, before)?, when(&session)),
        [(what, fault)] => format!("{what}: {fault}"),
        _ => return None,
    };
    Some((name, one))
}

/// What explanations are asked for, in bytes of the output.
const ASKED_TO_EXPLAIN: [&str; 4] = ["out=0 refused", "out=2047 refused", "out=2048 explained", "out=2049 explained"];

/// How two slots differ that a call holds against each other: "slot equals" with the values it lists, and a value that is given to a key with
/// the value, at the same address, that the key has. Byte 0 is the last.
const SLOTS: [&str; 9] = [
    "equal",
    "byte 0 alone",
    "byte 1 alone",
    "byte 2 alone",
    "byte 3 alone",
    "byte 4 alone",
    "byte 5 alone",
    "byte 6 alone",
    "byte 7 alone",
];
const SLOT_EQUALS: &str = "slot equals";
const VALUE_GIVEN: &str = "value given";

/// Which of [`SLOTS`] two slots are; none where they differ in more bytes.
fn difference(one: Slot, other: Slot) -> Option<&'static str> {
    match one ^ other {
        0 => Some(SLOTS[0]),
        bits => {
            let byte = bits.ilog2() / 8;
            (bits.trailing_zeros() / 8 == byte).then(|| SLOTS[1 + byte as usize])
        }
    }
}

/// The slot at the end of a value's text.
fn slot(value: &str) -> Option<Slot> {
    value.rsplit(':').next()?.parse().ok()
}

/// The value, in text, that a dump has of a key that is held. Of a pending no value is compared.
fn value_of<'a>(key: &[u8], dump: &'a [u8]) -> Option<&'a str> {
    let mut text = Vec::new();
    text.key(key.try_into().ok()?);
    text.text("/");
    let dump = str::from_utf8(dump).ok()?.split(" queue=").next()?;
    let (front, rest) = dump.split_once(str::from_utf8(&text).ok()?)?;
    if front.ends_with('=') { None } else { rest.split('/').next() }
}

/// The key and the value that a call gives it, where it is accepted and does not fail.
fn given(call: &Line, answer: &str) -> Option<(Vec<u8>, ValueCodes)> {
    let (key, value) = match call {
        Line::Table { call: TableCall::UpdateNode { key, value, .. }, .. }
        | Line::Table { call: TableCall::InsertOrUpdate { key, value, .. }, .. }
        | Line::Bucket { call: BucketCall::UpdateValue { key, value }, .. } => (key, value),
        _ => return None,
    };
    (!answer.starts_with("Refused ") && !answer.starts_with("Failed(")).then(|| (key.clone(), *value))
}

/// The pairs of slots that a call holds against each other.
fn slots(call: &str, answer: &str, before: &[u8]) -> Vec<(&'static str, &'static str)> {
    let Ok(Some(call)) = text::parse(call) else { return Vec::new() };
    if let Line::Table { call: TableCall::List { listing, .. }, .. } = &call
        && let Listing::ClosestValuesPredicate(_, Predicate::Slot(asked)) = listing
        && let Some(list) = answer.strip_prefix("List ")
    {
        let listed = list.split(' ').skip(1).filter_map(|item| item.split('/').nth(1).and_then(slot));
        return listed.filter_map(|listed| difference(*asked, listed)).map(|one| (SLOT_EQUALS, one)).collect();
    }
    let pair = given(&call, answer).and_then(|(key, value)| {
        let held = value_of(&key, before)?;
        let mut text = Vec::new();
        text.value(&ValueCodes { slot: slot(held)?, ..value });
        if text == held.as_bytes() { difference(value.slot, slot(held)?) } else { None }
    });
    pair.map(|one| (VALUE_GIVEN, one)).into_iter().collect()
}

/// The name of a line's call, and its other words; none for a raw line or a dump.
fn call(line: &str) -> Option<(&'static str, Split<'_, char>)> {
    let mut words = line.strip_prefix("! ").unwrap_or(line).split(' ');
    let name = words.next()?;
    OUTCOMES.iter().chain(&SAVED).find(|(call, _)| *call == name).map(|(call, _)| (*call, words))
}

/// The outcome of an explanation. Where nothing fails, the reason alone; else the answer, the reason and the number of keys.
fn explanation(line: &str, explanation: &str) -> Option<(&'static str, String)> {
    let asked = explained::asked(line)?;
    let named = |(name, _): &&(&'static str, &[&str])| name.strip_prefix("explain ") == Some(asked.name);
    let (name, _) = EXPLAINED.iter().find(named)?;
    let outcome = match explained::parts(explanation) {
        None => explanation.to_string(),
        Some(Parts { reason: "none", .. }) => "none".to_string(),
        Some(Parts { answer, reason, keys }) => format!("{answer} / {reason} {keys}"),
    };
    Some((name, outcome))
}

/// The ending that a record's text tells.
fn ending(record: &str) -> Option<&str> {
    match record.split_once('^') {
        Some((_, "-")) => Some("none evicted"),
        Some(_) => Some("evicted"),
        None => record.split_once('!').map(|(_, ending)| ending),
    }
}

/// The call of a line and the outcome that its answer is; none where the reference does not answer.
pub fn outcome(line: &str, answer: &str) -> Option<(&'static str, String)> {
    if answer == MALFORMED {
        return None;
    }
    if let Some(explanation) = explanation(line, answer) {
        return Some(explanation);
    }
    let (name, mut words) = call(line)?;
    let outcome = if let Some(found) = answer.strip_prefix("List ") {
        let count = found.split(' ').next().unwrap_or_default();
        let n = words.rfind(|word| !word.starts_with("out=")).unwrap_or_default();
        match count {
            "1" if n == "0" => "List one at 0",
            _ if count == n && n != "0" => "List n",
            "0" => "List none",
            _ => "List fewer",
        }
    } else if let Some(record) = answer.strip_prefix("Some(").and_then(|rest| rest.strip_suffix(')')) {
        return ending(record).map(|ending| (name, format!("Some({ending})")));
    } else if answer.starts_with("Pending") {
        "Pending"
    } else if answer.starts_with("Present(") {
        "Present"
    } else if answer.starts_with("Written ") {
        "Written"
    } else {
        answer
    };
    Some((name, outcome.to_string()))
}

/// Which of [`ASKED_TO_EXPLAIN`] an explanation is.
fn asked_to_explain(line: &str, answer: &str) -> Option<(&'static str, String)> {
    let room = explained::asked(line)?.room?;
    let answered = match answer {
        "Refused 6" => "refused",
        _ if answer.starts_with("Refused ") => return None,
        _ => "explained",
    };
    Some(("explain", format!("out={room} {answered}")))
}

/// Which of [`ASKED`] a listing is, by its n and by its room.
fn asked(line: &str, answer: &str) -> Option<(&'static str, [String; 2])> {
    let answered = match answer {
        "Refused 6" => "refused",
        _ if answer.starts_with("List ") => "listed",
        _ => return None,
    };
    let (name, mut words) = call(line)?;
    let mut last = words.next_back()?;
    let room = last.strip_prefix("out=");
    if room.is_some() {
        last = words.next_back()?;
    }
    let n: u64 = last.parse().ok()?;
    let most = if name == "nodes_by_distances" { n.max(1) } else { n };
    let room = match room.and_then(|room| room.parse::<u64>().ok()) {
        Some(room) if room.checked_add(1) == Some(most) => "room for one less",
        Some(room) if room < most => "room for fewer",
        Some(room) if room > most => "room for more",
        Some(_) => "room for n",
        None => "room not given",
    };
    Some((name, [format!("n {n} {answered}"), format!("{room} {answered}")]))
}

/// How often each outcome was reached, or each of [`ASKED`].
pub struct Counts {
    /// The calls, in the order in which they are shown.
    names: Vec<&'static str>,
    counts: BTreeMap<(&'static str, String), u64>,
}

impl Counts {
    /// Of the calls.
    pub fn outcomes() -> Counts {
        Counts::none(&OUTCOMES)
    }

    /// Of the explanations.
    pub fn explained() -> Counts {
        Counts::none(&EXPLAINED)
    }

    /// Of tables written and read.
    pub fn saved() -> Counts {
        Counts::none(&SAVED)
    }

    /// Of the calls, of the explanations, and of tables written and read.
    pub fn all() -> Counts {
        Counts::none(&[&OUTCOMES[..], &EXPLAINED[..], &SAVED[..]].concat())
    }

    pub fn asked() -> Counts {
        let mut all = LISTINGS.map(|name| (name, &ASKED[..])).to_vec();
        all.push(("explain", &ASKED_TO_EXPLAIN));
        Counts::none(&all)
    }

    pub fn slots() -> Counts {
        Counts::none(&[SLOT_EQUALS, VALUE_GIVEN].map(|name| (name, &SLOTS[..])))
    }

    /// Of the hours: each fault alone, and each moment for each kind of key.
    pub fn hours() -> Counts {
        let faults =
            |what: &str, of: &[&str]| of.iter().map(|fault| format!("{what}: {fault}")).collect::<Vec<String>>();
        let moments = |kind: &str| WHEN.map(|when| format!("{kind} {when}")).to_vec();
        let new = [
            faults("windows", &WINDOW_FAULTS),
            faults("closed", &CLOSED_FAULTS),
            faults("closed", &DATE_FAULTS),
            faults("date", &DATE_FAULTS),
            faults("minute", &[MINUTE_FAULT]),
            moments("new"),
        ]
        .concat();
        let all = [&new[..], &KNOWN.map(moments).concat()].concat();
        let mut counts = Counts::none(&HOURS.map(|name| (name, &[][..])));
        for (name, all) in HOURS.into_iter().zip([all, new]) {
            counts.counts.extend(all.into_iter().map(|one| ((name, one), 0)));
        }
        counts
    }

    fn endings() -> Counts {
        let all: Vec<(&str, Vec<&str>)> = ENDED.iter().map(|(name, parts)| (*name, parts.concat())).collect();
        Counts::none(&all.iter().map(|(name, endings)| (*name, &endings[..])).collect::<Vec<_>>())
    }

    fn none(of: &[(&'static str, &[&str])]) -> Counts {
        Counts {
            names: of.iter().map(|(name, _)| *name).collect(),
            counts: of.iter().flat_map(|(name, all)| all.iter().map(|one| ((*name, one.to_string()), 0))).collect(),
        }
    }

    /// What is of another call than those counted is passed over.
    pub fn add_outcome(&mut self, line: &str, answer: &str) {
        if let Some(outcome) = outcome(line, answer).filter(|(name, _)| self.names.contains(name)) {
            *self.counts.entry(outcome).or_default() += 1;
        }
    }

    /// What is none of [`ASKED`] is not counted.
    pub fn add_asked(&mut self, line: &str, answer: &str) {
        let of_listing = asked(line, answer).into_iter().flat_map(|(name, both)| both.map(|one| (name, one)));
        for one in of_listing.chain(asked_to_explain(line, answer)) {
            self.counts.entry(one).and_modify(|count| *count += 1);
        }
    }

    /// `before`: the dump before the call.
    pub fn add_slots(&mut self, call: &str, answer: &str, before: &[u8]) {
        let name = call.strip_prefix("! ").unwrap_or(call).split(' ').next();
        if !["closest_values_predicate", "update_node", "insert_or_update", "b_update_value"].map(Some).contains(&name)
        {
            return;
        }
        for (name, one) in slots(call, answer, before) {
            *self.counts.entry((name, one.to_string())).or_default() += 1;
        }
    }

    /// `before`: the dump before the call.
    pub fn add_hours(&mut self, line: &str, answer: &str, before: &[u8]) {
        if let Some(one) = hours_of(line, answer, before) {
            *self.counts.entry(one).or_default() += 1;
        }
    }

    pub fn of(&self, outcome: &(&'static str, String)) -> u64 {
        self.counts.get(outcome).copied().unwrap_or_default()
    }

    /// Whether an outcome is to be reached, and was not.
    pub fn lacks(&self, outcome: &(&'static str, String)) -> bool {
        self.counts.get(outcome) == Some(&0)
    }

    /// Those reached fewer than `times` times.
    pub fn rare(&self, times: u64) -> Vec<String> {
        let rare = self.counts.iter().filter(|(_, count)| **count < times);
        rare.map(|((name, one), _)| format!("{name} {one}")).collect()
    }

    /// A line for each call that has any.
    pub fn lines(&self) -> Vec<String> {
        let line = |name: &&str| {
            let counts = self.counts.iter().filter(|((call, _), _)| call == name);
            let counts: Vec<String> = counts.map(|((_, one), count)| format!("{one} {count}")).collect();
            (!counts.is_empty()).then(|| format!("{name}: {}", counts.join(", ")))
        };
        self.names.iter().filter_map(line).collect()
    }
}

/// How the pendings ended, by the call that ended them: the records that it added to the queue, as the dumps show it.
pub struct Endings {
    pub by_call: Counts,
    /// The records in the queue; none where a raw line may have changed their number.
    queued: Option<usize>,
}

impl Endings {
    pub fn new() -> Endings {
        Endings { by_call: Counts::endings(), queued: Some(0) }
    }

    /// A line, its answer, and the dump behind it; nothing where there is none.
    pub fn add(&mut self, line: &str, answer: &str, dump: &[u8]) {
        let call = line.strip_prefix("! ").unwrap_or(line).split(' ').next().unwrap_or_default();
        match call {
            "raw_record" => self.queued = self.queued.map(|queued| queued + 1),
            "raw_byte" => self.queued = None,
            _ => (),
        }
        let dump = String::from_utf8_lossy(dump);
        let Some((_, queue)) = dump.rsplit_once(" queue=[") else { return };
        let records: Vec<&str> = queue.trim_end_matches(']').split(' ').filter(|record| !record.is_empty()).collect();
        let kept = match answer {
            "New" => Some(0),
            _ if answer.starts_with("Some(") => self.queued.map(|queued| queued.saturating_sub(1)),
            _ => self.queued,
        };
        let added = kept.and_then(|kept| records.get(kept..)).unwrap_or_default();
        if let Some((name, _)) = ENDED.iter().find(|(name, _)| *name == call) {
            for ending in added.iter().filter_map(|record| ending(record)) {
                *self.by_call.counts.entry((name, ending.to_string())).or_default() += 1;
            }
        }
        self.queued = Some(records.len());
    }

    /// A line that was passed over, behind which the queue is not known.
    pub fn lost(&mut self) {
        self.queued = None;
    }

    /// How often each ending occurred.
    pub fn totals(&self) -> BTreeMap<&str, u64> {
        let mut totals = BTreeMap::new();
        for ((_, ending), count) in &self.by_call.counts {
            *totals.entry(&ending[..]).or_default() += count;
        }
        totals
    }
}

impl Default for Endings {
    fn default() -> Self {
        Endings::new()
    }
}

#[cfg(test)]
mod tests {
    use super::*;

    /// A record counts for the call that added it, and once; not one that a raw line wrote, or that may have been there before.
    #[test]
    fn counts_endings_by_call() {
        let key = "0".repeat(64);
        let placed = format!("{key}^-");
        let evicting = format!("{key}^{key}/0:0.0.0.0:1/0/0");
        let confirmed = format!("{key}!cleared_confirmed");
        let dropped = format!("{key}!dropped_place_0");
        let dump = |queue: &[&String]| {
            let records: Vec<&str> = queue.iter().map(|record| &record[..]).collect();
            format!("dump local=0 queue=[{}]", records.join(" "))
        };
        let mut endings = Endings::new();
        for (line, answer, dump) in [
            ("new :0 0 0 0 0", "New", dump(&[])),
            ("iter 0 5", "List 0", dump(&[&dropped, &placed, &dropped])),
            ("iter 0 5", "List 0", dump(&[&dropped, &placed, &dropped])),
            ("take_applied_pending", "Some(..)", dump(&[&placed, &dropped])),
            ("! remove 0 :1", "Refused 1", dump(&[&placed, &dropped])),
            ("present_update :1 1 2", "Updated", dump(&[&placed, &dropped, &confirmed])),
            ("take_applied_pending", "Some(..)", dump(&[&dropped, &confirmed])),
            ("new :0 0 0 0 0", "New", dump(&[])),
            ("remove 0 :1", "true", dump(&[&evicting])),
            ("raw_record :1 -", "Raw", String::new()),
            ("b_apply_pending 0", "Some(..)", "bdump timeout=0".to_string()),
            ("entry 0 :1", "Absent", dump(&[&evicting, &placed, &placed])),
            ("raw_byte 43 1", "Raw", String::new()),
            ("entry 0 :1", "Absent", dump(&[&evicting, &placed, &placed, &placed])),
            ("entry 0 :1", "Absent", dump(&[&evicting, &placed, &placed, &placed, &dropped])),
        ] {
            endings.add(line, answer, dump.as_bytes());
        }
        let reached = endings.by_call.counts.iter().filter(|(_, count)| **count > 0);
        assert_eq!(
            reached.map(|((name, ending), count)| format!("{name} {ending} {count}")).collect::<Vec<_>>(),
            [
                "entry dropped_place_0 1",
                "entry none evicted 1",
                "iter dropped_place_0 2",
                "iter none evicted 1",
                "present_update cleared_confirmed 1",
                "remove evicted 1",
            ]
        );
        assert_eq!((endings.totals()["dropped_place_0"], endings.totals()["cleared_inserted"]), (3, 0));
    }

    #[test]
    fn counts_what_listings_are_asked_for() {
        let mut counts = Counts::asked();
        for (line, answer) in [
            ("iter 5 0", "List 0"),
            ("closest_keys 5 :1 1 out=1", "List 1 1"),
            ("iter 5 4095 out=4100", "List 0"),
            ("iter 5 4096 out=4095", "Refused 6"),
            ("iter 5 4096 out=0", "Refused 6"),
            ("iter 5 4097 out=4097", "Refused 6"),
            ("nodes_by_distances 5 1,2 0 out=0", "Refused 6"),
            ("nodes_by_distances 5 - 0 out=1", "List 0"),
            ("! iter 5 0", "Refused 1"),
            ("remove 5 :0", "false"),
            ("explain remove 5 :0 out=2047", "Refused 6"),
            ("explain remove 5 :0 out=2048", "Refused 3"),
            ("explain remove 5 :0 out=2049", "false local key"),
        ] {
            counts.add_asked(line, answer);
        }
        let reached: Vec<String> =
            counts.counts.iter().filter(|(_, c)| **c > 0).map(|((n, o), c)| format!("{n} {o} {c}")).collect();
        assert_eq!(
            reached,
            [
                "closest_keys n 1 listed 1",
                "closest_keys room for n listed 1",
                "explain out=2047 refused 1",
                "explain out=2049 explained 1",
                "iter n 0 listed 1",
                "iter n 4095 listed 1",
                "iter n 4097 refused 1",
                "iter room for more listed 1",
                "iter room for one less refused 1",
                "nodes_by_distances n 0 listed 1",
                "nodes_by_distances room for n listed 1",
                "nodes_by_distances room for one less refused 1",
            ]
        );
    }

    #[test]
    fn counts_slots_by_how_they_differ() {
        let mut counts = Counts::slots();
        let key = |n: u64| format!("{n:0>64x}");
        let (four, five) = (key(4), key(5));
        let dump = format!(
            "dump local={} timeout=0 max=16 tf=0 bf=0 b2{{fcp=0 nodes=[{four}/1:10.0.0.1:256/1/0 {five}/0:0.0.0.0:7/1/0] \
             pending={}/1:10.0.0.1:1/1/0@9}} queue=[{}^{}/1:10.0.0.1:5/1/0]",
            key(0),
            key(6),
            key(9),
            key(8)
        );
        for (call, answer) in [
            ("update_node 0 :4 1:10.0.0.1:256 2", "NotModified"),
            ("update_node 0 :4 1:10.0.0.1:9223372036854776064 2", "Updated"),
            ("insert_or_update 0 :5 0:0.0.0.0:263 1 0", "ValueUpdated"),
            // In two bytes; at another address; of a pending; of a key that is not there; of one in the queue; failed; refused.
            ("update_node 0 :4 1:10.0.0.1:1 2", "Updated"),
            ("update_node 0 :4 1:10.0.0.2:256 2", "Updated"),
            ("update_node 0 :6 1:10.0.0.1:2 2", "UpdatedPending"),
            ("insert_or_update 0 :7 1:10.0.0.1:256 1 0", "Inserted"),
            ("insert_or_update 0 :8 1:10.0.0.1:5 1 0", "Inserted"),
            ("update_node 0 :4 1:10.0.0.1:0 2", "Failed(TableFilter)"),
            ("! update_node 0 :4 1:10.0.0.1:0 2", "Refused 1"),
        ] {
            counts.add_slots(call, answer, dump.as_bytes());
        }
        let listed = format!("List 3 {four}/1:10.0.0.1:256/0 {five}/0:0.0.0.0:7/1 {five}/0:0.0.0.0:65543/0");
        counts.add_slots("closest_values_predicate 0 :4 3:7 3", &listed, dump.as_bytes());
        counts.add_slots("closest_values_predicate 0 :4 0 3", &listed, dump.as_bytes());
        let reached: Vec<String> =
            counts.counts.iter().filter(|(_, c)| **c > 0).map(|((n, o), c)| format!("{n} {o} {c}")).collect();
        assert_eq!(
            reached,
            [
                "slot equals byte 2 alone 1",
                "slot equals equal 1",
                "value given byte 1 alone 1",
                "value given byte 7 alone 1",
                "value given equal 1",
            ]
        );
    }

    /// One fault alone; else what the key is in the dump before the call, and when the call is made.
    #[test]
    fn counts_hours() {
        let key = |n: u64| format!("{n:0>64x}");
        let (local, held, waiting, gone) = (key(0), key(4), key(5), key(6));
        let dump = format!(
            "dump local={local} timeout=0 max=16 tf=0 bf=0 b2{{fcp=- nodes=[{held}/0:0.0.0.0:7/0/0] \
             pending={waiting}/0:0.0.0.0:1/1/0@9}} queue=[{gone}^{gone}/0:0.0.0.0:1/1/0]"
        );
        let mut counts = Counts::hours();
        for (call, hours, answer) in [
            ("insert_or_update 0 :0", "1:0:1440 - 2026-11-16 0", "Failed(InvalidSelfUpdate)"),
            ("insert_or_update 0 :4", "2:0:1440 - 2026-11-16 0", "ValueUpdated"),
            ("insert_or_update 0 :5", "1:540:1020 - 2026-11-16 1020", "Inserted"),
            ("insert_or_update 0 :6", "1:540:1020 - 2026-11-16 539", "Refused 11"),
            ("absent_insert 0 :6", "1:540:1020 - 2026-11-16 1019", "Inserted"),
            ("absent_insert 0 :7", "1:540:1020 - 2026-11-16 1018", "Inserted"),
            ("absent_insert 0 :7", "1:540:1020 2026-11-16 2026-11-16 600", "Refused 11"),
            ("absent_insert 0 :7", "- 0-0-0 0-0-0 0", "Inserted"),
            ("absent_insert 0 :7", "8:540:1020 - 2026-11-16 0", "Refused 10"),
            ("insert_or_update 0 :7", "1:540:1020 - 2100-2-29 0", "Refused 10"),
            ("insert_or_update 0 :7", "1:540:1020 - 2100-2-29 0", "Refused 8"),
            ("insert_or_update 0 :7", "2:540:1020 - 2026-11-16 600", "Refused 8"),
            ("absent_insert 0 :4", "1:540:1020 - 2100-2-29 0", "Refused 7"),
            // Refused before, with hours that are not; refused by an earlier question; two faults; no call with hours.
            ("insert_or_update 0 :4", "2:540:1020 - 2026-11-16 600", "Refused 8"),
            ("insert_or_update 0 :7", "1:540:1020 - 2100-2-29 0", "Refused 5"),
            ("insert_or_update 0 :7", "1:540:1020 - 2100-2-29 1440", "Refused 10"),
        ] {
            counts.add_hours(&format!("{call} 0:0.0.0.0:1 1 0 {hours}"), answer, dump.as_bytes());
        }
        counts.add_hours("remove 0 :7", "false", dump.as_bytes());
        // Without a dump the key is not known.
        counts.add_hours("insert_or_update 0 :7 0:0.0.0.0:1 1 0", "Inserted", b"");
        let reached: Vec<String> =
            counts.counts.iter().filter(|(_, c)| **c > 0).map(|((n, o), c)| format!("{n} {o} {c}")).collect();
        assert_eq!(
            reached,
            [
                "absent_insert 7 before 10 1",
                "absent_insert new closed date 1",
                "absent_insert new last minute 1",
                "absent_insert new no window 1",
                "absent_insert new open 1",
                "absent_insert windows: weekday over 7 1",
                "insert_or_update 8 before 10 1",
                "insert_or_update 8 before 11 1",
                "insert_or_update date: 29 February of a century 1",
                "insert_or_update held shut 1",
                "insert_or_update local opening minute 1",
                "insert_or_update new minute before opening 1",
                "insert_or_update pending closing minute 1",
            ]
        );
    }

    #[test]
    fn counts_explanations_by_reason_and_keys() {
        let key = "0".repeat(64);
        let (mut calls, mut explained) = (Counts::outcomes(), Counts::explained());
        for (line, answer) in [
            ("explain remove 5 :0".to_string(), "false local key".to_string()),
            ("explain remove 5 :1 out=2048".to_string(), "true none".to_string()),
            ("! explain remove 5 :1".to_string(), "Refused 1".to_string()),
            ("explain insert_or_update 0 :1 0:0.0.0.0:0 1 0".to_string(), format!("Pending {key} none")),
            ("explain absent_insert 0 :1 0:0.0.0.0:0 1 0".to_string(), format!("Full pending {key}")),
            ("explain update_node 0 :1 0:0.0.0.0:0 1".to_string(), "Failed TooManyIncoming incoming limit".to_string()),
            ("remove 5 :0".to_string(), "false".to_string()),
        ] {
            calls.add_outcome(&line, &answer);
            explained.add_outcome(&line, &answer);
        }
        let reached = |counts: &Counts| {
            let reached = counts.counts.iter().filter(|(_, c)| **c > 0);
            reached.map(|((n, o), c)| format!("{n} {o}: {c}")).collect::<Vec<String>>()
        };
        assert_eq!(reached(&calls), ["remove false: 1"]);
        assert_eq!(
            reached(&explained),
            [
                "explain absent_insert Full / pending 1: 1",
                "explain insert_or_update none: 1",
                "explain remove Refused 1: 1",
                "explain remove false / local key 0: 1",
                "explain remove none: 1",
                "explain update_node Failed TooManyIncoming / incoming limit 0: 1",
            ]
        );
    }
}
