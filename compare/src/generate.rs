//! Seeded random lists of calls that reach deep states: full buckets, pendings due and not, clocks that go back, shared /24s, slots that
//! differ in one byte alone, small maxima, a full queue, hours, tables that no calls reach, malformed storage, and arguments that each
//! question refuses.

use crate::explained::ROOM;
use crate::layout;
use crate::text::{self as line, Line, NodeCodes, PEER_CALLS, Raw, Slot, TableCall, Which, Write};
use hours::with_hours;

mod hours;

/// The splitmix64 generator.
pub struct Random(u64);

impl Random {
    pub fn new(seed: u64) -> Random {
        Random(seed)
    }

    pub fn word(&mut self) -> u64 {
        self.0 = self.0.wrapping_add(0x9e37_79b9_7f4a_7c15);
        let mut z = self.0;
        z = (z ^ z >> 30).wrapping_mul(0xbf58_476d_1ce4_e5b9);
        z = (z ^ z >> 27).wrapping_mul(0x94d0_49bb_1331_11eb);
        z ^ z >> 31
    }

    /// A number below `end`, which is not 0.
    pub fn below(&mut self, end: u64) -> u64 {
        ((u128::from(self.word()) * u128::from(end)) >> 64) as u64
    }

    /// True in `percent` of a hundred cases.
    fn percent(&mut self, percent: u64) -> bool {
        self.below(100) < percent
    }

    fn pick<T: Copy>(&mut self, of: &[T]) -> T {
        of[self.below(of.len() as u64) as usize]
    }

    /// One of the names, each as often as its weight says.
    fn weighted<T: Copy>(&mut self, of: &[(T, u64)]) -> T {
        let mut at = self.below(of.iter().map(|(_, weight)| weight).sum());
        for (name, weight) in of {
            if at < *weight {
                return *name;
            }
            at -= weight;
        }
        unreachable!()
    }

    fn shuffle<T>(&mut self, items: &mut [T]) {
        for i in (1..items.len()).rev() {
            items.swap(i, self.below(i as u64 + 1) as usize);
        }
    }
}

type Key = [u8; 32];

/// What a list of calls is about.
#[derive(Clone, Copy, PartialEq)]
enum Theme {
    /// One to three buckets, filled and changed by calls alone.
    Calls,
    /// Several buckets with filters on and few /24s.
    Nets,
    /// A bucket whose pendings are due at once, and a queue that is rarely emptied.
    Queue,
    /// A well-formed table that no calls reach.
    Raw,
    /// About as many values of a /24 as the table filter takes, and due pendings that change their number.
    Edge,
    /// A full or nearly full queue before buckets with due pendings.
    FullQueue,
    /// Pendings with every ground to end, and the calls that end them.
    Endings,
    /// Due pendings in more buckets than the queue has room for.
    Many,
    /// Every bucket as full as it can be.
    Big,
    /// Changed bytes.
    Malformed,
    /// One bucket by itself, by calls alone.
    Bucket,
    /// One bucket by itself, as no calls leave it.
    RawBucket,
    /// A full bucket with none, all, or all but one of its nodes connected incoming, as many as the maximum; only beside explanations.
    Limits,
}

const THEMES: [(Theme, u64); 12] = [
    (Theme::Calls, 300),
    (Theme::Nets, 150),
    (Theme::Queue, 60),
    (Theme::Raw, 200),
    (Theme::Edge, 80),
    (Theme::FullQueue, 60),
    (Theme::Endings, 160),
    (Theme::Many, 15),
    (Theme::Big, 2),
    (Theme::Malformed, 60),
    (Theme::Bucket, 100),
    (Theme::RawBucket, 80),
];

const UPDATES: [(&str, u64); 15] = [
    ("new", 0),
    ("update_node_status", 20),
    ("update_node", 18),
    ("insert_or_update", 34),
    ("remove", 6),
    ("entry", 8),
    ("present_update", 10),
    ("pending_update", 6),
    ("absent_insert", 12),
    ("iter", 3),
    ("nodes_by_distances", 4),
    ("closest_keys", 3),
    ("closest_values", 2),
    ("closest_values_predicate", 3),
    ("take_applied_pending", 3),
];

const LISTINGS: [(&str, u64); 15] = [
    ("new", 0),
    ("update_node_status", 3),
    ("update_node", 3),
    ("insert_or_update", 6),
    ("remove", 2),
    ("entry", 3),
    ("present_update", 1),
    ("pending_update", 3),
    ("absent_insert", 3),
    ("iter", 12),
    ("nodes_by_distances", 16),
    ("closest_keys", 12),
    ("closest_values", 10),
    ("closest_values_predicate", 12),
    ("take_applied_pending", 4),
];

const EVERY: [(&str, u64); 15] = [
    ("new", 1),
    ("update_node_status", 1),
    ("update_node", 1),
    ("insert_or_update", 1),
    ("remove", 1),
    ("entry", 1),
    ("present_update", 1),
    ("pending_update", 1),
    ("absent_insert", 1),
    ("iter", 1),
    ("nodes_by_distances", 1),
    ("closest_keys", 1),
    ("closest_values", 1),
    ("closest_values_predicate", 1),
    ("take_applied_pending", 1),
];

/// Calls that ask the table filter.
const FILTERED: [(&str, u64); 5] =
    [("update_node", 10), ("insert_or_update", 10), ("update_node_status", 1), ("absent_insert", 1), ("remove", 1)];

/// Calls that give records, and few that take them.
const RECORDS: [(&str, u64); 8] = [
    ("update_node_status", 30),
    ("insert_or_update", 50),
    ("absent_insert", 8),
    ("update_node", 4),
    ("remove", 1),
    ("entry", 4),
    ("nodes_by_distances", 2),
    ("take_applied_pending", 1),
];

/// Calls that end pendings.
const ENDING: [(&str, u64); 13] = [
    ("update_node_status", 10),
    ("update_node", 8),
    ("insert_or_update", 14),
    ("remove", 5),
    ("entry", 5),
    ("present_update", 10),
    ("pending_update", 2),
    ("absent_insert", 2),
    ("iter", 3),
    ("nodes_by_distances", 5),
    ("closest_keys", 3),
    ("closest_values", 3),
    ("closest_values_predicate", 3),
];

/// The grounds on which a pending ends, in the order of the endings; `Any`: as it falls.
#[derive(Clone, Copy, PartialEq)]
enum Ground {
    First,
    Filter,
    Incoming,
    Inserted,
    Confirmed,
    Any,
}

const GROUNDS: [(Ground, u64); 6] = [
    (Ground::First, 2),
    (Ground::Filter, 4),
    (Ground::Incoming, 3),
    (Ground::Inserted, 3),
    (Ground::Confirmed, 2),
    (Ground::Any, 3),
];

const ALONE: [(&str, u64); 7] = [
    ("b_new", 1),
    ("b_insert", 45),
    ("b_apply_pending", 12),
    ("b_update_status", 30),
    ("b_update_value", 16),
    ("b_update_pending", 8),
    ("b_remove", 8),
];

/// The endings of a pending that was not placed.
const UNPLACED: [&str; 5] =
    ["dropped_place_0", "dropped_bucket_filter", "dropped_incoming_limit", "cleared_inserted", "cleared_confirmed"];

/// Random lists of calls. Each begins with `new` or `b_new`, so that lists can stand one behind the other.
pub struct Generator {
    random: Random,
    /// Leaves out the lists that need thousands of raw lines.
    pub small: bool,
    /// Where calls are explained: a generator of its own, so that the calls are those of a list without explanations.
    explaining: Option<Random>,
    /// For the hours, another one.
    hours: Random,
}

impl Generator {
    pub fn new(seed: u64) -> Generator {
        Generator { random: Random::new(seed), small: false, explaining: None, hours: Random::new(seed ^ 1 << 63) }
    }

    /// Of lists in which most of the calls that can be explained stand behind their explanation.
    pub fn explaining(seed: u64) -> Generator {
        Generator { explaining: Some(Random::new(!seed)), ..Generator::new(seed) }
    }

    /// The next list of calls.
    pub fn list(&mut self) -> Vec<String> {
        let Some(mut random) = self.explaining.take() else {
            let list = self.calls();
            return with_hours(list, &mut self.hours);
        };
        let list = if random.percent(8) {
            let mut world = World::new(&mut random, Theme::Limits);
            world.build();
            world.lines
        } else {
            self.calls()
        };
        let list = with_hours(list, &mut self.hours);
        let list = saved(explained(list, &mut random), &mut random);
        self.explaining = Some(random);
        list
    }

    fn calls(&mut self) -> Vec<String> {
        let mut theme = self.random.weighted(&THEMES);
        while self.small && matches!(theme, Theme::Many | Theme::Big) {
            theme = self.random.weighted(&THEMES);
        }
        let mut world = World::new(&mut self.random, theme);
        world.build();
        world.lines
    }
}

/// A list with explanations before at least half of the calls that can be explained.
fn explained(list: Vec<String>, random: &mut Random) -> Vec<String> {
    let mut lines = Vec::new();
    for line in list {
        let (short, call) = line.strip_prefix("! ").map_or(("", &line[..]), |call| ("! ", call));
        let name = call.split(' ').next().unwrap_or_default();
        let odds = match name {
            _ if !PEER_CALLS.contains(&name) => 0,
            "remove" | "present_update" | "pending_update" => 90,
            _ => 50,
        };
        if random.percent(odds) {
            let room = match random.below(20) {
                0 => Some(ROOM - 1),
                1 => Some(random.pick(&[0, 0, 1, 38, 1078])),
                2 | 3 => Some(ROOM),
                4 => Some(ROOM + 1),
                5 => Some(ROOM + random.below(3000)),
                _ => None,
            };
            let room = room.map_or(String::new(), |room| format!(" out={room}"));
            lines.push(format!("{short}explain {call}{room}"));
        }
        lines.push(line);
    }
    lines
}

/// A list with the table written somewhere, and a list at whose end a new table is loaded with nodes that the list names, or with damaged
/// ones, is written, and goes on.
fn saved(mut list: Vec<String>, random: &mut Random) -> Vec<String> {
    let Some(Line::Table { call: TableCall::New { local, max_incoming, .. }, .. }) =
        list.first().and_then(|line| read(line))
    else {
        return list;
    };
    let write = |random: &mut Random| match random.below(8) {
        0 => "! write".to_string(),
        1 => format!("write out={}", random.pick(&[0, 255, 256, 302, 303, 304, 1 << 20])),
        _ => "write".to_string(),
    };
    if random.percent(20) {
        let at = 1 + random.below(list.len() as u64) as usize;
        list.insert(at, write(random));
    }
    let Ok(local) = <Key>::try_from(local) else { return list };
    if random.percent(20) {
        let nodes = nodes_of(&list, &local, max_incoming, random);
        let bytes = damaged(saved_bytes(&nodes), random);
        let mut text = Vec::new();
        text.hexadecimal(&bytes);
        let text = if text.is_empty() { "-".to_string() } else { String::from_utf8(text).unwrap() };
        let is_new = random.percent(90);
        if is_new {
            list.push(list[0].clone());
        }
        match random.below(40) {
            // Where the table is not new its queue may have no room for it; nor behind a malformed bucket, where the two need not have the
            // same queue.
            0 if is_new && !list.iter().any(|line| line.starts_with("raw_byte ")) => {
                list.push(format!("raw_record {} -", hex(&local)));
            }
            1 | 2 => list.push(format!("raw_byte {} 2", layout::HEADER_OFFSETS[2])),
            3 => list
                .push(format!("insert_or_update 0 {} 0:0.0.0.0:1 0 0", hex(&key_in_bucket(random, &local, 255, true)))),
            _ => (),
        }
        list.push(format!("{}read {text}", if random.percent(4) { "! " } else { "" }));
        list.push(write(random));
        list.push(format!("iter {} 4096", random.below(1000)));
        for node in nodes.iter().flatten().take(3) {
            list.push(format!("update_node_status 0 {} {} 2", hex(&node.key), random.below(2)));
        }
        list.push(write(random));
    }
    list
}

/// Nodes of different keys that a list inserts, in their buckets, disconnected first.
fn nodes_of(list: &[String], local: &Key, max_incoming: u8, random: &mut Random) -> Vec<Vec<NodeCodes>> {
    let mut buckets = vec![Vec::new(); layout::BUCKETS];
    let most = random.pick(&[0, 1, 2, 5, 40, 200]);
    let named = list.iter().filter_map(|line| match read(line)? {
        Line::Table { call: TableCall::InsertOrUpdate { key, value, state, direction, .. }, .. }
        | Line::Table { call: TableCall::AbsentInsert { key, value, state, direction, .. }, .. } => {
            Some(NodeCodes { key: key.try_into().ok()?, value, state, direction })
        }
        Line::Raw(Raw::Node(Which::Index(_), node)) => Some(node),
        _ => None,
    });
    for node in named.take(most) {
        let Some(i) = layout::index(local, &node.key) else { continue };
        let bucket: &mut Vec<NodeCodes> = &mut buckets[i];
        let incoming = bucket.iter().filter(|n| n.state == 1 && n.direction == 1).count();
        let room = node.state == 0 || node.direction == 0 || incoming < max_incoming.into() || random.percent(2);
        if bucket.len() < layout::PLACES && bucket.iter().all(|held| held.key != node.key) && room {
            bucket.push(node);
        }
    }
    for bucket in &mut buckets {
        bucket.sort_by_key(|node| node.state);
    }
    buckets
}

/// What the writer puts out of nodes in their buckets.
fn saved_bytes(buckets: &[Vec<NodeCodes>]) -> Vec<u8> {
    let mut bytes: Vec<u8> = buckets.iter().map(|nodes| nodes.len() as u8).collect();
    bytes.extend(buckets.iter().flatten().flat_map(|node| node.key));
    for node in buckets.iter().flatten() {
        bytes.extend([node.state, node.direction]);
        bytes.extend(layout::value_bytes(&node.value));
    }
    bytes
}

/// One in three is damaged: a byte changed, bytes cut off or added, a size moved to the next bucket.
fn damaged(mut bytes: Vec<u8>, random: &mut Random) -> Vec<u8> {
    let at = random.below(bytes.len() as u64) as usize;
    match random.below(15) {
        0 => bytes[at] ^= 1 << random.below(8),
        1 => bytes[at] = random.pick(&[0, 1, 2, 255]),
        2 => bytes.truncate(bytes.len() - 1 - random.below(48) as usize),
        3 => bytes.extend(vec![0; 1 + random.below(48) as usize]),
        4 if at < 255 => bytes.swap(at, at + 1),
        5 => bytes.truncate(at),
        _ => (),
    }
    bytes
}

/// A line as it is read; none for one that is passed over.
fn read(text: &str) -> Option<Line> {
    line::parse(text).ok().flatten()
}

/// Slots at which a narrower number would end, or the whole one does.
const EDGES: [Slot; 5] = [0, 1 << 16, 1 << 32, 1 << 63, Slot::MAX];

/// A slot that differs from another in one byte alone.
fn twin(random: &mut Random, slot: Slot) -> Slot {
    slot ^ (1 + random.below(255)) << (8 * random.below(size_of::<Slot>() as u64))
}

/// The slots of a list, around one of [`EDGES`] or all of them: few, so that values meet again, among them some that differ in one byte
/// alone; or many.
fn slots(random: &mut Random) -> Vec<Slot> {
    let mut around = |edge: Slot| edge.wrapping_add(random.below(3)).wrapping_sub(1);
    let edges = EDGES.map(&mut around);
    let first = random.pick(&edges);
    match random.below(6) {
        0 => vec![first],
        1 => vec![first, twin(random, first)],
        2 => vec![first, twin(random, first), twin(random, first), twin(random, first)],
        3 => (0..Slot::BITS).step_by(8).map(|at| first ^ (1 + random.below(255)) << at).chain([first]).collect(),
        4 => edges.to_vec(),
        _ => (0..300).map(|i| first.wrapping_add(i)).collect(),
    }
}

/// What a list's calls choose from, and the lines so far.
struct World<'a> {
    random: &'a mut Random,
    theme: Theme,
    lines: Vec<String>,
    local: Key,
    timeout: u64,
    max_incoming: u8,
    table_filter: u8,
    bucket_filter: u8,
    /// The buckets in play and keys of each.
    indices: Vec<usize>,
    pools: Vec<Vec<Key>>,
    /// Keys of the last inserts: a pending is likely among them.
    recent: Vec<Key>,
    nets: Vec<[u8; 3]>,
    hosts: u64,
    slots: Vec<Slot>,
    /// The value of the last pending written as bytes.
    pending_value: Option<String>,
    /// In percent: values without an address, connected, incoming, calls with a bad argument.
    plain: u64,
    connected: u64,
    incoming: u64,
    bad: u64,
    now: u64,
    /// Times of the last calls: deadlines are the timeout later.
    times: Vec<u64>,
    /// The questions that the current call is to fail.
    faults: Vec<u8>,
}

impl<'a> World<'a> {
    fn new(random: &'a mut Random, theme: Theme) -> World<'a> {
        let local = match random.below(3) {
            0 => [0; 32],
            1 => [255; 32],
            _ => random_key(random),
        };
        let timeout = match theme {
            Theme::Queue => random.pick(&[0, 0, 1]),
            Theme::Endings => random.pick(&[0, 10, 10, 100]),
            _ => random.weighted(&[
                (0, 15),
                (1, 10),
                (10, 25),
                (100, 20),
                (60_000, 15),
                (1 << 63, 2),
                (u64::MAX - 100, 2),
                (u64::MAX, 1),
            ]),
        };
        let nets: Vec<[u8; 3]> = match random.below(3) {
            _ if matches!(theme, Theme::Edge | Theme::Endings) => vec![[10, 0, 0]],
            0 => vec![[10, 0, 0]],
            1 => vec![[10, 0, 0], [10, 0, 1]],
            _ => vec![[10, 0, 0], [10, 1, 0], [11, 0, 0], [255, 255, 255]],
        };
        let filters = theme == Theme::Nets;
        let edge = theme == Theme::Edge;
        let mut world = World {
            theme,
            lines: Vec::new(),
            local,
            timeout,
            max_incoming: random.pick(&[0, 1, 2, 3, 5, 8, 15, 16, 16, 16]),
            table_filter: (edge || filters && random.percent(80) || random.percent(25)).into(),
            bucket_filter: (filters && random.percent(50) || random.percent(if edge { 5 } else { 25 })).into(),
            indices: Vec::new(),
            pools: Vec::new(),
            recent: Vec::new(),
            nets,
            hosts: if edge { 40 } else { random.pick(&[1, 2, 3, 8]) },
            slots: slots(random),
            plain: match theme {
                Theme::Nets => 10,
                Theme::Edge => 35,
                _ => random.pick(&[10, 50, 90]),
            },
            pending_value: None,
            connected: random.pick(&[20, 50, 80, 95]),
            incoming: random.pick(&[10, 50, 90]),
            bad: random.pick(&[0, 4, 12]),
            now: random.pick(&[0, 1, 1000, 1 << 40]),
            times: vec![0],
            faults: Vec::new(),
            random,
        };
        world.now = world.now.min(u64::MAX - timeout);
        world.choose_pools();
        world
    }

    fn choose_pools(&mut self) {
        let count = match self.theme {
            Theme::Calls | Theme::FullQueue | Theme::Malformed => 1 + self.random.below(3),
            Theme::Edge => 1 + self.random.below(2),
            Theme::Queue | Theme::Endings | Theme::Bucket | Theme::RawBucket | Theme::Limits => 1,
            Theme::Nets => 2 + self.random.below(6),
            Theme::Raw => 1 + self.random.below(8),
            Theme::Many => 70 + self.random.below(20),
            Theme::Big => 256,
        };
        let mut all: Vec<usize> = (0..256).collect();
        self.random.shuffle(&mut all);
        // Small buckets and the last are met more often than one in 256.
        if self.theme != Theme::Big && self.random.percent(60) {
            let first = self.random.pick(&[0, 1, 2, 3, 4, 4, 5, 5, 5, 5, 6, 7, 8, 63, 64, 127, 128, 254, 255, 255]);
            let at = all.iter().position(|i| *i == first).unwrap();
            all.swap(0, at);
        }
        self.indices = all[..count as usize].to_vec();
        if matches!(self.theme, Theme::Queue | Theme::FullQueue | Theme::Edge | Theme::Limits | Theme::Endings) {
            for i in &mut self.indices {
                *i = 5 + *i % 251;
            }
            self.indices.sort();
            self.indices.dedup();
        }
        let size = match self.theme {
            Theme::Queue => 40,
            Theme::Big => 17,
            _ => 18 + self.random.below(8),
        };
        let alone = matches!(self.theme, Theme::Bucket | Theme::RawBucket);
        for i in self.indices.clone() {
            let near = self.random.percent(50);
            let mut pool = Vec::new();
            for _ in 0..4 * size {
                let key = match alone && near {
                    true => random_key(self.random),
                    false => key_in_bucket(self.random, &self.local, i, near),
                };
                if !pool.contains(&key) && pool.len() < size as usize {
                    pool.push(key);
                }
            }
            self.pools.push(pool);
        }
    }

    fn build(&mut self) {
        match self.theme {
            Theme::Calls | Theme::Nets => {
                self.new_table();
                self.fill();
                let length = 40 + self.random.below(160);
                self.calls(&UPDATES, length);
            }
            Theme::Queue => {
                self.new_table();
                self.connected = 50;
                self.fill();
                self.calls(&RECORDS, 450);
                self.bad = 20;
                self.calls(&UPDATES, 30);
            }
            Theme::Raw | Theme::FullQueue => {
                self.new_table();
                self.raw_table();
                let weights = if self.random.percent(50) { &UPDATES } else { &LISTINGS };
                let length = self.random.pick(&[5, 10, 20, 40, 80]);
                self.calls(weights, length);
            }
            Theme::Edge => {
                for _ in 0..6 {
                    self.new_table();
                    self.raw_table();
                    self.calls(&FILTERED, 6);
                }
            }
            Theme::Endings => {
                for _ in 0..10 {
                    self.endings();
                }
            }
            Theme::Many => {
                self.new_table();
                self.raw_table();
                self.calls(&LISTINGS, 40);
            }
            Theme::Big => {
                self.new_table();
                self.raw_table();
                self.calls(&LISTINGS, 12);
            }
            Theme::Malformed => {
                for _ in 0..4 {
                    self.new_table();
                    if self.random.percent(30) {
                        self.fill();
                    } else {
                        self.raw_table();
                    }
                    // A malformed bucket is passed over by the comparison, up to the next new table.
                    let header = self.random.percent(70);
                    for _ in 0..1 + self.random.below(3) {
                        self.raw_byte(header);
                    }
                    self.calls(&EVERY, 12);
                }
            }
            Theme::Bucket => {
                self.new_alone();
                let length = 60 + self.random.below(140);
                self.calls(&ALONE, length);
            }
            Theme::RawBucket => {
                for _ in 0..3 {
                    self.new_alone();
                    self.raw_bucket("b", 0);
                    if self.random.percent(10) {
                        // One node more, which may be one too many, of a key held already, or out of range.
                        self.faults = if self.random.percent(50) { vec![4] } else { Vec::new() };
                        let key = self.pool_key();
                        let node = self.raw_node_text(&key);
                        self.lines.push(format!("raw_pending b {node} {}", self.now));
                        self.faults.clear();
                    }
                    self.calls(&ALONE, 30);
                }
            }
            Theme::Limits => {
                (self.table_filter, self.bucket_filter) = (0, 0);
                for _ in 0..6 {
                    self.limits();
                }
            }
        }
    }

    /// A bucket with a pending, by bytes or by calls alone, then calls that end it and take the records.
    fn endings(&mut self) {
        let ground = self.random.weighted(&GROUNDS);
        self.max_incoming = match ground {
            Ground::Incoming => self.random.pick(&[0, 1, 3]),
            _ => self.random.pick(&[1, 5, 16]),
        };
        self.bucket_filter = (ground == Ground::Filter || self.random.percent(30)).into();
        self.table_filter = self.random.percent(10).into();
        self.plain = self.random.pick(&[50, 95]);
        (self.connected, self.incoming) = (self.random.pick(&[50, 90]), self.random.pick(&[30, 90]));
        self.recent.clear();
        self.new_table();
        self.raw_records();
        if self.timeout > 0 && ground == Ground::Any && self.random.percent(60) {
            self.pending_by_calls();
        } else if ground == Ground::Any {
            self.raw_bucket(&self.indices[0].to_string(), 0);
        } else {
            self.raw_ground(ground);
        }
        let count = 1 + self.random.below(2);
        self.calls(&ENDING, count);
        let count = self.random.below(3);
        self.calls(&[("take_applied_pending", 1)], count);
    }

    /// A bucket written as bytes whose pending ends on this ground, sometimes on another that comes before it, and for the last two the call
    /// that ends it.
    fn raw_ground(&mut self, ground: Ground) {
        let mut keys = self.pools[0].clone();
        self.random.shuffle(&mut keys);
        let count = match ground {
            Ground::First => 16,
            Ground::Inserted => self.random.pick(&[1, 9, 15]),
            _ => self.random.pick(&[5, 15, 16, 16, 16]),
        };
        let disconnected = match ground {
            Ground::First => 0,
            _ if count == 16 => self.random.pick(&[0, 1, 1, 1, 3]),
            _ => self.random.below(2) as usize,
        };
        let bucket = self.indices[0];
        let mut incoming = self.max_incoming;
        for (j, key) in keys.iter().take(count).enumerate() {
            let value = match ground {
                Ground::Filter if j % 3 == 0 => format!("1:10.0.0.{j}:1"),
                _ => format!("0:0.0.0.0:{j}"),
            };
            let (state, mut direction) = (u8::from(j >= disconnected), u8::from(ground == Ground::Incoming));
            if state == 1 && direction == 1 {
                direction = u8::from(incoming > 0);
                incoming = incoming.saturating_sub(1);
            }
            self.lines.push(format!("raw_node {bucket} {} {value} {state} {direction}", text(key)));
        }
        let place = if disconnected == count { "-".to_string() } else { disconnected.to_string() };
        self.lines.push(format!("raw_fcp {bucket} {place}"));
        let value = if ground == Ground::Filter { "1:10.0.0.99:1".to_string() } else { self.value() };
        let direction = if ground == Ground::Incoming { 1 } else { self.direction() };
        let ends_early = matches!(ground, Ground::Inserted | Ground::Confirmed);
        let deadline = if ends_early { self.now.saturating_add(1 + self.random.below(20)) } else { self.now };
        let waiting = text(&keys[count]);
        self.lines.push(format!("raw_pending {bucket} {waiting} {value} 1 {direction} {deadline}"));
        self.recent.extend([keys[0], keys[count], keys[1], keys[2]]);
        let (now, first) = (self.now, text(&keys[0]));
        match ground {
            Ground::Inserted => self.lines.push(format!("insert_or_update {now} {waiting} 0:0.0.0.0:9 1 0")),
            Ground::Confirmed => {
                let (value, direction) = (self.value(), self.direction());
                let line = match self.random.below(4) {
                    0 => format!("update_node_status {now} {first} 1 {direction}"),
                    1 => format!("update_node {now} {first} {value} 1"),
                    2 => format!("insert_or_update {now} {first} {value} 1 {direction}"),
                    _ => format!("present_update {first} 1 {direction}"),
                };
                self.lines.push(line);
            }
            _ => (),
        }
    }

    /// A full bucket of which one node is disconnected, a pending that waits for its place, and calls that give it a ground to end
    /// otherwise: a free place, place 0 connected, two others of its /24, nodes connected incoming. Some go on when it is due.
    fn pending_by_calls(&mut self) {
        let mut keys = self.pools[0].clone();
        self.random.shuffle(&mut keys);
        let now = self.now;
        for (j, key) in keys.iter().take(16).enumerate() {
            let state = u8::from(j > 0);
            self.lines.push(format!("insert_or_update {now} {} 0:0.0.0.0:{j} {state} 0", text(key)));
        }
        let (waiting, value, direction) = (text(&keys[16]), self.value(), self.direction());
        self.lines.push(format!("absent_insert {now} {waiting} {value} 1 {direction}"));
        self.recent.extend([keys[0], keys[16], keys[16]]);
        for _ in 0..self.random.below(3) {
            match self.random.below(5) {
                0 => self.lines.push(format!("remove {now} {}", text(&keys[5]))),
                1 => {
                    self.lines.push(format!("remove {now} {}", text(&keys[0])));
                    self.lines.push(format!("absent_insert {now} {} 0:0.0.0.0:0 1 0", text(&keys[17])));
                }
                2 => {
                    for (key, host) in [(&keys[1], 21), (&keys[2], 22)] {
                        self.lines.push(format!("update_node {now} {} 1:10.0.0.{host}:1 2", text(key)));
                    }
                }
                3 => self.lines.push(format!("update_node_status {now} {} 1 1", text(&keys[3]))),
                _ => self.lines.push(format!("present_update {} 1 1", text(&keys[4]))),
            }
        }
        if self.random.percent(60) {
            self.now += self.timeout;
        }
    }

    /// A full bucket at the incoming limit, and a call that would pass it by one: of a newcomer, or of the only held node that is not
    /// connected incoming. Some newcomers are outgoing, beside a pending that waits though all are connected.
    fn limits(&mut self) {
        self.max_incoming = self.random.pick(&[0, 15, 16]);
        self.new_table();
        let mut keys = self.pools[0].clone();
        self.random.shuffle(&mut keys);
        let disconnected = match self.max_incoming {
            16 => 0,
            _ => self.random.pick(&[0, 1, 1]),
        };
        // With none disconnected, the last is connected outgoing where the maximum leaves it no room.
        let special = if disconnected == 1 { keys[0] } else { keys[15] };
        for (j, key) in keys.iter().take(16).enumerate() {
            let incoming = j < disconnected || j < disconnected + usize::from(self.max_incoming);
            let (key, value, connected) = (text(key), self.value(), u8::from(j >= disconnected));
            self.lines.push(format!("raw_node {} {key} {value} {connected} {}", self.indices[0], u8::from(incoming)));
        }
        self.lines.push(format!("raw_fcp {} {disconnected}", self.indices[0]));
        let name = match self.max_incoming {
            16 => self.random.pick(&["insert_or_update", "absent_insert"]),
            15 => self.random.pick(&["insert_or_update", "update_node_status", "update_node", "present_update"]),
            _ => self.random.pick(&PEER_CALLS),
        };
        let newcomer = self.max_incoming == 16 || name == "absent_insert";
        let key = text(if newcomer { &keys[16] } else { &special });
        let direction = u8::from(!newcomer || self.random.percent(70));
        if let Some(waiting) = keys.get(17).filter(|_| direction == 0) {
            let node = self.raw_node_text(waiting);
            self.lines.push(format!("raw_pending {} {node} {}", self.indices[0], u64::MAX));
        }
        let (now, value) = (self.time(), self.value());
        self.lines.push(match name {
            "update_node" => format!("{name} {now} {key} {value} 1"),
            "insert_or_update" | "absent_insert" => format!("{name} {now} {key} {value} 1 {direction}"),
            "update_node_status" => format!("{name} {now} {key} 1 1"),
            "remove" => format!("{name} {now} {key}"),
            _ => format!("{name} {key} 1 1"),
        });
    }

    fn new_table(&mut self) {
        let (local, timeout, max) = (text(&self.local), self.timeout, self.max_incoming);
        self.lines.push(format!("new {local} {timeout} {max} {} {}", self.table_filter, self.bucket_filter));
        self.bad_call("new");
    }

    fn new_alone(&mut self) {
        self.lines.push(format!("b_new {} {} {}", self.timeout, self.max_incoming, self.bucket_filter));
        self.bad_call("b_new");
    }

    /// Sometimes a call with a bad argument.
    fn bad_call(&mut self, name: &str) {
        let bad = std::mem::replace(&mut self.bad, 100);
        if self.random.percent(20) {
            self.call(name);
        }
        self.bad = bad;
    }

    /// Inserts most of each pool's keys.
    fn fill(&mut self) {
        for pool in self.pools.clone() {
            let count = self.random.pick(&[3, 10, 16, 17, 18]);
            for key in pool.iter().take(count) {
                let name = self.random.pick(&["insert_or_update", "absent_insert"]);
                let (key, value) = (text(key), self.value());
                let (state, direction) = (self.state(), self.direction());
                let now = self.time();
                self.lines.push(format!("{name} {now} {key} {value} {state} {direction}"));
            }
        }
    }

    fn calls(&mut self, weights: &[(&'static str, u64)], count: u64) {
        for _ in 0..count {
            let name = self.random.weighted(weights);
            self.call(name);
        }
    }

    fn call(&mut self, name: &str) {
        self.faults.clear();
        if self.random.percent(self.bad) {
            for question in [1, 3, 4, 5, 6] {
                if self.random.percent(30) {
                    self.faults.push(question);
                }
            }
        }
        let short = if self.faults.contains(&1) { "! " } else { "" };
        let arguments = self.arguments(name);
        self.lines.push(format!("{short}{name}{arguments}"));
        self.faults.clear();
    }

    /// The words of a call, each with a space before it.
    fn arguments(&mut self, name: &str) -> String {
        match name {
            "new" => {
                let (local, max, filters) = (self.key_of(self.local), self.maximum(), (self.filter(), self.filter()));
                format!(" {local} {} {max} {} {}", self.timeout, filters.0, filters.1)
            }
            "update_node_status" => {
                format!(" {} {} {} {}", self.time(), self.key(), self.state(), self.optional_direction())
            }
            "update_node" => {
                format!(" {} {} {} {}", self.time(), self.key(), self.value(), self.optional_state())
            }
            "insert_or_update" | "absent_insert" | "b_insert" => {
                let key = self.pick_key();
                self.recent.push(key);
                if self.recent.len() > 4 {
                    self.recent.remove(0);
                }
                let key = self.key_of(key);
                format!(" {} {key} {} {} {}", self.time(), self.value(), self.state(), self.direction())
            }
            "remove" | "entry" | "b_remove" => format!(" {} {}", self.time(), self.key()),
            "present_update" | "b_update_status" => {
                format!(" {} {} {}", self.key(), self.state(), self.optional_direction())
            }
            "pending_update" => format!(" {} {} {}", self.key(), self.state(), self.direction()),
            "iter" => format!(" {}{}", self.time(), self.count(0)),
            "nodes_by_distances" => format!(" {} {}{}", self.time(), self.distances(), self.count(1)),
            "closest_keys" | "closest_values" => format!(" {} {}{}", self.time(), self.target(), self.count(0)),
            "closest_values_predicate" => {
                format!(" {} {} {}{}", self.time(), self.target(), self.predicate(), self.count(0))
            }
            "take_applied_pending" => String::new(),
            "b_new" => {
                let (timeout, max, filter) = (self.timeout, self.maximum(), self.filter());
                format!(" {timeout} {max} {filter}")
            }
            "b_apply_pending" => format!(" {}", self.time()),
            "b_update_value" => format!(" {} {}", self.key(), self.value()),
            "b_update_pending" => format!(" {} {}", self.state(), self.direction()),
            _ => unreachable!("{name}"),
        }
    }

    fn is_bad(&mut self, question: u8) -> bool {
        self.faults.contains(&question) && self.random.percent(60)
    }

    /// A time that question 5 accepts, or one that it refuses: mostly forward, often at a deadline or right before it, sometimes back.
    fn time(&mut self) -> u64 {
        let last = u64::MAX - self.timeout;
        if self.is_bad(5) {
            return match self.random.below(3) {
                0 => last,
                1 => last.saturating_add(1),
                _ => u64::MAX,
            };
        }
        self.now = match self.random.below(24) {
            0..=9 => self.now,
            10..=13 => self.now.saturating_add(1 + self.random.below(5)),
            14..=18 => {
                let deadline = self.random.pick(&self.times).saturating_add(self.timeout);
                deadline.saturating_add(self.random.below(3)).saturating_sub(1)
            }
            19 => self.now.saturating_add(self.timeout),
            20 => self.now.saturating_add(self.random.below(self.timeout.saturating_mul(2).saturating_add(10))),
            21 => self.now.saturating_sub(1 + self.random.below(10)),
            22 => self.now / 2,
            _ => self.random.pick(&self.times),
        }
        .min(last);
        if self.random.percent(30) {
            self.times.push(self.now);
            if self.times.len() > 6 {
                self.times.remove(0);
            }
        }
        self.now
    }

    fn pool_key(&mut self) -> Key {
        let pool = self.random.below(self.pools.len() as u64) as usize;
        self.random.pick(&self.pools[pool])
    }

    fn pick_key(&mut self) -> Key {
        if self.theme == Theme::Endings && !self.recent.is_empty() && self.random.percent(60) {
            return self.random.pick(&self.recent);
        }
        match self.random.below(40) {
            0 => self.local,
            1 => random_key(self.random),
            2..=11 if !self.recent.is_empty() => self.random.pick(&self.recent),
            _ => self.pool_key(),
        }
    }

    fn key(&mut self) -> String {
        let key = self.pick_key();
        self.key_of(key)
    }

    /// The text of a key, or of one that is too short or too long.
    fn key_of(&mut self, key: Key) -> String {
        if !self.is_bad(3) {
            return text(&key);
        }
        let whole = hex(&key);
        match self.random.below(3) {
            0 => whole[..62].to_string(),
            1 => format!("{whole}00"),
            _ => "00".to_string(),
        }
    }

    fn value(&mut self) -> String {
        if self.is_bad(4) {
            return self.random.pick(&["2:10.0.0.1:0", "255:0.0.0.0:0", "0:1.0.0.0:0", "0:0.0.0.1:7"]).to_string();
        }
        if self.theme == Theme::Edge
            && self.random.percent(30)
            && let Some(value) = &self.pending_value
        {
            return value.clone();
        }
        let slot = self.slot();
        if self.random.percent(self.plain) {
            return format!("0:0.0.0.0:{slot}");
        }
        let [a, b, c] = self.random.pick(&self.nets);
        let host = match self.random.below(20) {
            0 => 255,
            1 => 0,
            _ => 1 + self.random.below(self.hosts),
        };
        format!("1:{a}.{b}.{c}.{host}:{slot}")
    }

    fn slot(&mut self) -> Slot {
        let slot = self.random.pick(&self.slots);
        match self.random.below(40) {
            0 => self.random.pick(&EDGES),
            1 => twin(self.random, slot),
            _ => slot,
        }
    }

    fn code(&mut self, percent: u64, first_bad: u64) -> u64 {
        if self.is_bad(4) {
            return self.random.pick(&[first_bad, first_bad + 1, 255]);
        }
        self.random.percent(percent).into()
    }

    fn state(&mut self) -> u64 {
        self.code(self.connected, 2)
    }

    fn direction(&mut self) -> u64 {
        self.code(self.incoming, 2)
    }

    fn optional_state(&mut self) -> u64 {
        if self.random.percent(40) { 2 } else { self.code(self.connected, 3) }
    }

    fn optional_direction(&mut self) -> u64 {
        if self.random.percent(40) { 2 } else { self.code(self.incoming, 3) }
    }

    fn filter(&mut self) -> u64 {
        self.code(50, 2)
    }

    fn maximum(&mut self) -> u8 {
        if self.is_bad(4) { self.random.pick(&[17, 255]) } else { self.max_incoming }
    }

    /// The count of a listing and what its output has room for; `least` entries are written at 0.
    fn count(&mut self, least: u64) -> String {
        if self.is_bad(6) && self.random.percent(40) {
            let n = self.random.pick(&[4097, 5000, u64::MAX]);
            return if self.random.percent(50) { format!(" {n}") } else { format!(" {n} out={n}") };
        }
        let n = match self.random.below(12) {
            0 => self.random.pick(&[0, 0, 1, 4095, 4096]),
            1..=3 => self.random.pick(&[1, 2, 15, 16, 17, 31, 32, 33]),
            4 => 4096,
            5 => 64,
            _ => self.random.below(24),
        };
        let most = n.max(least);
        if self.is_bad(6) && most > 0 {
            return format!(" {n} out={}", if self.random.percent(80) { most - 1 } else { 0 });
        }
        match self.random.below(4) {
            0 => format!(" {n} out={most}"),
            1 => format!(" {n} out={}", most + 1 + self.random.below(5)),
            _ => format!(" {n}"),
        }
    }

    fn distances(&mut self) -> String {
        let count = self.random.pick(&[0, 1, 2, 3, 4, 6, 10]);
        let distances: Vec<String> = (0..count)
            .map(|_| match self.random.below(12) {
                0 => self.random.pick(&[0, 257, 1 << 32, u64::MAX]),
                1 => 1 + self.random.below(256),
                2 => self.random.pick(&[1, 2, 255, 256]),
                _ => self.random.pick(&self.indices) as u64 + 1,
            })
            .map(|distance| distance.to_string())
            .collect();
        if distances.is_empty() { "-".to_string() } else { distances.join(",") }
    }

    fn target(&mut self) -> String {
        let key = match self.random.below(8) {
            0 => self.local,
            1 => random_key(self.random),
            2 => {
                let mut key = self.local;
                let bit = self.random.below(256) as usize;
                key[31 - bit / 8] ^= 1 << (bit % 8);
                key
            }
            3 => {
                let mut key = self.pool_key();
                key[31] ^= 1 << self.random.below(8);
                key
            }
            _ => self.pool_key(),
        };
        self.key_of(key)
    }

    fn predicate(&mut self) -> String {
        if self.is_bad(4) {
            return self.random.pick(&["4", "255"]).to_string();
        }
        match self.random.below(4) {
            0 => "0".to_string(),
            1 => "1".to_string(),
            2 => {
                let [a, b, c] = self.random.pick(&self.nets);
                format!("2:{a}.{b}.{c}")
            }
            _ => format!("3:{}", self.slot()),
        }
    }

    /// Buckets and records written as bytes, well-formed.
    fn raw_table(&mut self) {
        self.raw_records();
        for pool in 0..self.pools.len() {
            self.raw_bucket(&self.indices[pool].to_string(), pool);
        }
    }

    fn raw_records(&mut self) {
        let records = match self.theme {
            Theme::FullQueue => self.random.pick(&[62, 63, 64, 64]),
            Theme::Many => self.random.pick(&[0, 10, 64]),
            Theme::Endings => self.random.pick(&[0, 0, 0, 0, 1, 62, 63, 64]),
            _ => self.random.pick(&[0, 0, 0, 1, 3]),
        };
        for _ in 0..records {
            let (key, evicted) = (self.pool_key(), self.pool_key());
            let ending = match self.random.below(10) {
                0..5 => self.raw_node_text(&evicted),
                5..7 => "-".to_string(),
                _ => self.random.pick(&UNPLACED).to_string(),
            };
            self.lines.push(format!("raw_record {} {ending}", text(&key)));
        }
    }

    /// One bucket written as bytes, well-formed: disconnected nodes, connected ones with few incoming, and perhaps a pending.
    fn raw_bucket(&mut self, which: &str, pool: usize) {
        let mut keys = self.pools[pool].clone();
        self.random.shuffle(&mut keys);
        let count = match self.theme {
            Theme::Many => self.random.pick(&[0, 1, 2]),
            Theme::Big => 16,
            _ => self.random.pick(&[0, 1, 5, 14, 15, 16, 16, 16, 16, 16]),
        }
        .min(keys.len());
        let disconnected = match self.random.below(4) {
            0 => count,
            1 => count.min(1),
            2 => 0,
            _ => self.random.below(count as u64 + 1) as usize,
        };
        let mut incoming = 0;
        for (j, key) in keys.iter().take(count).enumerate() {
            let mut direction = self.direction();
            let connected = j >= disconnected;
            if connected && direction == 1 {
                if incoming == self.max_incoming {
                    direction = 0;
                } else {
                    incoming += 1;
                }
            }
            let (key, value) = (text(key), self.value());
            self.lines.push(format!("raw_node {which} {key} {value} {} {direction}", u8::from(connected)));
        }
        let place = if disconnected == count { "-".to_string() } else { disconnected.to_string() };
        self.lines.push(format!("raw_fcp {which} {place}"));
        let odds = match self.theme {
            Theme::Many | Theme::FullQueue | Theme::Edge | Theme::Endings => 95,
            _ => 60,
        };
        if keys.len() > count && self.random.percent(odds) {
            self.pending_value = None;
            let (key, value) = (text(&keys[count]), self.value());
            let node = format!("{key} {value} {} {}", self.state(), self.direction());
            self.pending_value = Some(value);
            self.recent.push(keys[count]);
            if self.theme == Theme::Endings {
                self.recent.push(keys[0]);
            }
            let deadline = match self.random.below(8) {
                0 => 0,
                1 => self.now.saturating_add(1 + self.random.below(20)),
                2 => self.now.saturating_sub(1),
                3 => u64::MAX,
                _ => self.now,
            };
            self.lines.push(format!("raw_pending {which} {node} {deadline}"));
        }
    }

    fn raw_node_text(&mut self, key: &Key) -> String {
        format!("{} {} {} {}", text(key), self.value(), self.state(), self.direction())
    }

    /// Changes one byte of the storage, mostly one that matters; `header`: one of settings and queue.
    fn raw_byte(&mut self, header: bool) {
        let offset = match self.random.below(8) {
            0 if header => self.random.below(layout::bucket_at(0) as u64) as usize,
            _ if header => self.random.pick(&layout::HEADER_OFFSETS),
            0 => self.random.below(layout::STORAGE as u64) as usize,
            1..=3 => layout::bucket_at(self.random.below(256) as usize) + self.random.pick(&layout::BUCKET_OFFSETS),
            _ => layout::bucket_at(self.random.pick(&self.indices)) + self.random.pick(&layout::BUCKET_OFFSETS),
        };
        let byte = match self.random.below(3) {
            0 => self.random.pick(&[0, 1, 2, 6, 7, 16, 17, 64, 65, 255]),
            1 => self.random.below(4),
            _ => self.random.below(256),
        };
        self.lines.push(format!("raw_byte {offset} {byte}"));
    }
}

fn random_key(random: &mut Random) -> Key {
    let mut key = [0; 32];
    for eight in key.chunks_mut(8) {
        eight.copy_from_slice(&random.word().to_be_bytes());
    }
    key
}

/// A key whose distance to the local key has the highest bit i; with `near`, only the lowest bits else.
fn key_in_bucket(random: &mut Random, local: &Key, i: usize, near: bool) -> Key {
    let mut distance = if near { [0; 32] } else { random_key(random) };
    distance[31] ^= random.below(64) as u8;
    let top = 31 - i / 8;
    distance[..top].fill(0);
    distance[top] = distance[top] & ((1u16 << (i % 8)) - 1) as u8 | 1 << (i % 8);
    std::array::from_fn(|j| local[j] ^ distance[j])
}

fn hex(key: &Key) -> String {
    key.iter().map(|byte| format!("{byte:02x}")).collect()
}

/// The text of a key, short where it begins with zeros.
fn text(key: &Key) -> String {
    let whole = hex(key);
    match whole.trim_start_matches('0') {
        digits if digits.len() < 32 => format!(":{:0>1}", digits),
        _ => whole,
    }
}
