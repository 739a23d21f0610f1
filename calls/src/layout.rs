//! The bytes of a table and of a bucket by itself: offsets, reading and writing, and question 2. All numbers are big-endian.

use crate::text::{EndingCodes, NodeCodes, RecordCodes, Slot, Unplaced, ValueCodes, Write};

pub const PLACES: usize = 16;
pub const BUCKETS: usize = 256;
pub const RECORDS: usize = 64;

pub const KEY: usize = 32;
const TIME: usize = 8;
/// Address flag, four octets, slot.
const OCTETS_AT: usize = 1;
const SLOT_AT: usize = OCTETS_AT + 4;
pub const VALUE: usize = SLOT_AT + size_of::<Slot>();
/// Key, state, direction, value.
pub const NODE: usize = KEY + 2 + VALUE;
/// Key, ending, evicted node.
pub const RECORD: usize = KEY + 1 + NODE;
/// The endings of a pending that was placed: without an eviction, with one.
const PLACED: u8 = 0;
const EVICTING: u8 = 1;

/// Count, first connected place, the places; then pending flag, pending node, deadline.
const PENDING_AT: usize = 2 + PLACES * NODE;
pub const BUCKET: usize = PENDING_AT + 1 + NODE + TIME;

/// Local key, pending timeout, max_incoming, table filter, bucket filter, record count, padding, records, buckets.
const TIMEOUT_AT: usize = KEY;
const MAX_INCOMING_AT: usize = TIMEOUT_AT + TIME;
const TABLE_FILTER_AT: usize = MAX_INCOMING_AT + 1;
const BUCKET_FILTER_AT: usize = TABLE_FILTER_AT + 1;
const RECORD_COUNT_AT: usize = BUCKET_FILTER_AT + 1;
pub const PADDING_AT: usize = RECORD_COUNT_AT + 1;
/// Unused, so that the records begin at a multiple of 16.
const PADDING: usize = 4;
pub const RECORDS_AT: usize = PADDING_AT + PADDING;
const BUCKETS_AT: usize = RECORDS_AT + RECORDS * RECORD;
pub const STORAGE: usize = BUCKETS_AT + BUCKETS * BUCKET;

/// A bucket by itself: a bucket's bytes, then pending timeout, max_incoming, filter.
const ALONE_MAX_INCOMING_AT: usize = BUCKET + TIME;
const ALONE_FILTER_AT: usize = ALONE_MAX_INCOMING_AT + 1;
pub const ALONE: usize = ALONE_FILTER_AT + 1;

/// Offsets from a bucket's start at which a changed byte is likely to matter, and the start of bucket i.
pub const BUCKET_OFFSETS: [usize; 11] = [
    0,
    1,
    2,
    2 + KEY - 1,
    2 + KEY,
    2 + KEY + 1,
    2 + KEY + 2,
    2 + KEY + 3,
    2 + 15 * NODE,
    PENDING_AT,
    PENDING_AT + 1 + KEY,
];
pub const HEADER_OFFSETS: [usize; 9] = [
    KEY - 1,
    MAX_INCOMING_AT,
    TABLE_FILTER_AT,
    BUCKET_FILTER_AT,
    RECORD_COUNT_AT,
    PADDING_AT,
    RECORDS_AT - 1,
    RECORDS_AT + KEY,
    RECORDS_AT + KEY + 1 + KEY,
];
pub fn bucket_at(i: usize) -> usize {
    BUCKETS_AT + i * BUCKET
}

/// The settings, as codes.
#[derive(Clone, Copy, Debug, Default)]
pub struct Settings {
    pub timeout: u64,
    pub max_incoming: u8,
    pub table_filter: u8,
    pub bucket_filter: u8,
}

fn time_in(bytes: &[u8]) -> u64 {
    u64::from_be_bytes(bytes[..TIME].try_into().unwrap())
}

/// The key, value, node or record that the first bytes hold.
pub fn key_in(bytes: &[u8]) -> [u8; 32] {
    bytes[..KEY].try_into().unwrap()
}

pub fn value_in(bytes: &[u8]) -> ValueCodes {
    ValueCodes {
        flag: bytes[0],
        octets: bytes[OCTETS_AT..SLOT_AT].try_into().unwrap(),
        slot: Slot::from_be_bytes(bytes[SLOT_AT..VALUE].try_into().unwrap()),
    }
}

pub fn node_in(bytes: &[u8]) -> NodeCodes {
    NodeCodes { key: key_in(bytes), state: bytes[KEY], direction: bytes[KEY + 1], value: value_in(&bytes[KEY + 2..]) }
}

pub fn record_in(bytes: &[u8]) -> RecordCodes {
    let ending = match bytes[KEY] {
        PLACED => EndingCodes::Placed(None),
        EVICTING => EndingCodes::Placed(Some(node_in(&bytes[KEY + 1..]))),
        code => EndingCodes::Unplaced(code),
    };
    RecordCodes { key: key_in(bytes), ending }
}

fn write_node(node: &NodeCodes, bytes: &mut [u8]) {
    bytes[..KEY].copy_from_slice(&node.key);
    bytes[KEY] = node.state;
    bytes[KEY + 1] = node.direction;
    bytes[KEY + 2..NODE].copy_from_slice(&value_bytes(&node.value));
}

pub fn value_bytes(value: &ValueCodes) -> [u8; VALUE] {
    let mut bytes = [0; VALUE];
    bytes[0] = value.flag;
    bytes[OCTETS_AT..SLOT_AT].copy_from_slice(&value.octets);
    bytes[SLOT_AT..].copy_from_slice(&value.slot.to_be_bytes());
    bytes
}

/// The bytes of a record; those of the node are zero where none is evicted.
pub fn record_bytes(record: &RecordCodes) -> [u8; RECORD] {
    let mut bytes = [0; RECORD];
    bytes[..KEY].copy_from_slice(&record.key);
    match &record.ending {
        EndingCodes::Placed(None) => bytes[KEY] = PLACED,
        EndingCodes::Placed(Some(node)) => {
            bytes[KEY] = EVICTING;
            write_node(node, &mut bytes[KEY + 1..]);
        }
        EndingCodes::Unplaced(code) => bytes[KEY] = *code,
    }
    bytes
}

/// The bytes of a bucket, to read.
#[derive(Clone, Copy)]
pub struct BucketBytes<'a>(&'a [u8]);

impl<'a> BucketBytes<'a> {
    pub fn count(self) -> usize {
        self.0[0].into()
    }

    /// The first connected place; none where the byte equals the count.
    pub fn first_connected(self) -> Option<u8> {
        (self.0[1] != self.0[0]).then_some(self.0[1])
    }

    /// The held nodes, at most 16.
    pub fn nodes(self) -> impl Iterator<Item = NodeCodes> + use<'a> {
        self.0[2..PENDING_AT].chunks_exact(NODE).take(self.count()).map(node_in)
    }

    /// The pending and its deadline, where the flag is 1.
    pub fn pending(self) -> Option<(NodeCodes, u64)> {
        let bytes = &self.0[PENDING_AT..];
        (bytes[0] == 1).then(|| (node_in(&bytes[1..]), time_in(&bytes[1 + NODE..])))
    }

    /// Question 2 of one bucket.
    fn formed(self, of_index: impl Fn(&[u8; 32]) -> bool, max_incoming: u8) -> bool {
        let count = self.count();
        if count > PLACES {
            return false;
        }
        let nodes: Vec<NodeCodes> = self.nodes().collect();
        let different = (0..count).all(|j| nodes[..j].iter().all(|n| n.key != nodes[j].key));
        let indexed = nodes.iter().all(|n| of_index(&n.key));
        let coded = nodes.iter().all(codes_in_range);
        let disconnected = nodes.iter().take_while(|n| n.state == 0).count();
        let ordered = nodes[disconnected..].iter().all(|n| n.state == 1);
        let exact = usize::from(self.0[1]) == disconnected;
        let incoming = nodes.iter().filter(|n| n.state == 1 && n.direction == 1).count();
        let pending = &self.0[PENDING_AT..];
        let pending_formed = match pending[0] {
            0 => all_zero(pending),
            1 => {
                let node = node_in(&pending[1..]);
                of_index(&node.key) && nodes.iter().all(|n| n.key != node.key) && codes_in_range(&node)
            }
            _ => false,
        };
        let unused = all_zero(&self.0[2 + count * NODE..PENDING_AT]);
        different && indexed && coded && ordered && exact && incoming <= max_incoming.into() && pending_formed && unused
    }
}

/// Question 4's codes, of a stored node.
fn codes_in_range(node: &NodeCodes) -> bool {
    node.state <= 1 && node.direction <= 1 && value_in_range(&node.value)
}

/// Question 4: address flag 0 or 1, octets zero at 0.
pub fn value_in_range(value: &ValueCodes) -> bool {
    value.flag == 1 || value.flag == 0 && value.octets == [0; 4]
}

fn all_zero(bytes: &[u8]) -> bool {
    bytes.iter().all(|b| *b == 0)
}

/// The bucket index of a key: 255 less the leading zero bits of its distance to the local key; none at distance 0.
pub fn index(local: &[u8; 32], key: &[u8; 32]) -> Option<usize> {
    let byte = (0..KEY).find(|i| local[*i] != key[*i])?;
    Some(8 * (KEY - 1 - byte) + (local[byte] ^ key[byte]).ilog2() as usize)
}

/// The storage of a table.
#[derive(Clone)]
pub struct TableBytes(pub Vec<u8>);

impl TableBytes {
    pub fn new(local: &[u8; 32], settings: &Settings) -> TableBytes {
        let mut bytes = vec![0; STORAGE];
        bytes[..KEY].copy_from_slice(local);
        bytes[TIMEOUT_AT..MAX_INCOMING_AT].copy_from_slice(&settings.timeout.to_be_bytes());
        bytes[MAX_INCOMING_AT] = settings.max_incoming;
        bytes[TABLE_FILTER_AT] = settings.table_filter;
        bytes[BUCKET_FILTER_AT] = settings.bucket_filter;
        TableBytes(bytes)
    }

    pub fn local(&self) -> [u8; 32] {
        key_in(&self.0)
    }

    pub fn settings(&self) -> Settings {
        Settings {
            timeout: time_in(&self.0[TIMEOUT_AT..]),
            max_incoming: self.0[MAX_INCOMING_AT],
            table_filter: self.0[TABLE_FILTER_AT],
            bucket_filter: self.0[BUCKET_FILTER_AT],
        }
    }

    pub fn bucket(&self, i: usize) -> BucketBytes<'_> {
        BucketBytes(&self.0[bucket_at(i)..][..BUCKET])
    }

    pub fn bucket_mut(&mut self, i: usize) -> BucketBytesMut<'_> {
        BucketBytesMut(&mut self.0[bucket_at(i)..][..BUCKET])
    }

    fn record_parts(&self) -> impl Iterator<Item = &[u8]> {
        self.0[RECORDS_AT..BUCKETS_AT].chunks_exact(RECORD).take(self.0[RECORD_COUNT_AT].into())
    }

    /// The records of the queue, at most 64.
    pub fn records(&self) -> impl Iterator<Item = RecordCodes> {
        self.record_parts().map(record_in)
    }

    pub fn push_record(&mut self, record: &RecordCodes) -> Result<(), String> {
        let count = usize::from(self.0[RECORD_COUNT_AT]);
        if count >= RECORDS {
            return Err("the queue already has 64 records".to_string());
        }
        self.0[RECORDS_AT + count * RECORD..][..RECORD].copy_from_slice(&record_bytes(record));
        self.0[RECORD_COUNT_AT] += 1;
        Ok(())
    }

    pub fn set_byte(&mut self, offset: u64, byte: u8) -> Result<(), String> {
        let place = usize::try_from(offset).ok().and_then(|offset| self.0.get_mut(offset));
        *place.ok_or_else(|| format!("offset {offset} is past the {STORAGE} bytes of the storage"))? = byte;
        Ok(())
    }

    /// Question 2, of the settings and the queue.
    pub fn header_formed(&self) -> bool {
        let settings = self.settings();
        let count = usize::from(self.0[RECORD_COUNT_AT]);
        usize::from(settings.max_incoming) <= PLACES
            && settings.table_filter <= 1
            && settings.bucket_filter <= 1
            && all_zero(&self.0[PADDING_AT..RECORDS_AT])
            && count <= RECORDS
            && self.record_parts().all(|bytes| match record_in(bytes).ending {
                EndingCodes::Placed(Some(node)) => codes_in_range(&node),
                EndingCodes::Placed(None) => all_zero(&bytes[KEY + 1..]),
                EndingCodes::Unplaced(code) => Unplaced::of_code(code).is_some() && all_zero(&bytes[KEY + 1..]),
            })
            && all_zero(&self.0[RECORDS_AT + count * RECORD..BUCKETS_AT])
    }

    /// Question 2, of one bucket.
    pub fn bucket_formed(&self, i: usize) -> bool {
        let local = self.local();
        self.bucket(i).formed(|key| index(&local, key) == Some(i), self.settings().max_incoming)
    }

    /// Question 2, of all of it.
    pub fn formed(&self) -> bool {
        self.header_formed() && (0..BUCKETS).all(|i| self.bucket_formed(i))
    }

    /// The line of `dump`.
    pub fn dump(&self, out: &mut Vec<u8>) {
        dump_settings(&self.local(), &self.settings(), out);
        for i in 0..BUCKETS {
            let bucket = self.bucket(i);
            if bucket.count() > 0 || bucket.pending().is_some() {
                out.text(" b");
                out.number(i as u64);
                out.bucket(bucket.first_connected(), bucket.nodes(), bucket.pending());
            }
        }
        out.queue(self.records());
        out.text("\n");
    }
}

/// The head of `dump`.
pub fn dump_settings(local: &[u8; 32], settings: &Settings, out: &mut Vec<u8>) {
    out.text("dump local=");
    out.key(local);
    out.text(" timeout=");
    out.number(settings.timeout);
    out.text(" max=");
    out.number(settings.max_incoming.into());
    out.text(" tf=");
    out.number(settings.table_filter.into());
    out.text(" bf=");
    out.number(settings.bucket_filter.into());
}

/// The head of `bdump`.
pub fn dump_alone_settings(settings: &Settings, out: &mut Vec<u8>) {
    out.text("bdump timeout=");
    out.number(settings.timeout);
    out.text(" max=");
    out.number(settings.max_incoming.into());
    out.text(" bf=");
    out.number(settings.bucket_filter.into());
    out.text(" ");
}

/// The bytes of a bucket by itself.
#[derive(Clone)]
pub struct AloneBytes(pub Vec<u8>);

impl AloneBytes {
    pub fn new(settings: &Settings) -> AloneBytes {
        let mut bytes = vec![0; ALONE];
        bytes[BUCKET..ALONE_MAX_INCOMING_AT].copy_from_slice(&settings.timeout.to_be_bytes());
        bytes[ALONE_MAX_INCOMING_AT] = settings.max_incoming;
        bytes[ALONE_FILTER_AT] = settings.bucket_filter;
        AloneBytes(bytes)
    }

    pub fn settings(&self) -> Settings {
        Settings {
            timeout: time_in(&self.0[BUCKET..]),
            max_incoming: self.0[ALONE_MAX_INCOMING_AT],
            table_filter: 0,
            bucket_filter: self.0[ALONE_FILTER_AT],
        }
    }

    pub fn bucket(&self) -> BucketBytes<'_> {
        BucketBytes(&self.0[..BUCKET])
    }

    pub fn bucket_mut(&mut self) -> BucketBytesMut<'_> {
        BucketBytesMut(&mut self.0[..BUCKET])
    }

    /// Question 2, all but the index.
    pub fn formed(&self) -> bool {
        let settings = self.settings();
        usize::from(settings.max_incoming) <= PLACES
            && settings.bucket_filter <= 1
            && self.bucket().formed(|_| true, settings.max_incoming)
    }

    /// The line of `bdump`.
    pub fn dump(&self, out: &mut Vec<u8>) {
        dump_alone_settings(&self.settings(), out);
        let bucket = self.bucket();
        out.bucket(bucket.first_connected(), bucket.nodes(), bucket.pending());
        out.text("\n");
    }
}

/// The bytes of a bucket, to write.
pub struct BucketBytesMut<'a>(&'a mut [u8]);

impl BucketBytesMut<'_> {
    /// Writes a node after the last and counts it; the first connected place stays.
    pub fn push_node(&mut self, node: &NodeCodes) -> Result<(), String> {
        let count = usize::from(self.0[0]);
        if count >= PLACES {
            return Err("the bucket already has 16 nodes".to_string());
        }
        write_node(node, &mut self.0[2 + count * NODE..]);
        self.0[0] += 1;
        Ok(())
    }

    /// Writes the first connected place; none is the count.
    pub fn set_first_connected(&mut self, place: Option<u8>) {
        self.0[1] = place.unwrap_or(self.0[0]);
    }

    pub fn set_pending(&mut self, node: &NodeCodes, deadline: u64) {
        let bytes = &mut self.0[PENDING_AT..];
        bytes[0] = 1;
        write_node(node, &mut bytes[1..]);
        bytes[1 + NODE..].copy_from_slice(&deadline.to_be_bytes());
    }
}
