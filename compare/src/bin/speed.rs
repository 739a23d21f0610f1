//! Nanoseconds per call of the proved library and of the routing table of sigp/discv5: both in one run, in turn, with the same keys,
//! values and calls, and with their answers and outputs held against each other.

use std::process::ExitCode;

#[cfg(not(all(reference_source, proved_library)))]
fn main() -> ExitCode {
    if cfg!(not(reference_source)) {
        eprintln!(
            "speed: built without the source of sigp/discv5; set DISCV5_SRC to the folder of kbucket.rs and build again"
        );
    }
    if cfg!(not(proved_library)) {
        eprintln!(
            "speed: built without libkbuckets.a; run 'tools/library' in the repository, or set KBUCKETS_LIB to its folder, and build again"
        );
    }
    ExitCode::from(2)
}

#[cfg(all(reference_source, proved_library))]
fn main() -> ExitCode {
    measure::main()
}

#[cfg(all(reference_source, proved_library))]
mod measure {
    use compare::driver::{Table, key_of, new_table};
    use compare::kbucket::{
        AppliedPending, ConnectionDirection, ConnectionState, FailureReason, InsertResult, Key, NodeStatus,
        UpdateResult, access,
    };
    use compare::layout::{
        BUCKETS, KEY, NODE, PLACES, RECORD, RECORDS, STORAGE, Settings, TableBytes, VALUE, value_bytes,
    };
    use compare::stand_ins::enr::NodeId;
    use compare::stand_ins::{Value, clock};
    use compare::text::{EndingCodes, RecordCodes, Slot, ValueCodes};
    use std::alloc::{GlobalAlloc, Layout, System};
    use std::hint::black_box;
    use std::process::ExitCode;
    use std::sync::atomic::{AtomicUsize, Ordering::Relaxed};
    use std::time::Instant;

    const HELP: &str = "speed [ROUNDS]

Prints nanoseconds per call of the proved library and of sigp/discv5: whole calls, with all their questions, in passes of 64 (32 inserts or
removes; 16 on the nodes of one bucket; 4 of iter), the least time of ROUNDS (60) rounds. At the end the figures wanted, each beside what was reached: the most
that the call takes of the reference's time on any of the tables with an empty queue.

On the tables of 1,008 nodes and an empty queue also the explanations of these calls, and how many times the call's own time they take. Their
lines name no key.";

    const ROUNDS: usize = 60;
    /// Calls in a timed pass: on one key, of `iter`.
    const CALLS: usize = 64;
    const ITER_CALLS: usize = 4;
    /// Calls in a timed pass of inserts and of removes, each in another bucket; where one bucket alone holds nodes, all of these.
    const CHANGES: usize = 32;
    /// Keys asked of `closest_keys`, nodes of `iter`.
    const CLOSEST: usize = 16;
    const ALL: usize = 4096;
    const ANSWER: usize = RECORD;
    const EXPLANATION: usize = 2048;
    /// The nodes of the tables on which explanations are timed.
    const EXPLAINED_NODES: usize = 1008;
    /// What is wanted of the library's time divided by the reference's: the calls, the filters, how many nodes (any number where it is not given),
    /// the most.
    const WANTED: [(&[Call], u8, Option<usize>, f64); 11] = [
        (&[Call::UpdateNodeStatus], 0, None, 2.5),
        (&[Call::SameValue, Call::OtherValue], 0, None, 1.9),
        (&[Call::Insert, Call::Full], 0, None, 2.9),
        (&[Call::Remove], 0, None, 3.4),
        (&[Call::ClosestKeys], 0, Some(0), 0.8),
        (&[Call::ClosestKeys], 0, Some(1008), 0.33),
        (&[Call::Iter], 0, Some(0), 5.2),
        (&[Call::Iter], 0, Some(1008), 1.9),
        (&[Call::Iter], 0, Some(4047), 1.2),
        (&[Call::OtherValue, Call::Insert, Call::Full], 1, Some(1008), 2.3),
        (&[Call::OtherValue, Call::Insert, Call::Full], 1, Some(4047), 1.8),
    ];
    const NOW: u64 = 1;
    const TIMEOUT: u64 = 60_000;

    // As include/kbuckets.h declares them.
    unsafe extern "C" {
        fn kbuckets_new(
            storage: *mut u8,
            storage_len: usize,
            local_key: *const u8,
            local_key_len: usize,
            pending_timeout: u64,
            max_incoming: u8,
            table_filter: u8,
            bucket_filter: u8,
        ) -> u32;
        fn kbuckets_update_node_status(
            storage: *mut u8,
            storage_len: usize,
            key: *const u8,
            key_len: usize,
            state: u8,
            direction: u8,
            now: u64,
        ) -> u32;
        fn kbuckets_insert_or_update(
            storage: *mut u8,
            storage_len: usize,
            key: *const u8,
            key_len: usize,
            flag: u8,
            a: u8,
            b: u8,
            c: u8,
            d: u8,
            slot: Slot,
            state: u8,
            direction: u8,
            now: u64,
            windows: *const u16,
            windows_len: usize,
            closed: *const u16,
            closed_len: usize,
            year: u16,
            month: u16,
            day: u16,
            minute: u16,
            answer: *mut u8,
            answer_len: usize,
        ) -> u32;
        fn kbuckets_remove(storage: *mut u8, storage_len: usize, key: *const u8, key_len: usize, now: u64) -> u32;
        fn kbuckets_iter(
            storage: *mut u8,
            storage_len: usize,
            n: usize,
            now: u64,
            output: *mut u8,
            output_len: usize,
        ) -> u32;
        fn kbuckets_closest_keys(
            storage: *mut u8,
            storage_len: usize,
            target: *const u8,
            target_len: usize,
            n: usize,
            now: u64,
            output: *mut u8,
            output_len: usize,
        ) -> u32;
        fn kbuckets_take_applied_pending(
            storage: *mut u8,
            storage_len: usize,
            answer: *mut u8,
            answer_len: usize,
        ) -> u32;
        fn kbuckets_explain_update_node_status(
            storage: *const u8,
            storage_len: usize,
            key: *const u8,
            key_len: usize,
            state: u8,
            direction: u8,
            now: u64,
            output: *mut u8,
            output_len: usize,
        ) -> u32;
        fn kbuckets_explain_insert_or_update(
            storage: *const u8,
            storage_len: usize,
            key: *const u8,
            key_len: usize,
            flag: u8,
            a: u8,
            b: u8,
            c: u8,
            d: u8,
            slot: Slot,
            state: u8,
            direction: u8,
            now: u64,
            windows: *const u16,
            windows_len: usize,
            closed: *const u16,
            closed_len: usize,
            year: u16,
            month: u16,
            day: u16,
            minute: u16,
            output: *mut u8,
            output_len: usize,
        ) -> u32;
        fn kbuckets_explain_remove(
            storage: *const u8,
            storage_len: usize,
            key: *const u8,
            key_len: usize,
            now: u64,
            output: *mut u8,
            output_len: usize,
        ) -> u32;
    }

    /// Counts the bytes that are allocated.
    struct Counting;

    static ALLOCATED: AtomicUsize = AtomicUsize::new(0);

    // SAFETY: the system's allocator does the work.
    unsafe impl GlobalAlloc for Counting {
        unsafe fn alloc(&self, layout: Layout) -> *mut u8 {
            ALLOCATED.fetch_add(layout.size(), Relaxed);
            unsafe { System.alloc(layout) }
        }

        unsafe fn dealloc(&self, place: *mut u8, layout: Layout) {
            ALLOCATED.fetch_sub(layout.size(), Relaxed);
            unsafe { System.dealloc(place, layout) }
        }
    }

    #[global_allocator]
    static ALLOCATOR: Counting = Counting;

    fn nanoseconds(start: Instant) -> f64 {
        start.elapsed().as_nanos() as f64
    }

    /// The least of the numbers noted.
    struct Least(f64);

    impl Default for Least {
        fn default() -> Least {
            Least(f64::MAX)
        }
    }

    impl Least {
        fn note(&mut self, number: f64) {
            self.0 = self.0.min(number);
        }
    }

    /// A key and its value, in the forms of both sides.
    struct Peer {
        key: [u8; KEY],
        reference_key: Key<NodeId>,
        octets: [u8; 4],
        slot: Slot,
    }

    /// The calls that are timed. Nodes are connected and outgoing. Answers are the library's codes.
    trait Side {
        /// Makes the call for each of the peers, and times the whole pass: a call is too short to be timed by itself. Its answers are kept.
        fn pass(
            &mut self,
            peers: &[Peer],
            answers: &mut Vec<u32>,
            times: &mut Least,
            mut call: impl FnMut(&mut Self, &Peer) -> u32,
        ) {
            answers.clear();
            let start = Instant::now();
            for peer in peers {
                answers.push(call(self, black_box(peer)));
            }
            times.note(nanoseconds(start) / peers.len() as f64);
        }

        fn insert_or_update(&mut self, peer: &Peer, slot: Slot) -> u32;
        fn update_node_status(&mut self, peer: &Peer) -> u32;
        fn remove(&mut self, peer: &Peer) -> u32;
        fn closest_keys(&mut self, target: &Peer, output: &mut [u8]) -> u32;
        fn iter(&mut self, output: &mut [u8]) -> u32;
        /// On an empty queue.
        fn take_applied_pending(&mut self) -> u32;
    }

    /// No windows: at every hour.
    const NONE: *const u16 = [].as_ptr();

    struct Library {
        storage: Vec<u8>,
        answer: [u8; ANSWER],
        line: [u8; EXPLANATION],
    }

    impl Library {
        fn new(local: &[u8; KEY], settings: &Settings) -> Library {
            let mut storage = vec![0; STORAGE];
            // SAFETY, here and below: as kbuckets.h asks, each pointer goes with the length of its bytes, and none overlap.
            let answer = unsafe {
                kbuckets_new(
                    storage.as_mut_ptr(),
                    STORAGE,
                    local.as_ptr(),
                    KEY,
                    settings.timeout,
                    settings.max_incoming,
                    settings.table_filter,
                    settings.bucket_filter,
                )
            };
            assert!(answer == 0);
            Library { storage, answer: [0; ANSWER], line: [0; EXPLANATION] }
        }

        /// Explains a call on a peer, given this slot.
        fn explain(&mut self, call: Call, peer: &Peer, slot: Slot) -> u32 {
            let [a, b, c, d] = peer.octets;
            let (storage, key, line) = (self.storage.as_ptr(), peer.key.as_ptr(), self.line.as_mut_ptr());
            let room = EXPLANATION;
            unsafe {
                match call {
                    Call::UpdateNodeStatus => {
                        kbuckets_explain_update_node_status(storage, STORAGE, key, KEY, 1, 0, NOW, line, room)
                    }
                    Call::Remove => kbuckets_explain_remove(storage, STORAGE, key, KEY, NOW, line, room),
                    _ => kbuckets_explain_insert_or_update(
                        storage, STORAGE, key, KEY, 1, a, b, c, d, slot, 1, 0, NOW, NONE, 0, NONE, 0, 0, 0, 0, 0, line,
                        room,
                    ),
                }
            }
        }
    }

    impl Side for Library {
        fn insert_or_update(&mut self, peer: &Peer, slot: Slot) -> u32 {
            let [a, b, c, d] = peer.octets;
            let (storage, key, answer) = (self.storage.as_mut_ptr(), peer.key.as_ptr(), self.answer.as_mut_ptr());
            unsafe {
                kbuckets_insert_or_update(
                    storage, STORAGE, key, KEY, 1, a, b, c, d, slot, 1, 0, NOW, NONE, 0, NONE, 0, 0, 0, 0, 0, answer,
                    ANSWER,
                )
            }
        }

        fn update_node_status(&mut self, peer: &Peer) -> u32 {
            unsafe {
                kbuckets_update_node_status(self.storage.as_mut_ptr(), STORAGE, peer.key.as_ptr(), KEY, 1, 0, NOW)
            }
        }

        fn remove(&mut self, peer: &Peer) -> u32 {
            unsafe { kbuckets_remove(self.storage.as_mut_ptr(), STORAGE, peer.key.as_ptr(), KEY, NOW) }
        }

        fn closest_keys(&mut self, target: &Peer, output: &mut [u8]) -> u32 {
            let (storage, key, room) = (self.storage.as_mut_ptr(), target.key.as_ptr(), output.len());
            unsafe { kbuckets_closest_keys(storage, STORAGE, key, KEY, CLOSEST, NOW, output.as_mut_ptr(), room) }
        }

        fn iter(&mut self, output: &mut [u8]) -> u32 {
            unsafe { kbuckets_iter(self.storage.as_mut_ptr(), STORAGE, ALL, NOW, output.as_mut_ptr(), output.len()) }
        }

        fn take_applied_pending(&mut self) -> u32 {
            unsafe {
                kbuckets_take_applied_pending(self.storage.as_mut_ptr(), STORAGE, self.answer.as_mut_ptr(), ANSWER)
            }
        }
    }

    const STATUS: NodeStatus =
        NodeStatus { state: ConnectionState::Connected, direction: ConnectionDirection::Outgoing };

    fn failed(reason: FailureReason) -> u32 {
        16 + match reason {
            FailureReason::TooManyIncoming => 0,
            FailureReason::BucketFilter => 1,
            FailureReason::TableFilter => 2,
            FailureReason::KeyNonExistent => 3,
            FailureReason::BucketFull => 4,
            FailureReason::InvalidSelfUpdate => 5,
        }
    }

    impl Side for Table {
        fn insert_or_update(&mut self, peer: &Peer, slot: Slot) -> u32 {
            let value = Value { address: Some(peer.octets.into()), slot };
            match Table::insert_or_update(self, &peer.reference_key, value, STATUS) {
                InsertResult::Inserted => 0,
                InsertResult::Pending { .. } => 1,
                InsertResult::StatusUpdated { promoted_to_connected } => 2 + u32::from(promoted_to_connected),
                InsertResult::ValueUpdated => 4,
                InsertResult::Updated { promoted_to_connected } => 5 + u32::from(promoted_to_connected),
                InsertResult::UpdatedPending => 7,
                InsertResult::Failed(reason) => failed(reason),
            }
        }

        fn update_node_status(&mut self, peer: &Peer) -> u32 {
            match Table::update_node_status(self, &peer.reference_key, STATUS.state, Some(STATUS.direction)) {
                UpdateResult::NotModified => 0,
                UpdateResult::Updated => 1,
                UpdateResult::UpdatedAndPromoted => 2,
                UpdateResult::UpdatedPending => 3,
                UpdateResult::Failed(reason) => failed(reason),
            }
        }

        fn remove(&mut self, peer: &Peer) -> u32 {
            Table::remove(self, &peer.reference_key).into()
        }

        fn closest_keys(&mut self, target: &Peer, output: &mut [u8]) -> u32 {
            let mut count = 0;
            for (key, entry) in Table::closest_keys(self, &target.reference_key).zip(output.chunks_exact_mut(KEY)) {
                entry.copy_from_slice(&key.preimage().raw());
                count += 1;
            }
            count
        }

        fn iter(&mut self, output: &mut [u8]) -> u32 {
            let mut count = 0;
            for (found, entry) in Table::iter(self).zip(output.chunks_exact_mut(NODE)) {
                let value = found.node.value;
                entry[..KEY].copy_from_slice(&found.node.key.preimage().raw());
                entry[KEY] = found.status.is_connected().into();
                entry[KEY + 1] = found.status.is_incoming().into();
                let octets = value.address.map_or([0; 4], |address| address.octets());
                let value = ValueCodes { flag: value.address.is_some().into(), octets, slot: value.slot };
                entry[NODE - VALUE..].copy_from_slice(&value_bytes(&value));
                count += 1;
            }
            count
        }

        fn take_applied_pending(&mut self) -> u32 {
            Table::take_applied_pending(self).is_some().into()
        }
    }

    struct Random(u64);

    impl Random {
        fn next(&mut self) -> u64 {
            self.0 ^= self.0 << 13;
            self.0 ^= self.0 >> 7;
            self.0 ^= self.0 << 17;
            self.0
        }

        fn key(&mut self) -> [u8; KEY] {
            std::array::from_fn(|_| (self.next() >> 32) as u8)
        }

        /// A key of bucket i.
        fn key_of_bucket(&mut self, local: &[u8; KEY], i: usize) -> [u8; KEY] {
            let mut distance = self.key();
            let (byte, bit) = (KEY - 1 - i / 8, i % 8);
            distance[..byte].fill(0);
            distance[byte] = distance[byte] & ((1 << bit) - 1) | 1 << bit;
            std::array::from_fn(|j| local[j] ^ distance[j])
        }
    }

    /// Peer `number`, in a /24 of its own.
    fn peer(key: [u8; KEY], number: usize) -> Peer {
        let [.., b, c] = number.to_be_bytes();
        Peer { key, reference_key: key_of(&key), octets: [10, b, c, 1], slot: number as Slot }
    }

    #[derive(Clone, Copy, PartialEq, Eq)]
    enum Call {
        UpdateNodeStatus,
        SameValue,
        OtherValue,
        Insert,
        Full,
        Remove,
        ClosestKeys,
        Iter,
        Take,
    }

    impl Call {
        const EACH: [Call; 9] = [
            Call::UpdateNodeStatus,
            Call::SameValue,
            Call::OtherValue,
            Call::Insert,
            Call::Full,
            Call::Remove,
            Call::ClosestKeys,
            Call::Iter,
            Call::Take,
        ];

        fn name(self) -> &'static str {
            match self {
                Call::UpdateNodeStatus => "update_node_status",
                Call::SameValue => "insert_or_update, held key, same value",
                Call::OtherValue => "insert_or_update, held key, other value",
                Call::Insert => "insert_or_update, new key, room",
                Call::Full => "insert_or_update, new key, full bucket",
                Call::Remove => "remove",
                Call::ClosestKeys => "closest_keys, 16",
                Call::Iter => "iter, n 4096",
                Call::Take => "take_applied_pending, empty queue",
            }
        }

        /// The line of its explanation, where it has one.
        fn line(self) -> Option<&'static str> {
            match self {
                Call::UpdateNodeStatus => Some("NotModified none\n"),
                Call::SameValue => Some("Updated false none\n"),
                Call::OtherValue => Some("ValueUpdated none\n"),
                Call::Insert => Some("Inserted none\n"),
                Call::Full => Some("Failed BucketFull all connected\n"),
                Call::Remove => Some("true none\n"),
                Call::ClosestKeys | Call::Iter | Call::Take => None,
            }
        }

        /// A call that a filter can make slower.
        fn filtered(self) -> bool {
            matches!(self, Call::UpdateNodeStatus | Call::SameValue | Call::OtherValue | Call::Insert | Call::Full)
        }
    }

    /// The two tables, and the peers of the calls.
    struct Setup {
        name: String,
        library: Library,
        reference: Table,
        reference_bytes: usize,
        held: usize,
        filter: u8,
        /// In the queue.
        records: usize,
        /// Held, drawn at random, none of them twice.
        drawn: Vec<Peer>,
        /// Of different buckets, or all of the one bucket; all held, or none where no node is held.
        changing: Vec<Peer>,
        /// Not held, of full buckets.
        outside: Vec<Peer>,
        targets: Vec<Peer>,
        rows: Vec<Row>,
    }

    struct Row {
        call: Call,
        library: Least,
        reference: Least,
        explanation: Least,
    }

    impl Row {
        /// The library's time divided by the reference's.
        fn times(&self) -> f64 {
            self.library.0 / self.reference.0
        }
    }

    impl Setup {
        /// At most `most` nodes in each of the buckets from `first` on, and so many records of placed pendings in the queue.
        fn new(first: usize, most: usize, filter: u8, records: usize) -> Setup {
            let mut random = Random(88_172_645_463_325_252);
            let local = random.key();
            let settings = Settings { timeout: TIMEOUT, max_incoming: 16, table_filter: filter, bucket_filter: filter };
            let mut library = Library::new(&local, &settings);
            let mut reference = new_table(&local, &settings);
            let mut peers: Vec<Vec<Peer>> = Vec::new();
            let mut number = 0;
            for i in first..BUCKETS {
                let mut of_bucket: Vec<Peer> = Vec::new();
                let capacity = if i < 4 { most.min(1 << i) } else { most };
                while of_bucket.len() < capacity {
                    let new = peer(random.key_of_bucket(&local, i), number);
                    if of_bucket.iter().all(|p| p.key != new.key) {
                        assert!(library.insert_or_update(&new, new.slot) == 0);
                        assert!(Side::insert_or_update(&mut reference, &new, new.slot) == 0);
                        of_bucket.push(new);
                        number += 1;
                    }
                }
                peers.push(of_bucket);
            }
            let mut bytes = TableBytes(library.storage);
            for _ in 0..records {
                let key = random.key();
                bytes.push_record(&RecordCodes { key, ending: EndingCodes::Placed(None) }).unwrap();
                let record = AppliedPending { inserted: key_of(&key), evicted: None };
                access::applied_pending_mut(&mut reference).push_back(record);
            }
            library.storage = bytes.0;
            let before = ALLOCATED.load(Relaxed);
            let copy = reference.clone();
            let reference_bytes = size_of::<Table>() + ALLOCATED.load(Relaxed) - before;
            drop(copy);
            let held = number;
            let again = |p: &Peer| peer(p.key, p.slot as usize);
            let mut drawn: Vec<Peer> = Vec::new();
            while drawn.len() < CALLS.min(held) {
                let of_bucket = &peers[random.next() as usize % peers.len()];
                let new = again(&of_bucket[random.next() as usize % of_bucket.len()]);
                if drawn.iter().all(|p| p.key != new.key) {
                    drawn.push(new);
                }
            }
            let changing = match held {
                0 => (BUCKETS - CHANGES..BUCKETS)
                    .enumerate()
                    .map(|(n, i)| peer(random.key_of_bucket(&local, i), n))
                    .collect(),
                _ if peers.len() == 1 => peers[0].iter().map(again).collect(),
                _ => (0..CHANGES).map(|n| again(&peers[peers.len() - 1 - n][n % most])).collect(),
            };
            let outside = match most {
                PLACES if held > 0 => (0..CALLS)
                    .map(|n| {
                        let i = BUCKETS - 1 - random.next() as usize % (BUCKETS - first.max(8));
                        peer(random.key_of_bucket(&local, i), held + n)
                    })
                    .collect(),
                _ => Vec::new(),
            };
            let targets = (0..CALLS).map(|_| peer(random.key(), 0)).collect();
            let rows = Call::EACH
                .into_iter()
                .filter(|call| match call {
                    Call::UpdateNodeStatus | Call::SameValue | Call::OtherValue => held > 0,
                    Call::Full => most == PLACES && held > 0,
                    Call::Take => records == 0,
                    _ => true,
                })
                .filter(|call| filter == 0 || call.filtered())
                .map(|call| Row {
                    call,
                    library: Least::default(),
                    reference: Least::default(),
                    explanation: Least::default(),
                })
                .collect();
            let buckets = peers.len();
            let name = format!(
                "{held} nodes{}, filters {}{}",
                match buckets {
                    0 => String::new(),
                    1 => " in one bucket".to_string(),
                    _ => format!(", at most {most} in each of {buckets} buckets"),
                },
                if filter == 0 { "off" } else { "on" },
                if records == 0 { String::new() } else { format!(", records in the queue: {records}") }
            );
            Setup {
                name,
                library,
                reference,
                reference_bytes,
                held,
                filter,
                records,
                drawn,
                changing,
                outside,
                targets,
                rows,
            }
        }

        /// Whether explanations are timed here.
        fn explains(&self) -> bool {
            self.held == EXPLAINED_NODES && self.records == 0
        }

        /// One round: each call on one side, then on the other.
        fn round(&mut self, outputs: &mut [Output; 2]) {
            let peers = Peers {
                drawn: &self.drawn,
                changing: &self.changing,
                outside: &self.outside,
                targets: &self.targets,
                held: self.held > 0,
            };
            let [one, other] = outputs;
            let explains = self.explains();
            for row in &mut self.rows {
                let (library, reference) = (&mut self.library, &mut self.reference);
                peers.timed(library, row.call, one, &mut row.library);
                peers.timed(reference, row.call, other, &mut row.reference);
                assert!(one.answers == other.answers, "{}: the answers differ", row.call.name());
                assert!(one.bytes == other.bytes, "{}: the outputs differ", row.call.name());
                if explains && let Some(line) = row.call.line() {
                    peers.explained(library, row.call, line, &mut one.answers, &mut row.explanation);
                    // The same removes and inserts on the other side, so that the buckets keep one order.
                    if row.call == Call::Insert {
                        peers.changes(reference, &mut other.answers, &mut Least::default(), &mut Least::default());
                    }
                }
            }
        }
    }

    /// The answers of a pass, and the output of its last call.
    struct Output {
        answers: Vec<u32>,
        bytes: Vec<u8>,
    }

    struct Peers<'a> {
        drawn: &'a [Peer],
        changing: &'a [Peer],
        outside: &'a [Peer],
        targets: &'a [Peer],
        held: bool,
    }

    impl Peers<'_> {
        /// Two passes. The table is at rest again afterwards, up to the order of its buckets, which is the same on both sides.
        fn timed<S: Side>(&self, side: &mut S, call: Call, output: &mut Output, times: &mut Least) {
            let Output { answers, bytes } = output;
            for other in [1 << (Slot::BITS - 1), 0] {
                match call {
                    Call::UpdateNodeStatus => side.pass(self.drawn, answers, times, |s, p| s.update_node_status(p)),
                    Call::SameValue => side.pass(self.drawn, answers, times, |s, p| s.insert_or_update(p, p.slot)),
                    Call::OtherValue => {
                        side.pass(self.drawn, answers, times, |s, p| s.insert_or_update(p, p.slot ^ other))
                    }
                    Call::Full => side.pass(self.outside, answers, times, |s, p| s.insert_or_update(p, p.slot)),
                    Call::Insert => self.changes(side, answers, times, &mut Least::default()),
                    Call::Remove => self.changes(side, answers, &mut Least::default(), times),
                    Call::ClosestKeys => {
                        bytes.fill(0);
                        let keys = &mut bytes[..CLOSEST * KEY];
                        side.pass(self.targets, answers, times, |s, p| s.closest_keys(p, keys))
                    }
                    Call::Iter => {
                        bytes.fill(0);
                        side.pass(&self.targets[..ITER_CALLS], answers, times, |s, _| s.iter(bytes))
                    }
                    Call::Take => side.pass(self.targets, answers, times, |s, _| s.take_applied_pending()),
                }
            }
        }

        /// A pass of explanations, each of which must write this line. Where a new key is to be inserted, the changing peers are out meanwhile.
        fn explained(&self, library: &mut Library, call: Call, line: &str, answers: &mut Vec<u32>, times: &mut Least) {
            let untimed = &mut Least::default();
            let of_call = match call {
                Call::Insert | Call::Remove => self.changing,
                Call::Full => self.outside,
                _ => self.drawn,
            };
            let other = if call == Call::OtherValue { 1 << (Slot::BITS - 1) } else { 0 };
            if call == Call::Insert {
                library.pass(self.changing, answers, untimed, |library, peer| library.remove(peer));
            }
            library.pass(of_call, answers, times, |library, peer| library.explain(call, peer, peer.slot ^ other));
            let as_expected = answers.iter().all(|length| *length == line.len() as u32);
            assert!(as_expected && library.line.starts_with(line.as_bytes()), "{}: another line", call.name());
            if call == Call::Insert {
                library
                    .pass(self.changing, answers, untimed, |library, peer| library.insert_or_update(peer, peer.slot));
            }
        }

        /// Takes the changing peers out and puts them in again, or the other way round where no node is held.
        fn changes<S: Side>(&self, side: &mut S, answers: &mut Vec<u32>, insert: &mut Least, remove: &mut Least) {
            if !self.held {
                side.pass(self.changing, answers, insert, |s, p| s.insert_or_update(p, p.slot));
            }
            side.pass(self.changing, answers, remove, |s, p| s.remove(p));
            if self.held {
                side.pass(self.changing, answers, insert, |s, p| s.insert_or_update(p, p.slot));
            }
        }
    }

    pub fn main() -> ExitCode {
        let rounds = match std::env::args().nth(1).map(|word| word.parse()) {
            None => ROUNDS,
            Some(Ok(rounds)) => rounds,
            Some(Err(_)) => {
                println!("{HELP}");
                return ExitCode::SUCCESS;
            }
        };
        clock::set(Some(NOW));
        let mut setups = [
            Setup::new(BUCKETS, PLACES, 0, 0),
            Setup::new(255, PLACES, 0, 0),
            Setup::new(193, PLACES, 0, 0),
            Setup::new(4, 4, 0, 0),
            Setup::new(0, PLACES, 0, 0),
            Setup::new(193, PLACES, 0, 1),
            Setup::new(193, PLACES, 0, RECORDS),
            Setup::new(BUCKETS, PLACES, 1, 0),
            Setup::new(255, PLACES, 1, 0),
            Setup::new(193, PLACES, 1, 0),
            Setup::new(4, 4, 1, 0),
            Setup::new(0, PLACES, 1, 0),
            Setup::new(193, PLACES, 1, 1),
            Setup::new(193, PLACES, 1, RECORDS),
        ];
        let mut outputs = [(); 2].map(|_| Output { answers: Vec::new(), bytes: vec![0; ALL * NODE] });
        for _ in 0..rounds {
            for setup in &mut setups {
                setup.round(&mut outputs);
            }
        }
        for setup in &mut setups {
            let [one, other] = &mut outputs;
            let found = [setup.library.iter(&mut one.bytes), Side::iter(&mut setup.reference, &mut other.bytes)];
            assert!(found == [setup.held as u32; 2] && one.bytes == other.bytes, "{}: the tables differ", setup.name);
        }
        println!("ns per whole call, the least of {rounds} rounds");
        for setup in &setups {
            println!("\n{}", setup.name);
            println!("  {:<40} {:>8} {:>9} {:>19}", "", "library", "reference", "library / reference");
            for row in &setup.rows {
                let (library, reference) = (row.library.0, row.reference.0);
                println!("  {:<40} {library:>8.0} {reference:>9.0} {:>19.2}", row.call.name(), row.times());
            }
            println!("  bytes: library {STORAGE}, reference {}", setup.reference_bytes);
            if setup.explains() {
                println!("  {:<40} {:>8} {:>29}", "explained", "library", "explained / call");
                for row in setup.rows.iter().filter(|row| row.call.line().is_some()) {
                    let (explanation, call) = (row.explanation.0, row.library.0);
                    println!("  {:<40} {explanation:>8.0} {:>29.2}", row.call.name(), explanation / call);
                }
            }
        }
        println!("\nlibrary / reference, wanted and reached, empty queue");
        for (calls, filter, nodes, wanted) in WANTED {
            let (reached, call, table) = setups
                .iter()
                .filter(|setup| setup.records == 0 && setup.filter == filter)
                .filter(|setup| nodes.is_none_or(|nodes| setup.held == nodes))
                .flat_map(|setup| setup.rows.iter().map(|row| (row.times(), row.call, &setup.name)))
                .filter(|(_, call, _)| calls.contains(call))
                .max_by(|one, other| one.0.total_cmp(&other.0))
                .unwrap();
            let verdict = if reached <= wanted { "reached" } else { "missed " };
            println!("  at most {wanted:>4} {verdict} {reached:>6.2}  {}, {table}", call.name());
        }
        ExitCode::SUCCESS
    }
}
