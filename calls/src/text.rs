//! The text of calls, answers and dumps: lines read into calls; keys, values, nodes and records written.

/// A slot of the host's record store.
pub type Slot = u64;

/// A value as a call gives it and as storage keeps it: address flag, four octets, slot.
#[derive(Clone, Copy, Debug, Default, PartialEq, Eq)]
pub struct ValueCodes {
    pub flag: u8,
    pub octets: [u8; 4],
    pub slot: Slot,
}

/// A node as storage keeps it, with codes of any number.
#[derive(Clone, Copy, Debug, Default, PartialEq, Eq)]
pub struct NodeCodes {
    pub key: [u8; 32],
    pub state: u8,
    pub direction: u8,
    pub value: ValueCodes,
}

/// A record of a pending that ended, as storage keeps it.
#[derive(Clone, Copy, Debug, PartialEq, Eq)]
pub struct RecordCodes {
    pub key: [u8; 32],
    pub ending: EndingCodes,
}

/// How a pending ended.
#[derive(Clone, Copy, Debug, PartialEq, Eq)]
pub enum EndingCodes {
    /// Placed, with the node that it evicted, if any.
    Placed(Option<NodeCodes>),
    /// Not placed: a code of [`Unplaced`], or of any other number.
    Unplaced(u8),
}

/// The endings without a place, by their codes.
#[derive(Clone, Copy, Debug, PartialEq, Eq)]
#[repr(u8)]
pub enum Unplaced {
    /// 16 are held and place 0 is connected.
    FirstConnected = 2,
    BucketFilter,
    TooManyIncoming,
    /// By a direct insert of its key.
    Inserted,
    /// Place 0 was given Connected.
    FirstConfirmed,
}

impl Unplaced {
    const ALL: [Unplaced; 5] = [
        Unplaced::FirstConnected,
        Unplaced::BucketFilter,
        Unplaced::TooManyIncoming,
        Unplaced::Inserted,
        Unplaced::FirstConfirmed,
    ];

    pub fn of_code(code: u8) -> Option<Unplaced> {
        Unplaced::ALL.into_iter().find(|ending| *ending as u8 == code)
    }

    fn of_word(word: &str) -> Option<Unplaced> {
        Unplaced::ALL.into_iter().find(|ending| ending.word() == word)
    }

    pub fn word(self) -> &'static str {
        match self {
            Unplaced::FirstConnected => "dropped_place_0",
            Unplaced::BucketFilter => "dropped_bucket_filter",
            Unplaced::TooManyIncoming => "dropped_incoming_limit",
            Unplaced::Inserted => "cleared_inserted",
            Unplaced::FirstConfirmed => "cleared_confirmed",
        }
    }
}

impl From<Unplaced> for EndingCodes {
    fn from(ending: Unplaced) -> EndingCodes {
        EndingCodes::Unplaced(ending as u8)
    }
}

/// The hours that come with a call that inserts, as numbers of any kind (02, slip 8): three a window (weekday, opening minute, closing
/// minute), three a closed date (year, month, day), perhaps with a rest of one or two; then the UTC date and minute.
#[derive(Clone, Debug, Default, PartialEq, Eq)]
pub struct SessionCodes {
    pub windows: Vec<u16>,
    pub closed: Vec<u16>,
    /// Year, month, day.
    pub date: [u16; 3],
    pub minute: u16,
}

/// Which values `closest_values_predicate` marks. `Code` is a number alone: 0 always, 1 has an address, others out of range.
#[derive(Clone, Debug, PartialEq, Eq)]
pub enum Predicate {
    Code(u8),
    Net([u8; 3]),
    Slot(Slot),
}

#[derive(Clone, Debug, PartialEq, Eq)]
pub enum Listing {
    Iter,
    NodesByDistances(Vec<u64>),
    ClosestKeys(Vec<u8>),
    ClosestValues(Vec<u8>),
    ClosestValuesPredicate(Vec<u8>, Predicate),
}

/// A call on the table. Keys are bytes of any length and codes any number, since the questions are about them.
#[derive(Clone, Debug, PartialEq, Eq)]
pub enum TableCall {
    New {
        local: Vec<u8>,
        timeout: u64,
        max_incoming: u8,
        table_filter: u8,
        bucket_filter: u8,
    },
    UpdateNodeStatus {
        now: u64,
        key: Vec<u8>,
        state: u8,
        direction: u8,
    },
    UpdateNode {
        now: u64,
        key: Vec<u8>,
        value: ValueCodes,
        state: u8,
    },
    InsertOrUpdate {
        now: u64,
        key: Vec<u8>,
        value: ValueCodes,
        state: u8,
        direction: u8,
        session: SessionCodes,
    },
    Remove {
        now: u64,
        key: Vec<u8>,
    },
    Entry {
        now: u64,
        key: Vec<u8>,
    },
    PresentUpdate {
        key: Vec<u8>,
        state: u8,
        direction: u8,
    },
    PendingUpdate {
        key: Vec<u8>,
        state: u8,
        direction: u8,
    },
    AbsentInsert {
        now: u64,
        key: Vec<u8>,
        value: ValueCodes,
        state: u8,
        direction: u8,
        session: SessionCodes,
    },
    /// `room`: the entries that the lent output has room for, where the line says it.
    List {
        now: u64,
        listing: Listing,
        n: u64,
        room: Option<u64>,
    },
    TakeAppliedPending,
    /// What another call, of [`PEER_CALLS`], would answer, and why. `room`: the bytes of the lent output, where the line says it.
    Explain {
        call: Box<TableCall>,
        room: Option<u64>,
    },
    /// The held nodes as bytes. `room`: the bytes of the lent output, where the line says it.
    Write {
        room: Option<u64>,
    },
    /// Loads what `write` put out.
    Read {
        bytes: Vec<u8>,
    },
}

/// The calls that insert, update or remove a peer, which can be explained.
pub const PEER_CALLS: [&str; 7] = [
    "update_node_status",
    "update_node",
    "insert_or_update",
    "remove",
    "present_update",
    "pending_update",
    "absent_insert",
];

/// A call on one bucket by itself.
#[derive(Clone, Debug, PartialEq, Eq)]
pub enum BucketCall {
    New { timeout: u64, max_incoming: u8, filter: u8 },
    Insert { now: u64, key: Vec<u8>, value: ValueCodes, state: u8, direction: u8 },
    ApplyPending { now: u64 },
    UpdateStatus { key: Vec<u8>, state: u8, direction: u8 },
    UpdateValue { key: Vec<u8>, value: ValueCodes },
    UpdatePending { state: u8, direction: u8 },
    Remove { now: u64, key: Vec<u8> },
}

/// Which bucket a raw line writes: one of the table, or the bucket by itself.
#[derive(Clone, Copy, Debug)]
pub enum Which {
    Index(usize),
    Itself,
}

/// Set-up that writes bytes without asking.
#[derive(Clone, Debug)]
pub enum Raw {
    Node(Which, NodeCodes),
    FirstConnected(Which, Option<u8>),
    Pending(Which, NodeCodes, u64),
    Record(RecordCodes),
    Byte(u64, u8),
}

impl Raw {
    /// Whether it writes the bucket by itself, and not the table.
    pub fn is_alone(&self) -> bool {
        match self {
            Raw::Node(which, _) | Raw::FirstConnected(which, _) | Raw::Pending(which, ..) => {
                matches!(which, Which::Itself)
            }
            Raw::Record(_) | Raw::Byte(..) => false,
        }
    }
}

/// `short`: what the call works on is handed over one byte short.
#[derive(Clone, Debug)]
pub enum Line {
    Table { short: bool, call: TableCall },
    Bucket { short: bool, call: BucketCall },
    Raw(Raw),
    Dump,
    BucketDump,
}

impl Line {
    /// The lines that follow a call with `--dump`: one for the answer and, after a call, one for the dump.
    pub fn answer_lines(&self) -> usize {
        match self {
            Line::Table { .. } | Line::Bucket { .. } => 2,
            Line::Raw(_) | Line::Dump | Line::BucketDump => 1,
        }
    }
}

/// The forms of the lines: a name, then its words.
pub const TABLE_FORMS: [&str; 19] = [
    "new LOCAL TIMEOUT MAX_INCOMING TABLE_FILTER BUCKET_FILTER",
    "update_node_status NOW KEY STATE DIRECTION?",
    "update_node NOW KEY VALUE STATE?",
    "insert_or_update NOW KEY VALUE STATE DIRECTION [WINDOWS CLOSED DATE MINUTE]",
    "remove NOW KEY",
    "entry NOW KEY",
    "present_update KEY STATE DIRECTION?",
    "pending_update KEY STATE DIRECTION",
    "absent_insert NOW KEY VALUE STATE DIRECTION [WINDOWS CLOSED DATE MINUTE]",
    "iter NOW N",
    "nodes_by_distances NOW DISTANCES N",
    "closest_keys NOW TARGET N",
    "closest_values NOW TARGET N",
    "closest_values_predicate NOW TARGET PREDICATE N",
    "take_applied_pending",
    "explain CALL",
    "write",
    "read HEX",
    "dump",
];
pub const BUCKET_FORMS: [&str; 8] = [
    "b_new TIMEOUT MAX_INCOMING BUCKET_FILTER",
    "b_insert NOW KEY VALUE STATE DIRECTION",
    "b_apply_pending NOW",
    "b_update_status KEY STATE DIRECTION?",
    "b_update_value KEY VALUE",
    "b_update_pending STATE DIRECTION",
    "b_remove NOW KEY",
    "bdump",
];
pub const RAW_FORMS: [&str; 5] = [
    "raw_node I KEY VALUE STATE DIRECTION",
    "raw_fcp I PLACE",
    "raw_pending I KEY VALUE STATE DIRECTION DEADLINE",
    "raw_record KEY ENDING",
    "raw_byte OFFSET NUMBER",
];

/// The form of the line with this name. The listings, which end with N, `explain` and `write` take a room.
fn form(name: &str) -> Option<String> {
    let named = |form: &&str| form.split(' ').next() == Some(name);
    let form = TABLE_FORMS.into_iter().chain(BUCKET_FORMS).chain(RAW_FORMS).find(named)?;
    Some(if form.ends_with(" N") || ["explain", "write"].contains(&name) {
        format!("{form} [out=K]")
    } else {
        form.to_string()
    })
}

/// The form of a line that is no call: of `explain`, also that of the call it names.
fn form_of(line: &str) -> Option<String> {
    let mut words = line.strip_prefix("! ").unwrap_or(line).split(' ');
    let name = words.next()?;
    let outer = form(name)?;
    let call = words.next().filter(|call| name == "explain" && PEER_CALLS.contains(call)).and_then(form);
    Some(call.map_or(outer.clone(), |call| format!("{outer}, with the CALL {call}")))
}

/// The beginning of a text that is too long for a message.
fn short(text: &str) -> String {
    const MOST: usize = 200;
    match text.char_indices().nth(MOST) {
        Some((end, _)) => format!("{} .. (cut here)", &text[..end]),
        None => text.to_string(),
    }
}

/// Reads a line; `None` for one that is passed over.
pub fn parse(line: &str) -> Result<Option<Line>, String> {
    if line.is_empty() || line.starts_with('#') {
        return Ok(None);
    }
    read(line).map(Some).map_err(|fault| {
        let form = form_of(line);
        let (line, fault) = (short(&format!("{line:?}")), short(&fault));
        match form {
            Some(form) => format!("{line}: {fault}; its form is: {form}"),
            None => format!("{line}: {fault}"),
        }
    })
}

/// Reads a line that is not passed over.
fn read(line: &str) -> Result<Line, String> {
    if line.ends_with('\r') {
        return Err("a line ends with a line feed alone, and not with a carriage return before it".to_string());
    }
    if line.starts_with(' ') || line.ends_with(' ') || line.contains("  ") {
        return Err("words are parted by single spaces, and none stands at the beginning or the end".to_string());
    }
    let (short, rest) = match line.strip_prefix("! ") {
        Some(rest) => (true, rest),
        None => (false, line),
    };
    let (name, rest) = rest.split_once(' ').map_or((rest, None), |(name, rest)| (name, Some(rest)));
    let mut words = Words { rest };
    let parsed = if let Some(call) = table_call(name, &mut words)? {
        Line::Table { short, call }
    } else if let Some(call) = bucket_call(name, &mut words)? {
        Line::Bucket { short, call }
    } else {
        let line = match name {
            "dump" => Line::Dump,
            "bdump" => Line::BucketDump,
            _ => Line::Raw(raw(name, &mut words)?.ok_or_else(|| format!("no call is named {name:?}"))?),
        };
        if short {
            return Err(format!("'!' stands before a call, and {name} is none"));
        }
        line
    };
    match words.rest {
        None => Ok(parsed),
        Some(rest) => Err(format!("too many words: {rest:?}")),
    }
}

fn table_call(name: &str, words: &mut Words) -> Result<Option<TableCall>, String> {
    Ok(Some(match name {
        "new" => TableCall::New {
            local: words.key()?,
            timeout: words.number()?,
            max_incoming: words.code()?,
            table_filter: words.code()?,
            bucket_filter: words.code()?,
        },
        "update_node_status" => TableCall::UpdateNodeStatus {
            now: words.number()?,
            key: words.key()?,
            state: words.code()?,
            direction: words.code()?,
        },
        "update_node" => TableCall::UpdateNode {
            now: words.number()?,
            key: words.key()?,
            value: words.value()?,
            state: words.code()?,
        },
        "insert_or_update" => TableCall::InsertOrUpdate {
            now: words.number()?,
            key: words.key()?,
            value: words.value()?,
            state: words.code()?,
            direction: words.code()?,
            session: words.session()?,
        },
        "remove" => TableCall::Remove { now: words.number()?, key: words.key()? },
        "entry" => TableCall::Entry { now: words.number()?, key: words.key()? },
        "present_update" => {
            TableCall::PresentUpdate { key: words.key()?, state: words.code()?, direction: words.code()? }
        }
        "pending_update" => {
            TableCall::PendingUpdate { key: words.key()?, state: words.code()?, direction: words.code()? }
        }
        "absent_insert" => TableCall::AbsentInsert {
            now: words.number()?,
            key: words.key()?,
            value: words.value()?,
            state: words.code()?,
            direction: words.code()?,
            session: words.session()?,
        },
        "iter" | "nodes_by_distances" | "closest_keys" | "closest_values" | "closest_values_predicate" => {
            TableCall::List {
                now: words.number()?,
                listing: match name {
                    "iter" => Listing::Iter,
                    "nodes_by_distances" => Listing::NodesByDistances(words.distances()?),
                    "closest_keys" => Listing::ClosestKeys(words.key()?),
                    "closest_values" => Listing::ClosestValues(words.key()?),
                    _ => Listing::ClosestValuesPredicate(words.key()?, words.predicate()?),
                },
                n: words.number()?,
                room: words.room()?,
            }
        }
        "take_applied_pending" => TableCall::TakeAppliedPending,
        "explain" => {
            let name = words.word()?;
            let call = if PEER_CALLS.contains(&name) { table_call(name, words)? } else { None };
            let call = call.ok_or_else(|| format!("{name:?} cannot be explained, only {}", PEER_CALLS.join(", ")))?;
            TableCall::Explain { call: Box::new(call), room: words.room()? }
        }
        "write" => TableCall::Write { room: words.room()? },
        "read" => TableCall::Read { bytes: words.bytes()? },
        _ => return Ok(None),
    }))
}

fn bucket_call(name: &str, words: &mut Words) -> Result<Option<BucketCall>, String> {
    Ok(Some(match name {
        "b_new" => BucketCall::New { timeout: words.number()?, max_incoming: words.code()?, filter: words.code()? },
        "b_insert" => BucketCall::Insert {
            now: words.number()?,
            key: words.key()?,
            value: words.value()?,
            state: words.code()?,
            direction: words.code()?,
        },
        "b_apply_pending" => BucketCall::ApplyPending { now: words.number()? },
        "b_update_status" => {
            BucketCall::UpdateStatus { key: words.key()?, state: words.code()?, direction: words.code()? }
        }
        "b_update_value" => BucketCall::UpdateValue { key: words.key()?, value: words.value()? },
        "b_update_pending" => BucketCall::UpdatePending { state: words.code()?, direction: words.code()? },
        "b_remove" => BucketCall::Remove { now: words.number()?, key: words.key()? },
        _ => return Ok(None),
    }))
}

fn raw(name: &str, words: &mut Words) -> Result<Option<Raw>, String> {
    Ok(Some(match name {
        "raw_node" => Raw::Node(words.which()?, words.node()?),
        "raw_fcp" => Raw::FirstConnected(words.which()?, words.place()?),
        "raw_pending" => Raw::Pending(words.which()?, words.node()?, words.number()?),
        "raw_record" => Raw::Record(RecordCodes { key: words.whole_key()?, ending: words.ending()? }),
        "raw_byte" => Raw::Byte(words.number()?, words.code()?),
        _ => return Ok(None),
    }))
}

/// What is left of a line, word by word.
struct Words<'a> {
    rest: Option<&'a str>,
}

impl<'a> Words<'a> {
    fn word(&mut self) -> Result<&'a str, String> {
        let rest = self.rest.ok_or("too few words")?;
        let (word, rest) = rest.split_once(' ').map_or((rest, None), |(word, rest)| (word, Some(rest)));
        self.rest = rest;
        Ok(word)
    }

    fn number(&mut self) -> Result<u64, String> {
        number(self.word()?, u64::MAX)
    }

    fn code(&mut self) -> Result<u8, String> {
        octet(self.word()?)
    }

    fn key(&mut self) -> Result<Vec<u8>, String> {
        key(self.word()?)
    }

    /// Two small hexadecimal digits a byte, `-` for no bytes.
    fn bytes(&mut self) -> Result<Vec<u8>, String> {
        match self.word()? {
            "-" => Ok(Vec::new()),
            word => bytes(word),
        }
    }

    /// A key of 32 bytes: a raw line asks no question about its length.
    fn whole_key(&mut self) -> Result<[u8; 32], String> {
        let key = self.key()?;
        let length = key.len();
        key.try_into().map_err(|_| format!("a raw line takes keys of 32 bytes, and this one has {length}"))
    }

    fn value(&mut self) -> Result<ValueCodes, String> {
        let word = self.word()?;
        let bad = || format!("no value: {word:?}");
        let (flag, rest) = word.split_once(':').ok_or_else(bad)?;
        let (octets, slot) = rest.split_once(':').ok_or_else(bad)?;
        Ok(ValueCodes { flag: octet(flag)?, octets: dotted(octets)?, slot: number(slot, Slot::MAX)? })
    }

    fn node(&mut self) -> Result<NodeCodes, String> {
        let key = self.whole_key()?;
        let value = self.value()?;
        Ok(NodeCodes { key, value, state: self.code()?, direction: self.code()? })
    }

    /// A word of [`Unplaced`], or, of a pending that was placed, `-` or the evicted node.
    fn ending(&mut self) -> Result<EndingCodes, String> {
        let mut ahead = Words { rest: self.rest };
        let ending = match ahead.word()? {
            "-" => EndingCodes::Placed(None),
            word => match Unplaced::of_word(word) {
                Some(ending) => ending.into(),
                None => return self.node().map(|node| EndingCodes::Placed(Some(node))),
            },
        };
        self.rest = ahead.rest;
        Ok(ending)
    }

    fn which(&mut self) -> Result<Which, String> {
        match self.word()? {
            "b" => Ok(Which::Itself),
            word => Ok(Which::Index(number(word, 255)? as usize)),
        }
    }

    fn place(&mut self) -> Result<Option<u8>, String> {
        match self.word()? {
            "-" => Ok(None),
            word => Ok(Some(octet(word)?)),
        }
    }

    fn distances(&mut self) -> Result<Vec<u64>, String> {
        match self.word()? {
            "-" => Ok(Vec::new()),
            word => word.split(',').map(|d| number(d, u64::MAX)).collect(),
        }
    }

    fn predicate(&mut self) -> Result<Predicate, String> {
        let word = self.word()?;
        if let Some(net) = word.strip_prefix("2:") {
            return Ok(Predicate::Net(dotted(net)?));
        }
        if let Some(slot) = word.strip_prefix("3:") {
            return Ok(Predicate::Slot(number(slot, Slot::MAX)?));
        }
        match octet(word)? {
            2 => Err("predicate 2 is written 2:a.b.c".to_string()),
            3 => Err("predicate 3 is written 3:SLOT".to_string()),
            code => Ok(Predicate::Code(code)),
        }
    }

    /// Four words, or none: an empty window list. What stands before a room are no hours.
    fn session(&mut self) -> Result<SessionCodes, String> {
        if self.rest.is_none_or(|rest| rest.starts_with("out=")) {
            return Ok(SessionCodes::default());
        }
        Ok(SessionCodes {
            windows: threes(self.word()?, ':', "window")?,
            closed: threes(self.word()?, '-', "date")?,
            date: three(self.word()?, '-', "date")?,
            minute: short_number(self.word()?)?,
        })
    }

    fn room(&mut self) -> Result<Option<u64>, String> {
        match self.rest {
            None => Ok(None),
            Some(_) => {
                let word = self.word()?;
                let room = word.strip_prefix("out=").ok_or_else(|| format!("not out=K: {word:?}"))?;
                number(room, u64::MAX).map(Some)
            }
        }
    }
}

fn number(word: &str, most: u64) -> Result<u64, String> {
    if word.is_empty() || !word.bytes().all(|b| b.is_ascii_digit()) {
        return Err(format!("no number: {word:?}"));
    }
    match word.parse() {
        Ok(n) if n <= most => Ok(n),
        _ => Err(format!("{word} is more than {most}")),
    }
}

fn octet(word: &str) -> Result<u8, String> {
    number(word, 255).map(|n| n as u8)
}

/// A number that two bytes hold.
fn short_number(word: &str) -> Result<u16, String> {
    number(word, u16::MAX.into()).map(|n| n as u16)
}

/// Three numbers, as a window or a date has them.
fn three(word: &str, mark: char, what: &str) -> Result<[u16; 3], String> {
    let numbers = word.split(mark).map(short_number).collect::<Result<Vec<u16>, String>>()?;
    numbers.try_into().map_err(|_| format!("no {what}: {word:?}"))
}

/// Windows or dates joined by commas, `-` for none; `+` behind them for one number more, 0.
fn threes(word: &str, mark: char, what: &str) -> Result<Vec<u16>, String> {
    let (entries, rest) = word.strip_suffix('+').map_or((word, false), |entries| (entries, true));
    let mut numbers = match entries {
        "-" => Vec::new(),
        _ => entries.split(',').map(|entry| three(entry, mark, what)).collect::<Result<Vec<_>, String>>()?.concat(),
    };
    numbers.extend(rest.then_some(0));
    Ok(numbers)
}

fn dotted<const COUNT: usize>(word: &str) -> Result<[u8; COUNT], String> {
    let octets = word.split('.').map(octet).collect::<Result<Vec<u8>, String>>()?;
    octets.try_into().map_err(|_| format!("not {COUNT} octets: {word:?}"))
}

fn key(word: &str) -> Result<Vec<u8>, String> {
    let bad = || format!("no key: {word:?}");
    let digits = match word.strip_prefix(':') {
        Some(digits) if digits.len() < 64 => format!("{digits:0>64}"),
        Some(_) => return Err(bad()),
        None => word.to_string(),
    };
    let digits: Vec<u8> =
        digits.chars().map(|c| c.to_digit(16).map(|d| d as u8)).collect::<Option<_>>().ok_or_else(bad)?;
    if digits.is_empty() || !digits.len().is_multiple_of(2) {
        return Err(bad());
    }
    Ok(digits.chunks(2).map(|pair| pair[0] * 16 + pair[1]).collect())
}

/// The bytes of a run of small hexadecimal digits, two a byte.
fn bytes(word: &str) -> Result<Vec<u8>, String> {
    let digit = |(place, digit): (usize, char)| match digit {
        '0'..='9' | 'a'..='f' => Ok(digit.to_digit(16).unwrap() as u8),
        _ => Err(format!("{digit:?}, character {} of HEX, is no small hexadecimal digit", place + 1)),
    };
    let digits = word.chars().enumerate().map(digit).collect::<Result<Vec<u8>, String>>()?;
    if digits.is_empty() || !digits.len().is_multiple_of(2) {
        return Err(format!("HEX has {} digits, which is no whole number of bytes", digits.len()));
    }
    Ok(digits.chunks(2).map(|pair| pair[0] * 16 + pair[1]).collect())
}

/// Writes text to the end of a run of bytes.
pub trait Write {
    fn text(&mut self, text: &str);
    fn number(&mut self, number: u64);
    /// Two small hexadecimal digits a byte.
    fn hexadecimal(&mut self, bytes: &[u8]);

    fn key(&mut self, key: &[u8; 32]) {
        self.hexadecimal(key);
    }

    fn value(&mut self, value: &ValueCodes) {
        self.number(value.flag.into());
        for (i, octet) in value.octets.iter().enumerate() {
            self.text(if i == 0 { ":" } else { "." });
            self.number((*octet).into());
        }
        self.text(":");
        self.number(value.slot);
    }

    fn node(&mut self, node: &NodeCodes) {
        self.key(&node.key);
        self.text("/");
        self.value(&node.value);
        self.text("/");
        self.status(node.state, node.direction);
    }

    fn status(&mut self, state: u8, direction: u8) {
        self.number(state.into());
        self.text("/");
        self.number(direction.into());
    }

    /// `KEY^NODE`, `KEY^-` or `KEY!ENDING`; a code that is no ending's as a number.
    fn record(&mut self, record: &RecordCodes) {
        self.key(&record.key);
        match &record.ending {
            EndingCodes::Placed(Some(node)) => {
                self.text("^");
                self.node(node);
            }
            EndingCodes::Placed(None) => self.text("^-"),
            EndingCodes::Unplaced(code) => {
                self.text("!");
                match Unplaced::of_code(*code) {
                    Some(ending) => self.text(ending.word()),
                    None => self.number((*code).into()),
                }
            }
        }
    }

    /// `{fcp=PLACE nodes=[NODE NODE] pending=NODE@DEADLINE}`
    fn bucket(
        &mut self,
        first_connected: Option<u8>,
        nodes: impl Iterator<Item = NodeCodes>,
        pending: Option<(NodeCodes, u64)>,
    ) {
        self.text("{fcp=");
        match first_connected {
            Some(place) => self.number(place.into()),
            None => self.text("-"),
        }
        self.text(" nodes=[");
        for (i, node) in nodes.enumerate() {
            if i > 0 {
                self.text(" ");
            }
            self.node(&node);
        }
        self.text("] pending=");
        match pending {
            Some((node, deadline)) => {
                self.node(&node);
                self.text("@");
                self.number(deadline);
            }
            None => self.text("-"),
        }
        self.text("}");
    }

    /// ` queue=[RECORD RECORD]`
    fn queue(&mut self, records: impl Iterator<Item = RecordCodes>) {
        self.text(" queue=[");
        for (i, record) in records.enumerate() {
            if i > 0 {
                self.text(" ");
            }
            self.record(&record);
        }
        self.text("]");
    }
}

impl Write for Vec<u8> {
    fn text(&mut self, text: &str) {
        self.extend_from_slice(text.as_bytes());
    }

    fn number(&mut self, mut number: u64) {
        let mut digits = [0; 20];
        let mut at = digits.len();
        loop {
            at -= 1;
            digits[at] = b'0' + (number % 10) as u8;
            number /= 10;
            if number == 0 {
                break;
            }
        }
        self.extend_from_slice(&digits[at..]);
    }

    fn hexadecimal(&mut self, bytes: &[u8]) {
        const DIGITS: &[u8; 16] = b"0123456789abcdef";
        let from = self.len();
        self.resize(from + 2 * bytes.len(), 0);
        for (pair, byte) in self[from..].chunks_exact_mut(2).zip(bytes) {
            pair[0] = DIGITS[usize::from(byte >> 4)];
            pair[1] = DIGITS[usize::from(byte & 15)];
        }
    }
}
