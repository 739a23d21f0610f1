//! Lines are read as they are written, and bytes are written and dumped where the layout says.

use calls::layout::{
    ALONE, AloneBytes, KEY, NODE, RECORD, RECORDS, STORAGE, Settings, TableBytes, VALUE, bucket_at, record_bytes,
    record_in, value_in,
};
use calls::text::{
    BUCKET_FORMS, BucketCall, EndingCodes, Line, Listing, NodeCodes, PEER_CALLS, Predicate, RAW_FORMS, Raw,
    RecordCodes, SessionCodes, Slot, TABLE_FORMS, TableCall, Unplaced, ValueCodes, Which, Write, parse,
};

fn read(line: &str) -> Line {
    parse(line).unwrap_or_else(|fault| panic!("{fault}")).unwrap_or_else(|| panic!("passed over: {line}"))
}

/// A line of a form, with a word for each of its words but those that may be left out.
fn example(form: &str) -> String {
    let form = form.split(" [").next().unwrap();
    let word = |word: &str| match word {
        "KEY" | "LOCAL" | "TARGET" => ":4".to_string(),
        "VALUE" => "1:10.0.0.1:7".to_string(),
        "DISTANCES" => "3,256".to_string(),
        "PREDICATE" => "2:10.0.0".to_string(),
        "ENDING" | "PLACE" => "-".to_string(),
        "CALL" => "remove 1 :4".to_string(),
        "HEX" => "00ff".to_string(),
        _ if word.chars().any(|c| c.is_ascii_lowercase()) => word.to_string(),
        _ => "1".to_string(),
    };
    form.split(' ').map(word).collect::<Vec<_>>().join(" ")
}

/// Each form has as many words as its line is read with, and a fault names the form.
#[test]
fn forms() {
    for form in TABLE_FORMS.into_iter().chain(BUCKET_FORMS).chain(RAW_FORMS) {
        let line = example(form);
        read(&line);
        let more = parse(&format!("{line} 1")).unwrap_err();
        assert!(more.contains(form), "{more}");
        if let Some((fewer, _)) = line.rsplit_once(' ') {
            let fewer = parse(fewer).unwrap_err();
            assert!(fewer.contains("too few words") && fewer.contains(form), "{fewer}");
        }
    }
    assert!(parse("enter 0 :1").unwrap_err().contains("no call is named \"enter\""));
}

/// A message says what is wrong, and is short where the line is long.
#[test]
fn messages() {
    let fault = |line: &str| parse(line).unwrap_err();
    assert!(fault("entry 0 :1\r").contains("carriage return"));
    for line in [" entry 0 :1", "entry  0 :1", "entry 0 :1 "] {
        assert!(fault(line).contains("single spaces"), "{line}");
    }
    assert!(fault("iter 0 5 room=3").ends_with("not out=K: \"room=3\"; its form is: iter NOW N [out=K]"));
    assert!(fault("closest_values_predicate 0 :5 2 3").contains("predicate 2 is written 2:a.b.c"));
    assert!(fault("raw_record 04 -").contains("keys of 32 bytes, and this one has 1"));
    assert!(fault(&format!("remove 0 {}", "é".repeat(100_000))).len() < 1000);
}

/// `explain` takes each of the seven calls word for word, and no other.
#[test]
fn explained_calls() {
    for form in TABLE_FORMS.into_iter().chain(BUCKET_FORMS).chain(RAW_FORMS) {
        let call = example(form);
        let line = format!("explain {call}");
        if !PEER_CALLS.contains(&form.split(' ').next().unwrap()) {
            let fault = parse(&line).unwrap_err();
            assert!(fault.contains("cannot be explained, only update_node_status, "), "{fault}");
            continue;
        }
        let Line::Table { call: itself, .. } = read(&call) else { panic!() };
        for (line, short, room) in [
            (line.clone(), false, None),
            (format!("! {line} out=2048"), true, Some(2048)),
            (format!("{line} out=0"), false, Some(0)),
        ] {
            let Line::Table { short: given, call: TableCall::Explain { call, room: asked } } = read(&line) else {
                panic!()
            };
            assert_eq!((*call, given, asked), (itself.clone(), short, room));
            assert_eq!(read(&line).answer_lines(), 2, "a dump follows");
        }
        for bad in [
            format!("explain ! {call}"),
            format!("{line} out=1 out=1"),
            format!("{line} room=1"),
            format!("explain {line}"),
        ] {
            assert!(parse(&bad).is_err(), "{bad}");
        }
        let fault = parse(&format!("{line} 1")).unwrap_err();
        assert!(fault.ends_with(&format!("its form is: explain CALL [out=K], with the CALL {form}")), "{fault}");
    }
    assert!(parse("explain").unwrap_err().ends_with("too few words; its form is: explain CALL [out=K]"));
}

/// The hours behind the two calls that insert, and behind their explanations: four words or none, with any number that two bytes hold.
#[test]
fn hours() {
    let session = |line: &str| {
        let Line::Table { call, .. } = read(line) else { panic!() };
        let call = match call {
            TableCall::Explain { call, .. } => *call,
            call => call,
        };
        match call {
            TableCall::InsertOrUpdate { session, .. } | TableCall::AbsentInsert { session, .. } => session,
            other => panic!("{other:?}"),
        }
    };
    let mut dates = SessionCodes { date: [2024, 2, 29], minute: 1439, ..SessionCodes::default() };
    for name in ["insert_or_update", "absent_insert"] {
        for call in [format!("{name} 1 :4 1:10.0.0.1:7 1 0"), format!("! explain {name} 1 :4 1:10.0.0.1:7 1 0")] {
            assert_eq!(session(&call), SessionCodes::default());
            assert_eq!(session(&format!("{call} - - 0-0-0 0")), SessionCodes::default());
            for (words, windows, closed) in [
                ("- -", vec![], vec![]),
                ("1:540:1020,5:540:1440 -", vec![1, 540, 1020, 5, 540, 1440], vec![]),
                ("- 2024-12-25,2399-12-31", vec![], vec![2024, 12, 25, 2399, 12, 31]),
                ("6:0:1440+ -+", vec![6, 0, 1440, 0], vec![0]),
                ("-+ 0-0-0+", vec![0], vec![0, 0, 0, 0]),
                ("65535:65535:65535 65535-0-65535", vec![65535; 3], vec![65535, 0, 65535]),
            ] {
                (dates.windows, dates.closed) = (windows, closed);
                assert_eq!(session(&format!("{call} {words} 2024-2-29 1439")), dates, "{words}");
            }
            for count in [33, 65, 1000] {
                let many = |entry: &str| vec![entry; count].join(",");
                let session = session(&format!("{call} {} {} 0-0-0 0", many("1:2:3"), many("4-5-6")));
                assert_eq!((session.windows, session.closed), ([1, 2, 3].repeat(count), [4, 5, 6].repeat(count)));
            }
            for words in [
                "-",
                "- -",
                "- - 0-0-0",
                "- - 0-0-0 0 0",
                "- - 0-0-0 -",
                "- - 0-0 0",
                "- - 0-0-0-0 0",
                "- - - 0",
                "- - 0-0-0+ 0",
                "- - 0-0-65536 0",
                "- - 0-0-0 65536",
                "+ - 0-0-0 0",
                "-++ - 0-0-0 0",
                "1:2 - 0-0-0 0",
                "1:2:3: - 0-0-0 0",
                "1-2-3 - 0-0-0 0",
                "1:2:3, - 0-0-0 0",
                "1:2:3,- - 0-0-0 0",
                "1:2:3+,1:2:3 - 0-0-0 0",
                "1:2:65536 - 0-0-0 0",
                "1:2:-3 - 0-0-0 0",
                "- 1:2:3 0-0-0 0",
                "- 0-0-0, 0-0-0 0",
                "- 0-0-65536 0-0-0 0",
                "- -- 0-0-0 0",
            ] {
                assert!(parse(&format!("{call} {words}")).is_err(), "{words}");
            }
        }
        let Line::Table { call: TableCall::Explain { room, .. }, .. } =
            read(&format!("explain {name} 1 :4 1:10.0.0.1:7 1 0 1:0:1 - 2000-1-1 0 out=2048"))
        else {
            panic!()
        };
        assert_eq!(room, Some(2048));
        assert!(parse(&format!("{name} 1 :4 1:10.0.0.1:7 1 0 out=2048")).is_err());
        assert!(parse(&format!("explain {name} 1 :4 1:10.0.0.1:7 1 0 out=2048 1:0:1 - 2000-1-1 0")).is_err());
    }
    for call in ["b_insert 1 :4 1:10.0.0.1:7 1 0", "update_node 1 :4 1:10.0.0.1:7 1", "remove 1 :4"] {
        read(call);
        assert!(parse(&format!("{call} - - 0-0-0 0")).is_err(), "{call}");
    }
}

/// A table's bytes are read digit by digit and written alike.
#[test]
fn written_tables() {
    for (line, short, expected) in
        [("write", false, None), ("! write out=0", true, Some(0)), ("write out=256", false, Some(256))]
    {
        let Line::Table { short: given, call: TableCall::Write { room } } = read(line) else { panic!() };
        assert_eq!((given, room), (short, expected));
        assert_eq!(read(line).answer_lines(), 2, "a dump follows");
    }
    for (word, expected) in [("-", vec![]), ("00", vec![0]), ("0aff10", vec![10, 255, 16])] {
        let Line::Table { short: false, call: TableCall::Read { bytes } } = read(&format!("read {word}")) else {
            panic!()
        };
        assert_eq!(bytes, expected);
        let mut text = Vec::new();
        text.hexadecimal(&bytes);
        assert_eq!(text, word.trim_start_matches('-').as_bytes());
    }
    for line in [
        "write 1",
        "write room=1",
        "read",
        "read 0",
        "read 0A",
        "read 0é",
        "read :1",
        "read 00 00",
        "read 00 out=1",
        "read --",
    ] {
        assert!(parse(line).is_err(), "{line}");
    }
    assert!(
        parse("read 0")
            .unwrap_err()
            .ends_with("HEX has 1 digits, which is no whole number of bytes; its form is: read HEX")
    );
    assert!(
        parse("read 00A0")
            .unwrap_err()
            .ends_with("'A', character 3 of HEX, is no small hexadecimal digit; its form is: read HEX")
    );
    assert!(parse("write 1").unwrap_err().ends_with("not out=K: \"1\"; its form is: write [out=K]"));
}

#[test]
fn lines_that_are_passed_over() {
    assert!(parse("").unwrap().is_none());
    assert!(parse("# new :0 1 1 1 1").unwrap().is_none());
    assert!(parse(" ").is_err());
}

#[test]
fn words() {
    let Line::Table { short: false, call: TableCall::UpdateNode { now, key, value, state } } =
        read("update_node 18446744073709551615 :1fE 2:10.0.255.1:65536 3")
    else {
        panic!()
    };
    let mut expected = [0; 32];
    expected[30..].copy_from_slice(&[0x01, 0xfe]);
    assert_eq!((now, key, state), (u64::MAX, expected.to_vec(), 3));
    assert_eq!(value, ValueCodes { flag: 2, octets: [10, 0, 255, 1], slot: 65536 });
    let Line::Table { short: true, call: TableCall::Remove { key, .. } } = read("! remove 0 0aff") else { panic!() };
    assert_eq!(key, [0x0a, 0xff]);
    let Line::Table { call: TableCall::List { listing, n: 0, room: Some(9), .. }, .. } =
        read("nodes_by_distances 0 3,257,3 0 out=9")
    else {
        panic!()
    };
    assert!(matches!(listing, Listing::NodesByDistances(distances) if distances == [3, 257, 3]));
    let Line::Table { call: TableCall::List { listing, room: None, .. }, .. } =
        read("closest_values_predicate 0 :1 3:7 2")
    else {
        panic!()
    };
    assert!(matches!(listing, Listing::ClosestValuesPredicate(_, Predicate::Slot(7))));
    let Line::Bucket { short: true, call: BucketCall::New { timeout: 1, max_incoming: 2, filter: 3 } } =
        read("! b_new 1 2 3")
    else {
        panic!()
    };
    let Line::Raw(Raw::FirstConnected(Which::Itself, None)) = read("raw_fcp b -") else { panic!() };
}

/// The six endings of a raw record, with their codes in storage, and the words of a dump.
#[test]
fn records() {
    let evicted = node(4, 1);
    let slot = evicted.value.slot;
    for (text, word, code) in [
        ("-", "^-", 0),
        (&format!(":4 1:10.0.0.4:{slot} 1 1")[..], &format!("^{:0>64}/1:10.0.0.4:{slot}/1/1", 4)[..], 1),
        ("dropped_place_0", "!dropped_place_0", 2),
        ("dropped_bucket_filter", "!dropped_bucket_filter", 3),
        ("dropped_incoming_limit", "!dropped_incoming_limit", 4),
        ("cleared_inserted", "!cleared_inserted", 5),
        ("cleared_confirmed", "!cleared_confirmed", 6),
    ] {
        let Line::Raw(Raw::Record(record)) = read(&format!("raw_record :7 {text}")) else { panic!() };
        let bytes = record_bytes(&record);
        assert_eq!((bytes[31], bytes[KEY]), (7, code));
        assert_eq!(record_in(&bytes), record);
        let node = if code == 1 { record_bytes(&placed(0, Some(evicted)))[KEY + 1..].to_vec() } else { vec![0; NODE] };
        assert_eq!(bytes[KEY + 1..], node, "zero but for an evicted node");
        assert_eq!(self::text(|out| out.record(&record)), format!("{:0>64}{word}", 7));
        assert!(parse(&format!("raw_record :7 {text} 0")).is_err());
    }
    for bad in ["dropped", "2", "!dropped_place_0", "cleared_confirmed ", "- -", "dropped_place_0 -"] {
        assert!(parse(&format!("raw_record :7 {bad}")).is_err(), "{bad}");
    }
    let codes = [2, 3, 4, 5, 6].map(|code| Unplaced::of_code(code).unwrap() as u8);
    assert_eq!(codes, [2, 3, 4, 5, 6]);
    assert!([0, 1, 7, 255].into_iter().all(|code| Unplaced::of_code(code).is_none()));
}

/// Question 2 of records: an ending above 6, bytes behind one without an evicted node, the codes of an evicted node.
#[test]
fn records_that_are_malformed() {
    let table = |kind: u8, change: Option<(usize, u8)>| {
        let mut table = TableBytes::new(&[0; 32], &Settings::default());
        let evicted = (kind == 1).then(|| node(4, 1));
        table.push_record(&placed(7, evicted)).unwrap();
        let record = bucket_at(0) - RECORDS * RECORD;
        table.0[record + KEY] = kind;
        if let Some((at, byte)) = change {
            table.0[record + at] = byte;
        }
        table
    };
    for kind in 0..=255 {
        assert_eq!(table(kind, None).formed(), kind <= 6, "{kind}");
        for at in [KEY + 1, RECORD - 1] {
            assert_eq!(table(kind, Some((at, 1))).formed(), kind == 1, "{kind} {at}");
        }
    }
    for at in [KEY + 1 + KEY, KEY + 1 + KEY + 1, KEY + 1 + KEY + 2] {
        assert!(!table(1, Some((at, 2))).formed(), "a code of the evicted node at {at}");
    }
    assert!(table(1, Some((KEY + 1 + KEY, 0))).formed());
    let queue = |table: TableBytes| text(|out| table.dump(out)).split_once("queue=").unwrap().1.to_string();
    assert_eq!(queue(table(7, None)), format!("[{:0>64}!7]\n", 7));
    assert_eq!(queue(table(255, Some((KEY + 1, 1)))), format!("[{:0>64}!255]\n", 7));
    assert_eq!(queue(table(6, Some((KEY + 1, 1)))), format!("[{:0>64}!cleared_confirmed]\n", 7));
    assert_eq!(queue(table(0, Some((KEY + 1, 1)))), format!("[{:0>64}^-]\n", 7));
}

/// A record of a pending that was placed.
fn placed(last: u8, evicted: Option<NodeCodes>) -> RecordCodes {
    let mut key = [0; 32];
    key[31] = last;
    RecordCodes { key, ending: EndingCodes::Placed(evicted) }
}

/// A slot, in a value and in predicate 3, is any number up to 2^64 - 1; over it the line is a bad one.
#[test]
fn slots() {
    for slot in [0, 1, 65535, 65536, (1 << 32) - 1, 1 << 32, 1 << 63, Slot::MAX] {
        let value = ValueCodes { flag: 1, octets: [10, 0, 0, 1], slot };
        assert_eq!(text(|out| out.value(&value)), format!("1:10.0.0.1:{slot}"));
        let line = read(&format!("b_update_value :1 1:10.0.0.1:{slot}"));
        assert!(
            matches!(line, Line::Bucket { call: BucketCall::UpdateValue { value: read, .. }, .. } if read == value)
        );
        let line = read(&format!("raw_record :1 :2 1:10.0.0.1:{slot} 0 0"));
        assert!(
            matches!(line, Line::Raw(Raw::Record(RecordCodes { ending: EndingCodes::Placed(Some(node)), .. })) if node.value == value)
        );
        let line = read(&format!("closest_values_predicate 0 :1 3:{slot} 2"));
        let Line::Table { call: TableCall::List { listing, .. }, .. } = line else { panic!() };
        assert!(matches!(listing, Listing::ClosestValuesPredicate(_, Predicate::Slot(read)) if read == slot));
    }
    for over in ["18446744073709551616", "18446744073709617151", "340282366920938463463374607431768211456", "-1", ""] {
        for line in [
            format!("update_node 0 :1 1:10.0.0.1:{over} 1"),
            format!("insert_or_update 0 :1 1:10.0.0.1:{over} 1 0"),
            format!("b_insert 0 :1 1:10.0.0.1:{over} 1 0"),
            format!("raw_node 0 :1 1:10.0.0.1:{over} 1 0"),
            format!("closest_values_predicate 0 :1 3:{over} 2"),
        ] {
            assert!(parse(&line).is_err(), "{line}");
        }
    }
}

fn node(last: u8, state: u8) -> NodeCodes {
    let mut key = [0; 32];
    key[31] = last;
    let value = ValueCodes { flag: 1, octets: [10, 0, 0, last], slot: 0x0102_0304_0506_0708 };
    NodeCodes { key, state, direction: 1, value }
}

fn text(write: impl FnOnce(&mut Vec<u8>)) -> String {
    let mut out = Vec::new();
    write(&mut out);
    String::from_utf8(out).unwrap()
}

/// Sizes and places, written out.
#[test]
fn places_of_the_bytes() {
    assert_eq!((VALUE, NODE, RECORD, ALONE, STORAGE), (13, 47, 80, 820, 212528));
    let (settings_end, records_at, stored_bucket) = (44, 48, 810);
    let settings = Settings { timeout: 0x0102030405060708, max_incoming: 9, table_filter: 1, bucket_filter: 1 };
    let mut table = TableBytes::new(&[7; 32], &settings);
    assert_eq!(table.0[..32], [7; 32]);
    assert_eq!(table.0[32..settings_end], [1, 2, 3, 4, 5, 6, 7, 8, 9, 1, 1, 0]);
    table.bucket_mut(3).push_node(&node(4, 0)).unwrap();
    table.bucket_mut(3).push_node(&node(5, 1)).unwrap();
    let bucket = records_at + RECORDS * RECORD + 3 * stored_bucket;
    assert_eq!(bucket_at(3), bucket);
    assert_eq!(table.0[bucket..bucket + 2], [2, 0], "a node leaves the first connected place");
    let second = [5, 1, 1, 1, 10, 0, 0, 5, 1, 2, 3, 4, 5, 6, 7, 8];
    assert_eq!(table.0[bucket + 2 + NODE + 31..bucket + 2 + 2 * NODE], second);
    table.bucket_mut(3).set_first_connected(Some(1));
    assert_eq!(table.0[bucket..bucket + 2], [2, 1]);
    table.bucket_mut(3).set_first_connected(None);
    assert_eq!(table.0[bucket..bucket + 2], [2, 2], "no place is the count");
    table.bucket_mut(3).set_pending(&node(6, 1), 0x0f00);
    let pending = bucket + 2 + 16 * NODE;
    assert_eq!((table.0[pending], table.0[pending + 1 + 31]), (1, 6));
    assert_eq!(table.0[pending + 1 + NODE..bucket + stored_bucket], [0, 0, 0, 0, 0, 0, 0x0f, 0]);
    table.push_record(&placed(1, None)).unwrap();
    table.push_record(&placed(2, Some(node(4, 0)))).unwrap();
    assert_eq!(table.0[settings_end - 1..records_at], [2, 0, 0, 0, 0]);
    let (first, second) = (records_at, records_at + RECORD);
    assert_eq!((table.0[first + KEY], table.0[second + KEY]), (0, 1));
    assert_eq!(table.0[second + KEY + 1..second + RECORD], table.0[bucket + 2..bucket + 2 + NODE]);
}

/// The padding before the records is zero, and question 2 asks for it.
#[test]
fn padding() {
    let mut table = TableBytes::new(&[0; 32], &Settings::default());
    assert!(table.formed());
    for at in 44..48 {
        table.set_byte(at, 1).unwrap();
        assert!(!table.formed(), "byte {at}");
        table.set_byte(at, 0).unwrap();
        assert!(table.formed());
    }
}

/// Every byte of a slot is a byte of the value, and is read back.
#[test]
fn slots_in_bytes() {
    for i in 0..8 {
        let mut table = TableBytes::new(&[0; 32], &Settings::default());
        let mut node = node(4, 0);
        node.value.slot = 0xa5 << (8 * i);
        table.bucket_mut(2).push_node(&node).unwrap();
        let at = bucket_at(2) + 2 + NODE - 1 - i;
        assert_eq!(table.0[at], 0xa5);
        assert_eq!(table.bucket(2).nodes().next(), Some(node));
        table.0[at] = 0;
        assert_eq!(value_in(&table.0[bucket_at(2) + 2 + NODE - VALUE..]).slot, 0);
    }
}

#[test]
fn dumps() {
    let settings = Settings { timeout: 5, max_incoming: 1, table_filter: 0, bucket_filter: 1 };
    let mut table = TableBytes::new(&[0; 32], &settings);
    let zeros = "0".repeat(64);
    assert_eq!(text(|out| table.dump(out)), format!("dump local={zeros} timeout=5 max=1 tf=0 bf=1 queue=[]\n"));
    table.bucket_mut(2).push_node(&node(4, 0)).unwrap();
    table.bucket_mut(2).push_node(&node(5, 1)).unwrap();
    table.bucket_mut(2).set_first_connected(Some(1));
    table.bucket_mut(4).set_pending(&node(17, 1), 9);
    table.push_record(&placed(0, Some(node(5, 0)))).unwrap();
    table.push_record(&placed(0, None)).unwrap();
    table.push_record(&RecordCodes { key: [0; 32], ending: Unplaced::FirstConfirmed.into() }).unwrap();
    let key = |last: &str| format!("{}{last}", "0".repeat(62));
    let (four, five, seventeen) = (key("04"), key("05"), key("11"));
    let slot = node(4, 0).value.slot;
    assert_eq!(
        text(|out| table.dump(out)),
        format!(
            "dump local={zeros} timeout=5 max=1 tf=0 bf=1 \
             b2{{fcp=1 nodes=[{four}/1:10.0.0.4:{slot}/0/1 {five}/1:10.0.0.5:{slot}/1/1] pending=-}} \
             b4{{fcp=- nodes=[] pending={seventeen}/1:10.0.0.17:{slot}/1/1@9}} \
             queue=[{zeros}^{five}/1:10.0.0.5:{slot}/0/1 {zeros}^- {zeros}!cleared_confirmed]\n"
        )
    );
    let mut bucket = AloneBytes::new(&settings);
    assert_eq!(bucket.0[810..], [0, 0, 0, 0, 0, 0, 0, 5, 1, 1]);
    bucket.bucket_mut().push_node(&node(4, 1)).unwrap();
    assert_eq!(
        text(|out| bucket.dump(out)),
        format!("bdump timeout=5 max=1 bf=1 {{fcp=0 nodes=[{four}/1:10.0.0.4:{slot}/1/1] pending=-}}\n")
    );
}

/// At most 16 nodes and 64 records are shown, and no more are written.
#[test]
fn full() {
    let mut table = TableBytes::new(&[0; 32], &Settings::default());
    for i in 0..16 {
        table.bucket_mut(255).push_node(&node(i, 0)).unwrap();
    }
    assert!(table.bucket_mut(255).push_node(&node(16, 0)).is_err());
    for _ in 0..64 {
        table.push_record(&placed(0, None)).unwrap();
    }
    assert!(table.push_record(&placed(0, None)).is_err());
    table.set_byte(bucket_at(255) as u64, 255).unwrap();
    table.set_byte(43, 255).unwrap();
    let dump = text(|out| table.dump(out));
    assert_eq!((dump.matches("/0:").count() + dump.matches("/1:").count(), dump.matches('^').count()), (16, 64));
    assert!(table.set_byte(STORAGE as u64 - 1, 1).is_ok() && table.set_byte(STORAGE as u64, 1).is_err());
}

#[test]
fn numbers() {
    for number in [0, 9, 10, 4096, u64::MAX] {
        assert_eq!(text(|out| out.number(number)), number.to_string());
    }
}
