//! What every program that answers calls must do: the files of calls with their answers, and bad lines.

use calls::layout::STORAGE;
use calls::text::Slot;
use std::io::Write;
use std::path::Path;
use std::process::{Command, Output, Stdio};

/// Runs a program on a text of calls.
pub fn run(program: &str, arguments: &[&str], text: &str) -> Output {
    let mut command = Command::new(program);
    command.args(arguments).stdin(Stdio::piped()).stdout(Stdio::piped()).stderr(Stdio::piped());
    let mut child = command.spawn().unwrap();
    let mut input = child.stdin.take().unwrap();
    let text = text.to_string();
    // A program that ends at a bad line stops reading.
    let feeding = std::thread::spawn(move || drop(input.write_all(text.as_bytes())));
    let output = child.wait_with_output().unwrap();
    feeding.join().unwrap();
    output
}

/// Runs a program on a file of calls in which '#= ANSWER' follows each call, and holds the answers against it.
pub fn answers_as_written(program: &str, file: &str) {
    let path = Path::new(env!("CARGO_MANIFEST_DIR")).join("../compare/tests").join(file);
    let text = std::fs::read_to_string(&path).unwrap();
    let calls: Vec<&str> = text.lines().filter(|line| !line.is_empty() && !line.starts_with('#')).collect();
    let expected: Vec<&str> = text.lines().filter_map(|line| line.strip_prefix("#= ")).collect();
    let run = run(program, &[], &text);
    assert!(run.status.success(), "{}", String::from_utf8_lossy(&run.stderr));
    let answers = String::from_utf8(run.stdout).unwrap();
    let answers: Vec<&str> = answers.lines().collect();
    assert_eq!(calls.len(), expected.len(), "each call has an expected answer");
    assert_eq!(calls.len(), answers.len(), "each call has an answer");
    for ((call, expected), answer) in calls.iter().zip(expected).zip(answers) {
        assert_eq!(answer, expected, "{call}");
    }
}

/// Lines that are no call, and raw lines that do not fit.
const BAD_LINES: [&str; 79] = [
    "no_such_call",
    "entry 0",
    "entry 0 :1 2",
    "entry  0 :1",
    "entry 0 :1 ",
    "entry -1 :1",
    "entry +1 :1",
    "entry 18446744073709551616 :1",
    "entry 0 :g",
    "entry 0 123",
    "entry 0 :0000000000000000000000000000000000000000000000000000000000000001",
    "new :0 10 256 0 0",
    "update_node 0 :1 1:1.2.3:4 0",
    "update_node 0 :1 1:1.2.3.256:4 0",
    "update_node 0 :1 1:1.2.3.4:18446744073709551616 0",
    "b_update_value :1 1:1.2.3.4:18446744073709617151",
    "insert_or_update 0 :1 0:0.0.0.0:1 1 0 -",
    "insert_or_update 0 :1 0:0.0.0.0:1 1 0 - -",
    "insert_or_update 0 :1 0:0.0.0.0:1 1 0 - - 2026-11-16",
    "insert_or_update 0 :1 0:0.0.0.0:1 1 0 - - 2026-11-16 0 0",
    "insert_or_update 0 :1 0:0.0.0.0:1 1 0 - - 2026-11 0",
    "insert_or_update 0 :1 0:0.0.0.0:1 1 0 - - 2026:11:16 0",
    "insert_or_update 0 :1 0:0.0.0.0:1 1 0 - - 2026-11-16+ 0",
    "insert_or_update 0 :1 0:0.0.0.0:1 1 0 - - 2026-11-16 65536",
    "absent_insert 0 :1 0:0.0.0.0:1 1 0 - - 65536-11-16 0",
    "absent_insert 0 :1 0:0.0.0.0:1 1 0 1:0:65536 - 2026-11-16 0",
    "absent_insert 0 :1 0:0.0.0.0:1 1 0 1:0 - 2026-11-16 0",
    "absent_insert 0 :1 0:0.0.0.0:1 1 0 1-0-1 - 2026-11-16 0",
    "absent_insert 0 :1 0:0.0.0.0:1 1 0 1:0:1, - 2026-11-16 0",
    "absent_insert 0 :1 0:0.0.0.0:1 1 0 1:0:1++ - 2026-11-16 0",
    "absent_insert 0 :1 0:0.0.0.0:1 1 0 - 2026-11-65536 2026-11-16 0",
    "absent_insert 0 :1 0:0.0.0.0:1 1 0 - + 2026-11-16 0",
    "explain absent_insert 0 :1 0:0.0.0.0:1 1 0 - out=2048",
    "update_node 0 :1 0:0.0.0.0:1 1 - - 2026-11-16 0",
    "b_insert 0 :1 0:0.0.0.0:1 1 0 - - 2026-11-16 0",
    "iter 0 1 room=1",
    "entry 0 :1 out=1",
    "nodes_by_distances 0 1,,2 1",
    "closest_values_predicate 0 :1 2 1",
    "closest_values_predicate 0 :1 3:18446744073709551616 1",
    "! dump",
    "explain",
    "! explain",
    "explain dump",
    "explain entry 0 :1",
    "explain new :0 10 16 0 0",
    "explain iter 0 1",
    "explain take_applied_pending",
    "explain b_remove 0 :1",
    "explain explain remove 0 :1",
    "explain ! remove 0 :1",
    "explain remove 0",
    "explain remove 0 :1 2048",
    "explain remove 0 :1 out=-1",
    "explain remove 0 :1 out=2048 ",
    "explain  remove 0 :1",
    "explain write",
    "explain read -",
    "write 1",
    "write out=",
    "write out=1 out=1",
    "read",
    "read 0",
    "read 0A",
    "read 0g",
    "read :0",
    "read 00 00",
    "read - out=1",
    "raw_node 256 :1 0:0.0.0.0:0 0 0",
    "raw_node 0 01 0:0.0.0.0:0 0 0",
    "raw_fcp 0 256",
    "raw_record :1",
    "raw_record 01 cleared_inserted",
    "raw_record :1 dropped",
    "raw_record :1 2",
    "raw_record :1 cleared_inserted -",
    "raw_record :1 - cleared_inserted",
    "raw_node 0 :1 1:1.2.3.4:18446744073709551616 0 0",
    "raw_byte 0 256",
];

/// A bad line ends the program with a message that names it; what came before stands.
pub fn refuses_bad_lines(program: &str) {
    let past = format!("raw_byte {STORAGE} 1");
    for line in BAD_LINES.into_iter().chain([&past[..]]) {
        let run = run(program, &[], &format!("# a note\n\ntake_applied_pending\n{line}\nentry 0 :0\n"));
        assert!(!run.status.success(), "{line}");
        assert_eq!(String::from_utf8_lossy(&run.stdout), "None\n", "{line}");
        assert!(String::from_utf8_lossy(&run.stderr).contains("line 4: "), "{line}");
    }
}

/// Slots that differ in one byte alone, at one address, are told apart: as values of one key, by both filters, by the test that skips the table
/// filter for the value held already, and by "slot equals".
pub fn tells_slots_apart(program: &str) {
    let key = |n: u64| format!("{n:0>64x}");
    for slot in [0, 1 << 16, 1 << 32, 1 << 63, Slot::MAX] {
        for byte in 0..size_of::<Slot>() {
            let twin = slot ^ 0x80 << (8 * byte);
            let (held, other) = (format!("1:10.0.0.1:{slot}"), format!("1:10.0.0.1:{twin}"));
            let mut lines = vec![
                ("new :0 10 16 0 0".to_string(), "New".to_string()),
                (format!("insert_or_update 0 :4 {held} 1 0"), "Inserted".to_string()),
                (format!("insert_or_update 0 :5 {other} 1 0"), "Inserted".to_string()),
                (
                    format!("closest_values_predicate 0 :4 3:{slot} 2"),
                    format!("List 2 {}/{held}/1 {}/{other}/0", key(4), key(5)),
                ),
                (
                    format!("closest_values_predicate 0 :4 3:{twin} 2"),
                    format!("List 2 {}/{held}/0 {}/{other}/1", key(4), key(5)),
                ),
                (format!("update_node 0 :4 {held} 2"), "NotModified".to_string()),
                (format!("update_node 0 :4 {other} 2"), "Updated".to_string()),
                (format!("update_node 0 :4 {other} 2"), "NotModified".to_string()),
                (format!("insert_or_update 0 :4 {held} 1 0"), "ValueUpdated".to_string()),
                (format!("raw_record :1 :2 {held} 0 0"), "Raw".to_string()),
                ("take_applied_pending".to_string(), format!("Some({}^{}/{held}/0/0)", key(1), key(2))),
                ("new :0 10 16 1 0".to_string(), "New".to_string()),
                (format!("absent_insert 0 :20 {held} 0 0"), "Inserted".to_string()),
            ];
            // Twelve more of the /24, all of the other value: the table filter is skipped for the value held already, and only for it.
            lines.extend((0x40..0x4c).map(|n| (format!("absent_insert 0 :{n:x} {other} 0 0"), "Inserted".to_string())));
            lines.extend([
                (format!("update_node 0 :20 {held} 2"), "NotModified".to_string()),
                (format!("insert_or_update 0 :80 {held} 1 0"), "Failed(TableFilter)".to_string()),
                (format!("insert_or_update 0 :80 {other} 1 0"), "Inserted".to_string()),
                (format!("update_node 0 :40 {held} 2"), "Failed(TableFilter)".to_string()),
                ("b_new 10 16 1".to_string(), "New".to_string()),
                (format!("b_insert 0 :1 {held} 0 0"), "Inserted".to_string()),
                (format!("b_insert 0 :2 {other} 0 0"), "Inserted".to_string()),
                (format!("b_insert 0 :3 {held} 0 0"), "Inserted".to_string()),
                (format!("b_insert 0 :4 {other} 0 0"), "FailedFilter".to_string()),
            ]);
            let text: String = lines.iter().map(|(line, _)| format!("{line}\n")).collect();
            let run = run(program, &[], &text);
            assert!(run.status.success(), "{}", String::from_utf8_lossy(&run.stderr));
            let answers = String::from_utf8(run.stdout).unwrap();
            assert_eq!(answers.lines().count(), lines.len());
            for ((line, expected), answer) in lines.iter().zip(answers.lines()) {
                assert_eq!(answer, expected, "byte {byte} of {slot}: {line}");
            }
        }
    }
}
