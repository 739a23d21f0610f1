//! The tool answers the twelve positions and the questions of document 01, explains calls, ends pendings, reads no bucket that it need not,
//! admits in session hours, refuses bad lines, and explains itself.

use calls::layout;

#[path = "../../compare/tests/programs/mod.rs"]
mod programs;

const KBTABLE: &str = env!("CARGO_BIN_EXE_kbtable");

fn answers(arguments: &[&str], text: &str) -> String {
    let run = programs::run(KBTABLE, arguments, text);
    assert!(run.status.success(), "{}", String::from_utf8_lossy(&run.stderr));
    String::from_utf8(run.stdout).unwrap()
}

#[test]
fn twelve_positions() {
    programs::answers_as_written(KBTABLE, "rows.txt");
}

#[test]
fn questions() {
    programs::answers_as_written(KBTABLE, "questions.txt");
}

#[test]
fn explanations() {
    programs::answers_as_written(KBTABLE, "explain.txt");
}

/// Tables written and read, and what is refused.
#[test]
fn written_and_read() {
    programs::answers_as_written(KBTABLE, "saved.txt");
}

/// Each ending of a pending.
#[test]
fn endings() {
    programs::answers_as_written(KBTABLE, "endings.txt");
}

/// Admission in session hours.
#[test]
fn hours() {
    programs::answers_as_written(KBTABLE, "hours.txt");
}

/// Malformed buckets, those that a call reads and others.
#[test]
fn malformed_buckets() {
    programs::answers_as_written(KBTABLE, "../../host/tests/malformed.txt");
}

/// A record whose ending is none of the six is shown by its number, and the table is refused.
#[test]
fn a_malformed_ending() {
    let kind = layout::bucket_at(0) - layout::RECORDS * layout::RECORD + layout::KEY;
    let lines = format!(
        "raw_record :1 -\nraw_byte {kind} 7\ndump\ntake_applied_pending\nraw_byte {kind} 6\ntake_applied_pending\n"
    );
    let dump = |ending| format!("dump local={:0>64} timeout=0 max=0 tf=0 bf=0 queue=[{:0>64}!{ending}]", 0, 1);
    let taken = format!("Some({:0>64}!cleared_confirmed)", 1);
    assert_eq!(answers(&[], &lines).lines().collect::<Vec<_>>(), ["Raw", "Raw", &dump(7), "Refused 2", "Raw", &taken]);
}

/// Each outcome of each call and of each explanation, by the fewest lines that reach it, as the Rust answers them.
#[test]
fn outcomes() {
    programs::answers_as_written(KBTABLE, "../../host/tests/outcomes.txt");
}

#[test]
fn examples() {
    for file in ["slash24", "pending", "box_swap", "session"] {
        programs::answers_as_written(KBTABLE, &format!("../../host/examples/{file}.calls"));
    }
}

#[test]
fn slots() {
    programs::tells_slots_apart(KBTABLE);
}

#[test]
fn bad_lines() {
    programs::refuses_bad_lines(KBTABLE);
}

#[test]
fn a_message_says_what_is_wrong() {
    let run = programs::run(KBTABLE, &[], "new :0 10 16 0 0\nremove :4\n");
    assert_eq!(run.status.code(), Some(1));
    assert_eq!(String::from_utf8(run.stdout).unwrap(), "New\n");
    assert_eq!(
        String::from_utf8(run.stderr).unwrap(),
        "kbtable: line 2: \"remove :4\": no number: \":4\"; its form is: remove NOW KEY\n"
    );
    let run = programs::run(KBTABLE, &["--dmup"], "dump\n");
    assert_eq!(run.status.code(), Some(1));
    assert!(run.stdout.is_empty());
    assert!(String::from_utf8(run.stderr).unwrap().contains("\"--dmup\" is no option; see kbtable --help"));
}

/// The commands of --help run: a table is carried from one to the other, and the example finds the node.
#[test]
fn help() {
    let help = answers(&["--help"], "");
    for name in [
        "insert_or_update",
        "closest_values_predicate",
        "[WINDOWS CLOSED DATE MINUTE]",
        "explain CALL",
        "read HEX",
        "b_apply_pending",
        "raw_record",
        "--dump",
        "out=K",
    ] {
        assert!(help.contains(name), "{name}");
    }
    let bin = std::path::Path::new(KBTABLE).parent().unwrap();
    let path = format!("{}:{}", bin.display(), std::env::var("PATH").unwrap());
    let folder = std::env::temp_dir().join(format!("kbtable-help-{}", std::process::id()));
    std::fs::create_dir_all(&folder).unwrap();
    std::fs::write(folder.join("old.calls"), "new :0 60000 16 1 1\ninsert_or_update 0 :4 1:10.0.0.1:7 1 0\nwrite\n")
        .unwrap();
    let commands =
        help.lines().filter(|line| line.contains("kbtable <") || line.ends_with("| kbtable")).map(|command| {
            let run = std::process::Command::new("sh")
                .args(["-c", command])
                .env("PATH", &path)
                .current_dir(&folder)
                .output()
                .unwrap();
            String::from_utf8(run.stdout).unwrap()
        });
    let answers: Vec<String> = commands.collect();
    std::fs::remove_dir_all(&folder).unwrap();
    assert_eq!(answers, ["".to_string(), "New\nRead\n".to_string(), format!("New\nInserted\nList 1 {:0>64}\n", 4)]);
}

/// The tool's version and the linked library's.
#[test]
fn version() {
    let version = env!("CARGO_PKG_VERSION");
    assert_eq!(answers(&["--version"], ""), format!("kbtable {version}\nlibkbuckets {version}\n"));
}

/// A dump follows each call on the table, bdump each b_ call; nothing follows a raw line or a dump.
#[test]
fn dumps() {
    let answers = answers(
        &["--dump"],
        "raw_node b :1 0:0.0.0.0:1 0 0\nraw_fcp b -\ndump\nb_remove 0 :1\nbdump\nentry 0 :0\n! b_new 1 1 1\n! new :1 1 1 1 1\nexplain remove 0 :0\nexplain remove 0 :0 out=9\nwrite out=9\nread -\n",
    );
    let dump = format!("dump local={:0>64} timeout=0 max=0 tf=0 bf=0 queue=[]", 0);
    let bdump = "bdump timeout=0 max=0 bf=0 {fcp=- nodes=[] pending=-}";
    let expected =
        ["Raw", "Raw", &dump, "true", bdump, bdump, "SelfEntry", &dump, "Refused 1", bdump, "Refused 1", &dump];
    let explained = ["false local key", &dump, "Refused 6", &dump, "Refused 6", &dump, "Refused 9", &dump];
    assert_eq!(answers.lines().collect::<Vec<_>>(), [&expected[..], &explained[..]].concat());
}

/// An answer comes before the next line is read.
#[test]
fn answers_at_once() {
    use std::io::{BufRead, BufReader, Write};
    use std::process::{Command, Stdio};
    let mut child = Command::new(KBTABLE).stdin(Stdio::piped()).stdout(Stdio::piped()).spawn().unwrap();
    let mut input = child.stdin.take().unwrap();
    let mut output = BufReader::new(child.stdout.take().unwrap()).lines();
    for (call, answer) in [("new :0 1 1 0 0", "New"), ("entry 0 :0", "SelfEntry")] {
        writeln!(input, "{call}").unwrap();
        assert_eq!(output.next().unwrap().unwrap(), answer);
    }
    drop(input);
    assert!(child.wait().unwrap().success());
}
